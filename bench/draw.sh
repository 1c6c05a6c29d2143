#!/usr/bin/env bash
# Times the built program `draw` on logs of 1,000,000 lines: rounds of 8 ranks that exchange their borders, and messages among 1,000
# ranks under 1,000 labels, each taken. RUNS may be given; the best of the runs counts, in milliseconds of processor time.
top=$(cd "$(dirname "$0")/.." && pwd) || exit 1
runs=${RUNS:-3}
work=$(mktemp -d) || exit 1
trap 'rm -rf "$work"' EXIT
program=${DRAW:-$(PROGRAM_CRATE=draw "$top/scripts/program.sh")} || exit 1

borders() {
    awk 'BEGIN {
        for (line = 0; line < 1000000; ) {
            for (i = 0; i < 7; i++) { print i " send " i + 1 " Right " line; print i + 1 " recv " i " Right " line }
            for (i = 1; i < 8; i++) { print i " send " i - 1 " Left " line; print i - 1 " recv " i " Left " line }
            for (i = 0; i < 8; i++) print i " run Relax"
            for (i = 0; i < 8; i++) print i " enter Error " i
            for (i = 0; i < 8; i++) print i " leave Error 7"
            line += 52
        }
    }' | head -n 1000000
}

many() {
    awk 'BEGIN {
        for (k = 0; k < 500000; k++) {
            from = k * 7919 % 1000; to = (from + 1 + k * 104729 % 998) % 1000; label = k * 31 % 1000
            print from " send " to " L" label " 1 2 3"; print to " recv " from " L" label " 1 2 3"
        }
    }'
}

for kind in borders many; do
    "$kind" > "$work/log"
    best=
    for ((k = 0; k < runs; k++)); do
        spent=$({ TIMEFORMAT='%U %S'; time "$program" "$work/log" > "$work/picture" 2> /dev/null; } 2>&1 | awk '{ print int(($1 + $2) * 1000) }')
        if [ -z "$best" ] || [ "$spent" -lt "$best" ]; then best=$spent; fi
    done
    echo "$kind: $best ms, a picture of $(wc -c < "$work/picture") bytes"
done
