#!/usr/bin/env bash
# Times the built program on protocol files of 1,048,576 bytes that parse and then break a rule: one of 4,000 statements, one
# of comments, and one of 4,000 statements below 63 open loops. Prints the least processor time of the runs in MB/s, and
# beside it `cat` of the same file and, where it is installed, `clang -fsyntax-only` on a C file of that size. RUNS says how many runs.
top=$(cd "$(dirname "$0")/.." && pwd) || exit 1
runs=${RUNS:-20}
built=$("$top/scripts/program.sh") || exit 1
size=1048576
work=$(mktemp -d) || exit 1
trap 'rm -rf "$work"' EXIT

# The text of standard input, filled up with blanks to the size.
fill() {
    local text
    text=$(cat; printf .)
    text=${text%.}
    [ "${#text}" -le "$size" ] || { echo "a file is too long: ${#text}" >&2; exit 1; }
    printf '%s%*s' "$text" "$((size - ${#text}))" ""
}

# A message with long names, as often as is said.
messages() {
    awk -v count="$1" 'BEGIN {
        label = sprintf("%60s", ""); gsub(" ", "a", label)
        for (k = 0; k < count; k++)
            printf "  L%s_%02d(uint32[1024]) from W[i:000000..N-100000] to W[i+100000]; // message %06d of this protocol, whose ends are W[i] and W[i+100000], and whose payload has 1024 words\n", label, k % 100, k
    }'
}

# Loops that are opened or closed.
repeat() { for ((k = 0; k < $2; k++)); do printf '%s\n' "$1"; done; }

head='const N = 2..max;
global protocol P(role W) {'

statements() { echo "$head"; messages 4000; echo "}"; }
comments() {
    echo "$head"
    awk 'BEGIN { for (k = 0; k < 5000; k++) printf "/* block %06d, which ends * not / here, but behind the next two bytes. */ // and the line %06d, to its end, /* like this, or so\n", k, k }'
    echo "}"
}
loops() { echo "$head"; repeat "rec X {" 63; messages 3937; repeat "}" 63; echo "}"; }
program() { awk 'BEGIN { for (k = 0; k < 4000; k++) printf "static int function_%06d(int first, int second) { if (first < second) { return first + %d; } return second - first; }\n", k, k }'; }

# The best processor time of a command with its output thrown away, in MB/s.
speed() {
    local TIMEFORMAT='%3U %3S'
    for ((run = 0; run < runs; run++)); do
        { time "$@" >/dev/null 2>&1; } 2>&1
    done | awk -v size="$size" '{ time = $1 + $2; if (NR == 1 || time < best) best = time }
        END { if (best < 0.001) best = 0.001; printf "%.0f MB/s (%.0f ms)", size / best / 1000000, best * 1000 }'
}

for name in statements comments loops; do
    "$name" | fill >"$work/$name.pbl"
    said=$("$built" gen "$work/$name.pbl" 2>/dev/null)
    [[ $said == "pabble: rule "* ]] || { echo "$name: $said"; exit 1; }
    echo "$name: pabble $(speed "$built" gen "$work/$name.pbl"), cat $(speed cat "$work/$name.pbl")"
done
if command -v clang >/dev/null; then
    program | fill >"$work/program.c"
    echo "a C file: clang -fsyntax-only $(speed clang -fsyntax-only "$work/program.c")"
fi
