#!/usr/bin/env bash
# Events and messages a second of `sim` on rings without words and with four, ping-pong, a halo exchange and collectives, at several
# numbers of ranks: with the schedule alone, and with the log; and the memory that each takes. An entry into a collective counts as a
# message. Takes the built program's path, else the one that `pabble` runs. RUNS may be given, 5 else; the median of their
# processor times counts.
program=$(readlink -f "${1:-$("$(dirname "$0")/../scripts/program.sh")}")
runs=${RUNS:-5}
folder=$(mktemp -d) || exit 1
trap 'rm -rf "$folder"' EXIT
cd "$folder" || exit 1

protocol() {
    printf 'const N = 2..max;\nglobal protocol P(role W[0..N-1]) {\n  rec X {\n%s\n    continue X;\n  }\n}\n' "$2" > "$1"
    "$program" gen "$1" > "$1.c" || exit 1
}

protocol bare '    A() from W[i:0..N-2] to W[i+1];
    B() from W[N-1] to W[0];'
protocol ring '    A(uint32[4]) from W[i:0..N-2] to W[i+1];
    B(uint32[4]) from W[N-1] to W[0];'
protocol ping '    A(uint32) from W[0] to W[1];
    B(uint32) from W[1] to W[0];'
protocol halo '    A(int32[64]) from W[i:0..N-2] to W[i+1];
    B(int32[64]) from W[i:1..N-1] to W[i-1];'
protocol joint '    allreduce S(int32) with max;
    barrier;'

# The seconds of processor time and the kilobytes of memory of a run: the median.
middle() {
    for ((run = 0; run < runs; run++)); do
        seconds=$({ TIMEFORMAT='%3U %3S'; time /usr/bin/time -o time -f '%M' "$program" sim "$@" > out 2> told; } 2>&1)
        echo "$seconds $(tail -n 1 time)"
    done | awk '{ print $1 + $2, $3 }' | sort -g | sed -n "$((runs / 2 + 1))p"
}

# The events of the last run, of which its last line tells.
events() { sed -n 's/^pabble: turns //p' out; }

printf '%-6s %6s | %-32s | %-32s\n' '' '' 'a second, and KB: the schedule' 'the log'
printf '%-6s %6s | %10s %10s %10s | %10s %10s %10s\n' text ranks events messages KB events messages KB
for text in bare ring ping halo joint; do
    for ranks in 2 8 100 1000; do
        if [ $text = ping ] && [ $ranks -gt 8 ]; then
            continue
        fi
        schedule=$(middle $text.c --n $ranks --schedule)
        log=$(middle $text.c --n $ranks)
        messages=$(grep -c -E '^[0-9]+ (send|enter) ' out)
        echo "$text $ranks $schedule $log $(events) $messages"
    done
done | awk '{ printf "%-6s %6s | %10d %10d %10d | %10d %10d %10d\n", $1, $2, $7 / $3, $8 / $3, $4, $7 / $5, $8 / $5, $6 }'
