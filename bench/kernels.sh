#!/usr/bin/env bash
# Times `gen FILE KERNELS` of the built program beside `gen FILE`, with kernel files of 1 MiB: one body of lines of 40 bytes,
# one body of empty lines, and 4,000 bodies, for a protocol with as many kernels. RUNS may be given; the medians of the runs
# count, in milliseconds of processor time, and what the kernel file adds is meant to be less than 20.
top=$(cd "$(dirname "$0")/.." && pwd) || exit 1
runs=${RUNS:-21}
work=$(mktemp -d) || exit 1
trap 'rm -rf "$work"' EXIT
program=$("$top/scripts/program.sh") || exit 1
most=1048576

# A protocol of so many kernels.
protocol() {
    awk -v count="$1" 'BEGIN {
        print "const N = 2..max;\nglobal protocol P(role W[0..N-1]) {"
        for (k = 0; k < count; k++) print "  compute K" k " at W[0];"
        print "}"
    }'
}

# A kernel file of so many bodies of this line, as long as all of them fit.
kernels() {
    awk -v count="$1" -v line="$2" -v most="$most" 'BEGIN {
        for (k = 0; k < count; k++) room += length("/*@ kernel k_K" k " */\n/*@ end */\n")
        lines = int((most - room) / count / (length(line) + 1))
        for (k = 0; k < count; k++) {
            print "/*@ kernel k_K" k " */"
            for (j = 0; j < lines; j++) print line
            print "/*@ end */"
        }
    }'
}

# The processor time of one `gen`, in milliseconds.
timed() {
    local TIMEFORMAT='%3U %3S'
    { time "$program" gen "$@" >"$work/text"; } 2>&1 | awk '{ printf "%.0f\n", ($1 + $2) * 1000 }'
}

median() { sort -n "$1" | awk '{ all[NR] = $1 } END { print all[int((NR + 1) / 2)] }'; }

# measured WHAT PROTOCOL KERNELS: the medians without and with the kernel file.
measured() {
    "$program" gen "$work/$2" "$work/$3" >"$work/text" || exit 1
    : >"$work/without"
    : >"$work/with"
    for ((run = 0; run < runs; run++)); do
        timed "$work/$2" >>"$work/without"
        timed "$work/$2" "$work/$3" >>"$work/with"
    done
    echo "$(median "$work/without") ms without and $(median "$work/with") ms with: $1, $(stat -c %s "$work/$3") bytes"
}

protocol 1 >"$work/one.pbl"
protocol 4000 >"$work/many.pbl"
kernels 1 '  v[0] = v[0] * 3 + 1; // a line of 40 ' >"$work/long"
kernels 1 '' >"$work/empty"
kernels 4000 '  v[0] = v[0] * 3 + 1; // a line of 40 ' >"$work/bodies"
measured "one body" one.pbl long
measured "one body of empty lines" one.pbl empty
measured "4000 bodies" many.pbl bodies
