#!/usr/bin/env bash
# Instructions of one event of `sim`, counted by valgrind's callgrind on a ring without words, and the functions that take most of
# them. A start is left out: the counts of 10,000 events are taken from those of 110,000. Takes the program's path, and then
# how many ranks there are, 8 else. MODE may be given, `--schedule` else; empty, the log is written.
program=$(readlink -f "${1:?the program}")
ranks=${2:-8}
room=$(mktemp -d) || exit 1
trap 'rm -rf "$room"' EXIT
cd "$room" || exit 1
cat > ring.pbl <<'END'
const N = 2..max;
global protocol P(role W[0..N-1]) {
  rec X {
    A() from W[i:0..N-2] to W[i+1];
    B() from W[N-1] to W[0];
    continue X;
  }
}
END
"$program" gen ring.pbl > ring.c || exit 1

count() {
    valgrind --tool=callgrind --callgrind-out-file="$1.out" "$program" sim ring.c --n "$ranks" --turns "$1" ${MODE---schedule} 2>&1 > log |
        sed -n 's/.*Collected : //p'
}
few=$(count 10000)
many=$(count 110000)
echo "$(((many - few) / 100000)) instructions an event"
callgrind_annotate --threshold=95 110000.out 2> said | grep -E '^ *[0-9,]+ \(' | cut -c1-120 | head -n 12
