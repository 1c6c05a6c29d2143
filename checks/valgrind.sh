#!/usr/bin/env bash
# Runs the program under valgrind on some inputs of each command, sound, broken, cut and mutated ones, and prints each run in which
# valgrind finds an error: `checks/valgrind.sh [COUNT]`, with COUNT mutated inputs, 12 where it isn't given, beside the others. The
# program is the one that `pabble` runs, or that PABBLE names. Needs valgrind. The last line is 'N tries, N wrong'.
top=$(cd "$(dirname "$0")/.." && pwd) || exit 1
mutated=${1:-12}
command -v valgrind >/dev/null || { echo "valgrind isn't installed"; exit 1; }
program=$("$top/scripts/program.sh") || exit 1
work=$(mktemp -d) || exit 1
trap 'rm -rf "$work"' EXIT
# a status that the program doesn't have
found=99
count=0
wrong=0

# tries WORDS..: what they do, under valgrind
tries() {
    count=$((count + 1))
    (cd "$work" && valgrind --quiet --error-exitcode=$found --leak-check=no "$program" "$@") >"$work/out" 2>"$work/said"
    [ $? != $found ] && return
    wrong=$((wrong + 1))
    echo "$*:"
    head -n 20 "$work/said"
}

# of_file NAME: the commands on a protocol file
of_file() {
    for command in check project gen expand strips cost; do tries "$command" "$1"; done
    tries run "$1" --n 3 --turns 200
}

# The examples, their texts and schedules.
for name in jacobi token reduction; do
    cp "$top/examples/$name.pbl" "$work/$name"
    of_file "$name"
    "$program" gen "$work/$name" >"$work/$name.c"
    "$program" run "$work/$name" --n 3 --turns 200 --schedule | grep -v '^pabble: ' >"$work/$name.s"
    tries sim "$name.c" --n 3 --turns 200 --mode mixed
    tries replay "$name.c" "$name.s" --n 3
    "$program" run "$work/$name" --n 3 --turns 200 >"$work/$name.log"
    tries judge "$name" "$name.log" --n 3
done
cp "$top/examples/ring/ring.pbl" "$top/examples/ring/ring.kernels" "$work/"
tries gen ring.pbl ring.kernels

# Files that are cut, empty, or no such files, and words in no form.
head -c 300 "$work/jacobi" >"$work/cut"
head -n 40 "$work/jacobi.c" >"$work/cut.c"
head -c 40 "$work/jacobi.s" >"$work/cut.s"
head -c 60 "$work/ring.kernels" >"$work/cut.k"
: >"$work/empty"
of_file cut
of_file empty
tries gen ring.pbl cut.k
tries sim cut.c --n 3
tries sim jacobi --n 3
tries replay jacobi.c cut.s --n 3
tries replay jacobi.c empty --n 3
head -c 300 "$work/jacobi.log" >"$work/cut.log"
tries judge jacobi cut.log --n 3
tries judge jacobi jacobi.s --n 3
tries judge jacobi empty --n 3
tries check nothing
tries run jacobi --n two

# Files that were changed at random.
for ((number = 1; number <= mutated; number++)); do
    words=$("$top/checks/hostile.py" --write "valgrind.$number" "$work") || exit 1
    # shellcheck disable=SC2086
    tries $(sed "s/ --turns [0-9]*/ --turns 200/" <<<"$words")
done
echo "$count tries, $wrong wrong"
[ "$wrong" = 0 ]
