#!/usr/bin/env bash
# Times reading and printing of a C text of 40,000 statements, and beside them `clang -fsyntax-only` and
# `gcc -fsyntax-only` on the same text, where they are installed, with the stub of the MPI names that checks/c-syntax.sh
# has. Then says how much memory reading takes of two texts of 67,108,864 bytes: one of long guards, and one of a long
# kernel body. STATEMENTS and RUNS may be given.
#
# The program that reads and prints is written here, into a copy of the crates in a new folder, where it is proved and
# built. The best of the runs counts.
top=$(cd "$(dirname "$0")/.." && pwd) || exit 1
statements=${STATEMENTS:-40000}
runs=${RUNS:-5}
most=67108864
work=$(mktemp -d) || exit 1
trap 'rm -rf "$work"' EXIT

head_lines() {
    cat <<'TEXT'
/* pabble 1 */
/* protocol P */
/* N 2 to max */
/* role W 0 to N - 1 */
/* label A () */
/* label B int32[64] */
#include <mpi.h>
#include <stdint.h>
static int32_t is[1024], ir[1024];
static uint32_t us[1024], ur[1024];
/*@ prelude */
/*@ end */
static int32_t r_W(int32_t N, int32_t x)
{
  return x + 0 * N + 0;
}
static void make_B(int32_t N, int32_t role, int32_t index, int32_t *v)
{
/*@ kernel make_B */
TEXT
    cat
    cat <<'TEXT'
/*@ end */
}
static void take_B(int32_t N, int32_t role, int32_t index, const int32_t *v)
{
/*@ kernel take_B */
/*@ end */
}
static void k_K(int32_t N, int32_t role, int32_t index)
{
/*@ kernel k_K */
/*@ end */
}
int main(int argc, char **argv)
{
  int size, rank;
  int32_t N, R, I, a, i;
  MPI_Status st;
  MPI_Init(&argc, &argv);
  MPI_Comm_size(MPI_COMM_WORLD, &size);
  MPI_Comm_rank(MPI_COMM_WORLD, &rank);
  N = (size - 0) / 1;
  R = 0;
  I = 0;
  a = 0;
  i = 0;
  if (N < 2 || 1 * N + 0 != size) {
    MPI_Abort(MPI_COMM_WORLD, 2);
  }
  if (rank >= 0 * N + 0) {
    R = 0;
    I = rank - (0 * N + 0);
  }
TEXT
}

last_lines() { printf '  MPI_Finalize();\n  return 0;\n}\n'; }

# So many statements, in tens: two tests, two messages each way, two kernels, a barrier and a broadcast.
mixed() {
    head_lines </dev/null
    awk -v count="$1" 'BEGIN {
        for (k = 0; k < count; k += 10) {
            print "  if (R == 0 && I == 0) {"
            print "    MPI_Send(us, 0, MPI_UINT32_T, r_W(N, N - 1), 0, MPI_COMM_WORLD);"
            print "    k_K(N, R, I);"
            print "    make_B(N, R, I, is);"
            print "    MPI_Send(is, 64, MPI_INT32_T, r_W(N, 1), 1, MPI_COMM_WORLD);"
            print "  }"
            print "  MPI_Barrier(MPI_COMM_WORLD);"
            print "  if (R == 0 && I >= 1 && I <= N - 1) {"
            print "    MPI_Recv(ir, 64, MPI_INT32_T, r_W(N, 0), 1, MPI_COMM_WORLD, MPI_STATUS_IGNORE);"
            print "    take_B(N, R, I, ir);"
            print "    k_K(N, R, I);"
            print "    MPI_Recv(ur, 0, MPI_UINT32_T, r_W(N, 0), 0, MPI_COMM_WORLD, MPI_STATUS_IGNORE);"
            print "  }"
            print "  if (R == 0 && I == 0) make_B(N, R, I, is);"
            print "  MPI_Bcast(is, 64, MPI_INT32_T, r_W(N, 0), MPI_COMM_WORLD);"
            print "  take_B(N, R, I, is);"
        }
    }'
    last_lines
}

# Barriers below tests of as many guards as fill the bytes.
guarded() {
    head_lines </dev/null
    awk -v most="$most" 'BEGIN {
        guards = "(R == 0)"
        for (k = 1; k < 217; k++) guards = guards " || (R == 0)"
        room = most - 3000
        for (k = 0; k + 1 < 50000 && room > length(guards) + 60; k += 2) {
            printf "  if (%s) {\n    MPI_Barrier(MPI_COMM_WORLD);\n  }\n", guards
            room -= length(guards) + 47
        }
    }'
    last_lines
}

# A kernel body of that many bytes.
bodied() {
    awk -v most="$most" 'BEGIN { for (room = most - 3000; room > 40; room -= 40) print "  v[0] = v[0] * 3 + 1; // a line of 40 " }' | head_lines
    last_lines
}

make_program() {
    mkdir -p "$work/copy/crates/pb_bench/src" || return 1
    cp -r "$top/crates.txt" "$work/copy/"
    for crate in "$top"/crates/*/; do
        mkdir -p "$work/copy/crates/$(basename "$crate")"
        for part in src specs proofs; do
            [ -d "$crate/$part" ] && cp -r "$crate/$part" "$work/copy/crates/$(basename "$crate")/"
        done
    done
    local below
    below=$(sed -n 's/^pb_cread: //p' "$top/crates.txt")
    echo "pb_bench: pb_cread $below" >>"$work/copy/crates.txt"
    cat >"$work/copy/crates/pb_bench/src/main.rt" <<'END_OF_PROGRAM'
//! Reads a C text and prints it again. Writes the number of its bytes, and the microseconds that each took.
#![tactic(auto)]

ghost use Rattle.pb_ctree.specs.Texts.{Spells};

use pb_cprint::print_c;
use pb_cread::{CText, read_c};
use std::time::Instant;
use std::{env, fs, io};

fn print(rt: &HostRuntime, bytes: &[u8], text: CText) -> io::Result<()>
    requires { Spells text.tree text.bodies bytes.now }
{
    let start = Instant::now(rt)?;
    let printed = print_c(rt.alloc(), &text.tree, &text.bodies);
    let time = start.elapsed(rt)?;
    match printed {
        Ok(printed) if printed.as_slice() == bytes => println!(rt; " {}", time.as_micros()),
        Ok(_) => println!(rt; " other"),
        Err(_) => println!(rt; " memory"),
    }
}

fn read(rt: &HostRuntime, what: &str, path: &str) -> io::Result<()> {
    let bytes = fs::read(rt, path)?;
    let start = Instant::now(rt)?;
    let read = read_c(rt.alloc(), &bytes);
    let time = start.elapsed(rt)?;
    print!(rt; "{} {}", bytes.len(), time.as_micros())?;
    match read {
        Err(_) => println!(rt; " refused"),
        Ok(text) if what == "print" => print(rt, &bytes, text),
        Ok(_) => println!(rt; ""),
    }
}

fn main(rt: HostRuntime) -> io::Result<()> {
    let words: Vec<String> = env::args(&rt)?.skip(1).collect(rt.alloc())?;
    match words.as_slice() {
        [what, path] => read(&rt, what.as_str(), path.as_str()),
        _ => println!(rt; "read FILE, or print FILE"),
    }
}
END_OF_PROGRAM
    (cd "$work/copy/crates/pb_bench" && rt run >"$work/log" 2>&1 </dev/null)
    program=$work/copy/crates/pb_bench/out/pb_bench
    [ -x "$program" ] || { cat "$work/log" >&2; return 1; }
}

# The least of the numbers of a column of standard input, in milliseconds.
least() { awk -v column="$1" '{ if (NR == 1 || $column < best) best = $column } END { printf "%.1f", best / 1000 }'; }

# The best time of a compiler's check of a text, in milliseconds.
compiles() {
    command -v "$1" >/dev/null || { printf -- '-'; return; }
    local TIMEFORMAT='%3U %3S'
    for ((run = 0; run < runs; run++)); do
        { time "$1" -std=c99 -fsyntax-only -I "$work" "$2" >/dev/null 2>&1; } 2>&1
    done | awk '{ time = ($1 + $2) * 1000; if (NR == 1 || time < best) best = time } END { printf "%.0f", best }'
}

# Peak memory of the program on a text, as bytes for each byte of the text.
memory() {
    local size peak
    size=$(stat -c %s "$1")
    peak=$( { /usr/bin/time -f %M "$program" read "$1" >"$work/said"; } 2>&1 )
    echo "$2: $size bytes, $(cut -d' ' -f2- "$work/said"): $(awk -v peak="$peak" -v size="$size" 'BEGIN { printf "%.1f", peak * 1024 / size }') bytes of memory for each"
}

make_program || exit 1
sed -n "/^cat >.*mpi.h/,/^END$/p" "$top/checks/c-syntax.sh" | sed '1d;$d' >"$work/mpi.h"
mixed "$statements" >"$work/text.c"
for ((run = 0; run < runs; run++)); do "$program" print "$work/text.c"; done >"$work/times"
grep -q 'refused\|other\|memory' "$work/times" && { cat "$work/times"; exit 1; }
echo "bytes $(stat -c %s "$work/text.c"), read $(least 2 <"$work/times") ms, print $(least 3 <"$work/times") ms, clang $(compiles clang "$work/text.c") ms, gcc $(compiles gcc "$work/text.c") ms"
guarded >"$work/guarded.c"
memory "$work/guarded.c" "long guards"
bodied >"$work/bodied.c"
memory "$work/bodied.c" "a long body"
