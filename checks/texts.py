#!/usr/bin/env python3
"""Gives `sim` the C texts of checks/texts, changed: `checks/texts.py [PROGRAM]`, by default the program that `pabble` runs.

every.c has every statement: tests with and without another part, a count, the own index, a loop, a choice with relays and one
without, messages, kernels, and each collective. Each of its lines is deleted, doubled, indented, shortened by a byte, and joined to
the next one. some.c has fewer; it is given with other statements and with none, and what it is without them is cut at each byte.
Other lines stand in the place of lines of both. A text that isn't read is refused at the line that is told here. One that is read
is refused for the number N alone, since there are no texts for so few ranks. The last line is 'N passed, N failed'.
"""
import os
import subprocess
import sys
import tempfile
from concurrent.futures import ThreadPoolExecutor
from pathlib import Path

TOP = Path(__file__).resolve().parent.parent
PROCESSES, SECONDS, SHOWN = 4, 60, 10
LIMIT, TEXT, RANKS = 5, 8, 12
# the lines of some.c before its statements, and behind them
FIRST, LAST = 73, 3

# what is done to a line of every.c, the lines with which the text is read even so, and those with which it is refused elsewhere;
# with another one it is refused at that line, or at the next one where it is doubled
CHANGES = [
    # A text may lack a line of a body, a statement, or the line between the parts of a test. Without a role's line the size is
    # wrong, without a label's the first line that spells it, and a body that isn't closed goes on to the next marker.
    ("deleted", lambda line: "", {14, 37, 53, 81, 82, 91, 97, 117, 120, 136},
     {4: 5, 5: 19, 6: 80, 7: 23, 8: 33, 15: 25, 27: 30, 32: 35, 38: 41, 43: 46, 48: 51, 54: 141, 99: 101, 119: 120, 133: 134}),
    # A line of a body, and a statement of one line, may come twice.
    ("doubled", lambda line: line + line, {14, 37, 53, 81, 83, 91, 97, 117, 120, 136}, {}),
    # Bodies may have any indent, and so an end that is indented belongs to its body.
    ("indented", lambda line: " " + line, {14, 37, 53}, {15: 26, 27: 31, 32: 36, 38: 42, 43: 47, 48: 52, 54: 142}),
    ("shortened", lambda line: line[:-2] + "\n", {14, 37, 53}, {}),
    # Where the last line of a body is cut, the end behind it belongs to that line.
    ("cut", lambda line: line[:-1], set(), {14: 25, 37: 41, 53: 141}),
]

# lines that stand in the place of one of every.c, each behind its number and the line at which the text is refused then, or 0 where
# it is read; where a row of the head is read that isn't of this text, what is spelled with it is refused below
OTHERS = """\
1 1 /* pabble 2 */
2 0 /* protocol _9 */
2 0 /* protocol abcdefghijabcdefghijabcdefghijabcdefghijabcdefghijabcdefghijabcd */
2 2 /* protocol abcdefghijabcdefghijabcdefghijabcdefghijabcdefghijabcdefghijabcde */
2 2 /* protocol 9P */
2 2 /* protocol max */
2 2 /* protocol  */
2 2 /* protocol */
2 2 /* protocol P*/
3 69 /* N 2 to max */
3 64 /* N 1 to 1 */
3 69 /* N 3 to 2000000000 */
3 69 /* N 2000000000 to max */
3 3 /* N 0 to max */
3 3 /* N 0 to 9 */
3 3 /* N 3 to 2 */
3 3 /* N 3 to 2000000001 */
3 3 /* N 2000000001 to max */
3 3 /* N 4294967297 to max */
3 3 /* N 02 to max */
3 3 /* N 2 to 03 */
3 3 /* N 2 to Max */
3 3 /* N 2 to */
3 3 /* N 2  to max */
4 4 /* label A () */
5 5 /* role W 1 to 1 */
5 5 /* role M 01 to 1 */
6 24 /* label A int32[1] */
6 24 /* label A int32[1024] */
6 24 /* label A uint32[1024] */
6 6 /* label A int32[0] */
6 6 /* label A int32[1025] */
6 6 /* label A uint32[0] */
6 6 /* label A uint32[1025] */
6 6 /* label A int32[01] */
6 6 /* label A int32[] */
6 6 /* label A int32[4294967297] */
6 6 /* label A int64[1] */
6 6 /* label A (1) */
6 6 /* label A */
6 6 /* label to () */
7 24 /* label B () */
7 24 /* label a () */
7 24 /* label AA () */
7 7 /* label A () */
7 7 /* label A int32[1] */
7 7 /* label A int32[64] */
7 7 /* label B int32[1025] */
9 9 /* role X 0 to 0 */
10 10 #include <mpi.h>
13 13 /*@ prelude */\x20
15 15 /*@ end */ int x;
15 15 /*@ kernel c_K */
18 18   return x + 0 * N;
22 22   return x + 1 * N + 0;
26 26 /*@ kernel take_B */
45 47 static void k_K(int32_t N, int32_t role, int32_t index)
45 47 static int32_t c_S(int32_t N, int32_t role, int32_t index)
50 50 static void c_K(int32_t N, int32_t role, int32_t index)
50 50 static int32_t k_K(int32_t N, int32_t role, int32_t index)
50 50 static void k_(int32_t N, int32_t role, int32_t index)
50 50 static void k_do(int32_t N, int32_t role, int32_t index)
50 50 static void k_K(int32_t N, int32_t role)
50 50 static void k_K(int32_t N, int32_t role, int32_t index) {
54 54 /*@ end */\x20
56 56 static void k_K(int32_t N, int32_t role, int32_t index)
56 56 /* label C () */
64 64   N = size - 1;
69 69   if (N < 3 || 1 * N + 1 != size) {
69 69   if (N < 3 || 1 * N + 1 != size || N > 9) {
78 78     I = rank - (1 * N + 0);
106 0         MPI_Probe(r_W(N, N - 1), MPI_ANY_TAG, MPI_COMM_WORLD, &st);
"""

# rows in the place of the second role of some.c, where N goes from 2 on and the first role is M[0..N-1], in the same way
ROLES = """\
5 22 /* role W 0 to N - 1 */
5 22 /* role W 1 to N */
5 22 /* role W 7 to 7 */
5 22 /* role W -1000000 to N + 1000000 */
5 58 /* role W N to N */
5 5 /* role W 00 to N - 1 */
5 5 /* role W 0 to N - 01 */
5 5 /* role W 0 to N + 0 */
5 5 /* role W 0 to N - 0 */
5 5 /* role W -0 to N */
5 5 /* role W +1 to N */
5 5 /* role W 0 to N-1 */
5 5 /* role W 0 to i */
5 5 /* role W 0 to 1000001 */
5 5 /* role W 1 to 0 */
5 5 /* role W 2 to N - 1 */
5 5 /* role W N to 9 */
5 5 /* role W 0 */
5 5 /* role role 0 to 1 */
5 5 /* role 0 to 1 */
5 5 /* role W 0 to 1 */\x20
5 5  /* role W 0 to 1 */
"""

# statements of some.c, and the first line that doesn't go on; the first statement is line 74
ASTRAY = [
    ("  MPI_Barrier(MPI_COMM_WORLD); \n", 74),
    ("   MPI_Barrier(MPI_COMM_WORLD);\n", 74),
    ("  goto L0;\n", 74),
    ("  MPI_Finalize();\n", 75),
    ("  if (R == 0) {\n", 75),
    ("  if (R == 0) {\n  }\n  }\n", 76),
    ("  if (R == 2) {\n  }\n", 74),
    ("  if (R == 0) {\n    make_B(N, R, I, us);\n  }\n", 76),
    ("  if (R == 0 && I == 0) {\n    a = c_K(N, R, I);\n  }\n  if (a == 0) {\n    MPI_Barrier(MPI_COMM_WORLD);\n", 79),
]


# statements of two lines, of three, and of six, within which is one more
MESSAGE = "  make_B(N, R, I, us);\n  MPI_Send(us, 3, MPI_UINT32_T, r_W(N, 1), 1, MPI_COMM_WORLD);\n"
SUM = "  make_C(N, R, I, us);\n  MPI_Allreduce(us, ur, 3, MPI_UINT32_T, MPI_SUM, MPI_COMM_WORLD);\n  take_C(N, R, I, ur);\n"
CHOICE = """\
  if (R == 0 && I == 0) {
    a = c_K(N, R, I);
  }
  if (a == 0) {
    MPI_Barrier(MPI_COMM_WORLD);
  } else {
  }
"""


def nested(depth, inner=""):
    """So many statements, each within the one before, and these within the last."""
    inner = "".join(f"{'  ' * depth}{line}" for line in inner.splitlines(keepends=True))
    opened = "".join(f"{'  ' * at}  if (R == 0) {{\n" for at in range(depth))
    return opened + inner + "".join(f"{'  ' * at}  }}\n" for at in reversed(range(depth)))


def refused(line):
    return TEXT, f"pabble: text at {line}:1\n"


def with_others(what, text, read, rows):
    """The text with each of the rows in the place of a line."""
    lines = text.splitlines(keepends=True)
    for row in rows.splitlines():
        number, at, other = row.split(" ", 2)
        number, at = int(number), int(at)
        changed = "".join([*lines[:number - 1], other, "\n", *lines[number:]])
        yield f"{what} with line {number} as {other!r}", changed, refused(at) if at else read


def of_every(text):
    """What is done to the text, the text then, and the status and the line that it must be answered with."""
    lines, read = text.splitlines(keepends=True), (RANKS, "pabble: N = 1 outside 3..9\n")
    yield "every.c", text, read
    for how, change, kept, elsewhere in CHANGES:
        for number, line in enumerate(lines, 1):
            changed = "".join(lines[:number - 1] + [change(line)] + lines[number:])
            at = elsewhere.get(number, number + (how == "doubled"))
            yield f"every.c with line {number} {how}", changed, read if number in kept else refused(at)
    yield "every.c with an empty line behind line 2", "".join(lines[:2] + ["\n"] + lines[2:]), refused(3)
    yield from with_others("every.c", text, read, OTHERS)


def of_some(text):
    lines, read = text.splitlines(keepends=True), (RANKS, "pabble: N = 1 outside 2..9\n")
    first, last = "".join(lines[:FIRST]), "".join(lines[-LAST:])
    none = first + last
    yield "some.c", text, read
    yield "some.c without statements", none, read
    yield "some.c without statements, and an empty line", none + "\n", refused(77)
    for size in range(len(none)):
        yield f"{size} bytes of some.c without statements", none[:size], refused(none[:size].count("\n") + 1)
    endless = "".join([*lines[:2], "/* N 2 to max */\n/* role M 0 to N - 1 */\n", *lines[4:]])
    yield from with_others("some.c with N 2 to max", endless, None, ROLES)
    for count, line in (62, 86), (63, 68):
        roles = "".join(f"/* role R{number} 0 to 0 */\n" for number in range(count))
        yield f"some.c with {count} more roles", "".join([*lines[:5], roles, *lines[5:]]), refused(line)
    for statements, line in ASTRAY:
        yield f"some.c with the statements {statements!r}", first + statements + last, refused(line)
    barrier = "  MPI_Barrier(MPI_COMM_WORLD);\n"
    four = MESSAGE + SUM + CHOICE
    for what, statements, answer in (
        ("255 open braces", nested(255), read), ("256 open braces", nested(256), (LIMIT, "pabble: limit text nesting at 329:1\n")),
        ("50,000 statements", barrier * 50_000, read), ("50,001 statements", barrier * 50_001, (LIMIT, "pabble: limit text statements at 50074:1\n")),
        ("50,000 statements on more lines", four + barrier * 49_996, read),
        ("50,001 statements on more lines", four + barrier * 49_997, (LIMIT, "pabble: limit text statements at 50082:1\n")),
        ("254 open braces, and within them a choice", nested(254, CHOICE), read),
        ("255 open braces, and within them a choice", nested(255, CHOICE), (LIMIT, "pabble: limit text nesting at 329:1\n")),
    ):
        yield f"some.c with {what}", first + statements + last, answer


def main(program):
    def failure(numbered):
        number, (what, text, wanted) = numbered
        path = Path(folder, f"{number}")
        path.write_text(text)
        done = subprocess.run([program, "sim", path, "--n", "1"], stdin=subprocess.DEVNULL, stdout=subprocess.PIPE,
                              stderr=subprocess.DEVNULL, text=True, timeout=SECONDS)
        path.unlink()
        answer = done.returncode, done.stdout
        return None if answer == wanted else f"{what}: {answer}, and not {wanted}"

    texts = TOP / "checks/texts"
    cases = [*of_every((texts / "every.c").read_text()), *of_some((texts / "some.c").read_text())]
    with tempfile.TemporaryDirectory() as folder, ThreadPoolExecutor(PROCESSES) as pool:
        found = list(filter(None, pool.map(failure, enumerate(cases))))
    print(*found[:SHOWN], f"{len(cases) - len(found)} passed, {len(found)} failed", sep="\n")
    return 1 if found or not cases else 0


if __name__ == "__main__":
    named = sys.argv[1] if len(sys.argv) > 1 else subprocess.check_output([TOP / "scripts/program.sh"], text=True).strip()
    sys.exit(main(os.path.abspath(named)))
