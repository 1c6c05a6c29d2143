#!/usr/bin/env python3
"""Runs `check`, `gen` and `project` on files that break one of the twelve rules, or keep them all: `rules.py [PROGRAM]`,
by default the one that `pabble` runs. A row has the range of N, the roles, the body, the rule, and what is told of N and a
rank. An `@` marks the place that the status line must name, and is no part of the file. A row without a rule keeps them
all: it is accepted, and its text and its layout are printed.
"""
import subprocess
import sys
import tempfile
from concurrent.futures import ThreadPoolExecutor
from pathlib import Path

FOLDER = Path(__file__).resolve().parent
ANY, RING, PAIR = "2..max", "role W[0..N-1]", "A() from W[0] to W[N-1];"
TWO = "role M, role W[0..N-1]"
# how the output of each command begins where the file is accepted
COMMANDS = {"check": "accepted\n", "gen": "/* pabble 1 */\n", "project": "local P\n"}
PROCESSES, SECONDS = 4, 60
# 59 fixed cuts and 59 that move, which meet at more than 4,096 numbers
CROWD = "\n".join(f"A() from W[{k * 1000}] to W[N+{k * 2}];" for k in range(1, 60))

ROWS = [
    # 1: names that stood before as another kind
    (ANY, "role @P[0..N-1]", "", 1, ""),
    (ANY, "role @N[0..N-1]", "", 1, ""),
    (ANY, RING, "@W() from W[0] to W[1];", 1, ""),
    (ANY, RING, "@N() from W[0] to W[1];", 1, ""),
    (ANY, RING, "@P() from W[0] to W[1];", 1, ""),
    (ANY, RING, f"{PAIR} compute @A at W[0];", 1, ""),
    (ANY, RING, f"compute K at W[0]; choice @K at W[0] {{ {PAIR} }} or {{ {PAIR} }}", 1, ""),
    (ANY, RING, f"choice K at W[0] {{ {PAIR} }} or {{ {PAIR} compute @K at W[0]; }}", 1, ""),
    (ANY, RING, f"{PAIR} rec @A {{ {PAIR} }}", 1, ""),
    (ANY, RING, "rec X { A() from W[@X] to W[1]; }", 1, ""),
    (ANY, RING, "foreach (@W:0..1) { }", 1, ""),
    (ANY, RING, "foreach (@N:0..1) { }", 1, ""),
    (ANY, RING, "A() from W[0] to W[@N:1..2];", 1, ""),
    (ANY, RING, "foreach (i:0..1) { @i() from W[0] to W[1]; }", 1, ""),
    (ANY, RING, "continue X; rec Y { A() from @X[0] to W[1]; }", 1, ""),
    (ANY, RING, "barrier; broadcast @P(int32) from W[0];", 1, ""),
    (ANY, RING, "reduce @W(int32) with max to W[0];", 1, ""),
    (ANY, RING, "allreduce @N(int32) with max;", 1, ""),
    # 1: declared twice
    (ANY, "role W[0..N-1], role @W", "", 1, ""),
    (ANY, "role V, role W[0..N-1], role U, role @V[0..1]", "", 1, ""),
    # 1: bound in the scope of its name
    (ANY, RING, "rec X { rec @X { } }", 1, ""),
    (ANY, RING, "rec X { choice K at W[0] { rec @X { } } or { } }", 1, ""),
    # 1: a role that isn't there
    (ANY, RING, "A() from @V[0] to W[1];", 1, ""),
    (ANY, RING, "A() from W[0] to @V[1];", 1, ""),
    (ANY, RING, "A() from W[0] to @V[i:0..1];", 1, ""),
    (ANY, RING, "foreach (i:0..1) { A() from @V[i] to W[0]; }", 1, ""),
    (ANY, RING, "compute K at @V;", 1, ""),
    (ANY, RING, f"choice K at @V[0] {{ {PAIR} }} or {{ {PAIR} }}", 1, ""),
    (ANY, RING, "broadcast A(int32) from @V;", 1, ""),
    (ANY, RING, "reduce A(int32) with max to @V[1];", 1, ""),
    # 1: a name in a lin that is no constant and no variable in scope
    (ANY, "role W[@i..N-1]", "", 1, ""),
    (ANY, "role W[0..@M-1]", "", 1, ""),
    (ANY, RING, "A() from W[@i] to W[1];", 1, ""),
    (ANY, RING, "A() from W[0] to W[i:1..@i];", 1, ""),
    (ANY, RING, "A() from W[0] to W[i:@i..1];", 1, ""),
    (ANY, RING, "foreach (i:0..@i) { }", 1, ""),
    (ANY, RING, "foreach (i:0..1) { } A() from W[@i] to W[1];", 1, ""),
    (ANY, RING, "A() from W[0] to W[i:1..1]; compute K at W[@i];", 1, ""),
    (ANY, RING, "foreach (i:0..1) { compute K at W[@j]; }", 1, ""),
    # 2
    (ANY, RING, f"A(int32) from W[0] to W[1]; @{PAIR}", 2, ""),
    (ANY, RING, "A(int32) from W[0] to W[1]; @A(uint32) from W[0] to W[1];", 2, ""),
    (ANY, RING, "A(int32[2]) from W[0] to W[1]; @A(int32[3]) from W[0] to W[1];", 2, ""),
    (ANY, RING, "A(int32) from W[0] to W[1]; broadcast @A(uint32) from W[0];", 2, ""),
    (ANY, RING, f"{PAIR} foreach (i:0..1) {{ @A(int32) from W[i] to W[1]; }}", 2, ""),
    (ANY, RING, f"rec X {{ {PAIR} }} choice K at W[0] {{ @A(int32) from W[0] to W[1]; }} or {{ }}", 2, ""),
    (ANY, RING, "broadcast @A() from W[0];", 2, ""),
    (ANY, RING, "reduce @A() with max to W[0];", 2, ""),
    (ANY, RING, "allreduce @A() with min;", 2, ""),
    (ANY, RING, "reduce @A(int32) with sum to W[0];", 2, ""),
    (ANY, RING, "allreduce @A(int32[4]) with sum;", 2, ""),
    # 3
    (ANY, RING, "@continue Z;", 3, ""),
    (ANY, RING, "rec X { @continue X; barrier; }", 3, ""),
    (ANY, RING, "rec X { } @continue X;", 3, ""),
    (ANY, RING, "rec X { @continue Y; }", 3, ""),
    (ANY, RING, "rec X { choice K at W[0] { @continue Y; } or { continue X; } }", 3, ""),
    (ANY, RING, "rec X { choice K at W[0] { @continue X; barrier; } or { } }", 3, ""),
    # 4
    (ANY, RING, "@rec X { continue X; } barrier;", 4, ""),
    (ANY, RING, "@rec X { A() from W[0] to W[1]; continue X; } B() from W[0] to W[1];", 4, ""),
    (ANY, RING, "rec X { @rec Y { continue Y; } continue X; }", 4, ""),
    (ANY, RING, "rec X { @choice K at W[0] { continue X; } or { continue X; } barrier; }", 4, ""),
    (ANY, RING, "@choice K at W[0] { rec X { continue X; } } or { } barrier;", 4, ""),
    (ANY, RING, "choice K at W[0] { @rec X { continue X; } barrier; } or { }", 4, ""),
    # 5
    ("@0..max", RING, "", 5, ""),
    ("@0..0", RING, "", 5, ""),
    ("4..@3", RING, "", 5, ""),
    ("@00..max", RING, "", 5, ""),
    (ANY, "role M", "", 5, "P"),
    ("2..3", "role M, role V[0..5]", "", 5, "P"),
    (ANY, "role W[N..3]", "", 5, "P"),
    (ANY, "role W[N..N+3]", "", 5, "P"),
    # 6
    (ANY, "role @W[3..N]", "", 6, ", N = 2"),
    ("1..9", "role V, role @W[2..N]", "", 6, ", N = 1"),
    ("1..9", "role V[N..3], role W[0..N+9]", "", 5, "P"),
    ("1..9", "role @V[N..3], role W[0..N], role U[0..N]", "", 6, ", N = 4"),
    ("1..9", "role W[0..N], role @V[1..0]", "", 6, ", N = 1"),
    # 7
    (ANY, RING, "A() from @W[2] to W[0];", 7, ", N = 2, W[2]"),
    (ANY, RING, "A() from W[0] to @W[N];", 7, ", N = 2, W[2]"),
    (ANY, RING, "A() from W[0] to @W[N-3];", 7, ", N = 2, W[-1]"),
    (ANY, RING, "A() from W[i:0..N-1] to @W[i+1];", 7, ", N = 2, W[2]"),
    (ANY, RING, "A() from @W[i-1] to W[i:0..N-1];", 7, ", N = 2, W[-1]"),
    (ANY, RING, "foreach (i:0..N) { compute K at @W[i]; }", 7, ", N = 2, W[2]"),
    (ANY, RING, "foreach (i:0..N-4) { compute K at @W[5]; }", 7, ", N = 4, W[5]"),
    (ANY, RING, "compute K at @W[5];", 7, ", N = 2, W[5]"),
    (ANY, RING, f"choice K at @W[N] {{ {PAIR} }} or {{ {PAIR} }}", 7, ", N = 2, W[2]"),
    (ANY, RING, "broadcast A(int32) from @W[N];", 7, ", N = 2, W[2]"),
    (ANY, RING, "reduce A(int32) with max to @W[N+7];", 7, ", N = 2, W[9]"),
    ("3..max", "role V, role W[1..N]", "A() from @V[1] to W[1];", 7, ", N = 3, V[1]"),
    ("3..max", "role V, role W[1..N]", "A() from V to @W;", 7, ", N = 3, W[0]"),
    (ANY, RING, "rec X { compute K at @W[2]; continue X; }", 7, ", N = 2, W[2]"),
    (ANY, RING, "A() from W[0] to W[0]; compute K at @W[9];", 7, ", N = 2, W[9]"),
    # 8
    ("1..max", RING, f"@{PAIR}", 8, ", N = 1, W[0]"),
    ("5..9", RING, "@A() from W[N-5] to W[4];", 8, ", N = 9, W[4]"),
    (ANY, RING, "@A() from W to W[0];", 8, ", N = 2, W[0]"),
    (ANY, RING, "@A() from W[i:0..N-1] to W[i];", 8, ", N = 2, W[0]"),
    (ANY, RING, "@A() from W[i:0..N-1] to W[1];", 8, ", N = 2, W[1]"),
    ("4..max", RING, "foreach (i:1..N-3) { @A() from W[3] to W[i+1]; }", 8, ", N = 5, W[3]"),
    ("1..max", "role W[0..N+100000]", "@A() from W[N] to W[99999];\nB() from W[i:0..N] to W[i+100000];", 8, ", N = 99999, W[99999]"),
    # 9
    (ANY, RING, "@rec X { continue X; }", 9, ", N = 2"),
    (ANY, RING, "rec X { rec Y { } } @rec X { continue X; }", 9, ", N = 2"),
    ("3..max", RING, "@rec X { foreach (i:1..N-3) { A() from W[i] to W[i+1]; } continue X; }", 9, ", N = 3"),
    ("2..5", RING, "@rec X { foreach (i:5..N) { compute K at W[i-5]; } continue X; }", 9, ", N = 2"),
    # 10
    ("4..max", RING, "choice K at W[0] { A() from W[0] to W[i:1..N-1]; } or @{ B() from W[0] to W[i:1..3]; }", 10, ", N = 5, W[4]"),
    (ANY, RING, "rec X { choice K at W[0] { A() from W[0] to W[1]; continue X; } or @{ } }", 10, ", N = 2, W[1]"),
    (ANY, RING, "rec X { choice K at W[0] @{ continue X; } or { barrier; } }", 10, ", N = 2, W[1]"),
    (ANY, RING, "choice K at W[0] @{ barrier; } or { barrier; }", 10, ", N = 2, W[1]"),
    (ANY, RING, "choice K at W[0] @{ A() from W[1] to W[0]; } or { B() from W[0] to W[1]; }", 10, ", N = 2, W[1]"),
    ("2..9", RING, "choice K at W[N-1] { A() from W[N-1] to W[0]; } or @{ }", 10, ", N = 2, W[0]"),
    # 11
    ("3..max", RING, "choice K at W[0] { A() from W[0] to W[2]; D() from W[0] to W[1]; } or @{ B() from W[0] to W[1]; C() from W[1] to W[2]; }", 11, ", N = 3, W[2]"),
    # 12
    (ANY, RING, "choice K at W[0] { A() from W[0] to W[1]; } or @{ A() from W[0] to W[1]; compute L at W[1]; }", 12, ", N = 2, W[1]"),
    (ANY, RING, "choice K at W[0] { A() from W[0] to W[1]; } or { B() from W[0] to W[1]; } or @{ A() from W[0] to W[1]; }", 12, ", N = 2, W[1]"),
    ("3..max", RING, "choice K at W[0] { A() from W[0] to W[1]; } or @{ rec X { A() from W[0] to W[1]; continue X; } }", 12, ", N = 3, W[1]"),
    # Loops that continue each other both ways, branches that can't end, empty branches, choices in loops in choices, ranks
    # that are told over a relay, two tellers that are one rank at one N alone, and a label twice in one branch.
    (ANY, RING, "rec X { choice K at W[0] { A() from W[0] to W[1]; continue X; } or { B() from W[0] to W[1]; rec Y { choice L at W[0] { C() from W[0] to W[1]; continue X; } or { D() from W[0] to W[1]; continue Y; } } } }", None, ""),
    ("3..max", RING, "rec X { choice K at W[0] @{ A() from W[0] to W[1]; continue X; } or { B() from W[0] to W[1]; rec Y { E() from W[1] to W[2]; choice L at W[0] { C() from W[0] to W[1]; continue X; } or { D() from W[0] to W[1]; continue Y; } } } }", 10, ", N = 3, W[2]"),
    ("3..max", RING, "rec X { choice K at W[0] { A() from W[0] to W[1]; F() from W[1] to W[2]; continue X; } or { B() from W[0] to W[1]; G() from W[1] to W[2]; rec Y { choice L at W[0] { C() from W[0] to W[1]; H() from W[1] to W[2]; continue X; } or { D() from W[0] to W[1]; I() from W[1] to W[2]; continue Y; } } } }", None, ""),
    (ANY, RING, "rec X { A() from W[0] to W[1]; choice K at W[0] @{ continue X; } or { continue X; } }", 10, ", N = 2, W[1]"),
    (ANY, RING, "rec X { choice K at W[0] { A() from W[0] to W[1]; continue X; } or { B() from W[0] to W[1]; continue X; } }", None, ""),
    (ANY, RING, "choice K at W[0] { } or { } or { compute C at W[0]; }", None, ""),
    (ANY, RING, "choice K at W[0] { A() from W[0] to W[1]; } or @{ }", 10, ", N = 2, W[1]"),
    (ANY, RING, "choice K at W[0] { A() from W[0] to W[1]; rec X { choice L at W[1] { C() from W[1] to W[0]; continue X; } or { D() from W[1] to W[0]; } } } or { B() from W[0] to W[1]; }", None, ""),
    (ANY, RING, "choice K at W[0] { A() from W[0] to W[1]; rec X { choice L at W[1] { C() from W[1] to W[0]; continue X; } or @{ } } } or { B() from W[0] to W[1]; }", 10, ", N = 2, W[0]"),
    ("4..max", RING, "choice K at W[0] { A() from W[0] to W[1]; C() from W[1] to W[i:2..N-1]; } or { B() from W[0] to W[1]; D() from W[1] to W[i:2..N-1]; }", None, ""),
    ("3..max", RING, "choice K at W[0] { A() from W[0] to W[1]; C() from W[1] to W[i:2..N-1]; } or @{ B() from W[0] to W[1]; D() from W[1] to W[2]; }", 10, ", N = 4, W[3]"),
    (ANY, TWO, "choice K at M { A() from M to W[1]; F() from M to W[N-1]; C() from W[1] to W[0]; } or @{ B() from M to W[1]; E() from M to W[N-1]; D() from W[N-1] to W[0]; }", 11, ", N = 3, W[0]"),
    ("2..2", TWO, "choice K at M { A() from M to W[1]; F() from M to W[N-1]; C() from W[1] to W[0]; } or { B() from M to W[1]; E() from M to W[N-1]; D() from W[N-1] to W[0]; }", None, ""),
    ("9..max", TWO, "choice K at M { A() from M to W[4]; F() from M to W[N-6]; C() from W[4] to W[0]; } or @{ B() from M to W[4]; E() from M to W[N-6]; D() from W[N-6] to W[0]; }", 11, ", N = 9, W[0]"),
    ("10..10", TWO, "choice K at M { A() from M to W[4]; F() from M to W[N-6]; C() from W[4] to W[0]; } or { B() from M to W[4]; E() from M to W[N-6]; D() from W[N-6] to W[0]; }", None, ""),
    (ANY, RING, "choice K at W[0] { A() from W[0] to W[i:1..N-1]; A() from W[0] to W[1]; } or { B() from W[0] to W[i:1..N-1]; }", None, ""),
    # The least rule, its first place.
    (ANY, RING, "continue X; barrier; broadcast @A() from W[0];", 2, ""),
    ("@0..max", "role W[3..N]", "", 5, ""),
    # The limit between rule 5 and rule 6.
    ("1..max", "role W[0..N+100000]", CROWD, "limit breakpoints", ""),
    ("1..max", "role W[0..N+100000], role V[3..N]", CROWD, "limit breakpoints", ""),
    ("@0..max", "role W[0..N+100000]", CROWD, 5, ""),
    # Kept.
    (ANY, RING, PAIR, None, ""),
    (ANY, RING, "A() from W[i-1] to W[i:1..1]; A() from W[i:0..0] to W[i+1];", None, ""),
    (ANY, RING, "rec X { rec Y { } } rec X { A() from W[0] to W[1]; continue X; }", None, ""),
    (ANY, RING, "rec X { choice K at W[0] { continue X; } or { compute L at W[0]; } }", None, ""),
    (ANY, RING, "reduce S(uint32) with sum to W[0];", None, ""),
    (ANY, RING, "rec X { A() from W[0] to W[1]; continue X; }", None, ""),
    (ANY, "role W[1..N]", "", None, ""),
    (ANY, RING, "A() from W[i:0..N-2] to W[i+1];", None, ""),
    ("3..3", "role M", "", None, ""),
    ("100000..max", "role W[0..N+100000]", "A() from W[N] to W[99999];\nB() from W[i:0..N] to W[i+100000];", None, ""),
    (ANY, RING, "foreach (i:0..N-3) { A() from W[i] to W[i+2]; }", None, ""),
    ("4..max", RING, "rec X { foreach (i:1..N-3) { A() from W[i] to W[i+1]; } continue X; }", None, ""),
    ("3..max", RING, "rec X { foreach (i:1..N-3) { A() from W[i] to W[i+1]; } }", None, ""),
    ("4..4", RING, "choice K at W[0] { A() from W[0] to W[i:1..N-1]; } or { B() from W[0] to W[i:1..3]; }", None, ""),
    (ANY, RING, "choice K at W[0] { Go() from W[0] to W[i:1..N-1]; barrier; } or { Stop() from W[0] to W[i:1..N-1]; barrier; }", None, ""),
    ("3..max", RING, "choice K at W[0] { Go() from W[i:0..N-2] to W[i+1]; } or { Stop() from W[i:0..N-2] to W[i+1]; }", None, ""),
    ("4..max", RING, "rec X { choice K at W[0] { Go() from W[0] to W[1]; continue X; } or { Stop() from W[0] to W[1]; } } A() from W[2] to W[3];", None, ""),
    ("2..3", RING, "foreach (i:5..4) { A() from W[i] to W[9]; }", None, ""),
]


def place_of(text):
    """The text without its mark, and the mark's line and column."""
    before, _, after = text.partition("@")
    return before + after, f"{before.count(chr(10)) + 1}:{len(before) - before.rfind(chr(10))}"


def file_and_line(row):
    """The row's file, and the exit status and the line that each command must give, or None where no rule is broken."""
    span, roles, body, rule, told = row
    name = "@P" if told == "P" else "P"
    text = f"const N = {span};\nglobal protocol {name}({roles.replace('@', '') if told == 'P' else roles}) {{\n  {body}\n}}\n"
    text, place = place_of(text)
    if rule is None:
        return text, None
    line = f"rule {rule} at {place}{'' if told == 'P' else told}" if isinstance(rule, int) else rule
    return text, (1 if isinstance(rule, int) else 5, f"pabble: {line}\n")


def difference(program, path, row):
    """What is wrong with the program's answers, or None."""
    text, wanted = file_and_line(row)
    path.write_text(text)
    for command in COMMANDS:
        try:
            done = subprocess.run([program, command, path], stdout=subprocess.PIPE, stderr=subprocess.DEVNULL, text=True, timeout=SECONDS)
        except subprocess.TimeoutExpired:
            return f"{command} {row}: no answer in {SECONDS} seconds"
        got = (done.returncode, done.stdout)
        if wanted is not None:
            is_right = got == wanted
        else:
            is_right = got[0] == 0 and got[1].startswith(COMMANDS[command])
        if not is_right:
            return f"{command} {row}: wanted {wanted or 'no rule'}, got {got}"
    return None


def main(program):
    with tempfile.TemporaryDirectory() as folder, ThreadPoolExecutor(PROCESSES) as pool:
        paths = [Path(folder, f"{number}.pbl") for number in range(len(ROWS))]
        found = list(pool.map(difference, [program] * len(ROWS), paths, ROWS))
    wrong = list(filter(None, found))
    print(*wrong, f"{found.count(None)} passed, {len(wrong)} failed", sep="\n")
    return 1 if wrong else 0


if __name__ == "__main__":
    built = [FOLDER.parent / "scripts/program.sh"]
    sys.exit(main(sys.argv[1] if len(sys.argv) > 1 else subprocess.check_output(built, text=True).strip()))
