#!/usr/bin/env python3
"""Refuses each allocation of each command in turn, alone and with all behind it: `memory.py [PROGRAM]`, by default the
one that `pabble` runs. With a number refused a run must end as without, byte for byte, or with `pabble: no memory`
behind some first lines of what it writes else; `check`, `project`, `gen`, `expand`, `strips`, `cost` and `judge` write nothing in front of it. Needs a C
compiler and the GNU C library. The last line is 'N passed, N failed'.
"""
import os
import subprocess
import sys
import tempfile
from collections import Counter
from concurrent.futures import ThreadPoolExecutor
from pathlib import Path

from definitions import PABBLE, TOP

EXAMPLES = TOP / "examples"
NO_MEMORY = (6, b"pabble: no memory\n")
SHOWN, PROCESSES, SECONDS = 5, 4, 60
# the commands that write one line or all
WHOLE = ("check", "project", "gen", "expand", "strips", "cost")
# a protocol that breaks rule 10, and one that ends early
BROKEN = "const N = 4..max;\nglobal protocol P(role W[0..N-1]) {\n  choice K at W[0] {\n    A() from W[0] to W[1];\n  } or {\n  }\n}\n"
CUT = "const N = 2..max;\nglobal protocol P(role W[0..N-1]) {\n  foreach (i:0..N-2) {\n"


class Run:
    """A command, and what it answers where no allocation is refused."""

    def __init__(self, program, library, *words):
        self.words, self.library = [program, *words], library
        self.whole, self.count = self.answer({})

    def answer(self, refused):
        said = subprocess.run(self.words, capture_output=True, timeout=SECONDS, env={"LD_PRELOAD": self.library, **refused})
        # the last line is the library's count, behind what the program tells a person
        return (said.returncode, said.stdout), int((said.stderr.split() or [0])[-1])

    def outcome(self, refused):
        """How a run ends in which allocations are refused; None where it ends as it must not."""
        (code, out), _ = self.answer(refused)
        if (code, out) == self.whole:
            return "the same"
        before = out.removesuffix(NO_MEMORY[1])
        is_front = before == b"" or (before.endswith(b"\n") and self.words[1] not in (*WHOLE, "judge"))
        if code == NO_MEMORY[0] and out != before and is_front and self.whole[1].startswith(before):
            return "no memory"
        return None

    def outcomes(self, pool, others):
        """The outcomes with each allocation refused, from the first one on, and one number more."""
        return list(pool.map(self.outcome, ({"NO_MEMORY": str(k), **others} for k in range(1, self.count + 2))))


def commands(program, folder):
    """The words of each command, with its files."""
    broken, cut, ring = folder / "broken.pbl", folder / "cut.pbl", EXAMPLES / "ring"
    broken.write_text(BROKEN)
    cut.write_text(CUT)
    for command in WHOLE:
        yield command, EXAMPLES / "jacobi.pbl"
        yield command, broken
        yield command, cut
    yield "expand", EXAMPLES / "coupled" / "coupled.calls"
    yield "strips", EXAMPLES / "halo" / "halo.strips"
    yield "cost", EXAMPLES / "halves.pbl"
    yield "gen", ring / "ring.pbl", ring / "ring.kernels"
    yield "gen", EXAMPLES / "jacobi.pbl", ring / "ring.kernels"
    yield "run", EXAMPLES / "ring.pbl", "--n", "3"
    yield "run", EXAMPLES / "reduction.pbl", "--n", "3", "--mode", "waiting"
    yield "run", EXAMPLES / "ring.pbl", "--n", "3", "--schedule"
    yield "run", broken, "--n", "4"
    yield "run", EXAMPLES / "ring.pbl", "--n", "two"
    for name in ("token", "jacobi"):
        text, schedule, protocol = folder / f"{name}.c", folder / f"{name}.schedule", EXAMPLES / f"{name}.pbl"
        text.write_bytes(subprocess.run([program, "gen", protocol], capture_output=True).stdout)
        schedule.write_bytes(subprocess.run([program, "run", protocol, "--n", "3", "--schedule"], capture_output=True).stdout)
        log = folder / f"{name}.log"
        log.write_bytes(subprocess.run([program, "run", protocol, "--n", "3", "--turns", "60"], capture_output=True).stdout)
        yield "judge", protocol, log, "--n", "3"
        yield "judge", protocol, schedule, "--n", "3"
        yield "sim", text, "--n", "3", "--mode", "mixed", "--turns", "60"
        yield "sim", schedule, "--n", "3"
        yield "replay", text, schedule, "--n", "3"
        yield "replay", text, text, "--n", "3"


def main(program):
    passed, wrong = 0, []
    with tempfile.TemporaryDirectory() as name, ThreadPoolExecutor(PROCESSES) as pool:
        library = Path(name) / "no-memory.so"
        subprocess.run(["cc", "-O1", "-shared", "-fPIC", TOP / "checks/no-memory.c", "-o", library], check=True)
        for words in commands(program, Path(name)):
            run = Run(program, library, *words)
            title = " ".join(Path(word).name if os.sep in str(word) else word for word in words)
            print(f"{title}: {run.count} allocations, and without refusals status {run.whole[0]}, {len(run.whole[1])} bytes")
            for others in ({}, {"NO_MEMORY_BEHIND": ""}):
                outcomes = run.outcomes(pool, others)
                bad = [k + 1 for k, outcome in enumerate(outcomes) if outcome is None]
                if run.count == 0 or outcomes[-1] != "the same":
                    bad.append(run.count + 1)
                passed, wrong = passed + len(outcomes) - len(bad), wrong + [f"{title}, number {k}, {others}" for k in bad]
                told = ", ".join(f"{count} {outcome}" for outcome, count in Counter(filter(None, outcomes)).items())
                print(f"  {'with all behind it' if others else 'alone'}: {told}")
    print(*wrong[:SHOWN], f"{passed} passed, {len(wrong)} failed", sep="\n")
    return 1 if wrong else 0


if __name__ == "__main__":
    sys.exit(main(sys.argv[1] if len(sys.argv) > 1 else PABBLE))
