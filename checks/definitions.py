#!/usr/bin/env python3
"""Compares `check` with the definitions on random protocols: `definitions.py [COUNT [SEED]]`. Each file is given to
`pabble check`, and to `plain` at the first few numbers of its range. `plain` lists every breach at one N; the least of
them, by rule, place, N and rank, must be the one that `check` names, as far as the numbers go that were looked at: where
`check` names a greater N, or accepts, none may be listed that comes before. A file that breaks one of the rules 1 to 5
must have the same line from both, which decide these rules by the same call. The last line is 'N passed, N failed'.
"""
import os
import random
import re
import subprocess
import sys
import tempfile
from concurrent.futures import ThreadPoolExecutor
from pathlib import Path

TOP = Path(__file__).resolve().parent.parent
# the program that `pabble` runs and the one that `rt` has built, or others that the environment names
PABBLE = Path(os.environ.get("PABBLE") or subprocess.check_output([TOP / "scripts/program.sh"], text=True).strip())
PLAIN = Path(os.environ.get("PLAIN", TOP / "crates/plain/out/plain"))
LOOKED_AT = 6
LINE = re.compile(r"rule (\d+) at (\d+):(\d+)(?:, N = (\d+))?(?:, (\w+)\[(-?\d+)\])?")


class File:
    """A random protocol, made of statements that the grammar allows, within the rules 1 to 5 most of the time."""

    def __init__(self, rng):
        self.rng, self.names = rng, 0
        self.roles = ["W"] if rng.random() < 0.6 else ["M", "W"]
        self.low = rng.randint(2, 6)

    def fresh(self, letter):
        self.names += 1
        return f"{letter}{self.names}"

    def role(self):
        return self.rng.choice(self.roles) if self.rng.random() < 0.3 else "W"

    def index(self, role):
        return "0" if role == "M" else self.rng.choice(["0", "0", "1", "1", "2", "N-1", "N-1", "N-2"])

    def end(self, but=None):
        while True:
            role = self.role()
            end = f"{role}[{self.index(role)}]"
            if end != but:
                return end

    def label(self):
        return self.rng.choice(["A", "B", "C"]) if self.rng.random() < 0.5 else self.fresh("L")

    def message(self):
        if self.rng.random() < 0.35:
            return self.rng.choice([
                f"{self.label()}() from W[0] to W[i:1..N-1];",
                f"{self.label()}() from W[i:0..N-2] to W[i+1];",
                f"{self.label()}() from W[i:1..N-1] to W[i-1];",
                f"{self.label()}() from W[1] to W[i:2..N-1];",
                f"{self.label()}() from W[0] to W[i:2..N-1];",
            ])
        a = self.end()
        b = self.end(a)
        return f"{self.label()}() from {a} to {b};"

    def foreach(self):
        items = [self.rng.choice([
            f"{self.label()}() from W[i] to W[i+1];",
            f"{self.label()}() from W[0] to W[i+1];",
            f"{self.label()}() from W[i+1] to W[0];",
            "compute T at W[i];",
        ]) for _ in range(self.rng.randint(1, 3))]
        return f"foreach (i:{self.rng.choice(['0', '1'])}..N-2) {{ {' '.join(items)} }}"

    def choice(self, depth, loops):
        kernel = self.fresh("K")
        at = self.end()
        branches = []
        shared = self.message() if self.rng.random() < 0.3 else ""
        for _ in range(self.rng.randint(2, 3)):
            others = [to for to in ["W[0]", "W[1]", "W[N-1]"] if to != at] + ["W[i:1..N-1]"] * (2 if at == "W[0]" else 0)
            label = self.rng.choice("ABC") if self.rng.random() < 0.3 else self.fresh("G")
            start = f"{label}() from {at} to {self.rng.choice(others)};" if self.rng.random() < 0.8 else ""
            if self.rng.random() < 0.4:
                start += f" {self.fresh('H')}() from W[{self.rng.choice('012')}] to W[i:3..N-1];"
            branches.append(f"{start} {shared} {self.block(depth - 1, loops, 2)}")
        return f"choice {kernel} at {at} {{ {' } or { '.join(branches)} }}"

    def rec(self, depth, loops):
        name = self.fresh("X")
        body = self.block(depth - 1, loops + [name], 3)
        return f"rec {name} {{ {body} }}"

    def block(self, depth, loops, most):
        out = []
        for _ in range(self.rng.randint(0, most)):
            what = self.rng.random()
            if what < 0.5 or depth == 0:
                out.append(self.message())
            elif what < 0.6:
                out.append(self.foreach())
            elif what < 0.65:
                out.append("barrier;")
            elif what < 0.85:
                out.append(self.choice(depth, loops))
            else:
                out.append(self.rec(depth, loops))
        if loops and self.rng.random() < 0.4:
            out.append(f"continue {self.rng.choice(loops)};")
        return "\n".join(out)

    def text(self):
        roles = ", ".join("role M" if r == "M" else "role W[0..N-1]" for r in self.roles)
        return f"const N = {self.low}..max;\nglobal protocol P({roles}) {{\n{self.block(3, [], 4)}\n}}\n"


def breaches(text, names):
    """The breaches that are told, each as a rule, a place, an N and a rank; what isn't told counts as least."""
    found = []
    for rule, line, column, n, role, index in LINE.findall(text):
        rank = (names.index(role), int(index)) if role else (-1, 0)
        found.append((int(rule), int(line), int(column), int(n or 0), rank))
    return found


def compare(path, low, roles):
    """Whether both agree, and the rule that is named."""
    said = subprocess.run([PABBLE, "check", path], capture_output=True, text=True, timeout=60)
    named = breaches(said.stdout, roles)
    if named and named[0][0] <= 5:
        shown = subprocess.run([PLAIN, path, str(low), "0"], capture_output=True, text=True, timeout=120)
        alike = shown.stdout.removeprefix("plain") == said.stdout.removeprefix("pabble")
        return alike, named[0][0] if alike else f"{said.stdout}, and {shown.stdout}"
    seen = []
    for n in range(low, low + LOOKED_AT):
        shown = subprocess.run([PLAIN, path, str(n), "0"], capture_output=True, text=True, timeout=120)
        if shown.returncode:
            return False, f"plain at {n}: {shown.stdout}"
        seen += breaches(shown.stdout, roles)
    least = min(seen, default=None)
    if said.stdout == "accepted\n":
        return (True, 0) if least is None else (False, f"accepted, and {least}")
    if not named:
        return False, said.stdout
    if named[0][3] < low + LOOKED_AT:
        return (True, named[0][0]) if named[0] == least else (False, f"{named[0]}, and {least}")
    return (True, named[0][0]) if least is None or named[0] < least else (False, f"{named[0]}, and {least}")


def main(count, seed):
    rng, failed, told = random.Random(seed), 0, {}
    with tempfile.TemporaryDirectory() as folder, ThreadPoolExecutor(4) as pool:
        files = []
        for number in range(count):
            file = File(rng)
            path = Path(folder) / f"{number}.pbl"
            path.write_text(file.text())
            files.append((path, file))
        for (path, _), (right, what) in zip(files, pool.map(lambda f: compare(f[0], f[1].low, f[1].roles), files)):
            if right:
                told[what] = told.get(what, 0) + 1
            else:
                failed += 1
                print(f"{what}\n{path.read_text()}")
    print("accepted" if 0 in told else "none accepted", told.get(0, 0), "and by rule", dict(sorted((k, v) for k, v in told.items() if k)))
    print(f"{count - failed} passed, {failed} failed")
    return 1 if failed else 0


if __name__ == "__main__":
    words = [int(w) for w in sys.argv[1:]]
    sys.exit(main(words[0] if words else 500, words[1] if len(words) > 1 else 1))
