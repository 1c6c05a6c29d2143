#!/usr/bin/env python3
"""Compares what the program says on standard error with the files of `checks/explain`: `explain.py [PROGRAM]`, by default the one
that `pabble` runs.

A file there has lines `KEY: VALUE`, then sections, each behind a line `==== NAME`. The keys are `words`, those after the program's
name, as a shell parts them, with `\\xHH` for a byte; `status`; and, where it is needed, `before`, a command for bash that makes
more files, and `out`, the file that takes what the call writes. The sections are the files of the call, and at the end `said`, what
is said on standard error. A line `@repeat COUNT LINE` of a file stands for so many lines; in each `<<EXPRESSION>>` is computed with
its number k, from 1.

Rows named `draft` are protocols as one first writes them, each with what led to the next one. Besides, `check` is silent there on
every protocol in `examples`, and `check`, `gen` and `project` write and answer the same of each draft with standard error closed.
"""
import os
import re
import shlex
import subprocess
import sys
import tempfile
from concurrent.futures import ThreadPoolExecutor
from pathlib import Path

TOP = Path(__file__).resolve().parent.parent
FOLDER = TOP / "checks/explain"
PROCESSES, SECONDS = 4, 60


def expanded(lines):
    """The lines of a file, with those that are repeated."""
    for line in lines:
        found = re.fullmatch(r"@repeat (\d+) (.*)", line)
        for k in range(1, int(found[1]) + 1 if found else 2):
            yield re.sub(r"<<(.*?)>>", lambda it: str(eval(it[1], {"k": k})), found[2]) if found else line


def read(path):
    """The keys of a row, and its sections."""
    head, *sections = re.split(r"^==== (.*)\n", path.read_text(), flags=re.M)
    keys = dict(line.split(": ", 1) for line in head.splitlines() if line)
    return keys, dict(zip(sections[::2], sections[1::2]))


def word(text):
    """A word of the call as bytes."""
    return re.sub(rb"\\x([0-9a-f]{2})", lambda it: bytes([int(it[1], 16)]), text.encode())


def said(program, path):
    """The status of a row's call, and what is said."""
    keys, sections = read(path)
    with tempfile.TemporaryDirectory() as room:
        for name, text in sections.items():
            if name != "said":
                Path(room, name).write_text("".join(line + "\n" for line in expanded(text.splitlines())))
        if "before" in keys:
            subprocess.run(["bash", "-c", keys["before"]], cwd=room, env={**os.environ, "PABBLE": program}, check=True,
                           stderr=subprocess.DEVNULL, timeout=SECONDS)
        words = [word(it) for it in shlex.split(keys.get("words", "").replace("\\", "\\\\"))]
        with open(keys.get("out", os.devnull), "wb") as out:
            done = subprocess.run([program, *words], cwd=room, stdin=subprocess.DEVNULL, stdout=out, stderr=subprocess.PIPE,
                                  timeout=SECONDS)
    return done.returncode, done.stderr.decode(errors="replace")


def row(program, path):
    """What is wrong with a row, or None."""
    keys, sections = read(path)
    status, text = said(program, path)
    if (status, text) == (int(keys["status"]), sections["said"]):
        return None
    return f"{path.name}: status {status}, and it says:\n{text}"


def silent(program, path):
    """What is wrong with a protocol on which nothing is to be said, or None."""
    done = subprocess.run([program, "check", path], stdout=subprocess.DEVNULL, stderr=subprocess.PIPE, timeout=SECONDS)
    return f"{path}: it says:\n{done.stderr.decode(errors='replace')}" if done.stderr else None


def closed(program, path):
    """Whether something else is written or answered of a row's protocol where standard error is closed."""
    _, sections = read(path)
    with tempfile.TemporaryDirectory() as room:
        Path(room, "p.pbl").write_text("".join(line + "\n" for line in expanded(sections["p.pbl"].splitlines())))
        for command in ("check", "gen", "project"):
            opened, shut = (subprocess.run(["bash", "-c", f'"$0" {command} p.pbl {end}', program], cwd=room, capture_output=True,
                                           timeout=SECONDS) for end in ("2>&2", "2>&-"))
            if (opened.returncode, opened.stdout) != (shut.returncode, shut.stdout):
                return f"{path.name}: with standard error closed {command} answers otherwise"
    return None


def main(words):
    program = os.path.abspath(words[0] if words else os.environ.get("PABBLE") or
                              subprocess.check_output([TOP / "scripts/program.sh"], text=True).strip())
    rows = sorted(FOLDER.glob("*.txt"))
    examples = sorted([*TOP.glob("examples/*.pbl"), *TOP.glob("examples/*/*.pbl")])
    tasks = [(row, it) for it in rows] + [(silent, it) for it in examples] + [(closed, it) for it in rows if it.name.startswith("draft")]
    with ThreadPoolExecutor(PROCESSES) as pool:
        found = list(pool.map(lambda task: task[0](program, task[1]), tasks))
    wrong = [it for it in found if it]
    print(*wrong, f"{len(found) - len(wrong)} passed, {len(wrong)} failed", sep="\n")
    return 1 if wrong or not rows else 0


if __name__ == "__main__":
    sys.exit(main(sys.argv[1:]))
