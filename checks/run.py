#!/usr/bin/env python3
"""Compares the program with the reference recogniser: `run.py [PROGRAM]`, by default the one that `pabble` runs.
`run.py --write` writes the two tables anew. They have small changes of a file with every statement: each token deleted,
with blanks in its place so that no other token moves, and each doubled; and each keyword in the places of names.
The other rows are an example and the file with every statement, and their fronts. Besides, `expand` refuses the fronts of a file
with every statement in a subprotocol, but for the front that lacks the last line end alone.
"""
import re
import subprocess
import sys
import tempfile
from concurrent.futures import ThreadPoolExecutor
from pathlib import Path

from grammar import KEYWORDS, answer, lex

FOLDER = Path(__file__).resolve().parent
EXAMPLE = (FOLDER.parent / "examples/first.pbl").read_bytes()
EVERY = re.search(rb"```\n(const [^`]* protocol Every\([^`]*)```", (FOLDER.parent / "docs/LANGUAGE.md").read_bytes())[1]
# The same statements in a subprotocol, which calls itself.
CALLS = EVERY.replace(b"global protocol Every(role M, role W[0..N-1])", b"protocol Every(role M, role W)").replace(
    b"continue X;", b"do Every(M, W); continue X;") + b"global protocol P(role M, role W[0..N-1]) {\n  rec Y {\n    do Every(M, W);\n  }\n}\n"
TOKENS = [(token.start, token.end, EVERY[token.start:token.end].decode()) for token in lex(EVERY)[:-1]]
# Places of names in that file: the name there, and which of its appearances it is, from 0.
PLACES = {"constant": ("N", 0), "constant of a lin": ("N", 1), "protocol": ("Every", 0), "role": ("M", 0),
          "role of an end": ("W", 1), "label": ("A", 0), "label of a collective": ("L", 0), "kernel": ("K", 0),
          "kernel of a choice": ("C", 0), "loop": ("X", 0), "loop of a continue": ("X", 1), "variable": ("i", 0),
          "variable of a lin": ("i", 1), "variable of a foreach": ("i", 2)}
BROKEN = re.compile(rb"pabble: rule (?:[1-9]|1[0-2]) at [0-9]+:[0-9]+(, N = [0-9]+(, [A-Za-z0-9_]+\[-?[0-9]+\])?)?\n")
UNREAD, CYCLE = re.compile(rb"pabble: syntax at [0-9]+:[0-9]+\n"), re.compile(rb"pabble: call cycle at [0-9]+:[0-9]+\n")
SHOWN, PROCESSES, SECONDS = 10, 4, 60


def put(start, end, text):
    return EVERY[:start] + text.encode() + EVERY[end:]


# Both make pairs of a row's name and the file's bytes.
def single_tokens():
    for number, (start, end, text) in enumerate(TOKENS, 1):
        yield f"delete {number} {text}", put(start, end, " " * len(text))
        yield f"double {number} {text}", put(start, end, f"{text} {text}")


def keywords():
    for place, (name, appearance) in PLACES.items():
        start, end, _ = [token for token in TOKENS if token[2] == name][appearance]
        yield from ((f"{place} {keyword}", put(start, end, keyword)) for keyword in KEYWORDS)


def said(program, command, path, data):
    """The status and what is written, or None where there is no answer in time."""
    path.write_bytes(data)
    try:
        done = subprocess.run([program, command, path], stdout=subprocess.PIPE, stderr=subprocess.DEVNULL, timeout=SECONDS)
    except subprocess.TimeoutExpired:
        return None
    return done.returncode, done.stdout


def difference(program, path, name, data):
    """What is wrong with the program's answer, or None."""
    wanted, got = answer(data), said(program, "gen", path, data)
    if got is None:
        return f"{name}: no answer in {SECONDS} seconds"
    code, out = got
    refusal = (5 if " limit " in wanted else 1, f"{wanted}\n".encode())
    # The reference knows no rules: `rules.py` runs files that break one.
    parsed = code == 0 or (code == 1 and BROKEN.fullmatch(out))
    right = parsed if wanted == "ok" else got == refusal
    return None if right else f"{name}: wanted {wanted}, got {code} {out[:80]!r}"


def front_difference(program, path, length):
    """What is wrong with the answer to a front of the file with a subprotocol, or None."""
    got, is_read = said(program, "expand", path, CALLS[:length]), length > CALLS.rindex(b"}")
    status, line = (14, CYCLE) if is_read else (1, UNREAD)
    return None if got and got[0] == status and line.fullmatch(got[1]) else f"front of {length} bytes with a subprotocol: {got}"


def main(program):
    tables = {FOLDER / "single-tokens.txt": list(single_tokens()), FOLDER / "keywords.txt": list(keywords())}
    texts = {path: "".join(f"{name} -> {answer(data)}\n" for name, data in rows) for path, rows in tables.items()}
    if program == "--write":
        for path, text in texts.items():
            path.write_text(text)
        return 0
    wrong = [f"{path.name}: differs from the reference" for path, text in texts.items() if path.read_text() != text]
    rows = [row for rows in tables.values() for row in rows] + [("example", EXAMPLE), ("every statement", EVERY)]
    rows += [(f"front of {length} bytes", data[:length]) for data in (EXAMPLE, EVERY) for length in range(len(data))]
    fronts = range(len(CALLS))
    with tempfile.TemporaryDirectory() as folder, ThreadPoolExecutor(PROCESSES) as pool:
        paths = [Path(folder, f"{number}.pbl") for number in range(len(rows) + len(fronts))]
        found = list(pool.map(difference, [program] * len(rows), paths, *zip(*rows)))
        found += pool.map(front_difference, [program] * len(fronts), paths[len(rows):], fronts)
    wrong += filter(None, found)
    print(*wrong[:SHOWN], f"{found.count(None)} passed, {len(wrong)} failed", sep="\n")
    return 1 if wrong else 0


if __name__ == "__main__":
    built = [FOLDER.parent / "scripts/program.sh"]
    sys.exit(main(sys.argv[1] if len(sys.argv) > 1 else subprocess.check_output(built, text=True).strip()))
