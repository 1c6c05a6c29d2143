#!/usr/bin/env python3
"""Gives the program files that were cut, changed, spliced and grown at random: `hostile.py [COUNT [SEED]]`. COUNT cases, 400 where
it isn't given, are made of protocols, texts, schedules, kernel files and logs, those of `hostile-seeds.txt` first. A command may take
10 seconds of processor time and 1 GiB, ends with a status that it can have, and writes what belongs to that: `check`, `project` and
`gen` one line where they refuse. `hostile.py --write SEED FOLDER` writes the files of one case and prints its words. The program is
the one that `pabble` runs, or that PABBLE names. The last line is 'N passed, N failed'.
"""
import os
import random
import re
import subprocess
import sys
import tempfile
from collections import Counter
from concurrent.futures import ThreadPoolExecutor
from pathlib import Path

os.environ.setdefault("PLAIN", "")
from definitions import PABBLE, TOP, File

SEEDS = Path(__file__).resolve().parent / "hostile-seeds.txt"
SECONDS, MEBIBYTES, PROCESSES, SHOWN = 10, 1024, 4, 6
# the largest files that are made: a protocol file and a kernel file may have no more, the others would take long
BYTES = 1_048_576
DONE, REFUSED, LIMIT, NO_MEMORY, KERNEL, TEXT, SCHEDULE, STUCK, TURNS, OUTSIDE, CALL, STRIP, LOOP, DEPARTS, MALFORMED = 0, 1, 5, 6, 7, 8, 9, 10, 11, 12, 14, 15, 16, 17, 18
PLACE = r"\d+:\d+"
LINES = {
    REFUSED: rf"pabble: (syntax at {PLACE}|rule \d+ at {PLACE}(, N = \d+(, \w+\[-?\d+\])?)?)",
    LIMIT: rf"pabble: limit [a-z ]+?( at {PLACE})?",
    KERNEL: r"pabble: kernel (marker at line \d+|(prelude|[kc]_\w+|(make|take)_\w+) (twice|missing|extra))",
    TEXT: rf"pabble: text at {PLACE}",
    SCHEDULE: r"pabble: schedule line \d+",
    STUCK: r"pabble: stuck, rank \d+ .+",
    TURNS: r"pabble: turns \d+",
    OUTSIDE: r"pabble: N = \d+ outside \d+\.\.(\d+|max)",
    CALL: rf"pabble: call (twice|unknown|arity|stranger|cycle) at {PLACE}",
    STRIP: rf"pabble: strip (width|plain|variable|column|clash) at {PLACE}",
    LOOP: rf"pabble: cost loop at {PLACE}",
    DEPARTS: r"pabble: log line \d+, rank \d+ (differs|goes beyond)",
    MALFORMED: r"pabble: log line \d+ is malformed",
}
OF_FILE = {"check", "project", "gen", "expand", "strips", "cost", "judge"}
STATUSES = {
    "check": {DONE, REFUSED, LIMIT},
    "project": {DONE, REFUSED, LIMIT},
    "gen": {DONE, REFUSED, LIMIT, KERNEL},
    "run": {DONE, REFUSED, LIMIT, TURNS, OUTSIDE},
    "sim": {DONE, LIMIT, TEXT, STUCK, TURNS, OUTSIDE},
    "replay": {DONE, LIMIT, TEXT, SCHEDULE, STUCK, TURNS, OUTSIDE},
    "expand": {DONE, REFUSED, LIMIT, CALL},
    "strips": {DONE, REFUSED, LIMIT, STRIP},
    "cost": {DONE, REFUSED, LIMIT, LOOP},
    "judge": {DONE, REFUSED, LIMIT, OUTSIDE, DEPARTS, MALFORMED},
}
NUMBERS = [b"0", b"1", b"63", b"64", b"255", b"1023", b"1024", b"1025", b"4000", b"65535", b"65536", b"99999", b"100000", b"999999", b"1000000",
           b"2000000000", b"2147483647", b"2147483648", b"4294967295", b"4294967296", b"18446744073709551616", b"-1", b"007"]
PIECES = [b"/*", b"*/", b"/*@ end */\n", b"/*@ kernel k_K */\n", b"{", b"}", b";", b"\n", b"\0", b"\xff", b" or {", b"continue X;", b"[i:0..N-1]", b"  "]


class Corpus:
    """What the cases are made of: examples, random protocols, and what the program makes of them."""

    def __init__(self):
        self.protocols = [it.read_bytes() for it in sorted(TOP.glob("examples/**/*.pbl"))]
        self.calls = [it.read_bytes() for it in sorted(TOP.glob("examples/*/*.calls"))]
        self.strips = [it.read_bytes() for it in sorted(TOP.glob("examples/*/*.strips"))]
        self.kernels = [it.read_bytes() for it in sorted(TOP.glob("examples/*/*.kernels"))]
        self.texts, self.schedules, self.logs, self.runs = [], [], [], []
        for path in sorted(TOP.glob("examples/**/*.pbl")):
            self.texts.append(said("gen", path))
            for n in ("3", "5"):
                self.schedules.append(said("run", path, "--n", n, "--turns", "300", "--schedule", "--mode", "mixed"))
                self.logs.append(said("run", path, "--n", n, "--turns", "300"))
                self.runs.append((path.read_bytes(), n, self.logs[-1]))

    def all(self):
        return self.protocols + self.kernels + self.texts + self.schedules + self.logs


def said(*words):
    return subprocess.run([PABBLE, *words], capture_output=True).stdout


def span(rng, data):
    """A part of the bytes, mostly a small one, or whole lines."""
    if rng.random() < 0.5:
        lines = [0, *(it.end() for it in re.finditer(rb"\n", data)), len(data)]
        return sorted((rng.choice(lines), rng.choice(lines)))
    start = rng.randint(0, len(data))
    return start, min(len(data), start + rng.choice([1, 1, 2, 5, 20, 200]))


def changed(rng, data, corpus):
    """The bytes with one change."""
    start, end = span(rng, data)
    kind = rng.choice(["cut", "drop", "double", "swap", "flip", "number", "piece", "splice", "word", "grow"])
    if kind == "cut":
        return data[:start]
    if kind == "drop":
        return data[:start] + data[end:]
    if kind == "double":
        return data[:end] + data[start:]
    if kind == "swap":
        other = span(rng, data)
        return data[:start] + data[other[0] : other[1]] + data[end:]
    if kind == "flip":
        return data[:start] + bytes(rng.randrange(256) for _ in range(min(end - start, 8))) + data[start + 1 :]
    if kind == "piece":
        return data[:start] + rng.choice(PIECES) + data[start:]
    if kind == "splice":
        other = rng.choice(corpus.all())
        return data[:start] + other[span(rng, other)[0] :]
    if kind == "grow":
        times = max(1, min(rng.choice([10, 100, 1000, 20000]), (BYTES - len(data)) // max(1, end - start)))
        return data[:start] + data[start:end] * times + data[end:]
    found = list(re.finditer(rb"\d+" if kind == "number" else rb"\w+", data))
    if not found:
        return data
    it = rng.choice(found)
    return data[: it.start()] + (rng.choice(NUMBERS) if kind == "number" else rng.choice(found)[0]) + data[it.end() :]


def bent(rng, data):
    """A text or a schedule with one change that keeps the form of its lines: another small number, or a piece that is left out,
    doubled, or exchanged with the next one."""
    if rng.random() < 0.5:
        found = list(re.finditer(rb"(?<=[ ,(])\d+(?=[ ,);])|(?<=\n)\d+", data))
        it = rng.choice(found) if found else None
        return data[: it.start()] + b"%d" % rng.randrange(4) + data[it.end() :] if it else data
    pieces = re.split(rb"(?m)(?=^  if |^\d)", data)
    at = rng.randrange(len(pieces))
    pieces[at : at + 2] = rng.choice([pieces[at + 1 : at + 2], 2 * pieces[at : at + 1] + pieces[at + 1 : at + 2], pieces[at : at + 2][::-1]])
    return b"".join(pieces)


def hostile(rng, data, corpus):
    for _ in range(rng.choice([1, 1, 1, 2, 3, 8])):
        data = changed(rng, data, corpus)
    return data[:BYTES]


def judged(rng, corpus):
    """A case of `judge`: a log of a protocol, mostly changed."""
    protocol, n, log = rng.choice(corpus.runs)
    for _ in range(rng.choice([0, 1, 2, 4])):
        log = bent(rng, log)
    log = log if rng.random() < 0.7 else hostile(rng, log, corpus)
    return {"p": protocol, "l": log}, ["judge", "p", "l", "--n", n if rng.random() < 0.9 else rng.choice(["0", "2", "1024", "1025"])]


def made(seed, corpus):
    """The files of a case, by their names, and its words. Seeds that end with 6 are of `strips`, those with 7
    of `expand`, those with 8 of `cost`, and those with 9 of `judge`."""
    rng = random.Random(f"hostile {seed}")
    if seed.endswith("6"):
        return {"p": hostile(rng, rng.choice(corpus.strips), corpus)}, ["strips", "p"]
    if seed.endswith("7"):
        return {"p": hostile(rng, rng.choice(corpus.calls), corpus)}, ["expand", "p"]
    if seed.endswith("8"):
        protocol = rng.choice(corpus.protocols) if rng.random() < 0.5 else File(rng).text().encode()
        return {"p": protocol if rng.random() < 0.5 else hostile(rng, protocol, corpus)}, ["cost", "p"]
    if seed.endswith("9"):
        return judged(rng, corpus)
    command = rng.choice(["check", "project", "gen", "kernels", "run", "sim", "sim", "replay", "replay"])
    n = rng.choice(["0", "1", "2", "3", "3", "3", "4", "5", "5", "50", "1024", "2000000000"])
    options = ["--n", n, "--turns", rng.choice(["1", "100", "20000", "200000"]), "--mode", rng.choice(["eager", "waiting", "mixed"])]
    protocol = rng.choice(corpus.protocols) if rng.random() < 0.7 else File(rng).text().encode()
    if command in ("check", "project", "gen"):
        return {"p": hostile(rng, protocol, corpus)}, [command, "p"]
    if command == "kernels":
        kernels = rng.choice(corpus.kernels + corpus.texts)
        return {"p": protocol, "k": hostile(rng, kernels, corpus)}, ["gen", "p", "k"]
    if command == "run":
        return {"p": hostile(rng, protocol, corpus)}, ["run", "p", *options]
    text = rng.choice(corpus.texts)
    for _ in range(rng.choice([0, 1, 2, 4])):
        text = bent(rng, text)
    if command == "sim":
        return {"t": text if rng.random() < 0.7 else hostile(rng, text, corpus)}, ["sim", "t", *options]
    schedule = rng.choice(corpus.schedules) if rng.random() < 0.8 else rng.choice(corpus.logs)
    for _ in range(rng.choice([0, 1, 2, 4])):
        schedule = bent(rng, schedule)
    schedule = schedule if rng.random() < 0.7 else hostile(rng, schedule, corpus)
    return {"t": text, "s": schedule}, ["replay", "t", "s", "--n", n]


def wrong(command, code, out):
    """What is wrong with an answer, or None."""
    if code not in STATUSES[command]:
        return f"status {code}, {out[-80:]!r}"
    lines = out.split(b"\n")
    if lines[-1] != b"":
        return f"status {code}, and the last line has no end"
    last = lines[-2].decode(errors="replace") if len(lines) > 1 else ""
    if code and not re.fullmatch(LINES[code], last):
        return f"status {code}, and the line {last}"
    if code and command in OF_FILE and len(lines) != 2:
        return f"status {code}, and {len(lines) - 1} lines"
    return None


def tried(seed, corpus, folder):
    """What is wrong with a case, or None, with the processor time in seconds and the memory in MiB that it took."""
    room = Path(folder) / f"{seed}"
    room.mkdir()
    files, words = made(seed, corpus)
    for name, data in files.items():
        (room / name).write_bytes(data)
    bounded = f"ulimit -t {SECONDS + 1} -v {MEBIBYTES * 1024 + 65536}; exec \"$0\" \"$@\""
    with open(room / "out", "wb+") as out:
        child = subprocess.Popen(["sh", "-c", bounded, PABBLE, *words], cwd=room, stdout=out, stderr=subprocess.DEVNULL)
        _, status, used = os.wait4(child.pid, 0)
        child.returncode = os.waitstatus_to_exitcode(status)
        out.seek(0)
        said = out.read()
    for it in room.iterdir():
        it.unlink()
    seconds, memory = used.ru_utime + used.ru_stime, used.ru_maxrss / 1024
    why = wrong(words[0], child.returncode, said)
    if why is None and seconds > SECONDS:
        why = f"{seconds:.1f} s"
    return why and f"{' '.join(words)}: {why}", seconds, memory, words, child.returncode


def main(words):
    corpus = Corpus()
    if words[:1] == ["--write"]:
        files, asked = made(words[1], corpus)
        for name, data in files.items():
            (Path(words[2]) / name).write_bytes(data)
        print(" ".join(asked))
        return 0
    count, seed = (int(word) for word in (words + ["400", "1"][len(words):])[:2])
    kept = [line.split()[0] for line in SEEDS.read_text().splitlines() if line and not line.startswith("#")]
    seeds = list(dict.fromkeys(kept + [f"{seed}.{number}" for number in range(count)]))[: max(count, len(kept))]
    with tempfile.TemporaryDirectory() as folder, ThreadPoolExecutor(PROCESSES) as pool:
        rows = list(zip(seeds, pool.map(lambda it: tried(it, corpus, folder), seeds)))
    failed = [f"{at}: {why}" for at, (why, *_) in rows if why]
    print("by status:", ", ".join(f"{count} of {status}" for status, count in sorted(Counter(it[-1] for _, it in rows).items())))
    for at, (_, seconds, memory, asked, _) in sorted(rows, key=lambda it: -it[1][1])[:SHOWN]:
        print(f"{at}: {seconds:.2f} s, {memory:.0f} MiB, {' '.join(asked)}")
    print(*failed[:20], f"{len(rows) - len(failed)} passed, {len(failed)} failed", sep="\n")
    return 1 if failed or not rows else 0


if __name__ == "__main__":
    sys.exit(main(sys.argv[1:]))
