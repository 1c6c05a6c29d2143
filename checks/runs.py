#!/usr/bin/env python3
"""Runs random accepted protocols, and compares each rank with the sequential run: `runs.py [COUNT [SEED]]`.
COUNT accepted files are made, by the generator of `definitions.py`, and each is run at three N in three modes, with the
seed 0, whose words `plain` takes too:
- `run` of the file and `sim` of the text that `gen` prints of it give the same bytes and status;
- `replay` of the schedule that `run` writes, on that text, gives the log again;
- what a rank does begins its part of the actions that `plain` shows, and is all of it where the run has ended. It is
  never stuck;
- `judge` says of the log that it is whole where the run has ended, and else that it is covered.
Then the tags of two receives of the text are exchanged, each of a label that no other receive has. Where the sequential
run has such a receive and ends, the changed text must be told from it; and `judge` says of its log that it departs exactly
where a rank does what its part doesn't have. The last line is 'N passed, N failed'.
"""
import random
import re
import subprocess
import sys
import tempfile
from collections import Counter
from concurrent.futures import ThreadPoolExecutor
from pathlib import Path

from definitions import PABBLE, PLAIN, File

MODES = ("eager", "waiting", "mixed")
TURNS, ACTIONS, MOST_ACTIONS = 1500, 8000, 1_000_000
DONE, STUCK, TURNS_MADE, DEPARTS = 0, 10, 11, 17
RECEIVE = re.compile(r"MPI_Recv\(\w+, \d+, \w+, .*, (\d+), MPI_COMM_WORLD, MPI_STATUS_IGNORE\);")
LABEL = re.compile(r"/\* label (\w+) ")
# A text whose receives have the wrong order: it must be told apart in each mode.
TWO = "const N = 2..max;\nglobal protocol P(role W[0..N-1]) {\n  A() from W[0] to W[1];\n  B() from W[0] to W[1];\n}\n"


def called(*words):
    said = subprocess.run(words, capture_output=True, text=True, timeout=120)
    return said.returncode, said.stdout


def by_rank(lines):
    """The lines of each rank, in order."""
    ranks = {}
    for line in lines:
        ranks.setdefault(line.split(" ", 1)[0], []).append(line)
    return ranks


class Sequence:
    """The sequential run of a file at one N, as far as it is wanted."""

    def __init__(self, path, n):
        self.words, self.shown = [PLAIN, path, str(n)], 0
        self.show(ACTIONS)

    def show(self, count):
        code, text = called(*self.words, str(count))
        if code:
            raise RuntimeError(f"plain: {text}")
        lines = text.splitlines()
        start = next(k for k, line in enumerate(lines) if line.startswith("actions "))
        self.shown, self.ended, self.ranks = count, lines[-1] == "ended", by_rank(lines[start + 1 : -1])

    def of(self, rank, length):
        """The first actions of a rank, at least so many where there are so many."""
        while len(self.ranks.get(rank, [])) < length and not self.ended and self.shown < MOST_ACTIONS:
            self.show(min(self.shown * 5, MOST_ACTIONS))
        return self.ranks.get(rank, [])

    def has(self, label):
        """Whether some rank receives this label, as far as the actions are shown."""
        return any(re.fullmatch(rf"\d+ recv \d+ {label}", line) for lines in self.ranks.values() for line in lines)


def difference(log, code, sequence):
    """What a run does that the sequential run doesn't, or None."""
    if code not in (DONE, TURNS_MADE):
        return f"code {code}, {log.splitlines()[-1:]}"
    done = by_rank(line for line in log.splitlines() if line[0].isdigit())
    for rank, actions in done.items():
        if sequence.of(rank, len(actions))[: len(actions)] != actions:
            return f"rank {rank} does what its part of the run doesn't have"
    if code == DONE and (not sequence.ended or done != sequence.ranks):
        return "ended, and not all was done"
    return None


def replayed(path, printed, options):
    """What a replay of the schedule of a run answers."""
    _, schedule = called(PABBLE, "run", path, *options, "--schedule")
    file = path.with_suffix(".schedule")
    file.write_text("".join(line for line in schedule.splitlines(True) if not line.startswith("pabble: ")))
    return called(PABBLE, "replay", printed, file, "--n", options[1])


def judged(path, log, options):
    """What `judge` answers to a log of a protocol."""
    file = path.with_suffix(".log")
    file.write_text(log)
    return called(PABBLE, "judge", path, file, "--n", options[1])


def mistake(path, printed, options, sequence, ends):
    """What is wrong with one run, or None."""
    code, log = called(PABBLE, "run", path, *options)
    ends[code] += 1
    if called(PABBLE, "sim", printed, *options) != (code, log):
        return "run and sim differ"
    if replayed(path, printed, options) != (code, log):
        return "run and the replay of its schedule differ"
    if judged(path, log, options) != (DONE, "whole\n" if code == DONE else "covered\n"):
        return "judge doesn't say of the run's log what it is"
    return difference(log, code, sequence)


def exchanged(text, rng):
    """The text with the tags of two receives exchanged, and the labels; None where there are no two."""
    labels, tags = LABEL.findall(text), {}
    for found in RECEIVE.finditer(text):
        tags.setdefault(int(found[1]), []).append(found.span(1))
    lone = [(places[0], tag) for tag, places in sorted(tags.items()) if len(places) == 1]
    if len(lone) < 2:
        return None
    (one, a), (other, b) = sorted(rng.sample(lone, 2))
    changed = text[: one[0]] + str(b) + text[one[1] : other[0]] + str(a) + text[other[1] :]
    return changed, (labels[a], labels[b])


def slips(path, change, options, sequence, ends):
    """What is wrong where a changed text of a file isn't told from the sequential run, or None."""
    changed, labels = change
    text = path.with_suffix(".changed.c")
    text.write_text(changed)
    code, log = called(PABBLE, "sim", text, *options)
    why = difference(log, code, sequence)
    is_told = why is not None
    departs = judged(path, log, options)[0] == DEPARTS
    if code in (DONE, TURNS_MADE) and departs != (is_told and why.startswith("rank")):
        return "judge doesn't say of the log of the changed text what it is"
    ends["told" if is_told else "not told"] += 1
    if not is_told and sequence.ended and any(map(sequence.has, labels)):
        return f"the tags of {' and '.join(labels)} are exchanged, and it isn't told"
    return None


def compare(path, low, rng, ends):
    """What is wrong with each run of a file: None where nothing is."""
    code, text = called(PABBLE, "gen", path)
    if code != DONE:
        return [f"gen: {text}"]
    printed, change, found = path.with_suffix(".c"), exchanged(text, rng), []
    printed.write_text(text)
    for n in (low, low + 1, low + 3):
        sequence = Sequence(path, n)
        for mode in MODES:
            options = ["--n", str(n), "--mode", mode, "--turns", str(TURNS)]
            wrong = [mistake(path, printed, options, sequence, ends)]
            if change:
                wrong.append(slips(path, change, options, sequence, ends))
            found += [why and f"N = {n}, {mode}: {why}" for why in wrong]
    return found


def untold(folder):
    """The modes in which the changed text of the worked file is as good as the file's own."""
    path = Path(folder) / "two.pbl"
    path.write_text(TWO)
    changed, _ = exchanged(called(PABBLE, "gen", path)[1], random.Random(0))
    path.with_suffix(".c").write_text(changed)
    runs = {mode: called(PABBLE, "sim", path.with_suffix(".c"), "--n", "2", "--mode", mode) for mode in MODES}
    return [mode for mode, (code, log) in runs.items() if difference(log, code, Sequence(path, 2)) is None]


def accepted(folder, count, rng):
    """So many accepted files, each with the least N of its range, and how many were made for that."""
    files, made = [], 0
    while len(files) < count:
        file, path = File(rng), Path(folder) / f"{made}.pbl"
        path.write_text(file.text())
        made += 1
        if called(PABBLE, "check", path)[1] == "accepted\n":
            files.append((path, file.low))
    return files, made


def main(count, seed):
    rng, passed, failed, ends = random.Random(seed), 0, 0, Counter()
    with tempfile.TemporaryDirectory() as folder, ThreadPoolExecutor(4) as pool:
        slipped = untold(folder)
        files, made = accepted(folder, count, rng)
        work = [(path, low, random.Random(f"{seed} {path.name}"), ends) for path, low in files]
        for (path, _), found in zip(files, pool.map(lambda it: compare(*it), work)):
            wrong = [why for why in found if why]
            passed, failed = passed + len(found) - len(wrong), failed + len(wrong)
            if wrong:
                print(f"{wrong[:3]}\n{path.read_text()}")
    print(f"{count} accepted files of {made}: {ends[DONE]} runs ended, {ends[TURNS_MADE]} made all turns")
    print(f"of the runs of changed texts {ends['told']} were told, and {ends['not told']} not")
    if slipped:
        print(f"not told in the modes {slipped}:\n{TWO}")
    print(f"{passed + len(MODES) - len(slipped)} passed, {failed + len(slipped)} failed")
    return 1 if failed or slipped else 0


if __name__ == "__main__":
    words = [int(w) for w in sys.argv[1:]]
    sys.exit(main(words[0] if words else 300, words[1] if len(words) > 1 else 1))
