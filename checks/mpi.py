#!/usr/bin/env python3
"""Compiles printed texts with mpicc, runs them on 2 to 8 ranks, and compares what each rank did with the sequential run.

usage: checks/mpi.py [--pabble PROGRAM] [--plain PROGRAM] [--logs FOLDER] [--mpicc WORD] [--mpiexec WORDS] [FILE.pbl ..]

Without files, those of examples/ are taken. Kernel bodies are filled in here: they take the words that a run with seed 0 has, so each
rank's calls must be its part of the actions that `plain` shows. Each N is run with buffered sends and with sends that wait.
The logs of a run's ranks, one behind the other, are judged by `pabble judge`, which must say `whole`, or `covered` where the run was
broken off. They are written to FOLDER, as NAME-N-buffered.log and NAME-N-waiting.log, where one is named.
The compiler is `mpicc` and the words in front of a number of ranks `mpiexec -n`, where none are named. Where no MPI is installed,
the script says so and passes nothing.
"""
import os
import re
import shlex
import shutil
import subprocess
import sys
import tempfile
from glob import glob

TOP = os.path.dirname(os.path.dirname(os.path.realpath(__file__)))
ACTIONS = 2000
SECONDS = 60

# Open MPI starts more ranks than processors, and as root, only where it is told to.
OPEN_MPI = {
    "OMPI_ALLOW_RUN_AS_ROOT": "1",
    "OMPI_ALLOW_RUN_AS_ROOT_CONFIRM": "1",
    "OMPI_MCA_rmaps_base_oversubscribe": "1",
    "OMPI_MCA_mpi_yield_when_idle": "1",
}


def option(words, name, other):
    if name in words:
        at = words.index(name)
        found = words[at + 1]
        del words[at : at + 2]
        return found
    return other


def filled(text):
    """The text with kernel bodies that take the words of the seed 0 and log runs and choices."""
    counts = {name: int(count) for name, count in re.findall(r"/\* label (\w+) u?int32\[(\d+)\] \*/", text)}
    branches = {}
    lines = text.split("\n")
    for at, line in enumerate(lines):
        found = re.match(r"( *)a = c_(\w+)\(N, R, I\);", line)
        if not found:
            continue
        # the chain of branches stands one step further out, behind the one that sets `a`
        room, name = found[1][2:], found[2]
        start = next(k for k in range(at, len(lines)) if lines[k] == f"{room}if (a == 0) {{")
        end = next(k for k in range(start, len(lines)) if lines[k] == f"{room}}}")
        number = 1 + sum(1 for k in range(start, end) if lines[k].startswith(f"{room}}} else "))
        if branches.setdefault(name, number) != number:
            return None
    bodies = {"prelude": "extern uint32_t mpi_log_word(void);\nextern void mpi_log_line(const char *);\n"}
    for name, count in counts.items():
        bodies[f"make_{name}"] = f'  for (int k = 0; k < {count}; k++) v[k] = mpi_log_word();\n  mpi_log_line("made {name}");\n'
        bodies[f"take_{name}"] = f'  mpi_log_line("took {name}");\n'
    for name, number in branches.items():
        said = "".join(f'  if (x == {k}) mpi_log_line("choose {name} {k}");\n' for k in range(number))
        bodies[f"c_{name}"] = f"  int x = mpi_log_word() % {number};\n{said}  return x;\n"
    for name in re.findall(r"static void k_(\w+)\(", text):
        bodies[f"k_{name}"] = f'  mpi_log_line("run {name}");\n'
    for name, body in bodies.items():
        head = f"/*@ {'' if name == 'prelude' else 'kernel '}{name} */\n"
        text = re.sub(re.escape(head) + r"(.*?)/\*@ end \*/", lambda it: head + body + "/*@ end */", text, flags=re.S)
    return text


def wanted(lines, rank):
    """A rank's part of the actions that `plain` shows, in the words of the log."""
    found = []
    for line in lines:
        words = line.split(" ")
        if words[0] != str(rank):
            continue
        what, rest = words[1], words[2:]
        if what in ("enter", "leave"):
            label, values = rest[0], rest[1:]
            head = f"{what} barrier" if label == "barrier" else f"{what} ?"
        elif what in ("send", "recv"):
            label, values = rest[1], rest[2:]
            head = f"{what} {rest[0]} {label}"
        else:
            found.append(" ".join(words[1:]))
            continue
        values = [str(int(it) % 2**32) for it in values]
        found.append(" ".join([head, *values]))
    return found


def done(path, labels):
    found = []
    with open(path) as it:
        for line in it.read().splitlines():
            words = line.split(" ")
            if words[0] in ("send", "recv"):
                words[2] = labels[int(words[2])]
            if words[0] not in ("made", "took"):
                found.append(" ".join(words))
    return found


def judgeable(path, rank, labels, signed):
    """The lines of a rank in the form of a log. A collective's label is that of the words that were made before or taken behind it."""
    with open(path) as it:
        text = it.read()
    lines = [it.split(" ") for it in text.split("\n")[:-1]]
    found = []
    for at, words in enumerate(lines):
        what, rest = words[0], words[1:]
        if what in ("made", "took", "ended"):
            continue
        if what in ("send", "recv"):
            label, head, values = labels[int(rest[1])], [rest[0], labels[int(rest[1])]], rest[2:]
        elif what in ("enter", "leave") and rest[0] == "?":
            beside = lines[at - (1 if what == "enter" else 2)] if at > (what == "leave") else [""]
            behind = lines[at + (2 if what == "enter" else 1) :][:1]
            label = beside[1] if beside[0] == "made" else behind[0][1] if behind and behind[0][0] == "took" else None
            if label is None:
                break
            head, values = [label], rest[1:]
        else:
            label, head, values = None, rest, []
        values = [str(int(it) - 2**32 if label in signed and int(it) >= 2**31 else int(it)) for it in values]
        found.append(" ".join([str(rank), what, *head, *values]) + "\n")
    return found


def ruling(pabble, file, n, size, log, labels, signed, path):
    """What `judge` says of the logs of all ranks, one behind the other."""
    with open(path, "w") as out:
        for rank in range(size):
            out.writelines(judgeable(f"{log}.{rank}", rank, labels, signed))
    if os.path.getsize(path) > 67108864:
        return None
    return subprocess.run([pabble, "judge", file, path, "--n", str(n)], capture_output=True, text=True).stdout.strip()


def run(pabble, plain, mpi, file, room, logs):
    """Returns how many runs agreed and what differed. The MPI is its compiler and the words that start a program."""
    compiler, starting = mpi
    text = subprocess.run([pabble, "gen", file], capture_output=True, text=True)
    if text.returncode:
        return 0, [f"gen: {text.stdout.strip()}"]
    source = filled(text.stdout)
    if source is None:
        return 0, ["a choice kernel is used with different numbers of branches"]
    labels = re.findall(r"/\* label (\w+) ", source)
    signed = set(re.findall(r"/\* label (\w+) int32", source))
    coefficient, offset = [int(it) for it in re.search(r"(-?\d+) \* N \+ (-?\d+) != size", source).groups()]
    only = re.search(r"^  N = (\d+);$", source, re.M)
    with open(f"{room}/text.c", "w") as it:
        it.write(source)
    made = subprocess.run([compiler, "-O1", "-o", f"{room}/text", f"{room}/text.c", f"{TOP}/checks/mpi-log.c"], capture_output=True, text=True)
    if made.returncode:
        return 0, [made.stderr[:400]]
    agreed, differences = 0, []
    for size in range(1, 9):
        n = int(only[1]) if only else (size - offset) // coefficient
        if n * coefficient + offset != size:
            continue
        shown = subprocess.run([plain, file, str(n), str(ACTIONS)], capture_output=True, text=True)
        if shown.returncode == 12:
            continue
        lines = shown.stdout.splitlines()
        ended = lines and lines[-1] == "ended"
        start = next(k for k, it in enumerate(lines) if it.startswith("actions "))
        actions = lines[start + 1 :]
        for waiting in (False, True):
            log = f"{room}/log"
            for old in range(8):
                if os.path.exists(f"{log}.{old}"):
                    os.remove(f"{log}.{old}")
            how = {**os.environ, **OPEN_MPI, "LOG": log, **({"WAITING": "1"} if waiting else {})}
            try:
                ran = subprocess.run([*starting, str(size), f"{room}/text"], env=how, capture_output=True, timeout=SECONDS)
                over = ran.returncode == 0
            except subprocess.TimeoutExpired:
                over = False
            name = f"N = {n}, {'waiting' if waiting else 'buffered'}"
            if ended and not over:
                differences.append(f"{name}: did not end")
                continue
            good = True
            for rank in range(size):
                want, got = wanted(actions, rank), done(f"{log}.{rank}", labels)
                got_ended = got and got[-1] == "ended"
                got = got[:-1] if got_ended else got
                same = got == want and got_ended if ended else got[: len(want)] == want[: len(got)]
                if not same:
                    good = False
                    at = next((k for k in range(min(len(got), len(want))) if got[k] != want[k]), min(len(got), len(want)))
                    differences.append(f"{name}, rank {rank}, action {at}: {got[at:at+1]} for {want[at:at+1]}")
                    break
            kept = f"{logs or room}/{os.path.basename(file)[:-4]}-{n}-{'waiting' if waiting else 'buffered'}.log"
            told = ruling(pabble, file, n, size, log, labels, signed, kept)
            if told not in (None, "whole" if over else "covered"):
                good = False
                differences.append(f"{name}: judge says {told}")
            agreed += good
    return agreed, differences


def main():
    words = sys.argv[1:]
    pabble = option(words, "--pabble", None) or subprocess.check_output([f"{TOP}/scripts/program.sh"], text=True).strip()
    plain = option(words, "--plain", f"{TOP}/crates/plain/out/plain")
    logs = option(words, "--logs", None)
    mpi = option(words, "--mpicc", "mpicc"), shlex.split(option(words, "--mpiexec", "mpiexec -n"))
    if not shutil.which(mpi[0]) or not shutil.which(mpi[1][0]):
        print(f"no MPI is installed here ({mpi[0]}, {mpi[1][0]}): nothing was run, and nothing has passed")
        return 1
    files = words or sorted([*glob(f"{TOP}/examples/*.pbl"), *glob(f"{TOP}/examples/*/*.pbl")])
    passed = failed = 0
    for file in files:
        with tempfile.TemporaryDirectory() as room:
            agreed, differences = run(pabble, plain, mpi, file, room, logs)
        passed, failed = passed + agreed, failed + len(differences)
        print(f"{os.path.basename(file)}: {agreed} runs agreed", *[f"  {it}" for it in differences[:4]], sep="\n", flush=True)
    print(f"{passed} passed, {failed} failed")
    return 1 if failed or not passed else 0


if __name__ == "__main__":
    sys.exit(main())
