#!/usr/bin/env python3
"""Plays the sessions of checks/sessions on the built program: calls as they look in a shell, and what each must answer.

usage: checks/sessions.py [--pabble PROGRAM] [NAME..]

PROGRAM is what `scripts/program.sh` names, where it isn't given; the NAMEs are of files in checks/sessions without their ending, all
of them where none is given. The last line is 'N passed, N failed', of calls.

A file is made of sessions, each with a line `# what it shows` above it, and each is played in an empty folder of its own:

  $ cat > NAME        makes a file of what stands below, up to the next line with `$ ` in front; where that ends with a backslash, the
                      file ends before it
  $ WORDS > NAME      makes one of what the program writes for these words
  $ WORDS             stands above what it must answer: `status N`, and below that what it writes, where `...` stands for any text.
                      Of calls with `; ` between them each must answer so.
"""
import os
import re
import subprocess
import sys
import tempfile

TOP = os.path.dirname(os.path.dirname(os.path.realpath(__file__)))
STEP = re.compile(r"^\$ (.*)\n((?:(?!\$ ).*\n)*)", re.M)


def sessions_in(text):
    """What each session shows, and its steps: the line behind `$ `, and the lines below it."""
    for part in re.split(r"^# ", text, flags=re.M)[1:]:
        title, _, steps = part.partition("\n")
        yield title, STEP.findall(steps)


def called(program, words, room):
    return subprocess.run([program, *words.split()], cwd=room, stdin=subprocess.DEVNULL, stdout=subprocess.PIPE, stderr=subprocess.DEVNULL, timeout=120)


def is_like(text, wanted):
    return re.fullmatch(".*".join(map(re.escape, wanted.split("..."))), text, re.S) is not None


def play(program, steps, room):
    """How many calls answered as they must, and what was said of the others."""
    passed, faults = 0, []
    for line, below in steps:
        words, made, name = line.partition(" > ")
        if made:
            written = below.removesuffix("\\\n").encode() if words == "cat" else called(program, words, room).stdout
            with open(os.path.join(room, name), "wb") as it:
                it.write(written)
            continue
        for call in line.split("; "):
            done = called(program, call, room)
            answer = f"status {done.returncode}\n{done.stdout.decode(errors='replace')}"
            if is_like(answer, below):
                passed += 1
            else:
                faults.append(f"$ {call}\n{answer}")
    return passed, faults


def main(words):
    if words[:1] == ["--pabble"]:
        program, words = words[1], words[2:]
    else:
        program = subprocess.check_output([f"{TOP}/scripts/program.sh"], text=True).strip()
    folder, passed, failed = f"{TOP}/checks/sessions", 0, 0
    for name in words or sorted(it.removesuffix(".txt") for it in os.listdir(folder)):
        with open(f"{folder}/{name}.txt", encoding="utf-8", newline="") as it:
            text = it.read()
        for title, steps in sessions_in(text):
            with tempfile.TemporaryDirectory() as room:
                good, faults = play(os.path.abspath(program), steps, room)
            passed, failed = passed + good, failed + len(faults)
            for fault in faults:
                print(f"{name}: {title}\n{fault}", flush=True)
    print(f"{passed} passed, {failed} failed")
    return 1 if failed or not passed else 0


if __name__ == "__main__":
    sys.exit(main(sys.argv[1:]))
