"""What the checks on random files share: the program, its answer to a file, and the run through the files and the examples."""
import os
import random
import subprocess
import tempfile
from pathlib import Path

TOP = Path(__file__).resolve().parent.parent
SHOWN = 5


def program_to_run():
    """The program that PABBLE names, or else the one that `pabble` runs."""
    return os.path.abspath(os.environ.get("PABBLE") or subprocess.check_output([TOP / "scripts/program.sh"], text=True).strip())


def answer(program, *words):
    """The exit status, and what was written."""
    done = subprocess.run([program, *words], capture_output=True, text=True)
    return done.returncode, done.stdout


def rewritten(program, command, path, want):
    """What is wrong of the command's answer to the file, or of its answer to what it wrote, or nothing."""
    got = answer(program, command, path)
    if got != want:
        return f"{got}\nand not\n{want}\nof\n{path.read_text()}"
    if want[0] == 0:
        path.write_text(want[1])
        if answer(program, command, path) != want:
            return f"what `{command}` wrote is written otherwise:\n{want[1]}"
    return None


def examples_of(command, ending):
    """A function from the program to what is wrong of the examples with that ending, each beside the file that is to be written of it."""
    files = sorted(TOP.glob(f"examples/*/*{ending}"))

    def wrong(program):
        for it in files:
            got, want = answer(program, command, it), (0, it.with_suffix(".pbl").read_text())
            yield None if got == want else f"{it}: {got}"

    return wrong


def run(name, wrong, words, wrong_examples=lambda program: ()):
    """Calls `wrong` with the program, a path and a generator, once for each random file, and tells what it found. The words may have a count, by default 300,
    and a seed, by default 1. The last line is 'N passed, M failed'."""
    count, seed = (words + ["300", "1"][len(words):])[:2]
    program = program_to_run()
    with tempfile.TemporaryDirectory() as room:
        path = Path(room) / name
        found = [(f"file {k}: ", wrong(program, path, random.Random(f"{name} {seed} {k}"))) for k in range(int(count))]
    found += [("", why) for why in wrong_examples(program)]
    failures = [where + why for where, why in found if why]
    print(*failures[:SHOWN], sep="\n")
    print(f"{len(found) - len(failures)} passed, {len(failures)} failed")
    return 1 if failures else 0
