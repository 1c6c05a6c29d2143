#!/usr/bin/env python3
"""Tells what takes the time of a crate's check: the modules that the prover makes, and what they are for.

  scripts/dear.py [--tests] NAME [--only FUNCTION]

It checks the crate, or its tests, from nothing and with one job, over the libraries of this checkout (`scripts/proofs.py --lend`),
and reads the times off the files in which the prover keeps each module: run it where no more than one check a processor runs.
`F.Lts` is the borrow checker's part of the function F: it grows with F's code, with each `?`, arm and drop. `F.Proof.decls` is the
proof of its clauses.
"""
import collections
import os
import shutil
import subprocess
import sys
import tempfile
import time

sys.dont_write_bytecode = True

from proofs import crates_here, rt

# The last names of the modules that belong to one function.
PARTS = {"Code", "Mir", "Kinds", "Layout", "Lts", "Met", "Named", "Symbol", "Goals", "Given", "Answers", "Invariants", "Proof", "Statement", "Tie", "decls"}


def modules_in(room):
    """The names of the modules in the order in which they were kept, each with the seconds since the one before."""
    found = sorted((os.stat(f"{at}/{name}").st_mtime_ns, name) for at, _, names in os.walk(room) for name in names)
    return [(name.removesuffix(".oantt").partition("-")[2], (when - before) / 1e9) for (before, _), (when, name) in zip(found, found[1:])]


def owner(module):
    """The function, type or file that the module is for."""
    names = module.split(".")
    while len(names) > 1 and (names[-1] in PARTS or names[-1].startswith(("Lts-", "Kinds-", "Carried-"))):
        names.pop()
    return ".".join(names)


def show(title, seconds, most):
    print(f"-- {title}")
    for name, took in sorted(seconds.items(), key=lambda it: -it[1])[:most]:
        if took >= 0.5:
            print(f"{took:7.1f} s  {name}")


def main(words):
    tests, names = "--tests" in words, [it for it in words if it != "--tests"]
    rt.Crate.allowed = rt.handles_of(os.getcwd())
    rt.Crate.cuts_libraries = True
    crate = next((it for it in crates_here() if names and it.name == names[0]), None)
    if crate is None:
        sys.exit(__doc__)
    room = tempfile.mkdtemp(prefix="dear-")
    try:
        command = [rt.rtlib.RATTLE, "check", *crate.words(["--jobs", "1"], tests=tests, keeps=False), "--incremental", room, *names[1:]]
        start = time.time()
        ran = subprocess.run(command, cwd=crate.folder, stdout=subprocess.PIPE, stderr=subprocess.STDOUT, text=True, errors="replace")
        kept = modules_in(room)
    finally:
        shutil.rmtree(room, ignore_errors=True)
    owners = collections.Counter()
    for module, took in kept:
        owners[owner(module)] += took
    show("modules", dict(kept), 40)
    show("what they are for", owners, 40)
    print(f"{crate.name}: {time.time() - start:.0f} s, {len(kept)} modules; {ran.stdout.splitlines()[-1:] or ['']}")
    return ran.returncode


if __name__ == "__main__":
    sys.exit(main(sys.argv[1:]))
