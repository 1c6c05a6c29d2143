#!/usr/bin/env python3
"""Proves crates without their edits, tests and programs, or takes what was proved: for work on many crates at once.

  scripts/proofs.py [--tests] [NAME..]  proves these crates and those below them, all where none is named; --tests adds the proofs of
                                        the named crates' tests. Of the crates that are ready the one with most crates above it comes
                                        first
  scripts/proofs.py --lend              gives each crate of this checkout the library that is kept for exactly its files, so that
                                        `rt check` of a crate above need not build it, and names those that aren't kept

Where the toolchain has a store, what passes is kept there as `rt ci` does, which takes it from there. Where it has none, libraries
stay in this checkout: a second run proves those alone whose files, or those of a crate below, changed, and nothing can be lent.
LANES (4) is how many are proved at a time. It is run at the top of a checkout, and stands on the toolchain's own command `rt`:
`rt ci` alone is the gate.
"""
import contextlib
import copy
import functools
import importlib.machinery
import importlib.util
import json
import os
import shutil
import sys
import tempfile
import threading
import time

sys.dont_write_bytecode = True


def toolchain():
    path = os.path.realpath(shutil.which("rt") or sys.exit("there is no toolchain: put its command rt on the path"))
    loader = importlib.machinery.SourceFileLoader("rt_command", path)
    module = importlib.util.module_from_spec(importlib.util.spec_from_loader("rt_command", loader))
    sys.modules["rt_command"] = module
    loader.exec_module(module)
    # once for each crate, and not for each way that leads down to it
    module.rtlib.Crate.stamp = functools.lru_cache(maxsize=None)(module.rtlib.Crate.stamp)
    return module


rt = toolchain()


def crates_here():
    """The crates of the checkout, lowest first."""
    rt.rtlib.Crate = rt.Crate
    return sorted(rt.rtlib.crates_below(os.getcwd()), key=lambda it: len(it.below()))


def set_stamp(crate):
    """Lets other commands take the library that stands in the crate's folder as that of its files."""
    with open(f"{crate.folder}/out/rlib/stamp", "w", encoding="utf-8") as file:
        file.write(crate.stamp())


class Folders:
    """In the place of a store, where the toolchain has none: the libraries in the folders of this checkout."""

    def key(self, crate):
        return None

    def in_turn(self, crate, tests, key):
        return contextlib.nullcontext()

    def is_built(self, crate):
        pass

    def keep(self, crate, tests, key):
        if not tests and os.path.isdir(crate.rlib):
            set_stamp(crate)


def store(crates):
    if not hasattr(rt, "Kept"):
        return Folders()
    kept = rt.Kept(crates)
    # An entry that can't be given here may be whole for others.
    kept.drop = lambda path: None
    return kept


def has_library(kept, crate):
    """Whether the library in the crate's folder is the kept one."""
    stamp = f"{crate.folder}/out/rlib/stamp"
    if not os.path.isdir(crate.rlib) or rt.rtlib.text_of(stamp) != crate.stamp():
        return False
    with open(f"{kept.place(crate, False, kept.key(crate))}/made.json", encoding="utf-8") as file:
        files = json.load(file)["files"]
    return all(os.path.isfile(f"{crate.folder}/out/{path}") and rt.rtlib.sum_of(f"{crate.folder}/out/{path}") == it for path, it in files)


def lend_one(kept, crate):
    if isinstance(kept, Folders):
        return crate.is_built()
    key = kept.key(crate)
    if not os.path.isdir(kept.place(crate, False, key)):
        return False
    if crate.is_static or not has_library(kept, crate):
        shutil.rmtree(f"{crate.folder}/out/rlib", ignore_errors=True)
        if not kept.give(crate, False, key):
            return False
        if not crate.is_static:
            set_stamp(crate)
    kept.is_built(crate)
    return True


def lend(crates):
    kept, lacking = store(crates), set()
    for crate in crates:
        if crate.is_program or any(it.name in lacking for it in crate.below()) or not lend_one(kept, crate):
            lacking.add(crate.name)
    print("not kept:", *(it.name for it in crates if it.name in lacking and not it.is_program))


class Run:
    """Tasks are pairs of a crate and whether its tests are meant."""

    def __init__(self, every, names, with_tests):
        wanted = {below for it in every if it.name in names for below in [it, *it.below()]}
        crates = [it for it in every if it in wanted]
        self.kept, self.done, self.begun, self.turn = store(every), {}, set(), threading.Condition()
        below = [name for it in crates for name in {dep.name for dep in it.below()}]
        self.above = {it.name: below.count(it.name) for it in crates}
        self.tasks = [(it, False) for it in crates] + [(it, True) for it in crates if with_tests and it.name in names and it.has_tests()]

    def take(self, crate, tests, key):
        """Whether an earlier run had it. What stands in the crate's folder would be in the way."""
        if isinstance(self.kept, Folders):
            return not tests and crate.is_built()
        if not tests and not crate.is_program:
            return lend_one(self.kept, crate)
        for name in self.kept.made(crate, tests):
            os.remove(f"{crate.folder}/out/{name}")
        return self.kept.give(crate, tests, key)

    def prove(self, crate, tests):
        """Returns what went wrong, or None, and whether it was kept already."""
        key = self.kept.key(crate)
        with self.kept.in_turn(crate, tests, key):
            if self.take(crate, tests, key):
                return None, True
            crate = copy.copy(crate)
            with tempfile.TemporaryFile("a+", errors="replace") as crate.out:
                os.makedirs(f"{crate.folder}/out", exist_ok=True)
                try:
                    status = crate.ci(["--jobs", "1"], tests)
                except SystemExit:
                    status = 1
                if not status:
                    if not tests:
                        self.kept.is_built(crate)
                    self.kept.keep(crate, tests, key)
                    return None, False
                crate.out.seek(0)
                return crate.out.read()[-6000:], False

    def is_ready(self, task):
        needs = [(it.name, False) for it in task[0].below()] + [(task[0].name, False)] * task[1]
        return all(it in self.done for it in needs)

    def lacks(self, task):
        return any(not self.done[it.name, False] for it in [*task[0].below(), *([task[0]] if task[1] else [])])

    def next(self):
        with self.turn:
            while True:
                left = [it for it in self.tasks if (it[0].name, it[1]) not in self.done and it not in self.begun]
                ready = [it for it in left if self.is_ready(it)]
                if ready or not left:
                    break
                self.turn.wait(5)
            if not left:
                return None
            task = min(ready, key=lambda it: (it[1], -self.above[it[0].name]))
            self.begun.add(task)
            return task

    def lane(self):
        while task := self.next():
            start, what = time.time(), f"{task[0].name}{' tests' if task[1] else ''}"
            wrong, was_kept = ("a crate below it isn't proved", False) if self.lacks(task) else self.prove(*task)
            with self.turn:
                self.done[task[0].name, task[1]] = wrong is None
                if not was_kept:
                    print(time.strftime("%H:%M:%S"), what, f"{time.time() - start:.0f} s" if wrong is None else f"NOT PROVED: {wrong}", flush=True)
                self.turn.notify_all()

    def all(self, lanes):
        threads = [threading.Thread(target=self.lane) for _ in range(lanes)]
        for it in threads:
            it.start()
        for it in threads:
            it.join()
        failed = sum(not it for it in self.done.values())
        print(f"{len(self.done) - failed} proved, {failed} failed")
        return failed


def main(words):
    rt.Crate.allowed = rt.handles_of(os.getcwd())
    every = crates_here()
    if words == ["--lend"]:
        lend(every)
        return 0
    rt.Crate.cuts_libraries = True
    rt.rtlib.guarded()
    names = [it for it in words if it != "--tests"]
    lacking = set(names) - {it.name for it in every}
    if lacking:
        print("no such crate:", *sorted(lacking), file=sys.stderr)
        return 64
    return 1 if Run(every, names or [it.name for it in every], "--tests" in words).all(int(os.environ.get("LANES", 4))) else 0


if __name__ == "__main__":
    sys.exit(main(sys.argv[1:]))
