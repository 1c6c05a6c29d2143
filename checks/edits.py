#!/usr/bin/env python3
"""Wrong bodies that `rt ci` doesn't try, so that it ends in time: checks/edits/CRATE/NAME.edit, as those in crates/CRATE/must-fail.
Each must be refused.

  checks/edits.py              tells whether each of them still applies to its crate
  checks/edits.py CRATE..      tries those of these crates
  checks/edits.py --minutes M  tries those of one crate after the other, and begins with no crate after M minutes. Where it begins
                               changes from commit to commit

The last two go over the libraries that `rt ci` or `scripts/proofs.py` left in this checkout, as many crates at a time as there are
processors. Who changes a contract, or a definition that it cites, tries those of the crate, and of the crates below it. The script
stands on the toolchain's own command `rt`, of which two forms are known here; where it has another one, or where with `--minutes` it
has the one that keeps what it tried, none is tried, and that is said. Else the last line is 'N passed, N failed'.
"""
import inspect
import os
import shutil
import subprocess
import sys
import time
from concurrent.futures import ThreadPoolExecutor
from pathlib import Path

TOP = Path(__file__).resolve().parent.parent
EDITS = TOP / "checks/edits"
sys.path.insert(0, str(TOP / "scripts"))


def edits_of(crate):
    return [str(it) for it in sorted((EDITS / crate).iterdir())]


def applied(crates):
    """Of each edit what is said of it, and whether it passes: here, whether it applies to the crate as it stands."""
    from proofs import rt

    for crate in crates:
        for edit in edits_of(crate):
            texts, why = rt.read_edit(edit, str(TOP / "crates" / crate))
            yield f"{crate}/{os.path.basename(edit)}: {why or 'it applies'}", bool(texts)


def has(rt, name, parameters):
    return hasattr(rt, name) and [*inspect.signature(getattr(rt, name)).parameters] == parameters


def over_a_seed(rt, crate, edits):
    """Of each edit whether it is refused, and what is said, by the form of `rt` that is handed what a check of the crate as it stands
    proved."""
    flags = ["--jobs", "1"]
    room = rt.seeded(crate, flags)
    if not room:
        return [(False, f"{crate.name} isn't proved as it stands")]
    found = []
    for number, edit in enumerate(edits):
        over = f"{room}/{number}"
        rt.linked(f"{room}/seed", over)
        kind, line = rt.must_fail(crate, edit, flags, over)
        shutil.rmtree(over, ignore_errors=True)
        found.append((kind in (rt.REFUSED, rt.AT_LIMIT), line))
    shutil.rmtree(room, ignore_errors=True)
    return found


def way_of(rt, is_gate):
    """What tries the edits of a crate, where this toolchain's rt has a form that is known."""
    if has(rt, "must_fail_all", ["crate", "edits", "flags"]):
        return lambda crate, edits: rt.must_fail_all(crate, edits, ["--jobs", "1"])
    if not is_gate and has(rt, "must_fail", ["crate", "edit", "flags", "kept"]) and has(rt, "seeded", ["crate", "flags", "start"]):
        return lambda crate, edits: over_a_seed(rt, crate, edits)
    return None


def tried(crates, end):
    """The same of whether it is refused, of the crates that are begun before the end."""
    os.chdir(TOP)
    from proofs import crates_here, rt

    way = way_of(rt, end < float("inf"))
    if not way:
        raise NotImplementedError
    rt.Crate.cuts_libraries = True
    # its first call sets a signal's handler, which only the main thread may
    rt.rtlib.guarded()
    rt.Crate.allowed = rt.handles_of(str(TOP))
    here = {it.name: it for it in crates_here()}

    def of(crate):
        if time.monotonic() >= end:
            return []
        lacking = [it.name for it in here[crate].below() if not os.path.isdir(it.rlib)]
        if lacking:
            return [(False, f"{crate}: there is no library of {lacking[0]}")]
        return way(here[crate], edits_of(crate))

    with ThreadPoolExecutor(rt.processors()) as pool:
        for found in pool.map(of, crates):
            for passes, line in found:
                yield line, passes


def turned(crates):
    """The crates in an order that begins elsewhere at each commit."""
    ran = subprocess.run(["git", "rev-list", "--count", "HEAD"], cwd=TOP, stdout=subprocess.PIPE, text=True)
    start = int(ran.stdout or 0) % len(crates)
    return crates[start:] + crates[:start]


def main(words):
    every = sorted(os.listdir(EDITS))
    if words[:1] == ["--minutes"]:
        if len(words) != 2 or not words[1].isdigit():
            sys.exit(__doc__)
        lines = tried(turned(every), time.monotonic() + 60 * int(words[1]))
    elif words:
        strange = [word for word in words if word not in every]
        if strange:
            sys.exit(f"checks/edits has none of {', '.join(strange)}")
        lines = tried(words, float("inf"))
    else:
        lines = applied(every)
    passed = failed = 0
    try:
        for line, passes in lines:
            passed, failed = passed + passes, failed + (not passes)
            if words or not passes:
                print(line, flush=True)
    except NotImplementedError:
        print("no wrong body was tried: this toolchain's rt has no form for it")
        return 0 if words[:1] == ["--minutes"] else 1
    print(f"{passed} passed, {failed} failed")
    return 1 if failed else 0


if __name__ == "__main__":
    sys.exit(main(sys.argv[1:]))
