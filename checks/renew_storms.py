"""What `renew.py` tries many times: calls at once on one OUT, calls that are killed, full disks, and system calls that fail.

strace, where it is there, ends a call or lets a system call fail at each of its steps in turn, and lets a step of one call take long
while others are at work. Where root can mount one, a disk is a small tmpfs; else no file may grow beyond a number of bytes.
"""
import functools
import os
import random
import re
import shutil
import subprocess
import tempfile
import time

from renewing import LINES, NAME, OUTSIDE, STRACE, Room, bodies_in, content, filled, frame, nowhere, protocol, with_line, wrong

KINDS = ["gone", "kept", "forced", "fresh"]
# calls that only take memory or end the process, which no file hears of
ASIDE = re.compile(r"brk|mmap|munmap|mremap|mprotect|madvise|exit.*|rt_sig.*|getrandom|futex|sched_yield|sigaltstack|execve")
ERRORS = ["ENOSPC", "EIO"]


def prepared(rng, room, kind):
    """Puts files, and gives the words of a call and the bytes of OUT: `gone` where bodies go to OUT.left, `kept` where none do,
    `forced` where lines outside are dropped besides, and `fresh` where there is no OUT."""
    room.put("p.pbl", protocol("ABC", "XY"))
    room.call("p.pbl", "o.c")
    text = filled(rng, room.get("o.c"))
    if kind == "forced":
        text, _ = with_line(text, OUTSIDE[0], b"/*@ end */\n}\n")
    room.put("o.c", text, 0o600)
    if rng.random() < 0.5:
        room.put("o.c.left", "a note")
    if kind == "fresh":
        room.drop("o.c")
    room.put("p.pbl", protocol("ABCD", "XYZ") if kind == "kept" else protocol("BD", "YZ"))
    return ["--force"] * (kind == "forced") + ["p.pbl", "o.c"]


@functools.cache
def steps(renew, kind):
    """The system calls of a call that touch its files, in order: each with its number among those of its name."""
    if not STRACE:
        return []
    with tempfile.TemporaryDirectory() as folder, tempfile.NamedTemporaryFile("r") as told:
        room = Room(renew, folder)
        words = prepared(random.Random(1), room, kind)
        room.call(*words, front=[STRACE, "-f", "-qq", "-o", told.name])
        found, count, has_begun = [], {}, False
        for line in told:
            name = re.match(r"(?:\d+ +)?(\w+)\(", line)
            if not name:
                continue
            name = name[1]
            count[name] = count.get(name, 0) + 1
            has_begun = has_begun or (name != "execve" and re.search(r'"(o\.c|p\.pbl)', line) is not None)
            if has_begun and not ASIDE.fullmatch(name):
                found.append((name, count[name]))
    return found


def injected(step, what, and_later=False):
    name, number = step
    return [STRACE, "-f", "-qq", "-o", os.devnull, "-e", f"inject={name}:{what}:when={number}{'+' if and_later else ''}"]


# ---- calls at once

PLANS = {"a.pbl": ("ABCD", "XYZ"), "b.pbl": ("AC", "XZ"), "c.pbl": ("BD", "Y"), "d.pbl": ("", "")}


@functools.cache
def frames(renew):
    """What stands outside of the bodies in the text of each of the protocols."""
    with tempfile.TemporaryDirectory() as folder:
        room = Room(renew, folder)
        for name, plan in PLANS.items():
            room.put(name, protocol(*plan))
            room.call(name, f"{name}.c")
        return {name: frame(room.get(f"{name}.c")) for name in PLANS}


def at_once(rng, room, tally, _):
    """Two to four calls at once on one OUT, of which some take long at some step."""
    for name, plan in PLANS.items():
        room.put(name, protocol(*plan))
    room.call("a.pbl", "o.c")
    text, force = filled(rng, room.get("o.c")), []
    if rng.random() < 0.2:
        text, force = with_line(text, OUTSIDE[0], b"/*@ end */\n}\n")[0], ["--force"]
    room.put("o.c", text)
    os.symlink("o.c", room.path("link.c"))
    names = [rng.choice(list(PLANS)) for _ in range(rng.randint(2, 4))]
    calls = []
    for name in names:
        is_slow = STRACE and rng.random() < 0.3
        front = injected(rng.choice(steps(room.renew, "gone")), "delay_enter=30000") if is_slow else []
        calls.append(room.start([*force, name, rng.choice(["o.c", "./o.c", "link.c"])], front=front))
        time.sleep(rng.choice([0, 0, 0, 0.001, 0.004]))
    ends = [room.end(call) for call in calls]
    faults = at_once_wrong(room, text, [(name, *end) for name, end in zip(names, ends)], bool(force))
    tally.note(not faults, "at once:", *faults, names, ends, text, room.get("o.c"), room.get("o.c.left"))


def at_once_wrong(room, text, ends, is_forced):
    """What is wrong after calls at once, each with its protocol, its status, and what it said: each body that ever stood in OUT has to
    stand somewhere, OUT has to be one of the texts, and nothing else may lie there."""
    of_each, done = frames(room.renew), [name for name, status, _ in ends if status == 0]
    others = set(os.listdir(room.folder)) - set(PLANS) - {"o.c", "o.c.left", "link.c"}
    now = room.get("o.c")
    there = {name for it in ("o.c", "o.c.left") for name, _ in bodies_in(room.get(it))}
    ever = {name for plan in done for name in of_each[plan][1]} | {name for name, _ in bodies_in(text)}
    found = {
        "bodies are lost": nowhere(room, bodies_in(text)) or ever - there,
        "a call ends badly": not all(is_due(status, told) for _, status, told in ends),
        "the link has become a file": not os.path.islink(room.path("link.c")),
        "files are left": [it for it in others if not (is_forced and re.fullmatch(r"o\.c\.old(\.\d+)?", it))],
        "the old text is nowhere": is_forced and done and text not in [room.get(name) for name in others],
        "no call is done, and OUT has changed": not done and now != text,
        "OUT is none of the texts": done and frame(now) not in [of_each[name] for name in done],
    }
    return [what for what, is_so in found.items() if is_so]


def is_due(status, told):
    """Whether a call among others may end so: done, busy, too late, or before an OUT.left that another one has changed."""
    return (status == 0 or (status == 75 and told.startswith((f"{NAME}: busy\n", f"{NAME}: changed meanwhile\n")))
            or (status == 7 and told.startswith(f"{NAME}: left: kernel ")))


def meanwhile(rng, room, tally, number):
    """A file is changed by hand while a call is at work: nothing is done then, and the change stays."""
    syncs = [step for step in steps(room.renew, "gone") if step[0] in ("fsync", "fdatasync")]
    if not syncs:
        return
    words = prepared(rng, room, "gone")
    room.put("o.c.left", "a note")
    call = room.start(words, front=injected(syncs[0], "delay_enter=600000"))
    end = time.monotonic() + 10
    while not any(it.endswith(".new") for it in os.listdir(room.folder)) and time.monotonic() < end:
        time.sleep(0.002)
    name = ["o.c", "o.c.left", "p.pbl"][number % 3]
    room.put("mine", room.get(name) + b"\n")
    if number % 2:
        os.rename(room.path("mine"), room.path(name))
    else:
        room.put(name, room.get("mine"))
        room.drop("mine")
    before = {it: found for it, found in room.files().items() if not it.endswith(".new")}
    status, told = room.end(call)
    is_so = status == 75 and told.startswith(f"{NAME}: changed meanwhile\n") and room.files() == before
    tally.note(is_so, "changed meanwhile:", name, status, told, sorted(room.files()))


# ---- kills

def killed(rng, room, tally, number):
    """A call that is killed loses nothing, and the next one goes on, or says that OUT.new is there until it is taken away."""
    kind = KINDS[number % 4]
    words, points = prepared(rng, room, kind), steps(room.renew, kind)
    before = room.files()
    if points and number // 4 % 2 == 0:
        step = points[number // 8 % len(points)]
        call = room.start(words, front=injected(step, "signal=KILL"))
    else:
        step = "at random"
        call = room.start(words)
        time.sleep(rng.random() * 0.012)
        call.kill()
    status, told = room.end(call)
    fault = killed_wrong(before, room, kind)
    again = room.call(*words)
    news = [name for name in room.files() if name.endswith(".new")]
    if again[0] == 75 and news:
        for name in news:
            room.drop(name)
        again = room.call(*words)
    elif news and not fault:
        fault = "a file is left, and nothing is said of it"
    fault = fault or ("the next call isn't done" if again[0] != 0 else killed_wrong(before, room, kind))
    tally.note(not fault, "killed:", fault, kind, step, status, told, again, sorted(room.files()))


def killed_wrong(before, room, kind):
    """What is wrong where a call was cut off, or None."""
    after = room.files()
    texts = [before.get("o.c"), after.get("o.c")]
    old, left = (texts[0] or (0, 0, b""))[2], before.get("o.c.left", (0, 0, b""))[2]
    if nowhere(room, bodies_in(old)):
        return "bodies are lost"
    if texts[0] != texts[1] and not (texts[1] and texts[1][2].endswith(b"}\n")):
        return "OUT is half a text"
    if after.get("p.pbl") != before["p.pbl"] or not (room.get("o.c.left") or b"").startswith(left):
        return "another file has changed"
    if kind == "forced" and texts[0] != texts[1] and old not in [it[2] for name, it in after.items() if name.startswith("o.c.old")]:
        return "the old text is nowhere"
    return None


# ---- full disks, and system calls that fail

def full(rng, room, tally, number):
    """No file may have more than some bytes: the call is refused or killed, and leaves all as it was."""
    kind = KINDS[number % 4]
    words = prepared(rng, room, kind)
    before, is_killed = room.files(), number % 8 < 2
    most = rng.randint(0, 3500)
    status, told = room.call(*words, most=most, killed=is_killed)
    fault = killed_wrong(before, room, kind) if status is not None and status < 0 else wrong(before, room, status, told)
    fault = fault or (None if status in (0, 4) or (is_killed and status < 0) else "it had to be a write fault")
    tally.note(not fault, "full:", fault, kind, most, status, told, sorted(room.files()))


def small_disk(rng, room, tally, number):
    """A disk with little room left: the call is refused, and leaves all as it was."""
    os.makedirs(room.path("disk"))
    size = ["mount", "-t", "tmpfs", "-o", "size=64k,nr_inodes=64", "tmpfs", room.path("disk")]
    if not shutil.which("mount") or os.geteuid() or subprocess.run(size, stderr=subprocess.DEVNULL).returncode:
        return full(rng, room, tally, number)
    try:
        disk, kind = Room(room.renew, room.path("disk")), KINDS[number % 4]
        words = prepared(rng, disk, kind)
        free = os.statvfs(disk.folder)
        disk.put("filler", b"x" * max(0, free.f_bavail * free.f_frsize - 4096 * rng.randint(0, 3)))
        before = disk.files()
        status, told = disk.call(*words)
        fault = wrong(before, disk, status, told) or (None if status in (0, 4) else "it had to be a write fault")
        tally.note(not fault, "small disk:", fault, kind, status, told, sorted(disk.files()))
    finally:
        subprocess.run(["umount", room.path("disk")])


def failing(rng, room, tally, number):
    """A system call that fails, alone or with all later ones of its name: the call is refused, or is done all the same."""
    kind = KINDS[number % 4]
    words, points = prepared(rng, room, kind), steps(room.renew, kind)
    if not points:
        return
    before, (turn, place) = room.files(), divmod(number // 4, len(points))
    step, error, is_lasting = points[place], ERRORS[(turn + place) % 2], (turn + place) % 4 >= 2
    status, told = room.call(*words, front=injected(step, f"error={error}", is_lasting))
    if step[0].startswith("unlink"):
        for name in [it for it in room.files() if it.endswith(".new")]:
            room.drop(name)
    fault = wrong(before, room, status, told)
    tally.note(not fault, "failing:", fault, kind, step, error, is_lasting, status, told, sorted(room.files()))


def jobs(renew, count):
    """Each part with the number of a try. Kills and failing calls cover each step of a call of each kind at least once."""
    covered = 4 * max(len(steps(renew, kind)) for kind in KINDS)
    for part, times in ((at_once, count), (killed, max(count // 2, 2 * covered)), (full, max(count // 10, 8)), (small_disk, max(count // 10, 8)),
                        (failing, max(count // 2, covered)), (meanwhile, max(count // 10, 6))):
        yield from ((part, number) for number in range(times))
