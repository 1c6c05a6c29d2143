#!/usr/bin/env python3
"""Tries the program `pabble-renew`: rows on the files that it is given, protocols and bodies at random, and what `renew_storms.py`
tries: calls at once, calls that are killed, full disks, and system calls that fail.

usage: checks/renew.py [COUNT [SEED]]

COUNT (40) protocols change several times each, and so many times two to four calls are made at once on one OUT. Calls are killed and
system calls fail half as often, but so often at least that each step of a call has its turn, where strace is there; disks are full a
fifth as often. After each call that is done every body of the old text must stand, byte for byte, in the new one or in OUT.left, behind what
that had; after each other call all files must be as they were. The program is the one that RENEW names, or that `pabble-renew` runs.
"""
import multiprocessing
import os
import random
import shutil
import subprocess
import sys
import tempfile
import traceback

import renew_storms
from renewing import INDENTED, LINES, NAME, OUTSIDE, Room, Tally, bodies_in, content, filled, frame, indented, program, protocol, some_protocol, with_line, wrong

STYLES = ["LLVM", "Google", "GNU", "Mozilla", "WebKit"]
USAGE = f"{NAME}: usage: {NAME} [--force] [--dry-run] FILE OUT\n"
WRITTEN = f"{NAME}: usage: FILE would be written\n"
IRREGULAR = f"{NAME}: no regular file\n"
BUSY = f"{NAME}: busy\n"


class Rows:
    """Rows that are played in a folder."""

    def __init__(self, room, tally):
        self.room, self.tally = room, tally

    def text(self, *kernels, labels=(), out="o.c", mode=None):
        """A text of a protocol p.pbl with these kernels, with bodies that were filled in."""
        self.room.put("p.pbl", protocol(kernels, labels))
        self.room.call("p.pbl", out)
        text = self.room.get(out)
        for name, _ in bodies_in(text):
            front = b"/*@ kernel " + name + b" */\n"
            text = text.replace(front, front + b"  puts(\"" + name + b"\");\n")
        self.room.put(out, text, mode)
        return text

    def refused(self, words, status, line):
        """A call that is refused with a line, and changes no file."""
        before = self.room.files()
        got, told = self.room.call(*words)
        after = self.room.files()
        changed = [name for name in {**before, **after} if before.get(name) != after.get(name)]
        self.tally.note(got == status and told.startswith(line) and not changed, words, "got", got, told, changed)

    def done(self, words, told, is_so=lambda: True):
        """A call that is done, and what it says; where `told` isn't given, anything."""
        got, said = self.room.call(*words)
        self.tally.note(got == 0 and told in (None, said) and is_so(), words, "got", got, said)

    def clean(self):
        for name in os.listdir(self.room.folder):
            path = self.room.path(name)
            shutil.rmtree(path) if os.path.isdir(path) and not os.path.islink(path) else os.remove(path)


# ---- the four stories

def formatters(rows):
    """Each style of clang-format moves markers or other lines: such a text is refused, or is renewed with all of its bodies."""
    for style in STYLES if shutil.which("clang-format") else []:
        text = rows.text("K", "L", labels="X")
        rows.room.put("o.c", subprocess.check_output(["clang-format", f"--style={style}"], input=text))
        before = rows.room.files()
        status, told = rows.room.call("p.pbl", "o.c")
        now = rows.room.get("o.c")
        is_refused = status == 7 and wrong(before, rows.room, status, told) is None
        is_renewed = status == 0 and [name for name, _ in bodies_in(now)] == [name for name, _ in bodies_in(text)] and b'puts("k_K")' in now
        rows.tally.note(is_refused or is_renewed, style, status, told)
        rows.clean()


def by_hand(rows):
    """A marker that was indented by hand."""
    text = rows.text("K", "L")
    for marker in (b"/*@ kernel k_L */", b"/*@ end */"):
        for blanks in (b" ", b"\t", b"    "):
            at = text.rindex(marker)
            number = text[:at].count(b"\n") + 1
            rows.room.put("o.c", text[:at] + blanks + text[at:])
            said = [f"{NAME}: indented marker at line {number}\no.c:{number}:1: ", f"{NAME}: kernel marker at line "]
            rows.refused(["p.pbl", "o.c"], 7, said[0] if marker.startswith(b"/*@ k") else tuple(said))
            rows.refused(["--dry-run", "p.pbl", "o.c"], 7, said[0] if marker.startswith(b"/*@ k") else tuple(said))


def outside(rows):
    """Lines that a user wrote outside of bodies are never dropped in silence."""
    text = rows.text("K", "L")
    changed = text.replace(b"MPI_Finalize();", b"MPI_Finalize(); puts(\"bye\");")
    rows.tally.note(changed != text, "no line was changed")
    texts = [with_line(text, OUTSIDE[0], b"/*@ end */\n}\n"), with_line(text, OUTSIDE[1]), (changed, changed[:changed.find(b"puts(\"bye")].count(b"\n") + 1)]
    kernels = b"/*@ kernel k_K */\n/*@ end */\n\n/*@ kernel k_L */\n  puts(\"L\");\n/*@ end */\n"
    texts.append(with_line(kernels, OUTSIDE[0]))
    for edited, number in texts:
        rows.room.put("o.c", edited)
        rows.refused(["p.pbl", "o.c"], 7, f"{NAME}: line {number} is outside of bodies\no.c:{number}:1: ")
    for number, (edited, _) in enumerate(texts, 1):
        rows.room.put("o.c", edited)
        old = "o.c.old" if number == 1 else f"o.c.old.{number}"
        before = rows.room.files()
        rows.done(["p.pbl", "--dry-run", "--force", "o.c"], None, lambda: rows.room.files() == before)
        rows.done(["--force", "p.pbl", "o.c"], None, lambda: rows.room.get(old) == edited and OUTSIDE[0] not in rows.room.get("o.c"))
    rows.room.put("o.c", kernels)
    rows.done(["p.pbl", "o.c"], None)


def other_names(rows):
    """FILE is none of the files that are written, under whatever name; a file that the call didn't make stays."""
    room = rows.room
    room.put("f.pbl", "/*\n/*@ kernel k_A */\n/*@ end */\n" + protocol("A", ""))
    os.makedirs(room.path("sub"))
    os.symlink("f.pbl", room.path("link.pbl"))
    os.symlink("../f.pbl", room.path("sub/far.pbl"))
    for name in ("f.pbl", "./f.pbl", "sub/../f.pbl", "link.pbl", "sub/far.pbl", room.path("f.pbl")):
        rows.refused(["f.pbl", name], 2, WRITTEN)
        rows.refused([name, "f.pbl"], 2, WRITTEN)
    os.link(room.path("f.pbl"), room.path("hard.pbl"))
    rows.refused(["f.pbl", "hard.pbl"], 2, WRITTEN)
    rows.clean()
    text = rows.text("K", "L")
    os.rename(room.path("p.pbl"), room.path("o.c.left"))
    rows.refused(["./o.c.left", "o.c"], 2, WRITTEN)
    rows.clean()
    text = rows.text("K", "L")
    room.put("o.c.new", "mine")
    rows.refused(["p.pbl", "o.c"], 75, BUSY + "o.c.new: ")
    rows.refused(["--dry-run", "p.pbl", "o.c"], 75, BUSY)
    rows.refused(["o.c.new", "o.c"], 2, WRITTEN)
    room.drop("o.c.new")
    room.put("o.c.left.new", "mine")
    room.put("p.pbl", protocol("K", ""))
    rows.refused(["p.pbl", "o.c"], 75, BUSY + "o.c.left.new: ")
    room.drop("o.c.left.new")
    rows.done(["p.pbl", "o.c"], None, lambda: room.get("o.c.left").endswith(b'puts("k_L");\n/*@ end */\n'))
    rows.tally.note(text != room.get("o.c"), "OUT is as it was")


def links(rows):
    """A link is followed and stays one; modes stay; other hard links aren't parted in silence."""
    room = rows.room
    for mode in (0o600, 0o644, 0o755, 0o640):
        rows.text("K", "L", mode=mode)
        room.put("p.pbl", protocol("K", ""))
        rows.done(["p.pbl", "o.c"], None, lambda: content(room.path("o.c"))[1] == mode)
        rows.clean()
    os.makedirs(room.path("sub"))
    rows.text("K", "L", out="sub/real.c")
    room.put("p.pbl", protocol("K", ""))
    os.symlink("sub/real.c", room.path("one.c"))
    os.symlink("one.c", room.path("two.c"))
    rows.done(["p.pbl", "two.c"], None, lambda: os.path.islink(room.path("one.c")) and os.path.islink(room.path("two.c"))
              and b"k_L" not in room.get("sub/real.c") and b"k_L" in room.get("sub/real.c.left") and len(room.files()) == 6)
    rows.text("K", "L")
    os.symlink("o.c.kept", room.path("o.c.left"))
    room.put("o.c.kept", "")
    room.put("p.pbl", protocol("K", ""))
    rows.refused(["p.pbl", "o.c"], 3, IRREGULAR + "o.c.left: ")
    room.drop("o.c.left")
    text = room.get("o.c")
    os.link(room.path("o.c"), room.path("same.c"))
    rows.refused(["p.pbl", "o.c"], 4, f"{NAME}: more than one name\no.c: ")
    rows.done(["p.pbl", "--force", "o.c"], None, lambda: room.get("same.c") == text and b"k_L" not in room.get("o.c"))


def irregular(rows):
    """What is no regular file is refused, and nothing waits for a pipe."""
    room = rows.room
    rows.text("K")
    room.put("k.c", "/*@ kernel k_K */\n/*@ end */\n")
    os.makedirs(room.path("folder"))
    os.mkfifo(room.path("pipe"))
    os.mkfifo(room.path("k.c.left"))
    os.symlink("nowhere", room.path("dangling"))
    names = ["folder", "pipe", "dangling"]
    try:
        os.mknod(room.path("null"), 0o020666, os.makedev(1, 3))
        names.append("null")
    except PermissionError:
        pass
    for name in names:
        rows.refused(["p.pbl", name], 3, IRREGULAR + f"{name}: ")
        rows.refused([name, "o.c"], 3, (IRREGULAR + f"{name}: ", f"{NAME}: read fault\n{name}: ")[:1 + (name == "dangling")])
    room.put("q.pbl", protocol("", ""))
    rows.refused(["q.pbl", "k.c"], 3, IRREGULAR + "k.c.left: ")
    rows.refused(["/dev/null", "o.c"], 3, IRREGULAR + "/dev/null: ")


def other_parameters(rows):
    """Bodies that were written for the kernels' own memory have other parameters than those of a plain text, and go to OUT.left."""
    room = rows.room
    open_bodies = b"".join(b"/*@ kernel " + name + b" */\n  *count = 0;\n/*@ end */\n" for name in (b"make_A", b"room_A", b"take_A"))
    room.put("p.pbl", protocol("K", "A"))
    room.put("o.c", b"/*@ kernel k_K */\n  puts(\"K\");\n/*@ end */\n" + open_bodies)
    rows.done(["p.pbl", "o.c"], None, lambda: room.get("o.c.left") == open_bodies and b"*count" not in room.get("o.c") and b'puts("K")' in room.get("o.c"))
    rows.clean()
    room.put("p.pbl", protocol("K", "A"))
    room.put("o.c", open_bodies.replace(b"room_A", b"room_B"))
    rows.done(["p.pbl", "o.c"], None, lambda: b"room_B" in room.get("o.c.left") and room.get("o.c").count(b"*count") == 2)


# ---- rows on what is refused, and on what is told

def table(rows):
    room, k = rows.room, "/*@ kernel k_K */\n  puts(\"K\");\n/*@ end */\n"
    room.put("p.pbl", protocol("", ""))
    room.put("bad.pbl", "const N = 2..max;\nglobal protocol P(role W[0..N-1]) {\n  A() from W[0] to W[N];\n}\n")
    room.put("short.pbl", "const")
    room.put("none.c", "int main(void) { return 0; }\n")
    lefts = {"open": "/*@ kernel k_K */\n", "other": k.replace("puts", "printf"), "behind": "\n/*@ end */\n", "blank": "\n /*@ end */\n"}
    for name, text in {"k": k, "twice": k + k, "end": "/*@ end */\n", **{name: k for name in lefts}}.items():
        room.put(f"{name}.c", text)
    for name, left in lefts.items():
        room.put(f"{name}.c.left", left)
    with open(room.path("long.c"), "wb") as it:
        it.truncate(67108865)
    for words in ([], ["p.pbl"], ["p.pbl", "-"], ["p.pbl", "k.c", "none.c"], ["p.pbl", "--help"], ["--force", "--force", "p.pbl", "k.c"],
                  ["--dry-run", "p.pbl"], ["p.pbl", "k.c", "--forc"], ["--", "p.pbl", "k.c"], ["p.pbl", "--dry-run", "k.c", "--dry-run"]):
        rows.refused(words, 2, USAGE)
    for words, status, line in (
        (["k.c", "k.c"], 2, "usage: FILE would be written\n"),
        (["bad.pbl", "k.c"], 1, "rule 7 at 3:20, N = 2, W[2]\nbad.pbl:3:20: rule 7"),
        (["k.c", "none.c"], 1, "syntax at 2:8\n"),
        (["short.pbl", "k.c"], 1, "syntax at 1:6\n"),
        (["no.pbl", "k.c"], 3, "read fault\nno.pbl: "),
        (["p.pbl", "nowhere/o.c"], 4, "write fault\nnowhere/o.c: "),
        (["p.pbl", "none.c"], 7, "no kernels\nnone.c: "),
        (["p.pbl", "twice.c"], 7, "kernel k_K twice\ntwice.c:4:1: "),
        (["p.pbl", "end.c"], 7, "kernel marker at line 1\nend.c:1:1: "),
        (["p.pbl", "behind.c"], 7, "left: kernel marker at line 2\nbehind.c.left:2:1: "),
        (["p.pbl", "open.c"], 7, "left: kernel marker at line 1\nopen.c.left:1:1: "),
        (["p.pbl", "blank.c"], 7, "left: indented marker at line 2\nblank.c.left:2:1: "),
        (["p.pbl", "other.c"], 7, "left: kernel k_K twice\nother.c: "),
        (["p.pbl", "long.c"], 5, "limit file bytes\n"),
    ):
        rows.refused(words, status, f"{NAME}: {line}")
        if status not in (2, 4):
            rows.refused(["--dry-run", *words], status, f"{NAME}: {line}")
    room.drop("long.c")


def kernel(name, body=""):
    return f"/*@ kernel {name} */\n{body}/*@ end */\n"


def told(rows):
    """A protocol that loses one kernel and gets another, and then the first one back; and a label whose payload changes."""
    room, line = rows.room, "  puts(\"K\");\n"
    room.put("both.pbl", protocol("KL", ""))
    room.put("other.pbl", protocol("LM", ""))

    def call(name, said, left, *parts):
        def is_so():
            return all(part.encode() in room.get("o.c") for part in parts) and room.get("o.c.left") == (left and left.encode())

        before = room.files()
        rows.done(["--dry-run", name, "o.c"], said and f"o.c: would be renewed; nothing was written\n{said}", lambda: room.files() == before)
        rows.done([name, "o.c"], said, is_so)

    rows.done(["both.pbl", "o.c"], "")
    room.put("o.c", kernel("k_K", line) + kernel("k_L", line))
    room.put("o.c.left", "a note")
    gone = "a note\n" + kernel("k_K", line)
    call("other.pbl", "o.c: new functions, with default bodies: k_M\no.c.left: bodies whose functions are gone: k_K\n", gone, kernel("k_L", line))
    call("other.pbl", "o.c: functions whose bodies are still the default ones: k_M\n", gone, kernel("k_L", line), kernel("k_M"))
    call("both.pbl", "o.c: new functions, with default bodies: k_K\no.c.left: bodies whose functions are gone: k_M\n"
         "o.c.left: bodies whose functions are back: k_K\nhelp: copy them to their places in o.c, and take them out of o.c.left\n",
         gone + kernel("k_M"), kernel("k_K"), kernel("k_L", line))
    rows.clean()
    rows.text(labels="D")
    room.put("q.pbl", protocol("", "D", "uint32"))
    text = room.get("o.c").replace(b"/*@ kernel make_D */\n", b"/*@ kernel make_D */\n  v[0] = 1;\n").replace(b"/*@ kernel take_D */\n", b"/*@ kernel take_D */\n  puts(\"D\");\n")
    room.put("o.c", text)
    call("q.pbl", "o.c: bodies kept, though what their labels carry has changed: make_D take_D\n", None)


# ---- protocols and bodies at random

def changes(rng, room, tally, _):
    """A protocol that changes some times, and the bodies in its text."""
    for _ in range(16):
        change(rng, room, tally)


def change(rng, room, tally):
    """One call over whatever stands there, and what it has to answer."""
    room.put("p.pbl", some_protocol(rng))
    text, is_forced = room.get("o.c"), rng.random() < 0.4
    number = 0
    if text and b"/*@ end */\n" in text and rng.random() < 0.3:
        text, number = with_line(text, rng.choice(OUTSIDE))
        room.put("o.c", text)
    force = ["--force"] if is_forced else []
    before = room.files()
    planned, plan = room.call("--dry-run", "p.pbl", *force, "o.c")
    fault = None if room.files() == before else "a dry run changes a file"
    status, said = room.call(*force, "p.pbl", "o.c")
    fault = fault or wrong(before, room, status, said)
    if not fault and (planned, plan.removeprefix("o.c: would be renewed; nothing was written\n")) != (status, said):
        fault = f"a dry run says {planned} {plan}"
    if text and not is_forced and (indented(text) or number):
        line = f"{NAME}: indented marker at line {indented(text)[0]}\n" if indented(text) else f"{NAME}: line {number} is outside of bodies\n"
        fault = fault or (None if (status, said.startswith(line)) == (7, True) else "it had to be refused")
    elif status not in (0, 7) or (status == 7 and not said.startswith(f"{NAME}: left: ")):
        fault = fault or "it had to be done"
    if status == 0 and number and not fault and not any(it[2] == text for name, it in room.files().items() if name.startswith("o.c.old")):
        fault = "the old text is nowhere"
    tally.note(not fault, fault, status, said, before)
    if status:
        room.drop("o.c")
        room.drop("o.c.left")
    elif rng.random() < 0.7:
        room.put("o.c", filled(rng, room.get("o.c"), LINES + (INDENTED if rng.random() < 0.3 else [])))


def play(job):
    """What one job counts as passed and as failed."""
    renew, part, number, seed = job
    tally, rng = Tally(), random.Random(f"{seed} {part.__name__} {number}")
    with tempfile.TemporaryDirectory() as folder:
        room = Room(renew, folder)
        try:
            if part in ROWS:
                part(Rows(room, tally))
            else:
                part(rng, room, tally, number)
        except (OSError, ValueError, subprocess.SubprocessError):
            tally.note(False, part.__name__, number, traceback.format_exc())
    return tally.passed, tally.failed


ROWS = [formatters, by_hand, outside, other_names, links, irregular, other_parameters, table, told]


def main(words):
    count, seed = (words + ["40", "1"][len(words):])[:2]
    renew = program()
    jobs = [(renew, part, 0, seed) for part in ROWS] + [(renew, changes, number, seed) for number in range(int(count))]
    jobs += [(renew, part, number, seed) for part, number in renew_storms.jobs(renew, int(count))]
    with multiprocessing.Pool(4) as pool:
        counted = pool.map(play, jobs, chunksize=1)
    for lacking in ("clang-format", "strace"):
        if not shutil.which(lacking):
            print(f"{lacking} isn't there: what needs it isn't tried")
    print(f"{sum(it for it, _ in counted)} passed, {sum(it for _, it in counted)} failed")
    return 1 if any(it for _, it in counted) or not counted else 0


if __name__ == "__main__":
    sys.exit(main(sys.argv[1:]))
