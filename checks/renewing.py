"""What `renew.py` and `renew_storms.py` share: a reader of kernel files of their own, protocols and bodies at random, a folder with
calls of `pabble-renew` in it, and what is wrong with what a call left there.
"""
import os
import re
import resource
import shutil
import signal
import stat
import subprocess

TOP = os.path.dirname(os.path.dirname(os.path.realpath(__file__)))
NAME = "pabble-renew"
SECONDS = 20
LINES = [b"  v[0] = 1;", b"", b"  puts(\"}\");\r", b"\xff\x00", b"{ /* ", b"// /*@ end */", b"x /*@ kernel k_A */"]
INDENTED = [b" /*@ end */", b"\t/*@ kernel k_A */", b" \t /*@"]
OUTSIDE = [b"static int32_t helper(int32_t it) { return it + 1; }", b"// a note", b"  puts(\"once more\");"]
STRACE = shutil.which("strace")


def program():
    """The program that RENEW names, or that the script `pabble-renew` runs."""
    found = subprocess.check_output([f"{TOP}/scripts/program.sh"], text=True, env={**os.environ, "PROGRAM_CRATE": "pabble_renew"})
    return os.path.abspath(found.strip())


# ---- kernel files

def pieces(data):
    """A kernel file's bodies, as pairs of a name and the bytes, and its other lines with their numbers; markers are in neither."""
    bodies, others, name, lines = [], [], None, []
    for number, line in enumerate((data or b"").split(b"\n"), 1):
        word = line.rstrip(b" \t\r")
        if word == b"/*@ end */":
            bodies.append((name, b"".join(it + b"\n" for it in lines)))
            name = None
        elif line.startswith(b"/*@"):
            name, lines = word[4:-3].removeprefix(b"kernel "), []
        elif name is not None:
            lines.append(line)
        else:
            others.append((number, line))
    return bodies, others


def bodies_in(data):
    return pieces(data)[0]


def frame(data):
    """What stands outside of bodies, and the names of the bodies."""
    bodies, others = pieces(data)
    return [line for _, line in others], [name for name, _ in bodies]


def indented(data):
    """The numbers of the lines that would begin as markers, but for the blanks in front."""
    return [number for number, line in enumerate((data or b"").split(b"\n"), 1) if re.match(rb"[ \t]+/\*@", line)]


def left_behind(left, gone):
    """What OUT.left has to be where these bodies are gone."""
    text, there = left or b"", bodies_in(left)
    for name, body in gone:
        if (name, body) not in there:
            text += b"\n" if text and not text.endswith(b"\n") else b""
            text += (b"/*@ prelude */\n" if name == b"prelude" else b"/*@ kernel " + name + b" */\n") + body + b"/*@ end */\n"
    return text if gone else left


# ---- files at random

def protocol(kernels, labels, kind="int32"):
    lines = [f"  compute {it} at W[0];\n" for it in kernels] + [f"  {it}({kind}) from W[0] to W[1];\n" for it in labels]
    return "const N = 2..max;\nglobal protocol P(role W[0..N-1]) {\n" + "".join(lines) + "}\n"


def some_protocol(rng):
    return protocol(rng.sample("ABCD", rng.randint(0, 4)), rng.sample("XYZ", rng.randint(0, 3)))


def filled(rng, text, lines=LINES):
    """A text with other bodies."""
    new, inside = [], False
    for line in text.split(b"\n"):
        inside = inside and not line.startswith(b"/*@ end")
        if not inside:
            new.append(line)
        if line.startswith(b"/*@") and not line.startswith(b"/*@ end"):
            inside = True
            new += [rng.choice(lines) for _ in range(rng.randint(0, 3))]
    return b"\n".join(new)


def with_line(text, line, behind=b"\n/*@ end */\n"):
    """A text with a line behind its first body, and the line's number. The body's function ends behind it."""
    at = text.index(behind) + len(behind)
    return text[:at] + line + b"\n" + text[at:], text[:at].count(b"\n") + 1


# ---- a folder with calls in it

def content(path):
    """What stands at a path: its kind, its mode, and its bytes, or where it leads."""
    found = os.lstat(path)
    if stat.S_ISLNK(found.st_mode):
        return "link", 0, os.readlink(path).encode()
    if stat.S_ISREG(found.st_mode):
        with open(path, "rb") as it:
            return "file", stat.S_IMODE(found.st_mode), it.read()
    return stat.S_IFMT(found.st_mode), stat.S_IMODE(found.st_mode), b""


class Room:
    """A folder in which the program is called."""

    def __init__(self, renew, folder):
        self.renew, self.folder = renew, folder

    def path(self, name):
        return os.path.join(self.folder, name)

    def put(self, name, text, mode=None):
        with open(self.path(name), "wb") as it:
            it.write(text if isinstance(text, bytes) else text.encode())
        if mode is not None:
            os.chmod(self.path(name), mode)

    def get(self, name):
        try:
            with open(self.path(name), "rb") as it:
                return it.read()
        except FileNotFoundError:
            return None

    def drop(self, name):
        """Removes a file, if it is there."""
        if os.path.lexists(self.path(name)):
            os.remove(self.path(name))

    def files(self):
        """All that stands here, by name."""
        found = {}
        for folder, folders, names in os.walk(self.folder):
            for name in folders + names:
                path = os.path.join(folder, name)
                found[os.path.relpath(path, self.folder)] = content(path)
        return found

    def start(self, words, front=(), most=None, killed=False):
        """A call, begun. It may write no file beyond `most` bytes: then its writing fails, or kills it where `killed`."""
        def limit():
            if most is not None:
                resource.setrlimit(resource.RLIMIT_FSIZE, (most, most))
            signal.signal(signal.SIGXFSZ, signal.SIG_DFL if killed else signal.SIG_IGN)

        limits = {} if most is None else {"preexec_fn": limit, "restore_signals": False}
        return subprocess.Popen([*front, self.renew, *words], cwd=self.folder, stdin=subprocess.DEVNULL, stdout=subprocess.PIPE,
                                stderr=subprocess.PIPE, **limits)

    def end(self, call):
        """The status of a call, and what it says. One that hangs has status None."""
        try:
            written, told = call.communicate(timeout=SECONDS)
        except subprocess.TimeoutExpired:
            call.kill()
            call.communicate()
            return None, "it hangs"
        told = told.decode(errors="replace")
        return call.returncode, told + (f" and writes {written!r}" if written else "")

    def call(self, *words, **how):
        return self.end(self.start(words, **how))


# ---- what a call left

def beside(out):
    """The names of the files in which bodies of OUT may stand."""
    return re.compile(re.escape(out) + r"(\.left|\.old(\.\d+)?)?")


def nowhere(room, bodies, out="o.c"):
    """Those of the bodies that stand in none of OUT, OUT.left and OUT.old."""
    there = [it for name in os.listdir(room.folder) if beside(out).fullmatch(name) for it in bodies_in(room.get(name))]
    return [it for it in bodies if it not in there]


def ended_wrong(before, after):
    """What is wrong with what a call that ended with 0 left, over what was there."""
    (_, _, old), (_, _, left) = before.get("o.c", (0, 0, b"")), before.get("o.c.left", (0, 0, None))
    if "o.c" not in after:
        return "there is no OUT"
    names = [name for name, _ in bodies_in(after["o.c"][2])]
    gone = [it for it in bodies_in(old) if it[0] not in names]
    kept = [it for it in bodies_in(old) if it[0] in names]
    if any(it not in bodies_in(after["o.c"][2]) for it in kept):
        return "a body has changed"
    if left_behind(left, gone) != after.get("o.c.left", (0, 0, None))[2]:
        return "OUT.left isn't what it was with the bodies that are gone"
    if before.get("o.c", after["o.c"])[:2] != after["o.c"][:2]:
        return "OUT is of another kind, or has another mode"
    return None


def wrong(before, room, status, told):
    """What is wrong with what a call left in the folder, in which all this was before, or None."""
    after = room.files()
    same = {name: it for name, it in before.items() if name not in ("o.c", "o.c.left")}
    if any(after.get(name) != it for name, it in same.items()):
        return "another file has changed"
    new = {name: it for name, it in after.items() if name not in before and name not in ("o.c", "o.c.left")}
    if any(not re.fullmatch(r"o\.c\.old(\.\d+)?", name) or it[2] != before["o.c"][2] for name, it in new.items()):
        return f"beside it lies {', '.join(new)}"
    if status is None or (status and told and not told.startswith(f"{NAME}: ")):
        return "it ends badly"
    if status == 0:
        return ended_wrong(before, after)
    is_half = told.startswith(f"{NAME}: write fault, and OUT.left has more\n")
    if before.get("o.c") != after.get("o.c") or (not is_half and before.get("o.c.left") != after.get("o.c.left")):
        return "a refused call has changed a file"
    return "bodies are lost" if nowhere(room, bodies_in(before.get("o.c", (0, 0, b""))[2])) else None


class Tally:
    """What was tried, and what of it went wrong."""

    def __init__(self):
        self.passed = self.failed = 0

    def note(self, is_so, *said):
        self.passed += bool(is_so)
        self.failed += not is_so
        if not is_so:
            print(*said, flush=True)
