#!/usr/bin/env python3
"""Compares `cost` with all runs of random protocols without loops: `costs.py [COUNT [SEED]]`, by default 300 files and the seed 1. The
program is the one that `pabble` runs, or that PABBLE names. A file is made as a tree that keeps the twelve rules. At ten numbers of its
range, or at all where there are fewer, the runs under all answers are made, item by item and branch by branch, and the least and the
most of their messages and words are those that the lines say. The lines are looked at, too: each list goes through the range without
a gap, each piece goes as far as it can, and none but the last is of one number. The last line is 'N passed, M failed'.
"""
import random
import re
import sys

from random_files import answer, run

NUMBERS, FAR, CHOICES = 10, 150, 6
LISTS = ["least messages", "most messages", "least words", "most words"]
LINE = re.compile(r"(least messages|most messages|least words|most words) (\d+) to (\d+|max): (-?\d+) \* N \+ (-?\d+)")


class Lin:
    """A number, or the constant or a variable with an offset."""

    def __init__(self, base, off):
        self.base, self.off = base, off

    def at(self, n, i=0):
        return self.off + (n if self.base == "N" else i if self.base else 0)

    def __str__(self):
        if self.base is None:
            return str(self.off)
        return self.base + (f"{self.off:+d}" if self.off else "")


class End:
    """An end: its role, and its index or None. Where `over` is given, it binds the variable of its index to that range."""

    def __init__(self, role, index, over=None):
        self.role, self.index, self.over = role, index, over

    def at(self, n, i):
        return self.role[0], self.index.at(n, i) if self.index else 0

    def __str__(self):
        if self.index is None:
            return self.role[0]
        if self.over:
            return f"{self.role[0]}[i:{self.over[0]}..{self.over[1]}]"
        return f"{self.role[0]}[{self.index}]"


class Maker:
    """Makes the range, the roles and the body of a file at random. A role is its name, its first index, and how far its last one lies
    below N; or its name alone."""

    def __init__(self, rng):
        self.rng, self.names, self.choices = rng, 0, 0
        self.low = rng.randint(2, 7)
        self.high = None if rng.random() < 0.6 else self.low + rng.choice([0, 1, 2, 3, 9, 30])
        others = [("M",), rng.choice([("V", 1, 0), ("V", 0, 2)])]
        self.first = ("W", 0, 1)
        self.roles = rng.sample(others, rng.randint(0, 2)) + [self.first]
        self.labels = []

    def name(self, kind):
        self.names += 1
        return f"{kind}{self.names}"

    def label(self):
        """A new label with its payload."""
        words = self.rng.choice([0, 0, 1, 2, 5, 64])
        kind = self.rng.choice(["int32", "uint32"])
        return self.name("A"), "()" if not words else f"({kind})" if words == 1 else f"({kind}[{words}])", words

    def any_label(self):
        """A new label, or one that stood behind the beginning of a branch before."""
        if self.labels and self.rng.random() < 0.3:
            return self.rng.choice(self.labels)
        self.labels.append(self.label())
        return self.labels[-1]

    def size(self, role):
        return self.low - role[2] - role[1] + 1

    def fixed(self, role):
        """An end at one of the first or of the last indices of a role."""
        if len(role) == 1:
            return End(role, None)
        step = self.rng.randint(0, min(3, self.size(role) - 1))
        return End(role, self.rng.choice([Lin(None, role[1] + step), Lin("N", -role[2] - step)]))

    def single(self, roles):
        """A message of one rank to another: their roles differ, or their indices at each N."""
        while True:
            ends = [self.fixed(self.rng.choice(roles)) for _ in range(2)]
            if all(ends[0].at(n, 0) != ends[1].at(n, 0) for n in range(self.low, self.low + 20)):
                return ["message", self.any_label(), *ends]

    def over(self, ends):
        """A range of a variable such that each end with this variable has an index of its role, for every N. Each is a role with an
        offset."""
        rng = self.rng
        low = max([0] + [role[1] - off for role, off in ends])
        less = max(role[2] + off for role, off in ends)
        free, room = rng.choice([0, 0, 1, 2, 5]), rng.choice([0, 0, 1, 2])
        bottom = rng.choice([Lin(None, low + free), Lin(None, low + free), Lin("N", min(low - self.low + free, 0))])
        top = rng.choice([Lin("N", -less - room), Lin("N", -less - room), Lin(None, max(self.low - less - room, 0))])
        is_within = self.low - less >= 0 or top.base
        return bottom, top if is_within else Lin("N", -less - room)

    def bound(self):
        """A message whose sender or receiver binds a variable; the other end has it, too, or is one rank."""
        rng = self.rng
        ranges = [role for role in self.roles if len(role) > 1]
        role, other = rng.choice(ranges), rng.choice(self.roles)
        limits, far = [(role, 0)], None
        if len(other) == 1 or rng.random() < 0.4:
            far = End(other, None) if len(other) == 1 else End(other, Lin(None, other[1]))
            if other == role:
                limits.append((("", role[1] + 1, role[2]), 0))
        else:
            off = rng.choice([-2, -1, 1, 2] if other == role else [-1, 0, 1])
            limits.append((other, off))
            far = End(other, Lin("i", off))
        ends = [End(role, Lin("i", 0), self.over(limits)), far]
        rng.shuffle(ends)
        return ["message", self.any_label(), *ends]

    def foreach(self):
        rng = self.rng
        limits, items = [], []
        ranges = [role for role in self.roles if len(role) > 1]
        for _ in range(rng.randint(0, 3)):
            role, other = rng.choice(ranges), rng.choice(ranges)
            offs = rng.sample([-1, 0, 1], 2)
            limits += [(role, offs[0]), (other, offs[1])]
            if rng.random() < 0.2:
                items.append(["compute", self.name("K"), End(role, Lin("i", offs[0]))])
            else:
                items.append(["message", self.any_label(), End(role, Lin("i", offs[0])), End(other, Lin("i", offs[1]))])
        return ["foreach", self.over(limits or [(self.first, 0)]), items]

    def told(self, chooser, who):
        """The messages by which a branch begins."""
        if who == "few":
            return [["message", self.label(), chooser, End(self.first, Lin(None, 1))]]
        out = []
        for role in self.roles if who == "all" else []:
            is_own = role == chooser.role
            if len(role) > 1:
                low = Lin(None, role[1] + (1 if is_own else 0))
                out.append(["message", self.label(), chooser, End(role, Lin("i", 0), (low, Lin("N", -role[2])))])
            elif not is_own:
                out.append(["message", self.label(), chooser, End(role, None)])
        self.rng.shuffle(out)
        return out

    def choice(self, depth, around):
        rng = self.rng
        self.choices += 1
        who = rng.choice({"all": ["all", "all", "all", "few", "one"], "few": ["few", "one"], "one": ["one"]}[around])
        chooser = End(self.first, Lin(None, 0))
        if who == "all" and ("M",) in self.roles and rng.random() < 0.5:
            chooser = End(("M",), None)
        branches = [self.told(chooser, who) + self.block(depth - 1, 3, who) for _ in range(rng.choice([2, 2, 3]))]
        return ["choice", self.name("C"), chooser, branches]

    def block(self, depth, length, who, shortest=0):
        return [self.statement(depth, who) for _ in range(self.rng.randint(shortest, length))]

    def few(self):
        ends = [End(self.first, Lin(None, 0)), End(self.first, Lin(None, 1))]
        self.rng.shuffle(ends)
        return ["message", self.any_label(), *ends]

    def joint(self):
        rng = self.rng
        payload = f"({rng.choice(['uint32', 'uint32[3]'])})"
        root = self.fixed(rng.choice(self.roles))
        return ["joint", rng.choice(["barrier", f"broadcast {self.name('A')}{payload} from {root}",
                                     f"reduce {self.name('A')}{payload} with sum to {root}", f"allreduce {self.name('A')}{payload} with max"])]

    def statement(self, depth, who):
        """A statement among all ranks, the first two, or the first alone."""
        rng = self.rng
        kind = rng.choice(["single", "bound", "bound", "foreach", "joint", "compute", "choice", "choice", "choice"])
        if kind == "choice" and depth and self.choices < CHOICES:
            return self.choice(depth, who)
        if who == "one" or kind == "compute":
            return ["compute", self.name("K"), self.fixed(rng.choice(self.roles)) if who == "all" else End(self.first, Lin(None, 0))]
        if who == "few":
            return self.few()
        return {"bound": self.bound, "foreach": self.foreach, "joint": self.joint}.get(kind, lambda: self.single(self.roles))()


def printed(block, depth):
    """The lines of a block."""
    space = "  " * depth
    for s in block:
        if s[0] == "message":
            yield f"{space}{s[1][0]}{s[1][1]} from {s[2]} to {s[3]};"
        elif s[0] == "compute":
            yield f"{space}compute {s[1]} at {s[2]};"
        elif s[0] == "joint":
            yield f"{space}{s[1]};"
        elif s[0] == "foreach":
            yield f"{space}foreach (i:{s[1][0]}..{s[1][1]}) {{"
            yield from printed(s[2], depth + 1)
            yield space + "}"
        else:
            yield f"{space}choice {s[1]} at {s[2]} {{"
            for k, branch in enumerate(s[3]):
                if k:
                    yield space + "} or {"
                yield from printed(branch, depth + 1)
            yield space + "}"


def text(maker, body):
    roles = [f"role {it[0]}" + (f"[{it[1]}..{Lin('N', -it[2])}]" if len(it) > 1 else "") for it in maker.roles]
    head = f"const N = {maker.low}..{maker.high or 'max'};\nglobal protocol P({', '.join(roles)}) {{\n"
    return head + "".join(f"{line}\n" for line in printed(body, 1)) + "}\n"


def over_of(s):
    """The range that a statement's items are done over, and its items."""
    if s[0] == "foreach":
        return s[1], s[2]
    bound = [it.over for it in s[2:] if it.over]
    return bound[0] if bound else (Lin(None, 0), Lin(None, 0)), [s]


def sends(s, n):
    """The messages and words of a statement that isn't a choice, made one by one."""
    messages = words = 0
    if s[0] in ("message", "foreach"):
        (low, high), items = over_of(s)
        for _ in range(low.at(n), high.at(n) + 1):
            for item in items:
                if item[0] == "message":
                    messages, words = messages + 1, words + item[1][2]
    return messages, words


def runs(block, n):
    """The messages and words of each run of a block at N = n, under all answers."""
    found = {(0, 0)}
    for s in block:
        if s[0] == "choice":
            later = set().union(*(runs(branch, n) for branch in s[3]))
        else:
            later = {sends(s, n)}
        found = {(a + c, b + d) for a, b in found for c, d in later}
    return found


def wanted(body, n):
    found = runs(body, n)
    return [least(it[k] for it in found) for k in (0, 1) for least in (min, max)]


def pieces(lines):
    """The pieces of the four lists, in their order, or what is wrong of the lines."""
    lists, at = [[], [], [], []], 0
    for line in lines:
        parts = LINE.fullmatch(line)
        if not parts or LISTS.index(parts[1]) < at:
            return f"the line {line!r}"
        at = LISTS.index(parts[1])
        lists[at].append((int(parts[2]), None if parts[3] == "max" else int(parts[3]), int(parts[4]), int(parts[5])))
    return lists


def out_of_form(low, high, these):
    """What is wrong of the pieces of a list, or nothing."""
    last = None
    for k, (start, end, slope, first) in enumerate(these):
        if start != (last[1] + 1 if last else low):
            return f"a piece from {start} on"
        if last and last[2] * start + last[3] == slope * start + first:
            return f"two pieces of one line at {start}"
        if start == end and (slope or k + 1 < len(these)):
            return f"a piece of {start} alone"
        if end is not None and end < start or end is None and k + 1 < len(these):
            return f"a piece that ends at {end}"
        last = start, end, slope, first
    return None if last and last[1] == high else "a list that ends elsewhere"


def value(these, n):
    return next((slope * n + first for start, end, slope, first in these if start <= n and (end is None or n <= end)), None)


def numbers(maker, rng):
    """Ten numbers of the range, or all."""
    every = range(maker.low, (maker.high or maker.low + FAR) + 1)
    if len(every) <= NUMBERS:
        return every
    return sorted({every[0], every[-1], *rng.sample(every[1:-1], NUMBERS - 2)})


def wrong(program, path, rng):
    """What is wrong of a random file, or nothing."""
    maker = Maker(rng)
    body = maker.block(3, 6, "all", 1)
    path.write_text(text(maker, body))
    status, written = answer(program, "cost", path)
    lists = pieces(written.splitlines())
    if status or isinstance(lists, str):
        return f"{status}, {written}{lists}\nof\n{path.read_text()}"
    for name, these in zip(LISTS, lists):
        why = out_of_form(maker.low, maker.high, these)
        if why:
            return f"{name}: {why}\nin\n{written}of\n{path.read_text()}"
    for n in numbers(maker, rng):
        got, want = [value(these, n) for these in lists], wanted(body, n)
        if got != want:
            return f"N = {n}: {got} and not {want}\nin\n{written}of\n{path.read_text()}"
    return None


if __name__ == "__main__":
    sys.exit(run("costs", wrong, sys.argv[1:]))
