#!/usr/bin/env python3
"""Compares `expand` with a slow expander on random files with subprotocols, and on the examples: `expand.py [COUNT [SEED]]`, by default
300 files and the seed 1. The program is the one that `pabble` runs, or that PABBLE names. A file is made as a tree, so that its
statements, their places and what its calls give are known without a parser. About half of the files have a fault: a name twice, a call
of nothing, with an argument too many, of a stranger, in a circle, or too many statements or braces. What is expanded must be expanded
to itself. The last line is 'N passed, M failed'.
"""
import random
import sys

from random_files import examples_of, rewritten, run

sys.setrecursionlimit(100_000)
STATEMENTS, BRACES = 4000, 64


class Excess(Exception):
    """A limit that is passed, and the statement of the protocol that it comes from."""


class Sub:
    def __init__(self, name, params, body):
        self.name, self.params, self.body = name, params, body


class Maker:
    """Makes the subprotocols and the protocol of a file at random."""

    def __init__(self, rng):
        self.rng, self.loops = rng, 0

    def block(self, names, subs, depth, length):
        return [self.statement(names, subs, depth) for _ in range(self.rng.randint(0, length))]

    def call(self, names, subs):
        sub = self.rng.choice(subs)
        return ["do", sub.name, [self.rng.choice(names) for _ in sub.params]]

    def statement(self, names, subs, depth):
        rng = self.rng
        kind = rng.choice(["message", "message", "compute", "broadcast", "do", "do", "rec", "choice", "foreach"])
        if kind == "do" and subs:
            return self.call(names, subs)
        if kind == "rec" and depth:
            self.loops += 1
            name = f"X{self.loops}"
            return ["rec", name, self.block(names, subs, depth - 1, 3) + [["continue", name]]]
        if kind == "choice" and depth:
            return ["choice", rng.choice(names), [self.block(names, subs, depth - 1, 2) for _ in range(rng.randint(2, 3))]]
        if kind == "foreach":
            return ["foreach", [["item", rng.choice(names), rng.choice(names)] for _ in range(rng.randint(0, 2))]]
        if kind == "compute":
            return ["compute", rng.choice(names)]
        if kind == "broadcast":
            return ["broadcast", rng.choice(names)]
        return ["message", rng.choice(names), rng.choice(names)]

    def file(self):
        subs = []
        for k in range(self.rng.randint(0, 4)):
            params = [f"A{j}" for j in range(self.rng.randint(1, 3))]
            subs.append(Sub(f"S{k}", params, self.block(params, subs, 2, 3)))
        self.rng.shuffle(subs)
        roles = ["M", "W", "V"]
        return subs, roles, self.block(roles, subs, 3, 5)


class Printer:
    """Prints a file, a statement a line, and keeps the places of names, by the number of their list."""

    def __init__(self):
        self.lines, self.places = [], {}

    def put(self, depth, *words):
        line = "  " * depth
        for word in words:
            if isinstance(word, tuple):
                self.places[word[1:]] = (len(self.lines) + 1, len(line) + 1)
                word = word[0]
            line += word
        self.lines.append(line)

    def block(self, block, depth):
        for s in block:
            at = id(s)
            if s[0] == "do":
                words = [w for j, arg in enumerate(s[2]) for w in (", " if j else "", (arg, at, 2 + j))]
                self.put(depth, ("do", at, 0), " ", (s[1], at, 1), "(", *words, ");")
            elif s[0] == "message":
                self.put(depth, ("L", at, 0), "() from ", (s[1], at, 1), "[0] to ", (s[2], at, 2), "[i:0..N-1];")
            elif s[0] == "item":
                self.put(depth, ("I", at, 0), "(int32[2]) from ", (s[1], at, 1), "[j] to ", (s[2], at, 2), ";")
            elif s[0] == "compute":
                self.put(depth, ("compute", at, 0), " K at ", (s[1], at, 1), "[N-1];")
            elif s[0] == "broadcast":
                self.put(depth, ("broadcast", at, 0), " B(uint32) from ", (s[1], at, 1), ";")
            elif s[0] == "continue":
                self.put(depth, ("continue", at, 0), " ", (s[1], at, 1), ";")
            elif s[0] == "rec":
                self.put(depth, ("rec", at, 0), f" {s[1]} {{")
                self.block(s[2], depth + 1)
                self.put(depth, "}")
            elif s[0] == "foreach":
                self.put(depth, ("foreach", at, 0), " (j:0..N-1) {")
                self.block(s[1], depth + 1)
                self.put(depth, "}")
            else:
                self.put(depth, ("choice", at, 0), " C at ", (s[1], at, 1), "[0] {")
                for k, branch in enumerate(s[2]):
                    if k:
                        self.put(depth, "} or {")
                    self.block(branch, depth + 1)
                self.put(depth, "}")

    def file(self, subs, roles, body):
        self.put(0, "const N = 2..max;")
        for sub in subs:
            at = id(sub)
            words = [w for j, it in enumerate(sub.params) for w in (", role " if j else "role ", (it, at, 1 + j))]
            self.put(0, "protocol ", (sub.name, at, 0), "(", *words, ") {")
            self.block(sub.body, 1)
            self.put(0, "}")
        self.put(0, f"global protocol P({', '.join(f'role {it}[0..N-1]' for it in roles)}) {{")
        self.block(body, 1)
        self.put(0, "}")
        return "\n".join(self.lines) + "\n"


def inside(block):
    """All statements of a block, in the order of the text."""
    for s in block:
        yield s
        for part in s[2] if s[0] == "choice" else [s[2]] if s[0] == "rec" else [s[1]] if s[0] == "foreach" else []:
            yield from inside(part)


def calls(block):
    return [s for s in inside(block) if s[0] == "do"]


def named(subs, name):
    return next((it for it in subs if it.name == name), None)


def reaches(subs, start, goal):
    seen, left = set(), [start]
    while left:
        sub = left.pop()
        if sub is goal:
            return True
        if id(sub) not in seen:
            seen.add(id(sub))
            left += [it for it in (named(subs, s[1]) for s in calls(sub.body)) if it]
    return False


def strangers(block, params, loops):
    """The names in a subprotocol that stand for nothing there."""
    for s in block:
        if s[0] == "continue" and s[1] not in loops:
            yield id(s), 1
        if s[0] in ("message", "item", "compute", "broadcast", "choice"):
            yield from ((id(s), k) for k in range(1, 3 if s[0] in ("message", "item") else 2) if s[k] not in params)
        if s[0] == "do":
            yield from ((id(s), 2 + j) for j, arg in enumerate(s[2]) if arg not in params)
        for part in s[2] if s[0] == "choice" else [s[2]] if s[0] == "rec" else [s[1]] if s[0] == "foreach" else []:
            yield from strangers(part, params, loops | {s[1]} if s[0] == "rec" else loops)


def fault(subs, roles, body):
    """The first fault of the calls, as its word and the place of a name."""
    for k, sub in enumerate(subs):
        if sub.name in [it.name for it in subs[:k]]:
            return "twice", (id(sub), 0)
        for j, it in enumerate(sub.params):
            if it in sub.params[:j]:
                return "twice", (id(sub), 1 + j)
    every = [(sub, s) for sub in subs for s in calls(sub.body)] + [(None, s) for s in calls(body)]
    for _, s in every:
        if not named(subs, s[1]):
            return "unknown", (id(s), 1)
    for _, s in every:
        if len(s[2]) != len(named(subs, s[1]).params):
            return "arity", (id(s), 1)
    for sub in subs:
        for at in strangers(sub.body, sub.params, frozenset()):
            return "stranger", at
    for s in calls(body):
        for j, arg in enumerate(s[2]):
            if arg not in roles:
                return "stranger", (id(s), 2 + j)
    for around, s in every:
        if around and reaches(subs, named(subs, s[1]), around):
            return "cycle", (id(s), 1)
    return None


class Expander:
    """Replaces calls one after the other, and counts."""

    def __init__(self, subs):
        self.subs, self.count = subs, 0

    def block(self, block, roles, depth, root):
        out = []
        for s in block:
            blamed = root or (id(s), 0)
            if s[0] in ("rec", "choice", "foreach") and depth >= BRACES:
                raise Excess("nesting", blamed)
            if self.count >= STATEMENTS:
                raise Excess("statements", blamed)
            self.count += 1
            role = [roles.get(it, it) if isinstance(it, str) else it for it in s[1:3]]
            if s[0] == "do":
                sub = named(self.subs, s[1])
                out += self.block(sub.body, dict(zip(sub.params, (roles.get(it, it) for it in s[2]))), depth, blamed)
            elif s[0] == "rec":
                out.append(["rec", s[1], self.block(s[2], roles, depth + 1, root)])
            elif s[0] == "choice":
                out.append(["choice", role[0], [self.block(it, roles, depth + 1, root) for it in s[2]]])
            elif s[0] == "foreach":
                out.append(["foreach", self.block(s[1], roles, depth + 1, root)])
            else:
                out.append([s[0], s[1]] if s[0] == "continue" else [s[0], *role])
        return out


def spoiled(rng, subs, roles, body):
    """One change that is a fault, or may be one."""
    bodies = [sub.body for sub in subs] + [body]
    block = rng.choice(bodies)
    kind = rng.choice(["twice", "param", "unknown", "arity", "stranger", "cycle", "continue", "many", "deep"])
    if kind == "twice" and subs:
        subs.append(Sub(rng.choice(subs).name, ["A0"], []))
    elif kind == "param" and subs:
        rng.choice(subs).params.append("A0")
    elif kind == "unknown":
        block.insert(rng.randint(0, len(block)), ["do", "Nobody", ["A0"]])
    elif kind == "arity" and subs:
        block.append(["do", rng.choice(subs).name, ["A0"] * rng.randint(1, 4)])
    elif kind == "stranger":
        block.append(rng.choice([["message", "M", "A0"], ["compute", "Z"], ["choice", "Y", [[], []]]]))
    elif kind == "cycle" and subs:
        sub = rng.choice(subs)
        rng.choice(subs).body.insert(0, ["do", sub.name, ["A0"] * len(sub.params)])
    elif kind == "continue":
        block.append(["continue", "X1"])
    elif kind == "many":
        subs.append(Sub("Many", ["A0"], [["compute", "A0"] for _ in range(rng.choice([1, 30, 998, 999, 1000]))]))
        body.extend(["do", "Many", ["M"]] for _ in range(4))
    elif kind == "deep":
        inner = ["rec", "Z0", []]
        for k in range(rng.choice([5, 57, 60, 62])):
            inner = ["rec", f"Z{k + 1}", [inner]]
        subs.append(Sub("Deep", ["A0"], [inner]))
        body.append(["choice", "M", [[["do", "Deep", ["M"]]], []]])


def expected(subs, roles, body, printer):
    """What `expand` answers: its status and what it writes."""
    found = fault(subs, roles, body)
    if found:
        return 14, "pabble: call {} at {}:{}\n".format(found[0], *printer.places[found[1]])
    try:
        block = Expander(subs).block(body, {}, 1, None)
    except Excess as it:
        return 5, "pabble: limit {} at {}:{}\n".format(it.args[0], *printer.places[it.args[1]])
    return 0, Printer().file([], roles, block)


def wrong(program, path, rng):
    """What is wrong of a random file, or nothing."""
    subs, roles, body = Maker(rng).file()
    for _ in range(rng.choice([0, 0, 1, 2])):
        spoiled(rng, subs, roles, body)
    printer = Printer()
    path.write_text(printer.file(subs, roles, body))
    want = expected(subs, roles, body, printer)
    return rewritten(program, "expand", path, want)


if __name__ == "__main__":
    sys.exit(run("expand", wrong, sys.argv[1:], examples_of("expand", ".calls")))
