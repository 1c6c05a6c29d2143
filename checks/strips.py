#!/usr/bin/env python3
"""Compares `strips` with a slow flattener on random files with strips, and on the examples: `strips.py [COUNT [SEED]]`, by default
300 files and the seed 1. The program is the one that `pabble` runs, or that PABBLE names. A file is made as a tree, so that its
statements, their places and what its columns give are known without a parser. About half of the files have a fault: a width that
doesn't ascend, an end without its column, a variable of nothing, a column beyond the last, a name that is a column's, a long name, or
too many roles or statements. What is flattened must be flattened to itself. The last line is 'N passed, M failed'.
"""
import random
import sys

from random_files import examples_of, rewritten, run

STATEMENTS, ROLES, NAME, LAST = 4000, 64, 60, 63
CHANGES = ["width", "plain", "column", "beyond", "variable", "clash", "long", "roles", "many", "empty"]


class End:
    """An end: the role, its index as it is spelled, and its column: None, or a variable or None with an offset."""

    def __init__(self, role, index, col):
        self.role, self.index, self.col = role, index, col

    def at(self, value):
        if self.col is None:
            return End(self.role, self.index, None)
        return End(f"{self.role}_{(value if self.col[0] else 0) + self.col[1]}", self.index, None)


class Maker:
    """Makes the roles and the body of a file at random. A role is a name with the first and the last of its columns, or None."""

    def __init__(self, rng):
        self.rng, self.loops = rng, 0
        self.roles = [["M", None]] + [[name, self.width()] for name in ("G", "H", "V")[: rng.randint(1, 3)]]
        rng.shuffle(self.roles)

    def width(self):
        low = self.rng.choice([0, 0, 1, 5])
        return self.rng.choice([None, (low, low + self.rng.choice([0, 1, 2, 3, 9]))])

    def end(self, index, columns):
        name, width = self.rng.choice(self.roles)
        if width is None:
            return End(name, index, None)
        if columns is None or self.rng.random() < 0.3:
            return End(name, index, (None, self.rng.randint(*width)))
        low, high = width[0] - columns[1], width[1] - columns[2]
        return End(name, index, (columns[0], self.rng.randint(low, high)) if low <= high else (None, width[0]))

    def block(self, columns, depth, length):
        return [self.statement(columns, depth) for _ in range(self.rng.randint(0, length))]

    def columns(self, make):
        low = self.rng.choice([0, 0, 1, 2])
        around = ("c", low, low + self.rng.choice([-1, 0, 1, 1, 2, 3]))
        return ["columns", *around, make(around)]

    def items(self, columns):
        return [self.rng.choice([lambda: ["item", self.end("[j]", columns), self.end("[0]", columns)], lambda: ["compute", self.end("[j]", columns)]])()
                for _ in range(self.rng.randint(0, 2))]

    def foreach(self, columns):
        held = self.items(columns)
        if columns is None and self.rng.random() < 0.5:
            held.insert(0, self.columns(self.items))
        return ["foreach", held]

    def statement(self, columns, depth):
        rng = self.rng
        kind = rng.choice(["message", "message", "compute", "broadcast", "reduce", "barrier", "rec", "choice", "foreach", "columns", "columns"])
        if kind == "columns" and columns is None:
            return self.columns(lambda around: self.block(around, depth, 3))
        if kind == "rec" and depth:
            self.loops += 1
            name = f"X{self.loops}"
            return ["rec", name, self.block(columns, depth - 1, 3) + [["continue", name]]]
        if kind == "choice" and depth:
            return ["choice", self.end("[0]", columns), [self.block(columns, depth - 1, 2) for _ in range(rng.randint(2, 3))]]
        if kind == "foreach":
            return self.foreach(columns)
        if kind == "barrier":
            return ["barrier"]
        if kind in ("compute", "broadcast", "reduce"):
            return [kind, self.end("[N-1]", columns)]
        return ["message", self.end("[i:0..N-1]", columns), self.end("[i]", columns)]


class Printer:
    """Prints a file, a statement a line, and keeps the places of statements, ends, names and variables."""

    def __init__(self):
        self.lines, self.places, self.names = [], {}, []

    def put(self, depth, *words):
        line = "  " * depth
        for word in words:
            if isinstance(word, tuple):
                self.names.append((word[0], (len(self.lines) + 1, len(line) + 1))) if word[2] == "name" else None
                self.places[word[1:]] = (len(self.lines) + 1, len(line) + 1)
                word = word[0]
            line += word
        self.lines.append(line)

    def end(self, e):
        yield e.role, id(e), "name"
        if e.index == "[i:0..N-1]":
            yield from ("[", ("i", id(e), "name") + (1,), ":0..", ("N", id(e), "name", 2), "-1]")
        elif e.index in ("[j]", "[i]", "[N-1]"):
            yield from ("[", (e.index[1:2], id(e), "name", 1), e.index[2:])
        else:
            yield e.index
        if e.col is not None:
            var, off = e.col
            if var is None:
                yield f"[{off}]"
            else:
                yield from ("[", (var, id(e), "name", 3), (f"+{off}" if off > 0 else f"{off}" if off < 0 else "") + "]")

    def block(self, block, depth):
        for s in block:
            at = id(s)
            ends = [list(self.end(it)) for it in s if isinstance(it, End)]
            if s[0] == "message":
                self.put(depth, ("L", at, "name"), "() from ", *ends[0], " to ", *ends[1], ";")
            elif s[0] == "item":
                self.put(depth, ("I", at, "name"), "(int32[2]) from ", *ends[0], " to ", *ends[1], ";")
            elif s[0] == "compute":
                self.put(depth, ("compute", at, "key"), " ", ("K", at, "name"), " at ", *ends[0], ";")
            elif s[0] == "broadcast":
                self.put(depth, ("broadcast", at, "key"), " ", ("B", at, "name"), "(uint32) from ", *ends[0], ";")
            elif s[0] == "reduce":
                self.put(depth, ("reduce", at, "key"), " ", ("R", at, "name"), "(int32) with sum to ", *ends[0], ";")
            elif s[0] == "barrier":
                self.put(depth, ("barrier", at, "key"), ";")
            elif s[0] == "continue":
                self.put(depth, ("continue", at, "key"), " ", (s[1], at, "name"), ";")
            elif s[0] == "rec":
                self.braces(depth, s[2], ("rec", at, "key"), " ", (s[1], at, "name"))
            elif s[0] == "foreach":
                self.braces(depth, s[1], ("foreach", at, "key"), " (", ("j", at, "name"), ":0..", ("N", at, "name", 1), "-1)")
            elif s[0] == "columns":
                self.braces(depth, s[4], ("columns", at, "key"), " (", (s[1], at, "name"), f":{s[2]}..{max(s[3], 0)})")
            else:
                self.put(depth, ("choice", at, "key"), " ", ("C", at, "name"), " at ", *ends[0], " {")
                for k, branch in enumerate(s[2]):
                    if k:
                        self.put(depth, "} or {")
                    self.block(branch, depth + 1)
                self.put(depth, "}")

    def braces(self, depth, block, *words):
        self.put(depth, *words, " {")
        self.block(block, depth + 1)
        self.put(depth, "}")

    def file(self, roles, body):
        self.put(0, "const ", ("N", 0, "name"), " = 2..max;")
        words = ["global protocol ", ("P", 1, "name"), "("]
        for k, (name, width) in enumerate(roles):
            words += [", role " if k else "role ", (name, id(roles[k]), "name"), "[0..", ("N", id(roles[k]), "name", 1), "-1]"]
            words += [f"[{width[0]}..{width[1]}]"] if width else []
        self.put(0, *words, ") {")
        self.block(body, 1)
        self.put(0, "}")
        return "\n".join(self.lines) + "\n"


def parts(s):
    return s[2] if s[0] == "choice" else [s[2]] if s[0] == "rec" else [s[1]] if s[0] == "foreach" else [s[4]] if s[0] == "columns" else []


def inside(block, around=None):
    """All ends of a block in the order of the text, each with the columns around it."""
    for s in block:
        for it in s:
            if isinstance(it, End):
                yield it, around
        for part in parts(s):
            yield from inside(part, (s[1], s[2], max(s[3], 0)) if s[0] == "columns" else around)


def values(around):
    return range(around[1], around[2] + 1)


def fault(roles, body, printer):
    """The first fault, as its word and a place."""
    declared = {}
    for role in roles:
        declared.setdefault(role[0], role[1])
    for role in roles:
        if role[1] and not role[1][0] <= role[1][1] <= LAST:
            return "width", printer.places[id(role), "name"]
    every = list(inside(body))
    for e, _ in every:
        if (declared.get(e.role) is None) != (e.col is None):
            return "plain", printer.places[id(e), "name"]
    for e, around in every:
        if e.col and e.col[0] and (around is None or e.col[0] != around[0]):
            return "variable", printer.places[id(e), "name", 3]
    for e, around in every:
        for value in [0] if around is None else values(around):
            if e.col and not declared[e.role][0] <= (value if e.col[0] else 0) + e.col[1] <= declared[e.role][1]:
                return "column", printer.places[id(e), "name"]
    taken = {f"{name}_{c}" for name, width in roles if width for c in range(width[0], width[1] + 1)}
    for name, place in printer.names:
        if name in taken:
            return "clash", place
    return None


def origins(block):
    """The statements that the flat file's come from, one after the other."""
    for s in block:
        if s[0] == "columns":
            for _ in values((s[1], s[2], max(s[3], 0))):
                yield from origins(s[4])
            continue
        yield s
        for part in parts(s):
            yield from origins(part)


def flat(block, value):
    out = []
    for s in block:
        if s[0] == "columns":
            for v in values((s[1], s[2], max(s[3], 0))):
                out += flat(s[4], v)
        elif s[0] == "choice":
            out.append(["choice", s[1].at(value), [flat(it, value) for it in s[2]]])
        elif s[0] in ("rec", "foreach"):
            out.append([*s[:-1], flat(s[-1], value)])
        else:
            out.append([it.at(value) if isinstance(it, End) else it for it in s])
    return out


def expected(roles, body, printer):
    """What `strips` answers: its status and what it writes."""
    found = fault(roles, body, printer)
    if found:
        return 15, "pabble: strip {} at {}:{}\n".format(found[0], *found[1])
    for role in roles:
        if role[1] and len(role[0]) > NAME:
            return 5, "pabble: limit name at {}:{}\n".format(*printer.places[id(role), "name"])
    columns = [(role, c) for role in roles for c in (range(role[1][0], role[1][1] + 1) if role[1] else [None])]
    if len(columns) > ROLES:
        return 5, "pabble: limit roles at {}:{}\n".format(*printer.places[id(columns[ROLES][0]), "name"])
    for k, s in enumerate(origins(body)):
        if k == STATEMENTS:
            place = printer.places.get((id(s), "key")) or printer.places[id(s), "name"]
            return 5, "pabble: limit statements at {}:{}\n".format(*place)
    named = [[role[0] if c is None else f"{role[0]}_{c}", None] for role, c in columns]
    return 0, Printer().file(named, flat(body, None))


def spoiled(rng, maker, roles, body):
    """One change that is a fault, or may be one."""
    kind = rng.choice(CHANGES)
    ends = [it for it, _ in inside(body)]
    if kind == "width":
        rng.choice(roles)[1] = rng.choice([(2, 1), (0, 64), (63, 63), (64, 64)])
    elif kind == "plain" and ends:
        rng.choice(ends).col = rng.choice([None, (None, 0)])
    elif kind == "column" and ends:
        rng.choice(ends).role = rng.choice(["M", "G", "Nobody"])
    elif kind == "beyond" and ends:
        end = rng.choice(ends)
        end.col = end.col and (end.col[0], max(end.col[1] + rng.choice([-1, 1, 2]), -9 if end.col[0] else 0))
    elif kind == "variable" and ends:
        end = rng.choice(ends)
        end.col = end.col and (rng.choice(["c", "d"]), end.col[1])
    elif kind == "clash":
        roles.insert(rng.randint(0, len(roles)), [rng.choice(["G_1", "H_0", "V_10", "G_01", "G_3"]), rng.choice([None, (0, 1)])])
    elif kind == "long":
        roles.append(["L" * rng.choice([59, 60, 61, 64]), rng.choice([None, (0, 3), (9, 11)])])
    elif kind == "roles":
        roles.append(["Q", (0, rng.choice([30, 55, 63]))])
    elif kind == "many":
        held = [["barrier"] for _ in range(rng.choice([1, 39, 40, 41]))]
        body.insert(rng.randint(0, len(body)), ["columns", "c", 0, rng.choice([98, 99, 99_999]), held])
    elif kind == "empty":
        body.insert(rng.randint(0, len(body)), ["columns", "c", 0, 99_999, []])


def wrong(program, path, rng):
    """What is wrong of a random file, or nothing."""
    maker = Maker(rng)
    roles, body = maker.roles, maker.block(None, 3, 5)
    for _ in range(rng.choice([0, 0, 1, 2])):
        spoiled(rng, maker, roles, body)
    printer = Printer()
    path.write_text(printer.file(roles, body))
    want = expected(roles, body, printer)
    return rewritten(program, "strips", path, want)


if __name__ == "__main__":
    sys.exit(run("strips", wrong, sys.argv[1:], examples_of("strips", ".strips")))
