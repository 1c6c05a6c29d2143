#!/usr/bin/env python3
"""Measures the program on large protocol files within the limits, and looks for those on which it is slow or takes much memory.

  bench/slow.py [COUNT [SEED]]    first the families, which are always the same files, then COUNT random files, 40 where it isn't
                                  given, made by shape, each shape with sizes of its own
  bench/slow.py --hard [COUNT [SEED]]   the same of the shapes of which large files are known to take longer (docs/DECIDING.md)
  bench/slow.py --write SHAPE SEED      prints a file; of a family the seed says nothing

Each file is given to `check`, `gen` and `project`. Printed are the families, then the worst random files with the numbers that
make them again. A command fails where the best of three calls takes more than 1 s of processor time, or 2 s for `gen` and
`project`, or more than 512 MiB; MOST_SECONDS and MOST_MEBIBYTES in the environment give other limits. The program is the one that `pabble`
runs, or that PABBLE names. The last line is 'N passed, N failed'.
"""
import os
import random
import resource
import subprocess
import sys
import tempfile
from pathlib import Path

TOP = Path(__file__).resolve().parent.parent
LIMITS = {"check": 1, "gen": 2, "project": 2}
SECONDS = {command: int(os.environ.get("MOST_SECONDS", limit)) for command, limit in LIMITS.items()}
MEBIBYTES, TRIES, SHOWN = int(os.environ.get("MOST_MEBIBYTES", 512)), 3, 12
STATEMENTS, BRANCHES, OPEN, BYTES = 4000, 64, 64, 1_048_576


def protocol(low, body, roles="role W[0..N-1]", high="max"):
    return f"const N = {low}..{high};\nglobal protocol P({roles}) {{\n" + "\n".join(body) + "\n}\n"


def choice_of(blocks, kernel="K", at="W[0]"):
    """A choice of these branches."""
    lines = [f"choice {kernel} at {at} {{"]
    for number, block in enumerate(blocks):
        lines += (["} or {"] if number else []) + block
    return lines + ["}"]


# ---- families: files that are always the same

def relative():
    """4,000 messages between neighbours of eight roles."""
    roles = ", ".join(f"role W{r}[0..N-1]" for r in range(8))
    return protocol(2, [f"A{k}() from W{k % 8}[i:0..N-2] to W{(k + k % 3) % 8}[i+1];" for k in range(STATEMENTS)], roles)


def mixed():
    """4,000 statements of four kinds."""
    kinds = ["A(uint32[4]) from W[i:0..N-2] to W[i+1];", "B() from W[N-1] to W[0];", "compute Tick at W[0];", "allreduce S(uint32[2]) with sum;"]
    return protocol(2, [kinds[k % 4] for k in range(STATEMENTS)])


def one_by_one():
    """A choice of 64 branches, in each of which 60 ranks are told one by one, and then the others."""
    return protocol(70, choice_of([[f"L{b}() from W[0] to W[{k}];" for k in range(1, 61)] + [f"L{b}() from W[0] to W[i:61..N-1];"] for b in range(64)]))


def crossing(low):
    """The same with every second end counted from the last rank, and then all: from N = 121 on no two of these ends are one rank, and
    from 62 on many are."""
    end = lambda k: k if k % 2 else f"N-{k}"
    return protocol(low, choice_of([[f"L{b}() from W[0] to W[{end(k)}];" for k in range(1, 61)] + [f"G{b}() from W[0] to W[i:1..N-1];"] for b in range(64)]))


def own():
    """Two branches that tell all ranks, and then have messages between ranks of their own."""
    return protocol(2602, choice_of([[f"G{b}() from W[0] to W[i:1..N-1];"] + [f"L{b}() from W[{2 * k}] to W[{2 * k + 1}];" for k in range(1, 1301)] for b in range(2)]))


def moving():
    """A `foreach` of messages that all have offsets of their own."""
    return protocol(4002, ["foreach (i:2000..N-2001) {", *(f"A() from W[i-{k}] to W[i+{k}];" for k in range(1, 2000)), "}"])


def nested():
    """63 loops, each within the one before, of which the innermost continues the outermost."""
    return protocol(2, [f"rec X{k} {{ A{k}() from W[0] to W[1];" for k in range(1, 64)] + ["continue X1;"] + ["}"] * 63)


def continued():
    """31 loops, each with a choice that continues it, the one around it, or the next one inside."""
    body = [f"rec X{k} {{ choice K{k} at W[0] {{ A{k}() from W[0] to W[1]; continue X{max(k - 1, 0)}; }} or {{ B{k}() from W[0] to W[1];" for k in range(31)]
    return protocol(2, body + ["C() from W[0] to W[1];"] + ["} }"] * 31)


def distant():
    """Two messages whose ends lie 100,000 apart."""
    return protocol(100_000, ["A() from W[N] to W[99999];", "B() from W[i:0..N] to W[i+100000];"], "role W[0..N+100000]")


def in_a_chain():
    """Two branches in which each rank is told by the one before it."""
    return protocol(1990, choice_of([[f"L{b}() from W[{k - 1}] to W[{k}];" for k in range(1, 1990)] for b in range(2)]))


def with_gaps():
    """Two branches that tell every third rank from the first, or from the last, which never are one."""
    end = lambda k: 3 * k if k % 2 else f"N-{3 * k}"
    return protocol(11944, choice_of([[f"L{b}() from W[0] to W[{end(k)}];" for k in range(1, 1990)] for b in range(2)]))


FAMILIES = {"relative": relative, "mixed": mixed, "one_by_one": one_by_one, "crossing": lambda: crossing(121), "crossing_in": lambda: crossing(62),
            "own": own, "moving": moving, "nested": nested, "continued": continued, "distant": distant, "in_a_chain": in_a_chain, "with_gaps": with_gaps}


# ---- shapes: a low end of the range and a body, or a whole file

def end(rng, spread, kinds="fm"):
    """An end `W[k]` or `W[N-k]`."""
    k = rng.randint(1, spread)
    return f"W[{k}]" if rng.choice(kinds) == "f" else f"W[N-{k}]"


def told(rng, branch, ends, spread):
    """A branch that tells ranks one by one and then all of them, under labels of its own."""
    lines = [f"L{branch}() from W[0] to {end(rng, spread)};" for _ in range(ends)]
    return lines + [f"G{branch}() from W[0] to W[i:1..N-1];"]


def large(rng, most, least=1):
    """A size up to the most, mostly near it."""
    return max(least, int(most * rng.choice([0.1, 0.25, 0.5, 0.75, 1.0])))


def odd_first(count):
    """The numbers from 1 on, odd ones first, so that neighbours stand far apart in a list."""
    return [*range(1, count + 1, 2), *range(2, count + 1, 2)]


def choice(rng):
    """A choice of many branches, whose ends cross below the range or in it."""
    branches = rng.choice([2, 4, 16, 64])
    ends = min(rng.choice([10, 30, 60, 120]), STATEMENTS // branches - 2)
    spread = rng.randint(ends // 2 + 1, 2 * ends)
    return rng.choice([2 * spread + 2, spread + 2]), choice_of([told(rng, b, ends, spread) for b in range(branches)])


def own_ranks(rng):
    """A choice of few branches, in each many messages between ranks of their own."""
    branches = rng.choice([2, 3, 4])
    count = rng.randint(100, (STATEMENTS - 1) // branches - 1)
    return count + 2, choice_of([[f"L{b}() from W[0] to W[{k}];" for k in range(1, count)] for b in range(branches)])


def offsets(rng):
    """A `foreach` of many messages with offsets of their own."""
    count, step = rng.randint(100, STATEMENTS - 2), rng.choice([1, 2, 7])
    low = count * step
    return 2 * low + 2, [f"foreach (i:{low}..N-{low + 1}) {{", *(f"A() from W[i-{k * step}] to W[i+{k * step}];" for k in range(1, count)), "}"]


def offsets_to_one(rng):
    """The same, with one message at an end without the variable beside."""
    low, body = offsets(rng)
    return low, [body[0], "B() from W[i] to W[0];", *body[1:]]


def cuts(rng):
    """Many statements over some ends that cross."""
    spread, count = rng.choice([5, 15, 30, 60]), rng.randint(500, STATEMENTS - 1)
    body = []
    for _ in range(count):
        one, two = end(rng, spread, "f"), end(rng, spread, "m")
        body.append(f"A() from {one} to {two};" if rng.random() < 0.5 else f"B() from {two} to {one};")
    return 2 * spread + 2, body


def told_in_turn(rng):
    """Choices one in another, each told by the one around it."""
    depth, ends = rng.randint(2, 30), rng.randint(2, 40)
    body = []
    for level in range(depth):
        body += [f"choice K{level} at W[0] {{", *told(rng, f"A{level}x", ends, 2 * ends), "} or {", *told(rng, f"B{level}x", ends, 2 * ends)]
    return 4 * ends + 2, body + ["}"] * depth


def loops(rng):
    """Loops one in another, with choices that continue one of them."""
    depth = rng.randint(2, 30)
    body = []
    for level in range(depth):
        body += [f"rec X{level} {{", f"choice K{level} at W[0] {{", f"A{level}() from W[0] to W[i:1..N-1];", f"continue X{rng.randint(0, level)};",
                 "} or {", f"B{level}() from W[0] to W[i:1..N-1];"]
    return 2, body + ["}"] * (2 * depth)


def tree(rng):
    """A choice in which each rank is told by one of the first half, under the same labels in each branch, in another order."""
    branches = rng.choice([2, 4, 16, 64])
    ends = (STATEMENTS - 2) // branches - 1
    return ends + 1, choice_of([[f"L{(b + k) % branches}() from W[{(k - 1) // 2}] to W[{k}];" for k in range(1, ends + 1)] for b in range(branches)])


def gaps(rng):
    """A choice of few branches that tell ranks with gaps between them, from the first rank or each from the one told before."""
    branches, step = rng.choice([2, 3, 8, 64]), rng.choice([2, 3])
    count, is_chain = (STATEMENTS - 2) // branches - 1, rng.random() < 0.5
    source = lambda k: step * (k - 1) if is_chain else 0
    return step * count + 2, choice_of([[f"L{b}() from W[{source(k)}] to W[{step * k}];" for k in range(1, count)] for b in range(branches)])


def gaps_from_both(rng):
    """The same, from the first rank, with ends counted from the last one beside, which cross below the range."""
    branches = rng.choice([2, 3, 8, 64])
    count = (STATEMENTS - 2) // (2 * branches) - 1
    blocks = [[line for k in range(1, count) for line in (f"L{b}() from W[0] to W[{3 * k}];", f"L{b}() from W[0] to W[N-{3 * k}];")] for b in range(branches)]
    return 6 * count + 4, choice_of(blocks)


def two_sources(rng):
    """A choice in which a second rank tells two of three others, from the first and from the last on."""
    branches = rng.choice([2, 8, 64])
    ends = (STATEMENTS - 2) // branches - 2
    to = lambda k: k if k % 2 else f"N-{k}"
    blocks = [[f"L{b}() from W[0] to W[{ends + 1}];"] + [f"L{b}() from W[{ends + 1 if k % 3 else 0}] to W[{to(k)}];" for k in range(1, ends + 1)] for b in range(branches)]
    return 2 * ends + 4, choice_of(blocks)


def cross_loop(rng):
    """A loop over computes at W[2*k] and W[N-2*k], which cross in the range, in turn or one kind after the other."""
    count = large(rng, 1000, 20)
    pairs = [(f"compute L at W[{2 * k}];", f"compute L at W[N-{2 * k}];") for k in range(1, count)]
    lines = [line for pair in pairs for line in pair] if rng.random() < 0.5 else [a for a, _ in pairs] + [b for _, b in pairs]
    return 2 * count + 1, ["rec X {", *lines, "}"]


def loops_joint(rng):
    """Loops one in another, the innermost with collectives of all ranks of many roles."""
    depth, roles = large(rng, OPEN - 1, 2), large(rng, 64, 2)
    count = large(rng, STATEMENTS - depth)
    heads = "role W[0..N-1]" + "".join(f", role V{r}[{r}..N]" for r in range(1, roles))
    what = [rng.choice(["barrier;", "allreduce S(uint32) with sum;"]) for _ in range(count)]
    return protocol(64, [f"rec X{k} {{" for k in range(depth)] + what + ["}"] * depth, heads)


def each_stays(rng):
    """A `foreach` of computes at ends that stay, with gaps between them."""
    count = large(rng, STATEMENTS - 1, 20)
    return 2 * count + 2, ["foreach (i:1..N-2) {", *(f"compute L at W[{2 * k}];" for k in range(count)), "}"]


def low_ranges(rng):
    """A loop over ranges from N-k up to a number, which go on shrinking at both ends."""
    count = large(rng, 2700, 20)
    return count + 9, ["rec X {"] + [f"A() from W[0] to W[i:N-{k}..{count - k // 2}];" for k in range(2, count)] + ["}"]


def wide_ranges(rng):
    """A loop over ranks with gaps, and ranges that end among them."""
    count = large(rng, 1000, 20)
    ends = list(range(count, 2 * count))
    if rng.random() < 0.5:
        ends.reverse()
    points = [f"A() from W[0] to W[{2 * k}];" for k in range(1, count)]
    return 2 * count + 1, ["rec X {", *points, *(f"B() from W[0] to W[i:1..N-{k}];" for k in ends), "}"]


def loops_choices(rng):
    """Loops and choices in turn, the innermost of which tells neighbours far apart."""
    depth = large(rng, (OPEN - 1) // 2, 2)
    count = large(rng, STATEMENTS - 4 * depth - 1, 2)
    body = []
    for k in range(depth):
        body += [f"rec X{k} {{", f"choice K{k} at W[0] {{"]
    body += [f"L() from W[0] to W[{k}];" for k in odd_first(count)]
    for k in reversed(range(depth)):
        body += ["} or {", f"M{k}() from W[0] to W[i:1..{count}];", f"continue X{k};", "}", "}"]
    return count + 3, body


def choices_split(rng):
    """Choices one in another, the innermost of which tells neighbours far apart."""
    depth = large(rng, OPEN - 1, 2)
    count = large(rng, STATEMENTS - 2 * depth - 1, 2)
    body = [f"choice K{k} at W[0] {{" for k in range(depth)] + [f"L() from W[0] to W[{k}];" for k in odd_first(count)]
    for k in range(depth):
        body += ["} or {", f"M{k}() from W[0] to W[i:1..{count}];", "}"]
    return count + 3, body


def choices_gaps(rng):
    """Choices one in another, of which nobody is told (rule 10)."""
    depth = large(rng, OPEN - 1, 2)
    count = large(rng, STATEMENTS - depth - 1, 2)
    body = [f"choice K{k} at W[0] {{" for k in range(depth)] + [f"compute L at W[{2 * k}];" for k in range(1, count)]
    return 2 * count + 2, body + ["} or {", "}"] * depth


def choices_told(rng):
    """Choices one in another, each of which tells all ranks before the next, and the innermost goes on with computes with gaps."""
    depth = large(rng, OPEN - 1, 2)
    count = large(rng, STATEMENTS - 3 * depth - 1, 2)
    body = [line for k in range(depth) for line in (f"choice K{k} at W[0] {{", f"A{k}() from W[0] to W[i:1..N-1];")]
    body += [f"compute L at W[{2 * k}];" for k in range(1, count)]
    return 2 * count + 2, body + [line for k in range(depth) for line in ("} or {", f"B{k}() from W[0] to W[i:1..N-1];", "}")]


def continues(rng):
    """A loop over ranks with gaps, and choices in it, of which all branches continue it and tell nobody (rule 10)."""
    depth, width = large(rng, 20, 1), large(rng, BRANCHES, 2)
    count = large(rng, STATEMENTS - depth * (width + 1) - 1, 2)
    body = ["rec X {"] + [f"compute L at W[{2 * k}];" for k in range(1, count)]
    for d in range(depth):
        body += [f"choice K{d} at W[0] {{", "continue X;"]
        for b in range(1, width):
            body += ["} or {"] + (["continue X;"] if b < width - 1 or d == depth - 1 else [])
    return 2 * count + 3, body + ["}"] * depth + ["}"]


def continues_told(rng):
    """The same, where each branch tells all ranks before it continues."""
    depth, width = large(rng, 10, 1), large(rng, BRANCHES, 2)
    count = large(rng, STATEMENTS - 2 * depth * (width + 1) - 1, 2)
    body = ["rec X {"] + [f"compute L at W[{2 * k}];" for k in range(1, count)]
    for d in range(depth):
        for b in range(width):
            body += ["} or {" if b else f"choice K{d} at W[0] {{", f"M{d}x{b}() from W[0] to W[i:1..N-1];"]
            body += ["continue X;"] if b < width - 1 or d == depth - 1 else []
    return 2 * count + 3, body + ["}"] * depth + ["}"]


def loops_cross(rng):
    """Loops one in another, the innermost with computes at W[2*k] and W[N-2*k], which cross in the range."""
    depth, count = large(rng, OPEN - 1, 2), large(rng, 200, 10)
    lines = [line for k in range(1, count) for line in (f"compute L at W[{2 * k}];", f"compute L at W[N-{2 * k}];")]
    return 2 * count + 1, [f"rec X{k} {{" for k in range(depth)] + lines + ["}"] * depth


def cross_each(rng):
    """A `foreach` of computes at ends that stay, which cross in the range."""
    count = large(rng, 1000, 20)
    lines = [line for k in range(1, count) for line in (f"compute L at W[{2 * k}];", f"compute L at W[N-{2 * k}];")]
    return 2 * count + 1, ["foreach (i:1..N-2) {", *lines, "}"]


def each_holes(rng):
    """A `foreach` of ends that move, with ends that stay in their midst."""
    count = large(rng, STATEMENTS // 2, 20)
    items = [f"compute L at W[{2 * k}];" for k in range(1, count)] + [f"A() from W[i+{k}] to W[i+{k + 1}];" for k in range(1, count)]
    return 3 * count + 4, [f"foreach (i:0..N-{count + 1}) {{", *items, "}"]


def met(rng, label, step):
    """A choice of which each branch has a `foreach` of ends W[N-2*k] and of ends W[i+step*k], which are told by this label."""
    count = min(large(rng, 1000, 20), STATEMENTS // 4 - 2)
    blocks = [[f"foreach (i:1..N-{step * count + 1}) {{"]
              + [line for k in range(1, count) for line in (f"L{b}() from W[0] to W[N-{2 * k}];", f"{label}{b}() from W[0] to W[i+{step * k}];")]
              + ["}", f"G{b}() from W[0] to W[i:1..N-1];"] for b in range(2)]
    return 2 * count + step, choice_of(blocks)


def each_met(rng):
    """Ends W[N-2*k] and ends that move and begin there for some N, in a `foreach` in each branch of a choice."""
    return met(rng, "L", 1)


def told_by_many(rng):
    """Branches in each of which a choice tells the same ranks from a rank of its own in each branch (rule 10)."""
    outer, inner = rng.choice([2, 3, 6]), large(rng, BRANCHES, 4)
    ranks = large(rng, (STATEMENTS - 10) // (outer * inner), 1)
    blocks = [choice_of([[f"L{o}x{b}() from W[{b + 2 * ranks + 3}] to W[{2 * k + 1}];" for k in range(ranks)] for b in range(inner)], f"Q{o}")
              for o in range(outer)]
    return inner + 2 * ranks + 9, choice_of(blocks)


def one_rank(rng):
    """Choices one in another, of which each branch tells the same rank from a sender of its own (rule 11)."""
    depth = large(rng, OPEN - 1, 2)
    width = large(rng, min(BRANCHES, (STATEMENTS - 1) // depth - 1), 3)
    body, sender = [f"choice K{d} at W[0] {{" for d in range(depth)] + ["A() from W[0] to W[1];"], 1
    for _ in range(depth):
        for _ in range(1, width):
            sender += 1
            body += ["} or {", f"L{sender}() from W[{sender}] to W[1];"]
        body.append("}")
    return sender + 2, body


# ---- shapes of which large files take longer, most of them for their long texts

def loops_gaps(rng):
    """Loops one in another, the innermost with messages between ranks with gaps between them."""
    depth = large(rng, OPEN - 1, 2)
    count = large(rng, (STATEMENTS - depth) // 2)
    return 4 * count + 4, [f"rec X{k} {{" for k in range(depth)] + [f"A() from W[{4 * k}] to W[{4 * k + 2}];" for k in range(count)] + ["}"] * depth


def cross_told(rng):
    """A choice of few branches that tells ranks W[2*k] and W[N-2*k], which cross in the range, and then all."""
    branches = rng.choice([2, 3, 4])
    count = min(large(rng, 1000, 20), STATEMENTS // (2 * branches) - 2)
    blocks = [[line for k in range(1, count) for line in (f"L{b}() from W[0] to W[{2 * k}];", f"L{b}() from W[0] to W[N-{2 * k}];")]
              + [f"G{b}() from W[0] to W[i:1..N-1];"] for b in range(branches)]
    return 2 * count + 1, choice_of(blocks)


def choices_cross(rng):
    """Choices one in another, the innermost of which tells ranks W[2*k] and W[N-2*k], which cross in the range, and then all."""
    depth, count = large(rng, OPEN - 1, 2), large(rng, 200, 10)
    body = [f"choice K{k} at W[0] {{" for k in range(depth)]
    body += [line for k in range(1, count) for line in (f"L() from W[0] to W[{2 * k}];", f"L() from W[0] to W[N-{2 * k}];")]
    body += ["G() from W[0] to W[i:1..N-1];"]
    for k in range(depth):
        body += ["} or {", f"M{k}() from W[0] to W[i:1..N-1];", "}"]
    return 2 * count + 1, body


def each_labels(rng):
    """As `each_met`, with labels of their own for the ends that move: where two ends are one rank, the first message counts."""
    return met(rng, "M", 1)


def each_gaps(rng):
    """As `each_labels`, with ends that move W[i+2*k], which begin at ends that stay for every second N alone."""
    return met(rng, "M", 2)


def crossed(rng, branches, most=STATEMENTS):
    """How many ends from the first and from the last rank these branches may tell, so that a text of few megabytes is enough."""
    return min(large(rng, 1000, 10), most // (2 * branches) - 4, int((40_000 / branches) ** 0.5))


def cross_pairs(count, first, second, rest, senders=("W[0]", "W[0]")):
    """Messages with these labels to ranks W[2*k] and W[N-2*k], which cross in the range, and then to all."""
    return [line for k in range(1, count) for line in (f"{first}() from {senders[0]} to W[{2 * k}];", f"{second}() from {senders[1]} to W[N-{2 * k}];")] \
        + [f"{rest}() from W[0] to W[i:2..N-1];"]


def cross_sources(rng):
    """Branches that tell ranks that cross from two senders (rule 11)."""
    branches = rng.choice([2, 3, 8, 32, 60])
    count = crossed(rng, branches)
    return 2 * count + 1, choice_of([[f"R{b}() from W[0] to W[1];"] + cross_pairs(count, f"L{b}", f"M{b}", f"G{b}", ("W[0]", "W[1]")) for b in range(branches)])


def cross_labels(rng):
    """Branches that tell ranks that cross by the same labels, and each rank by another one (rule 12), or not."""
    count = crossed(rng, 2)
    others = rng.choice([("G", "L"), ("L", "G"), ("L", "H")])
    return 2 * count + 1, choice_of([[f"R{b}() from W[0] to W[1];"] + cross_pairs(count, a, a, c) for b, (a, c) in enumerate((("L", "G"), others))])


def cross_inner(rng):
    """Branches in each of which a choice tells ranks that cross from two senders, by labels of each branch."""
    inner = rng.choice([2, 5, 10, 30])
    count = crossed(rng, 2 * inner)
    return 2 * count + 1, choice_of([choice_of([[f"R{o}x{b}() from W[0] to W[1];"]
                                                + cross_pairs(count, f"L{o}x{b}", f"L{o}x{b}", f"G{o}x{b}", ("W[0]", "W[1]")) for b in range(inner)], f"Q{o}")
                                     for o in range(2)])


def cross_send(rng):
    """Branches in which ranks that cross send (rule 10)."""
    branches = rng.choice([2, 4, 16])
    count = crossed(rng, branches)
    return 2 * count + 1, choice_of([[line for k in range(1, count) for line in (f"L{b}() from W[{2 * k}] to W[0];", f"L{b}() from W[N-{2 * k}] to W[0];")]
                                     for b in range(branches)])


def cross_relayed(rng):
    """Branches that tell ranks that cross, each by a sender of its own that is told first."""
    branches = rng.choice([2, 4])
    count = crossed(rng, branches, STATEMENTS * 2 // 3)
    blocks = [[line for k in range(1, count) for line in (f"T{b}() from W[0] to S[{k}];", f"L{b}() from S[{k}] to W[{2 * k}];", f"M{b}() from S[{k}] to W[N-{2 * k}];")]
              + [f"G{b}() from W[0] to W[i:1..N-1];"] for b in range(branches)]
    return protocol(2 * count + 1, choice_of(blocks), f"role W[0..N-1], role S[0..{count}]")


def cross_own(rng):
    """Branches that tell ranks that cross, each by a label of its own."""
    branches = rng.choice([2, 4])
    count = crossed(rng, branches)
    blocks = [[line for k in range(1, count) for line in (f"L{b}x{k}() from W[0] to W[{2 * k}];", f"M{b}x{k}() from W[0] to W[N-{2 * k}];")]
              + [f"G{b}() from W[0] to W[i:1..N-1];"] for b in range(branches)]
    return 2 * count + 1, choice_of(blocks)


def choices_behind(rng):
    """A branch that tells ranks that cross, has choices one after the other, each of which tells a rank, and then tells all."""
    count = crossed(rng, 1)
    choices = large(rng, (STATEMENTS - 2 * count) // 3 - 2)
    body = [line for k in range(1, count) for line in (f"L() from W[0] to W[{2 * k}];", f"L() from W[0] to W[N-{2 * k}];")]
    for k in range(choices):
        told = 2 * (k % count) + 1
        body += [f"choice Q{k} at W[0] {{", f"A{k}() from W[0] to W[{told}];", "} or {", f"B{k}() from W[0] to W[{told}];", "}"]
    return 2 * count + 1, choice_of([body + ["G() from W[0] to W[i:1..N-1];"], ["M() from W[0] to W[i:1..N-1];"]])


def by_name(*shapes):
    return {it.__name__: it for it in shapes}


SHAPES = by_name(choice, own_ranks, offsets, offsets_to_one, cuts, told_in_turn, loops, tree, gaps, gaps_from_both, two_sources, cross_loop,
                 loops_joint, each_stays, low_ranges, wide_ranges, loops_choices, choices_split, choices_gaps, choices_told, continues,
                 continues_told, loops_cross, cross_each, each_holes, each_met, told_by_many, one_rank, each_labels, loops_gaps, cross_sources,
                 cross_labels, cross_inner, cross_send, cross_relayed, cross_own, choices_behind)
HARD = by_name(cross_told, choices_cross, each_gaps)


def made(shape, seed):
    if shape in FAMILIES:
        return FAMILIES[shape]()
    what = {**SHAPES, **HARD}[shape](random.Random(f"{shape} {seed}"))
    return what if isinstance(what, str) else protocol(*what)


# ---- measuring

def limit(seconds):
    resource.setrlimit(resource.RLIMIT_CPU, (seconds, seconds + 1))


def tried(program, command, path):
    """The processor time in seconds and the memory in MiB that the command takes, and the first bytes of what it writes."""
    with tempfile.TemporaryFile() as out:
        most = 6 * SECONDS[command] + 1
        child = subprocess.Popen([program, command, path], stdout=out, stderr=subprocess.DEVNULL, preexec_fn=lambda: limit(most))
        _, _, used = os.wait4(child.pid, 0)
        child.returncode = 0
        out.seek(0)
        return used.ru_utime + used.ru_stime, used.ru_maxrss / 1024, out.read(60).split(b"\n")[0].decode()


def best(program, command, path):
    """The best of up to three calls, of which the first that keeps the limits is the last, and whether it keeps them."""
    found = []
    for _ in range(TRIES):
        found.append(tried(program, command, path))
        seconds, memory, _ = found[-1]
        if seconds <= SECONDS[command] and memory <= MEBIBYTES:
            return found[-1], True
        if seconds > 4 * SECONDS[command]:
            break
    return min(found), False


def rows_of(program, names, seeds, path):
    """A row for each call on these files, where they keep the limit of bytes."""
    for shape, seed in zip(names, seeds):
        path.write_text(made(shape, seed))
        if path.stat().st_size > BYTES:
            continue
        for command in LIMITS:
            (seconds, memory, said), is_well = best(program, command, path)
            yield seconds, memory, command, shape, seed, path.stat().st_size, said, is_well


def told_of(row):
    seconds, memory, command, shape, seed, size, said, is_well = row
    return f"{seconds:.2f} s, {memory:.0f} MiB: {command}, {shape} {seed}, {size} bytes: {said or 'cut off'}{'' if is_well else ' (over the limits)'}"


def main(words):
    if words[:1] == ["--write"]:
        print(made(words[1], words[2] if len(words) > 2 else "0"), end="")
        return 0
    shapes = list(HARD if "--hard" in words else SHAPES)
    words = [word for word in words if word != "--hard"]
    count, seed = (int(word) for word in (words + ["40", "1"][len(words):])[:2])
    program = subprocess.check_output([TOP / "scripts/program.sh"], text=True).strip()
    with tempfile.TemporaryDirectory() as room:
        path = Path(room) / "p.pbl"
        fixed = list(rows_of(program, FAMILIES, [0] * len(FAMILIES), path)) if shapes == list(SHAPES) else []
        print(*map(told_of, fixed), sep="\n")
        drawn = list(rows_of(program, [shapes[k % len(shapes)] for k in range(count)], [seed * 1_000_000 + k for k in range(count)], path))
    print(*map(told_of, sorted(drawn, reverse=True)[:SHOWN]), sep="\n")
    failed = [row for row in fixed + drawn if not row[-1]]
    print(f"{len(fixed) + len(drawn) - len(failed)} passed, {len(failed)} failed")
    return 1 if failed or not fixed + drawn else 0


if __name__ == "__main__":
    sys.exit(main(sys.argv[1:]))
