#!/usr/bin/env python3
"""Counts anew, in the table of docs/CONTRIBUTING.md on what a change costs, how many crates stand above each one. Run it at the top
after a change of crates.txt. A crate that is new gets its place in the table by hand, with any number; those that lack one are told."""
import re
import sys


def lists():
    found = {}
    for line in open("crates.txt", encoding="utf-8"):
        name, _, cites = line.partition(":")
        if line.strip() and not line.startswith("#"):
            found[name.split()[0]] = cites.split()
    return found


def below(crates, name):
    found, left = set(), [name]
    while left:
        for it in crates.get(left.pop(), []):
            if it in crates and it not in found:
                found.add(it)
                left.append(it)
    return found


def main():
    crates, page = lists(), "docs/CONTRIBUTING.md"
    under = {it: below(crates, it) for it in crates}
    above = {it: sum(it in other for other in under.values()) for it in crates}
    text = open(page, encoding="utf-8").read()
    start = text.index("## What a change costs")
    table = re.sub(r"`(\w+)` \d+", lambda it: f"`{it[1]}` {above[it[1]]}" if it[1] in above else it[0], text[start:])
    table = re.sub(r"of all \d+\.", f"of all {len(crates)}.", table)
    open(page, "w", encoding="utf-8").write(text[:start] + table)
    lacking = [it for it in crates if f"`{it}` " not in table]
    if lacking:
        print("not in the table:", *lacking)
    return 1 if lacking else 0


if __name__ == "__main__":
    sys.exit(main())
