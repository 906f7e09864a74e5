#!/usr/bin/env python3
"""Tells which crates are proved anew after a change of a private body in a crate, and what that takes, by the table of docs/TIMES.md.

usage: bench/anew.py [CRATE ..]     (without crates: one low one, exact sets, searches, and a printed text; and the program, from nothing)
       bench/anew.py lincheck       (the program and all that it stands on, as a first build proves them)

A change of a body has the crate and all that stand on it proved anew by `rt ci`; proofs of the others are kept from an earlier run on the same
machine. Prints a table: the crates, their processor minutes, and the minutes elapsed if they are worked on side by side, the longest chain first,
on four processors and on two. What each run takes, kept proofs or not (tests, programs, scripts, edits that have to be refused), comes on top.
"""
import os
import re
import sys

TOP = os.path.join(os.path.dirname(os.path.abspath(__file__)), "..")
PROGRAM = "lincheck"
DEFAULT = ["lin_edn", "lin_frontier", "lin_search", "lin_texts", "lin_formats", PROGRAM]


def read_crates():
    libraries = {}
    with open(f"{TOP}/crates.txt", encoding="utf-8") as it:
        for line in it:
            head, colon, tail = line.partition("#")[0].partition(":")
            if colon:
                libraries[head.split()[0]] = tail.split()
    return {it: [low for low in lows if low in libraries] for it, lows in libraries.items()}


def read_seconds():
    """Processor seconds of each crate's proof, with that of its tests."""
    with open(f"{TOP}/docs/TIMES.md", encoding="utf-8") as it:
        rows = re.findall(r"^\| `(\w+)` \| *\d* *\| *([\d,]*)[^|]*\| *([\d,]*)", it.read(), re.M)
    return {name: sum(int(it.replace(",", "")) for it in cells if it) for name, *cells in rows}


def above(crates, changed):
    """The crates that are proved anew: those that the changed one is below, and itself."""
    found = {changed}
    while more := {it for it, lows in crates.items() if it not in found and found & {*lows}}:
        found |= more
    return [it for it in crates if it in found]


def below(crates, top):
    """The crates that the top one stands on, and itself."""
    found = {top}
    while more := {low for it in found for low in crates[it]} - found:
        found |= more
    return [it for it in crates if it in found]


def elapsed(crates, seconds, anew, lanes):
    """Seconds until all are proved, at most so many at a time, first those with the longest chain behind them."""
    behind = {}
    for name in reversed(anew):
        behind[name] = seconds[name] + max((behind[it] for it in anew if name in crates[it]), default=0)
    now, running, ended, left = 0.0, {}, set(), [*anew]
    while left or running:
        ready = [it for it in left if all(low in ended or low not in anew for low in crates[it])]
        for name in sorted(ready, key=lambda it: -behind[it])[: lanes - len(running)]:
            left.remove(name)
            running[name] = now + seconds[name]
        name = min(running, key=running.get)
        now = running.pop(name)
        ended.add(name)
    return now


def main(words):
    crates, seconds = read_crates(), read_seconds()
    print("| changed | proved anew | processor minutes | four processors | two |\n|---|---|---|---|---|")
    for changed in words or DEFAULT:
        anew = below(crates, PROGRAM) if changed == PROGRAM else above(crates, changed)
        lacks = [it for it in anew if it not in seconds]
        if lacks:
            print(f"anew.py: docs/TIMES.md has no row of {', '.join(lacks)}", file=sys.stderr)
            return 1
        minutes = [sum(seconds[it] for it in anew), *(elapsed(crates, seconds, anew, lanes) for lanes in (4, 2))]
        names = "all below the program" if changed == PROGRAM else ', '.join(it.removeprefix('lin_') for it in anew)
        print(f"| `{changed}` | {len(anew)}: {names} | {' | '.join(f'{it / 60:.0f}' for it in minutes)} |")
    return 0


if __name__ == "__main__":
    sys.exit(main(sys.argv[1:]))
