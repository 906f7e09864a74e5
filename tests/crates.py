#!/usr/bin/env python3
"""Holds the pages that list the crates to crates.txt and to the first sentence of each crate's lib.rt, or main.rt.

docs/CRATES.md has a table, a row for each crate: what it is (that sentence), which crates it may know of (crates.txt), and what is promised to those
above (written by hand, and kept). It has a picture of the crates of the program, and README.md the same one: the columns of COLUMNS, above these
what none of them has, below what the first one shares with the others. In each part a crate stands above those on which it stands.

usage: tests/crates.py            says which rows and pictures aren't up to date, and last how many are and aren't
       tests/crates.py --write    writes them anew; a new crate gets a row without a promise, which has to be written
"""
import os
import re
import sys

sys.dont_write_bytecode = True
from imports import HERE, below, read_crates

TABLE = "docs/CRATES.md"
PAGES = (TABLE, "README.md")
HEAD = "| Crate | What it is | It may know of | The contract that the layer above uses |\n|---|---|---|---|\n"
# The heads of the columns, with the crates on top of each, and how many names a line has.
COLUMNS = {"bytes to events": (["lin_formats"], 1), "decided": (["lin_session"], 3), "told": (["lin_json", "lin_draw"], 2)}


def read(file):
    with open(f"{HERE}/{file}", encoding="utf-8") as it:
        return it.read()


def first_sentence(name):
    """What the crate is, by the first sentence of its first file; nothing, where that has none."""
    file = next(it for it in ("lib.rt", "main.rt") if os.path.exists(f"{HERE}/crates/{name}/src/{it}"))
    paragraph = re.match(r"(?://! .*\n)*", read(f"crates/{name}/src/{file}"))[0]
    said = re.match(r"(.*?)\.(?: |$)", re.sub(r"\s*//! ", " ", paragraph).strip())
    return said[1] if said else ""


def rows(libraries, promises):
    """The row of each crate, lowest first."""
    known = {name: ", ".join(f"`{it}`" for it in libraries[name]) or "nothing" for name in libraries}
    return {name: f"| `{name}` | {first_sentence(name)} | {known[name]} | {promises.get(name, '')} |\n" for name in libraries}


def lines(libraries, names, width):
    """The crates in lines, the highest first: none stands on another of its line, or of one above it."""
    height = {}
    for name in libraries:
        if name in names:
            height[name] = 1 + max((height[it] for it in below(libraries, name) & {*height}), default=0)
    levels = [[name for name in height if height[name] == level] for level in sorted({*height.values()}, reverse=True)]
    return ["  ".join(level[at:at + width]) for level in levels for at in range(0, len(level), width)]


def picture(libraries):
    program = below(libraries, "lincheck") & {*libraries} | {"lincheck"}
    under = {head: {*tops}.union(*(below(libraries, top) & program for top in tops)) for head, (tops, _) in COLUMNS.items()}
    first, *others = under.values()
    shared = first & set.union(*others)
    placed, columns = {*shared}, []
    for head, (_, width) in COLUMNS.items():
        columns.append((head, lines(libraries, under[head] - placed, width)))
        placed |= under[head]
    height = max(len(column) for _, column in columns)
    sides = [max(map(len, (head, *column))) for head, column in columns]
    table = zip(*([head] + [""] * (height - len(column)) + column for head, column in columns))
    indent = " " * (sides[0] + 3)
    drawn = [indent + line for line in lines(libraries, program - placed, 2)]
    drawn += ["", *("   ".join(cell.ljust(side) for cell, side in zip(line, sides)) for line in table), ""]
    drawn += [indent + line for line in lines(libraries, shared, 2)]
    return "".join(line.rstrip() + "\n" for line in drawn)


def with_picture(text, drawn):
    """The page with this picture in place of the one that it has, which is the block with the lowest crate."""
    parts = text.split("```")
    at = next(it for it in range(1, len(parts), 2) if "lin_lists" in parts[it])
    return "```".join([*parts[:at], "\n" + drawn, *parts[at + 1:]])


def wrongs_of_table(text, wanted):
    """Yields what isn't as wanted in the table of the page, a line for each row."""
    has = dict(re.findall(r"(?m)^((?=\| `(\w+)` \|).*\n)", text))
    has = {name: row for row, name in has.items()}
    for name, row in wanted.items():
        if not first_sentence(name):
            yield f"crates/{name}: the first file has no sentence that says what the crate is"
        elif has.get(name) != row:
            yield f"{TABLE}: the row of {name} isn't as crates.txt and the first file of the crate have it"
        elif row.endswith("|  |\n"):
            yield f"{TABLE}: the row of {name} has no promise: write one"
    if [*has] != [*wanted]:
        yield f"{TABLE}: the rows aren't those of crates.txt, in its order"


def main():
    writes = sys.argv[1:] == ["--write"]
    if sys.argv[1:] and not writes:
        sys.exit(__doc__)
    libraries, count, wrongs = read_crates(), 0, []
    drawn = picture(libraries)
    for page in PAGES:
        text = read(page)
        wanted, count = with_picture(text, drawn), count + 1
        if wanted != text:
            wrongs.append(f"{page}: the picture isn't that of crates.txt")
        if page == TABLE:
            made = rows(libraries, dict(re.findall(r"(?m)^\| `(\w+)` \|.*\| ?([^|]*?) ?\|$", text)))
            wrongs += wrongs_of_table(text, made)
            count += len(made) + 1
            wanted = re.sub(r"(?m)^\| Crate \|.*\n(?:\|.*\n)*", lambda _: HEAD + "".join(made.values()), wanted, count=1)
        if writes and wanted != text:
            with open(f"{HERE}/{page}", "w", encoding="utf-8") as it:
                it.write(wanted)
            print(f"{page} is written")
    if writes:
        return 0
    print("".join(f"{it}\n" for it in wrongs), end="")
    if wrongs:
        print("tests/crates.py --write writes rows and pictures anew")
    print(f"{count - len(wrongs)} passed, {len(wrongs)} failed")
    return 1 if wrongs else 0


if __name__ == "__main__":
    sys.exit(main())
