#!/usr/bin/env python3
"""Holds each crate to what it may cite of the others: their specs/ and, in .rt files, the public items of those that crates.txt lists for it; and to names of its own.

An offence is an import of another crate's proofs, but for those of ROOMS, whose plain lemmas are for all above, or of its specs/inner/; an import
from a crate that does not stand below by crates.txt, or by a name of one that it does not list for the crate itself; and such a path of Rust.
Another is a type of a crate's public surface whose name a type of another crate has too, whatever that one is for: such names stand once.
Each is printed, and last a count of the crates without and with offences. (tests/crates.py holds the pages to crates.txt.)
usage: tests/imports.py
"""
import os
import re
import sys

HERE = os.path.join(os.path.dirname(os.path.abspath(__file__)), "..")
ROOMS = {"lin_lists"}
# Each crate stands on these, which crates.txt doesn't list.
STANDARD = {"core", "std", "std_alloc", "std_collections", "std_heap", "std_io"}


def read_crates():
    libraries = {}
    with open(f"{HERE}/crates.txt", encoding="utf-8") as it:
        for line in it:
            head, colon, tail = line.partition("#")[0].partition(":")
            if colon:
                libraries[head.split()[0]] = tail.split()
    return libraries


def below(libraries, name):
    found = set()
    for it in libraries.get(name, []):
        found |= {it} | below(libraries, it)
    return found


def files_of(name):
    for part in ("src", "specs", "proofs"):
        for at, folders, files in os.walk(f"{HERE}/crates/{name}/{part}"):
            folders.sort()
            yield from (f"{at}/{it}" for it in sorted(files) if it.endswith((".rt", ".antt")))


def offences(libraries, name, line, is_rust):
    """Yields what the crate may not cite in a line, which may end in a comment."""
    code = re.sub(r"(--|//).*", "", line)
    for facade, inner, part in re.findall(r"\bRattle\.(\w+)(?:\.below\.(\w+))?(?:\.(\w+))?", code):
        for library in {facade, inner or facade} - {name}:
            if library not in STANDARD | below(libraries, name):
                yield f"imports from {library}, which does not stand below {name}"
            elif library == facade and library not in STANDARD | {*libraries[name]}:
                yield f"imports from {library}, which crates.txt does not list for {name}"
            elif library in libraries and part == "proofs" and library not in ROOMS:
                yield f"imports proofs of {library}"
            elif library in libraries and f"Rattle.{library}.specs.inner." in code:
                yield f"imports inner specs of {library}"
    for library in re.findall(r"(?<![\w:])(\w+)::", code) if is_rust else []:
        if library != name and library in libraries and library not in libraries[name]:
            yield f"uses {library}, which crates.txt does not list for {name}"


def types_of(name):
    """The names of the types that the crate declares, and of these the ones that its root file shows to other crates."""
    declared, shown = set(), set()
    for file in files_of(name):
        if file.endswith(".rt"):
            with open(file, encoding="utf-8") as it:
                text = it.read()
            # (an associated type of an impl is indented)
            found = re.findall(r"^(pub )?(?:(?:pub\(\w+\) )?(?:struct|enum|trait|type)) (\w+)", text, re.M)
            declared |= {it for _, it in found}
            if file.endswith("/src/lib.rt"):
                shown |= {it for public, it in found if public}
                for names in re.findall(r"^pub use [a-z_:]+::(\{[^}]*\}|\w+);", text, re.M):
                    shown |= {*re.findall(r"\w+", names)}
    return declared, shown & declared


def shared_names(libraries):
    """Yields, with the name of a crate, each type that it shows and that another one declares too."""
    types = {name: types_of(name) for name in libraries}
    for name, (_, shown) in types.items():
        for other, (declared, _) in types.items():
            if other != name:
                yield from ((name, it, other) for it in sorted(shown & declared))


def main():
    libraries, failed = read_crates(), set()
    for name, shown, other in shared_names(libraries):
        print(f"{name}: its type {shown} has a name that a type of {other} has too")
        failed.add(name)
    for name in libraries:
        for file in files_of(name):
            with open(file, encoding="utf-8") as it:
                for number, line in enumerate(it, 1):
                    for why in offences(libraries, name, line, file.endswith(".rt")):
                        print(f"{os.path.relpath(file, HERE)}:{number}: {why}")
                        failed.add(name)
    print(f"{len({*libraries} - failed)} passed, {len(failed)} failed")
    return 1 if failed else 0


if __name__ == "__main__":
    sys.exit(main())
