#!/usr/bin/env python3
"""Tells what each function's proof takes, dearest first, from what a check of its crate wrote.

usage: bench/functions.py [-n COUNT] DIR       after, in crates/NAME, a check from nothing by one process: rm -rf DIR;
                                               rattle check .. --jobs 1 --incremental DIR  (as rt check --jobs 1 does, DIR being out/incremental)

A module is written into DIR as soon as it is checked, so the time from the file before it to its own is what it took: wall seconds, which are
processor seconds where nothing else waits for the processor. Of each function come the seconds of all its modules, of the borrow checker's
part (Lts), of the goals that no answer covers (Proof), of its answers (Answers), and of the rest (Tie, Code, layouts ..). The last lines sum
up the crate: what all functions take, and what its lemmas, its specs and all else do. With -n so many functions are printed (40).
"""
import argparse
import collections
import os
import re

PARTS = ("Lts", "Proof", "Answers")


def modules(folder):
    """Returns each module below the folder with the seconds from the file before it to its last one."""
    found = []
    for at, _, names in os.walk(folder):
        found += [(os.stat(os.path.join(at, name)).st_mtime_ns, name) for name in names if name.endswith(".oantt")]
    found.sort()
    return [(name.removesuffix(".oantt").removesuffix(".decls"), (time - before) / 1e9) for (before, _), (time, name) in zip(found, found[1:])]


def place(module):
    """Returns a module's function and the part of its proof, or the kind of another module and nothing."""
    words = re.sub(r"^Rattle[-.]\w+[-.]", "", module).split(".")
    if words[0] != "proofs" or "TheLinks" in words:
        return ("lemmas" if words[0] == "proofs" else words[0]), None
    # The last word of a function's path begins small, and the parts of its proof with a capital letter.
    small = [at for at, word in enumerate(words) if not word[0].isupper()]
    if small[-1] == 0:
        return "lemmas", None
    return ".".join(words[1 : small[-1] + 1]), ".".join(words[small[-1] + 1 :])


def main():
    said = argparse.ArgumentParser(usage=__doc__)
    said.add_argument("-n", type=int, default=40)
    said.add_argument("folder")
    asked = said.parse_args()
    others, functions = collections.Counter(), collections.defaultdict(collections.Counter)
    for module, seconds in modules(asked.folder):
        name, part = place(module)
        if part is None:
            others[name] += seconds
        else:
            functions[name]["all"] += seconds
            functions[name][part if part in PARTS else "rest"] += seconds
    print("%8s %8s %8s %8s %8s  function" % ("all", *PARTS, "rest"))
    for name, of in sorted(functions.items(), key=lambda it: -it[1]["all"])[: asked.n]:
        print("%8.1f %8.1f %8.1f %8.1f %8.1f  %s" % (*(of[part] for part in ("all", *PARTS, "rest")), name))
    whole = sum(functions.values(), collections.Counter())
    print("%8.1f %8.1f %8.1f %8.1f %8.1f  all %d functions" % (*(whole[part] for part in ("all", *PARTS, "rest")), len(functions)))
    for name, seconds in others.most_common():
        if seconds >= 0.05:
            print("%8.1f  %s" % (seconds, name))


main()
