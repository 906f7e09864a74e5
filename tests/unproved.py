#!/usr/bin/env python3
"""Builds the program unproved, for a look at what a change of the source prints: nothing is known of it, and it is never taken for lincheck.

`rt try` compiles the whole program (a hundred times slower than the proved one, and with a check of each access), runs it once and throws it
away; this keeps the executable. Takes some three minutes of a processor.
usage: tests/unproved.py FILE     writes the program to FILE, and says nothing unless it fails
"""
import os
import shutil
import subprocess
import sys
import tempfile
import time

HERE = os.path.dirname(os.path.abspath(__file__))
ELF = b"\x7fELF"


def is_executable(path):
    try:
        with open(path, "rb") as it:
            return it.read(4) == ELF and os.access(path, os.X_OK)
    except OSError:
        return False


def link_new(room, keep, seen):
    """Gives each executable that has appeared another name, under which it stays; returns the last one."""
    last = None
    for at, _, names in os.walk(room):
        for path in (f"{at}/{name}" for name in names):
            try:
                found = os.stat(path)
                if found.st_ino not in seen and is_executable(path):
                    os.link(path, f"{keep}/{found.st_ino}")
                    seen.add(found.st_ino)
                    last = f"{keep}/{found.st_ino}"
            except OSError:
                pass  # it went meanwhile
    return last


def main(words):
    if len(words) != 1:
        print(__doc__, file=sys.stderr)
        return 2
    crate = os.path.join(HERE, "..", "crates", "lincheck")
    with tempfile.TemporaryDirectory(prefix="unproved-") as top:
        room, keep = f"{top}/room", f"{top}/keep"
        os.mkdir(room)
        os.mkdir(keep)
        how = {"cwd": crate, "env": {**os.environ, "TMPDIR": room}, "stdin": subprocess.DEVNULL, "stdout": subprocess.PIPE, "stderr": subprocess.STDOUT}
        with open(f"{top}/said", "wb+") as said, subprocess.Popen(["rt", "try", "--", "--version"], **{**how, "stdout": said}) as run:
            program, seen = None, set()
            while run.poll() is None:
                program = link_new(room, keep, seen) or program
                time.sleep(0.05)
            if run.returncode or not program or not os.path.getsize(program):
                said.seek(0)
                print(f"unproved.py: rt try made no program:\n{said.read().decode(errors='replace')[-3000:]}", file=sys.stderr)
                return 1
        shutil.copy(program, words[0])
    return 0


if __name__ == "__main__":
    sys.exit(main(sys.argv[1:]))
