#!/usr/bin/env python3
"""Sees that all that says which version this is, and with which kit it is proved, says the same.

The number is that of the program (crates/lin_program/src/version.rt), and of the first entry of CHANGELOG.md, whose numbers fall. Of a kit's line only the
logic has to be the same, which decides what is proved: that of the program's line, of README.md's, of docs/PROOF.md's and built/OF's, and of what
`rt version` prints, where rt is there. That lines with another number and the same logic are taken, and others aren't, is tried by an rt that prints
made-up ones. LINCHECK in the environment names a program that has to print the number and the line.
usage: tests/versions.py
"""
import os
import re
import shutil
import subprocess
import sys
import tempfile

HERE = os.path.dirname(os.path.abspath(__file__))
TOP = os.path.dirname(HERE)


def logic_of(line):
    """The sum of the logic in a line as `rt version` prints it: what two kits have to share. None where it has none."""
    found = re.search(r"\blogic ([0-9a-f]+)\b", line or "")
    return found and found[1]


def text_of(name):
    with open(os.path.join(TOP, name), encoding="utf-8") as it:
        return it.read()


def line_in(name, form):
    found = re.search(form, text_of(name))
    return found and found[1]


def status_under(line, command):
    """The status of a command of this repository where the kit at hand prints this line as its version."""
    with tempfile.TemporaryDirectory(prefix="versions-") as room:
        with open(f"{room}/rt", "w", encoding="utf-8") as it:
            it.write('#!/bin/sh\n[ "$1" = version ] && echo \'%s\'\n' % line)
        os.chmod(f"{room}/rt", 0o755)
        environment = {**os.environ, "PATH": f"{room}:{os.environ['PATH']}"}
        return subprocess.run(command, cwd=TOP, env=environment, stdout=subprocess.DEVNULL, stderr=subprocess.DEVNULL).returncode


def made_up(logic):
    """Lines of kits, and whether they are of this logic."""
    yield f"rattle-kit-99z logic {logic}", True
    yield f"rattle-kit 14 of another day, logic {logic}", True
    yield f"rattle-kit-13f logic {logic[::-1]}", False
    yield f"rattle-kit-13f logic {logic}0", False
    yield f"rattle-kit-13f {logic}", False
    yield "", False


def main():
    number, kit = re.search(r'"(\d+\.\d+\.\d+)\\n([^"]+)"', text_of("crates/lin_program/src/version.rt")).groups()
    logic = logic_of(kit)
    entries = [tuple(map(int, it.split("."))) for it in re.findall(r"(?m)^## (\d+\.\d+\.\d+)$", text_of("CHANGELOG.md"))]
    seen = {
        "the program's line of the kit has a logic": bool(logic),
        "CHANGELOG.md begins with the number": entries[:1] == [tuple(map(int, number.split(".")))],
        "CHANGELOG.md's numbers fall": all(one > other for one, other in zip(entries, entries[1:])),
        "README.md has the kit's logic": logic_of(line_in("README.md", r"(?m)^Kit: `([^`]+)`\.")) == logic,
        "docs/PROOF.md has the kit's logic": logic_of(line_in("docs/PROOF.md", r"(?m)^Kit: `([^`]+)`\.")) == logic,
        "built/OF has the kit's logic": logic_of(line_in("built/OF", r"(?m)^kit (.+)$")) == logic,
    }
    if shutil.which("rt"):
        said = subprocess.run(["rt", "version"], stdout=subprocess.PIPE, text=True).stdout
        seen["the kit at hand has the logic"] = logic_of(said) == logic
    program = os.environ.get("LINCHECK")
    if program:
        said = subprocess.run([program, "--version"], stdout=subprocess.PIPE, text=True).stdout
        seen["--version prints both"] = said == f"lincheck {number}\n{kit}\n"
    for line, is_taken in made_up(logic):
        how = "taken" if is_taken else "refused"
        seen[f"{line or 'a kit without a line'}: {how} as another program's kit"] = (logic_of(line) == logic) == is_taken
        seen[f"{line or 'a kit without a line'}: {how} by built/fits.sh"] = (status_under(line, ["built/fits.sh", "kit"]) == 0) == is_taken
        if program:
            seen[f"{line or 'a kit without a line'}: {how} by the page of --version"] = (status_under(line, ["tests/readme.sh", "tests/pages/examples.md"]) == 0) == is_taken
    for what in (it for it, holds in seen.items() if not holds):
        print(f"not so: {what} ({number}, {kit})")
    print(f"{sum(seen.values())} passed, {len(seen) - sum(seen.values())} failed")
    return 0 if all(seen.values()) else 1


if __name__ == "__main__":
    sys.exit(main())
