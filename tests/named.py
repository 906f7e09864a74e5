#!/usr/bin/env python3
"""Sees that what pages name is there: the files, the functions, types and definitions, and where a page says in which file one stands, that it does.

Of README.md and docs/*.md each `word` is looked at that is a file's name, or a name as code has them: with an underscore, with `::`, or beginning with
a capital. Such a name has to stand in the code, the definitions or the scripts of the repository, and what a page names as `name` (`file.rt`) has to
be declared in a file of that name, or of that path. A name without a file is only looked for, so what moved elsewhere is not seen.
usage: tests/named.py
"""
import glob
import os
import re
import sys

HERE = os.path.join(os.path.dirname(os.path.abspath(__file__)), "..")
FILE = re.compile(r"[\w./-]*\w\.(?:rt|antt|py|sh|txt|md|edn|edit|svg|c|h|go|clj|jsonl|cpp)")
NAME = re.compile(r"[A-Za-z_]\w*(?:::[A-Za-z_]\w*)*")
STANDS = re.compile(r"`([A-Za-z_]\w*(?:::\w+)*)`(?:,? \(|, )`([\w/]+\.rt)`[,;)]")
# What other programs call so, what a reader's own file is called, and crates that TIMES.md says are gone.
OTHERS = {"malloc", "realloc", "Arc", "history.edn", "tests/rows/TOPIC.txt", "lin_tests", "lin_session_rows"}


def files():
    """The texts of the repository but pages, by their paths."""
    found = {}
    for top in ("crates", "tests", "bench", "adapters", "built", "examples"):
        for at, _, names in os.walk(f"{HERE}/{top}"):
            if "/out" not in at:
                for it in names:
                    path = os.path.relpath(f"{at}/{it}", HERE)
                    if it.endswith((".rt", ".antt", ".py", ".sh", ".txt", ".c", ".h", ".clj", ".go", ".cpp")):
                        with open(f"{at}/{it}", encoding="utf-8", errors="replace") as file:
                            found[path] = file.read()
                    else:
                        found[path] = ""
    for it in ("build.py", "test.sh", "lincheck", "crates.txt", "HANDLES"):
        with open(f"{HERE}/{it}", encoding="utf-8") as file:
            found[it] = file.read()
    return found


def is_code(word):
    return NAME.fullmatch(word) and ("_" in word or "::" in word or re.match("[A-Z][A-Za-z]", word))


def main():
    texts = files()
    words = {it for text in texts.values() for it in re.findall(r"\w+", text)}
    words |= {part for path in texts for part in re.split(r"[/.]", path)}
    pages = [f"{HERE}/README.md", *sorted(glob.glob(f"{HERE}/docs/*.md"))]
    paths = {*texts, *(os.path.relpath(it, HERE) for it in pages), *os.listdir(HERE)}
    crates = os.listdir(f"{HERE}/crates")
    passed, faults = 0, []

    def right(holds, page, fault):
        nonlocal passed
        passed += bool(holds)
        if not holds:
            faults.append(f"{os.path.relpath(page, HERE)}: {fault}")

    for page in pages:
        with open(page, encoding="utf-8") as file:
            text = re.sub(r"^( *)```.*?^ *```", "", file.read(), flags=re.M | re.S)
        said = set(re.findall(r"`([^`\n]+)`", text)) - OTHERS
        for it in sorted(said):
            if FILE.fullmatch(it):
                tail = re.sub(r"^(\.\.?/)+", "", it)
                right(any(f"/{path}".endswith(f"/{tail}") for path in paths), page, f"there is no file {it}")
            elif is_code(it):
                right(all(part in words for part in it.split("::")), page, f"there is no {it}")
        for name, path in sorted(set(STANDS.findall(text))):
            item = re.compile(r"\b(?:fn|struct|enum|trait|const|ghost) %s\b|\b%s\b *\(" % ((name.rpartition("::")[2],) * 2))
            where = [it for it in texts if it.endswith("/" + path)]
            right(name in crates or any(item.search(texts[it]) for it in where), page, f"{name} doesn't stand in {path}")
    print(*faults, sep="\n", end="\n" if faults else "")
    print(f"{passed} passed, {len(faults)} failed")
    return 1 if faults or not passed else 0


if __name__ == "__main__":
    sys.exit(main())
