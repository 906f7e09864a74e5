#!/usr/bin/env python3
"""Checks a crate before the crates below it are proved: where nothing is kept yet, the topmost can be tried in minutes and not in an hour.

All functions below the crate get empty bodies and a proof that is one hole, where they can have that (tests/trials.py), and the crate is checked
over these sources. What is said of its own functions is as good as their callees' contracts, so nothing is proved by it: `depends on a hole` and
`no holes` are what a function says that `rt check` will prove, in the first case where its callees are.
usage: tests/over_holes.py FOLDER CRATE [--only PATH ..]     FOLDER is made, and keeps what was checked for the next time; a check takes 4 GB, some
                                                             three minutes before it begins, and says with `--only ''` what needs no proof
"""
import os
import subprocess
import sys

sys.dont_write_bytecode = True
import trials

ROOT = os.path.dirname(os.path.dirname(os.path.realpath(__file__)))


def put(path, text):
    """Writes a file where it has another text."""
    os.makedirs(os.path.dirname(path), exist_ok=True)
    if not os.path.isfile(path) or open(path, encoding='utf-8').read() != text:
        with open(path, 'w', encoding='utf-8') as it:
            it.write(text)


def texts_of(rt, crate):
    files = {os.path.relpath(it, crate.folder): it for it in rt.rtlib.files_of(crate.folder)}
    return {name: open(it, encoding='utf-8').read() for name, it in sorted(files.items()) if name.startswith(rt.rtlib.PARTS)}


def with_holes(rt, crate):
    """The files of a crate whose functions are holes where they can be."""
    texts = texts_of(rt, crate)
    source = trials.Source(crate, {name: text for name, text in texts.items() if name.endswith('.rt')})
    for file, found in source.by_file.items():
        text = texts[file]
        if '#[test]' in text:
            continue
        for it in reversed(found):
            if it.can_be_a_hole():
                lines = text[it.opens:it.end].count('\n')
                text = text[:it.opens] + '{ unreachable!()%s}' % ('\n' * lines or ' ') + text[it.end:]
                for place in (it.folder(), '%s/+%s' % os.path.split(it.folder())):
                    texts.pop(place + '/Answers.antt', None)
                    texts.pop(place + '/Invariants.antt', None)
                texts[it.folder() + '/Proof.antt'] = it.hole()
        texts[file] = text
    return texts


def main(words):
    rt = trials.kit()
    crates = {it.name: it for it in rt.rtlib.crates_below(ROOT)}
    if len(words) < 2 or words[1] not in crates:
        print(__doc__, file=sys.stderr)
        return 2
    top, asked = os.path.abspath(words[0]), crates[words[1]]
    for crate in [*asked.below(), asked]:
        folder, texts = '%s/crates/%s' % (top, crate.name), texts_of(rt, crate) if crate is asked else with_holes(rt, crate)
        for at, _, names in os.walk(folder):
            for path in ('%s/%s' % (at, name) for name in names):
                if os.path.relpath(path, folder) not in texts:
                    os.remove(path)
        for name, text in texts.items():
            put('%s/%s' % (folder, name), text)
    needed = {it.name for it in [*asked.below(), asked]}
    lines = open(ROOT + '/crates.txt', encoding='utf-8').read().splitlines(True)
    put(top + '/crates.txt', ''.join(it for it in lines if {*it.partition(':')[0].split()[:1]} & needed))
    # (so rt takes the folder for a repository of its own)
    os.makedirs(top + '/.git', exist_ok=True)
    made = {it.name: it for it in rt.rtlib.crates_below(top)}[asked.name]
    kept = '%s/kept-%s' % (top, asked.name)
    os.makedirs(kept, exist_ok=True)
    jobs = [] if '--jobs' in words else ['--jobs', '1']
    flags = made.words([*jobs, '--incremental', kept, '--allow-holes', *words[2:]], keeps=False, as_source=True)
    return subprocess.run([*rt.rtlib.guarded(), rt.rtlib.RATTLE, 'check', *flags], cwd=made.folder).returncode


if __name__ == '__main__':
    sys.exit(main(sys.argv[1:]))
