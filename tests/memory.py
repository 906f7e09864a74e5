#!/usr/bin/env python3
"""Sees that memory grows with the events, whatever stays open, crashes or answers late: on each history of bench/growth.py `check` says what is
right, within eight times the file and 32 MB.

usage: tests/memory.py   (the program is the one that LINCHECK names, or the one that is built)
"""
import os
import sys
import tempfile

HERE = os.path.dirname(os.path.realpath(__file__))
os.environ.setdefault('LINCHECK', os.path.join(HERE, '../crates/lincheck/out/lincheck'))
sys.path.insert(0, os.path.join(HERE, '../bench'))
import growth

EVENTS, TIMES, MORE = 20_000, 8, 32
# the checkpoints of its order hold up to a million items: 47 MB for a file of one
LEFT = {'queue filled'}


def main():
    passed = failed = 0
    with tempfile.TemporaryDirectory() as room:
        for name, (words, make, right) in growth.HISTORIES.items():
            path = os.path.join(room, 'history.edn')
            with open(path, 'w') as file:
                file.write('\n'.join(make(EVENTS)) + '\n')
            run = growth.Run(words, path)
            if run.said != right:
                failed += 1
                print(f'{name}: said {run.said}, {right} is right')
            elif name not in LEFT and run.memory > TIMES * run.size + MORE:
                failed += 1
                print(f'{name}: {run.memory:.0f} MB for a file of {run.size:.1f}')
            else:
                passed += 1
    print(f'{passed} passed, {failed} failed')
    return failed > 0


if __name__ == '__main__':
    sys.exit(main())
