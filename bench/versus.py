#!/usr/bin/env python3
"""Runs two programs in turn on the same words, as the one of an earlier commit (git show COMMIT:built/lincheck) and the present one, and prints the
least processor seconds of each, user and system together, how many times the first the second takes, and the memory that each held.

usage: bench/versus.py ROUNDS OLD NEW WORD..     as in: bench/versus.py 5 ./old built/lincheck check history.edn
"""
import os
import subprocess
import sys


def run(words):
    """The processor seconds of a run, and the bytes that it held at once."""
    process = subprocess.Popen(words, stdout=subprocess.DEVNULL, stderr=subprocess.DEVNULL)
    _, _, used = os.wait4(process.pid, 0)
    return used.ru_utime + used.ru_stime, used.ru_maxrss * 1024


def main(words):
    if len(words) < 4 or not words[0].isdigit() or words[0] == '0':
        print(__doc__, file=sys.stderr)
        return 2
    pairs = [[run([program, *words[3:]]) for program in words[1:3]] for _ in range(int(words[0]))]
    (old, old_held), (new, new_held) = [map(min, zip(*runs)) for runs in zip(*pairs)]
    print('%.3f s, %.3f s, %.2f times; %d MB, %d MB' % (old, new, new / max(old, 1e-3), old_held // 10**6, new_held // 10**6))
    return 0


if __name__ == '__main__':
    sys.exit(main(sys.argv[1:]))
