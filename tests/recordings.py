#!/usr/bin/env python3
"""Recordings of objects whose clients are busy nearly always (bench/wide.py), with up to 30 clients and operations that crash: `check` has to
say what is right by the way each recording was made. Of a faulty one it has to be the shortest beginning where that is known, and of a sound
one the order that is told has to be one that `verify` takes. Such recordings are over the budget of most frontiers, so they show what
searches decide beside them: `undecided` is wrong here.
usage: tests/recordings.py [EVENTS [SEEDS]]   (else 1500 events and 3 seeds; the program has to be built, or LINCHECK names it)"""
import collections
import itertools
import os
import subprocess
import sys
import tempfile
from concurrent.futures import ProcessPoolExecutor

HERE = os.path.dirname(os.path.realpath(__file__))
sys.path.insert(0, os.path.join(os.path.dirname(HERE), 'bench'))
import wide

CLIENTS = [3, 10, 20, 30]
LIMIT = 60


def said(program, words, folder, given=''):
    """The last line that is printed."""
    try:
        run = subprocess.run([program, *words], cwd=folder, input=given, stdout=subprocess.PIPE, stderr=subprocess.STDOUT, text=True, timeout=LIMIT)
    except subprocess.TimeoutExpired:
        return 'nothing within %d seconds' % LIMIT
    return run.stdout.rstrip('\n').rpartition('\n')[2]


def verified(program, kind, folder):
    """Whether the order that is told is one that `verify` takes."""
    order = said(program, ['edit', '--kind', kind, 'history.edn'], folder, 'pull\norder\n')
    with open(os.path.join(folder, 'order'), 'w', encoding='ascii') as file:
        file.write(order.removeprefix('yes '))
    return said(program, ['verify', '--kind', kind, '--order-file', 'order', 'history.edn'], folder) == 'yes'


def faults(program, events, name, fault, clients, seed):
    """What is wrong of one recording, a line each, and how many runs were right."""
    kind = wide.RECORDINGS[name][0]
    recording = wide.Recording(name, events, fault, clients, seed)
    recording.make()
    if fault != 'sound' and recording.failing is None and recording.thing.fault != 'sound':
        return 0, []  # the fault didn't come up
    wanted, wrong, right = recording.wanted(fault), [], 0
    with tempfile.TemporaryDirectory() as folder:
        with open(os.path.join(folder, 'history.edn'), 'w', encoding='ascii') as file:
            file.write('\n'.join(recording.lines) + '\n')
        printed = said(program, ['check', '--kind', kind, 'history.edn'], folder).removeprefix('whole: ')
        ordered = printed == 'yes' and verified(program, kind, folder)
        # A faulty recording of which operations crash may be linearizable all the same: that the order shows.
        if printed == wanted and (wanted != 'yes' or ordered) or wanted == 'no' and (printed.startswith('no prefix ') or ordered):
            right += 1
        else:
            wrong.append('%s, %s, %d clients, %d events, seed %d: has to be %s, is %s%s' % (
                name, fault, clients, events, seed, wanted, printed[:80], '' if ordered or printed != 'yes' else ', and the order is refused'))
    return right, wrong


def main():
    events, seeds = (list(map(int, sys.argv[1:])) + [1500, 3][len(sys.argv) - 1:])[:2]
    program = os.path.abspath(os.environ.get('LINCHECK') or os.path.join(os.path.dirname(HERE), 'lincheck'))
    cases = [(name, fault, clients, seed) for name in wide.RECORDINGS for fault in ['sound', *wide.RECORDINGS[name][1]]
             for clients in CLIENTS for seed in range(1, seeds + 1)]
    passed, failed, counts = 0, 0, collections.Counter()
    with ProcessPoolExecutor(os.cpu_count()) as pool:
        for case, (right, wrong) in zip(cases, pool.map(faults, itertools.repeat(program), itertools.repeat(events), *zip(*cases))):
            passed, failed = passed + right, failed + len(wrong)
            counts[case[0]] += len(wrong)
            for line in wrong:
                print(line)
    print('%d passed, %d failed' % (passed, failed))
    return 1 if failed or not passed else 0


if __name__ == '__main__':
    sys.exit(main())
