#!/usr/bin/env python3
"""Counts how many recordings of queues whose items repeat (bench/wide.py: fifo-few, fifo-some) `check` decides, for each program that is named.

For each recording, number of clients and fault it draws one of each number of events with each seed, and prints a row: how many there are,
and for each program how many it calls linearizable, and how many not, and its processor seconds. Where two programs decide one differently,
or one calls a sound one not linearizable, it says so, and fails.
usage: bench/repeated.py [--seeds N] [--events N,N,..] [--sound] PROGRAM ..   (else 5 seeds, and 200, 1000 and 3000 events; --sound: no others)
"""
import argparse
import os
import resource
import subprocess
import sys
import tempfile

import wide

CLIENTS = [3, 5, 10, 20, 30]
LIMIT = 60


def answer(program, name):
    """What the program prints last for the recording, and its processor seconds."""
    before = resource.getrusage(resource.RUSAGE_CHILDREN)
    try:
        run = subprocess.run([program, 'check', '--kind', 'fifo', name], stdout=subprocess.PIPE, text=True, timeout=LIMIT, check=False)
        said = run.stdout.rstrip('\n').rpartition('\n')[2].removeprefix('whole: ')
    except subprocess.TimeoutExpired:
        said = 'nothing within %d seconds' % LIMIT
    after = resource.getrusage(resource.RUSAGE_CHILDREN)
    return said, after.ru_utime + after.ru_stime - before.ru_utime - before.ru_stime


def recorded(folder, name, events, fault, clients, seed):
    recording = wide.Recording(name, events, fault, clients, seed)
    recording.make()
    path = os.path.join(folder, 'history.edn')
    with open(path, 'w', encoding='ascii') as file:
        file.write('\n'.join(recording.lines) + '\n')
    return path


class Row:
    """What each program said of recordings that were made alike."""

    def __init__(self, programs):
        self.count, self.wrong = 0, []
        self.yes, self.no, self.seconds = ({program: 0 for program in programs} for _ in range(3))

    def add(self, what, fault, answers):
        self.count += 1
        decided = {said for said, _ in answers.values() if said == 'yes' or said.startswith('no prefix ')}
        if len(decided) > 1 or fault == 'sound' and decided - {'yes'}:
            self.wrong.append('%s: %s' % (what, ', '.join(sorted(decided))))
        for program, (said, seconds) in answers.items():
            self.yes[program] += said == 'yes'
            self.no[program] += said.startswith('no prefix ')
            self.seconds[program] += seconds

    def cells(self):
        return ' | '.join('%d yes, %d no, %.1f s' % (self.yes[it], self.no[it], self.seconds[it]) for it in self.yes)


def main():
    parser = argparse.ArgumentParser(usage=__doc__.partition('usage: ')[2])
    parser.add_argument('--seeds', type=int, default=5)
    parser.add_argument('--events', default='200,1000,3000')
    parser.add_argument('--sound', action='store_true')
    parser.add_argument('programs', nargs='+')
    words = parser.parse_args()
    events, wrong = list(map(int, words.events.split(','))), []
    print('| recording | drawn | %s |' % ' | '.join(words.programs))
    print('|---|---|%s' % ('---|' * len(words.programs)))
    with tempfile.TemporaryDirectory() as folder:
        for name, clients, fault in [(name, clients, fault) for name in wide.REPEATED for clients in CLIENTS
                                     for fault in ['sound', *([] if words.sound else wide.REPEATED[name][1])]]:
            row = Row(words.programs)
            for count, seed in [(count, seed) for count in events for seed in range(1, words.seeds + 1)]:
                path = recorded(folder, name, count, fault, clients, seed)
                what = '%s, %s, %d clients, %d events, seed %d' % (name, fault, clients, count, seed)
                row.add(what, fault, {program: answer(program, path) for program in words.programs})
            print('| %s, %d clients, %s | %d | %s |' % (name, clients, fault, row.count, row.cells()), flush=True)
            wrong += row.wrong
    for line in wrong:
        print('decided differently: %s' % line, file=sys.stderr)
    return 1 if wrong else 0


if __name__ == '__main__':
    sys.exit(main())
