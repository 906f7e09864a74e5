#!/usr/bin/env python3
"""How busy recordings are answered while they are written: each event is appended and the history asked about, beside `check` of the whole file.

For each recording of bench/wide.py, sound and with each fault, and each number of clients: microseconds an event over the quarter before 2,000
events and over the quarter before EVENTS, and the last answer beside that of `check`. The last line counts the recordings whose last answer is
not that of `check`, and of these those that are undecided.

usage: bench/online.py [EVENTS [CLIENTS ..]]   (else 8000 events, 3, 10 and 20 clients; the program is the repository's, or LINCHECK)
"""
import os
import subprocess
import sys
import tempfile

sys.dont_write_bytecode = True
import growth
import wide

FEW = 2000
KINDS = {**{name: it[:2] for name, it in wide.RECORDINGS.items()}, **{name: it[:2] for name, it in wide.REPEATED.items()}}


def recording(name, events, fault, clients):
    made = wide.Recording(name, events, fault, clients, wide.SEED)
    made.make()
    return None if fault != 'sound' and made.failing is None and fault != 'changed' else made.lines


def checked(kind, lines):
    with tempfile.NamedTemporaryFile('w', suffix='.edn') as file:
        file.write('\n'.join(lines) + '\n')
        file.flush()
        said = subprocess.run([growth.PROGRAM, 'check', '--kind', kind, file.name], stdout=subprocess.PIPE, text=True).stdout
    return said.rstrip('\n').rpartition('\n')[2].removeprefix('whole: ')


def main(words):
    if not all(it.isdigit() for it in words):
        print(__doc__, file=sys.stderr)
        return 2
    events, widths = int((words or ['8000'])[0]), [int(it) for it in words[1:]] or [3, 10, 20]
    count, other, undecided = 0, 0, 0
    print('| recording | clients | us at %d | at %d | online | check |' % (FEW, events))
    print('|---|---|---|---|---|---|')
    for name, (kind, faults) in KINDS.items():
        for fault in ['sound', *faults]:
            for clients in widths:
                lines = recording(name, events, fault, clients)
                if lines is None:
                    continue
                found, said = growth.online(kind, lines, [min(FEW, len(lines)), len(lines)])
                right = checked(kind, lines)
                count, other, undecided = count + 1, other + (said != right), undecided + (said != right and said.startswith('undecided'))
                cells = [name if fault == 'sound' else '%s, %s' % (name, fault), '%d' % clients, *(growth.told(it, '%.0f') for it in (found + [None, None])[:2]), said, right]
                print('| %s |' % ' | '.join(cells), flush=True)
    print('%d recordings: %d end with another answer than `check` gives, %d of these undecided' % (count, other, undecided))
    return 0 if other == undecided else 1


if __name__ == '__main__':
    sys.exit(main(sys.argv[1:]))
