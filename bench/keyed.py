#!/usr/bin/env python3
"""Writes a recording of many compare-and-set registers, as tests of etcd make them, to standard output: a map a line, values `[KEY VALUE]`.

usage: bench/keyed.py [EVENTS] [EVENTS_OF_A_KEY] [CLIENTS] [SEED]   (else 1000000 events, 250 of a key, 10 clients of each key, one seed for all)

Each key's operations are those of wide.py's cas-few, but 2 in 100 are writes that crash. Ten keys are written to at a time. It is linearizable.
"""
import random
import re
import sys

import wide

TOGETHER = 10
VALUE = re.compile(r':value (\[[^]]*\]|\S+), :process (\d+)')


def lines_of(key, events, clients, seed):
    recording = wide.Recording('cas-few', events, 'sound', clients, seed)
    recording.thing.crashes = recording.operations // 50
    recording.make()
    first = key * 10000
    return [VALUE.sub(lambda it: ':value [%d %s], :process %d' % (key, it[1], first + int(it[2])), line) for line in recording.lines]


def main(words):
    if not all(it.isdigit() for it in words) or len(words) > 4:
        print(__doc__, file=sys.stderr)
        return 2
    events, each, clients, seed = map(int, (words + ['1000000', '250', '10', str(wide.SEED)][len(words):]))
    draw, keys = random.Random(seed), max(1, events // each)
    for first in range(0, keys, TOGETHER):
        waiting = [lines_of(key, each, clients, seed + key)[::-1] for key in range(first, min(keys, first + TOGETHER))]
        while waiting:
            lines = draw.choice(waiting)
            print(lines.pop())
            if not lines:
                waiting.remove(lines)
    return 0


if __name__ == '__main__':
    sys.exit(main(sys.argv[1:]))
