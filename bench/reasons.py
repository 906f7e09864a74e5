#!/usr/bin/env python3
"""How many failures `explain` gives a reason for, by kind.

Each history is of one object, with 2 to 5 clients and 8 to 60 events: what took effect, in turn, is a legal order, and then one reply is changed, so
that by listing all configurations there is none. Numbers are few, or each occurs once; operations crash and fail. A reply that is changed is another
value or other members, or says of a call that has no place that it was ok.

usage: bench/reasons.py [HISTORIES] [SEED] [EXAMPLES]   (so many failures of each kind; so many without a reason are shown of each. The program is the
built one, unless LINCHECK in the environment names another)
"""
import collections
import os
import random
import subprocess
import sys
import tempfile
from concurrent.futures import ProcessPoolExecutor

HERE = os.path.dirname(os.path.abspath(__file__))
sys.dont_write_bytecode = True
sys.path.insert(0, os.path.join(HERE, '..', 'tests'))
import edits
from drawn import Source, told
from edits import KINDS, Event, TooMany

HISTORIES = 60
edits.LARGE = 3000  # a history with a beginning of more configurations isn't listed, and drawn anew


def changed(draw, kind, events):
    """The history with another reply somewhere, or None where none can be changed there."""
    at = draw.randrange(len(events))
    event, calls = events[at], [e for e in events if e.type == 'invoke']
    if event.type == 'fail':
        if event.name not in ('cas', 'acquire', 'release'):
            return None
        other = Event(event.process, 0, 'ok', event.name, None)
    elif event.type == 'ok' and event.name in ('read', 'dequeue'):
        if kind == 'set':
            some = [e.value for e in calls if e.name == 'add']
            if not some:
                return None
            value = tuple(sorted(set(event.value) ^ {draw.choice(some)}))
        else:
            before = [e for e in events[:at] if e.type == 'invoke'] if draw.random() < 0.9 else calls
            some = [e.value[1] if isinstance(e.value, tuple) else e.value for e in before if e.name not in ('read', 'dequeue')]
            value = draw.choice(some[-draw.choice([3, 6, 60]):] + [None])
        other = Event(event.process, 0, 'ok', event.name, value)
        if value == event.value:
            return None
    else:
        return None
    return events[:at] + [other] + events[at + 1:]


def failure(draw, kind):
    """A history without a legal order, and how many of its events have none."""
    while True:
        source = Source(draw, kind, draw.randrange(2, 6), draw.choice([0, 3, 5]), draw.choice([2, 3]), draw.choice([0, 20, 40]), draw.choice([0, 20]))
        length = draw.randrange(8, 61)
        while len(source.events) < length and any(stage != 'gone' for stage in source.stages):
            source.step()
        if len(source.events) < 8:
            continue
        events = changed(draw, kind, source.events)
        if events is None:
            continue
        try:
            verdict, _ = told(kind, events)
        except TooMany:
            continue
        if verdict != 'yes':
            return events, verdict


def reason(program, seed, kind, number):
    """The first line of the reason that is told, or None; and the history and its explanation."""
    events, verdict = failure(random.Random('%d %s %d' % (seed, kind, number)), kind)
    text = ''.join(event.text(False) + '\n' for event in events)
    with tempfile.NamedTemporaryFile('w', suffix='.edn') as file:
        file.write(text)
        file.flush()
        done = subprocess.run([program, 'explain', '--kind', kind, file.name], capture_output=True, text=True)
    lines = done.stdout.splitlines()
    if done.returncode != 1 or lines[0] != verdict:
        raise SystemExit('%s, and the program says:\n%s\n%s' % (verdict, text, done.stdout + done.stderr))
    why = [line for line in lines if line.startswith('why: ')]
    return why[0] if why and why[0] != 'why: no short reason was found' else None, text, done.stdout


def main():
    given = list(map(int, sys.argv[1:]))
    histories, seed, examples = (given + [HISTORIES, 1, 0][len(given):])[:3]
    program = os.environ.get('LINCHECK') or os.path.join(HERE, '..', 'lincheck')
    all_told = 0
    with ProcessPoolExecutor(os.cpu_count()) as pool:
        jobs = {kind: [pool.submit(reason, program, seed, kind, number) for number in range(histories)] for kind in KINDS}
        for kind in KINDS:
            found = [job.result() for job in jobs[kind]]
            told_ = [why for why, _, _ in found if why]
            all_told += len(told_)
            forms = collections.Counter(' '.join(word for word in why[5:].rstrip(',').split() if word.isalpha() and word != 'nil')[:40] for why in told_)
            print('%s: %d of %d have a reason' % (kind, len(told_), histories), flush=True)
            for form, count in forms.most_common():
                print('  %3d  %s' % (count, form))
            for _, text, said in [it for it in found if it[0] is None][:examples]:
                print('\n%s\n%s' % (text, said))
    print('together: %d of %d, %.1f in 100' % (all_told, histories * len(KINDS), 100 * all_told / (histories * len(KINDS))))
    return 0


if __name__ == '__main__':
    sys.exit(main())
