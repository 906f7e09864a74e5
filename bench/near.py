#!/usr/bin/env python3
"""Measures what a question costs after an edit near the end of a recording: of one object whose clients are busy nearly always (bench/wide.py),
one of the last 1,000 events is replaced, or two neighbours change places, and `ask` follows; then the edit is taken back, and asked again.

usage: bench/near.py [EVENTS [RECORDING-CLIENTS ..]]   (else 20000 events and a recording of each kind)

The program is the repository's, or LINCHECK where that is set. Prints for each recording and each kind of edit milliseconds, as they pass between
a question and its answer: of the first question, and of those after an edit the mean and the most, how many took more than a hundredth of
the first, and what they were answered. A question after an edit is taken back has to be answered as the first one was.
"""
import collections
import os
import random
import re
import subprocess
import sys
import tempfile
import time

HERE = os.path.dirname(os.path.realpath(__file__))
RECORDINGS = ['register-few-20', 'register-unique-20', 'cas-few-20', 'cas-unique-20', 'fifo-growing-10', 'fifo-crashed-10', 'set-crashed-10', 'mutex-crashed-20']
LAST, ASKED = 1000, 30
VALUE, PROCESS = re.compile(r':value (\d+)'), re.compile(r':process (\d+)')


def process_of(line):
    return PROCESS.search(line)[1]


def other_value(draw, lines, at):
    """A completion with another value: one near it, of a queue or of unique values."""
    found = VALUE.search(lines[at])
    if ':type :ok' not in lines[at] or not found:
        return None
    value = int(found[1])
    other = draw.randrange(5) if value < 5 else value + draw.choice([-1, 1])
    return None if other == value else {at: VALUE.sub(':value %d' % other, lines[at])}


def crashed(draw, lines, at):
    """An ok of a process that doesn't go on becomes an info."""
    process = process_of(lines[at])
    if ':type :ok' not in lines[at] or any(process_of(line) == process for line in lines[at + 1:]):
        return None
    return {at: lines[at].replace(':type :ok', ':type :info')}


def swapped(draw, lines, at):
    """Two neighbours change places."""
    if at + 1 == len(lines) or process_of(lines[at]) == process_of(lines[at + 1]):
        return None
    return {at: lines[at + 1], at + 1: lines[at]}


EDITS = {'another value': other_value, 'ok to info': crashed, 'swap': swapped}


class Edited:
    def __init__(self, program, kind, file):
        self.run = subprocess.Popen([program, 'edit', '--kind', kind, file], stdin=subprocess.PIPE, stdout=subprocess.PIPE, text=True, bufsize=1)

    def say(self, command):
        """The reply, and after how many milliseconds it came."""
        begin = time.perf_counter()
        self.run.stdin.write(command + '\n')
        self.run.stdin.flush()
        return self.run.stdout.readline().strip(), (time.perf_counter() - begin) * 1000

    def replace(self, lines):
        for at, line in lines.items():
            self.say('replace %d %s' % (at, line))

    def ask(self):
        return self.say('ask')


def measure(edited, draw, lines, change, answer):
    """The milliseconds and the answers of questions after so many edits, and those after these are taken back."""
    spent, answers, back = [], collections.Counter(), []
    for _ in range(100 * ASKED):
        if len(spent) == ASKED:
            break
        made = change(draw, lines, draw.randrange(max(0, len(lines) - LAST), len(lines)))
        if made is None:
            continue
        edited.replace(made)
        reply, took = edited.ask()
        edited.replace({at: lines[at] for at in made})
        again, took_back = edited.ask()
        if again != answer:
            sys.exit('near.py: %s after an edit that was taken back, and %s at first' % (again, answer))
        if not reply.startswith('ill-formed'):
            spent.append(took)
            answers[reply.split()[0]] += 1
            back.append(took_back)
    return spent, answers, back


def main(words):
    events, names = (words or ['20000'])[0], words[1:] or RECORDINGS
    program = os.path.abspath(os.environ.get('LINCHECK') or os.path.join(os.path.dirname(HERE), 'lincheck'))
    print('| recording, %s events | first ask ms | edit | asked | mean ms | most ms | over 1 in 100 | answers | taken back: mean ms |' % events)
    print('|---|---|---|---|---|---|---|---|---|')
    with tempfile.TemporaryDirectory() as folder:
        file = os.path.join(folder, 'history.edn')
        for name in names:
            recording, _, clients = name.rpartition('-')
            with open(file, 'w', encoding='ascii') as out:
                subprocess.run([os.path.join(HERE, 'wide.py'), recording, events, 'sound', clients], stdout=out, check=True)
            with open(file, encoding='ascii') as given:
                lines = given.read().splitlines()
            kind = 'cas-register' if name.startswith('cas') else name.partition('-')[0]
            edited, draw = Edited(program, kind, file), random.Random(7)
            edited.say('pull')
            answer, first = edited.ask()
            for edit, change in EDITS.items():
                spent, answers, back = measure(edited, draw, lines, change, answer)
                if spent:
                    print('| %s | %.1f | %s | %d | %.3f | %.3f | %d | %s | %.3f |' % (
                        name, first, edit, len(spent), sum(spent) / len(spent), max(spent), sum(it > first / 100 for it in spent),
                        ', '.join('%d %s' % (answers[it], it) for it in sorted(answers)), sum(back) / len(back)), flush=True)
            edited.run.stdin.close()
            edited.run.wait()
    return 0


if __name__ == '__main__':
    sys.exit(main(sys.argv[1:]))
