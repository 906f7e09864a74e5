#!/usr/bin/env python3
"""Measures how time and memory grow with the events where much stays open, or answers come late.

For each history of HISTORIES: `check` at so many events and at twice as many, with processor seconds, their ratio, and the most memory that was
resident, in MB and in times the file; and what it says at last, beside what the way it was made says. With --edit, beside these: each
event is appended and the history asked about, microseconds an event at 2,000 events and at so many, and what was answered last.
A run is ended after LIMIT seconds, and told as `-`.

usage: bench/growth.py [--events N] [--edit] [HISTORY ..]   (else 20000 events, all histories; the program is the repository's, or LINCHECK)
"""
import argparse
import os
import random
import resource
import subprocess
import sys
import tempfile
import time

HERE = os.path.dirname(os.path.realpath(__file__))
PROGRAM = os.environ.get('LINCHECK') or os.path.join(HERE, '../lincheck')
LIMIT, FEW, SEED = 60, 2000, 20261130


def event(process, type_, function, value='nil'):
    return '{:process %d, :type :%s, :f :%s, :value %s}' % (process, type_, function, value)


def done(process, function, value='nil', answer=None):
    return [event(process, 'invoke', function, value if answer is None else 'nil'), event(process, 'ok', function, value if answer is None else answer)]


def never_return(function, valued=True):
    """Calls that stay open."""
    return lambda count: [event(it, 'invoke', function, it if valued else 'nil') for it in range(count)]


def crash(function, valued=True):
    """Calls that crash."""
    return lambda count: [line for it in range(count // 2)
                          for line in (event(it, 'invoke', function, it if valued else 'nil'), event(it, 'info', function, it if valued else 'nil'))]


def crash_of_pairs(count):
    return [line for it in range(count) for line in (event(it, 'invoke', 'cas', '[%d %d]' % (it, it + 1)),)]


def late(function, update, answer):
    """One call stays open while others go on, and returns last."""
    def made(count):
        others = [line for it in range((count - 2) // 2) for line in done(1, update, it)]
        return [event(0, 'invoke', function), *others, event(0, 'ok', function, answer(len(others) // 2))]
    return made


def crashed_dequeues(count):
    lines = [event(it, 'invoke', 'dequeue') for it in range(count // 20)]
    for it in range((count - len(lines)) // 4):
        lines += done(count, 'enqueue', it) + done(count, 'dequeue', answer=it)
    return lines


def filled(count):
    return [line for it in range(count // 2) for line in done(0, 'enqueue', it)]


def drained(from_the_end):
    def made(count):
        half = count // 4
        order = range(half)[::-1] if from_the_end else range(half)
        return [line for it in range(half) for line in done(0, 'enqueue', it)] + [line for it in order for line in done(1, 'dequeue', answer=it)]
    return made


def crashed_enqueues(count):
    """An enqueue in ten crashes, and each second of these took effect."""
    lines, inside, client = [], [], 10
    draw = random.Random(SEED)
    for it in range(count // 4):
        if it % 10 == 9:
            lines.append(event(client, 'invoke', 'enqueue', it))
            client += 1
            inside += [it] * (it % 20 == 9)
        else:
            lines += done(0, 'enqueue', it)
            inside.append(it)
        if inside and draw.random() < 0.9:
            lines += done(1, 'dequeue', answer=inside.pop(0))
    return lines


def many_keys(count):
    return [line for it in range(count // 2) for line in done(it % 50, 'write', '[%d 1]' % it)]


def many_processes(count):
    return [line for it in range(count // 2) for line in done(it, 'write', it % 7)]


def long_words(count):
    return [line for it in range(count // 2) for line in done(it % 5, 'write', '"%s%d"' % ('a word that goes on and on ' * 4, it))]


def read_often(count):
    lines, inside = [], []
    for it in range(count // 8):
        lines += done(0, 'add', it)
        inside.append(it)
        if it % (count // 160) == 0:
            for reader in range(1, 4):
                lines += done(reader, 'read', answer='#{%s}' % ' '.join(map(str, inside)))
    return lines


def failing(count):
    """Acquires that fail while another holds the lock."""
    lines = done(0, 'acquire')
    for it in range(count // 2):
        lines += [event(1 + it % 4, 'invoke', 'acquire'), event(1 + it % 4, 'fail', 'acquire')]
    return lines


# name: words for the command, what makes the lines, what is right
HISTORIES = {
    'writes open': ('register', never_return('write'), 'yes'),
    'reads open': ('register', never_return('read', False), 'yes'),
    'writes crash': ('register', crash('write'), 'yes'),
    'one slow read': ('register', late('read', 'write', lambda count: count // 2), 'yes'),
    'cas open': ('cas-register', crash_of_pairs, 'yes'),
    'enqueues open': ('fifo', never_return('enqueue'), 'yes'),
    'enqueues crash': ('fifo', crash('enqueue'), 'yes'),
    'some enqueues crash': ('fifo', crashed_enqueues, 'yes'),
    'some dequeues crash': ('fifo', crashed_dequeues, 'yes'),
    'queue filled': ('fifo', filled, 'yes'),
    'queue drained': ('fifo', drained(False), 'yes'),
    'bag enqueues open': ('unordered-queue', never_return('enqueue'), 'yes'),
    'bag enqueues crash': ('unordered-queue', crash('enqueue'), 'yes'),
    'bag dequeues crash': ('unordered-queue', crashed_dequeues, 'yes'),
    'bag drained': ('unordered-queue', drained(False), 'yes'),
    'bag drained, last first': ('unordered-queue', drained(True), 'yes'),
    'adds open': ('set', never_return('add'), 'yes'),
    'set read often': ('set', read_often, 'yes'),
    'acquires open': ('mutex', never_return('acquire', False), 'yes'),
    'acquires fail': ('mutex', failing, 'yes'),
    'many keys': ('register --keyed', many_keys, 'yes'),
    'many processes': ('register', many_processes, 'yes'),
    'long words': ('register', long_words, 'yes'),
}


class Run:
    """A run of the program on a file: its seconds, the most memory in MB, and what it says last."""

    def __init__(self, words, name):
        self.size = os.path.getsize(name) / 1e6
        with tempfile.TemporaryFile('w+') as out:
            child = subprocess.Popen([PROGRAM, 'check', '--kind', *words.split(), name], stdout=out, stderr=subprocess.STDOUT)
            end = time.monotonic() + LIMIT
            pid = 0
            while not pid and time.monotonic() < end:
                pid, _, used = os.wait4(child.pid, os.WNOHANG)
                time.sleep(0 if pid else 0.005)
            if not pid:
                child.kill()
                _, _, used = os.wait4(child.pid, 0)
            child.returncode = 0
            out.seek(0)
            said = out.read().rstrip('\n').rpartition('\n')[2].removeprefix('whole: ')
        self.said = said if pid else '-'
        self.seconds, self.memory = used.ru_utime + used.ru_stime, used.ru_maxrss / 1024


def online(words, lines, marks):
    """Microseconds an event, over the quarter before each mark, where each event is appended and asked about; and the last answer."""
    with subprocess.Popen([PROGRAM, 'edit', '--kind', *words.split()], stdin=subprocess.PIPE, stdout=subprocess.PIPE, text=True, bufsize=1 << 16) as edit:
        found, said, done_, began = [], '', 0, time.monotonic()
        for mark in marks:
            for start, stop in ((done_, mark * 3 // 4), (mark * 3 // 4, mark)):
                since = time.monotonic()
                for at in range(start, stop, 50):
                    some = lines[at:min(at + 50, stop)]
                    edit.stdin.write(''.join('append %s\nask\n' % it for it in some))
                    edit.stdin.flush()
                    for _ in some:
                        edit.stdout.readline()
                        said = edit.stdout.readline().rstrip('\n')
                    if time.monotonic() - began > LIMIT:
                        edit.kill()
                        return [*found, None][:2], said
            found.append((time.monotonic() - since) / max(1, stop - start) * 1e6)
            done_ = mark
        edit.stdin.close()
        return found, said


def told(value, form):
    return '-' if value is None else form % value


def main():
    asked = argparse.ArgumentParser(usage=__doc__.rpartition('usage: ')[2])
    asked.add_argument('--events', type=int, default=20000)
    asked.add_argument('--edit', action='store_true')
    asked.add_argument('names', nargs='*')
    asked = asked.parse_args()
    wrong = 0
    print('| history | events | s | twice: s | ratio | MB | times the file | says |' + (' edit: us at %d | at %d | says |' % (FEW, asked.events) if asked.edit else ''))
    print('|---' * (11 if asked.edit else 8) + '|')
    with tempfile.TemporaryDirectory() as folder:
        for name in asked.names or HISTORIES:
            words, made, right = HISTORIES[name]
            runs = []
            for count in (asked.events, 2 * asked.events):
                path = os.path.join(folder, 'history.edn')
                with open(path, 'w', encoding='ascii') as file:
                    file.write('\n'.join(made(count)) + '\n')
                runs.append(Run(words, path))
            one, two = runs
            cells = [name, '%d' % asked.events, '%.2f' % one.seconds, '%.2f' % two.seconds, '%.1f' % (two.seconds / max(one.seconds, 0.005)),
                     '%.0f' % two.memory, '%.1f' % (two.memory / two.size), two.said]
            wrong += two.said not in (right, '-') and not two.said.startswith('undecided')
            if asked.edit:
                lines = made(asked.events)
                found, said = online(words, lines, [FEW, len(lines)])
                cells += [told(it, '%.0f') for it in (found + [None, None])[:2]] + [said]
                wrong += not (said == right or said.startswith('undecided'))
            print('| %s |' % ' | '.join(cells), flush=True)
    print('%d answers are wrong' % wrong)
    return 1 if wrong else 0


if __name__ == '__main__':
    sys.exit(main())
