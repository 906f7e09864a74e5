#!/usr/bin/env python3
"""Histories whose keys and values are integers, and the same histories with other items in their places, one to one: what is answered of
the two has to be the same but for the items. Of a drawn history each answer, each legal order and each refutation is compared, of the
recordings in examples/ the report. Last come recordings with 100,000 different words, as keys and as values.

usage: tests/items.py [HISTORIES] [SEED] [PROGRAM]   (the program has to be built; HISTORIES are drawn of each kind of object, with keys
and without; the last line counts the histories)
"""
import glob
import os
import random
import re
import subprocess
import sys

from edits import KINDS, Model, Script

HERE = os.path.dirname(os.path.abspath(__file__))
PLAIN = ['false', 'true', '-9223372036854775808', '-3', '0', '1', '2', '7', '9223372036854775807']
WORDS = ['""', '"1"', '"a"', '"a b"', '#"a"', '"a,b"', '"}"', '"{=[;"', '"\\""', '"\\\\"', '"\\u0061"', '"nil"', '"\u00e9"', '"\0"',
         ':a', ':a/b.c', ':b', ':nil', ':true', ':1', '::', ":#'", ':\u00e9']
ITEMS = PLAIN + WORDS


def rank(item):
    """Items as they are printed: false, true, integers rising, and then words by their bytes."""
    if item in ('false', 'true'):
        return 0, item == 'true'
    return (1, int(item)) if re.fullmatch(r'-?\d+', item) else (2, item.encode())


class Drawn(Script):
    """A history of one kind of object, an event at a time."""

    def __init__(self, draw, kind, keyed):
        super().__init__(draw)
        self.start(Model(keyed, kind, draw.choice([2, 5, 65536])))
        while len(self.model.events) < self.longest:
            self.model.events.append(self.event())


def spelled(value, items):
    if value is None:
        return 'nil'
    if isinstance(value, tuple):
        return '[' + ' '.join(spelled(part, items) for part in value) + ']'
    return items[value]


def commands(model, keys, values):
    """The script that appends the events with these items for keys and values, and asks for all that can be asked."""
    lines = []
    for event in model.events:
        value = spelled(event.value, values)
        lines.append('append {:process %d, :type :%s, :f :%s, :value %s}' % (
            event.process, event.type, event.name, '[%s %s]' % (keys[event.key], value) if model.keyed else value))
    lines += ['report', 'order']
    for key in sorted(keys):
        lines += ['order ' + keys[key], 'refute ' + keys[key]]
    return lines


def answers(program, words, lines):
    said = subprocess.run([program, *words], input='\n'.join(lines).encode() + b'\n', capture_output=True).stdout
    return said.decode().split('\n')[:-1]


def renamed(line, keys, values):
    """A line of the answers with the other items: the key of a report's line, and the replies of an order."""
    if line.startswith('object '):
        _, key, rest = line.split(' ', 2)
        return 'object %s %s' % (keys[int(key)], rest)
    if not re.match(r'yes \d', line):
        return line

    def reply(text):
        if text.startswith('{'):
            return '{' + ','.join(sorted((values[int(member)] for member in text[1:-1].split(',') if member), key=rank)) + '}'
        return text if text in ('done', 'nil') else values[int(text)]

    pairs = [pair.split('=') for pair in line[4:].split(' ')]
    return 'yes ' + ' '.join('%s=%s' % (at, reply(text)) for at, text in pairs)


def wanted_of(lines, keys, values):
    """The lines of plain answers with the other items; those of a report's objects as their new keys rise."""
    objects = [line for line in lines if line.startswith('object ')]
    rising = iter(sorted(objects, key=lambda line: rank(keys[int(line.split(' ')[1])])))
    return [renamed(next(rising) if line.startswith('object ') else line, keys, values) for line in lines]


def drawn(program, draw, kind, keyed):
    model = Drawn(draw, kind, keyed).model
    words = ['edit', '--kind', kind, '--budget', str(model.budget)] + (['--keyed'] if keyed else [])
    keys = dict(zip([0, 1], draw.sample(ITEMS, 2))) if keyed else {0: '0'}
    values = dict(zip([1, 2], draw.sample(ITEMS, 2)))
    plain_keys, plain_values = {key: str(key) for key in keys}, {value: str(value) for value in values}
    plain = answers(program, words, commands(model, plain_keys, plain_values))
    other = answers(program, words, commands(model, keys, values))
    wanted = wanted_of(plain, keys, values)
    if wanted == other and len(plain) > len(model.events):
        return True
    print('%s\n%s' % (' '.join(words), '\n'.join(commands(model, keys, values))))
    for a, b in zip(wanted, other):
        if a != b:
            print('wanted %s\nsaid   %s' % (a, b))
    return False


def recorded(program, draw, file):
    """Whether a recording has the same report once its values are other items."""
    keyed = ['--keyed'] if 'keyed' in file else []
    kind = ['--kind', 'fifo'] if 'queue' in file else []
    with open(file, encoding='utf-8') as it:
        text = it.read()
    found = sorted({int(number) for value in re.findall(r':value ([^:}]*)', text) for number in re.findall(r'-?\d+', value)})
    items = dict(zip(found, draw.sample(ITEMS + [str(number) for number in range(10, 10 + len(found))], len(found))))
    other = re.sub(r':value ([^:}]*)', lambda it: ':value ' + re.sub(r'-?\d+', lambda number: items[int(number[0])], it[1]), text)
    reports = [subprocess.run([program, 'check', *keyed, *kind, '-'], input=it.encode(), capture_output=True).stdout.decode().split('\n')[:-1] for it in (text, other)]
    wanted = wanted_of(reports[0], items if keyed else {0: '0'}, items)
    if wanted == reports[1] and reports[0]:
        return True
    print('%s with %s\nwanted %s\nsaid   %s' % (file, items, wanted, reports[1]))
    return False


def many(program, keyed, value):
    """Whether a recording with 100,000 different words is a yes, and a no once one of them is read in another's place."""
    def report(last):
        lines = []
        for at in range(100000):
            wrote, read = ('[%s 1]' % (value % at),) * 2 if keyed else (value % at, value % (at if at < 99999 else last))
            lines += [b'{:process 0 :type :invoke :f :write :value %s}' % wrote.encode(), b'{:process 0 :type :ok :f :write :value %s}' % wrote.encode()]
            lines += [] if keyed else [b'{:process 0 :type :invoke :f :read}', b'{:process 0 :type :ok :f :read :value %s}' % read.encode()]
        ran = subprocess.run([program, 'check', *(['--keyed'] if keyed else []), '-'], input=b'\n'.join(lines), capture_output=True)
        return ran.stdout.split(b'\n')[-2]
    wanted = [b'whole: yes'] * 2 if keyed else [b'whole: yes', b'whole: no prefix 400000']
    said = [report(99999), report(7)]
    if said != wanted:
        print('%s of %s said %s' % ('keys' if keyed else 'values', value, said))
    return said == wanted


def main():
    given = sys.argv[1:]
    histories, seed = int(given[0]) if given else 170, int(given[1]) if given[1:] else 1
    program = given[2] if given[2:] else os.environ.get('LINCHECK') or os.path.join(HERE, '../crates/lincheck/out/lincheck')
    draw = random.Random(seed)
    right = [recorded(program, draw, file) for file in sorted(glob.glob(os.path.join(HERE, '../examples/*.edn')))]
    for number in range(histories * 2 * len(KINDS)):
        right.append(drawn(program, random.Random(seed * 1000003 + number), KINDS[number % len(KINDS)], number // len(KINDS) % 2 == 1))
    right += [many(program, keyed, value) for keyed in (False, True) for value in (':k%d', '"value %d"')]
    print('%d passed, %d failed' % (right.count(True), right.count(False)))
    return 0 if all(right) else 1


if __name__ == '__main__':
    sys.exit(main())
