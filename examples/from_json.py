#!/usr/bin/env python3
"""Makes a history of a log that has a JSON map a line for each operation, with the times at which it was called and answered.

    {"process": "a", "f": "write", "value": 1, "call": 0.10, "return": 0.25}
    {"process": "b", "f": "read", "result": 1, "call": 0.20, "return": 0.30}
    {"process": "a", "f": "write", "value": 2, "call": 0.40, "type": "info"}

`process`, `f` and `call` are needed. `value` is what was asked for and `result` what was answered, nil where it isn't there; `key` names the object,
for a history that is checked with --keyed. `type` is ok, fail (it took no effect, for certain) or info (it isn't known whether it did: a timeout); where it
isn't there, an operation with `return` is ok, and one without is info.

Events are put in the order of their times, at one time calls before returns: so two operations come one after the other only where the log says so.
A process that goes on after an info, or at the very time at which it was answered, has a fresh number from there on.

usage: examples/from_json.py [FILE] > history.edn   (else the log is read from standard input)
"""
import json
import sys

FUNCTIONS = ('read', 'write', 'cas', 'enqueue', 'dequeue', 'add', 'acquire', 'release')
READING = ('read', 'dequeue')  # what these are answered stands in place of what was asked
CALL, RETURN = 0, 1


class Refused(Exception):
    pass


def edn(value):
    """A value in EDN. A list is a vector, which is read as a set too."""
    if value is None:
        return 'nil'
    if isinstance(value, bool):
        return 'true' if value else 'false'
    if isinstance(value, int) and -(1 << 63) <= value < 1 << 63:
        return '%d' % value
    if isinstance(value, str):
        return json.dumps(value, ensure_ascii=False)
    if isinstance(value, list):
        return '[%s]' % ' '.join(map(edn, value))
    raise Refused('a history has no values such as %s' % json.dumps(value))


class Operation:
    def __init__(self, line, it):
        missing = [name for name in ('process', 'f', 'call') if it.get(name) is None]
        if missing:
            raise Refused('it has no "%s"' % missing[0])
        self.line, self.process, self.f = line, json.dumps(it['process']), it['f']
        if self.f not in FUNCTIONS:
            raise Refused('"f" is none of %s' % ', '.join(FUNCTIONS))
        self.call, self.end = it['call'], it.get('return')
        for name in ('call', 'return'):
            if not isinstance(it.get(name, 0), (int, float, type(None))):
                raise Refused('"%s" is no number' % name)
        self.type = it.get('type') or ('info' if self.end is None else 'ok')
        if self.type not in ('ok', 'fail', 'info'):
            raise Refused('"type" is none of ok, fail, info')
        if self.end is None and self.type != 'info':
            raise Refused('it is %s, and has no "return"' % self.type)
        if self.end is not None and self.end < self.call:
            raise Refused('it returns before it is called')
        self.asked = self.valued(it, it.get('value'))
        self.answered = self.valued(it, it.get('result')) if self.f in READING and self.type == 'ok' else self.asked

    @staticmethod
    def valued(it, value):
        return '[%s %s]' % (edn(it['key']), edn(value)) if 'key' in it else edn(value)


def read(file):
    for number, line in enumerate(file, 1):
        if line.strip():
            try:
                yield Operation(number, json.loads(line))
            except (Refused, ValueError, AttributeError, TypeError) as why:
                raise Refused('line %d: %s' % (number, why)) from None


def history(operations):
    """The lines of the history."""
    steps = [(it.call, CALL, it) for it in operations]
    steps += [(it.end, RETURN, it) for it in operations if it.end is not None]
    steps.sort(key=lambda step: (step[0], step[1], step[2].line))
    numbers, running, fresh = {}, {}, 0
    for _, side, it in steps:
        if side == CALL:
            before = running.get(it.process)
            if before and before.end is not None and before.end > it.call:
                raise Refused('line %d: its process is busy with its operation of line %d' % (it.line, before.line))
            if before or it.process not in numbers:
                numbers[it.process], fresh = fresh, fresh + 1
            running[it.process], it.number = it, numbers[it.process]
            yield '{:process %d, :type :invoke, :f :%s, :value %s}' % (it.number, it.f, it.asked)
        else:
            yield '{:process %d, :type :%s, :f :%s, :value %s}' % (it.number, it.type, it.f, it.answered)
            if running[it.process] is it and it.type != 'info':
                del running[it.process]


def main(words):
    if len(words) > 1 or words[:1] in (['-h'], ['--help']):
        print(__doc__.strip())
        return 2
    try:
        with open(words[0], encoding='utf-8') if words else sys.stdin as file:
            lines = list(history(list(read(file))))
    except (OSError, Refused) as why:
        print('from_json.py: %s' % why, file=sys.stderr)
        return 1
    print('\n'.join(lines))
    return 0


if __name__ == '__main__':
    sys.exit(main(sys.argv[1:]))
