#!/usr/bin/env python3
"""Writes a recording of one object whose clients are busy nearly always to standard output, a map a line as recorders write them.

usage: bench/wide.py RECORDING [EVENTS] [FAULT] [CLIENTS] [SEED] [WANTED_FILE]   (else 20000 events, sound, 10 clients, one seed for all)

RECORDING is one of
  register-few      reads and writes of a register, values 0 to 4
  register-unique   the same, and each write has a value of its own
  cas-few           reads, writes and compare-and-sets, values 0 to 4; 1 in 100 operations is a write that crashes, never one of 0
  cas-unique        the same, and each write and compare-and-set leaves a value of its own
  fifo-growing      a queue into which each number is put once; two enqueues for each dequeue
  fifo-crashed      one enqueue for each dequeue; 50 dequeues that took an element crash
  fifo-few          a queue into which the numbers 0 to 4 are put again and again; one enqueue for each dequeue
  fifo-some         the same of the numbers 0 to 19
  set-crashed       adds of numbers that differ, of which 70 crash, and 300 reads beside them
  mutex-crashed     acquires and releases of a lock, which fail where it is held, or free; 2 in 100 crash
An operation takes effect at some time between its invocation and its return; half of the writes, adds, acquires and releases that crash never do. A new client
comes in the place of one that crashed. So a `sound` recording is linearizable: the operations as they took effect are a legal order.
The others have one fault when nine tenths of the operations were made, and aren't, but for `changed`, of which it isn't known:
  stale    a read of a register finds a value that was overwritten before it was invoked (for its sake nobody writes 0 for a while)
  lost     the first element of a queue goes, and nobody took it
  twice    the first element of a queue is taken twice
  changed  a dequeue that took an element says that it took another number
  missed   a read of a set doesn't find a number whose add had returned
  shared   a lock that is held is acquired, again and again while nobody releases it
WANTED_FILE gets the answer that is right for the recording in its first line (`no` where it isn't known of which prefix, `unknown` where no
answer is), and for a sound one that order in its second.
"""
import random
import sys
from collections import deque

SEED, LATE, QUIET = 20261129, 0.9, (0.85, 0.95)
FEW, SOME, CRASHED_DEQUEUES, CRASHED_ADDS, READS = 5, 20, 50, 70, 300


class Operation:
    """An operation that runs, and what has come of it: its reply in an order, what it found, how it ends."""

    def __init__(self, at, process, function, value):
        self.at, self.process, self.function, self.value = at, process, function, value
        self.is_crashing, self.is_past, self.reply, self.found, self.ending, self.suspect = False, False, None, None, 'ok', None


class Thing:
    """What is common to the objects: operations that crash are spread evenly over the recording."""

    def __init__(self, draw, fault, crashes):
        self.draw, self.fault, self.crashes, self.crashed, self.share = draw, fault, crashes, 0, 0.0

    def is_faulty(self, fault):
        return self.fault == fault and self.share >= LATE

    def may_crash(self, _operation):
        return True

    def begin(self, operation):
        operation.is_crashing = self.crashed < self.crashes * self.share and self.may_crash(operation)
        self.crashed += operation.is_crashing

    def goes_missing(self, operation):
        return operation.is_crashing and self.draw.random() < 0.5


class Register(Thing):
    """Of each value it knows how many operations that leave it run, and where the last one returned."""

    def __init__(self, draw, fault, crashes, is_unique, functions):
        super().__init__(draw, fault, crashes)
        self.is_unique, self.functions, self.state, self.fresh = is_unique, functions, 'nil', FEW
        self.running, self.returned, self.values, self.newest = {}, {}, [], -1

    def fresh_value(self):
        if self.is_unique:
            self.fresh += 1
            return self.fresh
        return self.draw.randrange(QUIET[0] < self.share < QUIET[1], FEW)

    def call(self):
        function = self.draw.choice(self.functions)
        if function == 'read':
            return function, 'nil'
        value = self.fresh_value()
        if function == 'write':
            return function, value
        return function, '[%s %s]' % (self.state if self.is_unique else self.draw.randrange(FEW), value)

    def may_crash(self, operation):
        return operation.function == 'write' and operation.value != 0

    def begin(self, operation):
        super().begin(operation)
        if operation.function == 'read':
            operation.suspect = self.overwritten() if self.is_faulty('stale') else None
        else:
            self.running[self.left_by(operation)] = self.running.get(self.left_by(operation), 0) + 1

    @staticmethod
    def left_by(operation):
        return str(operation.value).strip(']').split(' ')[-1]

    def overwritten(self):
        """A value that another one surely has overwritten, the latest, and where the last operation that left it returned."""
        for value in reversed(self.values):
            if not self.running[value] and self.returned[value] < self.newest:
                return value, self.returned[value]
        return None

    def take_effect(self, operation):
        if operation.function == 'read':
            operation.found = operation.reply = self.state
        elif self.goes_missing(operation):
            return
        elif operation.function == 'cas' and operation.value[1:].split(' ')[0] != self.state:
            operation.ending = 'fail'
        else:
            self.state, operation.reply = self.left_by(operation), 'done'

    def end(self, operation, at):
        """Whether this is the fault."""
        if operation.function != 'read':
            self.end_update(operation, at)
            return False
        if not operation.suspect or not self.is_faulty('stale'):
            return False
        value, returned = operation.suspect
        if self.running[value] or self.returned[value] != returned:
            return False
        operation.found, self.fault = value, 'sound'
        return True

    def end_update(self, operation, at):
        value = self.left_by(operation)
        if operation.ending != 'info':
            self.running[value] -= 1
            self.returned[value] = at
        if operation.ending == 'ok':
            self.newest = max(self.newest, operation.at)
            if self.is_unique or value not in self.values:
                self.values.append(value)


class Queue(Thing):
    """Of numbers that are each put in once, or drawn from so many."""

    def __init__(self, draw, fault, crashes, enqueues, numbers=0):
        super().__init__(draw, fault, crashes)
        self.enqueues, self.numbers, self.members, self.fresh, self.doubled, self.is_left = enqueues, numbers, deque(), 0, None, False

    def call(self):
        if self.draw.random() >= self.enqueues:
            return 'dequeue', 'nil'
        if self.numbers:
            return 'enqueue', self.draw.randrange(self.numbers)
        self.fresh += 1
        return 'enqueue', self.fresh

    def may_crash(self, operation):
        return operation.function == 'dequeue'

    def take_effect(self, operation):
        if self.is_faulty('lost') and self.members:
            self.fault = 'sound'
            self.members.popleft()
        if operation.function == 'enqueue':
            self.members.append(operation.value)
            operation.reply = 'done'
        else:
            operation.found = operation.reply = self.first(operation)

    def first(self, operation):
        if not self.members:
            self.stay(operation)
            return 'nil'
        if self.is_faulty('twice') and self.doubled is None:
            self.doubled, self.is_left = self.members[0], True
        elif self.is_left:
            self.is_left = False
        if self.members[0] == self.doubled:
            self.stay(operation)
        return self.members[0] if self.is_left else self.members.popleft()

    def stay(self, operation):
        """It doesn't crash: it found nothing, or an element that is taken twice, which has to be seen."""
        self.crashed -= operation.is_crashing
        operation.is_crashing = False

    def end(self, operation, _at):
        if self.is_faulty('changed') and operation.found not in (None, 'nil'):
            operation.found, self.fault = (operation.found + self.draw.randrange(1, self.numbers)) % self.numbers, 'sound'
        return operation.function == 'dequeue' and self.doubled is not None and operation.found == self.doubled


class Set(Thing):
    def __init__(self, draw, fault, crashes):
        super().__init__(draw, fault, crashes)
        self.members, self.fresh, self.reads, self.known = [], 0, 0, None

    def call(self):
        if self.reads < READS * self.share:
            self.reads += 1
            return 'read', 'nil'
        self.fresh += 1
        return 'add', self.fresh

    def may_crash(self, operation):
        return operation.function == 'add'

    def begin(self, operation):
        super().begin(operation)
        if operation.function == 'read' and self.is_faulty('missed'):
            operation.suspect = self.known

    def take_effect(self, operation):
        if operation.function == 'read':
            operation.found = self.members.copy()
            operation.reply = '{%s}' % ','.join(map(str, sorted(operation.found)))
        elif not self.goes_missing(operation):
            self.members.append(operation.value)
            operation.reply = 'done'

    def end(self, operation, _at):
        if operation.function == 'add':
            self.known = operation.value if operation.ending == 'ok' else self.known
            return False
        is_fault = operation.suspect is not None and self.is_faulty('missed')
        if is_fault:
            operation.found.remove(operation.suspect)
            self.fault = 'sound'
        operation.found = '#{%s}' % ' '.join(map(str, operation.found))
        return is_fault


class Lock(Thing):
    def __init__(self, draw, fault, crashes):
        super().__init__(draw, fault, crashes)
        self.is_held = False

    def call(self):
        if self.fault == 'shared' and QUIET[0] < self.share < QUIET[1]:
            return 'acquire', 'nil'
        return self.draw.choice(['acquire', 'release']), 'nil'

    def take_effect(self, operation):
        if self.fault == 'shared' and self.share >= QUIET[1]:
            self.fault = 'sound'
        if self.goes_missing(operation):
            return
        acquires = operation.function == 'acquire'
        if acquires == self.is_held and not (acquires and self.is_faulty('shared')):
            operation.ending = 'fail'
            return
        self.is_held, operation.reply = acquires, 'done'

    def end(self, _operation, _at):
        return False


# The kind for `--kind`, the faults, and what makes the object from the draw, the fault and the number of operations.
RECORDINGS = {
    'register-few': ('register', ['stale'], lambda draw, fault, _: Register(draw, fault, 0, False, ['read', 'write'])),
    'register-unique': ('register', ['stale'], lambda draw, fault, _: Register(draw, fault, 0, True, ['read', 'write'])),
    'cas-few': ('cas-register', ['stale'], lambda draw, fault, n: Register(draw, fault, n // 100, False, ['read', 'write', 'cas'])),
    'cas-unique': ('cas-register', ['stale'], lambda draw, fault, n: Register(draw, fault, n // 100, True, ['read', 'write', 'cas'])),
    'fifo-growing': ('fifo', ['lost', 'twice'], lambda draw, fault, _: Queue(draw, fault, 0, 2 / 3)),
    'fifo-crashed': ('fifo', ['lost', 'twice'], lambda draw, fault, _: Queue(draw, fault, CRASHED_DEQUEUES, 1 / 2)),
    'set-crashed': ('set', ['missed'], lambda draw, fault, _: Set(draw, fault, CRASHED_ADDS)),
    'mutex-crashed': ('mutex', ['shared'], lambda draw, fault, n: Lock(draw, fault, n // 50)),
}
# The same of those that aren't decided at all widths.
REPEATED = {
    'fifo-few': ('fifo', ['changed'], lambda draw, fault, _: Queue(draw, fault, 0, 1 / 2, FEW)),
    'fifo-some': ('fifo', ['changed'], lambda draw, fault, _: Queue(draw, fault, 0, 1 / 2, SOME)),
}
ALL = {**RECORDINGS, **REPEATED}


class Recording:
    def __init__(self, name, events, fault, clients, seed):
        self.draw, self.operations, self.clients = random.Random(seed), events // 2, clients
        self.thing = ALL[name][2](self.draw, fault, self.operations)
        self.time, self.invoked, self.fresh, self.failing = 3291485317, 0, clients, None
        self.idle, self.running, self.lines, self.order = list(range(clients)), [], [], []

    def put(self, process, type_, function, value):
        self.time += self.draw.randrange(1000, 900000)
        self.lines.append('{:type :%s, :f :%s, :value %s, :process %d, :time %d, :index %d}' % (
            type_, function, value, process, self.time, len(self.lines)))

    def begin(self):
        process = self.idle.pop(self.draw.randrange(len(self.idle)))
        self.thing.share = self.invoked / self.operations
        operation = Operation(len(self.lines), process, *self.thing.call())
        self.thing.begin(operation)
        self.put(process, 'invoke', operation.function, operation.value)
        self.running.append(operation)
        self.invoked += 1

    def go_on(self, operation):
        """It takes effect, or ends if it has."""
        if not operation.is_past:
            self.thing.take_effect(operation)
            operation.is_past = True
            if operation.reply is not None:
                self.order.append((operation.at, operation.reply))
            return
        self.running.remove(operation)
        operation.ending = 'info' if operation.is_crashing else operation.ending
        if self.thing.end(operation, len(self.lines)):
            self.failing = len(self.lines) + 1
        shown = operation.value if operation.found is None or operation.is_crashing else operation.found
        self.put(operation.process, operation.ending, operation.function, shown)
        self.idle.append(self.fresh if operation.is_crashing else operation.process)
        self.fresh += operation.is_crashing

    def make(self):
        while self.invoked < self.operations or self.running:
            if self.idle and self.invoked < self.operations and (not self.running or self.draw.random() < 0.9):
                self.begin()
            else:
                self.go_on(self.draw.choice(self.running))

    def wanted(self, fault):
        if fault in ('sound', 'changed'):
            return 'yes' if fault == 'sound' else 'unknown'
        return 'no' if self.failing is None else 'no prefix %d' % self.failing


def is_known(words):
    numbers = words[1:2] + words[3:5]
    return words and words[0] in ALL and all(it.isdigit() for it in numbers) and (
        words[2:3] in ([], ['sound']) or words[2] in ALL[words[0]][1])


def main(words):
    if not is_known(words):
        print(__doc__, file=sys.stderr)
        return 2
    name, events, fault, clients, seed = (words + ['', '20000', 'sound', '10', str(SEED)][len(words):])[:5]
    recording = Recording(name, int(events), fault, int(clients), int(seed))
    recording.make()
    sys.stdout.write('\n'.join(recording.lines) + '\n')
    if recording.thing.fault != 'sound' and recording.failing is None:
        print('wide.py: too few events for the fault', file=sys.stderr)
        return 1
    if words[5:]:
        with open(words[5], 'w', encoding='ascii') as file:
            file.write('%s\n%s\n' % (recording.wanted(fault), ' '.join('%d=%s' % it for it in recording.order)))
    return 0


if __name__ == '__main__':
    sys.exit(main(sys.argv[1:]))
