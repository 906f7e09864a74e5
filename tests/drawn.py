#!/usr/bin/env python3
"""Drawn histories of one object of each kind, whose verdicts are known: by listing all configurations, or by how they were made.

  small    at most four operations of three clients, with any replies: each beginning; and budgets from 1 to 9, under which an object without
           crashes is undecided just where there are more configurations
  longer   a few clients, some of whose replies are wrong
  behind   the same, and the rows of tests/rows/searches.txt, behind updates that crashed and that nobody sees, under a budget of 1,024: there are
           more configurations, so that searches have to tell, and the verdict is the one without these updates
  sound    many clients, and operations that crash or fail: what took effect, in turn, is a legal order. Each order that is told is tried
  faulty   the same, and one reply for which there is surely no place, while what comes before it has a legal order
  large    many events, and many clients at once

All go through `edit`. `undecided` is wrong where no beginning has more configurations than the budget; else it is allowed below a budget of 1,024, and
from there on where a search may miss what there is (`may_be_missed`), if fewer failures are missed than found. The lines before the last count the
answers by sort and kind.
usage: tests/drawn.py [HISTORIES] [SEED]   (so many of each sort and kind; builds what isn't built, unless LINCHECK in the environment names the program)
"""
import collections
import itertools
import os
import random
import subprocess
import sys
from concurrent.futures import ProcessPoolExecutor

sys.dont_write_bytecode = True
import edits
from edits import KINDS, NAMES, START, Beginning, Event, Model, TooMany, configurations, steps
from rows import built, maps, rows_of

HISTORIES, AT_ONCE = 20, 5
USUAL, BUDGETS = 65536, [1024, 65536, 1000000]
UPDATES = {'register': 'write', 'cas-register': 'write', 'fifo': 'enqueue', 'set': 'add', 'unordered-queue': 'enqueue'}
edits.LARGE = 5000  # a history with a beginning of more configurations isn't listed, and drawn anew
NOBODYS = 1000000  # from here on numbers that no client of a drawn history uses
GONE = 'gone'


# histories

class Source:
    """An object and its clients, each of which calls, has its effect and returns at any time. So what took effect, in turn, is a legal order,
    unless a reply is wrong."""

    def __init__(self, draw, kind, clients, few=0, reads=2, crash=0, fail=0, wrong=0):
        """Numbers are below `few`, or each occurs once. One of `reads` calls reads a register or a set. One of `crash` operations crashes ahead of its
        effect, and of those that are left one behind it; one of `fail` fails, and one of `wrong` replies is wrong. None is where the number is 0."""
        self.draw, self.kind, self.few, self.reads, self.crash, self.fail, self.wrong = draw, kind, few, reads, crash, fail, wrong
        self.stages, self.state, self.last = [None] * clients, START[kind], 0
        self.events, self.called, self.misfit_at, self.is_closed = [], [], None, False

    def is_one_of(self, count):
        return count > 0 and self.draw.randrange(count) == 0

    def number(self):
        self.last += 1
        return self.draw.randrange(self.few) if self.few else self.last

    def put(self, process, type_, name, value=None):
        self.events.append(Event(process, 0, type_, name, value))

    def call(self, process):
        names = [name for name in NAMES[self.kind] if name != 'read']
        name = 'read' if 'read' in NAMES[self.kind] and self.is_one_of(self.reads) else self.draw.choice(names)
        value = self.number() if name in ('write', 'enqueue', 'add') else None
        if name == 'cas':
            value = (self.state if self.draw.random() < 0.5 or not self.called else self.draw.choice(self.called[-4:]), self.number())
        if value is not None:
            self.called.append(value[1] if name == 'cas' else value)
        self.put(process, 'invoke', name, value)
        self.stages[process] = (len(self.events) - 1, None)

    def mistaken(self, name):
        """A reply that may be wrong, of which the object knows nothing."""
        recent = (self.called[-4:] or [0]) + [None]
        if self.kind == 'set' and name == 'read':
            return 'members', self.state ^ {self.draw.choice(recent[:-1])}
        return ('value', self.draw.choice(recent)) if name in ('read', 'dequeue') else 'done' if name in ('cas', 'acquire', 'release') else None

    def take_effect(self, process, at):
        event = self.events[at]
        wrong = self.mistaken(event.name) if self.is_one_of(self.wrong) else None
        outcomes = [(self.state, wrong)] if wrong else steps(self.kind, self.state, event.name, event.value)
        if outcomes:
            self.state, reply = self.draw.choice(outcomes)
            self.stages[process] = (at, reply)
        elif event.name == 'cas' or self.is_one_of(4) or self.is_closed:
            self.end(process, 'fail', at)

    def end(self, process, type_, at, reply='done'):
        value = reply[1] if type_ == 'ok' and reply != 'done' else None
        self.put(process, type_, self.events[at].name, tuple(sorted(value)) if isinstance(value, frozenset) else value)
        self.stages[process] = GONE if type_ == 'info' else None

    def step(self):
        process = self.draw.randrange(len(self.stages))
        stage = self.stages[process]
        if stage == GONE or stage is None and self.is_closed:
            return
        if stage is None:
            self.call(process)
        elif self.is_one_of(self.crash):
            self.end(process, 'info', stage[0])
        elif stage[1] is None and self.is_one_of(self.fail):
            self.end(process, 'fail', stage[0])
        elif stage[1] is None:
            self.take_effect(process, stage[0])
        else:
            self.end(process, 'ok', *stage)

    def run(self, count):
        for _ in range(count):
            self.step()
        return self.events

    # one reply that surely is wrong

    def returned(self, before=None):
        """Calls that were ok, each with its return: of those that had returned by then, if it is said when."""
        ends, busy = [], {}
        for at, event in enumerate(self.events[:before]):
            if event.type == 'invoke':
                busy[event.process] = at
            elif event.type == 'ok':
                ends.append((busy[event.process], at))
        return ends

    def misfits(self, at, reply):
        """Replies to the call for which no order has a place, if what comes before has one where it is given the right reply."""
        call, found = self.events[at], [NOBODYS]
        if call.name == 'read' and self.kind == 'set':
            return [reply[1] | {NOBODYS}] + [reply[1] - {self.events[first].value} for first, _ in self.returned(at) if self.events[first].name == 'add'][-3:]
        if call.name == 'dequeue' and not self.few:
            # taken out twice
            found += [self.events[end].value for _, end in self.returned() if self.events[end].name == 'dequeue' and self.events[end].value is not None][-3:]
        if call.name == 'read' and not self.few:
            # overwritten: its write returned ahead of the call of one that returned ahead of the read
            updates = [(first, end) for first, end in self.returned(at) if self.events[first].name != 'read']
            latest = max([first for first, _ in updates], default=0)
            values = [(end, self.events[first].value) for first, end in updates if end < latest]
            found += [value[1] if isinstance(value, tuple) else value for _, value in sorted(values, key=lambda it: it[0])][-3:]
        return found if call.name in ('read', 'dequeue') else []

    def go_wrong(self):
        """Goes on to a return that is given a misfit. Gives how many events there are then, or None where no client is left."""
        if self.kind == 'mutex':
            # once nothing is open any more it is known whether the lock is held
            self.is_closed = True
            while any(stage not in (None, GONE) for stage in self.stages):
                self.step()
            self.is_closed = False
            process, name = self.stages.index(None), 'acquire' if self.state else 'release'
            self.put(process, 'invoke', name)
            self.put(process, 'ok', name)
            return len(self.events)
        while any(stage != GONE for stage in self.stages):
            process = self.draw.randrange(len(self.stages))
            at, reply = self.stages[process] if self.stages[process] not in (None, GONE) else (None, None)
            found = self.misfits(at, reply) if reply is not None else []
            if found:
                value = self.draw.choice(found)
                self.end(process, 'ok', at, ('value', value))
                return len(self.events)
            self.step()
        return None


def any_history(draw, kind):
    """At most four operations of three clients, with any replies."""
    source = Source(draw, kind, 3, few=3, crash=6, fail=6)
    for _ in range(10):
        process = draw.randrange(3)
        stage = source.stages[process]
        if stage is None and sum(event.type == 'invoke' for event in source.events) < 4:
            source.call(process)
        elif stage not in (None, GONE):
            call = source.events[stage[0]]
            type_ = draw.choice(['fail', 'info', 'ok', 'ok', 'ok', 'ok'])
            value = draw.choice([None, 0, 1, 2]) if call.name in ('read', 'dequeue') else None
            if kind == 'set' and call.name == 'read':
                value = frozenset(number for number in range(3) if draw.random() < 0.5)
            source.end(process, type_, stage[0], 'done' if call.name not in ('read', 'dequeue') else ('value', value))
    return source.events


def longer_history(draw, kind, fews=(0, 0, 3, 6)):
    """A few clients, some of whose replies are wrong."""
    few = draw.choice(fews)
    source = Source(draw, kind, draw.choice([3, 4]), few, draw.choice([2, 3]), draw.choice([12, 24, 40]), draw.choice([0, 6, 30]), draw.choice([4, 8, 20]))
    return source.run(draw.choice([30, 40, 60]))


def wide(draw, kind, fault):
    """A source of many clients, and how many steps they make."""
    few = draw.choice([0, 5]) if kind in ('register', 'cas-register', 'unordered-queue') else 0
    return Source(draw, kind, draw.choice([8, 14]), few, draw.choice([2, 4]), 0 if fault and kind == 'mutex' else draw.choice([60, 80]), draw.choice([0, 30]))


def unseen(kind):
    """Updates that crash, of numbers that occur nowhere else. Each can be left out of an order, with what saw it and didn't return."""
    events = []
    for number in range(11):
        events += [Event(NOBODYS + number, 0, type_, UPDATES[kind], NOBODYS + 1 + number if type_ == 'invoke' else None) for type_ in ('invoke', 'info')]
    return events


def told(kind, events):
    """The verdict, and the most configurations of a beginning, by listing them all."""
    beginning, most = Beginning(kind, {}, {START[kind]: {0}}, {}), 1
    for at, event in enumerate(events):
        beginning = beginning.next(event)
        if not beginning:
            return 'no prefix %d' % (at + 1), most
        most = max(most, len(beginning))
    return 'yes', most


# questions

class Session:
    """Histories and questions about them, one after the other, in one run of `edit`."""

    def __init__(self, sort, kind):
        self.sort, self.kind, self.lines, self.checks, self.size = sort, kind, ['kind 0 ' + kind], [None], 0

    def begin(self, budget, texts=()):
        self.lines += ['truncate 0', 'budget %d' % budget]
        self.checks += [None] * 2
        for text in texts:
            self.append(text)

    def append(self, text):
        self.lines.append('append ' + text)
        self.checks.append(None)

    def ask(self, check, word='ask'):
        """A question. Of a reply the check says whether it is right, or None where it is undecided and that may be."""
        self.lines.append(word)
        self.checks.append(check)

    def ask_for(self, answer, may_be_open=False):
        self.ask(lambda reply: True if reply == answer else None if may_be_open and reply.startswith('undecided at ') else False)

    def run(self, program):
        """The answers by their first words, how many replies were right, and what is wrong, a line each."""
        counts, right, wrong = collections.Counter(), 0, []
        replies = subprocess.run([program, 'edit'], input='\n'.join(self.lines) + '\n', capture_output=True, text=True).stdout.splitlines()
        if len(replies) != len(self.checks):
            return counts, 0, ['%s, %s: %d replies, not %d' % (self.sort, self.kind, len(replies), len(self.checks))]
        since = 0
        for at, (line, check, reply) in enumerate(zip(self.lines, self.checks, replies)):
            since = at if line == 'truncate 0' else since
            if check is None:
                is_right = reply.startswith('ok ')
            else:
                is_right = check(reply)
                counts[self.sort, self.kind, reply.split(' ')[0] + (' (allowed)' if is_right is None else '')] += 1
            right += is_right in (True, None) and check is not None
            if is_right is False:
                wrong.append('%s, %s: %s -> %s\n  %s' % (self.sort, self.kind, line, reply[:80], '\n  '.join(self.lines[since:at + 1])))
                break
        return counts, right, wrong


def texts_of(events):
    return [event.text(False) for event in events]


def small(draw, kind, histories):
    session = Session('small', kind)
    for _ in range(histories):
        events = any_history(draw, kind)
        texts, sizes = texts_of(events), [len(configurations(kind, events[:count])) for count in range(len(events) + 1)]
        first = next((count for count, size in enumerate(sizes) if not size), None)
        verdict = 'yes' if first is None else 'no prefix %d' % first
        session.begin(USUAL)
        for count, text in enumerate(texts, 1):
            session.append(text)
            session.ask_for(verdict if first is not None and first <= count else 'yes')
        for budget in range(1, 10):
            over = next((count for count, size in enumerate(sizes[:first]) if size > budget), None)
            session.begin(budget, texts)
            if any(event.type == 'info' for event in events):
                # with crashed operations fewer are counted
                may_be = {verdict} | {'undecided at %d' % (count - 1) for count, size in enumerate(sizes[:first]) if size > budget}
                session.ask(lambda reply, verdict=verdict, may_be=may_be: True if reply == verdict else None if reply in may_be else False)
            else:
                session.ask_for(verdict if over is None else 'undecided at %d' % (over - 1))
    return session


def longer(draw, kind, histories):
    session = Session('longer', kind)
    while histories:
        events = longer_history(draw, kind)
        try:
            verdict, most = told(kind, events)
        except TooMany:
            continue
        histories -= 1
        for budget in [1000] + BUDGETS[:2]:
            session.begin(budget, texts_of(events))
            session.ask_for(verdict, most > budget and (budget < BUDGETS[0] or may_be_missed(kind, events, verdict)))
    return session


def may_be_missed(kind, events, verdict):
    """Whether the searches promise least of it: a failure of a queue or of a compare-and-set register, and an order of a queue into which some
    number is put several times."""
    numbers = [event.value for event in events if event.type == 'invoke' and event.name not in ('read', 'dequeue')]
    is_queue, fails = kind in ('fifo', 'unordered-queue'), verdict != 'yes'
    return fails and (is_queue or kind == 'cas-register') or is_queue and len(set(numbers)) < len(numbers)


def later(answer, count):
    """The answer about events with so many in front that change nothing."""
    return answer if answer == 'yes' else 'no prefix %d' % (int(answer.split(' ')[2]) + count)


def behind(draw, kind, histories):
    session, front = Session('behind', kind), unseen(kind) if kind in UPDATES else []
    for row in itertools.chain(*rows_of('searches').values()) if kind in UPDATES else ():
        if row.words[1:3] == [b'--kind', kind.encode()] or kind == 'register' and row.words[1] != b'--kind':
            answer = row.wanted(b'').decode().rpartition('whole: ')[2].strip()
            session.begin(1024, texts_of(front) + [text.decode() for text in maps(row.history[1])])
            is_twice = kind == 'fifo' and answer == 'yes'  # the row of a number that is put in twice, of which no order is looked for
            session.ask_for(later(answer, len(front)), is_twice)
    while histories and kind in UPDATES:
        # an order of a queue is looked for only where each number is put in once
        events = longer_history(draw, kind, (0,) if kind == 'fifo' else (0, 0, 3, 6))
        try:
            verdict, _ = told(kind, events)
        except TooMany:
            continue
        histories -= 1
        session.begin(1024, texts_of(front + events))
        session.ask_for(later(verdict, len(front)), may_be_missed(kind, events, verdict))
    return session


def sound(draw, kind, histories):
    session = Session('sound', kind)
    for _ in range(histories):
        source = wide(draw, kind, False)
        model = Model(False, kind, USUAL)
        model.events = source.run(draw.choice([300, 500, 700]))
        for budget in BUDGETS:
            session.begin(budget, texts_of(model.events))
            session.ask(lambda reply, model=model: reply.startswith('yes ') and model.is_order(None, reply[4:]), 'order')
    return session


def faulty(draw, kind, histories):
    session = Session('faulty', kind)
    while histories:
        source = wide(draw, kind, True)
        source.run(draw.choice([100, 300, 500]))
        count = source.go_wrong()
        if count is None:
            continue
        source.run(draw.choice([0, 30, 100]))
        histories -= 1
        for budget in BUDGETS:
            session.begin(budget, texts_of(source.events))
            session.ask_for('no prefix %d' % count, kind in ('fifo', 'unordered-queue'))
    return session


def large(draw, kind, _):
    session = Session('large', kind)
    if kind == 'register':
        # each operation takes effect as it returns
        source = Source(draw, kind, 5, 5)
        session.begin(USUAL, texts_of(source.run(30000)))
        session.ask_for('yes')
    if kind == 'set':
        numbers = range(40)
        adds = [Event(number, 0, type_, 'add', number if type_ == 'invoke' else None) for type_ in ('invoke', 'ok') for number in numbers]
        for seen, answer in (numbers, 'yes'), (numbers[1:], 'no prefix 82'):
            for budget in BUDGETS:
                session.begin(budget, texts_of(adds + [Event(0, 0, 'invoke', 'read', None), Event(0, 0, 'ok', 'read', tuple(seen))]))
                session.ask_for(answer)
    return session


SORTS = {sort.__name__: sort for sort in (small, longer, behind, sound, faulty, large)}


def ran(program, seed, histories, sort, kind, number):
    """The answers of so many histories of one sort and kind, what was right, and what wasn't."""
    return SORTS[sort](random.Random('%d %s %s %d' % (seed, sort, kind, number)), kind, histories).run(program)


def main():
    given = list(map(int, sys.argv[1:]))
    histories, seed = given[0] if given else HISTORIES, given[1] if given[1:] else 1
    program = os.path.abspath(os.environ.get('LINCHECK') or built())
    cases = [(sort, kind, number) for sort in SORTS for kind in KINDS for number in range(0, histories, AT_ONCE)]
    passed, faults, counts = 0, [], collections.Counter()
    with ProcessPoolExecutor(os.cpu_count()) as pool:
        jobs = [pool.submit(ran, program, seed, min(AT_ONCE, histories - number), sort, kind, number) for sort, kind, number in cases]
        for job in jobs:
            counted, right, wrong = job.result()
            passed, faults, counts = passed + right, faults + wrong, counts + counted
    for sort, kind in itertools.product(('behind', 'faulty'), KINDS):
        missed, found = counts[sort, kind, 'undecided (allowed)'], counts[sort, kind, 'no']
        if missed and missed >= found:
            faults.append('%s, %s: %d are missed, and %d are found' % (sort, kind, missed, found))
    for fault in faults[:10]:
        print(fault)
    for sort, kind in itertools.product(SORTS, KINDS):
        said = [(answer, count) for (it, of, answer), count in sorted(counts.items()) if (it, of) == (sort, kind)]
        if said:
            print('%s, %s: %s' % (sort, kind, ', '.join('%s %d' % pair for pair in said)))
    print('%d passed, %d failed' % (passed, len(faults)))
    return 1 if faults or not passed else 0


if __name__ == '__main__':
    sys.exit(main())
