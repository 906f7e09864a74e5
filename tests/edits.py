#!/usr/bin/env python3
"""Random edit scripts, judged by a plain enumeration of all orders of the present history.

Each script goes through `lincheck edit`: edits of all six kinds, refused ones among them, with questions and refutations in between.
The model below shares no code with the program. It keeps the history as a list, looks back for well-formedness, and tries every
order of every prefix, so histories stay small.

For each 15 of these there is a wide script, with a budget of 1,024 or more and so many open operations that an object is often over it.
Its model lists the configurations of each prefix, an event at a time.

usage: tests/edits.py [SCRIPTS] [SEED] [PROGRAM]   (the program has to be built; the last line counts the replies)
"""
import functools
import operator
import os
import random
import subprocess
import sys

KINDS = ['register', 'cas-register', 'fifo', 'set', 'mutex', 'unordered-queue']
NAMES = {'register': ['read', 'write'], 'cas-register': ['read', 'write', 'cas'], 'fifo': ['enqueue', 'dequeue'],
         'set': ['read', 'add'], 'mutex': ['acquire', 'release'], 'unordered-queue': ['enqueue', 'dequeue']}
CAUSES = ['RetiredProcess', 'BusyProcess', 'NotOfKind', 'NoInvocation', 'OtherCall', 'OtherKey']
# So many configurations of an object are listed. Wide scripts make no edit that leads to more, and their budgets are far below.
LARGE = 30000
START = {'register': None, 'cas-register': None, 'fifo': (), 'set': frozenset(), 'mutex': False, 'unordered-queue': ()}


def steps(kind, state, name, value):
    """The outcomes of a call, each a next state and a reply. A state of an unordered queue is its members, sorted."""
    if name not in NAMES[kind]:
        return []
    if kind in ('register', 'cas-register'):
        if name == 'read':
            return [(state, ('value', state))]
        if name == 'write':
            return [(value, 'done')]
        return [(value[1], 'done')] if state == value[0] else []
    if kind in ('fifo', 'unordered-queue') and name == 'dequeue' and not state:
        return [(state, ('value', None))]
    if kind == 'fifo':
        return [(state + (value,), 'done')] if name == 'enqueue' else [(state[1:], ('value', state[0]))]
    if kind == 'unordered-queue':
        if name == 'enqueue':
            return [(tuple(sorted(state + (value,))), 'done')]
        return [(state[:i] + state[i + 1:], ('value', v)) for i, v in enumerate(state) if v not in state[:i]]
    if kind == 'set':
        return [(state | {value}, 'done') if name == 'add' else (state, ('members', state))]
    return [(not state, 'done')] if state == (name == 'release') else []


class Event:
    def __init__(self, process, key, kind_of_event, name, value):
        self.process, self.key, self.type, self.name, self.value = process, key, kind_of_event, name, value

    def text(self, keyed):
        value = edn(self.value)
        return '{:process %d, :type :%s, :f :%s, :value %s}' % (
            self.process, self.type, self.name, '[%d %s]' % (self.key, value) if keyed else value)

    def reply(self):
        if self.name == 'dequeue':
            return 'value', self.value
        if self.name == 'read':
            return ('members', frozenset(self.value)) if isinstance(self.value, tuple) else ('value', self.value)
        return 'done'


def edn(value):
    if value is None:
        return 'nil'
    if isinstance(value, tuple):
        return '[' + ' '.join(edn(v) for v in value) + ']'
    return str(value)


def bad_event(events, kinds):
    """The least bad position and its cause, by looking back from each position."""
    for at, event in enumerate(events):
        last = next((e for e in reversed(events[:at]) if e.process == event.process), None)
        status = 'idle' if last is None or last.type in ('ok', 'fail') else 'busy' if last.type == 'invoke' else 'retired'
        invokes = event.type == 'invoke'
        for cause, holds in enumerate([
                status == 'retired',
                invokes and status == 'busy',
                invokes and event.name not in NAMES[kinds(event.key)],
                not invokes and status == 'idle',
                not invokes and status == 'busy' and event.name != last.name,
                not invokes and status == 'busy' and event.key != last.key]):
            if holds:
                return at, cause + 1
    return None


def operations(events):
    """Each operation's position, its end or None, and the type of its end."""
    found = []
    for at, event in enumerate(events):
        if event.type == 'invoke':
            end = next((i for i in range(at + 1, len(events)) if events[i].process == event.process), None)
            found.append((at, end, events[end].type if end is not None else 'open'))
    return found


def configurations(kind, events):
    """Of one object's events: the ends of all legal orders, each a state with the replies of the open operations placed."""
    ops = [o for o in operations(events) if o[2] != 'fail']
    ends = set()

    # every order, depth first; the replies of the open operations are part of what is visited
    seen = set()

    def visit(placed, replies, state):
        if (placed, replies, state) in seen:
            return
        seen.add((placed, replies, state))
        if all(o[0] in placed or o[2] != 'ok' for o in ops):
            ends.add((state, replies))
        for o in ops:
            if o[0] in placed:
                continue
            # what ended ahead of its invocation has to stand before it
            if any(other[2] == 'ok' and other[1] < o[0] and other[0] not in placed for other in ops):
                continue
            # and it must not stand behind what it ended ahead of
            if o[2] == 'ok' and any(p > o[1] for p in placed):
                continue
            for after, reply in steps(kind, state, events[o[0]].name, events[o[0]].value):
                if o[2] != 'ok':
                    visit(placed | {o[0]}, replies | {(events[o[0]].process, reply)}, after)
                elif reply == events[o[1]].reply():
                    visit(placed | {o[0]}, replies, after)

    visit(frozenset(), frozenset(), START[kind])
    return ends


class TooMany(Exception):
    """More configurations than are listed."""


class Beginning:
    """The first events of an object, and their configurations: to each state the ways to place open operations that lead to it.

    A way is a number, with a bit for each process whose operation is placed, and one for this with its reply.
    """

    def __init__(self, kind, bits, ends, calls):
        self.kind, self.bits, self.ends, self.calls, self.longer = kind, bits, ends, calls, {}

    def __len__(self):
        """How many configurations there are."""
        return sum(len(ways) for ways in self.ends.values())

    def bit(self, process, reply=None):
        return self.bits.setdefault((process, reply), 1 << len(self.bits))

    def replies(self, process):
        """With which the open operation of the process is placed."""
        bits = functools.reduce(operator.or_, set().union(*self.ends.values()), 0)
        return [reply for (it, reply), bit in self.bits.items() if it == process and reply and bits & bit]

    def next(self, event):
        """With one more event."""
        name = event.text(False)
        if name not in self.longer:
            self.longer[name] = self.opened(event) if event.type == 'invoke' else self if event.type == 'info' else self.returned(event)
        return self.longer[name]

    def returned(self, event):
        """What placed the operation with its reply stays, or where it failed what didn't place it."""
        process = event.process
        placed = self.bit(process) | self.bit(process, event.reply()) if event.type == 'ok' else 0
        bits = placed | self.bit(process)
        ends = {state: {way - placed for way in ways if way & bits == placed} for state, ways in self.ends.items()}
        calls = {it: call for it, call in self.calls.items() if it != process}
        return Beginning(self.kind, self.bits, {state: ways for state, ways in ends.items() if ways}, calls)

    def opened(self, event):
        """What is new places the operation, and maybe others behind it."""
        call = {event.process: (event.name, event.value)}
        calls, ends, count = {**self.calls, **call}, {state: set(ways) for state, ways in self.ends.items()}, len(self)
        new = self.placing(self.ends, call, ends)
        while new:
            for state, ways in new.items():
                ends.setdefault(state, set()).update(ways)
                count += len(ways)
            if count > LARGE:
                raise TooMany
            new = self.placing(new, calls, ends)
        return Beginning(self.kind, self.bits, ends, calls)

    def placing(self, ends, calls, known):
        """What comes of these by placing one more of the calls, and isn't known."""
        found = {}
        for process, (name, value) in calls.items():
            bit = self.bit(process)
            for state, ways in ends.items():
                free = [way for way in ways if not way & bit]
                for after, reply in steps(self.kind, state, name, value) if free else []:
                    placed = bit | self.bit(process, reply)
                    found.setdefault(after, set()).update([way | placed for way in free])
        return {state: new for state, ways in found.items() for new in [ways - known.get(state, set())] if new}


def is_legal_order(kinds, events, order):
    """Whether pairs of positions and replies are a legal order of the events."""
    ops = {o[0]: o for o in operations(events)}
    places = [at for at, _ in order]
    if len(set(places)) != len(places) or any(at not in ops or ops[at][2] == 'fail' for at in places):
        return False
    if any(o[2] == 'ok' and (o[0] not in places or dict(order)[o[0]] != events[o[1]].reply()) for o in ops.values()):
        return False
    for i, at in enumerate(places):
        if any(ops[later][2] == 'ok' and ops[later][1] < at for later in places[i + 1:]):
            return False
    states = {}
    for at, reply in order:
        event = events[at]
        kind = kinds(event.key)
        # the state before and the reply leave one state at most
        after = [s for s, r in steps(kind, states.get(event.key, START[kind]), event.name, event.value) if r == reply]
        if not after:
            return False
        states[event.key] = after[0]
    return True


class Model:
    def __init__(self, keyed, kind, budget):
        self.keyed, self.default, self.budget = keyed, kind, budget
        self.events, self.named, self.known = [], {}, {}

    def kinds(self, key):
        return self.named.get(key, self.default)

    def part(self, key, count):
        return [(i, e) for i, e in enumerate(self.events[:count]) if e.key == key]

    def ends_of(self, key, count):
        events = [e for _, e in self.part(key, count)]
        name = (self.kinds(key), tuple(e.text(False) for e in events))
        if name not in self.known:
            self.known[name] = configurations(self.kinds(key), events)
        return self.known[name]

    def replies(self, process, key):
        """With which the open operation of the process can be placed."""
        return {reply for _, replies in self.ends_of(key, len(self.events)) for it, reply in replies if it == process}

    def is_linearizable(self, keys, count):
        return all(self.ends_of(key, count) for key in keys)

    def keys(self):
        return sorted({e.key for e in self.events})

    def is_right(self, scope, text, order=None):
        """Whether an answer is one that may be given for the scope: a key, or None for the whole."""
        bad = bad_event(self.events, self.kinds)
        if bad is not None:
            return text == 'ill-formed at %d cause %d %s' % (bad[0], bad[1], CAUSES[bad[1] - 1])
        keys = self.keys() if scope is None else [scope]
        count = len(self.events)
        if text == 'yes':
            if not self.is_linearizable(keys, count):
                return False
            return order is None or self.is_order(scope, order)
        words = text.split()
        if words[:2] == ['no', 'prefix']:
            n = int(words[2])
            return 0 < n <= count and not self.is_linearizable(keys, n) and self.is_linearizable(keys, n - 1)
        if words[:2] == ['undecided', 'at']:
            at = int(words[2])
            if at >= count or (scope is not None and self.events[at].key != scope):
                return False
            over = len(self.ends_of(self.events[at].key, at + 1)) > self.budget
            return over and (scope is not None or self.is_linearizable(keys, at + 1))
        return False

    def is_refuted(self, key, text):
        """Whether a reply to `refute` may be given."""
        counts = range(len(self.events) + 1)
        if text == 'refused refute 2 TooLarge':
            return (bad_event(self.events, self.kinds) is None and not self.is_linearizable([key], len(self.events))
                    and any(len(self.ends_of(key, n)) > self.budget for n in counts))
        if text.startswith('refuted prefix '):
            return self.is_right(key, 'no' + text[len('refuted'):])
        return not text.startswith('no') and self.is_right(key, text)

    def is_order(self, scope, text):
        pairs = []
        for word in [] if text == 'empty' else text.split(' '):
            at, reply = word.split('=')
            if reply.startswith('{'):
                said = ('members', frozenset(int(m) for m in reply[1:-1].split(',') if m))
            else:
                said = 'done' if reply == 'done' else ('value', None if reply == 'nil' else int(reply))
            pairs.append((int(at), said))
        if scope is None:
            return is_legal_order(self.kinds, self.events, pairs)
        part = self.part(scope, len(self.events))
        places = {i: n for n, (i, _) in enumerate(part)}
        if any(at not in places for at, _ in pairs):
            return False
        return is_legal_order(self.kinds, [e for _, e in part], [(places[at], reply) for at, reply in pairs])


class WideModel(Model):
    def ends_of(self, key, count):
        kind = self.kinds(key)
        beginning = self.known.setdefault(kind, Beginning(kind, {}, {START[kind]: {0}}, {}))
        for _, event in self.part(key, count):
            beginning = beginning.next(event)
        return beginning

    def replies(self, process, key):
        return self.ends_of(key, len(self.events)).replies(process)


class Script:
    """Random commands with what the model says of each reply."""

    def __init__(self, draw):
        # few clients leave few operations open, so longer histories can be enumerated
        self.draw, (self.clients, self.longest) = draw, draw.choice([(1, 16), (2, 14), (4, 10)])
        self.budgets, self.others = [0, 1, 2, 3, 5, 8, 13, 50, 65536, 1000001], KINDS
        self.start(Model(draw.random() < 0.5, draw.choice(KINDS), draw.choice([1, 2, 3, 5, 8, 20, 65536])))

    def start(self, model):
        self.model, self.lines, self.checks = model, [], []
        self.words = ['edit', '--kind', model.default, '--budget', str(model.budget)] + (['--keyed'] if model.keyed else [])

    def process(self):
        return self.draw.randrange(self.clients)

    def place(self, places):
        return self.draw.randrange(places)

    def value(self, kind, name, type_):
        draw = self.draw
        if name == 'cas':
            return (draw.choice([None, 1, 2]), draw.choice([1, 2]))
        if name in ('enqueue', 'add'):
            return draw.choice([1, 2])
        if name == 'write':
            return draw.choice([1, 2, None])
        if type_ == 'ok' and name == 'dequeue':
            return draw.choice([1, 2, None])
        if type_ == 'ok' and name == 'read':
            return draw.choice([(), (1,), (2,), (1, 2)]) if kind == 'set' else draw.choice([1, 2, None])
        return None

    def event(self):
        """Mostly an event that leaves the history well-formed, at times any."""
        draw, model = self.draw, self.model
        process = self.process()
        last = next((e for e in reversed(model.events) if e.process == process), None)
        if last is not None and last.type == 'info' and draw.random() < 0.9:
            process += self.clients
            last = next((e for e in reversed(model.events) if e.process == process), None)
        if last is not None and last.type == 'invoke' and draw.random() < 0.95:
            type_, name, key = draw.choice(['ok'] * 8 + ['fail', 'info']), last.name, last.key
        else:
            key = draw.randrange(2) if model.keyed else 0
            type_ = 'invoke' if draw.random() < 0.97 else 'ok'
            name = draw.choice(NAMES[model.kinds(key) if draw.random() < 0.97 else draw.choice(KINDS)])
        value = self.value(model.kinds(key), name, type_)
        if type_ == 'ok' and name == 'dequeue' and draw.random() < 0.7:
            # a reply that some order gives, so that queues go on, and get members
            given = {reply[1] for reply in model.replies(process, key) if reply != 'done'}
            value = draw.choice(sorted(given, key=repr) or [value])
        return Event(process, key, type_, name, value)

    def put(self, line, check):
        self.lines.append(line)
        self.checks.append((line, check))

    def edit(self, line, refusal=None):
        text = refusal or 'ok %d' % len(self.model.events)
        self.put(line, lambda reply, text=text: reply == text)

    def command(self):
        draw, model = self.draw, self.model
        events, count = model.events, len(model.events)
        bad = bad_event(events, model.kinds)
        what = draw.random()
        if bad is not None and draw.random() < 0.5:
            # so that most histories are well-formed
            del events[bad[0]]
            self.edit('remove %d' % bad[0])
        elif what < 0.55 and count < self.longest:
            event = self.event()
            events.append(event)
            self.edit('append ' + event.text(model.keyed))
        elif what < 0.62:
            at = self.place(count + 2)
            event = self.event()
            if at < count and draw.random() < 0.8:
                # the same event with another value, as a recording is corrected
                was = events[at]
                event = Event(was.process, was.key, was.type, was.name, self.value(model.kinds(was.key), was.name, was.type))
            if at < count:
                events[at] = event
            self.edit('replace %d %s' % (at, event.text(model.keyed)), None if at < count else 'refused edit 1 BadPosition')
        elif what < 0.68:
            at = self.place(count + 2)
            if at < count:
                del events[at]
            self.edit('remove %d' % at, None if at < count else 'refused edit 1 BadPosition')
        elif what < 0.72:
            keep = self.place(count + 2)
            if keep <= count:
                del events[keep:]
            self.edit('truncate %d' % keep, None if keep <= count else 'refused edit 1 BadPosition')
        elif what < 0.76:
            key, kind = draw.randrange(2) if model.keyed else 0, model.default if draw.random() < 0.7 else draw.choice(self.others)
            model.named[key] = kind
            self.edit('kind %d %s' % (key, kind))
        elif what < 0.80:
            budget = draw.choice(self.budgets)
            if 1 <= budget <= 1000000:
                model.budget = budget
            self.edit('budget %d' % budget, None if 1 <= budget <= 1000000 else 'refused edit 3 BadBudget')
        else:
            self.question()

    def question(self):
        """Judged at once, on a copy of what the model holds now."""
        draw, model = self.draw, self.model
        now = type(model)(model.keyed, model.default, model.budget)
        now.events, now.named, now.known = list(model.events), dict(model.named), model.known
        scope = None if draw.random() < 0.6 else draw.randrange(3)
        name = '' if scope is None else ' %d' % scope
        what = draw.random()
        if what < 0.4:
            self.put('ask' + name, lambda reply: now.is_right(scope, reply))
        elif what < 0.6:
            key = draw.choice(now.keys() or [0]) if draw.random() < 0.9 else draw.randrange(3)
            self.put('refute %d' % key, lambda reply: now.is_refuted(key, reply))
        elif what < 0.85:
            self.put('order' + name, lambda reply: now.is_right(scope, 'yes', reply[4:]) if reply.startswith('yes ') else reply != 'yes' and now.is_right(scope, reply))
        else:
            keys = now.keys()
            self.put('report', lambda reply: reply == 'events %d objects %d' % (len(now.events), len(keys)))
            if bad_event(now.events, now.kinds) is None:
                for key in keys:
                    head = 'object %d %s: ' % (key, now.kinds(key))
                    self.checks.append(('report', lambda reply, head=head, key=key: reply.startswith(head) and now.is_right(key, reply[len(head):])))
            self.checks.append(('report', lambda reply: reply.startswith('whole: ') and now.is_right(None, reply[len('whole: '):])))


class WideScript(Script):
    """Commands of a few clients, with updates between them that mostly stay open, so that there are many configurations."""

    def __init__(self, draw, kind):
        self.draw, self.clients, self.longest = draw, draw.choice([1, 2, 3]), 80
        self.budgets = [0, 1024, 1024, 1100, 2000, 1000001]
        # kinds that take the same updates
        self.others = [other for other in KINDS if set(NAMES[kind]) & set(NAMES[other]) - {'read'}]
        self.start(WideModel(draw.random() < 0.25, kind, draw.choice(self.budgets[1:-1])))
        self.updates, self.last, self.few, self.faithful = 0, 0, draw.choice([2, 3, None]), draw.choice([0.6, 0.8, 1])

    def command(self):
        """Undone where it leads to more configurations than are listed."""
        model = self.model
        before, lines, checks = (list(model.events), dict(model.named), model.budget), len(self.lines), len(self.checks)
        try:
            if self.draw.random() < 0.06:
                self.widen()
            super().command()
            if bad_event(model.events, model.kinds) is None:
                # each prefix of each object, so that all that is asked about is known
                for key in model.keys():
                    model.ends_of(key, len(model.events))
            for _ in range(self.draw.choice([0, 0, 0, 1, 2])):
                self.question()
        except TooMany:
            model.events, model.named, model.budget = before
            del self.lines[lines:], self.checks[checks:]

    def widen(self):
        """More open updates, until there are more configurations than drawn."""
        draw, model = self.draw, self.model
        most, crashing = draw.choice([200, 600, 1024, 1024]), draw.choice([0, 0.5, 1])
        kind = model.kinds(0)
        while bad_event(model.events, model.kinds) is None and 0 < len(model.ends_of(0, len(model.events))) <= most:
            name = draw.choice([name for name in NAMES[kind] if name not in ('read', 'dequeue')])
            for type_ in ['invoke', 'info'] if draw.random() < crashing else ['invoke']:
                model.events.append(Event(100 + self.updates, 0, type_, name, self.value(kind, name, type_)))
                self.edit('append ' + model.events[-1].text(model.keyed))
            self.updates += 1

    def process(self):
        """At times that of an update between."""
        draw = self.draw
        return 100 + draw.randrange(self.updates) if self.updates and draw.random() < 0.1 else super().process()

    def place(self, places):
        """Mostly among the last."""
        return max(places - 1 - int(self.draw.expovariate(1 / self.draw.choice([3, 3, 3, 20]))), 0)

    def value(self, kind, name, type_):
        """Of an update one of a few values, or one that no other has."""
        draw = self.draw
        if name in ('read', 'dequeue', 'acquire', 'release'):
            return super().value(kind, name, type_)
        self.last += 1
        value = draw.randint(1, self.few) if self.few else self.last
        return (max(value - draw.choice([0, 1, 2]), 0) or None, value) if name == 'cas' else value

    def event(self):
        """As above, but what returns mostly does so as in some order."""
        event = super().event()
        if event.type == 'ok' and self.draw.random() < self.faithful:
            replies = self.model.replies(event.process, event.key)
            values = [tuple(sorted(reply[1])) if reply[0] == 'members' else reply[1] for reply in replies if reply != 'done']
            if values:
                event.value = self.draw.choice(sorted(values, key=repr))
            elif not replies:
                event.type = 'fail'
        return event


def main():
    given = sys.argv[1:]
    scripts, seed = int(given[0]) if given else 600, int(given[1]) if given[1:] else 1
    here = os.path.dirname(os.path.abspath(__file__))
    program = given[2] if given[2:] else os.environ.get('LINCHECK') or os.path.join(here, '../crates/lincheck/out/lincheck')
    right = wrong = 0
    for number in range(scripts + scripts // 15):
        draw = random.Random(seed * 1000003 + number)
        script = Script(draw) if number < scripts else WideScript(draw, KINDS[number % len(KINDS)])
        for _ in range(30 if number < scripts else 60):
            script.command()
        said = subprocess.run([program] + script.words, input='\n'.join(script.lines) + '\n', capture_output=True, text=True).stdout.splitlines()
        if len(said) != len(script.checks):
            wrong += 1
            print('script %d: %d replies, not %d\n%s\n%s' % (number, len(said), len(script.checks), ' '.join(script.words), '\n'.join(script.lines)))
            continue
        for (line, check), reply in zip(script.checks, said):
            if check(reply):
                right += 1
            else:
                wrong += 1
                print('script %d, %s: %s -> %s\n%s' % (number, ' '.join(script.words), line, reply, '\n'.join(script.lines)))
                break
    print('%d passed, %d failed' % (right, wrong))
    return 1 if wrong or not right else 0


if __name__ == '__main__':
    sys.exit(main())
