"""Operations in words, and the forms of certificates, as a plain text: when each holds of the operations of one object."""
import collections
import dataclasses
import itertools

from edits import START, Event, operations, steps

NOUNS = {'register': 'register', 'cas-register': 'register', 'fifo': 'queue', 'set': 'set', 'mutex': 'lock', 'unordered-queue': 'queue'}
MOST_LISTED, MOST_ITEMS = 3, 8
FAIL_HINT = 'a call that may have taken effect, as one that timed out, is recorded as :info, not :fail'


# the words

def value_words(value):
    return 'nil' if value is None else str(value)


def items_words(items, most=MOST_ITEMS):
    """So many items are told, and how many there are; without a number all are, as machines are told them."""
    some = ','.join(map(str, items[:most]))
    return some if most is None or len(items) <= most else '%s,... %d in all' % (some, len(items))


def members_words(members, most=MOST_ITEMS):
    return '{%s}' % items_words(sorted(members), most)


def state_words(kind, state, most=MOST_ITEMS):
    if kind in ('register', 'cas-register'):
        return value_words(state)
    if kind == 'fifo':
        return '[%s]' % items_words(state, most)
    if kind == 'mutex':
        return 'held' if state else 'free'
    return members_words(state, most)


def reply_words(reply, most=MOST_ITEMS):
    return members_words(reply[1], most) if reply[0] == 'members' else value_words(reply[1])


def reply_behind(reply, with_members=True, most=MOST_ITEMS):
    if reply is None or reply == 'done' or (reply[0] == 'members' and not with_members):
        return ''
    return ' ' + reply_words(reply, most)


def call_words(event):
    if event.name == 'cas':
        return 'cas %s %s' % tuple(map(value_words, event.value))
    return event.name + (' ' + value_words(event.value) if event.name in ('write', 'enqueue', 'add') else '')


def event_words(event, most=MOST_ITEMS):
    said = call_words(event) if event.type == 'invoke' else event.name + (reply_behind(event.reply(), most=most) if event.type == 'ok' else '')
    return 'p%d %s %s' % (event.process, event.type, said)


def rank(value):
    """Nil, then numbers; lists by their first difference, a beginning first; free before held."""
    if isinstance(value, (tuple, frozenset)):
        return tuple(value if isinstance(value, tuple) else sorted(value))
    return (value is not None, value or 0)


def times(count):
    return '%d time%s' % (count, '' if count == 1 else 's')


# the operations of one object, in a prefix of the history

@dataclasses.dataclass(frozen=True)
class Operation:
    at: int
    end: int
    how: str  # ok, failed, crashed or open
    call: Event
    reply: object

    def words(self, with_members=True):
        return 'p%d %s%s' % (self.call.process, call_words(self.call), reply_behind(self.reply, with_members))

    def is_before(self, other):
        return self.how == 'ok' and self.end < other.at

    def counts(self):
        return self.how != 'failed'

    def does(self, name, *values):
        return self.call.name == name and (not values or self.call.value == values[0])

    def needs(self):
        """The values, one at most, that the register has to hold for what an ok operation did."""
        if self.how == 'ok' and self.call.name == 'cas':
            return (self.call.value[0],)
        return (self.reply[1],) if self.how == 'ok' and self.call.name == 'read' and self.reply[0] == 'value' else ()

    def leaves(self):
        return (self.call.value,) if self.call.name == 'write' else (self.call.value[1],) if self.call.name == 'cas' else ()

    def took(self, value):
        return self.how == 'ok' and self.call.name == 'dequeue' and self.reply == ('value', value)

    def read(self):
        """The members that an ok read of a set found."""
        return self.reply[1] if self.how == 'ok' and self.reply != 'done' and self.reply[0] == 'members' else None

    def has(self, value):
        return self.read() is not None and value in self.read() or self.how == 'ok' and self.does('add', value)

    def lacks(self, value):
        return self.read() is not None and value not in self.read()


def operations_of(events, count, key):
    hows = {'ok': 'ok', 'fail': 'failed', 'info': 'crashed', 'open': 'open'}
    return [Operation(at, end, hows[how], events[at], events[end].reply() if how == 'ok' else None)
            for at, end, how in operations(events[:count]) if events[at].key == key]


def tails(kind, events, until=None):
    """Of one object's events: what their legal orders end in, each with the words that tell the last operations; with `until`, the position
    of an operation, the replies with which they place it, each with the words that tell the operations directly ahead of it."""
    ops = [o for o in operations(events) if o[2] != 'fail']
    found, seen = collections.defaultdict(set), set()

    def said(tail):
        return '..., ' * (len(tail) > MOST_LISTED) + (', '.join(tail[-MOST_LISTED:]) or 'nothing')

    def visit(placed, state, tail, met):
        if (placed, state, tail, met) in seen:
            return
        seen.add((placed, state, tail, met))
        if all(o[0] in placed or o[2] != 'ok' for o in ops):
            if until is None:
                found[state].add(said(tail))
            elif met:
                found[met[0]].add(met[1])
        for at, end, how in ops:
            if at in placed or any(o[2] == 'ok' and o[1] < at and o[0] not in placed for o in ops) or how == 'ok' and any(p > end for p in placed):
                continue
            for after, reply in steps(kind, state, events[at].name, events[at].value):
                if how != 'ok' or reply == events[end].reply():
                    words = Operation(at, end, how, events[at], reply).words()
                    now = (reply, said(tail)) if at == until else met
                    visit(placed | {at}, after, () if now else (tail + (words,))[-MOST_LISTED - 1:], now)

    visit(frozenset(), START[kind], (), None)
    return found


# the forms of certificates: when each holds of the operations of one object

def others_that_leave(ops, op, value):
    return [u for u in ops if u is not op and u.counts() and value in u.leaves()]


def is_unwritten(ops, op, value):
    return value is not None and value in op.needs() and not others_that_leave(ops, op, value)


def is_overwriting(source, over, op):
    return over.how == 'ok' and bool(over.leaves()) and (source is None or source.is_before(over)) and over.is_before(op)


def is_overwritten(ops, op, value):
    sources = others_that_leave(ops, op, value)
    return (value in op.needs() and all(any(is_overwriting(u, w, op) for w in ops) for u in sources)
            and (bool(sources) if value is not None else any(is_overwriting(None, w, op) for w in ops)))


def is_stale(ops, op, value, over, held):
    """Whether it needs the value, and behind all others that leave that one touched another value before it."""
    return (value in op.needs() and over.is_before(op) and held != value and held in over.needs() + over.leaves()
            and all(u.is_before(over) for u in others_that_leave(ops, op, value)))


def touches(ops, op, value):
    def is_ok_and_touches(o):
        return value in o.needs() or o.how == 'ok' and value in o.leaves()

    return is_ok_and_touches(op) or op.counts() and value in op.leaves() and any(map(is_ok_and_touches, ops))


def left_once(ops, value):
    return sum(op.counts() and value in op.leaves() for op in ops) == 1


def is_held_first(ops, first, first_value, second, second_value):
    """The one touches its value and is before the other, which touches its own."""
    return touches(ops, first, first_value) and touches(ops, second, second_value) and first.is_before(second)


def is_crossed(ops, v, w, b, a, c=None, e=None):
    if v == w or w is None or not left_once(ops, w) or not is_held_first(ops, b, w, a, v):
        return False
    if v is None:
        return not any(op.counts() and None in op.leaves() for op in ops)
    return left_once(ops, v) and c is not None and is_held_first(ops, c, v, e, w)


def spenders(ops, value):
    """The ok compare-and-sets that took the register from the value to another one."""
    return [op for op in ops if op.how == 'ok' and op.call.name == 'cas' and op.call.value[0] == value != op.call.value[1]]


def those_that_leave(ops, value):
    return [op for op in ops if op.counts() and value in op.leaves()]


def is_spent(ops, value):
    return len(spenders(ops, value)) > len(those_that_leave(ops, value)) + (value is None)


def puts(ops, name, *values):
    return [op for op in ops if op.counts() and op.does(name, *values)]


def taken_by(ops, value):
    return [op for op in ops if op.took(value)]


def is_taken(ops, value):
    return value is not None and len(taken_by(ops, value)) > len(puts(ops, 'enqueue', value))


def stays(ops, value, until):
    known = len(puts(ops, 'enqueue', value)) == 1 and bool(taken_by(ops, value))
    return all(until.is_before(d) for d in ops if d is not until and (d.took(value) or not known and d.does('dequeue') and d.how in ('open', 'crashed')))


def is_passed(ops, i, j, d, value, by):
    later = puts(ops, 'enqueue', by)
    return (value != by and i.how == 'ok' and i.does('enqueue', value) and j in later and all(i.is_before(op) for op in later)
            and by is not None and d.took(by) and stays(ops, value, d))


def is_inside(ops, i, d, value):
    return i.does('enqueue', value) and i.is_before(d) and d.took(None) and stays(ops, value, d)


def put_before(ops, place):
    """The ok enqueues that are before the operation, the last called first."""
    return [op for op in ops[::-1] if op.does('enqueue') and op.is_before(place)]


def may_take_ahead(ops, d):
    """The other dequeues that may have taken something out ahead of this one, the last called first."""
    return [op for op in ops[::-1] if op is not d and op.does('dequeue') and op.counts() and not op.took(None) and not d.is_before(op)]


def is_remaining(ops, d):
    return d.took(None) and len(put_before(ops, d)) > len(may_take_ahead(ops, d))


def is_surplus(ops, d, values):
    """Whether it found nothing, though more of the values were put in before it than other dequeues may have taken one of them out ahead of it."""
    put = [op for op in put_before(ops, d) if op.call.value in values]
    may = [op for op in may_take_ahead(ops, d) if op.how != 'ok' or op.reply[1] in values]
    return d.took(None) and len(put) > len(may)


def taken_before(ops, d, value):
    return [op for op in ops if op.took(value) and op.is_before(d)]


def put_behind(ops, d, value):
    """The first enqueue of the value that the dequeue can have taken: as many come before it as dequeues took the value before."""
    return puts(ops, 'enqueue', value)[len(taken_before(ops, d, value)):][:1]


def is_preceded(ops, j, d, value):
    early = [op for op in puts(ops, 'enqueue', value) if op.at < j.at]
    return (value is not None and d.took(value) and j in puts(ops, 'enqueue', value) and len(early) <= len(taken_before(ops, d, value))
            and len(put_before(ops, j)) > len(may_take_ahead(ops, d)))


def is_unadded(ops, read, value):
    return read.read() is not None and value in read.read() and not puts(ops, 'add', value)


def is_lost(k, read, value):
    return k.has(value) and k.is_before(read) and read.lacks(value)


def is_split(r, s, p, q):
    return r.read() is not None and s.read() is not None and r.has(p) and r.lacks(q) and s.has(q) and s.lacks(p)


def is_late(ops, k, a, read, p, q):
    later = puts(ops, 'add', q)
    return k.has(p) and a in later and all(k.is_before(op) for op in later) and read.lacks(p) and read.has(q) and read.read() is not None


OTHER = {'acquire': 'release', 'release': 'acquire'}


def is_twice(ops, name, i, j):
    return i.how == j.how == 'ok' and i.does(name) and j.does(name) and i.is_before(j) and all(op.is_before(i) for op in puts(ops, OTHER[name]))


def is_counted(ops, name):
    return sum(op.how == 'ok' and op.does(name) for op in ops) > len(puts(ops, OTHER[name])) + (name == 'acquire')


def made_within(ops, name, start, stop):
    """Those of the name that surely took effect between the events: called at the first or behind it, and back before the second."""
    return [op for op in ops if op.how == 'ok' and op.does(name) and start <= op.at and op.end < stop]


def may_be_within(ops, name, start, stop):
    return [op for op in puts(ops, name) if op.at < stop and not (op.how == 'ok' and op.end < start)]


def failed_within(ops, name, start, stop):
    return [op for op in ops if op.how == 'failed' and op.does(name) and op.at < stop and start <= op.end]


def is_within(ops, name, start, stop):
    """A lock is held and free in turn, and free in the beginning."""
    spare = 0 if name == 'release' and start == ops[0].at else 1
    return len(made_within(ops, name, start, stop)) > len(may_be_within(ops, OTHER[name], start, stop)) + spare


def is_misshapen(kind, op):
    """Whether it is a read of a set that gave a value, or one of a register that gave members."""
    return op.read() is not None if kind in ('register', 'cas-register') else kind == 'set' and op.how == 'ok' and op.does('read') and op.read() is None


# which certificate is told

class Lines:
    """The lines that tell a certificate, and the operations that they name."""

    def __init__(self, ops, spot):
        self.ops, self.spot, self.lines, self.named = ops, spot, [], set()

    def put(self, line, *values):
        self.lines.append(line % values)

    def did(self, op, verb, at):
        self.named.add(op)
        return '%s %s at %s' % (op.words(False), verb, self.spot(at))

    def returned(self, op, found=''):
        return self.did(op, found + 'returned', op.end)

    def called(self, op):
        return self.did(op, 'was called', op.at)

    def failed(self, op):
        return self.did(op, 'failed', op.end)

    def was_in(self, value, first, second):
        self.put('  in: %s, %s', self.returned(first, 'with %d ' % value if first.does('read') else ''), self.called(second))

    def some(self, say, ops):
        """A line of the first three of these operations, if there are any."""
        if ops:
            self.put('  %s%s', ', '.join(map(say, ops[:3])), ', and %d more' % (len(ops) - 3) if len(ops) > 3 else '')

    def nothing_does(self, why, op, failed, none):
        self.put('why: nothing %s', why)
        self.put('  %s', self.returned(op))
        for other in failed[:3]:
            self.put('  %s', self.failed(other))
        self.behind_failed(failed, none)

    def behind_failed(self, failed, none):
        """What a fail claims, or the other line, if there is one, where nothing failed."""
        if failed or none:
            self.put('  %s', FAIL_HINT if failed else none)

    def sides(self, why, did, can, failed):
        """What was done more often than it can have been."""
        self.put(why, times(len(did)), times(len(can)))
        self.some(self.returned, did)
        self.some(self.called, can)
        self.some(self.failed, failed)

    def failed_to(self, name, *values):
        return [op for op in self.ops if op.how == 'failed' and op.does(name, *values)]

    def shape(self, r):
        self.put('why: a read of a %s', 'register gives one value, not members' if r.read() is not None else 'set gives members, not ' + value_words(r.reply[1]))
        self.put('  %s', self.returned(r))

    def unwritten(self, r, v):
        self.nothing_does('leaves %d' % v, r, [op for op in self.ops if op.how == 'failed' and v in op.leaves()], 'no other operation leaves it')

    def overwritten(self, r, v):
        def over(source):
            """The operation that returned last."""
            return max((w for w in self.ops if is_overwriting(source, w, r)), key=lambda w: w.end)

        sources, most = others_that_leave(self.ops, r, v), 3 if v is not None else 2
        self.put('why: %s was overwritten before %s', value_words(v), self.called(r))
        if v is None:
            self.put('  %s', self.returned(over(None)))
        for u in sources[:most]:
            w = over(u)
            self.put('  %s, %s and returned at %s', self.returned(u), self.called(w), self.spot(w.end))
        if len(sources) > most:
            self.put('  and so were %d more updates that leave %s', len(sources) - most, value_words(v))

    def crossed(self, a, b, c, e, v, w):
        if v is None:
            self.put('why: crossed values nil and %d, nil is the beginning and nothing leaves it', w)
        else:
            self.put('why: crossed values %d and %d, each left by one operation', v, w)
            self.put('  %d before %d: %s, %s', v, w, self.returned(c), self.called(e))
        self.put('  %d before %s: %s, %s', w, value_words(v), self.returned(b), self.called(a))

    def spent(self, v):
        failed = [op for op in self.ops if op.how == 'failed' and v in op.leaves()]
        why = 'why: a cas from %s to another value was ok %%s, and %s was left at most %%s' % (value_words(v), value_words(v))
        self.sides(why + ', beside the beginning' * (v is None), spenders(self.ops, v), those_that_leave(self.ops, v), failed)

    def taken(self, v):
        added, failed = puts(self.ops, 'enqueue', v), self.failed_to('enqueue', v)
        self.sides('why: %d was taken out %%s and put in at most %%s' % v, taken_by(self.ops, v), added, failed)
        self.behind_failed(failed, None)

    def passed(self, d, i, v, w):
        took = taken_by(self.ops, v)
        self.put('why: %d passed %d', w, v)
        self.put('  put in: %s, %s', self.returned(i), self.called(puts(self.ops, 'enqueue', w)[0]))
        self.put('  taken out: %s, %s', self.returned(d), self.called(took[0]) if took else 'and nothing that may have taken %d out was called before' % v)

    def inside(self, d, i, v):
        self.put('why: %d was in the queue', v)
        self.put('  put in: %s, %s', self.returned(i), self.called(d))
        self.put('  taken out: nothing that may have taken %d out was called before %s', v, self.returned(d))

    def surplus(self, place, d, what):
        put, may = put_before(self.ops, place), may_take_ahead(self.ops, d)
        self.put('why: %s put in before %s, and at most %d can have been taken out before %s', '1 item was' if len(put) == 1 else '%d items were' % len(put),
                 self.called(place), len(may), what)
        return put, may

    def preceded(self, d, j, v):
        put, may = self.surplus(j, d, '%d was: %s' % (v, self.returned(d)))
        early = [op for op in puts(self.ops, 'enqueue', v) if op.at < j.at]
        if early:
            self.put('  %d was put in at most %s before that, and taken out %s before %s', v, times(len(early)), times(len(taken_before(self.ops, d, v))), self.called(d))
        self.some(self.returned, put)
        self.some(self.called, may)

    def remaining(self, d):
        put, may = self.surplus(d, d, 'it returned')
        self.some(self.returned, put)
        self.some(self.called, may)

    def unadded(self, r, v):
        self.nothing_does('adds %d' % v, r, self.failed_to('add', v), 'no operation adds it')

    def lost(self, r, k, v):
        self.put('why: %d was lost', v)
        self.was_in(v, k, r)
        self.put('  %s without %d', self.returned(r), v)

    def split(self, r, s, p, q):
        self.put('why: two reads exclude each other')
        self.put('  %s with %d and without %d', self.returned(r), p, q)
        self.put('  %s with %d and without %d', self.returned(s), q, p)

    def late(self, r, k, p, q):
        self.put('why: %d was in before %d was added', p, q)
        self.was_in(p, k, puts(self.ops, 'add', q)[0])
        self.put('  %s with %d and without %d', self.returned(r), q, p)

    def twice(self, j, i):
        name = i.call.name
        self.put('why: %sd twice', name)
        self.put('  %s, %s', self.returned(i), self.called(j))
        self.put('  no %s can stand between: each that didn\'t fail had returned before %s', OTHER[name], self.called(i))

    def counted(self, name):
        did = [op for op in self.ops if op.how == 'ok' and op.does(name)]
        self.sides('why: %sd %%s and %sd at most %%s' % (name, OTHER[name]), did, puts(self.ops, OTHER[name]), self.failed_to(OTHER[name]))

    def within(self, name, start, stop):
        some = [those(self.ops, of, start, stop)[::-1]
                for those, of in ((made_within, name), (may_be_within, OTHER[name]), (failed_within, OTHER[name]))]
        self.sides('why: %sd %%s from %s to %s, and %sd at most %%s' % (name, self.spot(start), self.spot(stop - 1), OTHER[name]), *some)


def held_of_register(ops, failing):
    backwards = ops[::-1]
    needed = [(r, v) for r in backwards for v in r.needs()]
    yield from (('unwritten', (r, v)) for r, v in needed if is_unwritten(ops, r, v))
    yield from (('overwritten', (r, v)) for r, v in needed if is_overwritten(ops, r, v))
    values = {v for op in ops for v in op.needs() + op.leaves()}
    pairs, crossed = list(itertools.permutations(ops, 2)), []
    for v, w in itertools.product(values, values):
        turns = [(b, a) for b, a in pairs if w is not None and is_held_first(ops, b, w, a, v)]
        backs = [(None, None)] if v is None else [(c, e) for c, e in pairs if is_held_first(ops, c, v, e, w)]
        crossed += [(a, b, c, e, v, w) for b, a in turns for c, e in backs if is_crossed(ops, v, w, b, a, c, e)]

    def wanted(certificate):
        a, b, c, e, v, w = certificate
        return a is not failing, -a.at, -b.end, c.end if c else -1, e.at if e else -1, rank(v), w

    yield from (('crossed', certificate) for certificate in sorted(crossed, key=wanted))
    yield from (('spent', (v,)) for v in sorted(values, key=rank) if is_spent(ops, v))


def held_of_queue(kind, ops):
    backwards = ops[::-1]
    values = sorted({op.call.value for op in ops if op.does('enqueue')} | {v for op in ops if op.does('dequeue') and op.how == 'ok' for v in op.reply[1:] if v is not None})
    yield from (('taken', (v,)) for v in values if is_taken(ops, v))
    for d, i, w in itertools.product(backwards, backwards, values if kind == 'fifo' else ()):
        first = puts(ops, 'enqueue', w)[:1]
        yield from (('passed', (d, i, i.call.value, w)) for j in first if is_passed(ops, i, j, d, i.call.value, w))
    yield from (('inside', (d, i, i.call.value)) for d in backwards for i in backwards if is_inside(ops, i, d, i.call.value))
    took = [(d, v) for d in backwards for v in values if kind == 'fifo' and d.took(v)]
    yield from (('preceded', (d, j, v)) for d, v in took for j in put_behind(ops, d, v) if is_preceded(ops, j, d, v))
    yield from (('remaining', (d,)) for d in backwards if is_remaining(ops, d))


def held_of_set(ops):
    backwards, reads = ops[::-1], [op for op in ops[::-1] if op.read() is not None]
    values = sorted({op.call.value for op in ops if op.does('add')} | {v for r in reads for v in r.read()})
    yield from (('unadded', (r, v)) for r in reads for v in values if is_unadded(ops, r, v))
    yield from (('lost', (r, k, v)) for r in reads for k in backwards for v in values if is_lost(k, r, v))
    numbers = list(itertools.product(values, values))
    yield from (('split', (r, s, p, q)) for r in reads for s in reads for p, q in numbers if is_split(r, s, p, q))
    for r, k, (p, q) in itertools.product(reads, backwards, numbers):
        yield from (('late', (r, k, p, q)) for a in puts(ops, 'add', q)[:1] if is_late(ops, k, a, r, p, q))


def held_of_mutex(ops):
    backwards = ops[::-1]
    yield from (('twice', (j, i)) for j in backwards for i in backwards if is_twice(ops, j.call.name, i, j))
    yield from (('counted', (name,)) for name in OTHER if is_counted(ops, name))
    # stretches that begin and end with what was made too often: the last one to end, and of these the shortest
    for name in OTHER:
        made = [op for op in ops if op.how == 'ok' and op.does(name)]
        stops, starts = sorted((op.end + 1 for op in made), reverse=True), sorted({op.at for op in made + ops[:1]}, reverse=True)
        yield from (('within', (name, start, stop)) for stop in stops for start in starts if is_within(ops, name, start, stop))


def certificates(kind, ops, failing=None):
    """All certificates that hold, by their forms and what they are of, in the order in which they are wanted: the forms in theirs; operations
    mostly the last called first, and numbers rising. What the lines name besides, which is all or the first of some operations, is no choice."""
    yield from (('shape', (op,)) for op in ops[::-1] if is_misshapen(kind, op))
    if kind in ('register', 'cas-register'):
        yield from held_of_register(ops, failing)
    elif kind == 'set':
        yield from held_of_set(ops)
    elif kind == 'mutex':
        yield from held_of_mutex(ops)
    else:
        yield from held_of_queue(kind, ops)


def wanted(kind, ops, failing, spot):
    """The form and the lines of the certificate that is told: of all that hold the first whose lines name the failing operation, else the first."""
    first = None
    for form, of in certificates(kind, ops, failing):
        told = Lines(ops, spot)
        getattr(told, form)(*of)
        if failing in told.named:
            return form, told.lines
        first = first or (form, told.lines)
    return first or (None, [])


def wanted_form(kind, ops, failing):
    return wanted(kind, ops, failing, str)[0]
