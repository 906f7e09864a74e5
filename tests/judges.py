"""Judges an explanation claim by claim, by a plain enumeration of all orders, and says what its form for machines has to be."""
import collections
import json
import re

from certificates import (
    FAIL_HINT, MOST_ITEMS, MOST_LISTED, NOUNS, OTHER, certificates, event_words, failed_within, is_counted, is_crossed, is_inside, is_late, is_lost, is_overwriting,
    is_overwritten, is_passed, is_preceded, is_remaining, is_spent, is_split, is_stale, is_surplus, is_taken, is_twice, is_unadded, is_unwritten, is_within, items_words,
    made_within, may_be_within, may_take_ahead, operations_of, others_that_leave, put_before, puts, rank, reply_words, spenders, state_words, tails,
    taken_before, taken_by, those_that_leave, times, value_words, wanted_form)
from edits import NAMES

NUMBER, INTEGER = r'(?:0|[1-9]\d*)', r'(?:0|-?[1-9]\d*)'
STATUS = {'yes': 0, 'no': 1, 'undecided': 2, 'ill-formed': 3, 'refused': 4}
CALLS = ['register', 'cas-register', 'fifo', 'set', 'mutex', 'unordered-queue']  # the kinds, as texts list them
MOST_IN_TABLE, MOST_BUDGET = 8, 1000000
NO_REASON = 'why: no short reason was found'


class Wrong(Exception):
    """What a text says and isn't so."""


# the text

class Told:
    """The lines that are still to be read."""

    def __init__(self, lines):
        self.lines, self.next = lines, 0

    def peek(self):
        return self.lines[self.next] if self.next < len(self.lines) else None

    def take(self):
        line = self.peek()
        if line is None:
            raise Wrong('the text ends early')
        self.next += 1
        return line

    def want(self, *lines):
        for wanted in lines:
            line = self.take()
            if line != wanted:
                raise Wrong('says  %s\n  and not  %s' % (line, wanted))

    def match(self, form):
        line = self.take()
        parts = re.fullmatch(form, line)
        if not parts:
            raise Wrong('no line of the form %s: %s' % (form, line))
        return parts

    def end(self):
        if self.peek() is not None:
            raise Wrong('one line too many: %s' % self.peek())


def value_of(word):
    """The value that is spelled as values are."""
    if word != 'nil' and not re.fullmatch(INTEGER, word):
        raise Wrong('no value: %s' % word)
    return None if word == 'nil' else int(word)


class Judge:
    """Judges one explanation. `places` has an offset and a line for each event; without it the explanation is one of `edit`."""

    def __init__(self, model, places, counts):
        self.model, self.places, self.counts = model, places, counts
        self.events = model.events
        self.facts = {}  # what is told to machines beside the text, by the names that it has there

    def spot(self, at):
        if self.places is None:
            return 'event %d' % at
        offset, line = self.places[at]
        beside = [self.places[i][1] for i in (at - 1, at + 1) if 0 <= i < len(self.places)]
        return 'byte %d' % offset if line in beside else 'line %d' % line

    def event(self, at):
        return 'event %d' % at + (', ' + self.spot(at) if self.places is not None else '')

    def place(self, at):
        """What machines are told of an event."""
        offset, line = self.places[at] if self.places is not None else (None, None)
        return {'at': at, 'line': line, 'offset': offset, 'words': event_words(self.events[at], None)}

    def table(self, told, marked, more):
        """The lines of operations, each with its mark."""
        rows = []
        for mark, op in marked:
            to = '' if op.end is None else str(op.end)
            spots = [self.spot(at) for at in (op.at, op.end) if at is not None]
            column = 'byte' if any(spot.startswith('byte') for spot in spots) else 'line'
            shown = [str(self.places[at][column == 'line']) for at in (op.at, op.end) if at is not None] if self.places is not None else []
            rows.append((mark, '%d..%s' % (op.at, to), '%s %s' % (column, '..'.join(shown + [''] * (2 - len(shown)))), op.words() + (', ' + op.how if op.how != 'ok' else '')))
        wide, wider = max(len(row[1]) for row in rows), max(len(row[2]) for row in rows)
        for mark, range_, place, words in rows:
            told.want('%s %s  %s%s' % (mark, range_.ljust(wide), place.ljust(wider) + '  ' if self.places is not None else '', words))
        if more:
            told.want('  and %d more' % more)

    def list_lines(self, told, leads):
        """Lines of a list: the words that each has, which are among the keys, and what leads there is right."""
        lines = []
        while told.peek() is not None and re.fullmatch(r'  .*  after .*', told.peek()):
            words, after = told.take()[2:].rsplit('  after ', 1)
            lines.append((words.rstrip(' '), len(words), after))
        for words, width, after in lines:
            if words not in leads:
                raise Wrong('isn\'t possible: %s' % words)
            if width != max(len(w) for w, _, _ in lines):
                raise Wrong('%s is not as wide as the list' % words)
            if after not in leads[words]:
                raise Wrong('%s never comes after %s, but after %s' % (words, after, ' or '.join(sorted(leads[words]))))
        return [words for words, _, _ in lines]

    def whole_or_part(self, told, head, named, is_over, unlisted):
        """A list behind its head: whole, or of some, or left out where that is allowed. Gives the words of all, if these are told.

        `named` has the words of each, rising, with the texts that may stand behind `after`."""
        all_words, leads = [words for words, _ in named], collections.defaultdict(set)
        for words, after in named:
            leads[words] |= after
        if is_over and told.peek() == unlisted:
            told.take()
            self.counts['lists left out'] += 1
            return None
        if is_over and told.peek() == head + ', among others:':
            told.take()
            words, rest = self.list_lines(told, leads), iter(all_words)
            if not 0 < len(words) <= MOST_LISTED or not all(w in rest for w in words):
                raise Wrong('a list of some has to have one to three, and to rise: %s' % words)
            self.counts['lists of some'] += 1
            return None
        told.want(head + ':')
        words = self.list_lines(told, leads)
        if words != all_words[:MOST_LISTED]:
            raise Wrong('lists %s of %s' % (words, all_words))
        if len(all_words) > MOST_LISTED:
            told.want('  and %d more' % (len(all_words) - MOST_LISTED))
        return all_words

    def differing(self, members, recorded, most=MOST_ITEMS):
        """How members differ from the recorded ones, in words."""
        more, fewer = sorted(members - recorded), sorted(recorded - members)
        return ' '.join(['with ' + items_words(more, most)] * bool(more) + ['without ' + items_words(fewer, most)] * bool(fewer))

    def some(self, name, count, words):
        """Notes what machines are told of a list: how many there are, if all are known, and the whole words of those that are told."""
        self.facts[name] = {'count': count, 'some': words[:MOST_LISTED]}

    def replies(self, told, kind, part, op, recorded, is_over):
        """The words of all replies that were right, if these are told."""
        count = op.end
        local = [i for i, _ in part].index(op.at)
        by_reply = tails(kind, [e for _, e in part], local)
        self.some('replies', len(by_reply), [])
        if recorded is None:
            told.want('each legal order of the first %d events places it' % count)
            return None
        unlisted = 'what it could have returned isn\'t listed: more than %d configurations' % self.model.budget
        if recorded in by_reply:
            raise Wrong('the recorded reply was right')
        if not by_reply and not (is_over and told.peek() == unlisted):
            told.want('no legal order of the first %d events places it' % count)
            return None
        if recorded[0] == 'members' and all(r[0] == 'members' for r in by_reply):
            rising = sorted(by_reply, key=lambda r: (len(r[1] ^ recorded[1]), rank(r[1])))
            said = [(self.differing(r[1], recorded[1]), self.differing(r[1], recorded[1], None)) for r in rising]
        else:
            rising = sorted(by_reply, key=lambda r: rank(r[1]))
            said = [(reply_words(r), reply_words(r, None)) for r in rising]
        named = [(short, by_reply[r]) for r, (short, _) in zip(rising, said)]
        words = self.whole_or_part(told, 'it could have returned', named, is_over, unlisted)
        self.some('replies', *((None, []) if words is None else (len(words), [whole for _, whole in said])))
        return words

    def states(self, told, kind, part, count, replies, is_over):
        by_state = tails(kind, [e for _, e in part])
        rising = sorted(by_state, key=rank)
        named, whole = [(state_words(kind, s), by_state[s]) for s in rising], [state_words(kind, s, None) for s in rising]
        head = 'after the first %d events the %s could be' % (count, NOUNS[kind])
        if [words for words, _ in named] == replies:
            told.want(head + ' just that')
            self.some('states', len(whole), whole)
            return
        words = self.whole_or_part(
            told, head, named, is_over,
            'what the %s could be after the first %d events isn\'t listed: more than %d configurations' % (NOUNS[kind], count, self.model.budget))
        self.some('states', *((None, []) if words is None else (len(words), whole)))

    # certificates

    def one_of(self, words, verb):
        """The operation that these words name, with what is said of it: that it returned, was called or failed at its place."""
        if words not in self.said[verb]:
            raise Wrong('no operation %s: %s' % ({'returned': 'returned so', 'called': 'was called so', 'failed': 'failed so'}[verb], words))
        op = self.said[verb][words]
        self.named.add(op)
        return op

    def pair(self, told, head, verbs=('returned', 'called')):
        """A line of two operations."""
        line = told.take()
        parts = line[len(head):].split(', ')
        if not line.startswith(head) or len(parts) != 2:
            raise Wrong('no line that begins with %s and names two operations: %s' % (head, line))
        return [self.one_of(words, verb) for words, verb in zip(parts, verbs)]

    def told_in(self, told, value):
        """The line `in:`, of an operation that had the value and of one that was called later."""
        parts = told.match(r'  in: (.+), (.+)')
        words, with_value = parts[1], re.fullmatch(r'(.+) with (\S+)( returned at .+)', parts[1])
        if with_value:
            words = with_value[1] + with_value[3]
            if value_of(with_value[2]) != value:
                raise Wrong('with %s, not %s' % (with_value[2], value_words(value)))
        first = self.one_of(words, 'returned')
        if bool(with_value) != first.does('read'):
            raise Wrong('only a read is told to have returned with a value: %s' % parts[1])
        return first, self.one_of(parts[2], 'called')

    def told_read(self, told, has=None, lacks=None):
        """A read that is told to have returned with or without values."""
        said = ' and '.join(['with ' + value_words(has)] * (has is not None) + ['without ' + value_words(lacks)] * (lacks is not None))
        line = told.take()
        if not line.startswith('  ') or not line.endswith(' ' + said):
            raise Wrong('no line of a read %s: %s' % (said, line))
        return self.one_of(line[2:-len(said) - 1], 'returned')

    def listed(self, told, ops, verb):
        """A line that lists operations, the first three by their calls or by their ends."""
        if not ops:
            return
        line = told.take()
        more = ', and %d more' % (len(ops) - 3) if len(ops) > 3 else ''
        if not line.startswith('  ') or not line.endswith(more):
            raise Wrong('no line that lists %d operations: %s' % (len(ops), line))
        found = [self.one_of(words, verb) for words in line[2:len(line) - len(more)].split(', ')]
        self.are_first(found, ops)

    def are_first(self, found, ops, most=3):
        if found not in [sorted(ops, key=by)[:most] for by in (lambda o: o.at, lambda o: (o.end is None, o.end))]:
            raise Wrong('these aren\'t the first %d of %s: %s' % (most, [o.words() for o in ops], [o.words() for o in found]))

    def failed_ones(self, told, ops, none):
        """That nothing else does it, or those that failed, and what a fail claims."""
        if ops:
            self.are_first([self.one_of(told.match(r'  (.+)')[1], 'failed') for _ in ops[:3]], ops)
        told.want('  ' + (FAIL_HINT if ops else none))

    def certificate(self, told, kind, ops):
        """Reads the lines of a certificate, and gives its form, or None where there is none."""
        self.named = set()
        if told.peek() == NO_REASON:
            told.take()
            return None
        self.said = {
            'returned': {'%s returned at %s' % (o.words(False), self.spot(o.end)): o for o in ops if o.how == 'ok'},
            'called': {'%s was called at %s' % (o.words(False), self.spot(o.at)): o for o in ops},
            'failed': {'%s failed at %s' % (o.words(False), self.spot(o.end)): o for o in ops if o.how == 'failed'}}
        why = told.take()[5:]
        for form, name, judge in [
                (r'a read of a set gives members, not (\S+)', 'shape', self.set_shape),
                (r'a read of a register gives one value, not members', 'shape', self.register_shape),
                (r'nothing leaves (\S+)', 'unwritten', self.unwritten),
                (r'(\S+) was overwritten before (.+)', 'overwritten', self.overwritten),
                (r'crossed values nil and (\S+), nil is the beginning and nothing leaves it', 'crossed', self.crossed_with_nil),
                (r'crossed values (\S+) and (\S+), each left by one operation', 'crossed', self.crossed),
                (r'a cas from (\S+) to another value was ok (\d+ times?), and (\S+) was left at most (\d+ times?)(, beside the beginning)?', 'spent', self.spent),
                (r'(\S+) was taken out (\d+ times?) and put in at most (\d+ times?)', 'taken', self.taken),
                (r'(\S+) passed (\S+)', 'passed', self.passed),
                (r'(\S+) was in the queue', 'inside', self.inside),
                (r'(1 item was|\d+ items were) put in before (.+), and at most (\d+) can have been taken out before (\S+) was: (.+)', 'preceded', self.preceded),
                (r'(1 item was|\d+ items were) put in before (.+), and at most (\d+) can have been taken out before it returned', 'remaining', self.remaining),
                (r'of (.+) more were put in before (.+) than can have been taken out before it returned', 'surplus', self.surplus_of),
                (r'nothing adds (\S+)', 'unadded', self.unadded),
                (r'(\S+) was lost', 'lost', self.lost),
                (r'two reads exclude each other', 'split', self.split),
                (r'(\S+) was in before (\S+) was added', 'late', self.late),
                (r'(acquire|release)d twice', 'twice', self.twice),
                (r'(acquire|release)d (\d+ times?) and (acquire|release)d at most (\d+ times?)', 'counted', self.counted),
                (r'(acquire|release)d (\d+ times?) from (.+) to (.+), and (acquire|release)d at most (\d+ times?)', 'within', self.within)]:
            parts = re.fullmatch(form, why)
            if parts:
                holds = judge(told, kind, ops, *parts.groups())
                if not holds:
                    raise Wrong('what is told doesn\'t hold: %s' % why)
                return holds if isinstance(holds, str) else name
        raise Wrong('no certificate: %s' % why)

    def set_shape(self, told, kind, ops, value):
        op = self.one_of(told.match(r'  (.+)')[1], 'returned')
        return kind == 'set' and op.does('read') and op.reply == ('value', value_of(value))

    def register_shape(self, told, kind, ops):
        op = self.one_of(told.match(r'  (.+)')[1], 'returned')
        return kind in ('register', 'cas-register') and op.read() is not None

    def unwritten(self, told, kind, ops, value):
        value, op = value_of(value), self.one_of(told.match(r'  (.+)')[1], 'returned')
        self.failed_ones(told, [o for o in ops if o.how == 'failed' and value in o.leaves()], 'no other operation leaves it')
        return kind in ('register', 'cas-register') and is_unwritten(ops, op, value)

    def overwritten(self, told, kind, ops, value, reader):
        value, reader = value_of(value), self.one_of(reader, 'called')
        if not is_overwritten(ops, reader, value) or ' was held: ' in (told.peek() or ''):
            held, over = told.match(r'  (\S+) was held: (.+)').groups()
            held, over = value_of(held), self.one_of(over, 'returned')
            return kind in ('register', 'cas-register') and is_stale(ops, reader, value, over, held) and 'stale'
        if value is None and not is_overwriting(None, self.one_of(told.match(r'  (.+)')[1], 'returned'), reader):
            return False
        sources = others_that_leave(ops, reader, value)
        most, named = 2 if value is None else 3, []
        for _ in sources[:most]:
            left, over = told.match(r'  (.+), (.+)').groups()
            left = self.one_of(left, 'returned')
            called, _, returned = over.partition(' and returned at ')
            over = self.one_of(called, 'called')
            if over is not self.one_of('%s returned at %s' % (over.words(False), returned), 'returned') or not is_overwriting(left, over, reader):
                return False
            named.append(left)
        self.are_first(named, sources, most)
        if len(sources) > most:
            told.want('  and so were %d more updates that leave %s' % (len(sources) - most, value_words(value)))
        return kind in ('register', 'cas-register') and is_overwritten(ops, reader, value)

    def crossed_with_nil(self, told, kind, ops, other):
        b, a = self.pair(told, '  %s before nil: ' % other)
        return kind in ('register', 'cas-register') and is_crossed(ops, None, value_of(other), b, a)

    def crossed(self, told, kind, ops, v, w):
        c, e = self.pair(told, '  %s before %s: ' % (v, w))
        b, a = self.pair(told, '  %s before %s: ' % (w, v))
        return kind in ('register', 'cas-register') and value_of(v) is not None and is_crossed(ops, value_of(v), value_of(w), b, a, c, e)

    def spent(self, told, kind, ops, value, goes, same, comes, beside):
        value = value_of(value)
        went, came = spenders(ops, value), those_that_leave(ops, value)
        self.listed(told, went, 'returned')
        self.listed(told, came, 'called')
        self.listed(told, [o for o in ops if o.how == 'failed' and value in o.leaves()], 'failed')
        return (kind in ('register', 'cas-register') and is_spent(ops, value) and (goes, comes) == (times(len(went)), times(len(came)))
                and same == value_words(value) and (beside is not None) == (value is None))

    def taken(self, told, kind, ops, value, out, put):
        value = value_of(value)
        took, added = taken_by(ops, value), puts(ops, 'enqueue', value)
        self.listed(told, took, 'returned')
        self.listed(told, added, 'called')
        failed = [o for o in ops if o.how == 'failed' and o.does('enqueue', value)]
        self.listed(told, failed, 'failed')
        if failed:
            told.want('  ' + FAIL_HINT)
        return kind in ('fifo', 'unordered-queue') and is_taken(ops, value) and (out, put) == (times(len(took)), times(len(added)))

    def passed(self, told, kind, ops, by, value):
        by, value = value_of(by), value_of(value)
        i, j = self.pair(told, '  put in: ')
        took = told.match(r'  taken out: (.+), (.+)')
        d = self.one_of(took[1], 'returned')
        if took[2] == 'and nothing that may have taken %s out was called before' % value_words(value):
            rest = not taken_by(ops, value)
        else:
            t = self.one_of(took[2], 'called')
            rest = t.took(value) and d.is_before(t)
        return kind == 'fifo' and is_passed(ops, i, j, d, value, by) and rest

    def inside(self, told, kind, ops, value):
        i, d = self.pair(told, '  put in: ')
        returned = told.match(r'  taken out: nothing that may have taken (\S+) out was called before (.+)')
        return (kind in ('fifo', 'unordered-queue') and returned[1] == value and self.one_of(returned[2], 'returned') is d
                and is_inside(ops, i, d, value_of(value)))

    def last_ones(self, told, ops, verb):
        """A line of the last three of these operations, the last called first, if there are any."""
        if ops:
            more = ', and %d more' % (len(ops) - 3) if len(ops) > 3 else ''
            said = [next(words for words, op in self.said[verb].items() if op is it) for it in ops[:3]]
            told.want('  ' + ', '.join(said) + more)
            self.named |= set(ops[:3])

    def surplus(self, told, ops, d, put, said, most):
        """The lines of what was put in and what may have been taken out, where less was."""
        may = may_take_ahead(ops, d)
        self.last_ones(told, put, 'returned')
        self.last_ones(told, may, 'called')
        return said == ('1 item was' if len(put) == 1 else '%d items were' % len(put)) and int(most) == len(may) < len(put)

    def preceded(self, told, kind, ops, said, first, most, value, taken):
        value, j, d = value_of(value), self.one_of(first, 'called'), self.one_of(taken, 'returned')
        early, outs = [op for op in puts(ops, 'enqueue', value) if op.at < j.at], taken_before(ops, d, value)
        if early:
            parts = told.match(r'  (\S+) was put in at most (.+) before that, and taken out (\d+ times?) before (.+)')
            if parts.groups()[:3] != (value_words(value), times(len(early)), times(len(outs))) or self.one_of(parts[4], 'called') is not d:
                return False
        return self.surplus(told, ops, d, put_before(ops, j), said, most) and kind == 'fifo' and is_preceded(ops, j, d, value)

    def surplus_of(self, told, kind, ops, items, first):
        d, (some, cut, _) = self.one_of(first, 'called'), items.partition(',... ')
        values = [value_of(item) for item in some.split(',')]
        if cut:
            # (those that aren't told are some of the others)
            values += [op.call.value for op in ops if op.does('enqueue') and op.call.value > values[-1]]
        return kind == 'unordered-queue' and is_surplus(ops, d, values) and 'surplus'

    def remaining(self, told, kind, ops, said, first, most):
        d = self.one_of(first, 'called')
        return self.surplus(told, ops, d, put_before(ops, d), said, most) and kind in ('fifo', 'unordered-queue') and is_remaining(ops, d)

    def unadded(self, told, kind, ops, value):
        value, op = value_of(value), self.one_of(told.match(r'  (.+)')[1], 'returned')
        self.failed_ones(told, [o for o in ops if o.how == 'failed' and o.does('add', value)], 'no operation adds it')
        return kind == 'set' and is_unadded(ops, op, value)

    def lost(self, told, kind, ops, value):
        value = value_of(value)
        k, read = self.told_in(told, value)
        return kind == 'set' and self.told_read(told, lacks=value) is read and is_lost(k, read, value)

    def split(self, told, kind, ops):
        parts = re.fullmatch(r'.* with (\S+) and without (\S+)', told.peek() or '')
        if not parts:
            raise Wrong('no line of a read with and without values: %s' % told.peek())
        p, q = map(value_of, parts.groups())
        r, s = self.told_read(told, p, q), self.told_read(told, q, p)
        return kind == 'set' and is_split(r, s, p, q)

    def late(self, told, kind, ops, p, q):
        p, q = value_of(p), value_of(q)
        k, a = self.told_in(told, p)
        return kind == 'set' and is_late(ops, k, a, self.told_read(told, q, p), p, q)

    def twice(self, told, kind, ops, name):
        i, j = self.pair(told, '  ')
        between = told.match(r'  no %s can stand between: each that didn\'t fail had returned before (.+)' % OTHER[name])
        return kind == 'mutex' and self.one_of(between[1], 'called') is i and is_twice(ops, name, i, j)

    def counted(self, told, kind, ops, name, did, other, most):
        done, can = [o for o in ops if o.how == 'ok' and o.does(name)], puts(ops, OTHER[name])
        self.listed(told, done, 'returned')
        self.listed(told, can, 'called')
        self.listed(told, [o for o in ops if o.how == 'failed' and o.does(OTHER[name])], 'failed')
        return kind == 'mutex' and other == OTHER[name] and is_counted(ops, name) and (did, most) == (times(len(done)), times(len(can)))

    def within(self, told, kind, ops, name, did, first, last, other, most):
        places = {self.spot(at): at for op in ops for at in (op.at, op.end) if at is not None}
        if first not in places or last not in places:
            raise Wrong('no events of the object stand there: %s, %s' % (first, last))
        start, stop = places[first], places[last] + 1
        made, may, failed = made_within(ops, name, start, stop), may_be_within(ops, OTHER[name], start, stop), failed_within(ops, OTHER[name], start, stop)
        for some, verb in ((made, 'returned'), (may, 'called'), (failed, 'failed')):
            self.last_ones(told, some[::-1], verb)
        return kind == 'mutex' and other == OTHER[name] and is_within(ops, name, start, stop) and (did, most) == (times(len(made)), times(len(may)))

    # answers

    def no(self, told, key, count):
        last = self.events[count - 1]
        if key not in (None, last.key) or last.type not in ('ok', 'fail'):
            raise Wrong('the prefix ends with no end of an operation of the object')
        key, kind = last.key, self.model.kinds(last.key)
        ops = operations_of(self.events, count, key)
        failing = next(op for op in ops if op.end == count - 1)
        part = self.model.part(key, count - 1)
        self.facts = {'key': str(key), 'kind': kind, 'event': self.place(count - 1), 'call': self.place(failing.at)}
        told.want('object %d %s: %s, called at %s, %s at %s' % (
            key, kind, failing.words(), self.event(failing.at), last.type, self.event(count - 1)))
        told.want('its events among the first %d have a legal order, among the first %d they have none' % (count - 1, count))
        is_over = any(len(self.model.ends_of(key, n)) > self.model.budget for n in range(count))
        replies = self.replies(told, kind, part, failing, self.events[count - 1].reply() if last.type == 'ok' else None, is_over)
        self.states(told, kind, part, count - 1, replies, is_over)
        form = self.certificate(told, kind, ops)
        self.counts['certificates' if form else 'no certificate, but one holds' if wanted_form(kind, ops, failing) else 'no certificate, and none holds'] += 1
        if form:
            self.counts['certificate: ' + form] += 1
            self.counts['another form than the wanted one'] += form != wanted_form(kind, ops, failing)
        self.facts['why'] = {'name': form, 'calls': sorted(op.at for op in self.named)} if form else None
        self.since(told, ops, failing, kind, is_over)

    def since(self, told, ops, failing, kind, is_over):
        """Since when the failure can be told, where the object stood then, and the operations since."""
        since = max(op.at for op in ops if op.at <= failing.at and all(o.end is not None and o.end < op.at for o in ops if o.at < op.at))
        states = [state_words(kind, s) for s in sorted(tails(kind, [e for _, e in self.model.part(failing.call.key, since)]), key=rank)]
        was = ' or '.join(states) if len(states) < 3 else 'one of %d states' % len(states)
        self.facts['from'] = since
        head = 'since event %d, before which nothing ran%%s (! fails, ~ ran beside it, * is named above):' % since
        heads = [head % (' and the %s was %s' % (NOUNS[kind], was))] + [head % ''] * is_over
        if told.peek() in heads:
            told.take()
        else:
            told.want(heads[0])

        def mark(op):
            if op is failing:
                return '!'
            if op in self.named:
                return '*'
            return '~' if op.how not in ('ok', 'failed') or op.end > failing.at else ' ' if op.at >= since else None

        shown = [(mark(op), op) for op in ops if mark(op)]
        chosen = sorted(shown, key=lambda row: ('!*~ '.index(row[0]), -row[1].at))[:MOST_IN_TABLE]
        self.table(told, sorted(chosen, key=lambda row: row[1].at), len(shown) - len(chosen))

    def yes(self, told, key, with_order):
        if key is not None:
            self.facts = {'key': str(key), 'kind': self.model.kinds(key)}
        keys = self.model.keys() if key is None else [key]
        ops = [op for k in keys for op in operations_of(self.events, len(self.events), k)]
        hows = collections.Counter(op.how for op in ops)
        opens = hows['open'] + hows['crashed']
        head = 'operations %d: ok %d, failed %d, open %d (crashed %d); objects ' % (len(ops), hows['ok'], hows['failed'], opens, hows['crashed'])
        # an object without events may be counted or not
        told.match(re.escape(head) + ('[01]' if key is not None and not ops else str(len(keys))))
        placed = told.match(r'a legal order places (\d+) of the (\d+) open ones')
        may_be = {0}
        for k in keys:
            if any(certificates(self.model.kinds(k), operations_of(self.events, len(self.events), k))):
                raise Wrong('a form of certificates holds of operations that have a legal order')
            counts = {len(replies) for _, replies in self.model.ends_of(k, len(self.events))}
            may_be = {a + b for a in may_be for b in counts}
        if placed[0] != 'a legal order places %d of the %d open ones' % (int(placed[1]), opens) or int(placed[1]) not in may_be:
            raise Wrong('of %d open ones %s may be placed: %s' % (opens, sorted(may_be), placed[0]))
        if with_order:
            order = told.match('order (empty|%s(?: %s)*)' % ((NUMBER + '=(?:done|nil|{0}|{{}}|{{{0}(?:,{0})*}})'.format(INTEGER),) * 2))[1]
            if not self.model.is_right(key, 'yes', order):
                raise Wrong('no legal order: %s' % order)
            in_order = [int(word.split('=')[0]) for word in order.split() if word != 'empty']
            if sum(op.at in in_order for op in ops if op.how in ('open', 'crashed')) != int(placed[1]):
                raise Wrong('places another number of open ones: %s' % order)

    def undecided(self, told, at):
        key = self.events[at].key
        self.facts = {'key': str(key), 'kind': self.model.kinds(key), 'event': self.place(at)}
        told.want('object %d %s: more than %d configurations after %s: %s' % (
            key, self.model.kinds(key), self.model.budget, self.event(at), event_words(self.events[at])))
        ops = [op for op in operations_of(self.events, at + 1, key) if op.how in ('open', 'crashed')]
        crashed = sum(op.how == 'crashed' for op in ops)
        told.want('operations open then: %d, crashed of them: %d' % (len(ops), crashed))
        if ops:
            self.table(told, [(' ', op) for op in ops[:MOST_IN_TABLE]], len(ops) - len(ops[:MOST_IN_TABLE]))
        helps = [text for text, holds in [
            ('a larger --budget (up to 1000000)', self.model.budget < MOST_BUDGET),
            ('--keyed, if values are pairs of a key and a value', not self.model.keyed),
            ('fewer operations that crash', crashed >= 1),
            ('fewer clients at once', len(ops) - crashed >= 2)] if holds]
        if helps:
            told.want('what may help: ' + '; '.join(helps))
        self.certain(told, key)

    def certain(self, told, key):
        """The certificate of all events of an object that is undecided: it is told where one holds, and then the object has no legal order.

        Only of a lock's calls between two places the one that ends with the events is looked for."""
        kind, ops = self.model.kinds(key), operations_of(self.events, len(self.events), key)
        if told.peek() == 'not linearizable all the same:':
            told.take()
            form = Judge.certificate(self, told, kind, ops)
            if form is None:
                raise Wrong('no certificate is told')
            self.facts['why'] = {'name': form, 'calls': sorted(op.at for op in self.named)}
            self.counts['certificates of what is undecided'] += 1
        elif any(form != 'within' for form, _ in certificates(kind, ops)):
            raise Wrong('a certificate holds, and none is told')

    def ill_formed(self, told, at, cause):
        event = self.events[at]
        self.facts = {'event': self.place(at)}
        kind = self.model.kinds(event.key)
        earlier = [i for i in range(at) if self.events[i].process == event.process]
        told.want('%s at %s' % (event_words(event), self.event(at)))
        if cause != 3:
            told.want('before it %s at %s' % (event_words(self.events[earlier[-1]]), self.event(earlier[-1])) if earlier else 'before it nothing of this process')
        told.want([
            'a process isn\'t used again after an :info: its client goes on under a new number',
            'a process calls again only when its call has ended with :ok, :fail or :info',
            '%s is no call of kind %s; it is one of %s' % (event.name, kind, ', '.join(k for k in CALLS if event.name in NAMES[k])),
            'a completion stands behind an invocation of its process',
            'a completion has the :f of its invocation',
            'a completion has the key of its invocation: %d and %d' % (self.events[earlier[-1]].key if earlier else 0, event.key)][cause - 1])

    def is_over(self, key):
        """Whether some beginning of the object's events has more configurations than the budget."""
        return any(len(self.model.ends_of(key, n)) > self.model.budget for n in range(len(self.events) + 1))

    def beside(self, told, key):
        """What is told beside an undecided whole: of the objects that are a no the one with the shortest failing prefix.

        An object that fails is a no for certain where it never has more configurations than the budget; else it may be undecided too."""
        certain = [k for k in self.model.keys() if not self.is_over(k)] if key is None else []
        if key is not None or told.peek() is None:
            if not all(self.model.ends_of(k, len(self.events)) for k in certain):
                raise Wrong('an object is a no, and nothing is told of it')
            return
        failed = int(told.match('not linearizable all the same: object (%s) has no legal order' % INTEGER)[1])
        undecided, first = self.facts, told.next
        answer = told.match('no prefix %s' % NUMBER)[0]
        count = int(answer.split()[2])
        if not self.model.is_right(failed, answer):
            raise Wrong('the answer is wrong: %s' % answer)
        if not all(self.model.ends_of(k, count - 1) for k in certain):
            raise Wrong('another object fails with fewer events')
        self.no(told, failed, count)
        self.facts = {**undecided, 'failed': {**head(answer), 'events': len(self.events), **self.facts, 'text': '\n'.join(told.lines[first:])}}
        self.counts['failures beside what is undecided'] += 1

    def explanation(self, lines, key, with_order):
        """Judges the whole text, and gives the answer's first word."""
        told = Told(lines)
        answer = told.match('yes|no prefix %s|undecided at %s|ill-formed at %s cause %s \\w+' % ((NUMBER,) * 4))[0]
        if not self.model.is_right(key, answer):
            raise Wrong('the answer is wrong: %s' % answer)
        words = answer.split()
        if words[0] == 'yes':
            self.yes(told, key, with_order)
        elif words[0] == 'no':
            self.no(told, key, int(words[2]))
        elif words[0] == 'undecided':
            self.undecided(told, int(words[2]))
            self.beside(told, key)
        else:
            self.ill_formed(told, int(words[2]), int(words[4]))
        told.end()
        self.counts[words[0]] += 1
        self.counts['longest text'] = max(self.counts['longest text'], len(lines))
        return words[0]

    def machine(self, lines):
        """The line for machines, of an explanation that was judged."""
        return compact({**head(lines[0], 'failed' in self.facts or 'why' in self.facts), 'events': len(self.events), **self.facts, 'text': '\n'.join(lines)})


# the forms for machines

def head(answer, fails=False):
    """What each map says of an answer, and whether an object is a no beside an undecided whole."""
    status = STATUS[answer.split()[0]]
    return {'valid?': False if fails else {0: True, 1: False}.get(status, 'unknown'), 'status': status, 'answer': answer}


def compact(said):
    """The one line of a map: no white space, and in strings only what has to be escaped."""
    def string(text):
        return '"%s"' % ''.join({'"': '\\"', '\\': '\\\\', '\n': '\\n'}.get(c, c if c >= ' ' else '\\u00%02x' % ord(c)) for c in text)

    def words(value):
        if isinstance(value, dict):
            return '{%s}' % ','.join(string(name) + ':' + words(it) for name, it in value.items())
        if isinstance(value, list):
            return '[%s]' % ','.join(map(words, value))
        return string(value) if isinstance(value, str) else json.dumps(value)

    return words(said)


def judge_report(model, line):
    """Judges the line for machines of `check`: its form, byte for byte, and each answer in it. Gives the answer's first word."""
    said = json.loads(line)
    if line != compact(said):
        raise Wrong('the line isn\'t in the one form: %s' % line)

    def judged(key, answer, rest):
        if not model.is_right(key, answer):
            raise Wrong('the answer is wrong: %s' % answer)
        return {**rest, **head(answer)}

    objects = [judged(int(it['key']), it['answer'], {'key': it['key'], 'kind': model.kinds(int(it['key']))}) for it in said['objects']]
    answer = said['answer'].split()[0]
    wanted = {**judged(None, said['answer'], {}), 'events': len(model.events)}
    noes = [(int(it['answer'].split()[2]), it['key']) for it in objects if it['status'] == 1]
    if answer == 'undecided' and noes:
        wanted.update({'valid?': False, 'failed': min(noes)[1]})
    wanted['objects'] = objects
    if compact(wanted) != line:
        raise Wrong('says  %s\n  and not  %s' % (line, compact(wanted)))
    if [int(it['key']) for it in objects] != ([] if answer == 'ill-formed' else sorted(model.keys())):
        raise Wrong('has other objects: %s' % line)
    return answer
