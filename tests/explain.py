#!/usr/bin/env python3
"""Explanations of random histories, judged claim by claim by a plain enumeration of all orders.

Each history is laid out as a recording, a map a line or several, with maps of a nemesis, comments and tags between, and goes through
`lincheck explain`, as a text and for machines; some go through `explain` of `edit` and through `check` for machines too. What is printed is
read strictly, by the rules of docs/FORMATS.md, and each claim is judged: the answer, the operation that fails and where it stands, what it
could have returned and what the object could be, with the operations that lead there, the certificate, where nothing ran, and the table.
Of all certificates that hold the wanted one has to be told. Lists that claim less than they could are counted and printed. Some recordings
aren't well-formed, and some are refused.

usage: tests/explain.py [HISTORIES] [SEED]   (builds what isn't built, unless LINCHECK in the environment names the program)
"""
import collections
import itertools
import os
import random
import re
import shlex
import subprocess
import sys
import tempfile
from concurrent.futures import ProcessPoolExecutor

sys.dont_write_bytecode = True
from certificates import rank, wanted
from edits import KINDS, NAMES, Event, Model, edn
from judges import NO_REASON, NUMBER, STATUS, Judge, Told, Wrong, compact, head, judge_report
from rows import built, maps, quoted

HISTORIES = 3000


# Histories of which several texts may be told, so that they are no rows: the words, and the events in the short forms of rows.py.
WORKED = [
    ('', 'p0 invoke read; p1 invoke write 1; p1 ok write; p0 ok read 9'),
    ('--kind fifo', 'p0 invoke enqueue 1; p0 ok enqueue; p1 invoke dequeue; p1 ok dequeue 1; p2 invoke dequeue; p2 ok dequeue 1'),
    ('--kind unordered-queue', 'p0 invoke enqueue 1; p0 ok enqueue; p1 invoke dequeue; p1 ok dequeue 1; p2 invoke dequeue; p2 ok dequeue 1'),
    ('--kind fifo', 'p0 invoke enqueue 1; p0 ok enqueue; p0 invoke enqueue 2; p0 ok enqueue; p1 invoke dequeue; p0 invoke dequeue; p0 ok dequeue 2; '
     'p2 invoke dequeue; p2 ok dequeue 1'),
    ('--kind fifo', 'p1 invoke enqueue 1; p0 invoke dequeue; p2 invoke enqueue 2; p1 ok enqueue; p0 ok dequeue 2; p2 ok enqueue; p0 invoke dequeue; '
     'p1 invoke enqueue 5; p0 ok dequeue 5'),
    ('--kind set', 'p0 invoke add 1; p0 ok add; p0 invoke add 2; p0 ok add; p1 invoke read; p1 ok read #{2}'),
    ('--kind set', 'p0 invoke add 1; p1 invoke add 2; p2 invoke read; p3 invoke read; p2 ok read #{1}; p3 ok read #{2}'),
    ('--kind set', 'p2 invoke read; p0 invoke add 1; p0 ok add; p1 invoke add 2; p2 ok read #{2}'),
    ('--kind set', 'p2 invoke read; p0 invoke add 1; p0 ok add; p1 invoke add 2; p3 invoke add 3; p2 ok read #{2 3}'),
    ('--kind set', 'p0 invoke add 1; p0 ok add; p0 invoke read; p0 ok read #{1}; p0 invoke add 2; p0 ok add; p1 invoke read; p1 ok read #{2}'),
    ('--kind set', 'p0 invoke read; p0 ok read #{7}'),
    ('', 'p1 invoke write 1; p2 invoke write 2; p3 invoke write 3; p4 invoke read; p4 ok read 9'),
    ('--keyed --key 1', 'p0 invoke write [1 1]; p1 invoke write [1 2]; p2 invoke write [1 3]; p3 invoke write [0 1]; p3 ok write [0 1]; '
     'p3 invoke read [0 nil]; p3 ok read [0 1]; p3 invoke read [0 nil]; p3 ok read [0 nil]')]


# histories, and recordings of them

class Sheet:
    """A recording as it is written, with the place of each map of a client."""

    def __init__(self, draw):
        self.draw, self.text, self.places = draw, '', []

    def put(self, text):
        self.text += text

    def here(self):
        return len(self.text), 1 + self.text.count('\n')

    def white(self):
        self.put(self.draw.choice(['\n', '\n', '\n', ' ', ', ', '\r\n', '\n\n', '\t', ' ; a comment { \n', '\n#_ {:process 7, :type :ok, :f :read} ', '\n{:process :nemesis, :type :info, :f :kill, :value #{"n1; }\n"}}\n']))

    def map_of(self, event, keyed):
        """An operation map of the event."""
        value = edn(event.value)
        if event.name == 'read' and isinstance(event.value, tuple):
            left, right = self.draw.choice(['#{}', '[]', '()']).replace('{}', '{ }').replace('[]', '[ ]').replace('()', '( )').split(' ')
            value = left + ' '.join(map(str, event.value)) + right
        if keyed:
            value = self.draw.choice(['[%d %s]', '(%d, %s)']) % (event.key, value)
        entries = [':process %d' % event.process, ':type :%s' % event.type, ':f :' + event.name] + ([':value ' + value] if value != 'nil' or self.draw.random() < 0.5 else [])
        if self.draw.random() < 0.2:
            entries += self.draw.choice([[':index %d' % len(self.places)], [':time 1', ':error "a \\" }\nb"'], [':node {:a [1 2]}']])
            self.draw.shuffle(entries)
        return '{%s}' % self.draw.choice([', ', ' ']).join(entries)

    def put_events(self, events, keyed, is_plain):
        """The maps of the events: one a line, or as it comes."""
        left = None  # the bracket that is open
        for event in events:
            if not is_plain and left is None and self.draw.random() < 0.2:
                left = self.draw.choice('[(')
                self.put(self.draw.choice(['', '#h ']) + left)
            if not is_plain and self.draw.random() < 0.2:
                tag = self.draw.choice(['#jepsen.history.Op', '#t ', '#t\n'])
            else:
                tag = ''
            self.places.append(self.here())
            self.put(tag + self.map_of(event, keyed))
            if is_plain:
                self.put('\n')
                continue
            self.white()
            if left and self.draw.random() < 0.3:
                self.put({'[': ']', '(': ')'}[left])
                left = None
                self.white()
        if left:
            self.put({'[': ']', '(': ')'}[left])

    def put_fault(self, keyed):
        """Bytes that are refused, and the lines that say so."""
        draw = self.draw
        self.white()
        start, what = self.here(), draw.randrange(4)
        if what == 0:
            bytes_, at, number, name, why = draw.choice([
                (']', 0, 1, 'Unbalanced', 'this bracket closes none, or not the one that is open'),
                ('[1 \n2)', 5, 1, 'Unbalanced', 'this bracket closes none, or not the one that is open'),
                ('{:a\n}', 4, 2, 'OddMap', 'this ends a map whose last key has no value'),
                ('[' * 65, 64, 3, 'TooDeep', 'this is the 65th level of nesting, and 64 are read')])
            self.put(bytes_[:at])
            offset, line = self.here()
            self.put(bytes_[at:])
            return ['refused input edn %d %s at %d' % (number, name, offset), 'line %d, byte %d: %s' % (line, offset, why)]
        if what == 1:
            self.put(draw.choice(['{:process 0,\n:type', '#_\n', '[ {:process :nemesis}\n', '#t ', '"a\n']))
            return ['refused input truncated at %d' % start[0], 'line %d, byte %d: the file ends within the element or discard that begins here' % (start[1], start[0])]
        pair = draw.choice(['[0 5]', '(0 5)', '[[1] #t 2]', '( :a, :b )'])
        usual = '{:process 0, :type :invoke, :f :read, :value [0 nil]}'
        bytes_, number, name, why = draw.choice([
            (draw.choice(['5 ', '"a"', '#{}', '#t :a ', '\\} ']), 1, 'NotAMap', 'each element has to be a map, or a vector or list of maps'),
            ('{:process 0, :process 1, :type :ok, :f :read}', 2, 'DuplicateKey', 'one of :process, :type, :f and :value stands twice in this map'),
            (draw.choice(['{}', '{:process 0 :type :ok}', '#t {:type :ok :f :read}']), 3, 'Missing', 'this map lacks :process, :type or :f'),
            ('{:process %s :type :ok :f :read}' % draw.choice(['-1', '"a"', 'nil', '9223372036854775808']), 4, 'BadProcess', ':process has to be an integer of at least 0, or the keyword of a nemesis'),
            ('#t {:process 0 :type :okay :f :read}', 5, 'BadType', ':type has to be :invoke, :ok, :fail or :info'),
            ('{:process 0 :type :ok :f :txn}', 6, 'BadFunction', ':f has to be :read, :write, :cas, :enqueue, :dequeue, :add, :acquire or :release'),
            ('{:process 0 :type :ok :f :read :value %s}' % draw.choice(['5', '[5]', '[a 5]', 'nil']), 7, 'BadKey', 'with --keyed each :value has to be a pair [key value]') if keyed else
            ('{:process 0 :type :invoke :f :%s :value %s}' % (draw.choice(['write', 'enqueue', 'add']), pair), 8, 'BadValue', None),
            ('{:process 0 :type :invoke :f :write :value %s}' % (draw.choice(['[0 a]', '[0 1.5]']) if keyed else draw.choice(['a', '\\a', '1.5', '#{0 5}', '[1 2 3]'])),
             8, 'BadValue', ':value isn\'t one that this :f takes or gives')])
        left, right = ('', '') if what == 2 else draw.choice([('[', ']'), ('#h (', ')')])
        if left:
            self.put(left)
            for _ in range(draw.randrange(3)):
                self.put(usual if keyed else '{:process :nemesis}')
                self.put(draw.choice(['\n', ' ']))
        offset, line = self.here()
        self.put(bytes_ + right + ' ')
        lines = ['line %d, byte %d: %s' % (line, offset, why or ':value isn\'t one that this :f takes or gives')]
        if why is None:
            lines.append('the value is of two parts: if it is a key and a value, say --keyed')
        return ['refused input event %d %s at %d' % (number, name, start[0])] + lines


class History:
    """A random history of one kind, mostly cut soon after it fails."""

    def __init__(self, draw):
        self.draw = draw
        kind, keyed = draw.choice(KINDS), draw.random() < 0.25
        self.model = Model(keyed, kind, 65536)
        self.keys = draw.choice([[0, 1], [0, 1, -3]]) if keyed else [0]
        # how many clients, how long, how many may crash, and how many operations are open from the beginning
        self.clients, self.longest, self.crashes, stuck = draw.choice([(1, 26, 0, 2), (2, 14, 2, 0), (2, 14, 1, 0), (3, 14, 1, 0), (3, 12, 2, 0), (4, 10, 1, 0), (5, 9, 0, 0)])
        self.values = draw.choice([[1, 2], [1, 2, 3], [-9223372036854775808, -20, 3, 9223372036854775807], None, None, None])
        self.process_of = list(range(self.clients))
        for n in range(draw.randrange(stuck + 1)):
            self.put(100 + n, 'invoke', draw.choice(NAMES[kind]), draw.choice(self.keys))
        for _ in range(3 * self.longest):
            self.step()
            if len(self.model.events) == self.longest:
                break
            if not all(self.model.ends_of(key, len(self.model.events)) for key in self.keys) and draw.random() < 0.8:
                break
        if draw.random() < 0.08:
            self.spoil()

    def value(self, name):
        draw = self.draw
        some = draw.choice(self.values) if self.values else 1 + len(self.model.events) // 2
        if name == 'cas':
            return (draw.choice([None, some] + [e.value for e in self.model.events if e.type == 'invoke' and isinstance(e.value, int)]), some)
        return None if name == 'write' and draw.random() < 0.08 else some if name in ('write', 'enqueue', 'add') else None

    def right(self, process, key):
        """The replies that some order gives to the operation of the process."""
        return {r for _, replies in self.model.ends_of(key, len(self.model.events)) for p, r in replies if p == process}

    def goes_wrong(self):
        """At first replies are right, later they often aren't."""
        return self.draw.random() < 0.8 * len(self.model.events) / self.longest

    def reply(self, right, name, key):
        """A reply of an ok read or dequeue: one that some order gives, or one that isn't far from that."""
        draw = self.draw
        right = sorted({r[1] for r in right if r != 'done'}, key=rank)
        used = [e for e in self.model.events if e.key == key and isinstance(e.value, int)]
        called = [e.value for e in used if e.type == 'invoke'] or [7]
        is_set = name == 'read' and self.model.default == 'set'
        if right and not self.goes_wrong():
            value = draw.choice(right)
        elif draw.random() < 0.05:
            # of another shape, or long
            value = draw.choice(called + [None]) if is_set else frozenset(called) if name == 'read' else 8
        elif is_set:
            value = (draw.choice(right) if right else frozenset()) ^ frozenset(draw.sample(called, 1 + (draw.random() < 0.3 and len(called) > 1)))
            value |= frozenset(range(draw.randrange(1, 4), 12)) if draw.random() < 0.05 else frozenset()
        elif name == 'dequeue':
            value = draw.choice([v for v in called if v not in right and v not in [e.value for e in used if e.type == 'ok']] * 4 + called + [None])
        else:
            value = draw.choice([v for v in called if v not in right] * 4 + called + [None])
        return tuple(draw.sample(sorted(value), len(value))) if isinstance(value, frozenset) else value

    def put(self, process, type_, name, key, right=()):
        value = self.value(name) if type_ == 'invoke' else self.reply(right, name, key) if type_ == 'ok' and name in ('read', 'dequeue') else None
        self.model.events.append(Event(process, key, type_, name, value))

    def step(self):
        draw, events = self.draw, self.model.events
        slot = draw.randrange(self.clients)
        process = self.process_of[slot]
        last = next((e for e in reversed(events) if e.process == process), None)
        if last is None or last.type != 'invoke':
            self.put(process, 'invoke', draw.choice(NAMES[self.model.default]), draw.choice(self.keys))
            return
        right = self.right(process, last.key)
        # what no order places mostly goes on, crashes or fails
        type_ = draw.choice(['ok'] * 9 + ['fail', 'info']) if right or self.goes_wrong() else draw.choice([None, 'fail', 'info'])
        if type_ == 'info' and self.crashes == 0 or type_ is None:
            return
        if type_ == 'info':
            self.crashes -= 1
            self.process_of[slot] += self.clients
        self.put(process, type_, last.name, last.key, right)

    def spoil(self):
        """An event somewhere that may leave the history ill-formed."""
        draw, events = self.draw, self.model.events
        name = draw.choice(NAMES[draw.choice(KINDS)])
        type_ = draw.choice(['invoke', 'ok', 'fail', 'info'])
        value = self.value(name) if type_ == 'invoke' else None
        events.insert(draw.randrange(len(events) + 1), Event(draw.randrange(self.clients + 1), draw.choice(self.keys), type_, name, value))


# runs

class Choosing(Judge):
    """Judges an explanation, and which of the certificates it tells."""

    def certificate(self, told, kind, ops):
        first = told.next
        form = super().certificate(told, kind, ops)
        failing = max((op for op in ops if op.end is not None), key=lambda op: op.end)
        lines, right = told.lines[first:told.next], wanted(kind, ops, failing, self.spot)[1] or [NO_REASON]
        # where nothing leaves a value it is spent too, which is told of an operation that failed to leave it; where no other form holds, what a
        # search tells the failure by
        is_of_search = form in ('stale', 'surplus') and right == [NO_REASON]
        if lines != right and not is_of_search and not (form == 'spent' and right[0].startswith('why: nothing leaves')):
            raise Wrong('another certificate is wanted. Told is\n%s\n  and not\n%s' % ('\n'.join(lines) or 'none', '\n'.join(right) or 'none'))
        return form


def absence(model, key):
    """What is told where no event has the key that is asked about; None where one has it, or none is asked about."""
    keys = sorted({event.key for event in model.events})
    if key is None or key in keys:
        return None
    there = ', '.join(map(str, keys[:8])) + ' and %d more' % (len(keys) - 8) * (len(keys) > 8)
    told = '; the keys are ' + there if len(keys) > 1 else '; the key is ' + there if keys else ', and there are no others'
    return 'no event has key %d%s' % (key, told)


class Run:
    """Runs of the program on one recording."""

    def __init__(self, program, name, model, text, places, refusal=None):
        self.program, self.name, self.model, self.text, self.places, self.refusal = program, name, model, text, places, refusal
        self.counts, self.passed, self.faults = collections.Counter(), 0, []

    def with_file(self, runs):
        with tempfile.TemporaryDirectory() as self.folder:
            with open(os.path.join(self.folder, 'FILE'), 'wb') as file:
                file.write(self.text.encode())
            runs()
        return self.passed, self.faults, self.counts

    def run(self, words, commands='', told=''):
        done = subprocess.run([self.program] + words, input=commands, cwd=self.folder, capture_output=True, text=True)
        told = self.note() if self.refusal is not None and words[0] == 'check' else told
        if done.stderr != told or done.stdout and not done.stdout.endswith('\n'):
            raise Wrong('the last line has no end, or standard error has something else than is wanted there: %s' % done.stderr)
        return done.stdout.split('\n')[:-1], done.returncode

    def note(self):
        """What is told beside a report of a refused file."""
        lines = '; '.join(self.refusal[1:])
        place = re.match(r'line \d+, byte (\d+): ', lines)
        is_quoted = place and not self.refusal[0].startswith('refused input truncated')
        return 'lincheck: FILE: %s%s\n' % (lines, quoted(self.text.encode()[int(place[1]):]).decode() if is_quoted else '')

    def options(self, budget):
        return ['--kind', self.model.default] + ['--keyed'] * self.model.keyed + ['--budget', str(budget)] * (budget != 65536)

    def judged(self, words, judge, commands='', told=''):
        """One run: what is wrong with it, if anything."""
        lines = []
        try:
            lines, status = self.run(words, commands, told)
            judge(lines, status)
            self.passed += 1
        except (Wrong, ValueError, KeyError, IndexError) as fault:
            self.faults.append('%s: %s\n  %s\n%s\nprints\n%s' % (
                self.name, shlex.join(words), fault, self.text + commands, '\n'.join(lines)))

    def is_absent(self, words, key):
        """Whether no event has the key. If none has, the run prints nothing and tells which keys there are."""
        told = absence(self.model, key)
        if self.refusal is not None or told is None:
            return False

        def judge(lines, status):
            if lines or status != 5:
                raise Wrong('status %d, and no event has the key' % status)

        self.counts['key of no event'] += 1
        self.judged(words, judge, told='lincheck: FILE: %s\n' % told)
        return True

    def explain(self, budget, key, with_order):
        words = ['explain'] + self.options(budget) + ['FILE'] + (['--key=%d' % key] if key is not None else []) + ['--order'] * with_order
        if self.is_absent(words, key):
            self.is_absent(words + ['--format', 'json'], key)
            return

        def judge(lines, status):
            self.model.budget = budget
            if self.refusal is not None:
                Told(lines + ['']).want(*self.refusal, '')
                answer = 'refused'
                line, offset = map(int, re.match(r'line (\d+), byte (\d+): ', lines[1]).groups())
                wanted.append(compact({**head(lines[0]), 'line': line, 'offset': offset, 'text': '\n'.join(lines)}))
            else:
                judge = Choosing(self.model, self.places, self.counts)
                answer = judge.explanation(lines, key, with_order)
                wanted.append(judge.machine(lines))
            if status != STATUS[answer]:
                raise Wrong('status %d, and the answer is %s' % (status, answer))

        def judge_machine(lines, status):
            Told(lines + ['']).want(*wanted, '')

        wanted = []
        self.judged(words, judge)
        if wanted:
            self.judged(words + ['--format', 'json'], judge_machine)

    def report(self, budget):
        """The report for machines."""
        def judge(lines, status):
            self.model.budget = budget
            line, = lines
            if self.refusal is not None:
                Told(lines).want(compact(head(self.refusal[0])))
                answer = 'refused'
            else:
                answer = judge_report(self.model, line)
            if status != STATUS[answer]:
                raise Wrong('status %d, and the answer is %s' % (status, answer))

        self.judged(['check'] + self.options(budget) + ['--format', 'json', 'FILE'], judge)

    def edit(self, budget, key, keep):
        """Explanations in `edit`, of the whole, of an object, and of a beginning."""
        count = len(self.model.events)
        shorter = Model(self.model.keyed, self.model.default, budget)
        shorter.events, shorter.known = self.model.events[:keep], self.model.known
        commands = ['pull', 'explain', 'explain %d' % key, 'truncate %d' % keep, 'explain']

        def judge(lines, status):
            self.model.budget = budget
            told = Told(lines)
            told.want('ok %d' % count)
            self.explained(told, self.model, None)
            self.explained(told, self.model, key)
            told.want('ok %d' % keep)
            answer = self.explained(told, shorter, None)
            told.end()
            if status != STATUS[answer]:
                raise Wrong('status %d, and the answer is %s' % (status, answer))

        self.judged(['edit'] + self.options(budget) + ['FILE'], judge, '\n'.join(commands) + '\n')

    def explained(self, told, model, key):
        """A reply to `explain`: how many lines, and the lines."""
        size = int(told.match('explained (%s)' % NUMBER)[1])
        lines, absent = [told.take() for _ in range(size)], absence(model, key)
        if absent is not None and lines.pop() != absent:
            raise Wrong('the last line has to be: %s' % absent)
        return Choosing(model, None, self.counts).explanation(lines, key, False)


def random_runs(program, number, seed):
    draw = random.Random(seed * 1000003 + number)
    history, sheet = History(draw), Sheet(draw)
    model = history.model
    sheet.put_events(model.events, model.keyed, draw.random() < 0.6)
    refusal = sheet.put_fault(model.keyed) if draw.random() < 0.06 else None
    run = Run(program, 'history %d' % number, model, sheet.text, sheet.places, refusal)

    def runs():
        run.explain(65536, None, False)
        if draw.random() < 0.6:
            key = draw.choice(history.keys + [None, 7]) if draw.random() < 0.6 else None
            run.explain(draw.choice([65536, 1000000] + list(range(1, 14))), key, draw.random() < 0.6)
        if draw.random() < 0.3:
            run.report(draw.choice([65536, 1, 3, 5]))
        if draw.random() < 0.25 and refusal is None:
            run.edit(draw.choice([65536, 3, 7]), draw.choice(history.keys), draw.randrange(len(model.events) + 1))

    return run.with_file(runs)


def worked_runs(program, number):
    words, events = WORKED[number]
    words = words.split()
    options = dict(zip(words, words[1:]))
    model = Model('--keyed' in words, options.get('--kind', 'register'), 65536)
    text = b''.join(line + b'\n' for line in maps(events))
    places = [(match.start(), line) for line, match in enumerate(re.finditer(rb'.+', text), 1)]
    for process, type_, name, said in re.findall(r'p(\d+) (\w+) (\w+)([^;]*)', events):
        value = [None if word == 'nil' else int(word) for word in re.findall(r'nil|-?\d+', said)]
        key = value.pop(0) if model.keyed else 0
        model.events.append(Event(int(process), key, type_, name, tuple(value) if '{' in said else value[0] if value else None))
    run = Run(program, 'worked history %d' % number, model, text.decode(), places)
    key = int(options['--key']) if '--key' in words else None
    return run.with_file(lambda: [run.explain(65536, key, with_order) for with_order in (False, True)])


def main():
    given = sys.argv[1:]
    histories, seed = int(given[0]) if given else HISTORIES, int(given[1]) if given[1:] else 1
    program = os.path.abspath(os.environ.get('LINCHECK') or built())
    passed, faults, counts, longest = 0, [], collections.Counter(), 0
    with ProcessPoolExecutor(os.cpu_count()) as pool:
        worked = pool.map(worked_runs, itertools.repeat(program), range(len(WORKED)))
        drawn = pool.map(random_runs, itertools.repeat(program), range(histories), itertools.repeat(seed), chunksize=8)
        for right, wrong, counted in itertools.chain(worked, drawn):
            passed, faults = passed + right, faults + wrong
            longest = max(longest, counted.pop('longest text', 0))
            counts += counted
    for fault in faults[:10]:
        print(fault)
    for name in sorted(counts):
        print('%s: %d' % (name, counts[name]))
    print('longest text: %d lines' % longest)
    print('%d passed, %d failed' % (passed, len(faults)))
    return 1 if faults or not passed else 0


if __name__ == '__main__':
    sys.exit(main())
