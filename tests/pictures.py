#!/usr/bin/env python3
"""Pictures of random histories, read by an XML parser and judged by the events alone.

Each history goes through `lincheck draw`. A picture has to be an SVG of few sorts of elements, without links, within its sizes; its bars have to be
operations of the object, each in the row of its process and of the sort that it is; and its dots a legal order of the object's events (of a no: of
those before the last of the prefix), each on its bar, behind the invocation of each dot up to it and ahead of its bar's end. Below the rows stand the
lines that `explain` tells. Then come pictures in one page: what they name alike has to be the same, since there the first one counts for all.
Last come values and keys of signs that XML has for itself, whose pictures have to show them as they are, and a long value, which titles have whole.

usage: tests/pictures.py [HISTORIES] [SEED]   (builds what isn't built, unless LINCHECK in the environment names the program)
"""
import collections
import itertools
import os
import random
import re
import subprocess
import sys
import xml.etree.ElementTree as ElementTree
from concurrent.futures import ProcessPoolExecutor

sys.dont_write_bytecode = True
from certificates import operations_of
from edits import START, steps
from explain import History, Run, Sheet
from judges import STATUS, Wrong
from rows import built

HISTORIES = 400
SPACE = '{http://www.w3.org/2000/svg}'
ELEMENTS = {'svg', 'title', 'style', 'defs', 'pattern', 'linearGradient', 'stop', 'rect', 'text', 'path', 'circle', 'g'}
MOST_BARS, WIDEST, FEWEST, MOST_BYTES, LONGEST_LABEL, LONGEST_LINE = 20, 1200, 6, 65536, 22, 130


def is_legal(kind, events, ops, order):
    """Whether operations, told by the positions of their invocations, are a legal order of all that are ok, with some of the open ones."""
    by_call = {op.at: op for op in ops if op.counts()}
    if any(at not in by_call for at in order) or len(set(order)) < len(order) or any(op.how == 'ok' and op.at not in order for op in ops):
        return False
    if any(by_call[later].is_before(by_call[earlier]) for earlier, later in itertools.combinations(order, 2)):
        return False
    states = {START[kind]}
    for at in order:
        op = by_call[at]
        states = {after for state in states for after, reply in steps(kind, state, events[at].name, events[at].value) if op.how != 'ok' or reply == op.reply}
    return bool(states)


class Picture:
    def __init__(self, text):
        self.root = ElementTree.fromstring(text)
        for it in self.root.iter():
            if it.tag.removeprefix(SPACE) not in ELEMENTS or any('href' in name or name.startswith('on') for name in it.keys()):
                raise Wrong('an element that has no place in a picture: %s' % it.tag)
        self.named = {it.get('id'): ElementTree.tostring(it) for it in self.root.iter() if it.get('id')}
        if not set(re.findall(r'url\(#([^)]*)\)', text)) <= set(self.named):
            raise Wrong('something is filled with what the picture doesn\'t name: %s' % sorted(self.named))
        self.width = int(self.root.get('width'))
        self.bars = {int(it.get('data-at')): it for it in self.groups('bar')}
        self.dots = [(int(it.get('data-number')), int(it.get('data-at')), it.find(SPACE + 'circle')) for it in self.groups('dot')]
        if len(self.bars) > MOST_BARS or self.width > WIDEST and len(self.bars) > FEWEST or len(text) > MOST_BYTES:
            raise Wrong('is too large: %d bars, %d wide, %d bytes' % (len(self.bars), self.width, len(text)))

    def groups(self, name):
        return [it for it in self.root.iter(SPACE + 'g') if name in it.get('class', '').split()]

    def texts(self, name):
        return [it for it in self.root.iter(SPACE + 'text') if it.get('class') == name]

    def extent(self, at):
        box = self.bars[at].find(SPACE + 'rect')
        return int(box.get('x')), int(box.get('x')) + int(box.get('width'))

    def judge_bars(self, ops, events, failing):
        rows = {int(it.text[1:]): int(it.get('y')) - 4 for it in self.texts('name')}
        if list(rows) != sorted({events[at].process for at in self.bars}) or list(rows.values()) != sorted(rows.values()):
            raise Wrong('the rows aren\'t those of the processes: %s' % rows)
        by_call = {op.at: op for op in ops}
        for at, bar in self.bars.items():
            op = by_call[at]
            if bar.get('class').split()[1:] != [op.how] + ['failing'] * (op is failing) or bar.get('data-end') != (None if op.end is None else str(op.end)):
                raise Wrong('the bar of event %d is told to be %s' % (at, bar.get('class')))
            if int(bar.find(SPACE + 'rect').get('y')) + 9 != rows[events[at].process]:
                raise Wrong('the bar of event %d isn\'t in the row of its process' % at)
            if len(''.join(bar.find(SPACE + 'text').itertext())) > LONGEST_LABEL:
                raise Wrong('a label is too long')
        if failing is not None and failing.at not in self.bars:
            raise Wrong('the failing operation isn\'t drawn')
        if len(self.bars) < min(len(ops), FEWEST):
            raise Wrong('draws %d of %d operations' % (len(self.bars), len(ops)))

    def judge_dots(self, kind, ops, events, failing):
        """The order of the dots; where all operations are drawn it has to be legal, and else to respect real time."""
        if [number for number, _, _ in self.dots] != list(range(1, len(self.dots) + 1)):
            raise Wrong('the dots aren\'t numbered from 1')
        behind, last = 0, 0
        for number, at, circle in self.dots:
            begin, end = self.extent(at)
            behind, place = max(behind, begin), int(circle.get('cx'))
            if not (behind <= place <= end and last < place):
                raise Wrong('dot %d doesn\'t stand on its bar, behind the invocations of those before' % number)
            last = place
        order = [at for _, at, _ in self.dots]
        if len(self.bars) == len(ops) and not is_legal(kind, events, ops, order):
            raise Wrong('the dots are no legal order: %s' % order)



def judge(model, lines, told, key):
    """Judges a picture, beside the lines that `explain` prints. Gives the answer's first word."""
    answer = told[0].split()[0]
    if answer == 'ill-formed':
        if lines != told[:1]:
            raise Wrong('an ill-formed history has the one line that says so')
        return answer
    picture = Picture('\n'.join(lines))
    count = len(model.events)
    if answer != 'yes':
        at = int(told[0].split()[2]) - (answer == 'no')
        key = model.events[at].key
        count = at + 1 if answer == 'no' else count
    elif key is None:
        key = model.events[-1].key if model.events else None
    head = picture.root.find(SPACE + 'title').text
    if key is None:
        if head != 'yes, no events' or picture.bars or picture.dots:
            raise Wrong('a history without events has no bars, and the head that says so: %s' % head)
        return answer
    kind = model.kinds(key)
    ops = operations_of(model.events, count, key)
    failing = next((op for op in ops if op.end == count - 1), None) if answer == 'no' else None
    wanted = {'yes': 'yes, object %d %s' % (key, kind), 'undecided': '%s, object %d %s' % (told[0], key, kind)}.get(answer)
    if answer == 'no':
        wanted = 'no prefix %d, object %d %s: %s, %s at event %d' % (count, key, kind, failing.words(), model.events[count - 1].type, count - 1)
        if not head.startswith(wanted):
            raise Wrong('the head is %s\n  and not %s' % (head, wanted))
        first, last = (next(i for i, line in enumerate(told) if line.startswith(begin)) for begin in ('its events among', 'since event'))
        below = [text.text for text in picture.texts('line')]
        for line, shown in itertools.zip_longest(told[first + 1:last], below):
            if line is None and re.fullmatch(r'\d+ operations aren\'t drawn|1 operation isn\'t drawn', shown):
                continue
            if line is None or shown is None or (line.strip() != shown.strip() if len(line) <= LONGEST_LINE else len(shown) > LONGEST_LINE):
                raise Wrong('below the rows stands  %s\n  and not  %s' % (shown, line))
    elif head != wanted:
        raise Wrong('the head is %s\n  and not %s' % (head, wanted))
    picture.judge_bars(ops, model.events, failing)
    if answer == 'no':
        before = operations_of(model.events, count - 1, key)
        picture.judge_dots(kind, before, model.events, failing)
    elif answer == 'yes':
        picture.judge_dots(kind, ops, model.events, None)
    elif picture.dots:
        raise Wrong('what is undecided has no order')
    return answer


def random_runs(program, number, seed):
    draw = random.Random(seed * 1000003 + number)
    history, sheet = History(draw), Sheet(draw)
    sheet.put_events(history.model.events, history.model.keyed, True)
    run = Run(program, 'history %d' % number, history.model, sheet.text, sheet.places)
    key = draw.choice(history.keys) if draw.random() < 0.3 else None
    budget = draw.choice([65536, 65536, 3])

    def judged(told, lines, status):
        answer = judge(run.model, lines, told, key)
        run.counts[answer] += 1
        if status != STATUS[answer]:
            raise Wrong('status %d, and the answer is %s' % (status, answer))

    def runs():
        words = run.options(budget) + ['FILE'] + (['--key=%d' % key] if key is not None else [])
        if run.is_absent(['draw'] + words, key):
            return
        told, _ = run.run(['explain'] + words)
        run.judged(['draw'] + words, lambda lines, status: judged(told, lines, status))

    return run.with_file(runs)


def one_page(program):
    """A fault for each two pictures that name two things alike, or whose open bars don't fade out where these end: of one width, and of two."""
    faults, pictures = [], []
    for writes in (1, 1, 5, 5, 6):
        lines = ['{:process 0 :type :invoke :f :write :value 1}', '{:process 1 :type :invoke :f :read}']
        lines += ['{:process 2 :type :%s :f :write :value %d}' % (type_, (1 << 62) + at) for at in range(writes) for type_ in ('invoke', 'ok')]
        lines += ['{:process 0 :type :info :f :write}']
        ran = subprocess.run([program, 'draw', '-'], input='\n'.join(lines).encode(), capture_output=True)
        picture = Picture(ran.stdout.decode())
        pictures.append(picture)
        for at, bar in picture.bars.items():
            if {'open', 'crashed'} & set(bar.get('class').split()):
                name = re.fullmatch(r'url\(#(.*)\)', bar.find(SPACE + 'rect').get('fill')).group(1)
                fade = ElementTree.fromstring(picture.named[name])
                if int(fade.get('x2')) != picture.extent(at)[1] or not picture.extent(at)[0] <= int(fade.get('x1')) < int(fade.get('x2')):
                    faults.append('the bar of event %d ends at %d, and fades out up to %s' % (at, picture.extent(at)[1], fade.get('x2')))
    for one, other in itertools.combinations(pictures, 2):
        faults += ['two pictures name %s, and mean other things by it' % name for name in one.named.keys() & other.named.keys() if one.named[name] != other.named[name]]
    if len({picture.width for picture in pictures}) != 3:
        faults.append('the pictures are as wide as each other, which tells little: %s' % [picture.width for picture in pictures])
    return faults


def strange_words(program):
    """A fault for each word that a picture doesn't show, in a value or in the name of an object, as it is spelled."""
    faults = []
    for word in ('"<&>"', '"]]>"', '":a"', "\"'\\\"\"", ':<!--', ':&amp', '"\u00e9\u20ac"'):
        value = word if word.startswith('"') else ':' + word[1:]
        lines = ['{:process 0 :type :%s :f :write :value [%s %s]}' % (type_, value, value) for type_ in ('invoke', 'ok')]
        ran = subprocess.run([program, 'draw', '--keyed', '-'], input='\n'.join(lines).encode(), capture_output=True)
        shown = [it.text or '' for it in ElementTree.fromstring(ran.stdout).iter(SPACE + 'text')]
        if not any('object %s register' % value in it for it in shown) or 'write ' + value not in shown:
            faults.append('%s is shown as %s' % (value, shown))
    return faults


def whole_titles(program):
    """A fault where a long value is cut in the title of a bar or a dot, or isn't where it stands above a bar."""
    value = '"%s"' % ('0123456789' * 3)
    lines = ['{:process 0 :type :%s :f :write :value %s}' % (type_, value) for type_ in ('invoke', 'ok')]
    ran = subprocess.run([program, 'draw', '-'], input='\n'.join(lines).encode(), capture_output=True)
    root = ElementTree.fromstring(ran.stdout)
    titles, labels = ([it.text or '' for it in root.iter(SPACE + name)] for name in ('title', 'text'))
    wanted = ['p0 write %s, called at event 0, line 1, ok at event 1, line 2' % value, '1: p0 write ' + value]
    faults = ['no title %s among %s' % (title, titles) for title in wanted if title not in titles]
    return faults + ([] if 'write "01234567890123\u2026' in labels else ['no cut label among %s' % labels])


def main():
    given = sys.argv[1:]
    histories, seed = int(given[0]) if given else HISTORIES, int(given[1]) if given[1:] else 1
    program = os.path.abspath(os.environ.get('LINCHECK') or built())
    passed, faults, counts = 0, [], collections.Counter()
    with ProcessPoolExecutor(os.cpu_count()) as pool:
        for right, wrong, counted in pool.map(random_runs, itertools.repeat(program), range(histories), itertools.repeat(seed), chunksize=8):
            passed, faults, counts = passed + right, faults + wrong, counts + counted
    for more in (one_page(program), strange_words(program), whole_titles(program)):
        passed, faults = passed + (not more), faults + more
    for fault in faults[:10]:
        print(fault)
    for name in sorted(counts):
        print('%s: %d' % (name, counts[name]))
    print('%d passed, %d failed' % (passed, len(faults)))
    return 1 if faults or not passed else 0


if __name__ == '__main__':
    sys.exit(main())
