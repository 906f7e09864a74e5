#!/usr/bin/env python3
"""Refutations of small histories, judged by a plain text of the five rules of docs/REFUTATIONS.md.

1. Of random histories the sets of all configurations, found by trying every order of every prefix, are a refutation exactly where the
   history has no legal order. With one member or one set left out, one member in the last set, another reply, process or state, they
   are none. With one member more they may be; but sets that pass the rules hold each configuration that an order ends in.
2. The rows `refutes` of crates/lin_rows, whose sets `check_refutation` judges there, are judged the same here.

usage: tests/refutations.py [HISTORIES] [SEED]   (the last line counts what was judged)
       tests/refutations.py --examples COUNT SEED   (prints such rows, each with what is said of it)
"""
import os
import random
import re
import sys

sys.dont_write_bytecode = True
from edits import KINDS, NAMES, START, Event, bad_event, configurations, operations, steps

ROWS = os.path.join(os.path.dirname(os.path.abspath(__file__)), '../crates/lin_rows')


def with_pair(placed, process, reply):
    return tuple(sorted(placed + ((process, reply),), key=lambda pair: pair[0]))


def comes_of(kind, events, i, member):
    """What the rules ask for in set i, if this member is in it: each open operation placed, where it isn't, with each outcome."""
    state, placed = member
    for at, _, end in operations(events[:i]):
        process, call = events[at].process, events[at]
        if end in ('open', 'info') and process not in dict(placed):
            for after, reply in steps(kind, state, call.name, call.value):
                yield after, with_pair(placed, process, reply)


def left_of(event, member):
    """What the rules ask for in the next set, if this member is in the one before the event: one member or none."""
    state, placed = member
    if event.type == 'ok':
        pair = (event.process, event.reply())
        return [(state, tuple(p for p in placed if p != pair))] if pair in placed else []
    if event.type == 'fail' and event.process in dict(placed):
        return []
    return [member]


def is_refutation(kind, events, sets):
    """The five rules, in their order."""
    if len(sets) != len(events) + 1:
        return False
    rise = all(p[0] < q[0] for members in sets for _, placed in members for p, q in zip(placed, placed[1:]))
    begins = (START[kind], ()) in sets[0]
    closed = all(d in sets[i] for i, members in enumerate(sets) for c in members for d in comes_of(kind, events, i, c))
    kept = all(d in sets[i + 1] for i, event in enumerate(events) for c in sets[i] for d in left_of(event, c))
    return rise and begins and closed and kept and not sets[-1]


def exact(kind, events):
    """All configurations of each prefix, by whole orders, in an order that each run has."""
    return [sorted(((state, tuple(sorted(placed, key=lambda pair: pair[0]))) for state, placed in configurations(kind, events[:i])), key=repr)
            for i in range(len(events) + 1)]


def holds_all(all_sets, sets):
    return len(sets) == len(all_sets) and not sets[-1] and all(set(a) <= set(b) for a, b in zip(all_sets, sets))


def history(draw, kind):
    """Well-formed, up to 7 events of three processes, mostly cut where it fails."""
    events = []
    for _ in range(draw.randrange(2, 8)):
        process = draw.randrange(3)
        last = next((e for e in reversed(events) if e.process == process), None)
        if last is not None and last.type == 'info':
            continue
        if last is not None and last.type == 'invoke':
            type_, name = draw.choice(['ok', 'ok', 'ok', 'fail', 'info']), last.name
        else:
            type_, name = 'invoke', draw.choice(NAMES[kind])
        value = {'write': draw.choice([1, 2]), 'enqueue': draw.choice([1, 2]), 'add': draw.choice([1, 2]),
                 'cas': (draw.choice([None, 1]), 2)}.get(name)
        if type_ == 'ok' and name in ('read', 'dequeue'):
            value = draw.choice([(), (1,), (1, 2)]) if kind == 'set' else draw.choice([None, 1, 2])
        events.append(Event(process, 0, type_, name, value))
        if not configurations(kind, events) and draw.random() < 0.9:
            break
    return events


def other_reply(draw, reply):
    return draw.choice([r for r in ['done', ('value', None), ('value', 1), ('value', 2)] if r != reply])


def taken_away(draw, sets):
    """Sets that lack a member, or a set, or have one in the last."""
    for i, members in enumerate(sets):
        for k, (state, placed) in enumerate(members):
            rest = members[:k] + members[k + 1:]
            yield sets[:i] + [rest] + sets[i + 1:]
            if placed:
                at = draw.randrange(len(placed))
                process, reply = placed[at]
                yield sets[:i] + [rest + [(state, placed[:at] + ((process, other_reply(draw, reply)),) + placed[at + 1:])]] + sets[i + 1:]
                yield sets[:i] + [rest + [(state, placed[:at] + ((process + 3, reply),) + placed[at + 1:])]] + sets[i + 1:]
    drop = draw.randrange(len(sets))
    yield sets[:drop] + sets[drop + 1:]
    yield sets[:-1] + [[draw.choice([m for members in sets for m in members])]]


def added(draw, kind, events, sets):
    """Sets with one member more, and with all that the rules ask for because of it."""
    i = draw.randrange(len(sets) - 1)
    state, placed = draw.choice([m for members in sets for m in members])
    more = [list(members) for members in sets]
    more[i].append((state, placed) if draw.random() < 0.5 else (state, ()))
    yield [list(members) for members in more]
    for i, members in enumerate(more):
        for c in members:
            members.extend(d for d in comes_of(kind, events, i, c) if d not in members)
            if i < len(events):
                more[i + 1].extend(d for d in left_of(events[i], c) if d not in more[i + 1])
    yield more


def judge(draw):
    """What is wrong with the rules on the sets of a random history and on their changes."""
    kind = draw.choice(KINDS)
    events = history(draw, kind)
    assert bad_event(events, lambda key: kind) is None
    all_sets = exact(kind, events)
    fails = not all_sets[-1]
    yield is_refutation(kind, events, all_sets) == fails
    if fails:
        for sets in taken_away(draw, all_sets):
            yield not is_refutation(kind, events, sets)
        for sets in added(draw, kind, events, all_sets):
            yield not is_refutation(kind, events, sets) or holds_all(all_sets, sets)


# short forms, as the rows have them: of a register

def text_of(value):
    return 'done' if value == 'done' else 'nil' if value[1] is None else str(value[1])


def events_text(events):
    return ' '.join('/'.join([str(e.process), e.type, e.name] + ([] if e.value is None else [str(e.value)])) for e in events)


def sets_text(sets):
    return '|'.join('; '.join(' '.join([text_of(('value', state))] + ['%d:%s' % (p, text_of(r)) for p, r in placed])
                              for state, placed in members) for members in sets)


def value_of(word):
    return 'done' if word == 'done' else ('value', None if word == 'nil' else int(word))


def read_events(text):
    events = []
    for words in (word.split('/') for word in text.split()):
        value = value_of(words[3])[1] if words[3:] else None
        events.append(Event(int(words[0]), 0, words[1], words[2], value))
    return events


def read_sets(text):
    def member(words):
        pairs = (pair.split(':') for pair in words[1:])
        return value_of(words[0])[1], tuple((int(p), value_of(r)) for p, r in pairs)

    return [[member(part.split()) for part in part_of.split(';') if part.strip()] for part_of in text.split('|')]


def examples():
    """Each row about a refutation: events, sets and what is said of them."""
    with open(os.path.join(ROWS, 'stdin')) as asked, open(os.path.join(ROWS, 'stdout')) as answered:
        for row, says in zip(asked, answered):
            command, _, rest = row.rstrip('\n').partition(' ')
            if command == 'refutes':
                events, _, sets = rest.partition('|')
                yield events, sets, says == 'true\n'


def print_examples(count, seed):
    draw = random.Random(seed)
    printed = 0
    while printed < count:
        events = history(draw, 'register')
        all_sets = exact('register', events)
        if all_sets[-1] or len(events) < 4 or sum(map(len, all_sets)) > 14:
            continue
        wanted = printed % 2 == 0
        changes = list(added(draw, 'register', events, all_sets)) if wanted else list(taken_away(draw, all_sets))
        sets = draw.choice(changes)
        if is_refutation('register', events, sets) != wanted or (sets == all_sets and printed):
            continue
        print('refutes %s|%s\n%s' % (events_text(events), sets_text(sets), 'true' if wanted else 'false'))
        printed += 1


def main():
    given = sys.argv[1:]
    if given[:1] == ['--examples']:
        print_examples(int(given[1]), int(given[2]))
        return 0
    histories, seed = int(given[0]) if given else 2000, int(given[1]) if given[1:] else 1
    right = wrong = 0
    for number in range(histories):
        for fine in judge(random.Random(seed * 1000003 + number)):
            right, wrong = right + fine, wrong + (not fine)
            if not fine:
                print('history %d' % number)
    for events, sets, says in examples():
        fine = is_refutation('register', read_events(events), read_sets(sets)) == says
        right, wrong = right + fine, wrong + (not fine)
        if not fine:
            print('refutes %s|%s: %s' % (events, sets, says))
    print('%d passed, %d failed' % (right, wrong))
    return 1 if wrong or not right else 0


if __name__ == '__main__':
    sys.exit(main())
