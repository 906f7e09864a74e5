#!/usr/bin/env python3
"""Tells at which lines the `:time` of a history falls, if each of its maps has one.

Real time is the order of the maps, and `:time` is read over: so logs that were put one behind the other, or were written under several clocks, give
false answers. Here the time of each map is compared with the latest one before it. Where it is less by more than MAY (0, if nothing is said; in the
unit of the history) that is a line, and times are compared with it from there on: so each log behind another one is told once.

usage: examples/times.py FILE [MAY]     (FILE is - for standard input)
The status is 0 where no time falls, 1 where one does, and 2 where that can't be told: a map has no `:time` that is a number, or there is no map.
"""
import decimal
import re
import sys

TOKEN = re.compile(r'''
    (?P<blank> [\t-\r ,]+ | ;[^\n]* )
  | (?P<text> \#?"[^"\\]*(?:\\.[^"\\]*)*" )
  | (?P<plain> \{ WORDS (?: (?: SIMPLE | \[ WORDS (?: SIMPLE WORDS )* \] ) WORDS )* \} )
  | (?P<discard> \#_ )
  | (?P<open> \#\{ | [(\[{] )
  | (?P<close> [)\]}] )
  | (?P<tag> \#[^\t-\r ,()\[\]{}";\\_\#'][^\t-\r ,()\[\]{}";\\]* )
  | (?P<run> \\.?[^\t-\r ,()\[\]{}";\\]* | [^\t-\r ,()\[\]{}";\\]+ )
  | (?P<unfinished> . )'''.replace('WORDS', r'[^()\[\]{}";\\\#]*').replace('SIMPLE', r'"[^"\\]*"'), re.X | re.S)
TEXT, VECTOR, WORD = re.compile('"[^"]*"'), re.compile(r'\[[^]]*\]'), re.compile(r'[^\t-\r ,]+')
NUMBER = re.compile(r'([+-]?[0-9]+(?:\.[0-9]*)?(?:[eE][+-]?[0-9]+)?)[NM]?')


class Refused(Exception):
    pass


def number(text):
    found = NUMBER.fullmatch(text)
    return found and decimal.Decimal(found[1])


def time_of_plain(text):
    """The time of a map of words, simple texts and vectors of these, as most are: quicker than element by element."""
    words = WORD.findall(VECTOR.sub(' [] ', TEXT.sub(' "" ', text[1:-1])))
    return next((number(value) for key, value in zip(words[::2], words[1::2]) if key == ':time'), None)


class Level:
    """What is open: a collection, or the file itself."""

    def __init__(self, bracket, at, is_read):
        self.bracket, self.at, self.is_read = bracket, at, is_read  # is_read: its maps are those of the history
        self.discards, self.keys, self.is_map, self.time = 0, 0, False, None

    def takes(self, text):
        """An element has ended here. Returns whether it counts: a discarded one doesn't."""
        if self.discards:
            self.discards -= 1
            return False
        if self.is_map:
            if self.keys % 2 and self.key == ':time' and self.time is None:
                self.time = number(text)
            self.key, self.keys = text, self.keys + 1
        return True


def maps(text):
    """The place of each map of the history, and its time or None."""
    levels = [Level('', 0, True)]
    for it in TOKEN.finditer(text):
        level = levels[-1]
        if it.lastgroup in ('text', 'run'):
            level.takes(it[0])
        elif it.lastgroup == 'plain':
            if level.takes(it[0]) and level.is_read:
                yield it.start(), time_of_plain(it[0])
        elif it.lastgroup == 'discard':
            level.discards += 1
        elif it.lastgroup == 'open':
            is_read = level.is_read and not level.discards
            levels.append(Level(it[0], it.start(), is_read and len(levels) == 1 and it[0] in '(['))
            levels[-1].is_map = is_read and it[0] == '{'
        elif it.lastgroup == 'close' and len(levels) > 1:
            levels.pop()
            if levels[-1].takes(level.bracket) and level.is_map:
                yield level.at, level.time
        elif it.lastgroup in ('close', 'unfinished'):
            raise Refused('line %d: no history: see lincheck check' % (text.count('\n', 0, it.start()) + 1))


def falls(text, may):
    """A line for each fall, and last how many maps there are."""
    latest, count, line, seen = None, 0, 1, 0
    for at, time in maps(text):
        line, seen, count = line + text.count('\n', seen, at), at, count + 1
        if time is None:
            raise Refused('line %d: a map without a number as its :time, so nothing is known' % line)
        if latest is not None and time < latest[0] - may:
            yield 'line %d: :time falls by %s, from %s in line %d to %s' % (line, latest[0] - time, latest[0], latest[1], time)
            latest = time, line
        elif latest is None or time > latest[0]:
            latest = time, line
    if not count:
        raise Refused('there is no map')
    yield count


def main(words):
    try:
        may = decimal.Decimal(words[1]) if words[1:] else 0
    except decimal.InvalidOperation:
        may = None
    if not 1 <= len(words) <= 2 or words[0] in ('-h', '--help') or may is None:
        print(__doc__.strip())
        return 2
    try:
        with open(0 if words[0] == '-' else words[0], encoding='latin-1', newline='') as file:
            *found, count = falls(file.read(), may)
    except (OSError, Refused) as why:
        print('times.py: %s' % why, file=sys.stderr)
        return 2
    print('\n'.join(found) or ':time never falls%s, in %d maps' % (' by more than %s' % may if may else '', count))
    return 1 if found else 0


if __name__ == '__main__':
    sys.exit(main(sys.argv[1:]))
