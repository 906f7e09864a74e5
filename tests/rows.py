#!/usr/bin/env python3
"""Runs the built program on the rows of tests/rows/, and compares what it prints and how it ends with what each row wants.

A file of tests/rows/ is a topic. Its lines:

    # REMARK                   says nothing, as an empty line
    [NAME]                     begins a group of rows, which has no history at first
    events EVENT; EVENT        the history of the rows below, in short forms such as `p0 invoke write 1; p1 ok read nil`: a value that is
                               left out is nil, a key stands in the value (`[1 7]`), and each event is an operation map in its own line
    text BYTES                 the history, byte for byte
    parts TEXT COUNT ..        the history, each text so many times
    WORDS => STATUS: LINE      a row: the words of the command line, the exit status and the line wanted on standard output
    WORDS => STATUS:           a row that prints nothing, or what the lines below say, which are indented by two spaces:
      LINE                       a line wanted on standard output; `...` is any text, but some
      = LINE                     the same, where the line begins with a mark of the lines below
      < COMMAND                  a line of standard input; one that ends with `\\c` ends without byte 10
      <parts TEXT COUNT ..       a line of standard input, each text so many times
      + EVENT; EVENT             `append MAP` on standard input for each event, and `ok LEN` wanted, one more than the last such LEN
      +COUNT EVENT; EVENT        the same so many times, where `#` is the number of the turn, from 0 on, but for the `#` of a set
      % NAME=LEAST..MOST ..      `work` on standard input, and a line of its counts wanted of which each that is named (`scans`, `steps`, `tries`)
                                 has grown by as much since the line `%` before, or the start; `NAME=COUNT` is just so much, `LEAST..` at least
      ? LINE                     a line wanted on standard error
      ~ BYTES                    the file grows by these bytes once all lines wanted so far are there
      !                          standard input fails once all lines wanted so far are there

Words are divided and quoted as in a shell, those of `parts` too. Bytes, commands and words know the escapes of Python. `FILE` is a file
with the history, the only one of the folder. A row stands for several where it has the word `EACH` (each kind of object), `FILE:A..B`
(the first A bytes of the history, the first A + 1, and so on to B) or at its end `> A..B` (a standard output that takes A bytes of what
is wanted and then fails, one that takes A + 1, and so on). `> PATH` sends standard output elsewhere. Standard error has to stay empty, but
for the lines that are wanted there, and for what is told of files that are refused: where `check`, `verify` or `draw` print that FILE is refused, a
line says where in the history and the rule (REFUSED), once for each time that FILE is named.

A line of another form is a fault, and so is a group without rows.

usage: tests/rows.py [--quick] [TOPIC ..]   (builds what isn't built, unless LINCHECK in the environment names the program; --quick leaves out
       what has many bytes, for a program that is slow)
The last line counts the rows.
"""
import dataclasses
import glob
import itertools
import os
import re
import shlex
import socket
import subprocess
import sys
import tempfile
import threading
from concurrent.futures import ThreadPoolExecutor

HERE = os.path.dirname(os.path.abspath(__file__))
FOLDER = os.path.join(HERE, 'rows')
KINDS = [b'register', b'cas-register', b'fifo', b'set', b'mutex', b'unordered-queue']
SECONDS = 600
MANY = 10000  # bytes of a row that isn't small
COUNTED = re.compile(rb'work scans (\d+) steps (\d+) tries (\d+)')
COUNTS = ('scans', 'steps', 'tries')
REFUSED = {
    b'edn 1': b'this bracket closes none, or not the one that is open',
    b'edn 2': b'this ends a map whose last key has no value',
    b'edn 3': b'this is the 65th level of nesting, and 64 are read',
    b'edn 4': b'this element, comment or discard has more than 16777216 bytes',
    b'event 1': b'each element has to be a map, or a vector or list of maps',
    b'event 2': b'one of :process, :type, :f and :value stands twice in this map',
    b'event 3': b'this map lacks :process, :type or :f',
    b'event 4': b':process has to be an integer of at least 0, or the keyword of a nemesis',
    b'event 5': b':type has to be :invoke, :ok, :fail or :info',
    b'event 6': b':f has to be :read, :write, :cas, :enqueue, :dequeue, :add, :acquire or :release',
    b'event 7': b'with --keyed each :value has to be a pair [key value]',
    b'event 8': b":value isn't one that this :f takes or gives",
    b'truncated': b'the file ends within the element or discard that begins here',
    b'few': b"the file has fewer events of clients than --at-least asks for; what a nemesis did isn't counted",
    b'edit 2': b'a history has at most 1000000 events',
}
PLACELESS = (b'few', b'edit 2')
REFUSAL = re.compile(rb'refused (?:input )?(edn \d|event \d|truncated|few|edit 2)(?: (?!at )\w+)?(?: at (\d+))?')
NOTE = re.compile(rb'lincheck: FILE: (?:line (\d+), byte (\d+): )?(.*)')
HINTS = [  # what may help, behind the rule
    b'; the value is of two parts: if it is a key and a value, say --keyed',
    b'; its keys are strings: is it JSON? (examples/from_json.py makes a history of JSON lines)',
    b'; the file begins with a byte order mark: take it away',
    b'; the file is compressed (gzip): unpack it first',
    b'; the file is UTF-16: make it UTF-8',
    b'; check a beginning of it, or its keys apart',
]
# Becomes a program whose files can't grow beyond a number of bytes. Python ignores the signal for that, and what it becomes does too:
# the write that doesn't fit is cut short, and the next one fails.
CRAMPED = 'import os, resource, sys; size = int(sys.argv[1]); resource.setrlimit(resource.RLIMIT_FSIZE, (size, size)); os.execv(sys.argv[2], sys.argv[2:])'


def quoted(found):
    """What is told of what stands at a place: up to 120 bytes, to the end of the line and of the text."""
    if not re.match(rb'[ -~]', found):
        return b''
    shown = b'; it reads ' + re.match(rb'[^\0-\x1f]*', found[:120])[0]
    shown += b'..' if len(shown) == 131 and len(found) > 120 else b''
    try:
        return shown.decode().encode()
    except UnicodeDecodeError as error:
        return shown[:error.start]


def unescaped(text):
    return text.encode('latin-1').decode('unicode_escape').encode('latin-1')


def words_of(text):
    return [unescaped(word) for word in shlex.split(text)]


def repeated(text):
    words = words_of(text)
    return b''.join(part * int(count) for part, count in zip(words[::2], words[1::2], strict=True))


def maps(events):
    """The operation maps of short forms."""
    found = []
    for event in events.split('; ') if events else []:
        parts = re.fullmatch(r'p(\d+) (invoke|ok|fail|info) (\w+)(?: (.+))?', event)
        if not parts:
            raise ValueError('no event: %s' % event)
        process, type_, function, value = parts.groups()
        found.append(b'{:process %s, :type :%s, :f :%s, :value %s}' % tuple(
            part.encode() for part in (process, type_, function, value or 'nil')))
    return found


def bounds_of(text):
    """The least and the greatest growth of each count that is named."""
    found = {}
    for word in text.split():
        parts = re.fullmatch(r'(scans|steps|tries)=(\d+)(?:(\.\.)(\d*))?', word)
        if not parts:
            raise ValueError('no bound: %s' % word)
        name, least, dots, most = parts.groups()
        found[COUNTS.index(name)] = int(least), int(most or 1 << 64) if dots else int(least)
    return found


HISTORIES = {'events': lambda text: b''.join(line + b'\n' for line in maps(text)), 'text': unescaped, 'parts': repeated}


@dataclasses.dataclass
class Row:
    place: str
    words: list
    status: int
    history: tuple  # how it is said, and the text that says it
    steps: list = dataclasses.field(default_factory=list)  # bytes `told`, `wanted`, `noted`, `counted` or `grown`, or what has `failed`
    kept: int = None  # how many bytes of the history there are, and how many standard output takes: all if None
    taken: int = None
    output: str = None

    def read(self, line):
        """Reads one of the lines below the row."""
        mark, _, rest = line.partition(' ')
        if mark == '=':
            self.steps.append(('wanted', rest.encode() + b'\n'))
        elif mark == '<':
            self.steps.append(('told', unescaped(rest[:-2] if rest.endswith('\\c') else rest + '\n')))
        elif mark == '<parts':
            self.steps.append(('told', repeated(rest) + b'\n'))
        elif re.fullmatch(r'\+\d*', mark):
            before = next((int(text[3:]) for _, text in reversed(self.steps) if text.startswith(b'ok ')), 0)
            turns = [re.sub(r'#(?!\{)', str(turn), rest) for turn in range(int(mark[1:]))] if mark[1:] else [rest]
            for count, event in enumerate((event for turn in turns for event in maps(turn)), before + 1):
                self.steps += [('told', b'append %s\n' % event), ('wanted', b'ok %d\n' % count)]
        elif mark == '%':
            bounds_of(rest)
            self.steps += [('told', b'work\n'), ('counted', rest.encode())]
        elif mark == '?':
            self.steps.append(('noted', rest.encode() + b'\n'))
        elif mark == '~':
            self.steps.append(('grown', unescaped(rest)))
        elif mark == '!':
            self.steps.append(('failed', b''))
        else:
            self.steps.append(('wanted', line.encode() + b'\n'))

    def variants(self):
        """The rows that this one stands for."""
        words, changes = self.words, [[{}]]
        if words[-2:-1] == [b'>']:
            target = words[-1].decode()
            words = words[:-2]
            changes.append([{'output': target}] if '..' not in target else [{'taken': size} for size in range_of(target)])
        for at, word in enumerate(words):
            if word == b'EACH':
                changes.append([{at: kind} for kind in KINDS])
            elif word.startswith(b'FILE:'):
                changes.append([{at: b'FILE', 'kept': size} for size in range_of(word[5:].decode())])
        for chosen in itertools.product(*changes):
            change = {name: value for part in chosen for name, value in part.items()}
            said = [change.pop(at, word) for at, word in enumerate(words)]
            yield dataclasses.replace(self, words=said, **change)

    def wanted(self, printed):
        """The bytes wanted; a printed line of counts that is within its bounds is wanted as it is."""
        lines, wanted, before = printed.splitlines(), [], (0, 0, 0)
        for what, text in self.steps:
            if what == 'counted':
                found = COUNTED.fullmatch(lines[len(wanted)]) if len(wanted) < len(lines) else None
                counts = tuple(map(int, found.groups())) if found else before
                is_within = found and all(least <= counts[at] - before[at] <= most for at, (least, most) in bounds_of(text.decode()).items())
                wanted.append((found[0] if is_within else b'work, since %d %d %d: ' % before + text) + b'\n')
                before = counts
            elif what == 'wanted':
                wanted.append(text)
        return b''.join(wanted)[:self.taken]

    def is_told(self, history, found, line):
        """Whether the line of standard error tells of the refusal that was found of the history: the place of a map in a vector is any behind that of the vector."""
        note, (why, at) = NOTE.fullmatch(line), found.groups()
        if not note or not note[3].startswith(REFUSED[why]):
            return False
        rest = note[3][len(REFUSED[why]):]
        for hint in HINTS:
            rest = rest.removeprefix(hint)
        if (why in PLACELESS) != (note[1] is None):
            return False
        if why in PLACELESS:
            return not rest
        line, byte = int(note[1]), int(note[2])
        if rest != (b'' if why == b'truncated' else quoted(history[byte:])):
            return False
        is_inside = why.startswith(b'event') and history[int(at):int(at) + 1] in (b'[', b'(', b'#')
        return (int(at) < byte < len(history) if is_inside and byte != int(at) else byte == int(at)) and line == 1 + history[:byte].count(b'\n')

    def noted(self, history, failed):
        """The bytes wanted on standard error; a printed line that tells why FILE is refused is wanted as it is."""
        noted = b''.join(text for what, text in self.steps if what == 'noted')
        printed = b''.join(text for what, text in self.steps if what == 'wanted')
        # (of several files what is printed of each stands behind its name)
        of_each = [text for name, text in re.findall(rb'^file (.*)\n((?:(?!file ).*\n)*)', printed, re.M) if name == b'FILE'] or [printed]
        found = self.status == 4 and self.words[0] in (b'check', b'verify', b'draw') and REFUSAL.search(of_each[0])
        if not found or b'FILE' not in self.words:
            return noted
        lines = [line for line in failed.splitlines() if self.is_told(history, found, line)]
        wanted = self.words[1:].count(b'FILE')
        return noted + b''.join(line + b'\n' for line in lines[:wanted]) + b'why FILE is refused\n' * (wanted - len(lines))

    def fault(self, program):
        """What is wrong with the run, or None."""
        history = b''
        try:
            with tempfile.TemporaryDirectory() as folder:
                if b'FILE' in self.words:
                    how, text = self.history
                    history = HISTORIES[how](text)[:self.kept]
                    with open(os.path.join(folder, 'FILE'), 'wb') as file:
                        file.write(history)
                printed, failed, status = self.run([program] + self.words, folder)
        except (ValueError, OSError) as error:  # there is no such history; no program starts, or it ended before its file grew
            return '%s: %s' % (self.place, error)
        wanted = self.wanted(printed)
        noted = self.noted(history, failed)
        if status == self.status and failed == noted and (printed if wanted == b'...\n' else printed == wanted):
            return None
        # long words are cut, and of long texts the ends are shown
        return '%s: %s\n  wanted %d, %r %r\n  got %d, %r %r' % (
            self.place, shlex.join(word.decode('latin-1')[:80] for word in self.words),
            self.status, wanted[-500:], noted[-500:], status, printed[-500:], failed[-500:])

    def run(self, words, folder):
        """What the program prints on both outputs, and its status."""
        if self.taken is not None:
            words = [sys.executable, '-S', '-c', CRAMPED, str(self.taken)] + words
        here, there = socket.socketpair() if ('failed', b'') in self.steps else (None, None)
        with tempfile.TemporaryFile() as cramped, open(self.output or os.devnull, 'wb') as elsewhere:
            out = cramped if self.taken is not None else elsewhere if self.output else subprocess.PIPE
            with subprocess.Popen(words, cwd=folder, bufsize=0, stdin=there or subprocess.PIPE, stdout=out, stderr=subprocess.PIPE) as program:
                timer = threading.Timer(SECONDS, program.kill)
                timer.start()
                try:
                    if there:
                        # A socket that is closed before it has read what came resets its peer, whose next read fails.
                        there.send(b'unread')
                        there.close()
                    before, told = self.follow(program, here, os.path.join(folder, 'FILE'))
                    printed, failed = program.communicate(told or None)
                finally:
                    timer.cancel()
            if self.taken is not None:
                cramped.seek(0)
                printed = cramped.read()
        return before + (printed or b''), failed, program.returncode

    def follow(self, program, peer, path):
        """Goes on to the last growth of the file, or until standard input fails. Gives what was read, and what is to be told from there on."""
        read, told, due = b'', b'', 0
        for what, text in self.steps:
            if what == 'told':
                told += text
            elif what in ('wanted', 'counted'):
                due += 1
            elif what != 'noted':
                if peer:
                    peer.sendall(told)
                else:
                    program.stdin.write(told)
                told = b''
                while read.count(b'\n') < due and (line := program.stdout.readline()):
                    read += line
                if what == 'failed':
                    peer.close()
                else:
                    with open(path, 'ab') as file:
                        file.write(text)
        return read, told


def range_of(text):
    first, last = text.split('..')
    return range(int(first), int(last) + 1)


def rows_of(topic):
    """The rows of a topic, by their groups."""
    groups, rows, row, history, place = {}, None, None, None, topic
    with open(os.path.join(FOLDER, topic + '.txt'), encoding='ascii') as file:
        for number, line in enumerate(file.read().splitlines(), 1):
            how, _, text = line.partition(' ')
            is_row = re.fullmatch(r'(.*?) ?=> (\d+):(?: (.+))?', line)
            place = '%s.txt, line %d' % (topic, number)
            try:
                if not line or how == '#':
                    continue
                if line.startswith('  ') and row:
                    row.read(line[2:])
                elif re.fullmatch(r'\[[\w-]+\]', line) and line[1:-1] not in groups and rows != []:
                    rows = groups[line[1:-1]] = []
                    row = history = None
                elif how in HISTORIES and rows is not None:
                    row, history = None, (how, text)
                elif is_row and rows is not None and (history or 'FILE' not in line):
                    row = Row(place, words_of(is_row[1]), int(is_row[2]), history)
                    rows.append(row)
                    if is_row[3]:
                        row.read(is_row[3])
                else:
                    raise ValueError('no such line here: %s' % line)
            except ValueError as fault:
                raise ValueError('%s: %s' % (place, fault)) from fault
    if not rows:
        raise ValueError('%s: the last group has no rows' % place)
    return {name: [variant for row in rows for variant in row.variants()] for name, rows in groups.items()}


def built():
    """The program of this repository: one that isn't there, or is older than its sources, is built first."""
    subprocess.run([os.path.join(HERE, '..', 'lincheck'), '--help'], stdout=subprocess.DEVNULL)
    return os.path.join(HERE, '..', 'crates', 'lincheck', 'out', 'lincheck')


def is_small(row):
    """Whether the row has few bytes to read."""
    how, text = row.history or ('', '')
    return how != 'parts' and len(text) + sum(len(text) for _, text in row.steps) < MANY


def main():
    is_quick = sys.argv[1:2] == ['--quick']
    asked = sys.argv[2 if is_quick else 1:] or sorted(os.path.basename(path)[:-4] for path in glob.glob(os.path.join(FOLDER, '*.txt')))
    passed, faults, topics = 0, [], {}
    for name in asked:
        try:
            topics[name] = [row for group in rows_of(name).values() for row in group if not is_quick or is_small(row)]
        except (OSError, ValueError) as fault:
            faults.append(str(fault))
    program = os.path.abspath(os.environ.get('LINCHECK') or built())
    with ThreadPoolExecutor(os.cpu_count()) as pool:
        for name, rows in topics.items():
            found = [fault for fault in pool.map(lambda row: row.fault(program), rows) if fault]
            passed += len(rows) - len(found)
            faults += found
            print('%s: %d rows' % (name, len(rows)))
    for fault in faults:
        print(fault)
    print('%d passed, %d failed' % (passed, len(faults)))
    return 1 if faults or not passed else 0


if __name__ == '__main__':
    sys.exit(main())
