#!/usr/bin/env python3
"""What the program tells of a reading that takes long: a line on a terminal, and nothing elsewhere; and of a file that became shorter while it was read, or other bytes.

Standard error is a pseudo terminal, a pipe or a file, and the history comes through a FIFO in some 2.5 seconds, or stands in a file. What the
terminal has to show is a line at most once a second, over itself, and at the end of the reading, before the answer, an empty line. Standard output
and the exit status have to be those of the same history in a file.

usage: tests/progress.py   (builds what isn't built, unless LINCHECK in the environment names the program)
"""
import os
import re
import subprocess
import sys
import tempfile
import threading
import time
from concurrent.futures import ThreadPoolExecutor

sys.dont_write_bytecode = True
from rows import built

LONG, LATE, LIMIT = 2.5, 1.5, 60
PAIR = '{:process 0, :type :invoke, :f :write, :value %d}\n{:process 0, :type :ok, :f :write, :value %d}\n'
HISTORY = ''.join(PAIR % (it, it) for it in range(15000)).encode()
QUICK = HISTORY[:HISTORY.index(b'\n', 200000) + 1]
AT = len(HISTORY) * 7 // 10
FAULTY = HISTORY[:AT] + b'}' + HISTORY[AT:]
UNIT = {b'kB': 1000, b'MB': 1000000}


class Wrong(Exception):
    pass


def feed(pipe, text, seconds):
    """Writes the text evenly in so many seconds, as far as anyone reads it."""
    start, given = time.monotonic(), 0
    try:
        while given < len(text):
            due = int(len(text) * min(1, (time.monotonic() - start) / seconds))
            given += pipe.write(text[given:due])
            time.sleep(0.02)
        pipe.close()
    except BrokenPipeError:
        pass


def shown_on(terminal):
    """What is written to a terminal until the last one that has it open is gone."""
    shown = b''
    while True:
        try:
            more = os.read(terminal, 65536)
        except OSError:
            more = b''
        if not more:
            return shown
        shown += more


def run(words, given=b'', after=0):
    """The standard output, standard error and exit status of a run with so much on standard input so many seconds after its start, without a terminal."""
    process = subprocess.Popen(words, stdin=subprocess.PIPE, stdout=subprocess.PIPE, stderr=subprocess.PIPE)
    time.sleep(after)
    out, err = process.communicate(given, LIMIT)
    return out, err, process.returncode


def run_on_terminal(words, given=b'', after=0, whole=False):
    """The same where standard error, or standard output too, is a terminal."""
    terminal, end = os.openpty()
    process = subprocess.Popen(words, stdin=subprocess.PIPE, stdout=end if whole else subprocess.PIPE, stderr=end)
    os.close(end)
    with ThreadPoolExecutor() as pool:
        shown = pool.submit(shown_on, terminal)
        time.sleep(after)
        out = process.communicate(given, LIMIT)[0]
        shown = shown.result()
    os.close(terminal)
    return out or b'', shown, process.returncode


class Case:
    def __init__(self, program, folder):
        self.program, self.folder = program, folder

    def file(self, text):
        path = os.path.join(self.folder, 'file')
        with open(path, 'wb') as file:
            file.write(text)
        return path

    def fifo(self, text, name='f' * 41):
        """A FIFO, of a name that is too long to be told unless another one is given, through which the text comes slowly."""
        path = os.path.join(self.folder, name)
        os.mkfifo(path)
        threading.Thread(target=lambda: feed(open(path, 'wb', buffering=0), text, LONG), daemon=True).start()
        return path

    def see(self, found, text, words=('check',), given=b''):
        """Sees that a run, but for what is told of the reading, is that on a file without a terminal."""
        wanted = run([self.program, *words, self.file(text)], given)
        if wanted[1] or not wanted[0]:
            raise Wrong('on a file without a terminal: %r' % (wanted,))
        if found != wanted:
            raise Wrong('%r instead of %r' % (found, wanted))

    def see_told(self, shown, name='the file'):
        """Sees that a terminal shows lines about the file of this name, wiped before anything else, and gives their number and what follows."""
        line = rb'\rlincheck: (\d+) (kB|MB) of %s read\x1b\[K' % re.escape(name.encode())
        found = re.match(rb'(?:%s)+\r\x1b\[K' % line, shown)
        told = [int(count) * UNIT[unit] for count, unit in re.findall(line, shown)]
        if not found or told != sorted(told) or not 0 < told[0] <= told[-1] <= len(HISTORY):
            raise Wrong('the terminal shows %r' % shown)
        return len(told), shown[found.end():]

    def named(self):
        start, path = time.monotonic(), self.fifo(HISTORY, 'f')
        out, shown, status = run_on_terminal([self.program, 'check', path])
        took = time.monotonic() - start
        count, rest = self.see_told(shown, path if len(path) <= 40 else 'the file')
        if count > took:
            raise Wrong('%d lines in %.1f seconds' % (count, took))
        self.see((out, rest, status), HISTORY)

    def long_name(self):
        out, shown, status = run_on_terminal([self.program, 'check', self.fifo(HISTORY)])
        self.see((out, self.see_told(shown)[1], status), HISTORY)

    def control_character(self):
        out, shown, status = run_on_terminal([self.program, 'check', self.fifo(HISTORY, '\x1b')])
        self.see((out, self.see_told(shown)[1], status), HISTORY)

    def refused(self):
        """A history that is refused before its end, where standard output is the terminal too."""
        _, shown, status = run_on_terminal([self.program, 'check', self.fifo(FAULTY)], whole=True)
        self.see_refused((self.see_told(shown)[1].replace(b'\r\n', b'\n'), b'', status))

    def see_refused(self, found):
        """Sees that a run over a FIFO is that over a file, but for the note that is made from the file read once more: no FIFO is opened again."""
        out, err, status = run([self.program, 'check', self.file(FAULTY)])
        if not out or not err.startswith(b'lincheck: ') or found != (out, b'', status):
            raise Wrong('%r instead of %r' % (found, (out, b'', status)))

    def refused_pipe(self):
        """The same without a terminal. A run that opened the FIFO again would wait for another writer, up to LIMIT."""
        self.see_refused(run([self.program, 'check', self.fifo(FAULTY)]))

    def pulled(self):
        """Commands, the last of which finds the file at its end."""
        given = b'pull\nanswer\npull\n'
        out, shown, status = run_on_terminal([self.program, 'edit', self.fifo(HISTORY)], given)
        self.see((out, self.see_told(shown)[1], status), HISTORY, ['edit'], given)

    def pipe(self):
        self.see(run([self.program, 'check', self.fifo(HISTORY)]), HISTORY)

    def errors_in_file(self):
        with tempfile.TemporaryFile() as errors:
            words = [self.program, 'check', self.fifo(HISTORY)]
            done = subprocess.run(words, stdin=subprocess.DEVNULL, stdout=subprocess.PIPE, stderr=errors, timeout=LIMIT)
            errors.seek(0)
            self.see((done.stdout, errors.read(), done.returncode), HISTORY)

    def quick(self):
        self.see(run_on_terminal([self.program, 'check', self.file(QUICK)]), QUICK)

    def late(self):
        """A quick file that is pulled long after it was opened, and again."""
        given = b'pull\npull\n'
        self.see(run_on_terminal([self.program, 'edit', self.file(QUICK)], given, LATE), QUICK, ['edit'], given)

    def shorter(self):
        """A file that becomes shorter than what was pulled from it, which is told once, and then longer again."""
        path = self.file(QUICK)
        process = subprocess.Popen([self.program, 'edit', path], stdin=subprocess.PIPE, stdout=subprocess.PIPE, stderr=subprocess.PIPE, bufsize=0)
        replies = []
        for text in (None, QUICK[:1000], QUICK[:2000], QUICK + HISTORY[:len(PAIR % (0, 0))]):
            if text is not None:
                self.file(text)
            for command in (b'pull\n', b'pull\n'):
                process.stdin.write(command)
                replies.append(process.stdout.readline())
        process.stdin.close()
        events = QUICK.count(b'\n')
        wanted = [b'ok %d\n' % events] * 6 + [b'ok %d\n' % (events + 2)] * 2
        told = process.stderr.read()
        if replies != wanted or told != b'lincheck: %s: it is shorter than what was read of it\n' % path.encode() or process.wait():
            raise Wrong('%r and %r' % (replies, told))

    def changed(self):
        """A file that gets other bytes in place of those that were pulled, as many or more, which is told once."""
        path = self.file(QUICK)
        process = subprocess.Popen([self.program, 'edit', path], stdin=subprocess.PIPE, stdout=subprocess.PIPE, stderr=subprocess.PIPE, bufsize=0)
        replies, events, more = [], QUICK.count(b'\n'), HISTORY[:len(PAIR % (0, 0))]
        read = QUICK + more
        other = read[:-3] + bytes([read[-3] ^ 1]) + read[-2:]
        for text in (None, QUICK, read, other + more, read + more + more):
            if text is not None:
                self.file(text)
            process.stdin.write(b'pull\n')
            replies.append(process.stdout.readline())
        process.stdin.close()
        wanted = [b'ok %d\n' % (events + it) for it in (0, 0, 2, 4, 6)]
        told = process.stderr.read()
        if replies != wanted or told != b'lincheck: %s: the bytes that were read of it have changed\n' % path.encode() or process.wait():
            raise Wrong('%r and %r' % (replies, told))

    def standard_input(self):
        self.see(run_on_terminal([self.program, 'check', '-'], HISTORY, LATE), HISTORY)


CASES = [
    Case.named,
    Case.long_name,
    Case.control_character,
    Case.refused,
    Case.refused_pipe,
    Case.pulled,
    Case.pipe,
    Case.errors_in_file,
    Case.quick,
    Case.late,
    Case.shorter,
    Case.changed,
    Case.standard_input,
]


def fault_of(case, program):
    with tempfile.TemporaryDirectory(prefix='p') as folder:
        try:
            case(Case(program, folder))
        except (Wrong, subprocess.TimeoutExpired) as fault:
            return '%s: %s' % (case.__name__, fault)


def has_terminals():
    """Whether this machine makes pseudo terminals."""
    try:
        for end in os.openpty():
            os.close(end)
    except OSError:
        return False
    return True


def main():
    program = os.path.abspath(os.environ.get('LINCHECK') or built())
    cases = CASES if has_terminals() else [Case.refused_pipe, Case.pipe, Case.errors_in_file, Case.shorter, Case.changed]
    if cases is not CASES:
        print('no pseudo terminal can be made here: only what is told elsewhere is looked at')
    with ThreadPoolExecutor(len(cases)) as pool:
        faults = [fault for fault in pool.map(lambda case: fault_of(case, program), cases) if fault]
    for fault in faults:
        print(fault)
    print('%d passed, %d failed' % (len(cases) - len(faults), len(faults)))
    return 1 if faults else 0


if __name__ == '__main__':
    sys.exit(main())
