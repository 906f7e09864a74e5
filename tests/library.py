#!/usr/bin/env python3
"""The library for C, called from C and from Python, against the command.

For each history below and for options of all sorts, what a call writes and the number that it gives have to be what the command prints of the same
bytes and what it exits with. tests/library.c
tries rooms of several lengths besides, under the address sanitizer where cc has it; Python calls the shared object by ctypes, from four threads at once. A session that is fed a history in pieces, and asked in between, has to tell what `lincheck edit`
tells where it pulls the same pieces. Options and keys that say nothing have to be told, and to change nothing; so has a handle without a session. Last
come the programs of docs/INTEGRATION.md and adapters/c/README.md.

usage: tests/library.py     (LIBLINCHECK in the environment names the folder of built/library.sh, else nothing is tried; LINCHECK the program)
"""
import ctypes
import itertools
import os
import pathlib
import random
import re
import shutil
import subprocess
import sys
import tempfile
from concurrent.futures import ThreadPoolExecutor

sys.dont_write_bytecode = True
from rows import built

TOP = pathlib.Path(__file__).resolve().parent.parent
KINDS = ['register', 'cas-register', 'fifo', 'set', 'mutex', 'unordered-queue']
REFUSED, BAD_OPTIONS, NO_MEMORY, NO_SESSION, TOO_LITTLE_ROOM = 4, 5, 6, 7, 8
VERDICTS = ['yes', 'no', 'undecided', 'ill-formed']
UNTOLD = 77
THREADS, DRAWN, LONG = 4, 60, 3000


class Options(ctypes.Structure):
    _fields_ = [(name, ctypes.c_uint32) for name in ('kind', 'keyed', 'budget', 'order', 'json')]


class Handle(ctypes.Structure):
    _fields_ = [('at', ctypes.c_void_p)]


class Library:
    def __init__(self, file):
        shared = ctypes.CDLL(str(file))
        text, size = ctypes.c_char_p, ctypes.c_size_t
        shared.lincheck_check.argtypes = [ctypes.POINTER(Options), text, size, text, size, ctypes.POINTER(size)]
        shared.lincheck_explain.argtypes = [ctypes.POINTER(Options), text, size, text, size, text, size, ctypes.POINTER(size)]
        handle, number = ctypes.POINTER(Handle), ctypes.POINTER(ctypes.c_uint64)
        shared.lincheck_session_new.argtypes = [ctypes.POINTER(Options), handle]
        shared.lincheck_session_feed.argtypes = [handle, text, size, number]
        shared.lincheck_session_ask.argtypes = [handle, number]
        shared.lincheck_session_order.argtypes = [handle, text, size, ctypes.POINTER(size)]
        shared.lincheck_session_free.argtypes = [handle]
        for name in ('check', 'explain', 'session_new', 'session_feed', 'session_ask', 'session_order'):
            getattr(shared, 'lincheck_' + name).restype = ctypes.c_uint32
        shared.lincheck_session_free.restype = None
        self.shared = shared

    def call(self, name, options, history, key=None):
        """The number that a call gives, and what it wrote."""
        keys = [] if key is None else [key, len(key)]
        return told_in_room(lambda *room: getattr(self.shared, name)(ctypes.byref(Options(*options)), history, len(history), *keys, *room))


def told_in_room(call):
    """The number that a call gives, and what it wrote into the room that it was given: none where it may write nothing. A first call has little room."""
    room, needed = ctypes.create_string_buffer(b'\xa5' * 8, 8), ctypes.c_size_t(UNTOLD)
    number = call(room, len(room), ctypes.byref(needed))
    if number == TOO_LITTLE_ROOM:
        assert room.raw == b'\xa5' * 8 and needed.value > 8
        room = ctypes.create_string_buffer(b'\xa5' * (needed.value + 3), needed.value + 3)
        number = call(room, len(room), ctypes.byref(needed))
        assert number < BAD_OPTIONS
    if number < BAD_OPTIONS:
        assert room.raw[needed.value:] == b'\xa5' * (len(room) - needed.value)
        return number, room.raw[:needed.value]
    assert room.raw == b'\xa5' * 8 and needed.value == UNTOLD, (number, room.raw, needed.value)
    return number, None


class Session:
    """A session of the library: each call gives its number, and what it told."""

    def __init__(self, library):
        self.shared, self.handle = library.shared, Handle()

    def new(self, options):
        return self.shared.lincheck_session_new(ctypes.byref(Options(*options)), ctypes.byref(self.handle))

    def feed(self, piece):
        events = ctypes.c_uint64(UNTOLD)
        return self.shared.lincheck_session_feed(ctypes.byref(self.handle), piece, len(piece), ctypes.byref(events)), events.value

    def ask(self):
        at = ctypes.c_uint64(UNTOLD)
        return self.shared.lincheck_session_ask(ctypes.byref(self.handle), ctypes.byref(at)), at.value

    def order(self):
        return told_in_room(lambda *room: self.shared.lincheck_session_order(ctypes.byref(self.handle), *room))

    def free(self):
        self.shared.lincheck_session_free(ctypes.byref(self.handle))
        assert not self.handle.at


class Edit:
    """The command that pulls what a file has gained, and is asked in between: it tells what a session tells."""

    def __init__(self, program, options, file):
        kind, keyed, budget = options[:3]
        words = [program, 'edit', file.name, '--kind', KINDS[kind], '--budget', str(budget)] + ['--keyed'] * keyed
        self.file, self.run = file, subprocess.Popen(words, stdin=subprocess.PIPE, stdout=subprocess.PIPE)

    def told(self, command):
        self.run.stdin.write(command + b'\n')
        self.run.stdin.flush()
        return self.run.stdout.readline()

    def feed(self, piece):
        self.file.write(piece)
        self.file.flush()
        name, count, *_ = self.told(b'pull').split()
        if name == b'ok':
            return 0, int(count)
        events = int(self.told(b'report').split()[1])
        while not self.run.stdout.readline().startswith(b'whole: '):
            pass
        return REFUSED, events

    def ask(self):
        name, *words = self.told(b'ask').decode().split()
        return VERDICTS.index(name), next((int(word) for word in words if word.isdigit()), UNTOLD)

    def order(self):
        name, *words = self.told(b'order').split()
        return VERDICTS.index(name.decode()), b' '.join(words) if name == b'yes' else b''

    def end(self):
        self.run.stdin.close()
        return self.run.wait()


def told(program, name, options, history, key=b''):
    """What the command exits with and prints."""
    kind, keyed, budget, order, json = options
    words = [program, name, '-', '--kind', KINDS[kind], '--budget', str(budget)] + ['--keyed'] * keyed + ['--format', 'json'] * json
    if name == 'explain':
        words += ['--order'] * order + (['--key=' + os.fsdecode(key)] if key else [])
    done = subprocess.run(words, input=history, stdout=subprocess.PIPE, stderr=subprocess.DEVNULL)
    return done.returncode, done.stdout


def drawn(draw):
    """A history of a few clients, cut somewhere or with a wrong byte now and then."""
    lines, running = [], {}
    for _ in range(draw.randrange(40)):
        process = draw.randrange(4)
        name, value = running.pop(process, (None, None))
        if name is None:
            running[process] = name, value = draw.choice([('write', str(draw.randrange(3))), ('read', 'nil'), ('write', ':a'), ('read', 'nil')])
            lines.append('{:process %d :type :invoke :f :%s :value %s}' % (process, name, value))
        else:
            value = draw.choice(['0', '1', ':a', 'nil']) if name == 'read' else value
            lines.append('{:process %d :type :%s :f :%s :value %s}' % (process, draw.choice(['ok', 'ok', 'ok', 'fail', 'info']), name, value))
    text = bytearray('\n'.join(lines).encode())
    if text and draw.random() < 0.3:
        del text[draw.randrange(len(text)):]
    if text and draw.random() < 0.2:
        text[draw.randrange(len(text))] = draw.randrange(256)
    return bytes(text)


def histories():
    found = [path.read_bytes() for path in sorted((TOP / 'examples').glob('*.edn'))]
    long = b''.join(b'{:process 0 :type :%s :f :write :value %d}\n' % (type_, at) for at in range(LONG) for type_ in (b'invoke', b'ok'))
    draw = random.Random(1)
    return found + [b'', b' ', b'{', b'}', b'\xff\x00', long, long[:-9], long + b')'] + [drawn(draw) for _ in range(DRAWN)]


def test_python(program, library, some):
    """The same as the command, from threads."""
    choices = [(kind, keyed, budget, order, json) for kind in range(6) for keyed in (0, 1) for budget in (1, 65536) for order in (0, 1) for json in (0, 1)]
    draw = random.Random(2)

    def one(at):
        history, options = some[at % len(some)], choices[0] if at < len(some) else draw.choice(choices)
        for name, key in (('check', None), ('explain', b''), ('explain', draw.choice([b'0', b':a', b'"x"', b'true', b'-7']))):
            answer, wanted = library.call('lincheck_' + name, options, history, key), told(program, name, options, history, key or b'')
            assert (answer[0], answer[1] or b'') == wanted, (name, key, options, history[:200], answer)

    with ThreadPoolExecutor(THREADS) as pool:
        list(pool.map(one, range(3 * len(some))))


def test_sessions(program, library, some):
    """The same as `lincheck edit` of a file that grows, from threads, of which each has a handle of its own."""
    choices = [(kind, keyed, budget, order, json) for kind in range(6) for keyed in (0, 1) for budget in (1, 65536) for order in (0, 1) for json in (0, 1)]

    def one(at):
        draw = random.Random(at)
        history, options = some[at % len(some)], choices[0] if at < len(some) else draw.choice(choices)
        cuts = sorted(draw.randrange(len(history) + 1) for _ in range(draw.randrange(6)))
        session = Session(library)
        assert session.new(options) == 0
        with tempfile.NamedTemporaryFile() as file:
            edit = Edit(program, options, file)
            for begin, end in zip([0] + cuts, cuts + [len(history)]):
                for does in (lambda it: it.feed(history[begin:end]), lambda it: it.ask(), lambda it: it.order()):
                    assert does(session) == does(edit), (options, history[:200], cuts, begin)
            edit.end()
        session.free()
        session.free()

    with ThreadPoolExecutor(THREADS) as pool:
        list(pool.map(one, range(2 * len(some))))


def test_no_session(program, library, some):
    good, session = (0, 0, 65536, 0, 0), Session(library)
    for _ in range(2):
        session.free()
        assert session.feed(some[0]) == session.ask() == (NO_SESSION, UNTOLD) and session.order() == (NO_SESSION, None)
        assert session.new((6,) + good[1:]) == BAD_OPTIONS and not session.handle.at
        assert session.new(good) == 0 and session.feed(b'{') == (0, 0) and session.ask() == (0, UNTOLD)
        assert session.new((0, 0, 0, 0, 0)) == BAD_OPTIONS and session.feed(b'}') == (REFUSED, 0)
        assert session.new(good) == 0 and session.feed(b'') == (0, 0) and session.order() == (0, b'empty')


def test_bad_options(program, library, some):
    good = (0, 0, 65536, 0, 0)
    for at, value in [(0, 6), (0, 1 << 31), (1, 2), (3, 2), (4, 2), (2, 0), (2, 1000001), (2, (1 << 32) - 1)]:
        options = good[:at] + (value,) + good[at + 1:]
        assert library.call('lincheck_check', options, some[0]) == (BAD_OPTIONS, None), options
        assert library.call('lincheck_explain', options, some[0], b'') == (BAD_OPTIONS, None), options
    for key in (b'x', b'"', b'1 2', b'\n', b'9223372036854775808', b':'):
        assert library.call('lincheck_explain', good, some[0], key) == (BAD_OPTIONS, None), key
    for options in [(0, 0, 1, 0, 0), (5, 1, 1000000, 1, 1)]:
        assert library.call('lincheck_check', options, b'')[0] == 0


def compiled(folder, source, made, *words):
    """Compiles and links a C program with the archive, and tells whether the sanitizers are in it."""
    library = os.environ['LIBLINCHECK']
    wanted = ['cc', '-std=c99', '-Wall', '-Wextra', '-Werror', '-I', library, '-o', str(made), str(source), library + '/liblincheck.a']
    if subprocess.run(wanted + ['-g', '-fsanitize=address,undefined'], stderr=subprocess.DEVNULL).returncode == 0:
        return True
    subprocess.run(wanted, check=True)
    return False


def test_c(program, library, folder, some):
    if not compiled(folder, TOP / 'tests/library.c', folder / 'calls'):
        print('skipped: no sanitizers of cc here')
    files = []
    for at, history in enumerate(some):
        files.append(folder / ('%d.edn' % at))
        files[-1].write_bytes(history)
    for options, key in (((0, 0, 65536, 1, 0), b''), ((0, 1, 8, 0, 1), b':a'), ((2, 0, 65536, 0, 0), b'3')):
        wanted = b''
        for history in some:
            for name in ('check', 'explain'):
                status, text = told(program, name, options, history, key)
                # (where no event has the key, what tests/library.c put there stays)
                needed = 12345 if status == BAD_OPTIONS else len(text)
                wanted += b'%s: status %d, needed %d\n%s' % (name.encode(), status, needed, text)
            with tempfile.NamedTemporaryFile() as file:
                edit = Edit(program, options, file)
                wanted += b'session: fed %d, events %d, status %d, at %d\n%s\n' % (*edit.feed(history), *edit.ask(), edit.order()[1])
                edit.end()
        done = subprocess.run([str(folder / 'calls'), *map(str, options), os.fsdecode(key), *map(str, files)], stdout=subprocess.PIPE)
        assert done.returncode == 0 and done.stdout == wanted, done.stdout[-2000:]
    bad = subprocess.run([str(folder / 'calls'), '7', '0', '65536', '0', '0', '', str(files[0])], stdout=subprocess.PIPE)
    assert bad.stdout == b'check: status 5, needed 12345\nexplain: status 5, needed 12345\nsession: status 5, none\n'


def test_pages(folder):
    """The C blocks of docs/INTEGRATION.md and the Python blocks of adapters/c/README.md, and what they print."""
    page = (TOP / 'docs/INTEGRATION.md').read_text(encoding='utf-8')
    programs = re.findall(r'(?ms)^```c\n(.*?)^```\n+```text\n(.*?)^```$', page)
    assert len(programs) == 2
    for program, wanted in programs:
        (folder / 'page.c').write_text(program, encoding='utf-8')
        compiled(folder, folder / 'page.c', folder / 'page')
        done = subprocess.run([str(folder / 'page')], cwd=TOP, stdout=subprocess.PIPE, text=True)
        assert (done.returncode, done.stdout) == (1, wanted), done
    page = (TOP / 'adapters/c/README.md').read_text(encoding='utf-8')
    programs = re.findall(r'(?ms)^```python\n(.*?)^```\n+```text\n(.*?)^```$', page)
    assert len(programs) == 2
    for program, wanted in programs:
        done = subprocess.run([sys.executable, '-c', program], cwd=folder, stdout=subprocess.PIPE, text=True)
        assert (done.returncode, done.stdout.rstrip()) == (0, wanted.rstrip()), done


def main():
    if not os.environ.get('LIBLINCHECK'):
        print('skipped: LIBLINCHECK names no folder of built/library.sh\n0 passed, 0 failed')
        return 0
    if not shutil.which('cc'):
        print('skipped: no cc here\n0 passed, 0 failed')
        return 0
    program = os.path.abspath(os.environ.get('LINCHECK') or built())
    library, some = Library(pathlib.Path(os.environ['LIBLINCHECK']) / 'liblincheck.so'), histories()
    passed = failed = 0
    with tempfile.TemporaryDirectory() as room:
        folder = pathlib.Path(room)
        for test in (lambda: test_python(program, library, some), lambda: test_sessions(program, library, some),
                     lambda: test_no_session(program, library, some), lambda: test_bad_options(program, library, some),
                     lambda: test_c(program, library, folder, some), lambda: test_pages(folder)):
            try:
                test()
                passed += 1
            except (AssertionError, subprocess.CalledProcessError) as error:
                failed += 1
                print('fails: %s' % str(error)[:3000])
    print('%d passed, %d failed' % (passed, failed))
    return 0 if passed and not failed else 1


if __name__ == '__main__':
    sys.exit(main())
