#!/usr/bin/env python3
"""The adapters for Python and Go, against the command.

Of adapters/python this runs the tests below and each python block of its page: what a block prints, and the exception that leaves it, has to have
the lines of the text block behind it. Of adapters/go it runs gofmt, go vet, the package's own tests, for races too, and the go blocks of its page
and of docs/INTEGRATION.md, each as the test of a module, beside a store that is wrong, of which it has to print the lines of the text block, and
beside one that is right. `...` in a text block is any text, but some. Where there is no go, its part is skipped, which is said.

usage: tests/adapters.py [python | go]   (runs ./lincheck, unless LINCHECK in the environment names the program)
"""
import ast
import contextlib
import io
import itertools
import os
import pathlib
import re
import shutil
import subprocess
import sys
import tempfile
import threading
import traceback

sys.dont_write_bytecode = True
TOP = pathlib.Path(__file__).resolve().parent.parent
PYTHON, GO = TOP / 'adapters/python', TOP / 'adapters/go'
os.environ['LINCHECK'] = os.path.abspath(os.environ.get('LINCHECK') or TOP / 'lincheck')
sys.path.insert(0, str(PYTHON))
import lincheck
from lincheck import Log, Object, Verdict, Word, check, draw, edn, explain


def refuses(wanted, action):
    """Whether the action raises this exception, and no other."""
    try:
        action()
    except wanted:
        return True
    return False


def register(*answers):
    """A register in which 1 is written, and then this is read."""
    log = Log()
    log.operation(0, 'write', 1).ok()
    for it in answers:
        log.operation(1, 'read').ok(it)
    return log


# The tests of adapters/python

def test_python_grammar():
    ast.parse((PYTHON / 'lincheck.py').read_text(encoding='utf-8'), feature_version=(3, 8))


def test_values():
    for value, wanted in [
            (None, 'nil'), (True, 'true'), (False, 'false'), (-7, '-7'), (-1 << 63, '-9223372036854775808'), ((1 << 63) - 1, '9223372036854775807'),
            ('a', '"a"'), ('"\\\n\x01<é>', '"\\"\\\\\\n\\u0001<é>"'), ('\ud800', '"\\ud800"'),
            (Word(':leader'), ':leader'), (Word('"a\\"b"'), '"a\\"b"'),
            ([1, 'b'], '[1 "b"]'), ((None, (2,)), '[nil [2]]'), ([], '[]'), ({2, 1}, '#{1 2}'), (frozenset(), '#{}')]:
        assert edn(value) == wanted, (value, edn(value))
    for value in (1.5, b'a', object(), {}, [1.5]):
        assert refuses(TypeError, lambda: edn(value)), value
    for value in (1 << 63, (-1 << 63) - 1):
        assert refuses(ValueError, lambda: edn(value)), value
    for spelled in ('', ':', 'a', ':a b', ':a\n', '"a', '"a"b"', '"a\n"', '007', '1.5', '٣', 'nil', '[1]'):
        assert refuses(ValueError, lambda: Word(spelled)), spelled


def test_log():
    log = Log()
    with log.operation(3, 'cas', (1, 2), key='x') as op:
        op.ok('which counts for nothing')
    assert refuses(KeyError, lambda: leave_by(log.operation(0, 'read'), KeyError('no "x"')))
    with log.operation(0, 'read') as op:  # under a fresh process
        op.ok(5)
    with log.operation(4, 'write', Word(':a')) as op:  # which was the next one
        op.fail('too late')
    assert refuses(RuntimeError, lambda: leave_by(log.operation(0, 'dequeue'), None))
    with log.operation(0, 'add', 1) as op:
        op.ok()
        op.info()  # says nothing any more
        assert refuses(RuntimeError, op.ok) and refuses(RuntimeError, op.fail)
    assert refuses(TypeError, lambda: leave_by(log.operation(2, 'read'), TypeError()))
    assert refuses(TypeError, lambda: log.operation(2, 'read').ok(1.5))  # the client still is in it
    busy = log.operation(1, 'acquire')
    for process in (1, 2, -1, 1 << 62, 'a'):
        assert refuses(ValueError, lambda: log.operation(process, 'release')), process
    assert refuses(ValueError, lambda: log.operation(9, 'increment')) and refuses(TypeError, lambda: log.operation(9, 'write', 1.5))
    busy.ok()
    wanted = '''{:process 3, :type :invoke, :f :cas, :value ["x" [1 2]]}
{:process 3, :type :ok, :f :cas, :value ["x" [1 2]]}
{:process 0, :type :invoke, :f :read, :value nil}
{:process 0, :type :info, :f :read, :value nil, :error "KeyError('no \\"x\\"')"}
{:process 4, :type :invoke, :f :read, :value nil}
{:process 4, :type :ok, :f :read, :value 5}
{:process 5, :type :invoke, :f :write, :value :a}
{:process 5, :type :fail, :f :write, :value :a, :error "too late"}
{:process 4, :type :invoke, :f :dequeue, :value nil}
{:process 4, :type :info, :f :dequeue, :value nil}
{:process 6, :type :invoke, :f :add, :value 1}
{:process 6, :type :ok, :f :add, :value 1}
{:process 2, :type :invoke, :f :read, :value nil}
{:process 2, :type :info, :f :read, :value nil, :error "TypeError()"}
{:process 7, :type :invoke, :f :read, :value nil}
{:process 1, :type :invoke, :f :acquire, :value nil}
{:process 1, :type :ok, :f :acquire, :value nil}
'''
    assert bytes(log).decode() == wanted, bytes(log).decode()


def leave_by(operation, error):
    with operation:
        if error is not None:
            raise error


def test_order():
    """Each operation draws a number before it begins and one after it ended: of two whose numbers don't overlap the first is first in the log."""
    clients, each, log, clock = 8, 150, Log(), itertools.count()
    spans = [None] * (clients * each)

    def client(process):
        for at in range(process * each, (process + 1) * each):
            before = next(clock)
            op = log.operation(process, 'add', at)
            op.info() if at % 50 == 0 else op.ok()
            spans[at] = before, next(clock)

    threads = [threading.Thread(target=client, args=(process,)) for process in range(clients)]
    switch = sys.getswitchinterval()
    sys.setswitchinterval(1e-5)
    for it in threads:
        it.start()
    for it in threads:
        it.join()
    sys.setswitchinterval(switch)
    events = re.findall(r':process (\d+), :type :(\w+), :f :add, :value (\d+)', bytes(log).decode())
    assert len(events) == 2 * clients * each
    called, ended, inside, retired = {}, {}, {}, set()
    for at, (process, type, number) in enumerate(events):
        assert process not in retired and inside.get(process) == (None if type == 'invoke' else number), (at, process, number)
        inside[process] = number if type == 'invoke' else None
        (called if type == 'invoke' else ended)[int(number)] = at
        retired |= {process} if type == 'info' else set()
    last = -1
    for _, number, is_end in sorted((span[end], number, end) for number, span in enumerate(spans) for end in (0, 1)):
        if is_end:
            last = max(last, ended[number])
        else:
            assert last < called[number], number
    assert check(log, 'set').verdict is Verdict.YES


def test_verdicts():
    busy = Log()
    for process in range(8):
        busy.operation(process, 'write', process)
    for history, options, verdict, answer in [
            (Log(), {}, Verdict.YES, 'yes'),
            (register(1), {'timeout': 600}, Verdict.YES, 'yes'),
            (register(1, None), {'kind': 'cas-register'}, Verdict.NO, 'no prefix 6'),
            (busy, {'budget': 8}, Verdict.UNDECIDED, 'undecided at 2'),
            (register(1), {'kind': 'fifo'}, Verdict.ILL_FORMED, 'ill-formed at 0 cause 3 NotOfKind'),
            (b'{:a}', {}, Verdict.REFUSED, 'refused input edn 2 OddMap at 3')]:
        checked, explained = check(history, **options), explain(history, **options)
        assert (checked.verdict, checked.answer, checked.text, checked.map['answer']) == (verdict, answer, answer, answer), checked
        assert (explained.verdict, explained.answer, explained.text.partition('\n')[0], explained.objects) == (verdict, answer, answer, []), explained
        if verdict in (Verdict.YES, Verdict.NO):
            assert bool(checked) is bool(explained) is bool(verdict) is (verdict is Verdict.YES)
        else:
            assert all(refuses(ValueError, lambda: bool(it)) for it in (checked, explained, verdict))
        if verdict in (Verdict.YES, Verdict.NO, Verdict.UNDECIDED):
            assert '<title>' + answer in draw(history, **options)
        else:
            assert refuses(lincheck.Error, lambda: draw(history, **options))


def test_keys():
    """A key that is a no makes the whole a no, also where another one is undecided."""
    for key in (0, -5, True, 'x\n"é" \\', '\udcff', Word(':x')):
        log = Log()
        for process in range(3):
            log.operation(process, 'write', process, key=Word(':zzz'))
        log.operation(3, 'write', 1, key=key).ok()
        log.operation(3, 'read', key=key).ok(None)
        log.operation(4, 'write', 1, key=Word(':zzzz')).ok()
        log.operation(4, 'read', key=Word(':zzzz')).ok(None)
        wanted = [Object(edn(key), 'register', Verdict.NO, 'no prefix 7'), Object(':zzz', 'register', Verdict.UNDECIDED, 'undecided at 2'),
                  Object(':zzzz', 'register', Verdict.NO, 'no prefix 11')]
        checked, explained = check(log, keyed=True, budget=8), explain(log, keyed=True, budget=8)
        assert checked.verdict is Verdict.NO and checked.answer == 'no prefix 7' and checked.objects == wanted, checked
        assert checked.map['answer'] == 'undecided at 2'  # of the whole
        assert explained.verdict is Verdict.NO and explained.key == edn(key) and explained.objects == wanted, explained
        assert '\nwhy: nil was overwritten' in explained.text, explained.text
        assert '<title>no prefix 7' in draw(log, keyed=True, budget=8)
        for one in (key, explained.key):
            assert explain(log, keyed=True, budget=8, key=one).text == explained.text
        assert explain(log, keyed=True, budget=8, key=Word(':zzz')).verdict is Verdict.UNDECIDED
        assert '<title>undecided at 2' in draw(log, keyed=True, budget=8, key=Word(':zzz'))


def test_values_of_a_register():
    """What is written is what has to be read."""
    values = [None, True, 1, -1 << 63, '', 'a"b', 'a\\', '\n', 'é', '\udcff', '\ud800', Word(':a'), Word(':é')]
    for value, other in itertools.product(values[::3], values):
        log = Log()
        log.operation(0, 'write', value).ok()
        log.operation(0, 'read').ok(other)
        assert bool(check(log)) is (edn(value) == edn(other)), (value, other)


def test_histories(folder):
    for name in ('history.edn', '-', '--kind'):
        register(None).save(folder / name)
        for history in (folder / name, str(folder / name), (folder / name).read_bytes(), register(None)):
            assert check(history).answer == 'no prefix 4'
    os.chdir(folder)
    assert check('--kind').answer == 'no prefix 4'
    assert refuses(FileNotFoundError, lambda: check(folder / 'none'))


def test_nothing_known(folder):
    """Where the command can't answer, or what it prints isn't an answer, there is no verdict."""
    yes = '"answer":"yes","text":"yes"}'
    for name, script in {
            'killed': 'kill -9 $$', 'cut': 'printf \'{"valid?":true,"status":0,"ans\'', 'launcher': 'exit 1',
            'otherwise': "echo '{\"valid?\":true,\"status\":0,%s'; exit 1" % yes, 'turned': "echo '{\"valid?\":true,\"status\":1,%s'; exit 1" % yes,
            'statusless': "echo '{\"valid?\":true,%s'" % yes, 'list': 'echo []', 'words': 'echo usage; exit 5', 'memory': 'echo no memory; exit 6',
            'sixth': "echo '{\"valid?\":\"unknown\",\"status\":6,%s'; exit 6" % yes, 'drawn': "echo '<svg></svg>'; kill -9 $$",
            'slow': 'exec sleep 600', 'missing': None, 'folder': ''}.items():
        command = folder / name
        if script:
            command.write_text('#!/bin/sh\n%s\n' % script, encoding='ascii')
            command.chmod(0o755)
        elif script is not None:
            command.mkdir()
        options = {'command': str(command), 'timeout': 0.1 if name == 'slow' else None}
        for ask in (check, explain, draw):
            for keyed in (False, True):
                assert refuses(lincheck.Error, lambda: ask(b'', keyed=keyed, **options)), (name, ask)
    assert refuses(lincheck.Error, lambda: check(b'', kind='stack')) and refuses(lincheck.Error, lambda: check(b'', budget=0))


# The pages

def blocks(page):
    """The code blocks of a page: the language and the text."""
    return re.findall(r'(?ms)^```(\w+)\n(.*?)^```$', page.read_text(encoding='utf-8'))


def is_told(wanted, printed):
    """Whether lines of what is printed are these."""
    return re.search(r'(?m)^%s$' % '.+'.join(map(re.escape, wanted.rstrip('\n').split('...'))), printed)


def test_page_of_python(folder):
    os.chdir(folder)
    space, found = {}, blocks(PYTHON / 'README.md')
    for (language, text), (after, wanted) in zip(found, found[1:] + [('', '')]):
        if language != 'python':
            assert language == 'text'
            continue
        printed = io.StringIO()
        with contextlib.redirect_stdout(printed):
            try:
                exec(compile(text, 'README.md', 'exec'), space)
            except Exception as error:
                printed.write(''.join(traceback.format_exception_only(type(error), error)))
        if after == 'text':
            assert is_told(wanted, printed.getvalue()), printed.getvalue()
        else:
            assert printed.getvalue() == '', printed.getvalue()
    assert os.path.getsize('history.svg') > 1000


def go(folder, *words):
    """The status and what is printed. Nothing is fetched."""
    settings = {'GO111MODULE': 'on', 'GOPROXY': 'off', 'GOFLAGS': '', 'GOWORK': 'off', 'GOTOOLCHAIN': 'local'}
    done = subprocess.run(words, cwd=folder, env={**os.environ, **settings}, stdout=subprocess.PIPE, stderr=subprocess.STDOUT)
    return done.returncode, done.stdout.decode(errors='replace')


def go_page(folder, page, wrong, right, told):
    """Runs the go block of a page as the test of a module, beside files that are wrong and others that are right."""
    found = blocks(page)
    script, = (text for language, text in blocks(GO / 'README.md') if language == 'sh')
    program, = (text for language, text in found if language == 'go')
    assert '../lincheck/adapters/go' in script
    for words in (['go', 'mod', 'init', 'store'], ['sh', '-ec', script.replace('../lincheck/adapters/go', str(GO))]):
        assert go(folder, *words)[0] == 0
    (folder / 'store_test.go').write_text(program, encoding='utf-8')
    for files, is_right in ((wrong, False), (right, True)):
        for name, text in files.items():
            (folder / name).write_text(text, encoding='utf-8')
        for words in (['gofmt', '-l', '.'], ['go', 'vet', '.']):
            assert go(folder, *words) == (0, '')
        status, printed = go(folder, 'go', 'test', '-count=1', '.')
        assert status == 0 if is_right else status == 1 and is_told(told, printed), printed


STORE = '''package store

import "sync"

type Store struct {
	mu            sync.Mutex
	value, cached any
}

func (s *Store) Put(key string, value int) error {
	s.mu.Lock()
	defer s.mu.Unlock()
	s.value = value
	return nil
}

func (s *Store) Get(key string) any {
	s.mu.Lock()
	defer s.mu.Unlock()
	if s.cached == nil {
		s.cached = s.value
	}
	return s.cached
}
'''


def test_go_page(folder):
    told, = (text for language, text in blocks(GO / 'README.md') if language == 'text')
    go_page(folder, GO / 'README.md', {'store.go': STORE}, {'store.go': STORE.replace('s.cached == nil', 'true')}, told)


def test_go_integration(folder):
    wrong, right = ({'history.edn': (TOP / 'examples' / name).read_text(encoding='utf-8')}
                    for name in ('register-stale-read.edn', 'register-legal.edn'))
    go_page(folder, TOP / 'docs/INTEGRATION.md', wrong, right, '    store_test.go:...: no prefix 4')


def test_go_layout():
    assert go(GO, 'gofmt', '-l', '.') == (0, '')
    assert go(GO, 'go', 'vet', './...') == (0, '')


def go_tests():
    """How many of the package's own tests pass, and how many don't: none of them may be skipped. Races are looked for where that can be built."""
    race = ['-race'] if go(GO, 'go', 'test', '-race', '-run', '^$', '.')[0] == 0 else []
    if not race:
        print('skipped: no race detector of go here')
    status, printed = go(GO, 'go', 'test', *race, '-count=1', '-v', './...')
    passed, failed = (len(re.findall('(?m)^--- %s: ' % word, printed)) for word in ('PASS', '(?:FAIL|SKIP)'))
    if status or failed or not passed:
        print(printed)
    return passed, max(failed, 1 if status or not passed else 0)


def main():
    named = sys.argv[1:] or ['python', 'go']
    if not set(named) <= {'python', 'go'}:
        sys.exit(__doc__.rstrip().rpartition('\n')[2])
    passed = failed = 0
    if 'go' in named and not shutil.which('go'):
        print('skipped: no go here')
        named.remove('go')
    for name, test in list(globals().items()):
        if not name.startswith('test_') or ('go' if name.startswith('test_go') else 'python') not in named:
            continue
        with tempfile.TemporaryDirectory() as folder:
            try:
                test(pathlib.Path(folder)) if test.__code__.co_argcount else test()
                passed += 1
            except Exception:
                failed += 1
                print('%s fails:' % name)
                traceback.print_exc(file=sys.stdout)
            os.chdir(TOP)
    if 'go' in named:
        own = go_tests()
        passed, failed = passed + own[0], failed + own[1]
    print('%d passed, %d failed' % (passed, failed))
    return 0 if passed and not failed else 1


if __name__ == '__main__':
    sys.exit(main())
