#!/usr/bin/env python3
"""The Jepsen checker of adapters/clojure over the program: its tests, and the code of its page and of docs/INTEGRATION.md, each in Clojure beside
stand-ins for the parts of Jepsen that it calls. The locale is C, in which Java writes words beyond ASCII as question marks. Where Clojure isn't
there (Debian's package clojure, or a command that tells its class path), it says so, and only the pages are looked at.
usage: tests/adapters_clojure.py   (the program has to be built, or LINCHECK names it)"""
import glob
import os
import re
import shutil
import subprocess
import sys
import tempfile

TOP = os.path.dirname(os.path.dirname(os.path.realpath(__file__)))
FOLDER = os.path.join(TOP, 'adapters', 'clojure')
PAGE = os.path.join(FOLDER, 'README.md')
OVERVIEW = os.path.join(TOP, 'docs', 'INTEGRATION.md')
LINES = 60
LIMIT = 900


def read(path):
    with open(path, encoding='utf-8') as file:
        return file.read()


def page_faults():
    """What is wrong of the pages, and how many things were looked at."""
    faults, page = [], read(PAGE)
    if page.count('\n') > LINES:
        faults.append('%s has more than %d lines' % (PAGE, LINES))
    shown = re.findall(r'^```clojure\n.*?^```$', read(OVERVIEW), re.M | re.S)
    if not shown:
        faults.append('%s has no code in Clojure' % OVERVIEW)
    faults += ['%s has not what %s shows:\n%s' % (PAGE, OVERVIEW, code) for code in shown if code not in page]
    return faults, 1 + max(1, len(shown))


def clojure():
    """The class path of Clojure, or nothing where it can't be run."""
    if not shutil.which('java'):
        return None
    jars = glob.glob('/usr/share/java/clojure.jar') or sorted(glob.glob('/usr/share/java/clojure-1.*.jar'))
    if jars:
        return jars[-1]
    if not shutil.which('clojure'):
        return None
    told = subprocess.run(['clojure', '-Spath'], cwd=tempfile.gettempdir(), stdin=subprocess.DEVNULL, stdout=subprocess.PIPE, stderr=subprocess.DEVNULL, text=True)
    return told.stdout.strip() if told.returncode == 0 and 'clojure' in told.stdout else None


def tried(jars, program):
    """How many tests in Clojure passed and failed, and what they printed."""
    with tempfile.TemporaryDirectory() as folder:
        os.symlink(program, os.path.join(folder, 'lincheck'))
        words = ['java', '-XX:+UseSerialGC', '-XX:TieredStopAtLevel=1', '-cp', os.pathsep.join([jars, 'src', 'test']),
                 'clojure.main', 'test/lincheck/checker_test.clj', PAGE, OVERVIEW]
        environment = dict(os.environ, LINCHECK=program, LC_ALL='C', PATH=folder + os.pathsep + os.environ['PATH'])
        try:
            run = subprocess.run(words, cwd=FOLDER, env=environment, stdin=subprocess.DEVNULL, stdout=subprocess.PIPE, stderr=subprocess.STDOUT,
                                 timeout=LIMIT)
            printed, status = run.stdout.decode('utf-8', 'replace'), run.returncode
        except subprocess.TimeoutExpired:
            printed, status = 'nothing within %d seconds\n' % LIMIT, 1
    counts = re.search(r'(\d+) passed, (\d+) failed\n\Z', printed)
    passed, failed = map(int, counts.groups()) if counts else (0, 1)
    return passed, max(failed, int(status != 0)), printed


def main():
    faults, seen = page_faults()
    print('\n'.join(faults), end='\n' if faults else '')
    passed, failed = seen - len(faults), len(faults)
    jars = clojure()
    if jars:
        right, wrong, printed = tried(jars, os.path.abspath(os.environ.get('LINCHECK') or os.path.join(TOP, 'lincheck')))
        passed, failed = passed + right, failed + wrong
        if wrong:
            print(printed)
    else:
        print('skipped: no clojure here')
    print('%d passed, %d failed' % (passed, failed))
    return 1 if failed else 0


if __name__ == '__main__':
    sys.exit(main())
