#!/usr/bin/env python3
"""examples/times.py on texts that are read in more than one way, and on drawn histories whose times are known. No program is needed.

usage: tests/examples.py [HISTORIES] [SEED]
"""
import os
import random
import subprocess
import sys

sys.dont_write_bytecode = True
EXAMPLES = os.path.join(os.path.dirname(os.path.abspath(__file__)), '..', 'examples')
sys.path.insert(0, EXAMPLES)
import times

TIMES = os.path.join(EXAMPLES, 'times.py')
NEVER = ':time never falls, in %d maps'

# A text, MAY or None, the status, and the last line that is printed.
ROWS = [
    ('{:time 5}\n{:time 5}\n{:time 6}', None, 0, NEVER % 3),
    ('{:time 5}\n{:time 4}', None, 1, 'line 2: :time falls by 1, from 5 in line 1 to 4'),
    ('{:time 5}\n{:time 4}', '1', 0, ':time never falls by more than 1, in 2 maps'),
    ('{:time 5}\n{:time 3}', '1', 1, 'line 2: :time falls by 2, from 5 in line 1 to 3'),
    ('{:time 5}\n{:time 4}\n{:time 3}', '1', 1, 'line 3: :time falls by 2, from 5 in line 1 to 3'),
    ('{:time 0.5}\n{:time -1}', None, 1, 'line 2: :time falls by 1.5, from 0.5 in line 1 to -1'),
    ('{:time 1.25M}\n{:time 1.5e0} {:time 9223372036854775808} {:time 9223372036854775809N}', None, 0, NEVER % 4),
    ('#h [#jepsen.history.Op{:time 2} ; {:time 1}\n #_{:time 1} {:time 3,}\n]', None, 0, NEVER % 2),
    ('(\n{:time 2}\n\n{\n:time 1})', None, 1, 'line 4: :time falls by 1, from 2 in line 2 to 1'),
    ('{:time 2}\n{:value {:time 1} :time 3}\n{:value [{:time 1}] :time 3}', None, 0, NEVER % 3),
    ('{:time 2}\n{:error ":time 1}{" :time 3}\n{:error "\\":time 1" :time 3}\n{:c \\{ :time 3}', None, 0, NEVER % 4),
    ('{:time 2}\n{#_ :time :a 1 :time 3}\n{:a #_ #_ :time 1 2 :time 3}\n{:a ; :time 1\n :time :time 3}', None, 0, NEVER % 4),
    ('{:a :time :b 1}', None, 2, 'times.py: line 1: a map without a number as its :time, so nothing is known'),
    ('{:time 1}\n{:time "2"}', None, 2, 'times.py: line 2: a map without a number as its :time, so nothing is known'),
    ('{:time 1}\n{:time nil :b "x"}', None, 2, 'times.py: line 2: a map without a number as its :time, so nothing is known'),
    ('{:time 1}\n{:time 2', None, 0, NEVER % 1),
    ('{:time 1}}', None, 2, 'times.py: line 1: no history: see lincheck check'),
    ('{:time 1}\n"', None, 2, 'times.py: line 2: no history: see lincheck check'),
    ('; {:time 1}\n', None, 2, 'times.py: there is no map'),
    ('{:time 1}', 'x', 2, None),
]
FORMS = [
    '{:process 0 :type :invoke :f :read :time %s}',
    '#jepsen.history.Op{:time %s, :process 0, :type :ok, :f :read, :value [1 nil]}',
    '{:value {:time 7 :x [{:time 1}]}, :time %s}',
    '{:error "}{:time 3"\n :time %s}',
    '{:error [:a "\\" :time 0"] ; :time 9\n :time #_8 %s}',
    '#_ {:time 4} {:error (:time 1) :time %s}',
    '{:was #{:time}, :time %s}',
]


def run(text, may):
    ran = subprocess.run([TIMES, '-', *([may] if may else [])], input=text.encode(), stdout=subprocess.PIPE, stderr=subprocess.STDOUT)
    return ran.returncode, ran.stdout.decode().splitlines()


def drawn(draw):
    """A history, MAY, and what has to be told of it: a line for each fall, and the number of maps."""
    may, now, made = draw.choice([0, 0, 2]), 0, []
    for _ in range(draw.randrange(1, 12)):
        now += draw.choice([0, 1, 1, 5, 5, -1, -2, -9])
        made.append(now)
    text, line, lines = draw.choice(['', '; {:time 99}\n']), 1, []
    line += text.count('\n')
    around = draw.choice([('', ''), ('[', ']'), ('#a (', ')')])
    text += around[0]
    for it in made:
        said = draw.choice(FORMS) % it
        # (behind a discard the map begins later in its line, and in no form in a later one)
        lines.append(line)
        said += draw.choice(['\n', ' ', ',\n\n'])
        text, line = text + said, line + said.count('\n')
    found, high = [], 0
    for at, time in enumerate(made):
        if time < made[high] - may:
            found.append('line %d: :time falls by %d, from %d in line %d to %d' % (lines[at], made[high] - time, made[high], lines[high], time))
            high = at
        elif time > made[high]:
            high = at
    return text + around[1], may, [*found, len(made)]


def main():
    given = sys.argv[1:]
    histories, draw = int(given[0]) if given else 2000, random.Random(int(given[1]) if given[1:] else 1)
    passed, faults = 0, []
    for text, may, status, last in ROWS:
        said = run(text, may)
        is_right = said[0] == status and (last is None or said[1][-1:] == [last])
        passed, faults = passed + is_right, faults + [(text, may, said)] * (not is_right)
    for _ in range(histories):
        text, may, wanted = drawn(draw)
        said = list(times.falls(text, may))
        passed, faults = passed + (said == wanted), faults + [(text, may, said, wanted)] * (said != wanted)
    for fault in faults[:5]:
        print('times.py:', *fault, sep='\n  ')
    print('%d passed, %d failed' % (passed, len(faults)))
    return 1 if faults or not passed else 0


if __name__ == '__main__':
    sys.exit(main())
