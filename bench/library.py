#!/usr/bin/env python3
"""Calls of the library beside starts of the command, for small histories: what a test gains that checks many of them.

A history is of one register, three clients and so many events, and linearizable. It is checked by `lincheck_check` through ctypes, and by
`lincheck check FILE` from a file. A row tells the microseconds that one check takes of either, the least of seven rounds.

usage: LIBLINCHECK=FOLDER bench/library.py     (FOLDER as built/library.sh makes it; LINCHECK names the program, else ./lincheck is run)
"""
import ctypes
import os
import subprocess
import sys
import tempfile
import time

HERE = os.path.dirname(os.path.abspath(__file__))
EVENTS, ROUNDS, SECONDS = (10, 100, 1000, 10000), 7, 0.2


def history(events):
    lines, written = [], 'nil'
    for at in range(events // 2):
        process = at % 3
        if process == 0:
            written = str(at)
        name, value, reply = ('write', written, written) if process == 0 else ('read', 'nil', written)
        lines += ['{:process %d :type :%s :f :%s :value %s}' % (process, type_, name, it) for type_, it in (('invoke', value), ('ok', reply))]
    return '\n'.join(lines).encode()


def least(action):
    """The seconds of one action, the least of the rounds."""
    action()
    found = []
    for _ in range(ROUNDS):
        count, began = 0, time.perf_counter()
        while time.perf_counter() - began < SECONDS:
            action()
            count += 1
        found.append((time.perf_counter() - began) / count)
    return min(found)


def main():
    folder = os.environ.get('LIBLINCHECK')
    if not folder:
        print(__doc__.rstrip().rpartition('\n')[2], file=sys.stderr)
        return 2
    call = ctypes.CDLL(folder + '/liblincheck.so').lincheck_check
    program = os.environ.get('LINCHECK') or os.path.join(HERE, '..', 'lincheck')
    options, room, needed = (ctypes.c_uint32 * 5)(0, 0, 65536, 0, 0), ctypes.create_string_buffer(4096), ctypes.c_size_t()
    print('events  library us  command us')
    for events in EVENTS:
        text = history(events)

        def by_call():
            if call(options, text, ctypes.c_size_t(len(text)), room, ctypes.c_size_t(len(room)), ctypes.byref(needed)):
                raise SystemExit('the library says otherwise')

        with tempfile.NamedTemporaryFile() as file:
            file.write(text)
            file.flush()

            def by_start():
                if subprocess.run([program, 'check', file.name], stdout=subprocess.DEVNULL).returncode:
                    raise SystemExit('the command says otherwise')

            print('%6d %11.0f %11.0f' % (events, 1e6 * least(by_call), 1e6 * least(by_start)))
    return 0


if __name__ == '__main__':
    sys.exit(main())
