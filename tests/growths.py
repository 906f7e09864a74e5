#!/usr/bin/env python3
"""Refuses growths of memory, reads and writes of the built program in turn, and compares what is written with the undisturbed run.

1. For each session of RUNS, growths of memory are refused, one in each run: each of them in the short sessions; in those that are
over the budget the first and the last ones of each command, and of the thousands between some at even distance.
A refused run has to write whole replies to some first commands, just those of the undisturbed run, then the fault for want of
memory, and to end with its status; or, where the program can do without that growth, all that the undisturbed run writes. Where objects
are over the budget, so that searches are made, questions do without a few alone (a frontier's spare buffers): what a search is refused is told.
2. For each session of DEVICES, reads and writes fail, one in each run, while each gives or takes one byte, a few or all. Where a read
fails, the replies to all earlier commands are written whole, nothing of the one that needed it, and then the fault. Where a write fails or
takes nothing, what is written is the beginning of the replies that was taken before, and then the fault, if it can be told. Where none
fails, the replies are the same however little a call gives or takes.
3. Each text of PIECES is explained the same in pieces of so many bytes as whole, with the places of its events and faults.

Needs a C compiler, for the lines that stand before the C library.
usage: tests/growths.py [PROGRAM]   (else what LINCHECK in the environment names, or the one that is built)
       tests/growths.py --devices [PROGRAM]   (2 and 3 alone)
"""
import errno
import os
import shutil
import subprocess
import sys
import tempfile
from concurrent.futures import ThreadPoolExecutor

HERE = os.path.dirname(os.path.abspath(__file__))
PROGRAM = os.path.join(HERE, "..", "crates", "lincheck", "out", "lincheck")
FAULT = "lincheck: 3 OutOfMemory\n"
NOT_READ, NOT_WRITTEN = "lincheck: 1 ReadFailed\n", "lincheck: 2 WriteFailed\n"
FAILED = 6
# In a session with searches: how many growths at either end of a command are refused, the distance between, and how many questions do without.
# (processes are looked up in a list too where there is memory for one, so that two more do without)
ENDS, DISTANCE, DONE_WITHOUT = 32, 61, 10
QUESTIONS = ("ask", "order", "report", "refute", "explain")

# The growth with the number in REFUSED is refused, and that is told on descriptor 2; for number 0 the count of all, at the end.
# With `PIECE READ WRITE ERROR ON` in DEVICE, reads give and writes take at most PIECE bytes. The read or write of that number fails with
# the error, a write takes nothing where the error is 0, and where ON isn't 0 so do all behind it. It is told on descriptor 2: the
# descriptor and how many bytes standard input gave or standard output took before.
SHIM = r"""
#define _GNU_SOURCE
#include <dlfcn.h>
#include <errno.h>
#include <stdio.h>
#include <stdlib.h>
#include <unistd.h>
static long count, piece, failing_read, failing_write, error, on, reads, writes, given, taken;
static int is_refused(void) {
    const char *wanted = getenv("REFUSED");
    if (wanted && ++count == atol(wanted)) { ssize_t told = write(2, "refused", 7); (void)told; return 1; }
    return 0;
}
__attribute__((constructor)) static void set_device(void) {
    const char *device = getenv("DEVICE");
    if (device) sscanf(device, "%ld %ld %ld %ld %ld", &piece, &failing_read, &failing_write, &error, &on);
}
__attribute__((destructor)) static void tell_count(void) {
    const char *wanted = getenv("REFUSED");
    if (wanted && atol(wanted) == 0) dprintf(2, "%ld", count);
}
static int fails(long number, long failing, int descriptor, long bytes) {
    if (number == failing) dprintf(2, "%d %ld", descriptor, bytes);
    errno = error;
    return number == failing || (failing && on && number > failing);
}
void *malloc(size_t size) {
    static void *(*next)(size_t);
    if (!next) next = (void *(*)(size_t))dlsym(RTLD_NEXT, "malloc");
    return is_refused() ? NULL : next(size);
}
void *realloc(void *block, size_t size) {
    static void *(*next)(void *, size_t);
    if (!next) next = (void *(*)(void *, size_t))dlsym(RTLD_NEXT, "realloc");
    return is_refused() ? NULL : next(block, size);
}
ssize_t read(int descriptor, void *block, size_t size) {
    static ssize_t (*next)(int, void *, size_t);
    if (!next) next = (ssize_t (*)(int, void *, size_t))dlsym(RTLD_NEXT, "read");
    if (!piece) return next(descriptor, block, size);
    if (fails(++reads, failing_read, descriptor, given)) return -1;
    ssize_t got = next(descriptor, block, size < (size_t)piece ? size : (size_t)piece);
    if (descriptor == 0 && got > 0) given += got;
    return got;
}
ssize_t write(int descriptor, const void *block, size_t size) {
    static ssize_t (*next)(int, const void *, size_t);
    if (!next) next = (ssize_t (*)(int, const void *, size_t))dlsym(RTLD_NEXT, "write");
    if (!piece || descriptor == 2) return next(descriptor, block, size);
    if (fails(++writes, failing_write, descriptor, taken)) return error ? -1 : 0;
    ssize_t put = next(descriptor, block, size < (size_t)piece ? size : (size_t)piece);
    if (put > 0) taken += put;
    return put;
}
"""


def maps(events):
    """The operation maps of short forms such as `p0 invoke write 1`, a line each."""
    lines = []
    for event in events.split("; "):
        process, kind, function, *value = event.split(" ", 3)
        lines.append("{:process %s, :type :%s, :f :%s, :value %s}\n" % (process[1:], kind, function, value[0] if value else "nil"))
    return "".join(lines)


FILE = "FILE"
READ = "{:process 9, :type :invoke, :f :read, :value %s}"
TWO_KEYS = (
    "p0 invoke write [1 7]; p0 ok write [1 7]; p1 invoke write [0 3]; p1 ok write [0 3]; p0 invoke read [1 nil]; p0 ok read [1 7]; "
    "p1 invoke read [0 nil]; p1 ok read [0 3]"
)
# Recordings that are over a budget of 1,024: operations of many clients that stay open, and what goes on beside them.
MANY_WRITES = "; ".join(f"p{client} invoke write {client}" for client in range(11)) + (
    "; p0 ok write; p11 invoke write 77; p11 ok write; p11 invoke read; p11 ok read 77; p12 invoke cas [77 5]; p12 ok cas [77 5]"
)
MANY_ADDS = "; ".join(f"p{client} invoke add {client}" for client in range(14)) + "; p14 invoke read; p14 ok read #{0 1 2 3}; p3 ok add; p14 invoke read; p14 ok read #{0 1 2 3 9}"
MANY_ENQUEUES = "; ".join(f"p{client} invoke enqueue {client}; p{client} info enqueue" for client in range(14)) + (
    "; p20 invoke enqueue 50; p20 ok enqueue; p21 invoke dequeue; p21 ok dequeue 7; p21 invoke dequeue; p21 ok dequeue 50"
)
MANY_HOLDERS = "; ".join(f"p{client} invoke acquire; p{client + 7} invoke release" for client in range(7)) + (
    "; p14 invoke acquire; p14 ok acquire; p15 invoke acquire; p15 ok acquire; p14 invoke release; p14 ok release"
)


def over(kind, recording, opened, wrong):
    """A session of such a recording, which goes on with an open operation, and has a wrong reply for a while."""
    count = len(recording.split("; "))
    return (
        ["edit", "--kind", kind, "--budget", "1024", FILE],
        recording,
        ["pull", "ask", "ask", "order", "report", "refute 0", "append " + opened, "ask", "order", f"truncate {count}",
         f"replace {count - 1} " + wrong, "ask 0", "report", "refute 0", "explain", "budget 65536", "order"],
    )


# Each run: the words of the command line, the recording, the script.
RUNS = [
    (
        ["edit", FILE],
        "p0 invoke write 5; p0 info write; p1 invoke read; p1 ok read nil; p1 invoke read; p1 ok read 5",
        ["work", "pull", "ask", "order", "report", "append " + READ % "nil", "append {:process 9, :type :ok, :f :read, :value nil}", "ask", "refute 0", "order",
         "replace 7 {:process 9, :type :ok, :f :read, :value 5}", "order 0", "remove 7", "ask 0", "truncate 6", "order", "kind 0 set",
         "ask", "kind 0 cas-register", "ask", "budget 1", "ask", "budget 65536", "report", "frob", "append {:a}", "append {:process 0}",
         "append {:type :info, :process :nemesis, :f :kill}", "truncate 99", "pull", "order"],
    ),
    (
        ["edit", "--keyed", FILE],
        TWO_KEYS,
        ["pull", "ask", "order 0", "order 1", "order", "report", "append " + READ % "[2 nil]", "ask 2", "kind 1 set", "report", "kind 1 register",
         "replace 5 {:process 0, :type :ok, :f :read, :value [1 8]}", "ask 1", "report", "remove 4", "ask", "truncate 4", "order"],
    ),
    (
        ["edit", "--keyed", FILE],
        'p0 invoke write ["a b" :x]; p0 ok write ["a b" :x]; p1 invoke write [:k "x"]; p1 ok write [:k "x"]; p0 invoke read ["a b" nil]; p0 ok read ["a b" :x]',
        ["pull", "ask", 'order "a b"', "order :k", "report", 'ask "new key"', "ask :new", 'kind #"c" set', 'append {:process 9, :type :invoke, :f :add, :value [#"c" :y]}',
         'append {:process 9, :type :ok, :f :add, :value [#"c" nil]}', 'append {:process 9, :type :invoke, :f :read, :value [#"c" nil]}',
         'append {:process 9, :type :ok, :f :read, :value [#"c" #{:y "z"}]}', "report", 'refute #"c"', "explain", 'replace 9 {:process 9, :type :ok, :f :read, :value [#"c" [:y]]}',
         "order"],
    ),
    (
        ["edit", "--keyed", "--budget", "8", FILE],
        "p0 invoke write [1 1]; p1 invoke write [1 2]; p2 invoke write [1 3]; p3 invoke write [0 1]; p3 ok write [0 1]; "
        "p3 invoke read [0 nil]; p3 ok read [0 1]; p3 invoke read [0 nil]; p3 ok read [0 nil]",
        ["pull", "report", "refute 0", "refute 1", "ask 1", "budget 13", "ask 1", "ask", "order 1", "order", "budget 8", "ask 1", "truncate 7", "order 0", "report"],
    ),
    (["check", "--keyed", FILE], TWO_KEYS, []),
    (["explain", "--keyed", "--order", FILE], TWO_KEYS, []),
    (["explain", FILE], "p0 invoke write 5; p0 info write; p1 invoke read; p2 invoke read; p1 ok read 5; p2 ok read nil; p1 invoke read; p1 ok read nil", []),
    (["explain", FILE], "p0 invoke write 5; p0 info write; p0 invoke read", []),
    (["verify", "--keyed", FILE, "0=done 2=done 4=7 6=3"], TWO_KEYS, []),
]
# And those in which searches are made.
SEARCHED = [
    over("register", MANY_WRITES.rpartition("; p12 invoke")[0], READ % "nil", "{:process 11, :type :ok, :f :read, :value 99}"),
    over("cas-register", MANY_WRITES, READ % "nil", "{:process 12, :type :fail, :f :cas, :value [77 5]}"),
    over("set", MANY_ADDS, "{:process 15, :type :invoke, :f :add, :value 15}", "{:process 14, :type :ok, :f :read, :value #{0 1 2 99}}"),
    over("fifo", MANY_ENQUEUES, "{:process 22, :type :invoke, :f :dequeue, :value nil}", "{:process 21, :type :ok, :f :dequeue, :value 99}"),
    over("unordered-queue", MANY_ENQUEUES, "{:process 22, :type :invoke, :f :dequeue, :value nil}", "{:process 21, :type :ok, :f :dequeue, :value 99}"),
    over("mutex", MANY_HOLDERS, "{:process 16, :type :invoke, :f :release, :value nil}", "{:process 14, :type :fail, :f :release, :value nil}"),
    (["check", "--kind", "set", "--budget", "1024", FILE], MANY_ADDS, []),
    (["explain", "--order", "--kind", "cas-register", "--budget", "1024", FILE], MANY_WRITES, []),
]


# Each session whose devices fail: the words of the command line, the recording, and each command with its reply; without commands the
# reply to all, a part for each file.
STALE = maps("p0 invoke write 1; p0 ok write; p1 invoke read; p1 ok read nil")
NOTED = (
    "{:process 0, :type :invoke, :f :write, :value 1, :time 3, :index 0}\n{:process :nemesis, :type :info, :f :start, :value #{\"n1; }\"}}\n"
    "{:process 1, :type :invoke, :f :read, :value nil}\n{:process 1, :type :ok, :f :read, :value 1}\n"
)
DEVICES = [
    (["edit", FILE], STALE, [
        ("pull", "ok 4\n"), ("ask", "no prefix 4\n"), ("replace 3 {:process 1, :type :ok, :f :read, :value 1}", "ok 4\n"), ("order", "yes 0=done 2=1\n"),
        ("report", "events 4 objects 1\nobject 0 register: yes\nwhole: yes\n"), ("pull", "ok 4\n"), ("refute 0", "yes\n"),
    ]),
    (["edit"], "", [("append {:process 0 :type :invoke :f :read}", "ok 1\n"), ("append {:process 0 :type :ok :f :read}", "ok 2\n"), ("frob", "refused command 1 UnknownCommand\n")]),
    (["verify", FILE, "0=done 1=1"], NOTED, [(None, "yes\n")]),
    (["verify", FILE, "0=done x"], NOTED, [(None, "refused order 1 BadPair at 7\n")]),
    (["check", FILE], NOTED, [(None, "events 3 objects 1\nobject 0 register: yes\nwhole: yes\n")]),
    (["check", FILE, FILE], STALE, [(None, "file FILE\nevents 4 objects 1\nobject 0 register: no prefix 4\nwhole: no prefix 4\n")] * 2),
    (["explain", FILE], NOTED, [(None, "yes\noperations 2: ok 1, failed 0, open 1 (crashed 0); objects 1\na legal order places 1 of the 1 open ones\n")]),
]
# How a write fails: once with an error, from there on, and taking nothing.
WRITES = [(errno.EIO, 0), (errno.ENOSPC, 1), (0, 0), (0, 1)]
# Texts whose events and faults have places, read in pieces of so many bytes.
PIECES = [
    "[{:process 0 :type :invoke :f :read}\n #t {:process 0 :type :okay :f :read}]\n",
    "[{:process 0 :type :invoke :f :write :value 1} {:process 0 :type :ok :f :write}\n{:process 1 :type :invoke :f :read}\n  {:process 1 :type :ok :f :read :value nil}]\n",
    "{:process 0, :type :invoke, :f :read}\n{:process 0, :type :ok, :f :read, :value 1}\n{:process 1, :type :invoke, :f :write, :value (0 5)}\n",
    "; first {\n#a #b ;c\n (#_{:x 1} ;}\n #op {:process 0 :type :invoke :f :write :value 1},{:process :nemesis}\n{:process 0 :type :ok :f :write})\n;\n"
    "#jepsen.history.Op{:process 1 :type :invoke :f :read} #g [{:process 1 :type :ok :f :read :value 7}",
    "; first {\n#a #b ;c\n (#_{:x 1} ;}\n #op {:process 0 :type :invoke :f :write :value 1},{:process :nemesis}\n{:process 0 :type :ok :f :write})\n;\n"
    "#jepsen.history.Op{:process 1 :type :invoke :f :read} #g [{:process 1 :type :ok :f :read :value 7}]",
    "{:process 0 :type :invoke :f :read}\n[{:process 0} {:a}]",
    "\n\n ; \n{:process 0 :type :invoke :f :read}\n;\n ;{",
]

def run(program, folder, words, script, **shim):
    """What the program writes with this set for the lines before the C library, its status, and what these told."""
    shim = {"LD_PRELOAD": os.path.join(folder, "refusing.so"), **shim}
    ended = subprocess.run([program, *words], cwd=folder, input=script, capture_output=True, text=True, env={**os.environ, **shim}, timeout=60)
    return ended.stdout, ended.returncode, ended.stderr


def refused(program, folder, words, script, number):
    """The same, with this growth refused (0: none)."""
    return run(program, folder, words, script, REFUSED=str(number))


def failing(program, folder, words, script, piece, read=0, write=0, error=errno.EIO, on=0):
    """The same, with pieces of so many bytes, and with this read or write failing (0: none)."""
    return run(program, folder, words, script, DEVICE=f"{piece} {read} {write} {error} {on}")


def is_right(ended, whole, replies):
    """Whether this is what the undisturbed run gives, or whole replies to some first commands and then the fault."""
    fronts = {"".join(replies[:count]) + FAULT for count in range(max(1, len(replies)))}
    return ended == whole or ended[1] == FAILED and ended[0] in fronts


def replies_to(program, folder, words, script):
    """The reply to each command, and how many growths stand before it ends: what a run of the first commands has more than a run of one less."""
    replies, growths, before = [], [], ""
    for count in range(len(script) + 1):
        written, _, told = refused(program, folder, words, "".join(line + "\n" for line in script[:count]), 0)
        replies.append(written[len(before):])
        growths.append(int(told))
        before = written
    return replies[1:], growths


def refused_of(growths, is_searched):
    """The growths to refuse, by number, up to one that is never asked for."""
    for first, end in zip([0] + growths, growths):
        for number in range(first + 1, end + 1):
            if not is_searched or number <= first + ENDS or number > end - ENDS or number % DISTANCE == 0:
                yield number
    yield growths[-1] + 1


def growths_of(program, folder, words, events, script):
    """How many runs with a growth refused are as they should be, and how many aren't."""
    write_recording(folder, maps(events))
    passed = failed = 0
    replies, growths = replies_to(program, folder, words, script)
    text = "".join(line + "\n" for line in script)
    whole = refused(program, folder, words, text, 0)[:2]
    is_searched = (words, events, script) in SEARCHED
    questions = [range(growths[at] + 1, growths[at + 1] + 1) for at, line in enumerate(script) if line.startswith(QUESTIONS)]
    runs = stopped = done_without = 0
    for number in refused_of(growths, is_searched):
        written, status, told = refused(program, folder, words, text, number)
        is_passed = is_right((written, status), whole, replies) and (told == "refused") == (number <= growths[-1])
        is_passed = is_passed and (told == "refused" or (written, status) == whole)
        if told == "refused" and status != FAILED and any(number in part for part in questions):
            done_without += 1
            is_passed = is_passed and not (is_searched and done_without > DONE_WITHOUT)
        runs += 1
        stopped += status == FAILED
        passed += is_passed
        failed += not is_passed
        if not is_passed:
            print(f"{' '.join(words)}: growth {number} refused: status {status}, wrote {written!r}")
    print(f"{' '.join(words)}: {runs - 1} of {growths[-1]} growths refused in turn, {stopped} runs stopped by it, {done_without} questions did without one")
    return passed, failed


def fronts_of(told, piece, recording, script, number):
    """What may be written before the fault where the read of the number failed."""
    descriptor, given = map(int, told.split())
    commands, replies = [command for command, _ in script], [reply for _, reply in script]
    if commands[0] is None:
        # Each file is read up to a call that gives nothing.
        at = (number - 1) // (-(-len(recording) // piece) + 1)
        return ["".join(replies[:at]) + ("file FILE\n" if len(script) > 1 else "")]
    whole = "".join(command + "\n" for command in commands).encode()[:given].count(b"\n")
    if descriptor == 0:
        return ["".join(replies[:whole])]
    # The file is read by a command among those that were given; where bytes come one by one, by the last.
    pulls = [at for at in range(whole) if commands[at] == "pull"]
    return ["".join(replies[:at]) for at in (pulls if piece > 1 else [at for at in pulls if at == whole - 1])]


def devices_of(program, folder, words, recording, script):
    """How many runs with a read or a write that fails are as they should be, and how many aren't."""
    write_recording(folder, recording)
    text = "".join(command + "\n" for command, _ in script if command is not None)
    wanted = "".join(reply for _, reply in script)
    status = run(program, folder, words, text)[1]

    def failed_read(piece, number):
        written, ending, told = failing(program, folder, words, text, piece, read=number)
        if not told:
            return None if (written, ending) == (wanted, status) else (written, ending)
        is_right = ending == FAILED and written in [front + NOT_READ for front in fronts_of(told, piece, recording, script, number)]
        return told if is_right else (written, ending)

    def failed_write(piece, number, error, on):
        written, ending, told = failing(program, folder, words, text, piece, write=number, error=error, on=on)
        if not told:
            return None if (written, ending) == (wanted, status) else (written, ending)
        taken = int(told.split()[1])
        is_right = ending == FAILED and written == wanted[:taken] + ("" if on else NOT_WRITTEN) and (piece > 1 or taken == number - 1)
        return told if is_right else (written, ending)

    calls = [(failed_read, (piece,)) for piece in (1, 7, 1000)] + [(failed_write, (piece, *how)) for piece in (1, 1000) for how in WRITES]
    passed = failed = stopped = 0
    with ThreadPoolExecutor(os.cpu_count()) as pool:
        for call, said in calls:
            # Each call fails in turn, up to a run that has no such call.
            most = 4 + (len(text) + len(recording) * len(script) if call is failed_read else len(wanted)) // said[0]
            ends = list(pool.map(lambda number: call(said[0], number, *said[1:]), range(1, most + len(script) * 2)))
            count = ends.index(None) if None in ends else len(ends)
            stopped += count
            for number, ended in enumerate(ends, 1):
                is_passed = isinstance(ended, str) if number <= count else ended is None
                passed += is_passed
                failed += not is_passed
                if not is_passed:
                    print(f"{' '.join(words)}: {call.__name__} {number} {said}: {ended!r}")
            if not count or None not in ends:
                failed += 1
                print(f"{' '.join(words)}: {call.__name__} {said}: {count} calls failed in {len(ends)} runs")
    print(f"{' '.join(words)}: {stopped} reads and writes failed in turn")
    return passed, failed


def pieces_of(program, folder, text):
    """Whether a text is explained the same in pieces, for some lengths of these."""
    write_recording(folder, text)
    words = ["explain", FILE]
    whole = run(program, folder, words, "")
    told = [piece for piece in (*range(1, 20), 64, 100) if failing(program, folder, words, "", piece) != whole]
    if told:
        print(f"{text!r}: not the same in pieces of {told}")
    return 21 - len(told), len(told)


def write_recording(folder, text):
    with open(os.path.join(folder, FILE), "w", encoding="ascii") as file:
        file.write(text)


def main():
    given = [word for word in sys.argv[1:] if word != "--devices"]
    program = os.path.abspath(given[0] if given else os.environ.get("LINCHECK") or PROGRAM)
    with tempfile.TemporaryDirectory() as folder:
        source = os.path.join(folder, "refusing.c")
        with open(source, "w", encoding="ascii") as file:
            file.write(SHIM)
        compiler = next(name for name in ("cc", "clang", "gcc") if shutil.which(name))
        subprocess.run([compiler, "-O1", "-shared", "-fPIC", "-o", os.path.join(folder, "refusing.so"), source, "-ldl"], check=True)
        found = [] if "--devices" in sys.argv else [growths_of(program, folder, *session) for session in RUNS + SEARCHED]
        found += [devices_of(program, folder, *session) for session in DEVICES]
        found += [pieces_of(program, folder, text) for text in PIECES]
    passed, failed = map(sum, zip(*found))
    print(f"{passed} passed, {failed} failed")
    return 1 if failed else 0


if __name__ == "__main__":
    sys.exit(main())
