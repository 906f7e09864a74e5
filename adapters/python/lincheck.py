"""Records what the clients of a store do, and asks the command lincheck whether it is linearizable.

    log = lincheck.Log()
    with log.operation(client, "write", 1) as op:
        store.write(1)
        op.ok()
    report = lincheck.explain(log, kind="register")
    assert report, report.text

The command is the argument `command`, else what LINCHECK in the environment names, else lincheck on the PATH.
Part of lincheck: MIT or Apache 2.0, as you choose.
"""
import enum
import json
import os
import re
import subprocess
import threading
from dataclasses import dataclass
from typing import List, Optional

FUNCTIONS = ("read", "write", "cas", "enqueue", "dequeue", "add", "acquire", "release")
WORD = re.compile(r''':[^\t-\r ,()\[\]{}";\\]+|#?"(?:[^"\\\n]|\\[^\n])*"|true|false|-?(?:0|[1-9][0-9]*)''')
SURROGATE = re.compile("[\ud800-\udfff]")  # a letter of it has no UTF-8


class Error(Exception):
    """The command is missing, was killed, refused its words or failed: nothing is known of the history."""


class Word(str):
    """An item as EDN spells it: the keyword Word(":leader"), or a key as the command tells it."""

    def __new__(cls, spelled):
        if not WORD.fullmatch(spelled):
            raise ValueError("no item of EDN: %r" % spelled)
        return super().__new__(cls, spelled)


def edn(value):
    """A value in EDN: None, a bool, an int, a str, a Word, or a list, tuple or set of these."""
    if value is None:
        return "nil"
    if isinstance(value, bool):
        return "true" if value else "false"
    if isinstance(value, int):
        if not -(1 << 63) <= value < 1 << 63:
            raise ValueError("an integer has 64 bits: %d" % value)
        return "%d" % value
    if isinstance(value, Word):
        return str(value)
    if isinstance(value, str):
        return json.dumps(value, ensure_ascii=bool(SURROGATE.search(value)))
    if isinstance(value, (list, tuple)):
        return "[%s]" % " ".join(map(edn, value))
    if isinstance(value, (set, frozenset)):
        return "#{%s}" % " ".join(sorted(map(edn, value)))
    raise TypeError("a history has no values such as %r" % (value,))


class Log:
    """A history that any number of threads record. Its order is that in which operations began and ended.

    A process is a client, which does one operation after another. Where it isn't known whether one took effect, that one stays open for good,
    and what the client does next stands under a fresh number.
    """

    def __init__(self):
        self._lock = threading.Lock()
        self._lines = []
        self._numbers = {}  # of each client: its process in the history
        self._used = set()
        self._fresh = 0  # above all that are used
        self._busy = set()

    def operation(self, process, f, value=None, key=None):
        """Records that the client begins an operation. With a key it is one of the object of that name, as `keyed` reads it."""
        return Operation(self, process, f, value, key)

    def save(self, path):
        with open(path, "wb") as file:
            file.write(bytes(self))

    def __bytes__(self):
        """The history in EDN, as far as it is recorded."""
        with self._lock:
            return "".join(self._lines).encode("utf-8", "surrogateescape")

    def _begin(self, process, f, value):
        with self._lock:
            if process in self._busy:
                raise ValueError("process %d is still in another operation" % process)
            self._busy.add(process)
            if process not in self._numbers:
                number = self._numbers[process] = self._fresh if process in self._used else process
                self._used.add(number)
                self._fresh = max(self._fresh, number + 1)
            self._put(process, "invoke", f, value)

    def _end(self, operation, type, value, error):
        """Whether this is the first end of the operation. Another isn't recorded."""
        with self._lock:
            if operation.ended:
                return False
            operation.ended = True
            self._put(operation.process, type, operation.f, value, error)
            self._busy.remove(operation.process)
            if type == "info":
                del self._numbers[operation.process]
            return True

    def _put(self, process, type, f, value, error=None):
        told = "" if error is None else ", :error " + edn(error if isinstance(error, str) else repr(error))
        self._lines.append("{:process %d, :type :%s, :f :%s, :value %s%s}\n" % (self._numbers[process], type, f, value, told))


class Operation:
    """What a client does, up to the first of ok, fail and info. An exception that leaves a `with` before is an info."""

    def __init__(self, log, process, f, value, key):
        if not isinstance(process, int) or not 0 <= process < 1 << 62:
            raise ValueError("a process is an integer of at least 0: %r" % (process,))
        if f not in FUNCTIONS:
            raise ValueError("%r is none of %s" % (f, ", ".join(FUNCTIONS)))
        self.process, self.f, self.ended = process, f, False
        self._log, self._key = log, key
        self._called = self._written(value)
        log._begin(process, f, self._called)

    def _written(self, value):
        return edn(value) if self._key is None else edn([self._key, value])

    def ok(self, value=None):
        """It is done. The value is what a read or a dequeue gave, and counts for these alone."""
        self._tell("ok", self._written(value) if self.f in ("read", "dequeue") else self._called)

    def fail(self, error=None):
        """It didn't take effect, and never will."""
        self._tell("fail", self._called, error)

    def info(self, error=None):
        """It isn't known whether it took effect, or will. Where the operation has ended this says nothing."""
        return self._log._end(self, "info", self._called, error)

    def _tell(self, type, value, error=None):
        if not self._log._end(self, type, value, error):
            raise RuntimeError("the operation has ended before")

    def __enter__(self):
        return self

    def __exit__(self, type, error, trace):
        if self.info(error) and error is None:
            raise RuntimeError("the operation was left without ok, fail or info")


class Verdict(enum.Enum):
    """Whether the history is linearizable. YES is true and NO is false; the others are neither, and raise where they are taken for one."""

    YES = "yes"
    NO = "no"
    UNDECIDED = "undecided"
    ILL_FORMED = "ill-formed"
    REFUSED = "refused"

    def __bool__(self):
        if self in (Verdict.YES, Verdict.NO):
            return self is Verdict.YES
        raise ValueError("neither true nor false: " + self.value)


VERDICTS = list(Verdict)  # in the order of the exit statuses


@dataclass(frozen=True)
class Object:
    key: Word
    kind: str
    verdict: Verdict
    answer: str


@dataclass(frozen=True)
class Report:
    """What the command told. Where an object is a no the whole is one, also where others are undecided."""

    verdict: Verdict
    answer: str  # in a line: no prefix 4
    text: str  # the explanation; of `check` the line
    key: Optional[Word]  # of the object that is explained
    objects: List[Object]  # by rising key, of `check` and where all keys are explained
    map: dict  # what was printed: docs/FORMATS.md, section 10

    def __bool__(self):
        try:
            return bool(self.verdict)
        except ValueError:
            raise ValueError("neither true nor false: " + self.text) from None


def check(history, kind="register", keyed=False, budget=None, timeout=None, command=None):
    """Decides a history: a Log, the bytes of a file, or a path. `timeout` is in seconds, of each run of the command."""
    return _Command(history, kind, keyed, budget, timeout, command).check()


def explain(history, kind="register", keyed=False, key=None, budget=None, timeout=None, command=None):
    """Decides a history and tells why: of the object with the key, else of the first one that is a no, else of the whole."""
    return _Command(history, kind, keyed, budget, timeout, command).explain(key)


def draw(history, kind="register", keyed=False, key=None, budget=None, timeout=None, command=None):
    """A picture as SVG, of the object that `explain` tells of."""
    return _Command(history, kind, keyed, budget, timeout, command).draw(key)


class _Command:
    def __init__(self, history, kind, keyed, budget, timeout, command):
        if isinstance(history, (str, os.PathLike)):
            with open(history, "rb") as file:
                history = file.read()
        self.history, self.keyed, self.timeout = bytes(history), keyed, timeout
        self.options = ["--kind", kind] + ["--keyed"] * bool(keyed) + ([] if budget is None else ["--budget", str(budget)])
        self.command = command or os.environ.get("LINCHECK") or "lincheck"

    def check(self):
        found = self.map("check")
        objects = [Object(Word(it["key"]), it["kind"], VERDICTS[it["status"]], it["answer"]) for it in found.get("objects", [])]
        verdict, answer = VERDICTS[found["status"]], found["answer"]
        if verdict is not Verdict.NO:
            verdict, answer = next(((it.verdict, it.answer) for it in objects if it.verdict is Verdict.NO), (verdict, answer))
        return Report(verdict, answer, answer, None, objects, found)

    def explain(self, key):
        checked = self.check() if self.keyed and key is None else None
        found = self.map("explain", *self.of(key, checked))
        verdict = VERDICTS[found["status"]]
        if checked is not None and verdict is not checked.verdict:
            raise Error("check tells %s, and explain %s" % (checked.answer, found["answer"]))
        key = Word(found["key"]) if "key" in found else None
        return Report(verdict, found["answer"], found["text"], key, [] if checked is None else checked.objects, found)

    def draw(self, key):
        checked = self.check() if self.keyed and key is None else None
        status, picture, errors = self.run("draw", *self.of(key, checked))
        if status not in (0, 1, 2) or not picture.startswith("<svg") or not picture.endswith("</svg>\n"):
            raise Error("no picture, status %d: %s%s" % (status, picture[:1000], errors))
        return picture

    def of(self, key, checked):
        """The words for the object with the key, or else for the first that is a no."""
        if key is None and checked is not None:
            key = next((it.key for it in checked.objects if it.verdict is Verdict.NO), None)
        return [] if key is None else [("--key=" + edn(key)).encode("utf-8", "surrogateescape")]

    def map(self, *words):
        """The map that is printed. It counts only where it has the status with which the command ended."""
        status, printed, errors = self.run(*words, "--format", "json")
        try:
            found = json.loads(printed) if 0 <= status <= 4 else None
        except ValueError:
            found = None
        valid = {0: True, 1: False}.get(status, "unknown")
        if status == 2 and isinstance(found, dict) and "failed" in found:
            valid = False  # an object is a no beside one that is undecided
        if not isinstance(found, dict) or found.get("status") != status or found.get("valid?") != valid:
            raise Error("status %d: %s%s" % (status, printed[:1000], errors))
        return found

    def run(self, *words):
        """The status, and what is printed on standard output and on standard error."""
        try:
            done = subprocess.run([self.command, *words, *self.options, "-"], input=self.history, stdout=subprocess.PIPE, stderr=subprocess.PIPE,
                                  timeout=self.timeout)
        except (OSError, subprocess.TimeoutExpired) as error:
            raise Error(str(error)) from error
        return done.returncode, done.stdout.decode("utf-8", "surrogateescape"), done.stderr.decode("utf-8", "surrogateescape")
