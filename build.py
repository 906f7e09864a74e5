#!/usr/bin/env python3
"""Builds the program lincheck from records of its proofs, and first proves each crate that has no record of its present text.

usage: ./build.py [--run WORD..]   builds crates/lincheck/out/lincheck, and with --run goes on as that program
       ./build.py --renew          puts the program of this source into built/, beside what it is of: that of crates/lincheck/out/, which rt ci
                                   and this script leave there, and which is built first where a source is newer

A record is what `rattle check -o` writes of a crate that it has proved from nothing. `rattle build --crate-checked` takes it only for the very
files, libraries, lowered code and build of rattle that were proved, so a record that no longer fits does no harm: the crate is proved again.
Records stay in out/proved/. Crates are proved side by side where none stands on the other, one for each processor and 3 GB of free memory, or
RT_JOBS at once. Libraries are built in a folder below TMPDIR, since rt stops at their files anywhere in the repository but where it keeps its own.
"""
import fcntl
import hashlib
import os
import re
import shutil
import signal
import subprocess
import sys
import tempfile
import time

HERE = os.path.dirname(os.path.abspath(__file__))
NAME = "lincheck"
PROGRAM = f"{HERE}/crates/{NAME}/out/{NAME}"
PROVED = f"{HERE}/out/proved"
BUILT = f"{HERE}/built"
# Of no use to whoever reads the status of the program, which has others.
FAILED = 70
# (one process takes 0.7 to 2.5)
GIGABYTES_A_CHECK = 3


def say(text):
    print(f"{CLEAR}{NAME}: {text}", file=sys.stderr, flush=True)


def stop(text):
    say(text)
    sys.exit(FAILED)


CLEAR = "\r\x1b[K" if sys.stderr.isatty() else ""


class Kit:
    def __init__(self):
        rt = shutil.which("rt") or stop("this needs the Rattle kit, whose command rt is not on the PATH")
        self.folder = os.path.dirname(os.path.dirname(os.path.realpath(rt)))
        self.version = subprocess.run([rt, "version"], stdout=subprocess.PIPE, check=True).stdout


def read_crates():
    """Returns each crate's libraries by its name, and the names of the crates that the program needs, each after those below it."""
    libraries, order = {}, []
    with open(f"{HERE}/crates.txt", encoding="utf-8") as it:
        for line in it:
            head, colon, tail = line.partition("#")[0].partition(":")
            if colon:
                libraries[head.split()[0]] = tail.split()

    def visit(name):
        for it in libraries[name]:
            if it in libraries and it not in order:
                visit(it)
        order.append(name)

    visit(NAME)
    return libraries, order


def most_at_once():
    if re.fullmatch("[1-9][0-9]*", os.environ.get("RT_JOBS", "")):
        return int(os.environ["RT_JOBS"])
    free = []
    for file, pattern, unit in (
        ("/proc/meminfo", r"MemAvailable:\s+(\d+)", 1024),
        ("/sys/fs/cgroup/memory.max", r"(\d+)", 1),
        ("/sys/fs/cgroup/memory/memory.limit_in_bytes", r"(\d+)", 1),
    ):
        if os.path.isfile(file):
            with open(file) as it:
                found = re.search(pattern, it.read())
            free += [int(found[1]) * unit] if found else []
    return max(1, min([len(os.sched_getaffinity(0)), *[it // (GIGABYTES_A_CHECK * 10**9) for it in free]]))


class Build:
    """One build of the program and of the libraries below it in a folder of its own, from the records of this tree."""

    def __init__(self, kit, room):
        self.kit, self.room = kit, room
        self.libraries, self.order = read_crates()
        self.lanes, self.began, self.told = most_at_once(), time.time(), time.time()
        self.running, self.done, self.proved = {}, set(), []

    def log(self, name):
        return f"{PROVED}/{name}.log"

    def counted(self, name):
        """Returns how many functions antt has ended with, and how many there are, by the last line of progress in the log."""
        with open(self.log(name), "rb") as it:
            it.seek(max(0, os.path.getsize(self.log(name)) - (1 << 16)))
            found = re.findall(rb"(?m)^checked .*, (\d+ of \d+)$", it.read())
        return found[-1].decode() if found else ""

    def words(self, name):
        kit, root = self.kit.folder, "src/lib.rt" if name != NAME else "src/main.rt"
        words = ["--crate-name", name, root, "--antt-project", f"{kit}/rattle/logic/antt-project.json", "--links", f"{name}="]
        for it in ["std", *self.libraries[name]]:
            words += ["--extern", f"{it}={self.room if it in self.libraries else f'{kit}/rlibs'}/{it}.rlib"]
        return [*words, "-L", f"dependency={kit}/rlibs", "-L", f"dependency={self.room}"]

    def steps(self, name, jobs):
        """Yields the commands that make a library or the program, and is sent the status of each. Returns whether that was well."""
        rattle, kit, is_program = f"{self.kit.folder}/bin/rattle", self.kit.folder, name == NAME
        made = f"{self.room}/{name}.{'o' if is_program else 'rlib'}"
        how = ["--toolchain", f"{kit}/toolchain", "--backend", "llvm"] if is_program else []

        def from_record(folder):
            return [rattle, "build", *self.words(name), "--crate-checked", folder, *how, "-o", made]

        def check(jobs):
            kind = [] if is_program else ["--statements"]
            more = ["--logic-built", f"{kit}/logic_built", "--jobs", str(jobs), "--progress", *kind, "-o", f"{PROVED}/{name}"]
            return [rattle, "check", *self.words(name), *more]

        is_taken = os.path.isdir(f"{PROVED}/{name}") and (yield from_record(f"{PROVED}/{name}")) == 0
        if not is_taken:
            status = yield check(jobs)
            if status == -signal.SIGKILL:
                say(f"the check of {name} was killed, most likely for memory: once more, and from here on one at a time")
                self.lanes = 1
                status = yield check(1)
            if status or (yield from_record(f"{PROVED}/{name}")):
                return False
            self.proved.append(name)
            with open(self.log(name), errors="replace") as it:
                functions = re.findall(r"(?m)^logic=proved functions=(\d+)", it.read())
            say(f"{name} proved, {functions[-1] if functions else '?'} functions, after {self.minutes()} ({len(self.done) + 1} of {len(self.order)} crates)")
        if is_program:
            linked = ["--target", "x86_64-unknown-linux-gnu", "--toolchain", f"{kit}/toolchain", "-o", f"{self.room}/{name}", made]
            return (yield [f"{kit}/bin/rattle-link", *linked, f"{kit}/c/libos_c.a", f"{kit}/c/liblibc_c.a"]) == 0
        return True

    def minutes(self):
        return f"{(time.time() - self.began) / 60:.1f} minutes"

    def start(self, name, command):
        with open(self.log(name), "ab") as log:
            how = {"cwd": f"{HERE}/crates/{name}", "stdin": subprocess.DEVNULL, "stdout": log, "stderr": subprocess.STDOUT}
            # (a group of its own, so that the copies that rattle makes of itself end with it)
            return subprocess.Popen(command, start_new_session=True, **how)

    def show(self):
        """Rewrites a line on a terminal, and else writes one a minute."""
        if not CLEAR and time.time() - self.told < 60:
            return
        self.told = time.time()
        text = f"{NAME}: {self.minutes()}: " + ", ".join(f"{it} {self.counted(it)}".strip() for it in self.running)
        if CLEAR:
            text = CLEAR + text[: os.get_terminal_size(2).columns - 1]
        print(text, end="" if CLEAR else "\n", file=sys.stderr, flush=True)

    def run(self):
        """Makes all, or stops the whole build where one crate is not proved or not built."""
        left, asked, were = list(self.order), [], {}
        for it in (signal.SIGINT, signal.SIGTERM, signal.SIGHUP):
            # (what is ignored stays so, as under nohup)
            if signal.getsignal(it) != signal.SIG_IGN:
                were[it] = signal.signal(it, lambda number, _: asked.append(number))
        try:
            while left or self.running:
                if asked:
                    sys.exit(128 + asked[0])
                ready = [it for it in left if self.done.issuperset(set(self.libraries[it]) & set(self.order))]
                for at, name in enumerate(ready):
                    idle = self.lanes - sum(it[2] for it in self.running.values())
                    if idle > 0:
                        # A crate that all others wait for gets the processors that they leave idle.
                        jobs = max(1, min(4, idle // (len(ready) - at)))
                        steps = self.steps(name, jobs)
                        open(self.log(name), "wb").close()
                        left.remove(name)
                        self.running[name] = steps, self.start(name, next(steps)), jobs
                self.show()
                time.sleep(0.5)
                for name, (steps, process, jobs) in list(self.running.items()):
                    if process.poll() is not None:
                        del self.running[name]
                        try:
                            self.running[name] = steps, self.start(name, steps.send(process.returncode)), jobs
                        except StopIteration as ended:
                            if not ended.value:
                                self.fail(name)
                            self.done.add(name)
        finally:
            for _, process, _ in self.running.values():
                os.killpg(process.pid, signal.SIGKILL)
                process.wait()
            for it, handler in were.items():
                signal.signal(it, handler)
            print(CLEAR, end="", file=sys.stderr, flush=True)

    def fail(self, name):
        with open(self.log(name), errors="replace") as it:
            # (these count what was loaded and checked, and hide what went wrong)
            lines = [line for line in it if not re.match(r"(statements|library|checked|antt:) ", line)]
        stop(f"not built, since {name} failed; the end of {self.log(name)}:\n{''.join(lines[-5:]).rstrip()}")


def sum_of(file):
    with open(file, "rb") as it:
        return hashlib.sha256(it.read()).hexdigest()


def put_program(made, began):
    """Puts the program in its place as old as the sources that it was made of, so that one that was edited meanwhile is newer."""
    os.makedirs(os.path.dirname(PROGRAM), exist_ok=True)
    shutil.copy(made, f"{PROGRAM}.new")
    os.utime(f"{PROGRAM}.new", (began, began))
    os.replace(f"{PROGRAM}.new", PROGRAM)
    # (from which built/static.sh links another)
    shutil.copy(f"{made}.o", f"{PROGRAM}.o")
    # (as sha256sum prints it, for ./lincheck with LINCHECK_PROVE=1)
    with open(f"{os.path.dirname(PROGRAM)}/proved", "w") as it:
        it.write(f"{sum_of(PROGRAM)}  -\n")


def is_fresh():
    """Whether there is a program that is newer than its sources."""
    sources = [f"{HERE}/crates.txt", *(f"{at}/{it}" for at, _, names in os.walk(f"{HERE}/crates") for it in names if "/src" in at)]
    return os.path.isfile(PROGRAM) and os.path.getmtime(PROGRAM) >= max(map(os.path.getmtime, sources))


def renew(kit):
    """Puts the program into built/, and what it is of (built/fits.sh has the form)."""
    shutil.copy(PROGRAM, f"{BUILT}/{NAME}.new")
    os.replace(f"{BUILT}/{NAME}.new", f"{BUILT}/{NAME}")
    source = subprocess.run([f"{BUILT}/fits.sh", "--sum"], stdout=subprocess.PIPE, check=True, text=True).stdout.strip()
    with open(f"{BUILT}/OF", "w") as it:
        it.write(f"source {source}\nkit {kit.version.decode().strip()}\nprogram {sum_of(f'{BUILT}/{NAME}')}\n")
    say(f"built/{NAME} is the program of this source; ./test.sh compares it with the one that it builds")


def build(kit):
    with tempfile.TemporaryDirectory(prefix=f"{NAME}-") as room:
        say(f"proving what has no record yet, and building (logs: {PROVED}/*.log)")
        it = Build(kit, room)
        it.run()
        put_program(f"{room}/{NAME}", it.began)
        say(f"proved and built, {it.minutes()}" if it.proved else "built from the proofs recorded here")


def main(words):
    is_run, is_renewal = words[:1] == ["--run"], words == ["--renew"]
    if words and not is_run and not is_renewal:
        print(__doc__, file=sys.stderr)
        return 2
    kit = Kit()
    os.makedirs(PROVED, exist_ok=True)
    with open(f"{PROVED}/lock", "w") as lock:
        try:
            fcntl.flock(lock, fcntl.LOCK_EX | fcntl.LOCK_NB)
        except BlockingIOError:
            say("another build is at work here: waiting for it")
            fcntl.flock(lock, fcntl.LOCK_EX)
            if is_run:
                os.execv(f"{HERE}/{NAME}", [f"{HERE}/{NAME}", *words[1:]])
        if not is_renewal or not is_fresh():
            build(kit)
        if is_renewal:
            renew(kit)
    if is_run:
        # Python ignores these two, and the program would inherit that.
        for it in (signal.SIGPIPE, signal.SIGXFSZ):
            signal.signal(it, signal.SIG_DFL)
        os.execv(PROGRAM, [PROGRAM, *words[1:]])
    return 0


if __name__ == "__main__":
    try:
        sys.exit(main(sys.argv[1:]))
    except KeyboardInterrupt:
        sys.exit(130)
