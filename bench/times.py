#!/usr/bin/env python3
"""Runs the gate, passes on what it prints and its status, and writes a table of what each crate's checks took.

usage: bench/times.py [-o FILE] COMMAND WORD..      as in: bench/times.py -o docs/TIMES.md ./test.sh

The table goes between the two marker lines of FILE, or to its end where it has none, if the command ends with status 0; else, or with no -o, it
goes to standard error. Each second /proc is read for the rattle processes that the command started. A check's processor seconds are its own and
those of its copies and compilers at its last reading, so what it takes in its last second is missing, and what was kept from an earlier run has none.
"""
import os
import re
import resource
import select
import subprocess
import sys
import time

BEGIN, END = "<!-- bench/times.py writes from here -->", "<!-- to here -->"
KINDS = ("proof", "tests", "edits")


def processes():
    """Returns each process's parent, start, and processor seconds, those of its ended children included."""
    found = {}
    for pid in filter(str.isdigit, os.listdir("/proc")):
        try:
            with open(f"/proc/{pid}/stat", "rb") as it:
                # (the name before the bracket can hold anything)
                words = it.read().rpartition(b")")[2].split()
        except OSError:
            continue
        found[int(pid)] = int(words[1]), int(words[19]), sum(map(int, words[11:15])) / os.sysconf("SC_CLK_TCK")
    return found


def check_of(pid):
    """Returns the crate and the kind of a rattle process's check, or None of another process."""
    try:
        with open(f"/proc/{pid}/cmdline", "rb") as it:
            words = it.read().decode(errors="replace").split("\0")
        folder = os.readlink(f"/proc/{pid}/cwd")
    except OSError:
        return None
    if os.path.basename(words[0]) != "rattle" or "--crate-name" not in words:
        return None
    # Edits are tried in copies of the crate.
    kind = "edits" if re.search(r"/(rt-edit|must-fail)-", folder) else "tests" if "--test" in words else "proof"
    return words[words.index("--crate-name") + 1], kind


class Checks:
    """Of each check, by its process and start: its crate and kind, its processor seconds, and when it was seen first and last."""

    def __init__(self, top):
        self.top, self.found = top, {}

    def sample(self):
        running, now, sums = processes(), time.monotonic(), {}
        for pid, (_, _, seconds) in running.items():
            line = [pid]
            while line[-1] in running and line[-1] != self.top:
                line.append(running[line[-1]][0])
            # What copies and compilers take is that of the uppermost rattle process above them.
            for at in reversed(line[:-1] if line[-1] == self.top else []):
                key = at, running[at][1]
                if key not in self.found and (said := check_of(at)):
                    self.found[key] = [said, 0, now, now]
                if key in self.found:
                    sums[key] = sums.get(key, 0) + seconds
                    break
        for key, seconds in sums.items():
            self.found[key][1], self.found[key][3] = max(self.found[key][1], seconds), now

    def took(self, crate, kind):
        """Returns the processor seconds of a crate's checks of one kind, and the seconds from the first to the last of them."""
        ran = [it for it in self.found.values() if it[0] == (crate, kind)]
        return (sum(it[1] for it in ran), max(it[3] for it in ran) - min(it[2] for it in ran)) if ran else None


def table(checks, said, elapsed, load):
    """Returns the text to write, from what was sampled and what the command printed, given as lines with the second of each."""
    functions, edits, scripts, heading = {}, {}, [], ""
    for second, line in [*said, (elapsed, "== end")]:
        if line.startswith("== "):
            if "/" in heading:
                scripts[-1] += f"{second - began:.0f} seconds"
            heading, began = line[3:], second
            scripts += [f"- `{heading}`: "] * ("/" in heading)
        proved, tried = re.match(r"logic=proved functions=(\d+)", line), re.match(r"(\w+)/\w+: refused", line)
        if proved and ":" not in heading:
            functions[heading] = int(proved[1])
        if tried:
            edits[tried[1]] = edits.get(tried[1], 0) + 1
    crates = list(dict.fromkeys(it[0][0] for it in checks.found.values()))
    took = {kind: {it: checks.took(it, kind) for it in crates} for kind in KINDS}
    rows = [f"{len(os.sched_getaffinity(0))} processors, load average {load:.1f} at the start. Processor seconds, and in brackets seconds elapsed.", ""]
    rows += ["| crate | functions | proof | proof with tests | edits | for these |", "|---|---|---|---|---|---|"]
    for it in crates:
        cells = ["{:,.0f} ({:,.0f})".format(*took[kind][it]) if took[kind][it] else "" for kind in KINDS]
        rows.append(f"| `{it}` | {functions.get(it, '')} | {cells[0]} | {cells[1]} | {edits.get(it, '')} | {cells[2]} |")
    sums = ["{:,.0f}".format(sum(it[0] for it in took[kind].values() if it)) for kind in KINDS]
    rows += [f"| all | {sum(functions.values()):,} | {sums[0]} | {sums[1]} | {sum(edits.values())} | {sums[2]} |", "", *scripts]
    minutes = elapsed / 60, sum(resource.getrusage(resource.RUSAGE_CHILDREN)[:2]) / 60
    return "\n".join([*rows, "- the whole command: {:.1f} minutes elapsed, {:.0f} minutes of processor time".format(*minutes), ""])


def run(command):
    """Runs the command and returns its status and the text to write."""
    load, began, said, rest, is_open, sampled = os.getloadavg()[0], time.monotonic(), [], b"", True, 0
    child = subprocess.Popen(command, stdout=subprocess.PIPE)
    checks = Checks(child.pid)
    try:
        while is_open or child.poll() is None:
            if select.select([child.stdout] * is_open, [], [], 0.2)[0]:
                piece = os.read(child.stdout.fileno(), 1 << 16)
                is_open = bool(piece)
                sys.stdout.buffer.write(piece)
                sys.stdout.flush()
                *lines, rest = (rest + piece).split(b"\n")
                said += [(time.monotonic() - began, it.decode(errors="replace")) for it in lines]
            if time.monotonic() - sampled >= 1:
                sampled = time.monotonic()
                checks.sample()
    except KeyboardInterrupt:
        # (the command gets it too, and ends in its own way)
        child.wait()
    status = child.returncode if child.returncode >= 0 else 128 - child.returncode
    return status, table(checks, said, time.monotonic() - began, load)


def main(words):
    file = words[1] if words[:1] == ["-o"] and len(words) > 2 else None
    command = words[2:] if file else words
    if not command or command[0].startswith("-"):
        print(__doc__, file=sys.stderr)
        return 2
    status, text = run(command)
    if not file or status:
        print(text, end="", file=sys.stderr)
        return status
    with open(file, encoding="utf-8") as it:
        before, begin, after = it.read().partition(BEGIN)
    with open(file, "w", encoding="utf-8") as it:
        it.write(f"{before}{'' if begin else chr(10)}{BEGIN}\n\n{text}\n{END}{after.partition(END)[2] or chr(10)}")
    return 0


if __name__ == "__main__":
    sys.exit(main(sys.argv[1:]))
