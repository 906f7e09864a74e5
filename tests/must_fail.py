#!/usr/bin/env python3
"""Tries the wrong bodies crates/NAME/wrong-bodies/*.edit: the prover has to refuse each one at the function that it changes.

An edit is written as rt's own must-fail edits are: a line `file: src/x.rt`, then pairs of lines `old: TEXT` and `new: TEXT`, where
each TEXT stands in that file once. What a check takes before it comes to the edited function is most of a try, so several edits go
into one check, a wave: those that change different functions, of which none call each other in a ring. `rattle` lists each function by
itself, judges a caller by the contracts of what it calls, proved or not, and an edit counts as refused only by a line of its own function.

For each crate (tests/trials.py):
1. Each function that no edit changes gets an empty body and a proof that is one hole, where it can have that. `rattle check
   --allow-holes` then takes it by its contract, which is all that the proofs of its callers go by: what the edits leave as it is isn't
   proved a second time.
2. The crate is checked so without any edit, and each function that an edit changes has to be proved. What is refused later is
   refused for the edit, and not for a hole or for a file that `--only` leaves out. Where one isn't proved so, the holes go.
3. The waves are checked, each over what that check kept. An edit without a line of its own is tried again alone.

tests/refused.txt is a ledger of edits that were refused: a line `CRATE/NAME KEY` for each, where KEY is a sum of all that a check of
the edit reads (Keys). An edit whose key stands there isn't tried, but for those of one crate in ten, by lot. Where one of these isn't
refused, the ledger is false and the run fails.

usage: tests/must_fail.py [--write] [--anew | --lot SEED] [--jobs N] [--follow LOG] [CRATE ..]

CRATE ..: all edits of these crates, and no others. --anew: all edits of all crates, whatever the ledger says. --lot SEED: the crates that
an earlier run drew and printed. --write: writes the ledger; edits that were refused now get a line, lines that are still good stay.
By default a check runs for each processor, as many as memory holds. The checks stand on the libraries that rt ci or rt check left in
crates/*/out; rt lib makes those that are missing or older than their sources. With --follow an rt ci is under way, whose output goes
into LOG: a crate is tried once it and all below it are proved, over the libraries that rt ci made, and one check at a time until rt ci
ends. The last line counts the edits that were tried here.
"""
import argparse
import contextlib
import functools
import hashlib
import os
import re
import resource
import shutil
import subprocess
import sys
import tempfile
import threading
import time
from concurrent.futures import ThreadPoolExecutor

sys.dont_write_bytecode = True
import imports
import trials
from versions import logic_of

ROOT = os.path.dirname(os.path.dirname(os.path.realpath(__file__)))
LEDGER = 'tests/refused.txt'
COUNTED = re.compile(r'^\d+ passed, \d+ failed', re.M)
EACH = 3 << 30  # the memory that a check is taken to need: over holes 0.9 to 3 GB were measured
BESIDE = 4 << 30  # the free memory below which none begins beside rt ci: one check, and 1 GB by which rt ci's own still grow
KIT = 'rattle-kit-13f logic dac8208d650f15bf'  # the first kit of its logic that the ledger's keys know
NAMED = 8  # how many crates a command names before it stands for all


def sum_of(*parts):
    return hashlib.sha256(repr(parts).encode()).hexdigest()


class Keys:
    """The keys of a repository's edits: a sum of all that an edit's check reads, by the texts alone.

    It reads the edit, its crate, the prover, and of each crate below, through all levels, the line of crates.txt, specs/ and what src/ is
    without the bodies of plain functions, by whose contracts callers are judged, and without what nothing above can reach: plain functions
    that lib.rt doesn't hand on, types that are named by these alone, and of specs/inner/ what these alone cite. tests/imports.py keeps
    proofs/ and specs/inner/ from the crates above, but the proofs of ROOMS. tests/trials.py makes the checks and judges them.
    """

    def __init__(self, root, prover):
        self.root, self.prover, self.lines, self.uses = root, prover, {}, {}
        with open(root + '/crates.txt', encoding='utf-8') as it:
            for line in (' '.join(row.partition('#')[0].split()) for row in it):
                if line:
                    head, _, tail = line.partition(':')
                    self.lines[head.split()[0]], self.uses[head.split()[0]] = line, tail.split()
        self.of_all = sum_of(prover, self.read(os.path.realpath(trials.__file__)))
        self.files = {}
        for crate in self.lines:
            for file in trials.files_of_edits('%s/crates/%s' % (root, crate)):
                self.files[trials.name_of(crate, file)] = crate, file
        self.made = {name: self.key(*it) for name, it in self.files.items()}

    def read(self, file):
        with open(file, 'rb') as it:
            return it.read()

    def texts(self, crate, part):
        top = '%s/crates/%s' % (self.root, crate)
        files = sorted('%s/%s' % (at, name) for at, _, names in os.walk('%s/%s' % (top, part)) for name in names)
        return [(os.path.relpath(it, top), self.read(it)) for it in files]

    @functools.lru_cache(None)
    def own(self, crate):
        return sum_of(self.lines[crate], [self.texts(crate, it) for it in ('src', 'specs', 'proofs')])

    @functools.lru_cache(None)
    def from_above(self, crate):
        source = {path: it.decode(errors='surrogateescape') for path, it in self.texts(crate, 'src')}
        specs = {path: it.decode(errors='surrogateescape') for path, it in self.texts(crate, 'specs')}
        seen = seen_above(source, specs)
        return sum_of(self.lines[crate], sorted(seen.items()), self.texts(crate, 'proofs') if crate in imports.ROOMS else [])

    @functools.lru_cache(None)
    def below(self, crate):
        direct = [it for it in self.uses[crate] if it in self.lines]
        return frozenset(direct).union(*map(self.below, direct))

    def key(self, crate, file):
        edit = self.read(file) if os.path.isfile(file) else b''
        below = [(it, self.from_above(it)) for it in sorted(self.below(crate))]
        return sum_of(self.of_all, edit, self.own(crate), below)[:20]


def handed_on(text):
    """The names that a lib.rt hands on; None where it may hand on what it doesn't name."""
    uses = re.findall(r'^pub (?:use ([^;]*);|(?:struct|enum|trait|type|const|static) (\w+))', text, re.M)
    if re.search(r'^ *pub(?:\([\w: ]+\))? mod\b|macro_export', text, re.M) or any('*' in it for it, _ in uses):
        return None
    return {name for use, own in uses for name in re.findall(r'\w+', use or own)}


def without_hidden(path, text, handed):
    """A file without bodies, and without free functions that aren't handed on."""
    if handed is None or 'macro_rules!' in text:
        return trials.without_bodies(text)
    for it in reversed(trials.functions_of(text, '')):
        is_hidden = it.name not in handed and not (path == 'src/lib.rt' and it.text.startswith('pub '))
        if is_hidden and it.owner is None and not it.module and not trials.is_read_above(it):
            text = text[:begin_of(text, it.start)] + text[it.end:]
    return trials.without_bodies(text)


def begin_of(text, at):
    """Where the remarks and attributes of an item begin."""
    return re.search(r'(?:^ *(?:#\[|//).*\n)*\Z', text[:at], re.M).start()


def seen_above(source, specs):
    """What crates above read of a crate's files: no bodies, no free functions that aren't handed on, no types and constants that only these name,
    no inner specs that only these cite, no imports of what isn't named then, and no word on what is inlined."""
    handed = handed_on(source.get('src/lib.rt', ''))
    seen = {path: without_hidden(path, it, handed) if path.endswith('.rt') else it for path, it in source.items()}
    inner = {path for path in specs if path.startswith('specs/inner/')}
    open_specs = {path: it for path, it in specs.items() if path not in inner}
    if handed is not None:
        drop_types(seen, [it for at, it in open_specs.items() if at != 'specs/inner.antt'], handed)
    for path, text in seen.items():
        if path.endswith('.rt'):
            rest = re.sub(IMPORT, '', text)
            seen[path] = re.sub(UNSEEN, '', re.sub(IMPORT, lambda it, rest=rest: used_imports(it, rest), text))
    seen = {path: it for path, it in seen.items() if it.strip()}
    seen.update(open_specs)
    cited = True
    while cited:
        whole = '\n'.join(seen.values())
        cited = {it for it in inner - {*seen} if '.specs.inner.%s' % it[len('specs/inner/'):].split('.')[0].split('/')[0] in whole}
        seen.update((it, specs[it]) for it in cited)
    return seen


def drop_types(seen, specs, handed):
    """Drops the types and constants of a crate's files, with their impls, that neither lib.rt nor anything that is left names."""
    items = {path: items_of(it) for path, it in seen.items() if path.endswith('.rt')}
    types = {of for found in items.values() for of, is_type, _ in found if is_type}
    named, more = set(), handed & types
    while more:
        named |= more
        left = [text for found in items.values() for of, _, text in found if of not in types - named]
        words = {*re.findall(r'\w+', re.sub(IMPORT, '', '\n'.join([*left, *specs])))}
        more = (types & words) - named
    for path, found in items.items():
        seen[path] = ''.join(text for of, _, text in found if of not in types - named)


def items_of(text):
    """The items of a file, one behind the other: the type or constant that each is, or has functions of, if it is such, whether it is one, and its
    text."""
    starts = [it.start() for it in re.finditer(r'^(?![\s})\]]|//|#\[)', text, re.M)]
    begins = [begin_of(text, it) for it in starts]
    found = [] if not begins or begins[0] == 0 else [(None, False, text[:begins[0]])]
    for at, begin, end in zip(starts, begins, [*begins[1:], len(text)]):
        item = re.match(r'(?:pub(?:\([\w: ]+\))? )?(?:(struct|enum|const|static) (\w+)|impl\b([^{]*)\{)', text[at:end])
        owner = trials.owner_of(item[3]) if item and item[3] else None
        of = item[2] or (owner[0] if isinstance(owner, tuple) else owner) if item else None
        found.append((of, bool(item and item[2]), text[begin:end]))
    return found


IMPORT = re.compile(r'^(?:ghost )?use ([\w.:]*?)(?:\{([^{}]*)\}|(\w+(?: as \w+)?));\n', re.M)
UNSEEN = re.compile(r'^mod \w+;\n|^ *#\[inline[^\n]*\]\n', re.M)


def used_imports(found, rest):
    """An import, without the names that stand nowhere in the rest of a file."""
    names = [' '.join(it.split()) for it in (found[2] or found[3] or '').split(',')]
    used = [it for it in names if it and is_in(it.split(' ')[-1], rest)]
    return 'use %s %s\n' % (found[1], ', '.join(sorted(used))) if used else ''


def is_in(name, text):
    return bool(re.search(r'(?<!\w)%s(?!\w)' % re.escape(name), text)) if name.isidentifier() else name.strip('◌') in text


def read_ledger(root):
    """The ledger's lines of comment, and the keys by the edits' names."""
    with open('%s/%s' % (root, LEDGER), encoding='utf-8') as it:
        lines = it.read().splitlines()
    words = [it.split() for it in lines if not it.startswith('#')]
    bad = [it for it in words if len(it) != 2]
    if bad:
        sys.exit('must_fail.py: %s has a line that is not CRATE/NAME KEY: %s' % (LEDGER, ' '.join(bad[0])))
    return [it for it in lines if it.startswith('#')], dict(words)


def lot_of(crates, seed):
    """One crate in ten, and at least one."""
    return {*sorted(crates, key=lambda it: sum_of(seed, it))[:-(-len(crates) // 10)]}


def link_or_copy(source, to):
    """Gives a file a second name, or copies it where it can't have one."""
    try:
        os.link(source, to)
    except OSError:
        shutil.copy2(source, to)


class Following:
    """Slots for checks beside an rt ci whose output goes into a file, and what that says to be proved."""

    def __init__(self, asked, crates, room):
        self.asked, self.room = asked, room
        self.below = {below for it in crates for below in it.below()}
        self.left = [*self.below | {*crates}]
        self.running, self.most, self.has_ended, self.turn = 0, 1, False, threading.Condition()
        threading.Thread(target=self.read, daemon=True).start()
        # (of this thread and those that it starts, so the other one is as quick as rt ci)
        os.nice(19)
        # Where memory runs out all the same, one of these checks is killed, and none of rt ci.
        with contextlib.suppress(OSError), open('/proc/self/oom_score_adj', 'w') as it:
            it.write('900')

    def said(self):
        with open(self.asked.follow, errors='replace') as it:
            return it.read()

    def read(self):
        """Takes libraries as they are made, until rt ci has counted what passed. This run ends with whoever started it."""
        parent, said = os.getppid(), ''
        while not COUNTED.search(said):
            time.sleep(0.2)
            said = self.said() if os.path.isfile(self.asked.follow) and os.getppid() == parent else stop('rt ci was stopped')
            proved = {*re.findall(r'^rt: (\w+) (?:proved$|is kept: )', said, re.M)}
            for crate in [it for it in self.left if it.name in proved]:
                self.take(crate)
        lacks = [it.name for it in self.left if it.name not in proved]
        if lacks:
            stop('rt ci has ended and did not prove ' + ' '.join(lacks))
        if self.left:
            self.begin_anew()
        with self.turn:
            self.has_ended, self.most = True, most_at_once(self.asked.jobs, self.running)
            self.turn.notify_all()

    def take(self, crate):
        """Gives a library a second name. Once rt ci has counted, it puts in its place what stood there before."""
        if crate in self.below:
            mine = '%s/rlibs/%s.rlib' % (self.room, crate.name)
            try:
                shutil.copytree(crate.rlib, mine, copy_function=link_or_copy)
                is_whole = not COUNTED.search(self.said())
            except OSError:
                is_whole = False
            if not is_whole:
                shutil.rmtree(mine, ignore_errors=True)
                return
            crate.rlib = mine
        with self.turn:
            self.left.remove(crate)
            self.turn.notify_all()

    def begin_anew(self):
        """Goes on without --follow once rt ci has ended, since it was too quick for its libraries to be taken: all of them were kept."""
        rt.rtlib.lock(self.left)
        shutil.rmtree(self.room, ignore_errors=True)
        words = [*(['--jobs', str(self.asked.jobs)] if self.asked.jobs else []), *(['--lot', self.asked.lot] if self.asked.lot else [])]
        words += ['--write'] * self.asked.write + ['--anew'] * self.asked.anew
        os.execv(sys.executable, [sys.executable, os.path.realpath(__file__), *words, *self.asked.crates])

    def wait_for(self, crate):
        """Waits until the crate and all below it are proved."""
        with self.turn:
            self.turn.wait_for(lambda: not {crate, *crate.below()} & {*self.left})

    def __enter__(self):
        with self.turn:
            while self.running >= self.most or not self.has_ended and rt.free() < BESIDE:
                self.turn.wait(1)
            self.running += 1

    def __exit__(self, *_):
        with self.turn:
            self.running -= 1
            self.turn.notify_all()


def stop(why):
    """Ends the run whatever its threads are at."""
    print('must_fail.py: ' + why, flush=True)
    os._exit(1)


def most_at_once(jobs, running=0):
    return jobs or max(1, min(rt.processors(), running + int(rt.free() // EACH)))


def make_libraries(crates):
    """Makes the libraries below these crates where they're missing or older than their sources."""
    for crate in dict.fromkeys(it for crate in crates for it in crate.below()):
        stamp = rt.rtlib.text_of(os.path.dirname(crate.rlib) + '/stamp')
        made = crate.rlib + '/format'
        # (rt ci leaves no stamp: there the times tell)
        newest = max(os.path.getmtime(it) for it in rt.rtlib.files_of(crate.folder))
        is_made = os.path.isfile(made) and (stamp == crate.stamp() if stamp else os.path.getmtime(made) >= newest)
        if not is_made:
            print('%s: rt lib makes its library first' % crate.name, flush=True)
            ran = subprocess.run(['rt', 'lib', '--jobs', '1'], cwd=crate.folder, stdout=subprocess.PIPE, stderr=subprocess.STDOUT, errors='replace')
            if ran.returncode:
                sys.exit('must_fail.py: the library %s is not proved: rt check in its folder says why' % crate.name)


def tried(asked, wanted):
    """Tries edits, given by their crates, prints what is said of each, and returns by its name whether it is refused."""
    rt.rtlib.guarded()  # (its first call sets a signal's handler, which only the main thread may)
    printing = threading.Lock()
    crates = [it for it in rt.rtlib.crates_below(ROOT) if it.name in wanted]
    with tempfile.TemporaryDirectory(prefix='must-fail-') as room:
        if asked.follow:
            slots = following = Following(asked, crates, room)
        else:
            slots, following = threading.BoundedSemaphore(most_at_once(asked.jobs)), None
            make_libraries(crates)

        def one(trial):
            if following:
                following.wait_for(trial.crate)
            edits = trial.run()
            with printing:
                for it in edits:
                    print('%s: %s' % (it.name, it.verdict[1])[:len(it.name) + 2 + 160], flush=True)
            return edits

        # The longest first: a crate's waves wait for its check without edits.
        all_trials = sorted((trials.Trial(it, room, slots, wanted[it.name]) for it in crates), key=lambda it: -it.crate.count(rb'\n'))
        with ThreadPoolExecutor(len(all_trials) or 1) as pool:
            verdicts = {it.name: it.verdict[0] for edits in pool.map(one, all_trials) for it in edits}
    took = resource.getrusage(resource.RUSAGE_CHILDREN)
    print('processor seconds: %d' % (took.ru_utime + took.ru_stime))
    return verdicts


def in_keys(line):
    """A kit's line as keys have it: kits of one logic are one."""
    return KIT if logic_of(line) == logic_of(KIT) else line


def prover():
    """Finds the kit, and returns what tells provers apart: the kit's line, and the sum of its rattle."""
    global rt
    rt = trials.kit()
    said = subprocess.run(['rt', 'version'], stdout=subprocess.PIPE, check=True, text=True).stdout
    return in_keys(said.strip()), rt.rtlib.sum_of(rt.rtlib.RATTLE)


def main(words, root=ROOT, prover=prover, tried=tried):
    read = argparse.ArgumentParser(description=__doc__.split('\n')[0])
    read.add_argument('--write', action='store_true', help='write %s' % LEDGER)
    read.add_argument('--anew', action='store_true', help='try all edits, whatever %s says' % LEDGER)
    read.add_argument('--lot', metavar='SEED', help='draw the crates that an earlier run drew')
    read.add_argument('--jobs', type=int, help='how many checks run side by side')
    read.add_argument('--follow', metavar='LOG', help='the output of an rt ci that is under way')
    read.add_argument('crates', nargs='*', metavar='CRATE')
    asked = read.parse_args(words)
    keys = Keys(root, prover())
    remarks, ledger = read_ledger(root)
    crates = {crate for crate, _ in keys.files.values()}
    unknown = {*asked.crates} - crates
    if unknown:
        sys.exit('must_fail.py: no crate with a folder wrong-bodies: %s' % ', '.join(sorted(unknown)))
    good = {it for it, key in keys.made.items() if ledger.get(it) == key}
    whole = {*asked.crates} or (crates if asked.anew else set())
    if not whole:
        asked.lot = asked.lot or os.urandom(4).hex()
        whole = lot_of(crates, asked.lot)
        print('drawn by --lot %s, to be tried whole: %s' % (asked.lot, ' '.join(sorted(whole))), flush=True)
    wanted = {}
    for name, (crate, _) in keys.files.items():
        if crate in whole or name not in good and not asked.crates:
            wanted.setdefault(crate, set()).add(name)
    verdicts = tried(asked, wanted)
    return told(root, keys, remarks, ledger, good, verdicts, asked.write)


def told(root, keys, remarks, ledger, good, verdicts, writes):
    """Says what the tries came to, writes the ledger where that is asked for, and returns the status."""
    refused = {it for it, is_refused in verdicts.items() if is_refused}
    for name in sorted(good & {*verdicts} - refused):
        print('%s: the ledger is false here: %s says that this edit is refused' % (name, LEDGER))
    if writes:
        # (what was changed meanwhile may have been tried before or after that)
        now = Keys(root, keys.prover).made
        lines = sorted('%s %s' % (it, keys.made[it]) for it in good - {*verdicts} | refused if keys.made[it] == now.get(it))
        with open('%s/%s' % (root, LEDGER), 'w', encoding='utf-8') as it:
            it.write(''.join(line + '\n' for line in [*remarks, *lines]))
        print('%s has %d of %d edits now' % (LEDGER, len(lines), len(keys.made)))
    else:
        lacks, extra = {*keys.made} - good, {*ledger} - {*keys.made}
        if lacks or extra:
            crates = sorted({keys.files[it][0] for it in lacks})
            which = '' if len(crates) > NAMED else ''.join(' ' + it for it in crates)
            why = ['lacks %d of %d edits' % (len(lacks), len(keys.made))] * bool(lacks) + ['has lines of no edit: %d' % len(extra)] * bool(extra)
            print('%s %s; tests/must_fail.py --write%s renews it' % (LEDGER, ', and '.join(why), which))
    neither = len({*keys.made} - good - {*verdicts})
    beside = ', %d neither' % neither if neither else ''
    print('%d tried here, %d on the word of %s%s' % (len(verdicts), len(good - {*verdicts}), LEDGER, beside))
    print('%d passed, %d failed' % (len(refused), len(verdicts) - len(refused)))
    return 0 if refused and len(refused) == len(verdicts) else 1


if __name__ == '__main__':
    sys.exit(main(sys.argv[1:]))
