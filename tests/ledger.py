#!/usr/bin/env python3
"""Tests the ledger of refused edits, with no prover, on three small crates that it writes into a temporary folder.

Each part of a key is changed in turn, and the key has to change; and so are what no check of the edit reads, and the key has to stay. Then
tests/must_fail.py is run on them with a stand-in for the prover: a false line fails the run where its crate is drawn. Last it reads
messages of the prover as they come, in several lines.

usage: tests/ledger.py
"""
import contextlib
import io
import os
import sys
import tempfile

sys.dont_write_bytecode = True
import must_fail
import trials

PROVER = 'kit 1', 'sum 1'
LOW = '''//! What stands below.
mod parts;

pub use parts::{half};

pub const MOST: usize = 10;

pub struct Pair {
    pub left: u64,
}

macro_rules! makes {
    () => {
        fn made() -> u64 {
            70
        }
    };
}

/// A table's width.
pub const fn width() -> usize {
    80
}

pub fn counted() -> impl Iterator<Item = u64> {
    Range::new(90)
}

pub trait Named {
    fn number(&self) -> u64 {
        100
    }
}

/// The lesser one.
pub fn lesser(a: u64, b: u64) -> u64
    ensures { result ≤ a }
{
    if a < b { a } else { b }
}

impl Pair {
    pub fn left(&self) -> u64
        ensures { result ≡ self.now.left }
    {
        self.left
    }
}

fn nothing() {}

fn around() {
    impl Other for Pair {
        fn right(&self) -> u64 {
            110
        }
    }
}
'''
PARTS = '''ghost use Rattle.std.specs.Prelude.{◌≤◌, ℕ};
ghost use Rattle.low.specs.Third.{Third};
ghost use Rattle.low.specs.inner.Fifth.{Fifth};
ghost use Rattle.low.specs.inner.Sixth.{Sixth};

use crate::halves::Half;

/// A half of it.
pub fn half(whole: Half, by: Sized) -> u64
    ensures { result ≤ 1 }
{
    third(whole)
}

/// A third of it.
#[inline]
pub fn third(whole: Half) -> u64
    ensures { Third result × Sixth result × (result ≤ 3) }
{
    0
}

/// What is counted here alone.
#[derive(Clone, Copy)]
pub(crate) enum Part {
    Whole,
    Rest(u8),
}

#[derive(Clone, Copy)]
pub(crate) struct Count {
    part: Part,
}

fn count(whole: Count) -> u8 {
    9
}

#[derive(Clone, Copy)]
pub(crate) struct Width {
    of: u8,
}

pub(crate) struct Sized {
    width: Width,
}

impl Sized {
    fn seventh(&self) -> u64
        ensures { Fifth result }
    {
        0
    }
}

const MOST_OF_ALL: u8 = 120;

impl Half {
    #[inline]
    fn fourth(&self) -> u64
        ensures { result ≤ 5 }
    {
        0
    }
}
'''
FILES = {
    'crates.txt': '# lowest first\nlin_lists:\nlow: lin_lists arrayvec\ntop: low\nother: lin_lists\n',
    'tests/refused.txt': '# by must_fail.py\n',
    'crates/lin_lists/src/lib.rt': 'pub fn first() -> u64 {\n    1\n}\n',
    'crates/lin_lists/specs/Lists.antt': 'first = 1\n',
    'crates/lin_lists/proofs/Plain.antt': 'plain = 1\n',
    'crates/low/src/lib.rt': LOW,
    'crates/low/src/parts.rt': PARTS,
    'crates/low/src/names.rt': 'pub const NAMES: &str = "\n// 1\n";\n',
    'crates/low/specs/Lesser.antt': 'lesser = 1\n',
    'crates/low/specs/inner.antt': 'pub mod Fifth\npub mod Sixth\n',
    'crates/low/specs/inner/Fifth.antt': 'use Rattle.low.specs.inner.Fourth.{fourth}\nfifth = 1\n',
    'crates/low/specs/inner/Fourth.antt': 'fourth = 1\n',
    'crates/low/specs/inner/Sixth.antt': 'sixth = 1\n',
    'crates/low/specs/lemmas/Least.antt': 'least = 1\n',
    'crates/low/proofs/lesser/Answers.antt': 'answer = 1\n',
    'crates/low/wrong-bodies/the_greater_one.edit': 'file: src/lib.rt\nold: a < b\nnew: b < a\n',
    'crates/low/wrong-bodies/README.md': 'Edits.\n',
    'crates/top/src/lib.rt': 'pub fn top() -> u64 {\n    low::lesser(1, 2)\n}\n',
    'crates/top/specs/Top.antt': 'top = 1\n',
    'crates/top/proofs/top/Answers.antt': 'answer = 1\n',
    'crates/top/wrong-bodies/two_for_one.edit': 'file: src/lib.rt\nold: (1, 2)\nnew: (2, 2)\n',
    'crates/other/src/lib.rt': 'pub fn other() -> u64 {\n    3\n}\n',
    'crates/other/specs/Other.antt': 'other = 1\n',
}
TOP, BELOW = 'top/two_for_one', 'low/the_greater_one'
BOTH = {TOP, BELOW}
# What is changed, where, its text before and after, and whose keys change.
CHANGES = [
    ('the edit', 'crates/top/wrong-bodies/two_for_one.edit', '(2, 2)', '(2, 3)', {TOP}),
    ('a body of the crate', 'crates/top/src/lib.rt', '(1, 2)', '(1, 3)', {TOP}),
    ('specs of the crate', 'crates/top/specs/Top.antt', '1', '2', {TOP}),
    ('proofs of the crate', 'crates/top/proofs/top/Answers.antt', '1', '2', {TOP}),
    ('the line of the crate', 'crates.txt', 'top: low', 'top: low itoa', {TOP}),
    ('the line of a crate below', 'crates.txt', 'arrayvec', 'indexmap', BOTH),
    ('the line of a crate two levels below', 'crates.txt', 'lin_lists:\nlow', 'lin_lists: itoa\nlow', BOTH),
    ('specs below', 'crates/low/specs/Lesser.antt', '1', '2', BOTH),
    ('lemmas below', 'crates/low/specs/lemmas/Least.antt', '1', '2', BOTH),
    ('specs two levels below', 'crates/lin_lists/specs/Lists.antt', '1', '2', BOTH),
    ('proofs below that any crate may import', 'crates/lin_lists/proofs/Plain.antt', '1', '2', BOTH),
    ('a contract below', 'crates/low/src/lib.rt', 'result ≤ a', 'result ≤ b', BOTH),
    ('a type below', 'crates/low/src/lib.rt', 'pub left: u64', 'pub left: u32', BOTH),
    ('a constant below', 'crates/low/src/lib.rt', '10;', '11;', BOTH),
    ('a macro below', 'crates/low/src/lib.rt', '70', '71', BOTH),
    ('a constant function below', 'crates/low/src/lib.rt', '80', '81', BOTH),
    ('a function below with a type of its body', 'crates/low/src/lib.rt', '90', '91', BOTH),
    ('a function of a trait below', 'crates/low/src/lib.rt', ' 100', ' 101', BOTH),
    ('an impl in a body below', 'crates/low/src/lib.rt', ' 110', ' 111', BOTH),
    ('the name of a function below', 'crates/low/src/lib.rt', 'fn lesser', 'fn least', BOTH),
    ('the name of a function below in a file with a macro', 'crates/low/src/lib.rt', 'fn nothing', 'fn nobody', BOTH),
    ('the name of one in another file that is not handed on', 'crates/low/src/parts.rt', 'fn third', 'fn fifth', {BELOW}),
    ('a contract of one in another file that is handed on', 'crates/low/src/parts.rt', 'result ≤ 1', 'result ≤ 2', BOTH),
    ('an import of that', 'crates/low/src/parts.rt', 'Prelude.{◌≤◌', 'Other.{◌≤◌', BOTH),
    ('a type in its head', 'crates/low/src/parts.rt', 'halves::Half', 'thirds::Half', BOTH),
    ('a contract of one there that is not', 'crates/low/src/parts.rt', 'result ≤ 3', 'result ≤ 4', {BELOW}),
    ('an import of that alone', 'crates/low/src/parts.rt', 'specs.Third.', 'specs.Fourth.', {BELOW}),
    ('a type that private functions alone name', 'crates/low/src/parts.rt', 'Rest(u8)', 'Rest(u16)', {BELOW}),
    ('a private type that a method goes by', 'crates/low/src/parts.rt', 'of: u8', 'of: u16', BOTH),
    ('inner specs that a method cites', 'crates/low/specs/inner/Fifth.antt', '1', '2', BOTH),
    ('inner specs that those cite', 'crates/low/specs/inner/Fourth.antt', '1', '2', BOTH),
    ('inner specs that a private function cites', 'crates/low/specs/inner/Sixth.antt', '1', '2', {BELOW}),
    ('a constant there that nothing names', 'crates/low/src/parts.rt', '= 120', '= 121', {BELOW}),
    ('whether one is inlined', 'crates/low/src/parts.rt', '    #[inline]', '    #[inline(never)]', {BELOW}),
    ('a method there', 'crates/low/src/parts.rt', 'result ≤ 5', 'result ≤ 6', BOTH),
    ('a plain body below', 'crates/low/src/lib.rt', 'if a < b { a } else { b }', 'let c = b;\n    if a < c { a } else { c }', {BELOW}),
    ('the body of a method below', 'crates/low/src/lib.rt', '        self.left\n', '        self.left + 0\n', {BELOW}),
    ('an empty body below', 'crates/low/src/lib.rt', 'fn nothing() {}', 'fn nothing() {\n    lesser(1, 2);\n}', {BELOW}),
    ('a plain body two levels below', 'crates/lin_lists/src/lib.rt', '    1', '    2', set()),
    ('a remark below', 'crates/low/src/lib.rt', "/// A table's width.", '/// How wide a table is.\n', {BELOW}),
    ('what may be a part of a string below', 'crates/low/src/names.rt', '// 1', '// 2', BOTH),
    ('proofs below', 'crates/low/proofs/lesser/Answers.antt', '1', '2', {BELOW}),
    ('another edit', 'crates/low/wrong-bodies/the_greater_one.edit', 'b < a', 'a <= b', {BELOW}),
    ('a page of edits', 'crates/low/wrong-bodies/README.md', 'Edits', 'All edits', set()),
    ('a crate beside', 'crates/other/specs/Other.antt', '1', '2', set()),
    ('a remark of crates.txt', 'crates.txt', '# lowest first', '# lowest ones first', set()),
]
# As rattle says it: a name that an edit took away, in one line and in two, and what is not checked for that.
NAMES = '''./proofs/tables/Table/take/Answers.antt:11:58: error: `listed`: record `Rattle.low.proofs.tables.Table.take.Lts.Arm` has no field `change`
  the fields that can be named here are `taken`, `is`
./proofs/tables/Table/take/Answers.antt:19:27: error: `returns-in-Some`: record `Rattle.low.proofs.tables.Table.take.Lts.Arm-After-known_told-of-a-long-name`
  has no field `change`
  the fields that can be named here are `taken`, `is`
./proofs/tables/Table/take/Answers.antt:30:5: error: `goal.returns-in-Some` is not in scope: not a local variable, nor a definition admitted earlier
./proofs/tables/Table/take/Answers.antt:31:5: error: `returns-in-Other`: module `Rattle.low.proofs.tables.Table.take.Goals` has no `pub` name `returns-in-Other`
./proofs/tables/Table/take/Answers.antt:32:5: error: 1 declaration that depends on `listed`, which was rejected, was not checked: returns-in_default
'''
GOAL = '''./proofs/tables/Table/take/Answers.antt:40:5: error: `returns-in-None`: the two types first differ where one has `c.args.at`
  (expected), right after `now`, and the other has `c.args.end` (found)
  a name `M` is not in scope where this is written
    M : Type 1  (not in scope)
  ⊢ c.args.at ≡ c.args.end
    (`M` is not in scope at this hole, so this text does not paste back)
'''
REFUSED = '''fn low::tables::Table::take: not proved; it stands on `Rattle.low.proofs.tables.Table.take.Answers.returns-in-Some`, which antt refuses
only=1 holes=0
'''


class Toy:
    """A repository in a folder."""

    def __init__(self, root):
        self.root = root
        for path, text in FILES.items():
            self.write(path, text)

    def write(self, path, text):
        os.makedirs(os.path.dirname('%s/%s' % (self.root, path)), exist_ok=True)
        with open('%s/%s' % (self.root, path), 'w', encoding='utf-8') as it:
            it.write(text)

    def read(self, path):
        with open('%s/%s' % (self.root, path), encoding='utf-8') as it:
            return it.read()

    def keys(self, prover=PROVER):
        return must_fail.Keys(self.root, prover).made

    def run(self, *words, missed=(), meanwhile=lambda: None):
        """Runs must_fail.py over a prover that refuses all edits but those missed. Returns its status, its lines, and what was tried."""
        names = set()

        def tried(_, wanted):
            names.update(it for found in wanted.values() for it in found)
            meanwhile()
            return {it: it not in missed for it in names}

        said = io.StringIO()
        with contextlib.redirect_stdout(said):
            status = must_fail.main([*words], self.root, lambda: PROVER, tried)
        return status, said.getvalue().splitlines(), names


class Counted:
    def __init__(self):
        self.passed = self.failed = 0

    def __call__(self, name, is_right):
        self.passed, self.failed = self.passed + bool(is_right), self.failed + (not is_right)
        if not is_right:
            print('FAILED: ' + name)


def changed(before, after):
    return {it for it in before if before[it] != after.get(it)}


def try_keys(toy, right):
    before = toy.keys()
    right('two edits have keys', {*before} == BOTH and all(len(it) >= 16 for it in before.values()))
    for what, path, old, new, wanted in CHANGES:
        text = toy.read(path)
        toy.write(path, text.replace(old, new))
        right('%s changes %s' % (what, ', '.join(sorted(wanted)) or 'no key'), text.count(old) == 1 and changed(before, toy.keys()) == wanted)
        toy.write(path, text)
    toy.write('crates/low/src/more.rt', 'pub fn more() {}\n')
    right('a new file below of which nothing is handed on changes one key', changed(before, toy.keys()) == {BELOW})
    toy.write('crates/low/src/more.rt', 'impl Pair {\n    pub fn more(&self) {}\n}\n')
    right('a new file below with a method changes both keys', changed(before, toy.keys()) == BOTH)
    os.remove(toy.root + '/crates/low/src/more.rt')
    right("the kit's line changes both keys", changed(before, toy.keys(('kit 2', PROVER[1]))) == BOTH)
    for line, is_one in (must_fail.KIT, True), (must_fail.KIT.replace('kit-', 'kit-9'), True), (must_fail.KIT + '0', False), ('', False):
        right('%s is in keys as the kit that they know: %s' % (line or 'no line', is_one), (must_fail.in_keys(line) == must_fail.KIT) == is_one)
    right("the prover's sum changes both keys", changed(before, toy.keys((PROVER[0], 'sum 2'))) == BOTH)
    file = trials.__file__
    with open(file, encoding='utf-8') as it:
        toy.write('trials.py', it.read() + '#\n')
    trials.__file__ = toy.root + '/trials.py'
    right('the module of trials changes both keys', changed(before, toy.keys()) == BOTH)
    trials.__file__ = file
    right('the same texts have the same keys', toy.keys() == before)


def seed_for(crate):
    return next(str(it) for it in range(100) if must_fail.lot_of(['low', 'top'], str(it)) == {crate})


def try_runs(toy, right):
    ledger = 'tests/refused.txt'
    high, low = seed_for('top'), seed_for('low')
    status, said, names = toy.run()
    right('with no line all are tried', status == 0 and names == BOTH and said[-2:] == ['2 tried here, 0 on the word of ' + ledger, '2 passed, 0 failed'])
    right('and it tells how to renew the ledger', any('lacks 2 of 2' in it and 'tests/must_fail.py --write low top' in it for it in said))
    right('without --write the ledger stays', toy.read(ledger) == FILES[ledger])
    status, said, names = toy.run('--write', '--lot', high, missed=[TOP])
    right('an edit that passes fails the run', status == 1 and said[-1] == '1 passed, 1 failed')
    right('and gets no line', toy.read(ledger) == '%s%s %s\n' % (FILES[ledger], BELOW, toy.keys()[BELOW]))
    status, said, names = toy.run('--write', '--lot', low)
    right('what is lacking is tried beside the lot', status == 0 and names == BOTH)
    whole = FILES[ledger] + ''.join('%s %s\n' % it for it in sorted(toy.keys().items()))
    right('--write writes sorted lines', toy.read(ledger) == whole)
    status, said, names = toy.run('--lot', low)
    right('with all lines only the lot is tried', names == {BELOW} and said[-2:] == ['1 tried here, 1 on the word of ' + ledger, '1 passed, 0 failed'])
    right('and nothing is to be renewed', not any('lacks' in it for it in said))
    status, said, names = toy.run()
    seed = said[0].split()[3].strip(',')
    right('a run can be repeated by the lot that it prints', len(names) == 1 and toy.run('--lot', seed)[2] == names)
    right('runs draw by different lots', len({toy.run()[1][0].split()[3] for _ in range(4)}) > 1)
    status, said, names = toy.run('--lot', high, missed=[TOP])
    right('a false line fails where its crate is drawn', status == 1 and any(it.startswith(TOP + ': the ledger is false here') for it in said))
    right('a false line passes where its crate is not drawn', toy.run('--lot', low, missed=[TOP])[0] == 0)
    right('--anew finds it', toy.run('--anew', missed=[TOP])[0] == 1 and toy.run('--anew')[2] == BOTH)
    right('a crate that is named is tried whole and alone', toy.run('top')[2] == {TOP})
    toy.write(ledger, FILES[ledger])
    right('and what is neither tried nor looked up is told', toy.run('top')[1][-2] == '1 tried here, 0 on the word of %s, 1 neither' % ledger)
    toy.write(ledger, whole)
    edit = 'crates/top/wrong-bodies/two_for_one.edit'
    toy.run('--write', '--anew', meanwhile=lambda: toy.write(edit, FILES[edit] + '\n'))
    right('what changes under way gets no line', toy.read(ledger) == whole.replace('%s %s\n' % (TOP, whole.split()[-1]), ''))
    toy.write(edit, FILES[edit])
    toy.write(ledger, whole)
    status, said, names = toy.run('--write', 'top', missed=[TOP])
    right('--write takes a false line away', status == 1 and toy.read(ledger) == whole.replace('%s %s\n' % (TOP, toy.keys()[TOP]), ''))
    toy.write(ledger, whole + 'top/long_gone 0123456789abcdef\n')
    right('a line of no edit is told', any('has lines of no edit: 1; ' in it for it in toy.run('--lot', low)[1]))
    toy.write('crates/low/src/lib.rt', LOW.replace('a < b', 'a <= b'))
    status, said, names = toy.run('--lot', high)
    right('a changed body has its own edits tried', names == BOTH and any('--write low renews' in it for it in said))
    toy.run('--write', 'low')
    right('a key that is stale goes, and what is good stays', toy.read(ledger) == FILES[ledger] + ''.join('%s %s\n' % it for it in sorted(toy.keys().items())))


def try_messages(right):
    function = trials.Function('tables', ('Table', None), 'take', '', 0)
    function.crate, function.path = 'low', 'low::tables::Table::take'

    class Edit:
        functions = {function.path: function}

    def why(said):
        return trials.Trial.why(None, Edit, trials.Run(1, said), True)

    right('the verdict on the function refuses it', trials.Run(1, NAMES + REFUSED).refusals(function))
    right('names that are gone alone refuse nothing', why(NAMES + REFUSED) is None)
    right('a goal beside them does', (why(NAMES + GOAL + REFUSED) or '').startswith('./proofs/tables/Table/take/Answers.antt:40:5'))
    note = 'note: src/tables.rt:5:1: it is not proved that what the function ensures holds (`returns-in-None`)\n'
    right('and so does a note on the function', why(NAMES + note + REFUSED) == note.strip())


def main():
    right = Counted()
    with tempfile.TemporaryDirectory(prefix='ledger-') as root:
        toy = Toy(root)
        try_keys(toy, right)
        try_runs(toy, right)
    try_messages(right)
    print('%d passed, %d failed' % (right.passed, right.failed))
    return 1 if right.failed else 0


if __name__ == '__main__':
    sys.exit(main())
