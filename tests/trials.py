"""What makes a check of edits and judges what the prover says of it, for tests/must_fail.py, which says what an edit is and how they are tried.

A change here has every edit tried anew, since a sum of this file is in each key of tests/refused.txt.
"""
import collections
import glob
import importlib.machinery
import importlib.util
import itertools
import os
import re
import shutil
import subprocess
import sys
from concurrent.futures import ThreadPoolExecutor

HOLE = 'use Rattle.{0}.proofs.{1}.Statement.{{statement}}\n\npub {2}_spec : {{M : Type 1}} → statement M\n{2}_spec = ?\n'
ITEM = re.compile(r'^( *)(?:pub(?:\([\w: ]+\))? )?(?:(?:const|unsafe|default|ghost) )*(fn|impl|trait|mod)\b(.*)', re.M)
CALL = re.compile(r'(?:(\w+)\s*(\.|::)\s*|(\.)\s*)?(?<!fn )\b(\w+)\s*(?:::<[^()]*>)?\(')
# A proof file that names what the edit took away, and what is not checked for that: both say little of the contract. (What a message goes
# on with may have such words too.)
TAKEN_AWAY = re.compile(r'(?:note: )?(?:\./)?proofs/\S+(?: error:)?(?:'
                        r'(?:[^`]*`[^`]*`){1,4} (?:has no field|is not in scope|has no `)|.*(?:was|were) not (?:admitted|checked))')
rt = None  # rt itself, once kit() has found it


def kit():
    """rt itself, as a module: so the edits are read, and the prover is called, as rt ci does both."""
    global rt
    found = shutil.which('rt')
    if not found:
        sys.exit('must_fail.py: there is no rt on the PATH')
    sys.dont_write_bytecode = True
    loader = importlib.machinery.SourceFileLoader('rt', os.path.realpath(found))
    made = importlib.util.module_from_spec(importlib.util.spec_from_loader('rt', loader))
    loader.exec_module(made)
    lacks = [it for it in ('edited', 'unread', 'processors', 'free', 'rtlib') if not hasattr(made, it)]
    if lacks:
        sys.exit('must_fail.py: this kit\'s rt has no %s' % ', '.join(lacks))
    rt = made
    return made


class Function:
    """A function with a body, as its file has it."""

    def __init__(self, module, owner, name, text, opens):
        self.module, self.owner, self.name, self.text, self.opens = module, owner, name, text, opens
        self.start = self.end = 0
        # Whether it's a trait's, whether it has the attribute of a cycle of calls, and whether it comes back to itself.
        self.in_trait = self.is_of_cycle = self.in_cycle = False
        self.crate = self.path = ''

    @property
    def key(self):
        return self.module, self.owner, self.name

    def can_be_a_hole(self):
        """A function in a cycle has a proof with others, one of a trait's impl may stand under another module's name, and a constant's
        body is run: these keep their proofs."""
        is_const = re.match(r'[^\n]*\bconst\b.*\bfn\b', self.text)
        return self.path.startswith(self.crate + '::') and not (self.in_trait or self.is_of_cycle or is_const)

    def hole(self):
        path = self.path.split('::', 1)[1].replace('::', '.')
        return HOLE.format(self.crate, path, self.name)

    def folder(self):
        return 'proofs/' + self.path.split('::', 1)[1].replace('::', '/')

    def home(self, sep):
        """A pattern of where its proof stands: below its own name, or below its cycle's."""
        *around, name = map(re.escape, self.path.split('::'))
        ahead = '' if around[:1] == [self.crate] else r'(?:\S+%s)?' % re.escape(sep)
        around = around[1:] if around[:1] == [self.crate] else around
        name = r'(?:%s|\+[^\s%s]+)' % (name, sep) if self.in_cycle else name
        return ahead + re.escape(sep).join([*around, name, ''])


def body_of(text, start, indent):
    """Where the braces of the item that starts there open and where the item ends, by the layout of rt fmt. Without braces both are
    its end."""
    at = start
    while at < len(text):
        end = text.find('\n', at) % (len(text) + 1)
        line = text[at:end]
        if line.endswith(';'):
            return end, end
        if line[:len(indent)] == indent and line[len(indent):len(indent) + 1] not in ('', ' '):
            if '{' in line and line.endswith('}'):
                return at + line.index('{'), end
            if line.endswith('{'):
                closed = re.compile('^%s}' % indent, re.M).search(text, end)
                return end - 1, (closed.end() if closed else len(text))
        at = end + 1
    return len(text), len(text)


def heads(words):
    """The names in a type, without lifetimes and parameters' own arguments: `From<AllocFailed<T>>` is From, AllocFailed."""
    return re.findall(r"(?<!')\b[A-Za-z_]\w*", re.sub(r"'\w+", '', words))


def without_generics(text):
    """The text behind the generics that it begins with."""
    depth = 0
    for at, sign in enumerate(text):
        depth += (sign == '<') - (sign == '>' and text[at - 1] != '-')
        if not depth:
            return text[at + 1:] if sign == '>' else text
    return text


def owner_of(header):
    """How rattle names an impl: its type, and behind it the trait with the type that the trait takes."""
    header = re.split(r'\bwhere\b|\{', without_generics(header.strip()))[0].strip()
    trait, _, of = header.rpartition(' for ')
    type_ = (heads(of) or ['?'])[0]
    return type_, type_ + ''.join(heads(trait)[:2]) if trait else None


def functions_of(text, module):
    """The functions of a file that stand in no other function, in order, with the impls and modules that they stand in."""
    found, around = [], []
    for item in ITEM.finditer(text):
        indent, kind, rest = item[1], item[2], item[3]
        around = [it for it in around if item.start() < it[0]]
        if any(it[1] == 'fn' for it in around):
            continue
        opens, end = body_of(text, item.start(), indent)
        has_body = opens < end
        if kind == 'fn':
            name = re.match(r' *(\w+)', rest)
            if not name or not has_body:
                continue
            modules = '::'.join([it for it in [module, *[it[2] for it in around if it[1] == 'mod']] if it])
            owner = next((it[2] for it in around if it[1] in ('impl', 'trait')), None)
            made = Function(modules, owner, name[1], text[item.start():end], opens)
            made.start, made.end = item.start(), end
            made.in_trait = any(it[1] == 'trait' for it in around)
            made.is_of_cycle = '#[cycle' in re.search(r'(?:^ *(?:#\[|//).*\n)*\Z', text[:item.start()], re.M)[0]
            found.append(made)
        elif not has_body:
            continue
        elif kind == 'mod':
            name = rest.strip(' {')
        elif kind == 'impl':
            name = owner_of(rest + text[item.end():text.find('{', item.start())])
        else:
            name = ((heads(rest) or ['?'])[0], None)
        around.append((end, kind, name))
    return found


class Source:
    """The functions of a crate, by rattle's paths, and which of them call which, as their names tell."""

    def __init__(self, crate, texts):
        self.crate, self.texts, self.by_file = crate.name, texts, {}
        for file, text in texts.items():
            module = file[len('src/'):-len('.rt')].replace('/', '::')
            self.by_file[file] = functions_of(text, '' if module in ('lib', 'main') else module)
        self.all = [it for found in self.by_file.values() for it in found]
        types = collections.defaultdict(set)
        for file, text in texts.items():
            module = file[len('src/'):-len('.rt')].replace('/', '::')
            for name in re.findall(r'^ *(?:pub(?:\([\w: ]+\))? )?(?:struct|enum|union) (\w+)', text, re.M):
                types[name].add('' if module in ('lib', 'main') else module)
        for it in self.all:
            it.crate = self.crate
            if it.owner and it.owner[1]:
                # (the module of an impl isn't always that of its type: the end of the name is enough where it's the only one)
                it.path = '%s::%s' % (it.owner[1], it.name)
                continue
            modules = types.get(it.owner[0], {it.module}) if it.owner else {it.module}
            words = [*([] if len(modules) > 1 else [self.crate, *modules]), *([it.owner[0]] if it.owner else []), it.name]
            it.path = '::'.join([word for word in words if word])
        self.free, self.methods, self.of_type = (collections.defaultdict(list) for _ in range(3))
        for it in self.all:
            (self.methods if it.owner else self.free)[it.name].append(it)
            if it.owner:
                self.of_type[it.owner[0], it.name].append(it)
        for it in self.all:
            it.in_cycle = it.is_of_cycle or it.path in self.reached(it)

    def called(self, function, text):
        """What the text of a function calls in the crate. A function passed by its name is missed: its edit is then tried alone."""
        found = []
        for ahead, sign, dot, name in CALL.findall(text):
            own = self.of_type.get((function.owner[0] if function.owner else '', name))
            if ahead in ('self', 'Self') and own:
                found += own
            elif sign == '.' or dot:
                found += self.methods.get(name, [])
            elif sign == '::' and self.of_type.get((ahead, name)):
                found += self.of_type[ahead, name]
            else:
                found += self.free.get(name, [])
        return found

    def reached(self, function, text=''):
        """The paths of all that a function calls, directly or through others, with calls in `text` counted as its own."""
        found, left = set(), [*self.called(function, function.text), *self.called(function, text)]
        while left:
            it = left.pop()
            if it.path not in found:
                found.add(it.path)
                left += self.called(it, it.text)
        return found


def files_of_edits(folder):
    """The files of a crate's edits. What is only to be read ends in .md."""
    return sorted(it for it in glob.glob(folder + '/wrong-bodies/*') if not it.endswith('.md'))


def name_of(crate, file):
    return '%s/%s' % (crate, os.path.splitext(os.path.basename(file))[0])


class Edit:
    """A wrong body, with the functions whose text it changes."""

    def __init__(self, crate, file, source):
        self.name, ending = name_of(crate.name, file), os.path.splitext(file)[1]
        self.functions, self.reached, self.is_alone, self.verdict = {}, set(), False, None
        if ending != '.edit' or not os.path.isfile(file):
            self.verdict = False, 'BAD EDIT: the name of an edit ends in .edit (or in .md, where it is only to be read)'
            return
        with open(file, encoding='utf-8', errors='replace') as it:
            self.text = it.read()
        texts, why = rt.edited(self.text, crate.folder)
        if why:
            self.verdict = False, 'BAD EDIT: ' + why
            return
        for file, text in texts.items():
            old, before = source.texts.get(file, ''), source.by_file.get(file, [])
            now = {it.key: it for it in functions_of(text, before[0].module if before else '')} if file in source.texts else {}
            for it in before:
                if it.key in now and now[it.key].text != it.text:
                    self.functions[it.path] = it
                    self.reached |= source.reached(it, now[it.key].text)
            rest, new_rest = outside(old, before), outside(text, now.values())
            if rest != new_rest:
                # An item that is no function's body: all functions that name it are its own.
                self.is_alone = True
                changed = ''.join({*new_rest.split('\n')} ^ {*rest.split('\n')})
                for name in re.findall(r'\b(?:const|static|struct|enum|type) (\w+)', changed):
                    self.functions.update((it.path, it) for it in source.all if re.search(r'\b%s\b' % name, it.text))
        if not self.functions:
            self.verdict = False, 'BAD EDIT: it changes the body of no function'

    def meets(self, other):
        """Whether the two can't be told apart in one check."""
        mine, its = {*self.functions}, {*other.functions}
        return self.is_alone or other.is_alone or bool(mine & its or mine & other.reached and its & self.reached)


def link(old, new):
    """A kept module by a link, since rattle puts a new file in its place; what rattle writes into, by a copy."""
    (os.link if old.endswith('.oantt') else shutil.copy2)(old, new)


def outside(text, functions):
    for it in reversed([*functions]):
        text = text[:it.start] + text[it.end:]
    return text


def is_read_above(function):
    """Whether a crate above may read more of a function than its head: a constant's body is run, that of a trait's may stand for another
    crate's, a type that is told as `impl` alone is the body's, and so is an item that stands in it."""
    head, body = function.text[:function.opens - function.start], function.text[function.opens - function.start:]
    is_of_body = re.search(r'\b(const|ghost)\b.*\bfn\b|->.*\bimpl\b', head, re.S)
    return function.in_trait or bool(is_of_body) or bool(re.search(r'^ *(?:impl\b|macro_rules!)', body, re.M))


def has_long_string(text):
    """Whether a string may go on in a further line, where what looks like a remark may be none."""
    rest = re.sub(r"^ *//.*|b?'(?:\\.|[^'\\])'|\\.", '', text, flags=re.M)
    return bool(re.search(r'\br#|/\*', rest)) or any(line.count('"') % 2 for line in rest.split('\n'))


def without_bodies(text):
    """What crates above read of a file: its text with the bodies of plain functions empty, which their callers judge by the contracts, and
    without remarks and blank lines."""
    macros = [(it.start(), body_of(text, it.start(), it[1])[1]) for it in re.finditer(r'^( *)(?:pub(?:\([\w: ]+\))? )?macro_rules!', text, re.M)]
    for it in reversed(functions_of(text, '')):
        if not is_read_above(it) and not any(start <= it.start < end for start, end in macros):
            text = text[:it.opens] + '{}' + text[it.end:]
    return text if has_long_string(text) else re.sub(r'^ *(?://.*)?\n', '', text, flags=re.M)


def waves_of(edits):
    """Few waves: an edit goes into the first in which it can be told apart from the others."""
    waves = []
    for edit in edits:
        fits = (it for it in waves if not any(edit.meets(other) for other in it))
        wave = next(fits, None)
        if wave is None:
            waves.append([edit])
        else:
            wave.append(edit)
    return waves


class Run:
    """What a check said."""

    def __init__(self, status, said):
        self.status, self.lines = status, said.rstrip('\n').split('\n')
        # Whole messages: rattle goes on in lines indented by two. The goal and the names below a message, at ⊢ and by four, are none of it.
        self.messages = [re.sub(r'\n  (?=\S)', ' ', it) for it in re.findall(r'^\S.*(?:\n  (?![ ⊢]).+)*', said, re.M)]
        # The verdict on each function, and the notes on its goals, which stand above it.
        self.of, self.notes, above = {}, {}, []
        for line in self.lines:
            verdict = re.match(r'fn (\S+): (.*)', line)
            if verdict:
                self.of[verdict[1]], self.notes[verdict[1]], above = verdict[2], above, []
            elif re.match(r'note: src/\S+:\d+:\d+: it is not proved', line):
                above.append(line)
        self.ended = bool(re.match(r'only=\d+ |logic=not-proved', self.lines[-1]))
        # What --only names and rattle doesn't know, or knows several times.
        self.unknown = re.findall(r'`([^`]+)`', ' '.join(it for it in self.lines if it.startswith('rattle: error'))) if status == 2 else []

    def names_of(self, path):
        """The function with that path, or that end of its path, and the closures in it."""
        return [name for name in self.of if re.search(r'(^|::)%s(::|$)' % re.escape(path), name)]

    def lines_of(self, path):
        return [self.of[name] for name in self.names_of(path)]

    def is_proved(self, path):
        said = self.lines_of(path)
        return bool(said) and all(re.match(r'proved|no holes|depends on a hole', it) for it in said)

    def refusals(self, function):
        """The notes and verdicts that refuse the function itself, and not what it calls."""
        own = r'it stands on [^;]*`Rattle\.%s\.proofs\.%s' % (function.crate, function.home('.'))
        refused = re.compile(r'not proved(?:$|; %s)|no proof: (?!it calls)' % own)
        found = []
        for name in self.names_of(function.path):
            if refused.match(self.of[name]) or self.of[name].startswith('not proved') and self.notes[name]:
                found += [*self.notes[name], self.of[name].split('; it calls')[0]]
        return found


class Trial:
    """Edits of a crate, on copies of it: those of these names, each check within a slot."""

    def __init__(self, crate, room, slots, names):
        self.crate, self.room, self.slots, self.numbers = crate, room, slots, itertools.count(1)
        self.source = Source(crate, {os.path.relpath(it, crate.folder): open(it, encoding='utf-8').read()
                                     for it in sorted(rt.rtlib.files_of(crate.folder)) if it.endswith('.rt')})
        self.edits = [Edit(crate, it, self.source) for it in files_of_edits(crate.folder) if name_of(crate.name, it) in names]
        self.asked = {path: it for edit in self.edits for path, it in edit.functions.items()}
        # Tests aren't read.
        tests = {file for file, text in self.source.texts.items() if '#[test]' in text}
        self.holes = {it.folder(): it.hole() for file, found in self.source.by_file.items() if file not in tests
                      for it in found if it.path not in self.asked and it.can_be_a_hole()}

    def copy(self, edits):
        """A copy of the crate with its holes and these edits, or None where one of them can't be applied beside another."""
        at = '%s/%s-%d' % (self.room, self.crate.name, next(self.numbers))
        for part in rt.rtlib.PARTS:
            if os.path.isdir('%s/%s' % (self.crate.folder, part)):
                shutil.copytree('%s/%s' % (self.crate.folder, part), '%s/%s' % (at, part))
        for folder, text in self.holes.items():
            os.makedirs('%s/%s' % (at, folder), exist_ok=True)
            for place in (folder, '%s/+%s' % os.path.split(folder)):
                for name in ('Answers.antt', 'Invariants.antt'):
                    if os.path.isfile('%s/%s/%s' % (at, place, name)):
                        os.remove('%s/%s/%s' % (at, place, name))
            with open('%s/%s/Proof.antt' % (at, folder), 'w', encoding='utf-8') as it:
                it.write(text)
        for file, found in self.source.by_file.items():
            text = self.source.texts[file]
            for function in reversed(found):
                if function.can_be_a_hole() and function.folder() in self.holes:
                    # (with as many lines, so that notes tell the places in the crate's own files)
                    lines = text[function.opens:function.end].count('\n')
                    text = text[:function.opens] + '{ unreachable!()%s}' % ('\n' * lines or ' ') + text[function.end:]
            with open('%s/%s' % (at, file), 'w', encoding='utf-8') as it:
                it.write(text)
        for edit in edits:
            texts, why = rt.edited(edit.text, at)
            if why:
                return None
            for path, text in texts.items():
                with open('%s/%s' % (at, path), 'w', encoding='utf-8') as it:
                    it.write(text)
        return at

    def check(self, edits, functions):
        """What rattle says of these functions under these edits, over what the check without any has kept."""
        run = self.ran(edits, functions)
        # Killed, most likely for memory: once more.
        return run if run.status >= 0 else self.ran(edits, functions)

    def ran(self, edits, functions):
        with self.slots:
            at = self.copy(edits)
            if at is None:
                return Run(2, 'these edits cannot be applied together')
            kept = '%s/%s-kept' % (self.room, self.crate.name)
            mine = at + '-kept' if edits else kept
            if edits:
                shutil.copytree(kept, mine, copy_function=link)
            flags = ['--jobs', '1', '--incremental', mine, *(['--allow-holes'] if self.holes else [])]
            for path in functions:
                flags += ['--only', path]
            words = [*rt.rtlib.guarded(), rt.rtlib.RATTLE, 'check', *self.crate.words(flags, keeps=False)]
            how = {'cwd': at, 'stdin': subprocess.DEVNULL, 'stdout': subprocess.PIPE, 'stderr': subprocess.STDOUT, 'errors': 'replace'}
            ran = subprocess.run(words, **how)
            shutil.rmtree(at)
            if edits:
                shutil.rmtree(mine)
            return Run(ran.returncode, ran.stdout)

    def base(self):
        """Checks the crate without an edit, and leaves what the waves stand on. An edit of a function that isn't proved so is lost."""
        while self.asked:
            run = self.check([], self.asked)
            lost = {*self.asked} & {*run.unknown}
            if not lost and not all(run.is_proved(it) for it in self.asked) and self.holes:
                # (a hole that rattle refuses: without it, or without all where none is to blame)
                refused = {it for line in run.lines for it in re.findall(r'^(?:\./)?(proofs/\S+)/Proof\.antt:\d+:\d+: error', line)}
                self.holes = {folder: text for folder, text in self.holes.items() if refused & {*self.holes} and folder not in refused}
                continue
            lost = lost or {it for it in self.asked if not run.is_proved(it)}
            for edit in self.edits:
                mine = lost & {*edit.functions}
                if mine and not edit.verdict:
                    said = [*run.of.values()] and [it for path in mine for it in run.lines_of(path)] or run.lines
                    edit.verdict = False, 'without the edit %s is not proved: %s' % (', '.join(sorted(mine)), said[0])
            self.asked = {path: it for edit in self.edits if not edit.verdict for path, it in edit.functions.items()}
            if run.status != 2:
                return

    def why(self, edit, run, is_alone):
        """The first line that refuses the edit for more than a proof that names what the edit took away, if there is one."""
        own = [it for function in edit.functions.values() for it in run.refusals(function)]
        told = [it for it in run.messages if re.match(r'note: \S+:\d+:\d+:|\S+:\d+:\d+: error', it)]
        if not is_alone:
            near = '|'.join(it.home('/') for it in edit.functions.values())
            told = [it for it in told if re.match(r'(?:\./)?proofs/(?:%s)' % near, it)]
        strong = [it for it in own if it.startswith(('note: ', 'no proof'))] + [it for it in told if not TAKEN_AWAY.match(it)]
        return next(iter(strong or (own if is_alone and not told else [])), None)

    def judge(self, edit, run, is_alone):
        """Gives the edit its verdict, or none where it has to be tried alone."""
        changed = {*re.findall(r'^file: (\S+)', edit.text, re.M)}
        unread = next((it for it in run.messages if rt.unread(it, changed)), None)
        if run.ended and run.status == 1 and not unread:
            if any(run.refusals(it) for it in edit.functions.values()):
                why = self.why(edit, run, is_alone)
                if why:
                    edit.verdict = True, 'refused: ' + why
                elif is_alone:
                    edit.verdict = False, 'refused only because a proof file names what the edit took away: change a value and keep the names'
                return
        if not is_alone:
            return
        if unread:
            edit.verdict = False, 'BAD EDIT: the prover cannot read the edited text: ' + unread
        elif all(run.is_proved(it) for it in edit.functions):
            edit.verdict = False, 'NOT REFUSED: %s is proved with this edit' % ', '.join(sorted(edit.functions))
        elif run.status == 3:
            edit.verdict = False, 'the prover could not tell: ' + run.lines[-1]
        elif run.ended:
            said = [it for path in edit.functions for it in run.lines_of(path)] or ['nothing is said of it']
            edit.verdict = False, 'NOT REFUSED by %s itself: %s' % (', '.join(sorted(edit.functions)), said[0])
        else:
            edit.verdict = False, 'BAD EDIT: it did not reach the prover: ' + ' / '.join(run.lines[:6])

    def wave(self, edits):
        functions = {path: it for edit in edits for path, it in edit.functions.items()}
        run = self.check(edits, functions)
        for edit in edits:
            self.judge(edit, run, len(edits) == 1)

    def run(self):
        """Gives each edit its verdict."""
        self.base()
        left = [it for it in self.edits if not it.verdict]
        for waves in (waves_of(left), None):
            waves = waves if waves is not None else [[it] for it in left if not it.verdict]
            with ThreadPoolExecutor(len(waves) or 1) as pool:
                [*pool.map(self.wave, waves)]
        return self.edits
