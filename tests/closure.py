#!/usr/bin/env python3
"""Finds what the promises of the program stand on, definition by definition, and holds docs/PROOF.md to it.

From the contracts of COMMANDS it follows each name to its definition in some specs/*.antt, and from there each name that the definition
cites, in its own file or by a `use` line. A type that is declared in code leads to the types of its fields; one that contracts see as
something else leads to that alone. Names of the standard library and of crates of others end there. A variable that is called as a
definition of its file, or as one that is imported there, counts as that.

docs/PROOF.md lists the files of the definitions so found, each as `CRATE/specs/FILE.antt` with the number of their lines, comments in
front of a definition counted, and last the numbers of files and lines. Its list is what stands between the two lines of MARKS. Between those
of MARKS_OF_WORK stands the same of what the bound on work stands on beside (the contracts of ROOTS_OF_WORK). Between those of
MARKS_BY_COMMAND stands what the user of each command has to believe: how many lines of definitions, in how many files and in which rows of the
list, and how many of these lines the user of other commands (BEYOND) hasn't.

usage: tests/closure.py [--write | --names | --by-command [COMMAND] | --of NAME]
--write puts the numbers into the lists and the table, --names prints the definitions, --by-command the table, or the definitions of that command,
and --of what one definition stands on. The last line counts the files and the rows of the table that agree, and what doesn't.
"""
import dataclasses
import functools
import os
import re
import sys

HERE = os.path.join(os.path.dirname(os.path.abspath(__file__)), "..")
PROOF = f"{HERE}/docs/PROOF.md"
MARKS = ("<!-- what tests/closure.py finds: -->", "<!-- to here -->")
MARKS_OF_WORK = ("<!-- what it finds beside, of work: -->", "<!-- to here, of work -->")
MARKS_BY_COMMAND = ("<!-- what it finds by command: -->", "<!-- to here, by command -->")
# What the program promises of each command's runs, and of how it reads its words and ends.
WORDS = "any of these, from the words of the command line to the exit status"
COMMANDS = {
    "`check`": {"lin_report": ["check"]},
    "`verify`": {"lin_formats": ["verify"]},
    "`explain`": {"lin_report": ["explain"]},
    "`draw`": {"lin_report": ["draw"]},
    "`edit`": {"lin_report": ["run"]},
    WORDS: {"lin_program": ["run_words", "end_without_words"]},
}
# Beside which others a command is told, each as the words of a table and the commands that they name.
BEYOND = {
    "`verify`": [("`check`", ["`check`"])],
    "`explain`": [("`check`", ["`check`"])],
    "`draw`": [("`check`", ["`check`"])],
    "`edit`": [("`check` and `verify`", ["`check`", "`verify`"]), ("these and `explain`", ["`check`", "`verify`", "`explain`"])],
    WORDS: [("all of these", ["`check`", "`verify`", "`explain`", "`draw`", "`edit`"])],
}
# What a question may take, and what an edit leaves.
ROOTS_OF_WORK = {"lin_session": ["Session::ask", "Session::apply"]}
# That a list of events is linearizable.
CORE = ("lin_order.specs.Linearizable", "IsLinearizable")
USE = re.compile(r"(?:ghost )?use Rattle\.([\w.]+?)(?:\.\{(.*)\}| as (\S+?))?;?\s*(?:--.*)?$")
HEAD = re.compile(r" *((?:abbrev|unfoldable|pub|record|data) )*([^\s:(){}]+)")
NAME = re.compile(r"(?<![\w.\])}'])[^\W\d][\w'-]*(?:\.[^\W\d][\w'-]*)*")


@dataclasses.dataclass
class Definition:
    module: str
    name: str
    lines: list = dataclasses.field(default_factory=list)  # its comments first
    around: str = ""  # the parameters of the module that it stands in

    def text(self):
        return self.around + "\n" + code("\n".join(self.lines))

    def fields(self):
        """The names that a record or a type gives its parts, which mean no definition inside of it."""
        return set(re.findall(r"^ +pub ([^\s:]+) :", "\n".join(self.lines), re.M))

    def constructors(self):
        at = next((number for number, line in enumerate(self.lines) if re.match(r" *(abbrev )?(pub )?data ", line)), None)
        if at is None:
            return []
        deep = len(self.lines[at]) - len(self.lines[at].lstrip()) + 2
        return [it[1] for line in self.lines[at + 1:] if (it := re.match(r" {%d}([^\s:-][^\s:]*)(?: [^\s:]+)* :" % deep, line))]


def code(text):
    """A text without its comments and the words in it that are data."""
    return re.sub(r"(^| )--.*|//.*", "", re.sub(r'"[^"\n]*"', '""', text), flags=re.M)


def read(path):
    with open(path, encoding="utf-8") as file:
        return file.read()


def imports(text):
    """What a file's names mean: those that are imported, as a module and a name in it, and those that stand for a module."""
    names, modules = {}, {}
    for line in text.splitlines():
        found = USE.match(line.strip())
        if found and found[2] is not None:
            for it in found[2].split(","):
                name, _, other = it.strip().partition(" as ")
                names[other or name] = (found[1], name)
        elif found:
            modules[found[3] or found[1].rsplit(".", 1)[-1]] = found[1]
    return names, modules


class File:
    """The definitions of a file of specs/."""

    def __init__(self, path, module):
        text = read(path)
        self.module, self.definitions = module, {}
        self.names, self.modules = imports(text)
        self.owners = {}
        base, around, waiting, now = 0, "", [], None
        for line in text.splitlines():
            deep = len(line) - len(line.lstrip())
            if not line or line.startswith("use "):
                waiting = []
            elif line.lstrip().startswith("--") and deep <= base:
                waiting.append(line)
            elif deep == 0 and re.match(r"((abbrev )?mutual|module _ .* where)$", line):
                base, around, waiting = 2, line if line.startswith("module") else "", []
            elif deep > base or re.match(r" *[)\]}]", line):
                now.lines += waiting + [line]
                waiting = []
            else:
                if deep < base:
                    base, around = deep, ""
                if line.startswith("pub mod "):
                    continue
                name = HEAD.match(line)[2]
                if not (now and now.name == name):
                    now = self.definitions.setdefault(name, Definition(module, name, [], around))
                now.lines += waiting + [line]
                waiting = []
        for it in self.definitions.values():
            for name in it.constructors():
                self.owners.setdefault(name, it.name)

    def cited(self, text, but=frozenset()):
        """The names of other definitions that a text of this file cites, each as a module and a name."""
        for said in re.findall(NAME, re.sub(r"([{;] *)[\w'-]+ =(?!=)", r"\1", text)):
            first, _, rest = said.partition(".")
            if first in self.modules and rest:
                yield self.modules[first], rest.partition(".")[0]
            elif first in but:
                continue
            elif first in self.names:
                yield self.names[first]
            elif first in self.definitions or first in self.owners:
                yield self.module, first


@functools.cache
def specs():
    """The files of all specs/ by their modules."""
    found = {}
    for crate in sorted(os.listdir(f"{HERE}/crates")):
        for at, _, files in os.walk(f"{HERE}/crates/{crate}/specs"):
            for it in sorted(files):
                if it.endswith(".antt"):
                    path = os.path.relpath(f"{at}/{it}", f"{HERE}/crates")
                    module = path[:-5].replace("/", ".")
                    found[module] = File(f"{at}/{it}", module)
    return found


class Source(File):
    """A file of code, with the names that its ghost clauses cite."""

    def __init__(self, path):
        self.text = read(path)
        self.names, self.modules = imports(self.text)
        self.module, self.definitions, self.owners = "", {}, {}

    def contract(self, name):
        """The clauses of a public function, or of a method, `TYPE::NAME`."""
        type_, _, name = name.rpartition("::")
        text = "\n".join(re.findall(r"^impl %s \{\n(.*?)^\}" % type_, self.text, re.M | re.S)) if type_ else self.text
        found = re.search(r"^( *)pub fn %s\b.*?^\1\{\n" % name, text, re.M | re.S)
        return found and code(found[0][found[0].index(")"):])

    def declared(self, crate, name):
        """What a type stands on: what contracts see it as, or else the types of its parts."""
        seen = re.search(r"^impl(?:<[^>]*>)? Model for %s\b.*?^\}" % name, self.text, re.M | re.S)
        if seen:
            value = re.search(r"ghost Value = \{(.*?)\};", seen[0], re.S)
            yield from self.cited(value[1])
            return
        body = re.search(r"^pub (?:struct|enum) %s\b[^;{]*(?:;|\{.*?^\})" % name, self.text, re.M | re.S)
        for said in set(re.findall(r"\b[A-Z]\w+", code(body[0]) if body else "")) - {name}:
            where = re.search(r"^(?:pub )?use ([\w:]+?)::(?:\{[^;]*?\b%s\b[^;]*?\}|%s);" % (said, said), self.text, re.M | re.S)
            owner = where[1].split("::")[0] if where else "crate"
            owner = crate if owner in ("crate", "self", "super") else owner
            if os.path.isdir(f"{HERE}/crates/{owner}"):
                yield owner, said


@functools.cache
def source_of(crate, name, kind=r"(?:struct|enum)"):
    """The file of code that has the item; that of a method is the one that has its type."""
    type_, _, _ = name.rpartition("::")
    if type_:
        return source_of(crate, type_)
    for at, _, files in os.walk(f"{HERE}/crates/{crate}/src"):
        for it in sorted(files):
            path = f"{at}/{it}"
            if it.endswith(".rt") and re.search(r"^pub %s %s\b" % (kind, name), read(path), re.M):
                return path
    return None


def closure(starts):
    """All definitions, and all types declared in code, that these stand on."""
    found, types, due = {}, {}, list(starts)
    while due:
        module, name = due.pop()
        crate, _, rest = module.partition(".")
        if rest.startswith("specs.declared.") or rest == "declared":
            # `..declared.FILE.Type` with the type's own name in it, or with its variants
            type_ = name if rest == "declared" else next(it for it in reversed(rest.split(".")) if not it.startswith("The"))
            path = source_of(crate, type_)
            if path and (crate, type_) not in types:
                types[crate, type_] = os.path.relpath(path, f"{HERE}/crates")
                for owner, said in Source(path).declared(crate, type_):
                    due.append((owner, said) if "." in owner else (owner + ".declared", said))
            continue
        file = specs().get(module)
        if not file and module.rpartition(".")[0] in specs():
            # the constructors of a type
            module, _, name = module.rpartition(".")
            file = specs()[module]
        if not file:
            if os.path.isdir(f"{HERE}/crates/{crate}"):
                raise SystemExit(f"closure.py: there is no {module}")
            continue
        name = name if name in file.definitions else file.owners.get(name, name)
        if (module, name) in found:
            continue
        if name not in file.definitions:
            raise SystemExit(f"closure.py: {module} has no {name}")
        it = found[module, name] = file.definitions[name]
        due += file.cited(it.text(), it.fields())
    return found, types


def roots(of):
    for crate, names in of.items():
        for name in names:
            path = source_of(crate, name, "fn")
            if not path:
                raise SystemExit(f"closure.py: {crate} has no public {name}")
            it = Source(path)
            yield from it.cited(it.contract(name))


def lines_by_file(found):
    counts = {}
    for (module, _), it in sorted(found.items()):
        path = module.replace(".", "/") + ".antt"
        counts[path] = counts.get(path, 0) + len(it.lines)
    return counts


def count_of(keys):
    """How many lines these definitions have."""
    return sum(len(specs()[module].definitions[name].lines) for module, name in keys)


def found_for_all():
    """What the promises of all commands stand on."""
    return closure([it for roots_ in COMMANDS.values() for it in roots(roots_)])


@functools.cache
def of_command(name):
    found, _ = closure(roots(COMMANDS[name]))
    return found


def rows_of(paths):
    """The rows of the list in which these files stand, as `1 to 4, 7`."""
    rows = [int(number) for number, row in re.findall(r"^\| (\d+) \|(.*)$", between(MARKS)[1], re.M) if set(re.findall(r"`([^`]*)` \(", row)) & set(paths)]
    starts = [it for it in rows if it - 1 not in rows]
    ends = [it for it in rows if it + 1 not in rows]
    return ", ".join(f"{one}" if one == other else f"{one} to {other}" if one + 1 < other else f"{one}, {other}" for one, other in zip(starts, ends))


def by_command():
    """The lines of a table of how much each command stands on, and how much more than others."""
    yield "| A user of | believes | in rows of the list | of these, beyond |"
    yield "|---|---|---|---|"
    for command in COMMANDS:
        found = of_command(command)
        counts, beyond = lines_by_file(found), []
        for words, others in BEYOND.get(command, []):
            known = {key for it in others for key in of_command(it)}
            beyond.append(f"{words}: {count_of(found.keys() - known):,}")
        yield "| %s | %s lines in %d files | %s | %s |" % (command, f"{count_of(found):,}", len(counts), rows_of(counts), "; ".join(beyond))


def told_of_work(found, types):
    """The sentence that counts what work stands on beside."""
    counts = lines_by_file(found)
    return "In all %s lines in %d files that the list above doesn't have; they speak of %d more types that the code declares." % (
        f"{sum(counts.values()):,}", len(counts), len(types))


def told(found, types):
    """The sentence that counts what is found."""
    counts = lines_by_file(found)
    core, _ = closure([CORE])
    return "In all %s lines in %d files, of which %s lines in %d files say that a list of events is linearizable; they speak of %d types that the code declares." % (
        f"{sum(counts.values()):,}", len(counts), f"{sum(lines_by_file(core).values()):,}", len(lines_by_file(core)), len(types))


def show(found, types):
    for path, count in lines_by_file(found).items():
        print(path, count, *sorted(name for (module, name) in found if module.replace(".", "/") + ".antt" == path))
    print("types:", *sorted(f"{path}:{name}" for (_, name), path in types.items()))
    print(sum(lines_by_file(found).values()), "lines")


def between(marks):
    """What docs/PROOF.md has up to the first mark, between the two, and from the second one on."""
    return re.fullmatch("(.*%s)(.*)(%s.*)" % tuple(map(re.escape, marks)), read(PROOF), re.S).groups()


def write(text):
    with open(PROOF, "w", encoding="utf-8") as file:
        file.write(text)


def hold(marks, sentence, counts, is_written):
    """How many files the list of docs/PROOF.md between the marks has with the lines that are found, and how it differs; it is written first if that is asked."""
    before, list_, behind = between(marks)
    if is_written:
        list_ = re.sub(r"`(\w+/specs/[\w/]+\.antt)` \(\d*\)", lambda it: "`%s` (%d)" % (it[1], counts.get(it[1], 0)), list_)
        list_ = re.sub(r"^In all .*\.$", sentence, list_, flags=re.M)
        write(before + list_ + behind)
    listed = {path: int(count) for path, count in re.findall(r"`(\w+/specs/[\w/]+\.antt)` \((\d+)\)", list_)}
    faults = [f"missing: {path} ({counts[path]})" for path in counts if path not in listed]
    faults += [f"too many: {path}" for path in listed if path not in counts]
    faults += [f"{path}: {listed[path]} lines listed, {counts[path]} found" for path in counts if listed.get(path, counts[path]) != counts[path]]
    faults += [] if sentence in list_.splitlines() else [f"found: {sentence}"]
    return len([path for path in counts if listed.get(path) == counts[path]]), faults


def main():
    if sys.argv[1:2] == ["--of"]:
        starts = [(module, name) for module, file in specs().items() for name in sys.argv[2:] if name in file.definitions]
        show(*closure(starts))
        return 0
    if sys.argv[1:2] == ["--by-command"]:
        if sys.argv[2:]:
            name = WORDS if sys.argv[2] == "words" else f"`{sys.argv[2]}`"
            show(*closure(roots(COMMANDS.get(name) or sys.exit(f"closure.py: there is no command {sys.argv[2]}"))))
        else:
            print(*by_command(), sep="\n")
        return 0
    found, types = found_for_all()
    if sys.argv[1:2] == ["--names"]:
        show(found, types)
        return 0
    work, types_of_work = closure(roots(ROOTS_OF_WORK))
    work, types_of_work = ({key: it for key, it in all_.items() if key not in known} for all_, known in ((work, found), (types_of_work, types)))
    is_written = sys.argv[1:2] == ["--write"]
    passed, faults = 0, []
    for marks, sentence, counts in (MARKS, told(found, types), lines_by_file(found)), (MARKS_OF_WORK, told_of_work(work, types_of_work), lines_by_file(work)):
        print(sentence)
        agreeing, differing = hold(marks, sentence, counts, is_written)
        passed, faults = passed + agreeing, faults + differing
    table = list(by_command())
    before, listed, behind = between(MARKS_BY_COMMAND)
    if is_written:
        listed = "\n\n%s\n\n" % "\n".join(table)
        write(before + listed + behind)
    listed = listed.split("\n")[2:-2]
    passed += sum(one == other for one, other in zip(table, listed))
    faults += [f"by command: {it}" for it in table if it not in listed] + [f"too many: {it}" for it in listed if it not in table]
    print(*faults, sep="\n", end="\n" if faults else "")
    print(f"{passed} passed, {len(faults)} failed")
    return 1 if faults else 0


if __name__ == "__main__":
    sys.exit(main())
