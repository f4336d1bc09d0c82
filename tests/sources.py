"""What the scripts that compare names read of the sources: functions, their clauses, ids above these, and all that a
crate declares. tests/module_tests tests it."""
import collections
import os
import re

from tree import ROOT, read

PARTS = ("src", "specs", "proofs", "must-fail")
LAW_FILE = "laws.rt"
ID = r"\[([a-z]+(?:-[a-z]+)*)\]"
IDS = re.compile(rf" *(?://|--|#) ((?:{ID} ?)+)")
CLAUSE = r"\bensures (?:(\w+) )?\{"
COMMENT = re.compile(r" *(//|--|#)(?!\[)")
# The names of the trait and the type that it is of; its name; its clauses in order, None for one without a name; the
# line where it, or an attribute right above it, begins, counted from 1; whether it is `pub`; and what it is of.
Function = collections.namedtuple("Function", "owner name clauses begins is_pub of")
NOTHING, TYPE, TRAIT, TRAIT_OF_TYPE = range(4)


def signature(lines):
    """The first lines of a function, up to its body or its end, as one text."""
    depth = 0
    for number, line in enumerate(map(str.strip, lines), 1):
        is_clause = depth > 0 or line.startswith(("ensures", "requires"))
        depth += line.count("{") - line.count("}")
        if not is_clause and line.endswith(("{", "{}")) or depth == 0 and line.endswith(";"):
            return "\n".join(lines[:number])
    return "\n".join(lines)


def begin(lines, number):
    """The first line of the attributes that stand right above a line, or that line."""
    while number and re.match(r"\s*[^\s}]", lines[number - 1]) and not lines[number - 1].endswith(("{", ";", "}")):
        number -= 1
    return number


def owners(head):
    """The trait and the type of an `impl`, or the name of a trait, by the line that it begins with."""
    plain, depth = "", 0
    for byte in head.replace("->", "").partition("{")[0]:
        depth -= byte == ">"
        plain += "" if depth or byte in "<>" else byte
        depth += byte == "<"
    plain = re.split(r":|\bwhere\b", re.sub(r"\w+::", "", plain))[0]
    return frozenset(re.findall(r"\w+", plain)) - {"pub", "impl", "trait", "for", "mut"}


def functions(text):
    """The functions of a source, in their order."""
    lines = ["" if line.lstrip().startswith("//") else line for line in text.splitlines()]
    owner, of = frozenset(), NOTHING
    for number, line in enumerate(lines):
        if re.match(r"(pub )?(impl|trait)\b", line):
            head = " ".join(lines[number:number + 12]).partition("{")[0]
            owner = owners(head)
            of = TRAIT if re.match(r"(pub )?trait ", head) else TRAIT_OF_TYPE if " for " in head else TYPE
        elif line == "}":
            owner, of = frozenset(), NOTHING
        name = re.match(r"\s*(pub )?(?:pub\(\w+\) )?fn (\w+)", line)
        if name:
            clauses = tuple(each or None for each in re.findall(CLAUSE, signature(lines[number:])))
            yield Function(owner, name.group(2), clauses, begin(lines, number) + 1, bool(name.group(1)), of)


def function_at(text, number):
    """The function that a line stands in, or None."""
    found = None
    for each in functions(text):
        if each.begins <= number:
            found = each
    return found


def headed(text):
    """The ids with which the comments of a text begin, each with the line below its comment, and the number of that."""
    lines = text.splitlines()
    for number, line in enumerate(lines):
        head = IDS.match(line)
        if head:
            rest = enumerate(lines[number + 1:], number + 2)
            at, below = next(((at, each.strip()) for at, each in rest if not COMMENT.match(each)), (len(lines), ""))
            yield from ((each, below, at) for each in re.findall(ID, head.group(1)))


def records(text):
    """The records of a definition: each with its name and its fields, up to the next empty line."""
    for name, block in re.findall(r"\bpub record (\w+)(.*?)(?:\n\n|\Z)", text, re.DOTALL):
        yield name, frozenset(re.findall(r"^ +pub (\w+) :", block, re.MULTILINE))


class Sources:
    """What stands in the sources of a crate, or of several: words, functions, records, and what else is declared."""

    def __init__(self):
        self.words, self.functions, self.records, self.declared = set(), set(), set(), set()

    def add(self, name, text):
        self.words.update(re.findall(r"\w+", name), re.findall(r"\w+", text))
        kinds = r"^ *(?:pub(?:\(\w+\))? )?(?:struct|enum|trait|record|data) (\w+)|^(?:\w+ )*pub (\w+) :"
        self.declared.update(first or second for first, second in re.findall(kinds, text, re.MULTILINE))

    def join(self, other):
        for mine, its in zip(vars(self).values(), vars(other).values()):
            mine.update(its)

    def calls(self, name):
        """The clauses of each function that a name may mean."""
        kind, _, own = name.rpartition("::")
        return [it.clauses for it in self.functions if it.name == own and (not kind or kind in it.owner)]

    def stands(self, quoted):
        return self.words.issuperset(re.findall(r"\w+", quoted))

    def is_declared(self, name):
        return bool(self.calls(name)) or name in self.declared

    def has_clause(self, name, clause):
        """Whether a function, a function of a type, or a record has this clause."""
        of_type = [it.clauses for it in self.functions if name in it.owner]
        of_record = [fields for each, fields in self.records if each == name]
        return any(clause in clauses for clauses in self.calls(name) or of_type + of_record)


def sources(crate):
    """The sources of a crate, and the names of its files."""
    found = Sources()
    found.add(crate, "")
    for part in PARTS:
        for folder, _, names in os.walk(os.path.join(ROOT, "crates", crate, part)):
            for name in names:
                text = read(os.path.join(folder, name))
                found.add(os.path.splitext(name)[0], text)
                found.functions.update(functions(text) if part == "src" else ())
                found.records.update(records(text) if part == "specs" else ())
    return found


def laws(crate):
    """The public laws of a crate."""
    path = os.path.join(ROOT, "crates", crate, "src", LAW_FILE)
    return set(re.findall(r"^pub fn (\w+)", read(path), re.MULTILINE)) if os.path.exists(path) else set()
