"""The definitions in crates/*/specs, and on which of them a clause rests. It reads names alone: a word that a file
imports or defines is taken for that definition, unless it is the name of a field. So it may count a definition too
many, and none too few. tests/words prints what this finds."""

import re
from dataclasses import dataclass, field
from functools import cache
from pathlib import Path

ROOT = Path(__file__).resolve().parent.parent
# The first line of a definition, with its name; that of an operator has ◌ at its sides.
HEAD = re.compile(r"(?:abbrev |unfoldable |pub )*(?:(?:record|data) (\S+)|(\S+) :)")
IMPORT = re.compile(r"^\s*(?:pub |ghost )*use Rattle\.(\w+)\.specs\.([\w.]+)\.\{([^}]*)\}", re.M)
WHOLE_FILE = re.compile(r"^pub use Rattle\.(\w+)\.specs\.(\w+)$", re.M)
NO_HEADS = ("--", "use ", "pub use ", "pub mod ", "infix", "#", " ")
# A word that is no field of a value: `s.memory` has one, s.
WORD = re.compile(r"(?<![\w.'-])[A-Za-z_][\w'-]*")
OPERATOR = re.compile(r"[^\s\w(){}\[\],.;'\"]+")


@dataclass(frozen=True)
class Place:
    """Where a definition is: its crate, its file without what ends the name, and its own name."""

    crate: str
    file: str
    name: str


@dataclass
class Definition:
    """A definition: its first line, from 1 on, the comment above it, and its own lines."""

    line: int
    comment: list
    text: list = field(default_factory=list)

    def words(self):
        """The words that it has outside of comments, and its operators."""
        code = "\n".join(line.split("-- ")[0] for line in self.text)
        fields = re.findall(r"^ +pub (\w+) :", code, re.M)
        code = re.sub(r"^ +pub \w+ :", "", code, flags=re.M)
        code = re.sub(r"([{;]) *\w+ =", r"\1", code)
        return set(WORD.findall(code)) - set(fields) | {f"◌{sign}◌" for sign in OPERATOR.findall(code)}


@dataclass
class File:
    """A file of definitions: what it imports, by name, and what it defines, in order."""

    imports: dict
    definitions: dict


def imported(text):
    """For each name that a text imports the crate, the file and the name there."""
    found = {}
    for crate, file, names in IMPORT.findall(text):
        for name in filter(None, (name.strip() for name in names.split(","))):
            there, _, here = name.partition(" as ")
            found[(here or there).strip()] = (crate, file, there.strip())
    return found


def comment_above(lines, at):
    """The comment right above a line; a title of a part, with four dashes, is none."""
    first = at
    while first and lines[first - 1].startswith("--") and not lines[first - 1].startswith("-- ----"):
        first -= 1
    return lines[first:at]


def definitions_in(text):
    """The definitions of a file, by name."""
    lines, found, current = text.split("\n"), {}, None
    for at, line in enumerate(lines):
        head = None if line.startswith(NO_HEADS) else HEAD.match(line)
        if head:
            current = found[head[1] or head[2]] = Definition(at + 1, comment_above(lines, at))
        elif line.startswith(NO_HEADS[:-1]):
            current = None
        if current and line.strip():
            current.text.append(line)
    return found


@cache
def files():
    """Each file of definitions, by crate and name."""
    found = {}
    for path in ROOT.glob("crates/*/specs/*.antt"):
        text = path.read_text()
        found[path.parts[-3], path.stem] = File(imported(text), definitions_in(text))
    return found


@cache
def passed_on():
    """For each file that a crate passes on under its own name the crate whose file it is."""
    found = {}
    for path in ROOT.glob("crates/*/specs/Lib.antt"):
        for crate, file in WHOLE_FILE.findall(path.read_text()):
            found[path.parts[-3], file] = crate
    return found


def place_of(crate, file, name):
    """The place of a name that is imported from a file, or None for what is not defined in crates/*/specs."""
    file = file.split(".")[0] if (crate, file) not in files() else file
    while (crate, file) in passed_on():
        crate = passed_on()[crate, file]
    known = files().get((crate, file))
    return Place(crate, file, name) if known and name in known.definitions else None


def cited_by(place):
    """The definitions that a definition cites."""
    file = files()[place.crate, place.file]
    for word in file.definitions[place.name].words():
        if word in file.definitions and word != place.name:
            yield Place(place.crate, place.file, word)
        elif word in file.imports:
            yield place_of(*file.imports[word])


def types_cited_by(places):
    """The types of the code that definitions cite: for each its crate, its module and its name."""
    found = set()
    for place in places:
        imports = files()[place.crate, place.file].imports
        for word in definition(place).words() & imports.keys():
            crate, file, _ = imports[word]
            if file.startswith("declared.") and (ROOT / "crates" / crate).exists():
                found.add((crate, *file.split(".")[1:3]))
    return found


def rest_on(places):
    """The given definitions and all that they cite, directly or not."""
    found, waiting = set(), list(places)
    while waiting:
        place = waiting.pop()
        if place and place not in found:
            found.add(place)
            waiting += cited_by(place)
    return found


def crate_order():
    """The names of the crates, each after those that it uses."""
    lines = (ROOT / "crates.txt").read_text().splitlines()
    return [re.split(r"[ :]", line)[0] for line in lines if line and not line.startswith("#")]


def file_order(crate, names):
    """The files of a crate, each after those that it imports."""
    order = []

    def visit(name):
        if name in order or (crate, name) not in files():
            return
        for there, file, _ in files()[crate, name].imports.values():
            if there == crate and file.split(".")[0] != name:
                visit(file.split(".")[0])
        if name not in order:
            order.append(name)

    for name in sorted(names):
        visit(name)
    return [name for name in order if name in names]


def in_reading_order(places):
    """The definitions, lowest crate first, and in a crate each after those that it cites."""
    found = []
    for crate in crate_order():
        for file in file_order(crate, {place.file for place in places if place.crate == crate}):
            here = [place for place in places if (place.crate, place.file) == (crate, file)]
            found += sorted(here, key=lambda place: definition(place).line)
    return found


def definition(place):
    return files()[place.crate, place.file].definitions[place.name]


def counts(places):
    """How many definitions there are, lines of them, files and crates."""
    lines = sum(len(definition(place).text) for place in places)
    return len(places), lines, len({(it.crate, it.file) for it in places}), len({it.crate for it in places})


def summed(places):
    """How much there is to read, in words."""
    definitions, lines, files_, crates = counts(places)
    parts = f"{counted(definitions, 'definition')} of {counted(lines, 'line')}, in {counted(files_, 'file')} of"
    return f"{parts} {counted(crates, 'crate')}; {counted(len(types_cited_by(places)), 'type')} of the code"


def counted(number, word):
    return f"{number} {word}{'s' if number != 1 else ''}"


# ---- clauses of functions and laws


@dataclass(frozen=True)
class Clause:
    """A clause of a function: its crate, its place, its text, and the definitions that it names."""

    crate: str
    place: str
    text: str
    cited: frozenset


# What comes after the types of a function: its clauses, its body, or nothing, if a trait declares it.
REST = re.compile(r"^ *(?:(?:ensures|requires)\b|\{)|(?:\{|;)$", re.M)
BODY = re.compile(r"^ *\{.*?$", re.M)


def head_end(text, begin):
    """Where the head of a function ends, which begins there: before its body."""
    rest = REST.search(text, begin)
    has_clauses = rest and rest[0].strip() in ("ensures", "requires")
    body = BODY.search(text, rest.end()) if has_clauses else rest
    return body.start() if body else len(text)


def functions(name, crate=""):
    """Each function of this name in the code, or in that of a crate: its file, and where its head begins and ends there.
    The name may have that of its type before it, as Room::take."""
    kind, _, call = name.rpartition("::")
    for path in sorted(ROOT.glob(f"crates/{crate or '*'}/src/**/*.rt")):
        text = path.read_text()
        head_of = rf'^ *(?:pub(?:\(crate\))? )?(?:extern "C" )?fn {re.escape(call)}\b'
        for head in re.finditer(head_of, text, re.M):
            owner = re.findall(r"^impl\b[^{]*?(\w+)(?:<[^{]*>)? *\{?$", text[: head.start()], re.M)
            if not kind or (owner and owner[-1] == kind):
                yield path, head.start(), head_end(text, head.end())


def clauses_in(path, begin, end):
    """The clauses that a function ensures, by where its head begins and ends: the name of each, or none, and it."""
    text, crate = path.read_text(), path.relative_to(ROOT).parts[1]
    imports = imported(text)
    for start in re.compile(r"^ *ensures (\w+ )?\{", re.M).finditer(text, begin, end):
        depth, at = 1, start.end()
        while depth:
            depth += {"{": 1, "}": -1}.get(text[at], 0)
            at += 1
        words = set(WORD.findall(text[start.end() : at])) & imports.keys()
        cited = frozenset(place for place in (place_of(*imports[word]) for word in words) if place)
        place = f"{path.relative_to(ROOT)}:{text.count(chr(10), 0, start.start()) + 1}"
        yield (start[1] or "").strip(), Clause(crate, place, text[start.start() : at].strip(), cited)


@cache
def of_public_clauses():
    """The definitions on which a clause of a public function or of a trait rests."""
    starts = set()
    for path in sorted(ROOT.glob("crates/*/src/**/*.rt")):
        text = path.read_text()
        for head in re.finditer(r'^ *(pub )?(?:extern "C" )?fn \w+', text, re.M):
            blocks = re.findall(r"^(?:impl|pub trait|trait)\b.*", text[: head.start()], re.M)
            is_of_trait = head[0][0] == " " and blocks and ("trait" in blocks[-1] or " for " in blocks[-1])
            if head[1] or is_of_trait:
                found = clauses_in(path, head.start(), head_end(text, head.end()))
                starts |= set().union(*(it.cited for _, it in found))
    return frozenset(rest_on(starts))


def is_private(place):
    """Whether the definition serves clauses of private functions alone."""
    return place not in of_public_clauses()


def parts_of(words):
    """The crate, the function and the clause that words name, each empty if it is not named."""
    crate, _, rest = words.rpartition("/")
    kind, double, rest = rest.rpartition("::")
    name, _, part = rest.partition(":")
    return crate, kind + double + name, part


def clauses(words):
    """The clauses of these words: `plan_list:least`, or all of `plan_list`, perhaps after a crate, as `dsa_calls/`."""
    crate, name, part = parts_of(words)
    found = [it for function in functions(name, crate) for it in clauses_in(*function)]
    return [it for label, it in found if part in ("", label)]


def definitions_named(words):
    """The definitions of this name, perhaps of the crate before it, as `dsa_audit/IsAudit`."""
    crate, name, _ = parts_of(words)
    return {Place(*key, name) for key, file in files().items() if name in file.definitions and crate in ("", key[0])}


def found_by(words):
    """The definitions and clauses that some words name, and the words that name none."""
    starts, found, unknown = set(), [], []
    for word in words:
        named, of_word = definitions_named(word), clauses(word)
        starts |= named.union(*(clause.cited for clause in of_word))
        found += of_word
        unknown += [] if named or of_word else [word]
    return starts, found, unknown
