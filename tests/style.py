"""Looks at the form of every file of the tree: the lines of .editorconfig; files of code under 800 lines; a comment
above each definition of crates/*/specs; in pages and comments none of the words that this project does without:
`behind` (after), `stands` (is), and in pages `where` for a condition (if). tests/style.txt has the exceptions: a
folder or a page, a rule, and the most there may be. And docs/crates.svg is what crates.txt says. It needs git alone.
The words are names of rules."""

import fnmatch
import re
import subprocess
from collections import Counter
from functools import cache
from pathlib import Path

import crates_drawn
import definitions
from common import expect, run_test

CODE = {".rt", ".antt", ".py", ".c", ".h", ".rs", ".sh"}
MOST_LINES = 800
# What begins a comment, by what ends the name of a file, and what is around one.
OF_C = re.compile(r"//[^\n]*|/\*.*?\*/", re.S)
COMMENTS = {".rt": OF_C, ".rs": OF_C, ".c": OF_C, ".h": OF_C, ".antt": re.compile(r"--[^\n]*")}
SCRIPT = re.compile(r"#[^\n]*|\"\"\".*?\"\"\"", re.S)
WORDS = {"behind": re.compile(r"\bbehind\b", re.I), "stands": re.compile(r"\bstands?\b(?! for\b)", re.I)}
WHERE = re.compile(r"\bwhere\b", re.I)
LIST = Path("tests/style.txt")


@cache
def files():
    """Every file of text that git knows or would add, with its text."""
    command = ["git", "ls-files", "-coz", "--exclude-standard"]
    names = subprocess.run(command, capture_output=True, check=True, text=True).stdout.split("\0")
    paths = [Path(name) for name in names if name and Path(name).is_file()]
    return {path: path.read_bytes().decode(errors="surrogateescape") for path in paths}


# ---- .editorconfig


@cache
def sections():
    """The parts of .editorconfig: a pattern of names, and what is set for them."""
    found = []
    for line in map(str.strip, Path(".editorconfig").read_text().splitlines()):
        if line.startswith("["):
            found.append((line[1:-1], {}))
        elif "=" in line and found:
            name, _, value = line.partition("=")
            found[-1][1][name.strip()] = value.strip()
    return found


def set_for(path):
    """What .editorconfig sets for a file; a later part counts."""
    found = {}
    for pattern, settings in sections():
        inner = re.fullmatch(r"(.*)\{(.*)\}(.*)", pattern)
        patterns = [inner[1] + part + inner[3] for part in inner[2].split(",")] if inner else [pattern]
        if any(fnmatch.fnmatch(path.name, it) for it in patterns):
            found |= settings
    return found


def lines(path, text):
    """How many lines of a file are too long, and what else .editorconfig does not allow."""
    settings = set_for(path)
    if settings.get("max_line_length", "unset") != "unset":
        most = int(settings["max_line_length"])
        # rt fmt keeps an import of definitions on one line
        yield "long", sum(len(line) > most for line in text.split("\n") if not line.lstrip().startswith("ghost use"))
    if settings.get("insert_final_newline") == "true":
        yield "newline", int(text != "" and not text.endswith("\n"))
    if settings.get("trim_trailing_whitespace") == "true":
        yield "blanks", len(re.findall(r"[ \t]+$", text, re.M))
    yield "endings", text.count("\r\n")


# ---- words


def prose(path, text):
    """What people read in a file: a page without its blocks, and of code the comments."""
    if path.suffix == ".md":
        return re.sub(r"^```.*?^```|^    .*?$", "", text, flags=re.S | re.M)
    if path.suffix in COMMENTS:
        return "\n".join(COMMENTS[path.suffix].findall(text))
    return "\n".join(SCRIPT.findall(text)) if path.suffix == ".py" or text.startswith("#!") else ""


def words(path, text):
    """How often a file has each of the words."""
    said = re.sub(r"`[^`\n]*`", "", prose(path, text))
    for word, pattern in WORDS.items():
        yield word, len(pattern.findall(said))
    if path.suffix == ".md":
        yield "where", len(WHERE.findall(said))


# ---- all rules


def place_of(path):
    """What the list of exceptions names of a file: a page, or the folder of any other file."""
    return str(path) if path.suffix == ".md" else "/".join(path.parts[:-1][:3]) or "."


def found():
    """For each place and rule how often the rule is broken there."""
    counts = Counter()
    for path, text in files().items():
        broken = [*lines(path, text), *words(path, text)]
        if path.suffix in CODE:
            broken.append(("800", int(text.count("\n") >= MOST_LINES)))
        for rule, number in broken:
            counts[place_of(path), rule] += number
    for (crate, _), file in definitions.files().items():
        bare = [name for name, it in file.definitions.items() if not it.comment]
        counts[f"crates/{crate}/specs", "comments"] += len(bare)
    return +counts


def exceptions():
    """The most that there may be of each, by place and rule."""
    rows = [line.split() for line in LIST.read_text().splitlines() if line and not line.startswith("#")]
    return {(place, rule): int(most) for place, rule, most in rows}


def main(chosen):
    counts, allowed = found(), exceptions()
    for place, rule in sorted(counts | allowed):
        if not chosen or rule in chosen:
            number, most = counts[place, rule], allowed.get((place, rule), 0)
            expect(number <= most, f"{place}: {number} of the rule {rule}, at most {most}")
            if number < most:
                print(f"tests/style.txt: {place} {rule} has {number} now, and not {most}")
    if not chosen or "picture" in chosen:
        drawn = Path("docs/crates.svg").read_text() == crates_drawn.svg()
        expect(drawn, "docs/crates.svg is not what crates.txt says: python3 -B tests/crates_drawn.py")


if __name__ == "__main__":
    run_test(main)
