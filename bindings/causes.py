#!/usr/bin/env -S python3 -B
"""The causes of refusals in C, Rust and Python, made from the tables of docs/FORMATS.md.

    bindings/causes.py      writes them into the header, the Rust crate and the Python module

`tests/run text sentences` compares: what is there has to be what this makes."""

import re
import sys
import textwrap
from pathlib import Path

ROOT = Path(__file__).resolve().parent.parent
# Causes that jobs, texts or pictures alone meet, so that no call from C names them.
ELSEWHERE = {20, 21, 50, 70, 71, 72, 75, 76, 77, 80, 81, 82, 84, 85, 86, 130, 131, 132}
# What a refusal has beside the places that the sentence names.
BESIDE = {
    47: "`inner` is the cause",
    60: "`inner` is the cause, and the places are its own",
    66: "only where the list is given too",
    83: "`first` is the number of the setting, from 1 on in the order of the settings, and 8 for the table",
    126: "of a new tracker `first` is the measure: 1 slots, 3 log2_rows, 4 log2_unit, 5 words",
    127: "no call from C has it, since a portal tells its groups and their pieces",
}


def causes():
    """Number, name and sentence of each cause that a call from C can meet, in their order. The places of a sentence are
    the members `first` and `second` of the refusal."""
    page = (ROOT / "docs/FORMATS.md").read_text()
    names = re.search(r"C, Rust and Python name (.*?), since", page).group(1)
    names = {int(number): name for number, name in re.findall(r"(\d+) (\w+)", names)}
    found = []
    for number, name, places, said in re.findall(r"^\| (\d+) \| ([A-Z]\w+)([^|]*) \| (.*) \|$", page, re.M):
        number, places = int(number), re.findall(r"\b[a-z]\b", places)
        if number in ELSEWHERE:
            continue
        said = re.sub("^(preparing|filling|tracking|from C): ", "", said)
        if 2 <= number <= 13:
            said, places = f"descriptor i: {said}", ["i"]
        for place, member in zip(places, ("first", "second")):
            said = re.sub(rf"\b{place}\b", f"`{member}`", said)
        said += f"; {BESIDE[number]}" if number in BESIDE else ""
        found.append((number, names.get(number, name), said))
    return sorted(found)


def constant(name):
    """The name of a cause in C: DSA_NO_ROOM of NoRoom."""
    return "DSA" + re.sub("([A-Z])", r"_\1", name).upper()


def of_c():
    """The lines of `enum dsa_number` after its first."""
    yield "    DSA_OK = 0,"
    known = causes()
    for number, name, said in known:
        yield from textwrap.wrap(f"/* {said} */", 116, initial_indent="    ", subsequent_indent="       ")
        yield f"    {constant(name)} = {number}" + "," * (number != known[-1][0])


def of_rust():
    """The lines of `causes!` after its first."""
    for number, name, said in causes():
        sentence = said[0].upper() + said[1:] + "."
        yield from textwrap.wrap(sentence, 108, initial_indent="    /// ", subsequent_indent="    /// ")
        yield f"    {name} = {number},"


def of_python():
    """The lines of the dictionary after its first."""
    for number, name, _ in causes():
        yield f'    {number}: "{name}",'


# Each file, the line after which its causes come, the line before which they end, and what makes them.
PLACES = [
    ("bindings/c/dsa_planner.h", "enum dsa_number {", "};", of_c),
    ("bindings/rust/src/cause.rs", "causes! {", "}", of_rust),
    ("bindings/python/dsa_planner.py", "CAUSES: Dict[int, str] = {", "}", of_python),
]


def made():
    """Each of the files as it has to be."""
    for path, begins, ends, lines_of in PLACES:
        before, rest = (ROOT / path).read_text().split(f"\n{begins}\n", 1)
        after = rest[rest.index(f"\n{ends}\n") :]
        yield ROOT / path, f"{before}\n{begins}\n" + "\n".join(lines_of()) + after


if __name__ == "__main__":
    if sys.argv[1:]:
        sys.exit(__doc__)
    for written, text in list(made()):
        written.write_text(text)
