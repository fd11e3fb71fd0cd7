"""Reads golden files: what a program prints, as people can read it. The first signs of a line tell what it is:

    # why the case is here
    < a line of the input
    <x 00000000 0c000003 *56
    $ explain --lone 1
    > a line on standard output
    ! a line on standard error
    = 0

`<x` is digits of the input: the blanks between them go, `*56` is 56 zero bytes, and no newline follows. `<b 0d0a`
is bytes of the input, in hexadecimal. A line that ends in a backslash has no newline after it either. `$` has the
arguments as a shell would read them, and within quotes `\\xff` is a byte; `</`, `<&-`, `>&-`, `>/dev/full`, `2>&-` and
`2>/dev/full` at its end make input or output faulty. Each command reads the input above it; an input after a command
begins anew."""

import re
import shlex
import subprocess
from dataclasses import dataclass
from pathlib import Path

FAULTY = ("</", "<&-", ">&-", ">/dev/full", "2>&-", "2>/dev/full")


@dataclass
class Case:
    """A command, its input, and what it prints."""

    place: str
    words: str
    text: bytes
    output: bytes = b""
    error: bytes = b""
    status: int | None = None


def said(line):
    """The bytes that a line of a golden file spells, after its sign."""
    if line.startswith("x "):
        words = [re.sub(r"^\*(\d+)$", lambda found: "00" * int(found[1]), word) for word in line.split()[1:]]
        return "".join(words).encode()
    if line.startswith("b "):
        return bytes.fromhex(line[2:])
    text = line.removeprefix(" ")
    return text[:-1].encode() if text.endswith("\\") else text.encode() + b"\n"


def cases(path):
    """The cases of a golden file."""
    found, text, is_open = [], b"", True
    for number, line in enumerate(Path(path).read_text().splitlines(), 1):
        sign, rest = line[:1], line[1:]
        if sign == "<":
            text, is_open = (text if is_open else b"") + said(rest), True
        elif sign == "$":
            found.append(Case(f"{path}:{number}", rest.strip(), text))
            is_open = False
        elif sign == ">":
            found[-1].output += said(rest)
        elif sign == "!":
            found[-1].error += said(rest)
        elif sign == "=":
            found[-1].status = int(rest)
        elif sign not in ("#", ""):
            raise ValueError(f"{path}:{number}: no line of a golden file begins with {sign}")
    return found


def command(program, case):
    """The command line of a case."""
    words = shlex.split(case.words)
    faults = [word for word in words if word in FAULTY]
    given = [word.encode().decode("unicode_escape").encode("latin-1") for word in words if word not in FAULTY]
    if not faults:
        return [program, *given]
    return ["sh", "-c", f'exec "$0" "$@" {" ".join(faults)}', program, *given]


def fault_of(program, case):
    """What differs where the program is run as the case says, or nothing."""
    ran = subprocess.run(command(program, case), input=case.text, capture_output=True)
    for what, got, wanted in [
        ("status", ran.returncode, case.status),
        ("output", ran.stdout, case.output),
        ("error", ran.stderr, case.error),
    ]:
        if got != wanted:
            return f"{case.place}: {case.words}: wanted {what} {wanted}, got {got}"[:1200]
    return ""
