"""The record of the crates whose edits were all tried: tests/gate/tried, a line for each crate and kit.

A line has the name, the kit and a digest of all that the verdicts follow from: the crate and those below it, its edits,
the scripts that try them and the kit's `rt`. A line counts only while its digest is that of what is there. The gate
writes it."""
import hashlib
import os

import toolchain

HERE = os.path.dirname(os.path.realpath(__file__))
FILE = f"{HERE}/tried"
SCRIPTS = [f"{HERE}/{it}.py" for it in ("edits", "gate", "record", "toolchain")]
HEAD = "# The crates whose edits were all refused, with the kit and the digest of what was tried (record.py).\n"


def files_of_edits(crate):
    """Returns the crate's edits, its edits that change nothing, and what is in must-fail but is no edit."""
    good, bad = toolchain.rt.edits_of(crate)
    folder = f"{HERE}/controls/{crate.name}"
    controls = sorted(f"{folder}/{it}" for it in os.listdir(folder)) if os.path.isdir(folder) else []
    return good, controls, bad


def digest_of(crate):
    """Returns the digest of all that the verdicts on the crate's edits follow from."""
    good, controls, bad = files_of_edits(crate)
    total = hashlib.sha256(crate.stamp().encode())
    for file in [*SCRIPTS, toolchain.rt.__file__, toolchain.rtlib.__file__, *good, *controls, *bad]:
        with open(file, "rb") as content:
            total.update(f"{os.path.basename(file)} {hashlib.sha256(content.read()).hexdigest()}\n".encode())
    return total.hexdigest()


def kit():
    return toolchain.kit_of(toolchain.rt).split()[0]


def lines():
    """Returns the digests of the record by crate and kit."""
    text = toolchain.rtlib.text_of(FILE) or ""
    rows = [it.split() for it in text.split("\n") if it and not it.startswith("#")]
    return {(row[0], row[1]): row[2] for row in rows if len(row) == 3}


def note(crate, digest):
    """Notes that the edits of the crate were all tried, unless something has changed since the digest was made."""
    if digest_of(crate) != digest:
        return
    rows = {**lines(), (crate.name, kit()): digest}
    with open(f"{FILE}.new", "w", encoding="utf-8") as file:
        file.write(HEAD + "".join(f"{name} {of} {rows[name, of]}\n" for name, of in sorted(rows)))
    os.replace(f"{FILE}.new", FILE)
