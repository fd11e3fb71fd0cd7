#!/usr/bin/env python3
"""Says what the gate recorded as proved of programs and archives: proved.py NAME ..

It writes a line for each crate that is named: its name, the kit, and the SHA-256 sum of the built file. If the gate has no
record of a crate, or one of another file, other sources or another kit than there are now, it ends with the reason."""
import os
import sys

import toolchain


def fault_of(crate):
    """Returns why the built file of a crate does not count as proved, or None."""
    file = os.path.relpath(crate.built(), toolchain.ROOT)
    if not os.path.exists(crate.built()):
        return f"{file} is missing"
    noted = (toolchain.rtlib.text_of(crate.record_file()) or "").split()
    now = crate.record().split()
    if len(noted) != len(now):
        return f"there is no record that {file} was proved"
    whats = ("of another crate", "proved with another kit", "another file than the one that was proved", "older than its sources")
    return next((f"{file} is {what}" for what, old, new in zip(whats, noted, now) if old != new), None)


def crate_of(crates, name):
    """Returns the crate of a program or an archive; any other name ends the script."""
    if name not in crates or crates[name].makes_rlib():
        sys.exit(f"there is no program and no archive {name}")
    return crates[name]


def main(names):
    crates = toolchain.crates()
    for name in names:
        crate = crate_of(crates, name)
        why = fault_of(crate)
        if why:
            sys.exit(f"{why}; prove it first: tests/gate/gate.py --kept --proofs {name}")
        print(*crate.record().split()[:3])


if __name__ == "__main__":
    main(sys.argv[1:])
