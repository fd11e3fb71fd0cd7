#!/usr/bin/env python3
"""Builds a program in the toolchain's quick way, which proves nothing, and keeps it: quick.py NAME

The program is crates/NAME/out/unproved/NAME, and beside it is the sum of the sources that it was built from: while
these are the same there is nothing to do. `rt try` builds a program, runs it in a folder of its own and removes that;
so the file that it runs is linked to while it is there. Each ten seconds a line on standard error says how long it
takes. ./run --unproved and dsa_trace call this."""
import os
import subprocess
import sys
import tempfile
import time

import proved
import toolchain

SAYS_EVERY = 10  # seconds
LOOKS_EVERY = 0.003  # the program is there for some 50 ms


def say(text):
    print(text, file=sys.stderr, flush=True)


def found_in(folder):
    """Returns the program that `rt try` runs, in the folder of its temporary files, or None."""
    for at, _, names in os.walk(folder):
        if "program" in names and os.access(f"{at}/program", os.X_OK):
            return f"{at}/program"
    return None


def keep(file, to):
    """Links to a file, and answers whether it was still there."""
    try:
        os.link(file, to)
    except OSError:
        return False
    return True


def built(crate, folder):
    """Builds the program, and returns a link to it that stays, or None; then what the toolchain said is printed."""
    start, said, to = time.monotonic(), 0, f"{folder}/kept"
    with tempfile.TemporaryFile("w+", errors="replace") as out:
        how = {"cwd": crate.folder, "stdin": subprocess.DEVNULL, "stdout": out, "stderr": out}
        trying = subprocess.Popen(["rt", "try", "--steps", "1"], env={**os.environ, "TMPDIR": folder}, **how)
        while trying.poll() is None:
            file = None if os.path.exists(to) else found_in(folder)
            if file:
                keep(file, to)
            if time.monotonic() - start > SAYS_EVERY * (said + 1):
                said += 1
                say(f"building {crate.name} without proofs: {SAYS_EVERY * said} seconds so far")
            time.sleep(LOOKS_EVERY)
        if os.path.exists(to):
            return to
        out.seek(0)
        say(out.read().rstrip())
    return None


def main(names):
    if len(names) != 1:
        sys.exit(__doc__)
    crate = proved.crate_of(toolchain.crates(), names[0])
    kept = f"{crate.folder}/out/unproved"
    sources = crate.stamp()
    if os.path.exists(f"{kept}/{crate.name}") and toolchain.rtlib.text_of(f"{kept}/sources") == sources:
        return
    os.makedirs(kept, exist_ok=True)
    say(f"building {crate.name} without proofs, in some minutes; it is kept in crates/{crate.name}/out/unproved")
    with tempfile.TemporaryDirectory(dir=kept) as folder:
        program = built(crate, folder)
        if not program:
            sys.exit(f"{crate.name} was not built")
        os.chmod(program, 0o755)
        os.replace(program, f"{kept}/{crate.name}")
    with open(f"{kept}/sources", "w", encoding="utf-8") as file:
        file.write(sources)


if __name__ == "__main__":
    main(sys.argv[1:])
