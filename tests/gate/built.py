#!/usr/bin/env python3
"""Proves and builds the programs and archives that the gate has no record of: built.py NAME ..

It prints a line for each crate, and nothing if there is nothing to do. ./run, tests/run and
bindings/package/make.py call it."""
import os
import sys

import proved
import toolchain


def main(names):
    crates = toolchain.crates()
    lacking = [name for name in names if proved.fault_of(proved.crate_of(crates, name))]
    if lacking:
        print(f"proving and building {', '.join(lacking)} and what they stand on", flush=True)
        gate = os.path.join(os.path.dirname(os.path.realpath(__file__)), "gate.py")
        os.execv(sys.executable, [sys.executable, "-B", gate, "--kept", "--proofs", *lacking])


if __name__ == "__main__":
    main(sys.argv[1:])
