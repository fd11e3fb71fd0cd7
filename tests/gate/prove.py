#!/usr/bin/env python3
"""Proves one crate over the built libraries below it, and builds what it makes: prove.py NAME [JOBS].

What an earlier check of the crate kept in out/ is taken over; the gate empties out/ before. The last line says what was
proved, or why not."""
import sys

import toolchain


def main(name, jobs="1"):
    crates = toolchain.crates()
    if name not in crates:
        sys.exit(f"crates.txt has no crate {name}")
    toolchain.rtlib.guarded()
    crate = crates[name]
    toolchain.stop_on_text(crate, list(crates.values()))
    status = crate.build(int(jobs))
    print(f"{name}: {'proved' if not status else 'NOT PROVED'}")
    return 1 if status else 0


if __name__ == "__main__":
    sys.exit(main(*sys.argv[1:]))
