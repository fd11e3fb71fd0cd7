"""Tries engines that no clause can refuse, since no proof tells of time: engines that are one thread, engines that
keep each other from their lines, engines that ask the gate late or finish a piece although it refused, and a run that
always says that work was out of date. Each is a patch of dsa_engines in tests/engines, whose first line names the test
of dsa_tests that has to fail. The words are parts of names of patches."""

import re
import shutil
import subprocess
import tempfile
from glob import glob
from pathlib import Path

from common import copy_crates, crates, expect, having, patched, run_test

TESTS = "crates/dsa_tests/src"
# The crate of the tests, and what they use beside the wrong engines.
TRIED = "wrong_engines"
BELOW = ["dsa_core", "dsa_descriptor", "dsa_image", "dsa_operations", "dsa_plan", "dsa_ranges", "dsa_settings"]


def renamed(folder, name):
    """Has the files of a copy of dsa_engines, or of its tests, name the crate so."""
    for file in Path(folder).rglob("*"):
        if file.is_file():
            file.write_text(re.sub(r"\bdsa_engines\b", name, file.read_text()))


def add_engines(tree, patch, name):
    """Brings a copy of dsa_engines with the patch to the tree as a crate of its own, and the tests of engines as a module of
    the same name. Answers what is wrong with the patch, or else nothing."""
    shutil.copytree("crates/dsa_engines", f"{tree}/crates/{name}", ignore=shutil.ignore_patterns("out", "must-fail"))
    fault = patched(f"{tree}/crates/{name}", patch)
    renamed(f"{tree}/crates/{name}", name)
    tests = f"{tree}/crates/{TRIED}/src"
    shutil.copytree(f"{TESTS}/engines", f"{tests}/{name}")
    shutil.copy(f"{TESTS}/engines.rt", f"{tests}/{name}.rt")
    renamed(f"{tests}/{name}", name)
    Path(tests, f"{name}.rt").write_text(re.sub(r"\bdsa_engines\b", name, Path(tests, f"{name}.rt").read_text()))
    with open(f"{tests}/lib.rt", "a") as file:
        file.write(f"#[cfg(test)]\nmod {name};\n")
    return fault


def add_lines(tree, names):
    """Has crates.txt of the tree list the wrong engines, and the crate of their tests."""
    below = " ".join(crates()["dsa_engines"][1])
    with open(f"{tree}/crates.txt", "a") as file:
        file.writelines(f"{name}: {below}\n" for name in names)
        file.write(f"{TRIED}: {' '.join([*BELOW, *names])}\n")


def fault_of(patch, name, said):
    """What is wrong where the patch does not fail the test that it names, or else nothing."""
    test = re.match(r"fails: (\w+)\n", Path(patch).read_text())
    if not test:
        return f"{patch} does not begin with the test that it fails"
    if re.search(rf"\b{name}::(\w+::)*{test[1]}\b.* FAILED", said):
        return ""
    return f"{patch} does not fail {test[1]}:\n" + "\n".join(said.splitlines()[-20:])


def main(words):
    patches = having(sorted(glob("tests/engines/*.patch")), words)
    names = {patch: f"engines_{Path(patch).stem}" for patch in patches}
    with tempfile.TemporaryDirectory() as tree:
        # the tests ask whether a plan is legal
        copy_crates("dsa_plan", tree, also=["dsa_core"])
        src = Path(tree, "crates", TRIED, "src")
        src.mkdir(parents=True)
        (src / "lib.rt").write_text("//! Tests of wrong engines.\n\n#[cfg(test)]\nmod given;\n")
        shutil.copy(f"{TESTS}/given.rt", src)
        faults = {patch: add_engines(tree, patch, name) for patch, name in names.items()}
        add_lines(tree, names.values())
        ran = subprocess.run(["rt", "try", "--test"], cwd=f"{tree}/crates/{TRIED}", capture_output=True, text=True)
    for patch, name in names.items():
        fault = faults[patch] or fault_of(patch, name, ran.stdout + ran.stderr)
        expect(not fault, fault)


if __name__ == "__main__":
    run_test(main)
