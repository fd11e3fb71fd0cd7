"""Tests the programs and dsa_tests as the toolchain builds them quickly, without proofs (`rt try`), for those who try a
change: the jobs of examples and tests/jobs, the golden files of tests/text, and the tests of dsa_tests, side by side;
and what ./run --unproved keeps. `tests/run --unproved` runs it. The words are names of crates, dsa, dsa_text,
dsa_tests, or the word kept."""

import re
import shutil
import subprocess
import tempfile
import time
from glob import glob
from pathlib import Path

import golden
from common import ROOT, expect, run_test, side_by_side, stop

CRATES = ["dsa", "dsa_text", "dsa_tests", "kept"]
# The most cases of a golden file: each start of a program with checks takes most of a second.
MOST_CASES = 3
CASE = re.compile(r"^case=(\S+) run=(\S+) status=(\d+).* output=(\S+) ", re.M)
TESTED = re.compile(r"^test result: .*?(\d+) passed; (\d+) failed", re.M)


def jobs():
    """For each job its name, its text, no arguments, and what the program answers."""
    for path in sorted(map(Path, glob("examples/*.job") + glob("tests/jobs/*.job"))):
        line = path.with_suffix(".line").read_bytes()
        yield f"{path.parent.name}-{path.stem}", path.read_bytes(), [], line, int(line.startswith(b"refused"))


def is_plain(case):
    """Whether a case of a golden file names no other file and has no faulty input or output."""
    program, *words = golden.command("", case)
    return program == "" and all(b"/" not in word and b"\n" not in word and word.isascii() for word in words)


def texts():
    """The same of some cases of each golden file but that of help, which has the name by which a program is called."""
    for path in sorted(set(Path("tests/text").glob("*.golden")) - {Path("tests/text/help.golden")}):
        plain = [case for case in golden.cases(path) if is_plain(case)]
        for number, case in enumerate(plain[:MOST_CASES]):
            yield f"{path.stem}-{number}", case.text, golden.command("", case)[1:], case.output, case.status


def written(cases, folder):
    """Writes the cases into a folder as rt try reads them; answers the status that each should end with."""
    statuses = {}
    for name, text, words, output, status in cases:
        (folder / name).write_bytes(text)
        (folder / f"{name}.stdout").write_bytes(output)
        if words:
            (folder / f"{name}.args").write_bytes(b"".join(word + b"\n" for word in words))
        statuses[name] = status
    return statuses


def tried(crate, words):
    """What rt try prints of a crate."""
    ran = subprocess.run(["rt", "try", *words], cwd=f"crates/{crate}", capture_output=True, text=True, errors="replace")
    return ran.stdout + ran.stderr


def program(crate, cases):
    """Tries a program on cases. Answers how many there are, and what is wrong."""
    with tempfile.TemporaryDirectory() as folder:
        statuses = written(cases, Path(folder))
        said = tried(crate, ["--steps", "1", "--cases", folder])
        found = {name: (run, int(status), output) for name, run, status, output in CASE.findall(said)}
        faults = [
            f"{crate}: {name}: wanted status {status} and its output, got {found.get(name, 'no answer')}"
            for name, status in statuses.items()
            if found.get(name) != ("ended", status, "expected")
        ]
        return len(statuses), faults if found else [f"{crate}: {said[-2000:]}"]


def tests():
    """Tries the tests of dsa_tests."""
    said = tried("dsa_tests", ["--test"])
    counts = [(int(passed), int(failed)) for passed, failed in TESTED.findall(said)]
    right = counts and not counts[-1][1]
    return sum(counts[-1]) if counts else 1, [] if right else [f"dsa_tests: {said[-2000:]}"]


def kept():
    """./run --unproved keeps the program that it builds, and runs it on other input without building it again."""
    faults = []
    for at, job in enumerate(("plan", "judge")):
        with open(f"examples/{job}.job", "rb") as text:
            ran = subprocess.run(["./run", "--unproved"], stdin=text, capture_output=True)
        right = ran.stdout == Path(f"examples/{job}.line").read_bytes() and (at == 0 or not ran.stderr)
        faults += [] if right else [f"./run --unproved of {job}.job: {ran.stdout[-200:]} {ran.stderr[-500:]}"]
    return 2, faults


def look(crate):
    """Tries one crate, and says so as soon as it is done."""
    start = time.monotonic()
    others = {"dsa_tests": tests, "kept": kept}
    number, faults = others[crate]() if crate in others else program(crate, jobs() if crate == "dsa" else texts())
    print(f"{crate:14}{time.monotonic() - start:7.1f} s  {number} cases, {len(faults)} wrong", flush=True)
    return number, faults


def main(words):
    if not shutil.which("rt"):
        stop("the Rattle toolchain is needed: rt on the path")
    unknown = [word for word in words if word not in CRATES]
    if unknown:
        stop(f"there is no part {unknown[0]}, but {', '.join(CRATES)}")
    print("building without proofs; this takes some minutes", flush=True)
    for number, faults in side_by_side(look, words or CRATES):
        for fault in faults:
            expect(False, fault)
        for _ in range(number - len(faults)):
            expect(True, "")
    print(f"NOTHING WAS PROVED: {ROOT}/.ci/run proves every crate")


if __name__ == "__main__":
    run_test(main)
