"""Runs the program on jobs whose input comes a byte at a time or fails at each turn, and whose output is taken a
byte at a time or fails after some bytes. In each run it reads no further once its input has ended or failed, or it has
written. A word takes the runs that have it in their names."""

import errno
import os
import subprocess
from functools import partial
from glob import glob

from common import ROOT, expect, having, program, refuse_so, run_test, side_by_side

TURNS = 1048576
JOBS = sorted(glob("examples/*.job", root_dir=ROOT)) + [
    f"tests/jobs/{name}.job" for name in ("judge-unfenced", "check-fence-left-out", "plan-nothing", "no-do", "nothing")
]


def once(shared, tried, text, settings):
    """What the program that is tried prints, its status, and how many reads came too late."""
    reader, writer = os.pipe()
    names = {f"HOSTILE_{name.upper()}": str(value) for name, value in settings.items()}
    names |= {"LD_PRELOAD": shared, "HOSTILE_REPORT": str(writer)}
    try:
        ran = subprocess.run([tried], input=text, capture_output=True, env=names, pass_fds=[writer], timeout=60)
    finally:
        os.close(writer)
        with os.fdopen(reader) as report:
            counts = report.read().split()
    return ran.stdout + ran.stderr, ran.returncode, int(counts[2]) if len(counts) == 5 else "unknown"


def turns(text, most):
    """How many reads a text takes, with the one that finds the end."""
    return -(-len(text) // most) + 1


def cases(name, text, line):
    """What is done, how, and what has to come: bytes and status."""
    status = 1 if line.startswith(b"refused") else 0
    yield "a byte a read", {"read_most": 1}, (line, status)
    yield "a byte a write", {"write_most": 1}, (line, status)
    most = max(1, len(text) // 20)
    for error in (errno.EIO, errno.EINTR):
        for turn in range(1, turns(text, most) + 1):
            fault = {"read_most": most, "read_fault": turn, "error": error}
            yield f"read {turn} fails with {errno.errorcode[error]}", fault, (b"", 2)
    beyond = {"read_most": most, "read_fault": turns(text, most) + 1, "error": errno.EIO}
    yield "a read after the last would fail", beyond, (line, status)
    for error in (errno.EIO, errno.EINTR, 0):
        how = f"fails with {errno.errorcode[error]}" if error else "fails and takes nothing"
        for count in range(0, len(line), max(1, len(line) // 40)):
            fault = {"write_fault": count + 1, "error": error}
            yield f"a write {how} after {count} bytes", fault, (line[:count], 2)
            yield f"a slow write {how} after {count} bytes", fault | {"write_most": 7}, (line[:count], 2)
    yield "a write after the last would fail", {"write_fault": len(line) + 1, "error": errno.EIO}, (line, status)


def all_cases():
    for job in JOBS:
        with open(job, "rb") as file, open(job.replace(".job", ".line"), "rb") as line:
            text, line = file.read(), line.read()
        for what, settings, wanted in cases(job, text, line):
            yield f"{job}, {what}", text, settings, wanted
    slowly = {"read_most": 1}
    yield "1,048,575 blanks, one a read", b" " * (TURNS - 1), slowly, (b"refused 80 Json\n", 1)
    yield "1,048,576 blanks, one a read", b" " * TURNS, slowly, (b"", 2)


def fault_of(shared, tried, case):
    name, text, settings, wanted = case
    try:
        *got, late = once(shared, tried, text, settings)
    except subprocess.TimeoutExpired:
        return f"{name}: does not end in 60 seconds"
    if tuple(got) != wanted:
        return f"{name}: wanted {wanted}, got {got}"[:600]
    return f"{name}: reads on when all is read or written, late reads: {late}" if late else None


def faults_of(shared, tried, words):
    """What is wrong with each run of the program that is tried, or None."""
    cases = {case[0]: case for case in all_cases()}
    return side_by_side(partial(fault_of, shared, tried), [cases[name] for name in having(cases, words)])


def main(words):
    tried = program("dsa")
    with refuse_so() as shared:
        for fault in faults_of(shared, tried, words):
            expect(fault is None, fault)


if __name__ == "__main__":
    run_test(main)
