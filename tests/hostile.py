"""Tries wrong programs that other tests are there to refuse, and sees each refused: one that leaves a thread
(tests/memory.py), one that tries again after an error and one that reads on past its line (tests/streams.py). The words
are names of parts."""

import subprocess
import tempfile
from contextlib import contextmanager

import memory
import streams
from common import compiler, expect, named, refuse_so, run_test


@contextmanager
def built(name):
    """The program of tests/hostile, built from its one file."""
    with tempfile.TemporaryDirectory() as folder:
        flags = ["-O2", "-Wall", "-Wextra", "-Werror", "-pthread"]
        subprocess.run([compiler(), *flags, "-o", f"{folder}/{name}", f"tests/hostile/{name}.c"], check=True)
        yield f"{folder}/{name}"


def left_thread():
    """leaves_a_thread.c answers as it should, and a thread goes on."""
    with refuse_so() as memory.SHARED, built("leaves_a_thread") as program:
        run = memory.Run("leaves_a_thread", program, b"", "refused 80 Json\n").all()
    expect(run.faults and "leaves threads: 1" in run.faults[0], f"leaves_a_thread.c is not seen by tests/memory.py: {run.faults}")


def streamed(name):
    """What tests/streams.py finds wrong with a program in C that answers one job, or None, for each run."""
    with refuse_so() as shared, built(name) as program:
        return streams.faults_of(shared, program, ["tests/jobs/nothing.job"])


def second_try():
    """again.c reads and writes again after an error: just the runs with an error fail."""
    answers = streamed("again")
    faults = [fault for fault in answers if fault]
    is_seen = 0 < len(faults) < len(answers) and all("fails" in fault for fault in faults)
    expect(is_seen, f"again.c is not seen by tests/streams.py: {len(faults)} of {len(answers)} fail, {faults[:3]}")


def reading_on():
    """reads_on.c answers as it should, but reads once more at its end: each run fails for that alone."""
    answers = streamed("reads_on")
    others = [fault for fault in answers if not fault or "reads on" not in fault]
    expect(answers and not others, f"reads_on.c is not seen by tests/streams.py: {others[:3]}")


def main(words):
    for part in named([left_thread, second_try, reading_on], words):
        part()


if __name__ == "__main__":
    run_test(main)
