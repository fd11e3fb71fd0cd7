"""Runs the program on the examples and on the jobs of tests/jobs, without arguments and with some, and looks at its line
and its status in each case: 0 for an answer, 1 for a refusal, 2 if reading or writing fails. It looks at no arguments,
and writes nothing to standard error. A word takes the jobs that have it in their names."""

import subprocess
from glob import glob
from pathlib import Path

from common import expect, expect_line, having, program, run_test

# The program looks at none of these: an option, a word, a file that is there, one that isn't, no text.
ARGUMENTS = (
    [],
    ["--help"],
    ["--version", "-x"],
    ["examples/plan.job"],
    ["-", "no-such-file", ""],
    [b"\xff"],
)


def jobs(dsa, words):
    for name in having(sorted(glob("examples/*.job") + glob("tests/jobs/*.job")), words):
        path = Path(name)
        for arguments in ARGUMENTS:
            expect_line([dsa, *arguments], path.read_bytes(), path.with_suffix(".line").read_text().rstrip("\n"))


def silent(command, status):
    """The command writes nothing to either output, and ends with this status."""
    ran = subprocess.run(command, stdin=subprocess.DEVNULL, capture_output=True)
    got = (ran.returncode, ran.stdout, ran.stderr)
    expect(got == (status, b"", b""), f"{command}: wanted status {status} and no output, got {got}")


def by_hand(dsa):
    # the wrong batches of docs/USING.md
    judged, checked = (Path(f"examples/{name}.job").read_text() for name in ("judge", "check"))
    expect_line([dsa], judged.replace("[false,true]", "[false,false]"), "refused 43 Unfenced 0 1")
    expect_line([dsa], checked.replace("0d000003", "0c000003"), "refused 60 Plan 43 Unfenced 0 1")
    expect_line([dsa], " " * 1048575, "refused 80 Json")
    expect_line([dsa], "{}\n", "refused 82 Do")
    expect_line([dsa], "[\n", "refused 80 Json")
    for words in ([], ["--help"]):
        expect_line([dsa, *words], "", "refused 80 Json")
        silent(["sh", "-c", 'exec "$0" "$@" <&-', dsa, *words], 2)
        silent(["sh", "-c", 'exec "$0" "$@" < examples/judge.job > /dev/full', dsa, *words], 2)
        silent(["sh", "-c", 'exec "$0" "$@" < examples/judge.job >&-', dsa, *words], 2)


def main(words):
    dsa = program("dsa")
    jobs(dsa, words)
    if not words:
        by_hand(dsa)


if __name__ == "__main__":
    run_test(main)
