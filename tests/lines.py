"""Runs dsa_jobs, which answers a job on each line, on the examples and on the jobs of tests/jobs, and compares its
lines with those that they have, and with those of dsa: at once and a byte at a time, with pauses, with reads, writes
and allocations that fail, and with lines that are empty, too long or begun. The words are names of parts."""

import errno
import os
import select
import subprocess
from functools import partial
from glob import glob
from pathlib import Path

from common import expect, named, program, refuse_so, run_test, side_by_side

LONGEST = 67108864
NO_JSON, TOO_LONG, NO_MEMORY = b"refused 80 Json\n", b"refused 86 JobTooLong\n", b"refused 73 Memory\n"


def known():
    """Each job that has a line, but for the empty one, with that line."""
    paths = [Path(name) for name in sorted(glob("examples/*.job") + glob("tests/jobs/*.job"))]
    jobs = [(path.read_bytes().rstrip(b"\n"), path.with_suffix(".line").read_bytes()) for path in paths]
    return [(job, line) for job, line in jobs if job]


def few():
    """Some short jobs, of answers and refusals, with their lines."""
    names = ("examples/judge", "tests/jobs/no-do", "examples/plan", "examples/run")
    return [(Path(f"{name}.job").read_bytes().rstrip(b"\n"), Path(f"{name}.line").read_bytes()) for name in names]


def ran(text, shared=None, **settings):
    """What the program writes for a text, and its status; with settings its input, output or memory is faulty."""
    names = {f"HOSTILE_{name.upper()}": str(value) for name, value in settings.items()}
    names |= {"LD_PRELOAD": shared} if shared else {}
    end = subprocess.run([JOBS], input=text, capture_output=True, env=names, timeout=120)
    return end.stdout + end.stderr, end.returncode


def expect_lines(what, text, lines, status=0, shared=None, **settings):
    got = ran(text, shared, **settings)
    shown = (got[0][:300], got[1])
    expect(got == (lines, status), f"{what}: wanted status {status} and {lines[:300]}, got {shown}")


def examples():
    """All jobs in one text, and each after the one before it."""
    jobs = known()
    text, lines = b"".join(job + b"\n" for job, _ in jobs), b"".join(line for _, line in jobs)
    expect_lines("all jobs", text, lines)
    for (job, line), (job2, line2) in zip(jobs, jobs[1:]):
        expect_lines(f"{job[:100]} and {job2[:100]}", job + b"\n" + job2 + b"\n", line + line2)
    dsa = program("dsa")
    made = b"".join(subprocess.run([dsa], input=job, capture_output=True).stdout for job, _ in jobs)
    expect(made == lines, "dsa has other lines for these jobs")


def ends():
    """How lines end: a newline, a carriage return before it, or the end of the text."""
    jobs = few()
    lines = b"".join(line for _, line in jobs)
    expect_lines("CRLF", b"".join(job + b"\r\n" for job, _ in jobs), lines)
    expect_lines("no last newline", b"\n".join(job for job, _ in jobs), lines)
    expect_lines("blanks around", b"".join(b" \t" + job + b" \n" for job, _ in jobs), lines)
    (judge, cost), *_ = jobs
    for text, wanted in (
        (b"", b""),
        (b"\n", NO_JSON),
        (b"\n\n", NO_JSON * 2),
        (b"\r\n", NO_JSON),
        (b" ", NO_JSON),
        (judge + b"\n\n" + judge, cost + NO_JSON + cost),
        (b"\n" + judge + b"\n \n", NO_JSON + cost + NO_JSON),
        (judge + judge + b"\n" + judge, NO_JSON + cost),
        (judge[:-1] + b"\n" + judge[-1:] + b"\n" + judge, NO_JSON + NO_JSON + cost),
        (b"\xff\n\0\n" + judge, NO_JSON * 2 + cost),
    ):
        expect_lines(f"{text[:60]}", text, wanted)
    # an end of a line at each place of a chunk of 65,536 bytes, or around its end
    for count in range(65536 - len(judge) - 2, 65540, 97):
        expect_lines(f"{count} blanks before a job", b" " * count + judge + b"\n" + judge, cost * 2)


def faults():
    """A byte a read or a write, and each read and write that fails."""
    jobs = few()
    text, lines = b"".join(job + b"\n" for job, _ in jobs), b"".join(line for _, line in jobs)
    cases = [("a byte a read", {"read_most": 1}, lines, 0), ("a byte a write", {"write_most": 1}, lines, 0)]
    most = max(1, len(text) // 40)
    for turn in range(1, -(-len(text) // most) + 2):
        whole = text[: most * (turn - 1)].count(b"\n")
        wanted = b"".join(line for _, line in jobs[:whole])
        for error in (errno.EIO, errno.EINTR):
            fault = {"read_most": most, "read_fault": turn, "error": error}
            cases.append((f"read {turn} fails with {errno.errorcode[error]}", fault, wanted, 2))
    for count in range(0, len(lines), max(1, len(lines) // 60)):
        for error in (errno.EIO, errno.EINTR, 0):
            fault = {"write_fault": count + 1, "error": error}
            for how, more in (("a write", {}), ("a slow write", {"write_most": 7})):
                cases.append((f"{how} fails with {error} after {count} bytes", fault | more, lines[:count], 2))
    with refuse_so() as shared:
        runs = side_by_side(lambda case: ran(text, shared, **case[1]), cases)
    for (what, _, wanted, status), got in zip(cases, runs):
        right = got == (wanted, status)
        expect(right, f"{what}: wanted {status} and {wanted[-200:]}, got {got[1]} and {got[0][-200:]}")


def memory():
    """Each allocation refused in turn, alone and with all later ones: each job has its line, or that of a refusal."""
    jobs = few()
    text = b"".join(job + b"\n" for job, _ in jobs)

    def runs(shared, first):
        return ran(text, shared, first=first, last=first), ran(text, shared, first=first, last=2**62)

    with refuse_so() as shared:
        answers = side_by_side(partial(runs, shared), range(1, 120))
    refused = 0
    for first, pair in enumerate(answers, 1):
        for got, status in pair:
            lines = got.splitlines(keepends=True)
            right = len(lines) == len(jobs) and all(a in (line, NO_MEMORY) for a, (_, line) in zip(lines, jobs))
            expect(right and status == 0, f"allocation {first} refused: status {status} and {got[-300:]}")
            refused += NO_MEMORY in lines
    expect(refused > 20, f"only {refused} runs had a refusal of memory")


def read_lines(pipe, count, seconds=20):
    """The lines that come before so many seconds are over."""
    got = b""
    while got.count(b"\n") < count and select.select([pipe], [], [], seconds)[0]:
        more = os.read(pipe.fileno(), 65536)
        if not more:
            break
        got += more
    return got


def pauses():
    """Each line is answered before more is sent, also if the next is begun."""
    jobs = few()
    with subprocess.Popen([JOBS], stdin=subprocess.PIPE, stdout=subprocess.PIPE, bufsize=0) as child:
        begun = b""
        for job, line in jobs:
            half = len(job) // 2
            child.stdin.write(job[len(begun) :] + b"\n" + job[:half])
            begun = job[:half]
            got = read_lines(child.stdout, 1)
            expect(got == line, f"{job[:60]} is answered by {got[:200]} before more is sent")
            child.stdin.write(job[half:] + b"\n")
            begun = b""
            got = read_lines(child.stdout, 1)
            expect(got == line, f"{job[:60]}, sent in halves, is answered by {got[:200]}")
        child.stdin.write(jobs[0][0])
        child.stdin.close()
        got = child.stdout.read()
        expect(got == jobs[0][1] and child.wait() == 0, f"the last line is answered by {got[:200]}")


def long():
    """The longest line, longer ones, whose rest is not kept, and the lines after them."""
    job, line = few()[0]
    for count, wanted in ((LONGEST, NO_JSON), (LONGEST + 1, TOO_LONG), (LONGEST + 65536, TOO_LONG)):
        expect_lines(f"a line of {count} blanks", b" " * count + b"\n" + job, wanted + line)
        expect_lines(f"{count} blanks without newline", b" " * count, wanted)
    # what fits is read although it is long, and what follows a long line within it is none of a job
    expect_lines("a long job", b" " * (LONGEST - len(job)) + job + b"\n" + job + b"\n", line * 2)
    expect_lines("a job after a long line", b" " * LONGEST + job + b"\n" + job + b"\n", TOO_LONG + line)
    with subprocess.Popen([JOBS], stdin=subprocess.PIPE, stdout=subprocess.PIPE) as child:
        for _ in range(700):
            child.stdin.write(b" " * 1000000)
        child.stdin.write(b"\n" + job + b"\n")
        child.stdin.flush()
        got = read_lines(child.stdout, 2)
        most = int(Path(f"/proc/{child.pid}/status").read_text().split("VmHWM:")[1].split()[0])
        child.stdin.close()
    expect(got == TOO_LONG + line, f"after a line of 700 MB came {got[:200]}")
    expect(most < 200000, f"a line of 700 MB took {most} kB")


def many():
    """A great many small jobs in one run."""
    job, line = few()[2]
    expect_lines("50,000 jobs", (job + b"\n") * 50000, line * 50000)


def closed():
    """No input, no output, a full device: status 2. Arguments are not looked at."""
    job, line = few()[0]
    for command, wanted in (
        ('exec "$0" <&-', (2, b"")),
        ('exec "$0" < examples/judge.job >&-', (2, b"")),
        ('exec "$0" < examples/judge.job > /dev/full', (2, b"")),
        ('exec "$0" < /dev/null >&-', (0, b"")),
        ('exec "$0" --help -x examples/plan.job < examples/judge.job', (0, line)),
    ):
        end = subprocess.run(["sh", "-c", command, JOBS], stdin=subprocess.DEVNULL, capture_output=True)
        got = (end.returncode, end.stdout + end.stderr)
        expect(got == wanted, f"{command}: wanted {wanted}, got {got}")
    reader, writer = os.pipe()
    os.close(reader)
    end = subprocess.run([JOBS], input=(job + b"\n") * 1000, stdout=writer, stderr=subprocess.PIPE)
    os.close(writer)
    expect((end.returncode, end.stderr) == (2, b""), f"a closed pipe: status {end.returncode} and {end.stderr}")


def main(words):
    global JOBS
    JOBS = program("dsa_jobs")
    for part in named([examples, ends, faults, memory, pauses, long, many, closed], words):
        part()


if __name__ == "__main__":
    run_test(main)
