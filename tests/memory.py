"""Runs the program on jobs, and the program for texts on examples, while refuse.so refuses one allocation, or one and all
after it, for every one that a run asks for, or one start of a thread. Each has to answer as with ample memory, or
`refused 73 Memory`; no thread may be left at its end, and nothing is read once its input has ended or an answer has
begun. Where the start of an engine is refused, the others leave the rest of the run undone. A word takes the runs that
have it in their names."""

import os
import subprocess
from dataclasses import dataclass, field
from glob import glob
from itertools import count as numbers

from common import (
    ROOT, digits, expect, having, job, move, object_of, plan, program, refuse_so, run_test, settings, side_by_side,
)

ALL = 1 << 60
REFUSED = {"dsa": ("refused 73 Memory\n", 1), "dsa_text": ("error: there was not enough memory [73 Memory]\n", 1)}
JOBS = sorted(glob("examples/*.job", root_dir=ROOT)) + [
    f"tests/jobs/{name}.job"
    for name in (
        "plan-nothing", "check-nothing", "replay-nothing", "plan-two-pairs", "check-two-pairs", "plan-delta-and-move",
        "run-delta-same-offset-stops", "replay-order-00", "run-two-moves-2", "run-two-moves-64", "judge-unfenced",
        "check-fence-left-out", "plan-list-of-65-bytes", "check-no-version", "no-do", "nothing", "plan-by-size", "check-by-size",
        "plan-table-too-short",
    )
]

# of the program for texts: the input, the arguments, and what is answered
TEXTS = [
    ("store.txt", ("assemble", "--job"), "store.job"),
    ("store.txt", ("explain",), "store.explain"),
    ("store.txt", ("explain", "--svg"), "store.svg"),
    ("pages.job", ("explain",), "pages.explain"),
]

# what `explain` finds wrong with jobs: the text, and the end of what is said
WRONG = [
    ('{"do":"plan","list":1e999}', "line 1, column 26: the text is no JSON [80 Json]\n"),
    (plan("", other=0), "a job to plan has no member `other` [81 Member]\n"),
    (plan("", settings(other=0)), "`settings` has no member `other` [81 Member]\n"),
    (plan("", settings(fence=2**32)), "`settings`: `fence` is no number from 0 to 1000000000 [83 Settings]\n"),
    (plan("0"), "`list` is no hexadecimal text of even length [84 Hex]\n"),
]

# a batch of two moves that conflict and of one whose operation is not looked at; the end of its report, and its status
RECORDING = bytes.fromhex(
    "00000000 0c000001 0070000000000000 0000010000000000 0000000000000000 03000000" + "00" * 28
    + "00000000 0c000003 0080000000000000 0010000000000000 0020000000000000 40000000" + "00" * 28
    + "00000000 0c000003 2080000000000000 0020000000000000 0030000000000000 40000000" + "00" * 28
    + "00000000 0d000017 4080000000000000 0020000000000000 0030000000000000 40000000" + "00" * 28
)
AUDITS = [
    (("audit",), "3 descriptors in 1 batch and 0 lone submissions, 1 not looked at\n1 fence, 1 missing, 0 needless, 0 guarding, 0 signalling\ncost 17 as submitted, 20 with the missing fences\n", 1),
    (("audit", "--json"), '"missing":1,"needless":0,"guarding":0,"signalling":0,"flaws":0}}\n', 1),
    (("audit", "--list"), "# entry 3, not looked at: operation 0x17 (DIX generate)\n", 0),
]
NO_MEMORY = (("error: there was not enough memory [73 Memory]\n", 2),)


@dataclass
class Run:
    """A program, its words and input, and the answer that it has to give."""

    name: str
    program: str
    text: bytes
    wanted: str
    words: tuple = ()
    # other ways in which an audit may report an allocation failure, and its status where memory is there
    others: tuple = ()
    status: int | None = None
    faults: list = field(default_factory=list)
    # how many microseconds of a processor the threads of the last run took
    worked: int = 0

    def once(self, **refusals):
        """What is printed and the status, and how many allocations and starts of threads were asked for. A program that
        reads on after its input has ended or it has written, or that leaves a thread, is told as one that ends in
        another way."""
        reader, writer = os.pipe()
        names = {f"HOSTILE_{name.upper()}": str(value) for name, value in refusals.items()}
        names |= {"LD_PRELOAD": SHARED, "HOSTILE_REPORT": str(writer)}
        try:
            ran = subprocess.run(
                [self.program, *self.words], input=self.text, capture_output=True, env=names, pass_fds=[writer], timeout=20
            )
        except subprocess.TimeoutExpired:
            return ("does not end in 20 seconds", 0), (0, 0)
        finally:
            os.close(writer)
            with os.fdopen(reader) as report:
                line = report.read().split()
        # dsa_text refuses on standard error
        is_refused = self.words and ran.returncode in (1, 2) and not ran.stdout
        if (ran.stderr and not is_refused) or ran.returncode < 0 or len(line) != 5:
            said = f"ends with {ran.returncode} and writes {ran.stderr[:200]} to standard error"
            return (said, ran.returncode), (0, 0)
        asked, starts, late, alive, self.worked = map(int, line)
        if late:
            return (f"reads on when all is read or written, {late} times", ran.returncode), (0, 0)
        if alive:
            return (f"leaves threads: {alive}", ran.returncode), (0, 0)
        return ((ran.stdout + ran.stderr).decode(), ran.returncode), (asked, starts)

    def refusal(self):
        """How the program says that memory was refused."""
        return REFUSED["dsa_text" if self.words else "dsa"]

    def expect(self, what, answer, good):
        if answer not in good:
            self.faults.append(f"{self.name}, {what}: {answer[0][:300]!r} with status {answer[1]}")
        return answer in good

    def sweep(self, what, ample, limits):
        """Refuses allocation after allocation, until a run asks for fewer. Answers how often one was reported."""
        refusals = 0
        for number in numbers(1):
            first, last = limits(number)
            answer, (asked, _) = self.once(first=first, last=last)
            good = [ample] if asked < number else [ample, self.refusal(), *self.others]
            if not self.expect(f"allocation {number} {what}", answer, good):
                return refusals
            refusals += answer != ample
            if asked < number:
                return refusals

    def threads(self, ample, starts):
        for number in range(1, starts + 2):
            answer, _ = self.once(thread=number)
            self.expect(f"start {number} of a thread", answer, [ample if number > starts else self.refusal()])

    def all(self):
        ample, (asked, starts) = self.once()
        if self.status is None:
            is_right = ample == (self.wanted, int(self.wanted.startswith("refused")))
        else:
            is_right = ample[0].endswith(self.wanted) and ample[1] == self.status
        if not is_right:
            self.faults.append(f"{self.name}, with ample memory: {ample[0][:300]!r} with status {ample[1]}")
            return self
        alone = self.sweep("alone", ample, lambda number: (number, number))
        after = self.sweep("and all after it", ample, lambda number: (number, ALL))
        # dsa first asks for a block that it can do without
        needed = asked if self.words else asked - 1
        if not self.faults and needed and (not alone or not after):
            self.faults.append(f"{self.name}: refused memory is never noticed")
        self.threads(ample, starts)
        return self


class HaltedRun(Run):
    """A run of many pieces, of which the start of an engine is refused. The engines that were started begin only then, and
    find a room in which nothing is to be done."""

    def all(self):
        (_, status), (_, starts) = self.once()
        whole = self.worked
        if (status, starts) != (0, 4):
            self.faults.append(f"{self.name}, with ample memory: status {status}, {starts} threads")
        for number in (2, 3, 4):
            answer, _ = self.once(thread=number, hold=1)
            self.expect(f"start {number} of a thread", answer, [self.refusal()])
            if 10 * self.worked > whole:
                self.faults.append(f"{self.name}, start {number} of a thread: the others work on for {self.worked} of {whole} microseconds")
        return self


def run_of_many():
    """A job to run 20,000 moves of 8 bytes by four engines."""
    count = 20_000
    pieces = [move(8 * k, 8 * (count + k), 8, 16 * count + 32 * k) for k in range(count)]
    image = object_of({"base": 0, "bytes": f'"{bytes(48 * count).hex()}"'})
    rules = settings(greatest_batch=1_024, staging=0x4000_0000)
    return job("run", rules, list=f'"{digits(pieces)}"', image=image, engines=4).encode()


def runs(of_jobs, of_texts):
    """All runs: the program on each job, and the program for texts."""
    for job in JOBS:
        with open(job, "rb") as file, open(job.replace(".job", ".line")) as line:
            yield Run(job, of_jobs, file.read(), line.read())
    for name, words, said in TEXTS:
        with open(f"examples/text/{name}", "rb") as file, open(f"examples/text/{said}") as answer:
            yield Run(f"dsa_text {' '.join(words)} of {name}", of_texts, file.read(), answer.read(), words)
    for words, said, status in AUDITS:
        # status 1 would say that a fence is missing; the program knows no command before it has read its arguments
        yield Run(f"dsa_text {' '.join(words)}", of_texts, RECORDING, said, words, NO_MEMORY, status)
    for text, said in WRONG:
        yield Run(f"dsa_text explain of {text}", of_texts, text.encode(), said, ("explain",), status=1)
    yield HaltedRun("run of many pieces", of_jobs, run_of_many(), "")


def main(words):
    global SHARED
    made = {run.name: run for run in runs(*map(program, ("dsa", "dsa_text")))}
    with refuse_so() as SHARED:
        for run in side_by_side(lambda run: run.all(), [made[name] for name in having(made, words)]):
            expect(not run.faults, "\n".join(run.faults))


if __name__ == "__main__":
    run_test(main)
