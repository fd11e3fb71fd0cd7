"""Runs random lists with checksums in the engine room, `run_operations` of dsa_engines, and compares what they leave
with what model.py says: memory with all completion records, how many pieces are finished, and the records of batches.

    tests/run rooms [COUNT [SEED]]

No program of the repository runs such lists, so tests/rooms/main.rt.txt is built over a copy of the crates, in the
toolchain's quick way: nothing is proved, and as the source of a crate the gate would want a proof. A list has up to six
operations of all eight kinds over few addresses, and a legal plan, in which one that fails stops what is after its
epoch. It is run by 1 to 4 engines; then their history is replayed, and a random one. With more than 1,000 lists it
reports how far it is."""

import shutil
import subprocess
import sys
import tempfile
from collections import Counter
from itertools import chain, combinations, pairwise
from pathlib import Path

import common
import model
from common import copy_crates, digits, expect, run_test, stop
from model import COPY_CRC, PLAIN_DATA, PLAIN_SUM, any_meet, is_checksum
from trace_lists import Mixed

SOURCE = "tests/rooms/main.rt.txt"
USED = "dsa_core dsa_descriptor dsa_engines dsa_image dsa_operations dsa_settings anyhow hex"
MOST, BLOCK = 6, 500  # the operations of a list; the lists of one run of the program
STEPS = ("take", "line", "finish")
VARIANTS = (0, PLAIN_SUM, PLAIN_DATA, PLAIN_SUM | PLAIN_DATA)
KINDS = [f"checksum {flags:#x}" for flags in VARIANTS] + ["several lines", "several lines copied", "seed in a record"]
KINDS += ["seed in data", "copy into a source", "two at once", "done beside a failure", "stop on the way"]


class Summed(Mixed):
    """A list of one to six operations, many of them checksums, none of which is split; in a large list checksums have
    several lines. All data is there, and differs from byte to byte in half of the memory. This has 512 bytes in most
    lists: only others have room for a dualcast."""

    def fill_memory(self):
        del self.memory[0x5000 if self.large else self.random.choice((0x200, 0x200, 0x200, 0x1400)) :]
        super().fill_memory()
        for at in range(0, len(self.memory), 64):
            if self.random.random() < 0.5:
                self.memory[at : at + 64] = self.random.randbytes(64)

    def address(self):
        return 0x800 * self.random.randrange(1, 9) if self.large else super().address()

    def list(self):
        self.has_checksums, self.has_faults, self.transfer, self.earlier = True, False, 8192, []
        count = 1 + self.random.randrange(MOST)
        while len(self.earlier) < count:
            op = self.operation()
            is_apt = not self.large or (op.lines() > 1 if is_checksum(op) else self.random.random() < 0.5)
            if is_apt and self.may_have(op):
                self.earlier.append(op)
        return self.earlier, self.earlier


def drawn_plan(draw, pieces):
    """A legal plan: a fence is before each piece that conflicts with one of its epoch, and before some others."""
    begins, fences = draw.choice((0, 0, 0.3)), draw.choice((0, 0, 0.3))
    plan, epoch = [], []
    for piece in pieces:
        is_first = not plan or draw.random() < begins
        is_fenced = any(model.conflict(one, piece) for one in epoch) or draw.random() < fences
        if is_first:
            plan.append([])
        plan[-1].append(is_fenced and not is_first)
        epoch = [piece] if is_first or is_fenced else [*epoch, piece]
    return plan


class Run:
    """A list with a plan, how it is run, and the answer that this has to have."""

    def __init__(self, name):
        self.name, case, self.statuses = name, Summed(name), []
        draw, self.pieces, self.memory = case.random, case.pieces, case.memory
        self.plan, self.engines = drawn_plan(draw, self.pieces), draw.randrange(1, 5)
        memory, self.finished, records = model.outcome(self.plan, self.pieces, self.memory, self.noted)
        self.wanted = " ".join([str(self.finished), memory.hex(), *(record.hex() for record in records)])
        self.history = model.trace(self.plan, self.pieces, self.finished, self.engines, draw.choice)

    def noted(self, memory, op):
        """Does an operation, and keeps its status."""
        self.statuses.append(model.execute(memory, op))
        return self.statuses[-1]

    def line(self):
        """The case for the program."""
        events = bytes(chain(*((engine, STEPS.index(step), piece) for engine, step, piece in self.history)))
        groups = ["".join("01"[is_fenced] for is_fenced in fences) for fences in self.plan]
        return " ".join([str(self.engines), self.memory.hex(), digits(self.pieces), events.hex(), *groups]) + "\n"

    def kinds(self):
        """What was done."""
        done, failed = self.pieces[: self.finished], [at for at, status in enumerate(self.statuses) if status != 1]
        yield from ["stop on the way"] * (self.finished < len(self.pieces))
        yield from ["done beside a failure"] * (failed != [] and failed[0] + 1 < self.finished)
        yield from ["two at once"] * any(one[1] == other[1] == "take" for one, other in pairwise(self.history))
        for op in filter(is_checksum, done):
            yield f"checksum {op.flags & (PLAIN_SUM | PLAIN_DATA):#x}"
            yield from ["several lines"] * (op.lines() > 1)
            yield from ["several lines copied"] * (op.lines() > 1 and op.code == COPY_CRC)
        for one, other in combinations(done, 2):
            seeds = other.seeds() if is_checksum(other) else []
            yield from ["seed in a record"] * (is_checksum(one) and any_meet([(one.record_at + 16, 4)], seeds))
            yield from ["seed in data"] * any_meet(one.targets(), seeds)
            yield from ["copy into a source"] * (one.code == COPY_CRC and any_meet(one.targets(), other.sources()))


def fault(wanted, got):
    """What is wrong with an answer, or None."""
    if got == wanted:
        return None
    (finished, memory, *_), words = wanted.split(), got.split()
    if len(words) < 2 or len(words[1]) != len(memory):
        return got[:200]
    if words[0] != finished:
        return f"{words[0]} pieces are finished, and not {finished}"
    wrong = [at // 2 for at in range(0, len(memory), 2) if words[1][at : at + 2] != memory[at : at + 2]]
    return f"{len(wrong)} bytes differ, the first at {wrong[0]:#x}" if wrong else "the records of batches differ"


def built(tree):
    """The program, built in a folder over copies of the crates that it uses."""
    copy_crates("dsa_engines", tree)
    shutil.copytree("tests/gate", f"{tree}/tests/gate")
    Path(tree, "crates/rooms/src").mkdir(parents=True)
    shutil.copy(SOURCE, f"{tree}/crates/rooms/src/main.rt")
    with open(f"{tree}/crates.txt", "a") as file:
        file.write(f"rooms: {USED}\n")
    print(f"building {SOURCE} without proofs", flush=True)
    for _ in range(3):  # the toolchain keeps it for a moment, which quick.py may miss
        command = [sys.executable, "-B", f"{tree}/tests/gate/quick.py", "rooms"]
        ran = subprocess.run(command, capture_output=True, text=True)
        if ran.returncode == 0:
            return f"{tree}/crates/rooms/out/unproved/rooms"
    stop(ran.stderr[-2000:])


def answers(program, runs):
    """What the program answers to each."""
    text = "".join(run.line() for run in runs)
    ran = subprocess.run([program], input=text, capture_output=True, text=True, timeout=600)
    lines = ran.stdout.splitlines()
    if ran.returncode or len(lines) != len(runs):
        stop(f"of {len(runs)} lists {len(lines)} have answers, the status is {ran.returncode}: {ran.stderr[-1000:]}")
    return lines


def main(words):
    if len(words) > 2 or not all(word.isdigit() for word in words):
        stop("the words are COUNT and SEED")
    if not shutil.which("rt"):
        stop("the Rattle toolchain is needed: rt on the path")
    count, seed = [int(word) for word in words] + [200, 1][len(words) :]
    counted = Counter()
    with tempfile.TemporaryDirectory() as tree:
        program = built(tree)
        for first in range(0, count, BLOCK):
            runs = [Run(f"{seed}/{number}") for number in range(first, min(first + BLOCK, count))]
            for run, answer in zip(runs, answers(program, runs)):
                wrong = fault(run.wanted, answer)
                expect(wrong is None, f"list {run.name}: {wrong}")
                counted.update(run.kinds())
            if count > 1000:
                print(f"{first + len(runs)} of {count} lists, {common.failed} failed", file=sys.stderr, flush=True)
    print(", ".join(f"{kind} {number}" for kind, number in sorted(counted.items())))
    expect(count < 200 or all(counted[kind] for kind in KINDS), f"some kind is missing: {counted}")


if __name__ == "__main__":
    run_test(main)
