"""Runs the program on random jobs, and compares each of its lines with what model.py says that it has to be.

    tests/run campaign [COUNT [SEED]]

A list of up to six pieces of all operations over few addresses is planned; its answer is checked; plans of it are
judged; and it is run by 1 to 4 engines and replayed, in order and in a random complete order. With more than 1,000
lists it reports how far it is.
"""

import json
import random
import subprocess
import sys

import common
import model
from model import COMPARE, DELTA, DUALCAST, FILL, MOVE, PATTERN, CHECKED, Op, Settings

STAGING = 1 << 40


class Wrong(Exception):
    pass


class Runs:
    """Runs the program on each job."""

    def __init__(self, program):
        self.program = program

    def expect(self, text, wanted):
        ran = subprocess.run([self.program], input=text.encode(), capture_output=True, timeout=60)
        line = ran.stdout.decode() + ran.stderr.decode()
        if line != wanted + "\n" or ran.returncode != int(wanted.startswith("refused")):
            raise Wrong(f"{text}\n  wanted {wanted}\n  got    {line.rstrip()} with status {ran.returncode}")


def expect(program, job, wanted):
    program.expect(json.dumps(job), wanted)


def compact(value):
    return json.dumps(value, separators=(",", ":"), sort_keys=True)


class Case:
    """One list, with its settings and its memory, which are as the seed makes them."""

    def __init__(self, seed):
        self.random = random.Random(seed)
        self.large = self.random.random() < 0.1
        self.transfer = 8192 if self.large else self.random.choice([16, 24, 64])
        greatest_batch = self.random.choice([2, 3, 4, 6, 1024])
        self.settings = Settings(
            greatest_batch,
            self.transfer,
            self.random.choice([0, 5, 10, 10, 20]),
            self.batch_prices(greatest_batch - 1),
            self.random.choice([0, 1, 3, 3, 7, 12]),
            STAGING,
        )
        self.step = 4096 if self.large else 8
        self.memory = bytearray(0x8000 if self.large else 0x1400)
        self.fill_memory()
        self.operations, self.pieces = self.list()

    def batch_prices(self, sizes):
        """One price for all batches, or a price for each size."""
        if self.random.random() < 0.6:
            return self.random.choice([0, 10, 14, 14, 30])
        return [self.random.choice([0, 10, 14, 16, 20, 30]) for _ in range(sizes)]

    def fill_memory(self):
        """Few different bytes, so that regions are often equal."""
        for k in range(0, len(self.memory), 64):
            self.memory[k : k + 64] = bytes([self.random.choice([0, 0, 1])]) * 64

    def address(self):
        base = self.random.choice([0, 0, 0x1000])
        return base + self.step * self.random.randrange(4 if self.large else 32)

    def operation(self):
        code = self.random.choice([MOVE, MOVE, FILL, COMPARE, PATTERN, DELTA, DUALCAST])
        size = self.random.choice([8, 8, 16, 24, 40]) if not self.large else self.random.choice([8, 4096, 4100, 8192])
        flags = 0x0C | self.random.choice([0, 0, 0x0002, 0x0020, 0x8100])
        record_at = 32 * self.random.randrange(0x20) + self.random.choice([0, 0x200])
        op = Op(code, size, record_at, self.address(), self.address(), 0, flags, self.random.randrange(3))
        if code == FILL:
            return model.replace(op, first=self.random.choice([0, 0x0101010101010101, 0x0807060504030201]))
        if code == PATTERN:
            op = model.replace(op, second=self.random.choice([0, 0x0101010101010101]))
        if code in (COMPARE, PATTERN):
            checks = self.random.random() < 0.5
            own = self.random.choice([0, 0, 1])
            return model.replace(op, flags=flags | (CHECKED if checks else 0), own=own)
        if code == DELTA:
            return self.delta(op)
        if code == DUALCAST:
            return model.replace(op, own=op.second ^ 0x1000)
        return op

    def delta(self, op):
        """A delta; its record is written into the memory, and most of its entries are good."""
        entries = self.random.randrange(4)
        if self.large and self.random.random() < 0.5:
            entries = 300  # more than one line examines
        op = model.replace(op, own=10 * entries, size=op.size // 8 * 8)
        offset = 0
        for k in range(entries):
            at = op.first + 10 * k
            entry = offset.to_bytes(2, "little") + bytes([k % 256]) * 8
            self.memory[at : at + 10] = entry[: max(0, len(self.memory) - at)]
            offset += self.random.choice([1, 1, 1, 1, 2, 0])
        return op

    def list(self):
        """Operations of at most six pieces in all."""
        operations, pieces = [], []
        for _ in range(self.random.randrange(8)):
            op = self.operation()
            ranges = op.sources() + op.writes()
            row_end = op.record_at + 32 * -(-op.size // self.transfer)
            if not model.fits(op, self.transfer) or max(row_end, *(a + n for a, n in ranges)) > len(self.memory):
                continue
            own = model.pieces_of(op, self.transfer)
            if len(pieces) + len(own) <= 6:
                operations.append(op)
                pieces += own
        return operations, pieces

    def job(self, do, **members):
        numbers = vars(self.settings) | {"version": self.settings.version}
        return {"do": do, "settings": numbers, **members}

    def digits(self, operations):
        return b"".join(op.bytes() for op in operations).hex()


def plan_and_check(program, case):
    """The whole answer of `plan`, and of checking it and what isn't quite it."""
    plan, prices, pairs = model.chosen(case.pieces, case.settings)
    cost = model.cost(plan, case.settings)
    plans = model.every_plan(len(case.pieces), case.settings.greatest_batch)
    least = min(model.cost(it, case.settings) for it in plans if model.first_fault(case.pieces, it) is None)
    if not cost == prices[-1] == least:
        raise Wrong("the model disagrees with itself")
    portal, staging = model.emission(plan, case.pieces, case.settings)
    certificate = {"pairs": pairs, "prices": prices, "version": case.settings.version}
    emitted = {"portal": portal.hex(), "staging": staging.hex()}
    expect(program, case.job("plan", list=case.digits(case.operations)),
           compact({"certificate": certificate, "cost": cost, "plan": plan, **emitted}))
    expect(program, case.job("check", **emitted, certificate=certificate), compact({"cost": cost}))
    other = {**certificate, "version": 3 - certificate["version"]}
    expect(program, case.job("check", **emitted, certificate=other), "refused 65 Version")
    if prices[-1] > 0:
        lower = {**certificate, "prices": prices[:-1] + [prices[-1] - 1]}
        expect(program, case.job("check", **emitted, certificate=lower), "refused 64 Total")
    return plan


def judge(program, case, plan):
    """What the chosen plan and some others cost, or which pair they leave without a fence."""
    others = list(model.every_plan(len(case.pieces), case.settings.greatest_batch))
    for it in [plan] + case.random.sample(others, min(2, len(others))):
        fault = model.first_fault(case.pieces, it)
        wanted = compact({"cost": model.cost(it, case.settings)})
        if fault:
            wanted = f"refused 43 Unfenced {fault[0]} {fault[1]}"
        expect(program, case.job("judge", list=case.digits(case.pieces), plan=it), wanted)


def run_and_replay(program, case, plan):
    memory, finished, records = model.outcome(plan, case.pieces, case.memory)
    wanted = compact({"batch_records": [it.hex() for it in records], "finished": finished, "image": memory.hex()})
    members = {"list": case.digits(case.operations), "image": {"base": 0, "bytes": case.memory.hex()}}
    for engines in (1, 2, 3, 4):
        expect(program, case.job("run", **members, engines=engines), wanted)
    in_order = model.trace(plan, case.pieces, finished, 1, lambda steps: steps[0])
    expect(program, case.job("replay", **members, engines=1, trace=in_order), wanted)
    engines = case.random.choice([2, 3, 64])
    shuffled = model.trace(plan, case.pieces, finished, engines, case.random.choice)
    expect(program, case.job("replay", **members, engines=engines, trace=shuffled), wanted)
    if shuffled:
        expect(program, case.job("replay", **members, engines=engines, trace=shuffled[:-1]), "refused 77 Incomplete")


def try_list(program, name):
    """What is wrong with the answers for the list of this name, or None."""
    case = Case(name)
    try:
        plan = plan_and_check(program, case)
        judge(program, case, plan)
        run_and_replay(program, case, plan)
    except Wrong as wrong:
        return str(wrong)
    except subprocess.TimeoutExpired:
        return "a job takes more than 60 seconds"
    return None


def main(words):
    if len(words) > 2 or not all(word.isdigit() for word in words):
        common.stop("the words of a campaign are COUNT and SEED")
    count, seed = [int(word) for word in words] + [200, 1][len(words) :]
    tried = Runs(common.program("dsa"))
    for number in range(count):
        fault = try_list(tried, f"{seed}/{number}")
        common.expect(fault is None, f"list {number} of seed {seed}: {fault}")
        if count > 1000 and (number + 1) % 500 == 0:
            print(f"{number + 1} of {count} lists, {common.failed} failed", file=sys.stderr)


if __name__ == "__main__":
    common.run_test(main)
