"""Runs the program on the largest jobs that the README allows, and looks at whole answers: 65,536 pieces planned, checked,
judged, run and replayed, batches of 1,024, images of 16 MiB, 64 engines. A call that reports an allocation failure only
above some size is seen here. What is right is worked out by hand, or by the plain definitions of tests/model.py. The
words are names of parts."""

import random

import model
from common import (
    digits, expect, expect_line, job, judge, move, named, object_of, plan, program, raw, run_test, settings,
)
from hostile_texts import TEXTS, answer, reason
from model import FILL, Op

MOST = 65_536
MOST_MEMBERS = 1_024
KIB, MIB = 2**10, 2**20
AREA = model.Settings(MOST_MEMBERS, 65_536, 10, 14, 3, 0x4000_0000)
LIMITS = {"greatest_batch": AREA.greatest_batch, "greatest_transfer": AREA.greatest_transfer, "staging": AREA.staging}
RULES = settings(**LIMITS)
BY_SIZE = settings(**LIMITS, version=2, batch=[14] * (MOST_MEMBERS - 1))


def full_batches(count):
    return [[False] * MOST_MEMBERS] * (count // MOST_MEMBERS)


def least_costs(count):
    """The least cost of the first pieces, for each number of them, where no two conflict: a batch costs 14 whatever its size,
    so full ones come first, and a single piece that is left goes alone for 10."""
    costs = []
    for pieces in range(count + 1):
        full, rest = divmod(pieces, MOST_MEMBERS)
        costs.append(14 * full + {0: 0, 1: 10}.get(rest, 14))
    return costs


def apart(count, size):
    """Moves from one area to another, no two of which conflict, with their records after both."""
    return [move(size * k, size * (count + k), size, 2 * size * count + 32 * k) for k in range(count)]


def replay(pieces, memory, engines, trace):
    return run(pieces, memory, engines, do="replay", trace=trace)


def run(pieces, memory, engines, do="run", rules=RULES, **more):
    image = object_of({"base": 0, "bytes": f'"{memory.hex()}"'})
    return job(do, rules, list=f'"{digits(pieces)}"', image=image, engines=engines, **more)


def left(groups, pieces, memory):
    """The line of a run or a replay."""
    memory, finished, records = model.outcome(groups, pieces, memory)
    return raw({"batch_records": [it.hex() for it in records], "finished": finished, "image": memory.hex()})


def in_turn(count, engines, lines=1):
    """A complete run of pieces of so many lines that all may go at once: the engines take so many, do their lines, and finish
    them."""
    trace = []
    for first in range(0, count, engines):
        now = range(first, min(first + engines, count))
        trace += [[k % engines, kind, k] for kind in ("take", *["line"] * lines, "finish") for k in now]
    return trace


def noise(count):
    return random.Random(count).randbytes(count)


def planned():
    """The most pieces, in the largest batches: their plan with its bytes, its check, and what it costs by judging it; with one
    price of batches, and with a table that has this price for each size."""
    pieces, groups, costs = apart(MOST, 8), full_batches(MOST), least_costs(MOST)
    portal, staging = (it.hex() for it in model.emission(groups, pieces, AREA))
    emitted = {"portal": f'"{portal}"', "staging": f'"{staging}"'}
    for version, rules in ((1, RULES), (2, BY_SIZE)):
        certificate = {"pairs": [None] * MOST, "prices": costs, "version": version}
        line = {"certificate": certificate, "cost": costs[-1], "plan": groups, "portal": portal, "staging": staging}
        expect_line([DSA], plan(pieces, rules), raw(line))
        expect_line([DSA], job("check", rules, **emitted, certificate=certificate), raw({"cost": costs[-1]}))
        expect_line([DSA], judge(pieces, groups, rules), raw({"cost": costs[-1]}))


def long_runs():
    """The most pieces, done by threads, by one, and by a trace that names each event."""
    pieces, groups = apart(MOST, 8), full_batches(MOST)
    # a move reads 8 bytes and writes 8, and each has a record of 32
    memory = noise(MOST * (8 + 8)) + bytes(MOST * 32)
    # two batches are never on their way at once, and a batch goes in 16 rounds of 64 engines
    trace = [[e, kind, k + MOST_MEMBERS * batch] for batch in range(MOST // MOST_MEMBERS) for e, kind, k in in_turn(MOST_MEMBERS, 64)]
    line = left(groups, pieces, memory)
    for engines in (1, 64):
        expect_line([DSA], run(pieces, memory, engines), line)
    expect_line([DSA], replay(pieces, memory, 64, trace), line)


def images():
    """Images of 64 KiB, 1 MiB and 16 MiB under 301 pieces, run by as many engines as may be, by some fewer, and by a trace."""
    count = 300
    for size in (64 * KIB, MIB, 16 * MIB):
        pieces = apart(count, size // 1_024)
        last = Op(FILL, size // 1_024, pieces[-1].record_at + 32, 0x1122_3344_5566_7788, size - size // 1_024)
        pieces.append(last)
        groups = [[False] * (count + 1)]
        memory = noise(size)
        line = left(groups, pieces, memory)
        for engines in (5, 33, 63, 64):
            expect_line([DSA], run(pieces, memory, engines), line)
        # a line is 4,096 bytes
        lines = max(size // 1_024 // 4_096, 1)
        expect_line([DSA], replay(pieces, memory, 33, in_turn(count + 1, 33, lines)), line)
    small = apart(count, 64)
    memory = noise(64 * KIB)
    for engines in (5, 33, 63, 64):
        expect_line([DSA], replay(small, memory, engines, in_turn(count, engines)), left([[False] * count], small, memory))


def events():
    """A run of 2,099,200 events: 1,024 fills of the same 8 MiB, one after another, each with another pattern and the same record;
    by threads and by a trace."""
    count, lines = 1_024, 2_048
    size = 4_096 * lines
    fills = [Op(FILL, size, size, 0x0101_0101_0101_0101 * (k % 256), 0) for k in range(count)]
    memory = bytes(size + 32)
    # a piece by itself costs nothing, so there is no batch
    rules = settings(**{**LIMITS, "greatest_transfer": size, "lone": 0})
    # the last pattern, and the record of a success
    done = b"\xff" * size + b"\x01" + bytes(31)
    line = raw({"batch_records": [], "finished": count, "image": done.hex()})
    trace = ",".join(f'[0,"take",{k}],' + f'[0,"line",{k}],' * lines + f'[0,"finish",{k}]' for k in range(count))
    expect_line([DSA], run(fills, memory, 2, rules=rules), line)
    expect_line([DSA], run(fills, memory, 1, do="replay", rules=rules, trace=f"[{trace}]"), line)


def engines():
    """Each number of engines that may be, of which each takes a piece in the trace."""
    count = 70
    pieces = apart(count, 64)
    memory = noise(count * (64 + 64)) + bytes(count * 32)
    line = left([[False] * count], pieces, memory)
    for engines in range(1, 65):
        expect_line([DSA], run(pieces, memory, engines), line)
        expect_line([DSA], replay(pieces, memory, engines, in_turn(count, engines)), line)


def cut():
    """Plans, certificates and tables with more items than are kept, and with fewer: what is left out changes no answer,
    and an item of another kind is found wherever it is."""
    for groups in range(MOST, MOST + 5):
        for pieces in (2, MOST):
            plans = [[False]] * min(pieces, groups) + [[]] * (groups - pieces)
            full = len(plans) == pieces
            line = raw({"cost": 10 * pieces}) if full else f"refused 41 GroupSize {pieces}"
            expect_line([DSA], judge(apart(pieces, 8), plans, RULES), line)
            # the last group has a flag more, so there are too many
            more = plans[:-1] + [plans[-1] + [True]]
            expect_line([DSA], judge(apart(pieces, 8), more, RULES), "refused 40 Count")
            if groups > pieces:
                moved = [[False]] * (pieces - 1) + [[]] * (groups - pieces) + [[False]]
                expect_line([DSA], judge(apart(pieces, 8), moved, RULES), f"refused 41 GroupSize {pieces - 1}")
        for last, number in (([1], "81 Member"), (False, "81 Member"), (["x"], "81 Member")):
            expect_line([DSA], judge(apart(2, 8), [[]] * (groups - 1) + [last], RULES), f"refused {number}")
    pieces, plans, costs = apart(MOST, 8), full_batches(MOST), least_costs(MOST)
    portal, staging = (f'"{it.hex()}"' for it in model.emission(plans, pieces, AREA))
    for more in range(-1, 4):
        for prices, pairs in ((MOST + 1 + more, MOST), (MOST + 1, MOST + more)):
            certificate = {"pairs": [None] * pairs, "prices": (costs + [0] * 4)[:prices], "version": 1}
            line = raw({"cost": costs[-1]}) if more == 0 else "refused 61 Lengths"
            expect_line([DSA], job("check", RULES, portal=portal, staging=staging, certificate=certificate), line)
            late = {**certificate, "pairs": [None] * (pairs - 1) + [0]}
            text = job("check", RULES, portal=portal, staging=staging, certificate=late)
            expect_line([DSA], text, "refused 50 Shape")
    for sizes in range(MOST_MEMBERS - 2, MOST_MEMBERS + 4):
        rules = settings(**LIMITS, version=2, batch=[14] * sizes)
        line = raw({"cost": 20}) if sizes == MOST_MEMBERS - 1 else "refused 83 Settings"
        expect_line([DSA], judge(apart(2, 8), [[False], [False]], rules), line)
        late = settings(**LIMITS, version=2, batch=[14] * sizes + ["x"])
        expect_line([DSA], judge(apart(2, 8), [[False], [False]], late), "refused 81 Member")


def hostile():
    """Hostile texts are refused, and take no more memory than they may: also by `explain`, which looks at a refused job
    once more. It refuses any job to replay."""
    for name, made in TEXTS.items():
        text, most, number = made()
        line = answer(program("dsa"), text, most)
        expect(line.startswith(f"refused {number} "), f"{name}, with {most} bytes for each byte: {line!r}")
        said = reason(program("dsa_text"), text)
        why = 82 if '"do":"replay"' in text[:20] else number
        expect(f" [{why} " in said[-60:], f"{name}, explained: {said[:200]!r} .. {said[-60:]!r}")


def main(words):
    global DSA
    DSA = program("dsa")
    for part in named([planned, long_runs, images, events, engines, cut, hostile], words):
        part()


if __name__ == "__main__":
    run_test(main)
