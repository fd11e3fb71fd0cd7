"""Lists that stop at a random place, some pieces of them by a fault that has written a part, and go on by `resume` of
the Python module: a model that knows which pieces have ended says what is left, and whether memory has to end as if the
list had been executed in order, each barrier waiting for success of all before it. Half of the lists have barriers, two
fifths checksums, some of which go on with others, and some pieces that failed are given up. Records are apart, shared,
or among the data; lists that share one have to be refused, with the pair that a look at each two pieces finds, and so
have records that no barrier allows.
tests/bindings.py runs it on the proved archive; by hand `DSA_PLANNER_LIBRARY=.. tests/resume_model.py 20000 7` takes
as many lists as one likes, from another seed."""

import random
import sys
from collections import Counter
from pathlib import Path

import model
from model import COMPARE, COPY_CRC, CRC, FILL, MOVE, PATTERN, Checksum, Op

sys.path.insert(0, str(Path(__file__).resolve().parent.parent / "bindings/python"))
from dsa_planner import BEGINS, FENCED, Refusal, Settings, plan_list_certified, resume

RECORDS, MEMORY = 2048, 8192


def drawn_checksum(draw, code, count, space, size, record_at):
    """A checksum of addresses below `space`, with a seed of its own or one in memory, as in the record of another."""
    second = draw.randrange(space) if code == COPY_CRC else 0
    seed_at = draw.choice((None, draw.randrange(space), RECORDS + 256 * draw.randrange(count) + 16))
    own = draw.randrange(1 << 32) if seed_at is None else 0
    return Checksum(code, size, record_at, draw.randrange(space), second, own, 0x0C, seed_at=seed_at)


def drawn_op(draw, number, count, space, records, checksums, longest):
    """An operation on addresses below `space`, and a record of this kind; or none, if no list can have it."""
    code = draw.choice((MOVE, MOVE, MOVE, FILL, FILL, COMPARE, PATTERN, *checksums))
    size, own, flags = draw.randrange(1, longest + 1), 0, 0x0C
    first, second = draw.randrange(space), draw.randrange(space)
    if code == FILL:
        first = draw.randrange(1 << 64)
    if code == PATTERN:
        second = draw.randrange(1 << 64)
    if code in (COMPARE, PATTERN) and draw.random() < 0.5:
        flags, own = flags | model.CHECKED, draw.randrange(2)
    places = {
        "apart": RECORDS + 256 * number,
        "shared": RECORDS + 32 * draw.randrange(4 * count),
        "among data": 32 * draw.randrange(space // 32 + 2),
    }
    if code in checksums:
        return drawn_checksum(draw, code, count, space, size, places[records])
    return Op(code, size, places[records], first, second, own, flags)


def drawn_ops(draw, records, transfer):
    """Operations that a list can have; none is longer than the greatest transfer where some may be checksums."""
    count, space = draw.randrange(2, 9), draw.choice((24, 64, 128, 512))
    checksums, longest = (((CRC, COPY_CRC) * 2, min(24, transfer)) if draw.random() < 0.4 else ((), 24))
    ops = []
    while len(ops) < count:
        op = drawn_op(draw, len(ops), count, space, records, checksums, longest)
        if model.fits(op, transfer):
            ops.append(op)
    return ops


def listed(draw, ops, transfer):
    """Settings, the bytes of a list, half of them with barriers, its pieces, and which have a barrier before them."""
    asked = [draw.random() < 0.3 for _ in ops] if draw.random() < 0.5 else [False] * len(ops)
    rules = {"lone": draw.choice((1, 10)), "batch": 14, "fence": draw.choice((0, 3, 20)), "staging": 0x100000}
    settings = Settings(greatest_batch=draw.randrange(2, 6), greatest_transfer=transfer, **rules)
    given = b"".join(op.bytes(fenced) for op, fenced in zip(ops, asked))
    split = [model.pieces_of(op, transfer) for op in ops]
    pieces = [piece for part in split for piece in part]
    barriers = [fenced and place == 0 for part, fenced in zip(split, asked) for place in range(len(part))]
    return settings, given, pieces, barriers


def first_sharing(pieces):
    """The two pieces of which one writes into the record of the other: the least second one, the greatest first one."""
    for j, later in enumerate(pieces):
        for i in reversed(range(j)):
            own, other = [(pieces[i].record_at, 32)], [(later.record_at, 32)]
            if model.any_meet(own, later.writes()) or model.any_meet(other, pieces[i].writes()):
                return i, j
    return None


def fault(draw, memory, piece):
    """A page fault: some bytes of the destination are written, from one end or the other. Answers what has changed."""
    before, done = bytes(memory), bytearray(memory)
    model.execute(done, piece)
    for first, size in piece.targets():
        count = draw.randrange(size + 1)
        begin = first if draw.random() < 0.5 else first + size - count
        memory[begin : begin + count] = done[begin : begin + count]
    changed = {at for at in range(MEMORY) if memory[at] != before[at]}
    memory[piece.record_at : piece.record_at + 32] = bytes([draw.choice((3, 4, 0x83, 0x1A))]).ljust(32, b"\0")
    return changed


def epochs(marks):
    """Lists of the pieces that may run in any order, and whether each begins a group."""
    found = []
    for piece, mark in enumerate(marks):
        if mark & (BEGINS | FENCED):
            found.append((bool(mark & BEGINS), []))
        found[-1][1].append(piece)
    return found


def run(draw, memory, pieces, marks, faulty):
    """Submits group after group until one fails; answers how each piece has ended, and what failed ones changed."""
    ended, changed, failed = ["waits"] * len(pieces), set(), False
    for _, epoch in epochs(marks):
        if failed:
            break
        draw.shuffle(epoch)
        for piece in epoch:
            if draw.random() < faulty:
                changed |= fault(draw, memory, pieces[piece])
                ended[piece], failed = "failed", True
            else:
                status = model.execute(memory, pieces[piece])
                ended[piece] = {1: "finished", 2: "unexpected"}.get(status, "failed")
                failed = failed or status != 1
    return ended, changed


def is_rewritten(left, address):
    """What is left writes the address before it reads it."""
    at = [(address, 1)]
    for piece in left:
        if model.any_meet(piece.sources(), at):
            return False
        if model.any_meet(piece.writes(), at):
            return True
    return False


def records_of(memory, pieces):
    return b"".join(memory[piece.record_at : piece.record_at + 32] for piece in pieces)


class Stopped:
    """Pieces with their barriers, how they have ended, and which are given up."""

    def __init__(self, pieces, barriers, ended, given_up):
        self.pieces, self.barriers, self.ended, self.given_up = pieces, barriers, ended, given_up

    def stops(self, piece):
        """The piece never ends with success."""
        return self.ended[piece] == "unexpected" or piece in self.given_up

    def held(self, piece, holds):
        """The pieces before a barrier before this one, if `holds` of them."""
        marks = [at for at in range(piece + 1) if self.barriers[at]]
        return [first for first in range(piece) if any(first < at for at in marks) and holds(first)]

    def passed(self):
        """The first piece that has begun too early, after the first piece for which it had to wait."""
        for piece, end in enumerate(self.ended):
            before = self.held(piece, lambda first: self.ended[first] != "finished")
            if end != "waits" and before:
                return before[0], piece
        return None

    def left_out(self):
        """How many pieces a barrier stops, and the first piece why."""
        out = [piece for piece in range(len(self.pieces)) if self.held(piece, self.stops)]
        return (len(out), self.held(out[0], self.stops)[0]) if out else (0, None)

    def left(self, failed_first):
        """The places of the pieces that may be done, and whether a barrier is between each and the one before it."""
        section = [sum(self.barriers[1 : piece + 1]) for piece in range(len(self.pieces))]
        may = [p for p, end in enumerate(self.ended) if end in ("failed", "waits") and p not in self.given_up]
        may = [piece for piece in may if not self.held(piece, self.stops)]
        if failed_first:
            may.sort(key=lambda piece: (section[piece], self.ended[piece] != "failed"))
        marks = [at > 0 and section[piece] != section[may[at - 1]] for at, piece in enumerate(may)]
        return may, marks


def answered(state, failed_first):
    """What `resume` has to answer: the bytes of what is left, how many pieces are left out, and which stops them."""
    may, marks = state.left(failed_first)
    return b"".join(state.pieces[piece].bytes(mark) for piece, mark in zip(may, marks)), *state.left_out()


def resumed(settings, given, records, given_up, failed_first):
    """What the module answers: what is left, or the number and the places of its refusal."""
    try:
        return tuple(resume(settings, given, records, given_up, failed_first))
    except Refusal as refusal:
        return refusal.number, refusal.first, refusal.second


def in_order(memory, pieces, barriers, given_up):
    """Executes the pieces one by one; a barrier waits for success of all before it."""
    failing = False
    for piece, op in enumerate(pieces):
        if barriers[piece] and failing:
            break
        if piece in given_up:
            failing = True
        else:
            failing = model.execute(memory, op) != 1 or failing


def expect(right, seed, said):
    if not right:
        sys.exit(f"list {seed}: {said}")


def go_on(draw, memory, settings, state, answer, failed_first):
    """Does what is left as it is planned, and what is left then, until nothing is: a check that fails stops the rest
    once more. Answers None, or what is wrong."""
    while True:
        may, marks = state.left(failed_first)
        if answer != answered(state, failed_first):
            return f"{may} of {state.ended} are left, the answer is {answer}"
        if not may:
            return None
        left = [state.pieces[piece] for piece in may]
        for piece in left:
            memory[piece.record_at : piece.record_at + 32] = bytes(32)
        plan = plan_list_certified(settings, answer[0]).marks
        ended, _ = run(draw, memory, left, plan, 0)
        state = Stopped(left, marks, ended, set())
        answer = resumed(settings, answer[0], records_of(memory, left), [], failed_first)


def touched(pieces, given_up):
    """The addresses that pieces write which are given up, and whether another piece reads or writes one of them."""
    at = {a for piece in given_up for first, size in pieces[piece].writes() for a in range(first, first + size)}
    others = [op.sources() + op.writes() for piece, op in enumerate(pieces) if piece not in given_up]
    return at, any(a in at for spans in others for first, size in spans for a in range(first, first + size))


def wrong_input(draw, state, records):
    """Now and then gives up a piece that has not failed, or says that a piece has begun that has to wait. Answers the
    refusal that is right, if there is one."""
    kind = draw.random()
    idle = [piece for piece, end in enumerate(state.ended) if end != "failed"]
    if kind < 0.05 and idle:
        state.given_up.add(draw.choice([*idle, len(state.pieces)]))
        return 114, min(piece for piece in state.given_up if piece == len(state.pieces) or piece in idle), 0
    held = [p for p in range(len(state.pieces)) if state.held(p, lambda first: state.ended[first] != "finished")]
    if kind > 0.9 and held:
        piece = draw.choice(held)
        records[32 * piece], state.ended[piece] = 1, "finished"
        return 115, *state.passed()
    return None


def stopped(seed):
    """One list; answers what came of it."""
    draw = random.Random(seed)
    records, transfer = draw.choice(("apart", "apart", "shared", "among data")), draw.choice((8, 4096))
    settings, given, pieces, barriers = listed(draw, drawn_ops(draw, records, transfer), transfer)
    memory = bytearray(draw.randrange(256) for _ in range(MEMORY))
    for piece in pieces:
        memory[piece.record_at : piece.record_at + 32] = bytes(32)
    serial = bytearray(memory)
    marks = plan_list_certified(settings, given).marks
    ended, changed = run(draw, memory, pieces, marks, draw.choice((0.1, 0.3, 0.6)))
    failed = [piece for piece, end in enumerate(ended) if end == "failed"]
    given_up = {piece for piece in failed if draw.random() < 0.5} if draw.random() < 0.3 else set()
    failed_first, pair = draw.random() < 0.4, first_sharing(pieces)
    state, known = Stopped(pieces, barriers, ended, given_up), bytearray(records_of(memory, pieces))
    if pair:
        answer = resumed(settings, given, known, given_up, failed_first)
        expect(answer == (113, *pair), seed, f"{pair} share a record, the answer is {answer}")
        return "shared"
    expect(not state.passed(), seed, "the run of the model has passed a barrier")
    wrong = wrong_input(draw, state, known)
    answer = resumed(settings, given, known, given_up, failed_first)
    if wrong:
        expect(answer == wrong, seed, f"{wrong} is right, the answer is {answer}")
        return f"refused {wrong[0]}"
    in_order(serial, pieces, barriers, given_up)
    may = [pieces[piece] for piece in state.left(failed_first)[0]]
    out = state.left_out()[0]
    for piece in may:
        changed |= {at for at in range(piece.record_at, piece.record_at + 32) if memory[at]}
    wrong = go_on(draw, memory, settings, state, answer, failed_first)
    expect(not wrong, seed, wrong)
    lost, meet = touched(pieces, given_up)
    if meet or not all(is_rewritten(may, at) for at in changed - lost):
        return "not rewritten"
    same = all(memory[at] == serial[at] for at in range(MEMORY) if at not in lost)
    expect(same, seed, "memory does not end as if the list had been executed in order")
    return "left out" if out else "given up" if given_up else "in order" if may else "nothing left"


def main(count, seed):
    found = Counter(stopped(seed + at) for at in range(count))
    kinds = ("shared", "not rewritten", "in order", "nothing left", "left out", "given up")
    kinds += ("refused 114", "refused 115")
    expect(count < 100 or all(found[kind] for kind in kinds), seed, f"some kind is missing: {found}")
    print(", ".join(f"{kind} {found[kind]}" for kind in kinds))


if __name__ == "__main__":
    main(int(sys.argv[1]), int(sys.argv[2]))
