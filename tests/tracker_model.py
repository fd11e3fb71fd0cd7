"""Random submissions, questions, completions and withdrawals, valid and not, by `Tracker` of the Python module beside a
model of docs/FORMATS.md and dsa_planner.h in sets of addresses; each third list or plan may have checksums.
tests/bindings.py runs it on the proved archive; by hand `DSA_PLANNER_LIBRARY=.. tests/tracker_model.py 100000 7` takes
as many as one likes, from another seed."""

import random
import sys
from pathlib import Path
from typing import NamedTuple, Optional

sys.path.insert(0, str(Path(__file__).resolve().parent.parent / "bindings/python"))
from dsa_planner import Refusal, Settings, Tracker

MOST = 2**64
MOVE, FILL, COMPARE, CRC, COPY_CRC = 3, 4, 5, 0x10, 0x11


class Operation(NamedTuple):
    """An operation or a piece of one: `other` is the destination, or of a compare the second source; of a checksum
    `seed_at` is where its seed is read, if it is in memory."""

    code: int
    source: int
    other: int
    size: int
    record: int
    owner: tuple
    seed_at: Optional[int] = None

    def is_checksum(self):
        return self.code in (CRC, COPY_CRC)


class Model:
    """A slot has nothing, or what is read, what is written, and the slots that are still awaited."""

    def __init__(self, slots, room):
        self.slots, self.room, self.owner = [None] * slots, room, None

    def against(self, reads, writes):
        """The slots in conflict with these spans."""
        found = set()
        for slot, held in enumerate(self.slots):
            if held and (meet(held[1], reads) or meet(held[0], writes) or meet(held[1], writes)):
                found.add(slot)
        return found

    def take(self, reads, writes, also):
        slot = self.slots.index(None)
        waits = self.against(reads, writes) | {one for one in also if one < len(self.slots) and self.slots[one]}
        self.slots[slot] = (reads, writes, waits)
        return slot, frozenset(waits)

    def submit_spans(self, reads, writes, also):
        if None not in self.slots:
            return 120, 0
        if max(len(reads), len(writes)) > self.room:
            return 121, max(len(reads), len(writes))
        for at, (first, length) in enumerate(reads + writes):
            if first + length > MOST:
                return 124, at
        return self.take(reads, writes, also)

    def submit(self, operations, greatest, staging, also):
        """The list is split into pieces that are no longer than the greatest transfer, unless it has a checksum."""
        if staging[0] % 64 or staging[0] > 2**63:
            return 83, 7
        owners = [operation.owner for operation in operations]
        for at, owner in enumerate(owners):
            if owner != owners[0]:
                return 12, at
        pieces = [piece for operation in operations for piece in split(operation, greatest)]
        if any(operation.is_checksum() for operation in operations):
            pieces = operations
        for at, piece in enumerate(pieces):
            if piece.size > greatest:
                return 37, at
        for at, piece in enumerate(pieces):
            if meet(read_by([piece]) + written_by([piece]), [(staging[0], 96 * len(pieces))]):
                return 33, at
        if None not in self.slots:
            return 120, 0
        if 3 * len(pieces) + 1 > self.room:
            return 121, 3 * len(pieces) + 1
        if sum(staging) > MOST:
            return 124, 0
        owner = self.owner if self.owner is not None or not owners else owners[0]
        if owners and owner != owners[0]:
            return 125, 0
        self.owner = owner
        return self.take(read_by(pieces), [staging, *written_by(pieces)], also)

    def submit_groups(self, groups, staging, also):
        """Each group by itself, with its descriptors and its record in the staging area if it is a batch."""
        if len(groups) > self.slots.count(None):
            return 128, len(groups)
        for group in groups:
            if 3 * len(group) + 2 > self.room:
                return 121, 3 * len(group) + 2
        owner = groups[0][0].owner
        if self.owner is not None and self.owner != owner:
            return 125, 0
        self.owner = owner
        slots, at, record = [], staging, staging + 64 * sum(len(group) for group in groups if len(group) > 1)
        for group in groups:
            own = []
            if len(group) > 1:
                own = [(at, 64 * len(group)), (record, 32)]
                at, record = at + 64 * len(group), record + 32
            slots.append(self.take(read_by(group), own + written_by(group), also)[0])
        return slots

    def retire(self, slot, must_be_ready):
        if slot >= len(self.slots) or not self.slots[slot]:
            return 122, slot
        if must_be_ready and self.slots[slot][2]:
            return 123, slot
        self.slots[slot] = None
        waited = {one for one, held in enumerate(self.slots) if held and slot in held[2]}
        for one in waited:
            self.slots[one][2].discard(slot)
        return frozenset(waited), frozenset(one for one in waited if not self.slots[one][2])

    def waits(self, slot):
        if slot >= len(self.slots) or not self.slots[slot]:
            return 122, slot
        return frozenset(self.slots[slot][2])


def meet(spans, others):
    """Whether some address is in both."""
    return any(a < b + m and b < a + n and n and m for a, n in spans for b, m in others)


def read_by(pieces):
    reads = [(it.source, it.size) for it in pieces if it.code != FILL]
    reads += [(it.seed_at, 4) for it in pieces if it.seed_at is not None]
    return reads + [(it.other, it.size) for it in pieces if it.code == COMPARE]


def written_by(pieces):
    writes = [(it.other, it.size) for it in pieces if it.code in (MOVE, FILL, COPY_CRC)]
    return writes + [(it.record, 32) for it in pieces]


def split(operation, greatest):
    """The pieces of an operation, of which no range overlaps another: each has its part of them, and a record."""
    code, source, other, size, record, owner, _ = operation
    for at in range(0, size, greatest):
        first = source if code == FILL else source + at
        yield Operation(code, first, other + at, min(greatest, size - at), record + 32 * (at // greatest), owner)


def emitted(groups, staging):
    """The portal and the staging bytes of groups without fences, by docs/FORMATS.md."""
    batches = [group for group in groups if len(group) > 1]
    at, record, portal = staging, staging + 64 * sum(map(len, batches)), b""
    for group in groups:
        if len(group) == 1:
            portal += spelled(group[0])
            continue
        head = spelled(group[0])[:4] + (0x0100000C).to_bytes(4, "little")
        head += record.to_bytes(8, "little") + at.to_bytes(8, "little") + bytes(8) + len(group).to_bytes(4, "little")
        portal += head.ljust(64, b"\0")
        at, record = at + 64 * len(group), record + 32
    return portal, b"".join(spelled(piece) for group in batches for piece in group) + bytes(32 * len(batches))


def spelled(piece):
    """The 64 bytes of a descriptor, of a checksum without a seed or with its place."""
    code, source, other, size, record, (pasid, privileged), seed_at = piece
    words = [pasid | privileged << 31, code << 24 | 0x0C | (0x010000 if seed_at is not None else 0)]
    whole = b"".join(word.to_bytes(4, "little") for word in words) + record.to_bytes(8, "little")
    whole += source.to_bytes(8, "little") + other.to_bytes(8, "little") + size.to_bytes(4, "little") + bytes(12)
    return (whole + (seed_at or 0).to_bytes(8, "little")).ljust(64, b"\0")


class Sequence:
    """One tracker beside its model, and a stream of calls of both."""

    def __init__(self, chance):
        self.chance = chance
        slots, self.span = chance.choice([1, 2, 3, 8, 64]), chance.choice([8, 64, 4096])
        room = chance.choice([0, 2, 7, 30])
        self.model = Model(slots, room)
        self.tracker = Tracker(slots, room, log2_unit=chance.choice([1, 3, 12, 63]), log2_rows=chance.choice([1, 4, 8]))

    def spans(self):
        chance, most = self.chance, self.model.room + (self.chance.random() < 0.05)
        found = []
        for _ in range(chance.randrange(min(most, 4) + 1) if chance.random() < 0.9 else most):
            first = chance.randrange(16) * self.span + chance.choice([0, 0, 1])
            kind = chance.random()
            if kind < 0.02:
                first = MOST - chance.randrange(1, 9)
            lengths = [0, 1, self.span, self.span, 2 * self.span] if kind < 0.97 else [MOST - 1, 5000 * self.span]
            length = chance.choice(lengths)
            found.append((first, length))
        return found

    def slot(self):
        return self.chance.randrange(len(self.model.slots) + 1) if self.chance.random() < 0.98 else 2**32 - 1

    def also(self):
        return [self.chance.randrange(64) for _ in range(self.chance.choice([0, 0, 0, 1, 3]))]

    def perhaps_fenced(self, entry):
        return entry[:4] + bytes([entry[4] | (self.chance.random() < 0.2)]) + entry[5:]

    def operations(self):
        """Operations that planning would read, but perhaps of two owners, or too long for a list with a checksum."""
        chance, found, codes = self.chance, [], self.codes()
        owner = chance.choice([(5, 0), (5, 0), (5, 0), (5, 1), (6, 0)])
        for _ in range(chance.randrange(4)):
            found.append(self.piece(codes, owner if chance.random() < 0.97 else (7, 1), [1, 8, 8, 20]))
        return found

    def groups(self):
        """Groups of pieces of one owner."""
        owner, chance, codes = self.chance.choice([(5, 0), (5, 0), (5, 0), (6, 0)]), self.chance, self.codes()
        sizes = [chance.choice([1, 1, 2, 3, 9]) for _ in range(chance.choice([1, 2, 3, 5]))]
        pieces = [self.piece(codes, owner) for _ in range(sum(sizes))]
        return [[pieces.pop() for _ in range(size)] for size in sizes]

    def codes(self):
        """Those of a submission's operations: of each third checksums may be among them."""
        return [MOVE, FILL, COMPARE] + [CRC, COPY_CRC] * (self.chance.random() < 1 / 3)

    def piece(self, codes, owner, sizes=(1, 8)):
        chance = self.chance
        source, target, seed = chance.sample(range(16), 3)
        number, read = chance.sample(range(8), 2)
        code, size, record = chance.choice(codes), chance.choice(sizes), 0x100000 + 32 * number
        if code not in (CRC, COPY_CRC):
            return Operation(code, 4096 * source, 4096 * target, size, record, owner)
        seed_at = chance.choice([None, 4096 * seed - (seed > 0) * chance.randrange(4), 0x100000 + 32 * read + 16])
        return Operation(code, 4096 * source, 4096 * target * (code == COPY_CRC), size, record, owner, seed_at)

    def step(self):
        """A call by both; answers what it was, what the tracker answered, and what the model did."""
        call = self.chance.choice("spans spans list groups ask waits complete complete complete withdraw".split())
        if call == "spans":
            given = self.spans(), self.spans(), self.also()
            return call, given, answered(self.tracker.submit_spans, *given), self.model.submit_spans(*given)
        if call == "list":
            operations, also, greatest = self.operations(), self.also(), self.chance.choice([8, 4096])
            at = self.chance.choice([4096 * self.chance.randrange(16), 0x200001] + 30 * [0x200000, 0x201000, 0x202000])
            staging = (at, self.chance.choice([0, 96, 96, 96, MOST - 1]))
            # the settings' own staging area does not count, and no barrier does
            settings = settings_at(self.chance.choice([0, 0x200000]), greatest)
            entries = b"".join(self.perhaps_fenced(spelled(operation)) for operation in operations)
            got = answered(self.tracker.submit, settings, entries, staging, also)
            given = operations, greatest, staging, also
            return call, given, got, self.model.submit(*given)
        if call == "groups":
            groups, also = self.groups(), self.also()
            staging = 0x200000 + 64 * self.chance.randrange(9)
            got = answered(self.tracker.submit_groups, settings_at(staging), *emitted(groups, staging), also)
            return call, (groups, staging, also), got, self.model.submit_groups(groups, staging, also)
        if call == "ask":
            given = self.spans(), self.spans()
            return call, given, answered(self.tracker.ask, *given), frozenset(self.asked(*given))
        slot = self.slot()
        if call == "waits":
            return call, slot, answered(self.tracker.waits, slot), self.model.waits(slot)
        if call == "complete":
            return call, slot, answered(self.tracker.complete, slot), self.model.retire(slot, True)
        return call, slot, answered(self.tracker.withdraw, slot), self.model.retire(slot, False)

    def asked(self, reads, writes):
        """What goes past 2^64 is asked for as far as there are addresses."""
        cut = [[(first, min(length, MOST - first)) for first, length in spans] for spans in (reads, writes)]
        return self.model.against(*cut)


def settings_at(staging, greatest=4096):
    return Settings(greatest_batch=16, greatest_transfer=greatest, lone=10, batch=14, fence=3, staging=staging)


def answered(call, *given):
    """What the call answers, or the number of its refusal and the first place that it names."""
    try:
        answer = call(*given)
    except Refusal as refusal:
        return refusal.number, refusal.first
    return tuple(answer) if isinstance(answer, tuple) else answer


def main(count, seed):
    if answered(Tracker, 64, 2**32 - 1) != (73, 0):
        print("a tracker that fits into no memory is not refused 73")
        return 1
    chance, kinds, calls = random.Random(seed), set(), 0
    for number in range(count):
        sequence, trail = Sequence(chance), []
        for _ in range(chance.choice([5, 20, 60])):
            call, given, got, wanted = sequence.step()
            trail.append((call, given, got))
            kinds.add((call, wanted[0] if isinstance(wanted, tuple) else 0))
            calls += 1
            if got != wanted:
                print(f"sequence {number}: the tracker answers {got}, the model {wanted}, after")
                print("\n".join(map(str, trail[-12:])))
                return 1
    refusals = {("groups", 128), ("groups", 121), ("groups", 125), ("list", 12), ("list", 125), ("complete", 122)}
    refusals |= {("list", 33), ("list", 37), ("list", 83), ("complete", 123), ("waits", 122), ("withdraw", 122)}
    lacking = sorted((refusals | {(call, n) for call in ("spans", "list") for n in (120, 121, 124)}) - kinds)
    print(f"{count} sequences, {calls} calls" + (f", but none refused as {lacking}" if lacking else ""))
    return 1 if lacking else 0


if __name__ == "__main__":
    sys.exit(main(int(sys.argv[1]), int(sys.argv[2])))
