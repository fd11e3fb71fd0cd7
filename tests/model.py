"""The definitions of docs/FORMATS.md and docs/MODEL.md once more, in the plainest form: operations, what they read,
write and leave, their pieces, every legal plan of a few pieces, the plan that is chosen, the bytes that submit it,
and what a run leaves. It shares no code with the planner."""

from dataclasses import dataclass, replace
from functools import lru_cache
from typing import Optional

MOVE, FILL, COMPARE, PATTERN, DELTA, DUALCAST, CRC, COPY_CRC = 0x03, 0x04, 0x05, 0x06, 0x08, 0x09, 0x10, 0x11
FENCE, CHECKED, SEED_READ, PLAIN_SUM, PLAIN_DATA = 0x0001, 0x0080, 0x010000, 0x020000, 0x040000
LINE, ENTRIES = 4096, 256
POLYNOMIAL = 0x82F63B78  # of CRC-32C, from the power 31 down


@dataclass(frozen=True)
class Op:
    """A descriptor. `first` is at byte 16, `second` at byte 24, `own` at byte 40."""

    code: int
    size: int
    record_at: int
    first: int
    second: int
    own: int = 0
    flags: int = 0x0C
    handle: int = 0

    def bytes(self, fenced=False):
        flags = self.flags | (FENCE if fenced else 0)
        text = bytes(4) + (flags | self.code << 24).to_bytes(4, "little")
        for number in (self.record_at, self.first, self.second):
            text += number.to_bytes(8, "little")
        text += self.size.to_bytes(4, "little") + self.handle.to_bytes(2, "little") + bytes(2)
        return text + self.own.to_bytes(8, "little") + bytes(16)

    def sources(self):
        """The ranges of data that it reads: first address and length."""
        if self.code in (MOVE, DUALCAST, PATTERN):
            return [(self.first, self.size)]
        if self.code == COMPARE:
            return [(self.first, self.size), (self.second, self.size)]
        if self.code == DELTA:
            return [(self.first, self.own), (self.second, self.size)]
        return []

    def targets(self):
        """The ranges of data that it writes."""
        if self.code in (MOVE, FILL, DELTA):
            return [(self.second, self.size)]
        if self.code == DUALCAST:
            return [(self.second, self.size), (self.own, self.size)]
        return []

    def writes(self):
        return self.targets() + [(self.record_at, 32)]

    def lines(self):
        if self.code == DELTA:
            return 2 * -(-(self.own // 10) // ENTRIES)
        return -(-self.size // LINE)


@dataclass(frozen=True)
class Checksum(Op):
    """CRC generation, or copy with CRC: `second` is the destination of a copy, and `own` the seed, unless that is read
    from four bytes at `seed_at`. It is never split."""

    seed_at: Optional[int] = None

    def bytes(self, fenced=False):
        if self.seed_at is None:
            return super().bytes(fenced)
        text = Op.bytes(replace(self, flags=self.flags | SEED_READ), fenced)
        return text[:48] + self.seed_at.to_bytes(8, "little") + text[56:]

    def seeds(self):
        return [] if self.seed_at is None else [(self.seed_at, 4)]

    def sources(self):
        return [(self.first, self.size), *self.seeds()]

    def targets(self):
        return [(self.second, self.size)] if self.code == COPY_CRC else []


def is_checksum(op):
    return isinstance(op, Checksum)


def meet(one, other):
    return one[1] > 0 and other[1] > 0 and one[0] < other[0] + other[1] and other[0] < one[0] + one[1]


def any_meet(some, others):
    return any(meet(one, other) for one in some for other in others)


def conflict(one, other):
    """Some address is written by one and read or written by the other."""
    return any_meet(one.writes(), other.writes() + other.sources()) or any_meet(other.writes(), one.sources())


def fits(op, transfer):
    """Whether the operation meets the profile of a list and may be split."""
    row = [(op.record_at, 32 * -(-op.size // transfer))]
    if any_meet(row, op.sources() + op.targets()):
        return False
    if op.code == DELTA:
        return op.size <= transfer and not any_meet([op.sources()[0]], op.targets())
    if op.code == DUALCAST:
        ranges = op.sources() + op.targets()
        return not any(meet(ranges[i], ranges[j]) for i, j in ((0, 1), (0, 2), (1, 2)))
    if op.code == COPY_CRC:
        return not any_meet(op.sources(), op.targets())
    if op.code in (COMPARE, PATTERN) and op.flags & CHECKED and op.own == 1:
        return op.size <= transfer
    return True


def pieces_of(op, transfer):
    """The pieces of one operation, in their order."""
    offsets = list(range(0, op.size, transfer))
    if op.code == MOVE and op.first < op.second < op.first + op.size:
        offsets.reverse()
    pieces = []
    for offset in offsets:
        piece = replace(op, size=min(transfer, op.size - offset), record_at=op.record_at + 32 * (offset // transfer))
        if op.code in (MOVE, COMPARE, PATTERN, DUALCAST):
            piece = replace(piece, first=op.first + offset)
        if op.code in (MOVE, FILL, COMPARE, DUALCAST):
            piece = replace(piece, second=op.second + offset)
        if op.code == DUALCAST:
            piece = replace(piece, own=op.own + offset)
        pieces.append(piece)
    return pieces


def compare(op, one, other):
    """Status, result and bytes completed of a compare."""
    differences = [k for k in range(op.size) if one[k] != other[k]]
    result = 1 if differences else 0
    status = 2 if op.flags & CHECKED and result != op.own else 1
    return status, result, differences[0] if differences else 0


def delta(memory, op):
    """The status of a delta, which is done where it is 1."""
    entries, last = [], -1
    for at in range(op.first, op.first + op.own, 10):
        offset = int.from_bytes(memory[at : at + 2], "little")
        if offset <= last:
            return 7
        if 8 * offset + 8 > op.size:
            return 8
        entries.append((offset, memory[at + 2 : at + 10]))
        last = offset
    for offset, data in entries:
        memory[op.second + 8 * offset : op.second + 8 * offset + 8] = data
    return 1


@lru_cache(4096)
def checksum(data, seed, flags):
    """The checksum of some bytes, a bit at a time: inverted at both ends, or neither inverted nor reflected, and of the
    lowest bit of each byte first, or of the highest."""
    reflected = lambda number: int(f"{number:032b}"[::-1], 2)
    rest = reflected(seed) if flags & PLAIN_SUM else seed ^ 0xFFFFFFFF
    for byte in data:
        for k in reversed(range(8)) if flags & PLAIN_DATA else range(8):
            rest = rest >> 1 ^ (POLYNOMIAL if (rest ^ byte >> k) & 1 else 0)
    return reflected(rest) if flags & PLAIN_SUM else rest ^ 0xFFFFFFFF


def checksum_of(memory, op):
    """The value that an operation leaves in its record."""
    seed = op.own if op.seed_at is None else int.from_bytes(memory[op.seed_at : op.seed_at + 4], "little")
    return checksum(bytes(memory[op.first : op.first + op.size]), seed, op.flags)


def execute(memory, op):
    """Does the operation in the memory, whose first address is 0, and answers its status."""
    status, result, completed = 1, 0, 0
    value = checksum_of(memory, op) if is_checksum(op) else 0
    source = bytes(memory[op.first : op.first + op.size])
    if op.code in (MOVE, DUALCAST, COPY_CRC):
        memory[op.second : op.second + op.size] = source
    if op.code == DUALCAST:
        memory[op.own : op.own + op.size] = source
    if op.code == FILL:
        repeated = op.first.to_bytes(8, "little") * (op.size // 8 + 1)
        memory[op.second : op.second + op.size] = repeated[: op.size]
    if op.code == COMPARE:
        status, result, completed = compare(op, source, memory[op.second : op.second + op.size])
    if op.code == PATTERN:
        status, result, completed = compare(op, source, op.second.to_bytes(8, "little") * (op.size // 8 + 1))
    if op.code == DELTA:
        status = delta(memory, op)
    record = bytes([status, result, 0, 0]) + completed.to_bytes(4, "little") + bytes(8)
    record += value.to_bytes(8, "little") + bytes(8)
    memory[op.record_at : op.record_at + 32] = record
    return status


@dataclass(frozen=True)
class Settings:
    greatest_batch: int
    greatest_transfer: int
    lone: int
    batch: int | list  # one price for all batches, or a price for each size from 2
    fence: int
    staging: int

    @property
    def version(self):
        return 2 if isinstance(self.batch, list) else 1

    def group_cost(self, fences):
        if len(fences) == 1:
            return self.lone
        price = self.batch[len(fences) - 2] if self.version == 2 else self.batch
        return price + self.fence * sum(fences)


def groups(count):
    """Every group of so many pieces: which of them are fenced."""
    for bits in range(2 ** (count - 1)):
        yield [False] + [bool(bits >> k & 1) for k in range(count - 1)]


def unfenced(pieces, start, fences):
    """The conflicting pair of a group without a fence between: with the least second piece, and then the greatest first."""
    for j in range(1, len(fences)):
        for i in reversed(range(j)):
            if conflict(pieces[start + i], pieces[start + j]) and not any(fences[i + 1 : j + 1]):
                return start + i, start + j
    return None


def least_group(pieces, settings, i, j):
    """The least cost of one group of the pieces from i to below j, or None where they are too many."""
    if j - i > settings.greatest_batch:
        return None
    return min(settings.group_cost(it) for it in groups(j - i) if unfenced(pieces, i, it) is None)


def prices(pieces, settings):
    """The least cost of the first 0, 1, .. pieces, of all plans."""
    least = [0]
    for j in range(1, len(pieces) + 1):
        costs = [(i, least_group(pieces, settings, i, j)) for i in range(j)]
        least.append(min(least[i] + cost for i, cost in costs if cost is not None))
    return least


def pair_of(pieces, settings, i):
    end = min(len(pieces), i + settings.greatest_batch)
    found = [(b, -a) for b in range(i, end) for a in range(i, b) if conflict(pieces[a], pieces[b])]
    return (-min(found)[1], min(found)[0]) if found else None


def chosen(pieces, settings):
    """The plan that is chosen, its prices and its pairs."""
    least = prices(pieces, settings)
    pairs = [pair_of(pieces, settings, i) for i in range(len(pieces))]
    plan, end = [], len(pieces)
    while end:
        costs = [(i, least_group(pieces, settings, i, end)) for i in range(end)]
        start = max(i for i, cost in costs if cost is not None and least[i] + cost == least[end])
        fences, at = [False] * (end - start), start
        while pairs[at] and pairs[at][1] < end:
            at = pairs[at][1]
            fences[at - start] = True
        plan.insert(0, fences)
        end = start
    return plan, least, pairs


def cost(plan, settings):
    return sum(settings.group_cost(fences) for fences in plan)


def every_plan(count, greatest):
    """Every plan of so many pieces, legal or not."""
    if count == 0:
        yield []
    for size in range(1, min(count, greatest) + 1):
        for fences in groups(size):
            for rest in every_plan(count - size, greatest):
                yield [fences] + rest


def first_fault(pieces, plan):
    """The first pair that a plan leaves without a fence: of its earliest group, as `unfenced`."""
    start = 0
    for fences in plan:
        found = unfenced(pieces, start, fences)
        if found:
            return found
        start += len(fences)
    return None


def emission(plan, pieces, settings):
    """The bytes of portal and staging area."""
    portal, descriptors, batches, start = b"", b"", 0, 0
    batched = sum(len(fences) for fences in plan if len(fences) > 1)
    for fences in plan:
        own = pieces[start : start + len(fences)]
        start += len(fences)
        if len(own) == 1:
            portal += own[0].bytes()
            continue
        portal += pieces[0].bytes()[:4] + bytes([0x0C, 0, 0, 1])
        portal += (settings.staging + 64 * batched + 32 * batches).to_bytes(8, "little")
        portal += (settings.staging + len(descriptors)).to_bytes(8, "little") + bytes(8)
        portal += len(own).to_bytes(4, "little") + bytes(28)
        descriptors += b"".join(piece.bytes(fenced) for piece, fenced in zip(own, fences))
        batches += 1
    return portal, descriptors + bytes(32 * batches)


def epochs(plan):
    """The pieces between two fences or group starts."""
    found, at = [], 0
    for fences in plan:
        for place, fenced in enumerate(fences):
            if place == 0 or fenced:
                found.append([])
            found[-1].append(at)
            at += 1
    return found


def outcome(plan, pieces, memory, do=execute):
    """What every complete run leaves: the memory, how many pieces were finished, and the batch records."""
    memory, statuses = bytearray(memory), []
    for epoch in epochs(plan):
        statuses += [do(memory, pieces[k]) for k in epoch]
        if any(statuses[k] != 1 for k in epoch):
            break
    records, start = [], 0
    for fences in plan:
        own = statuses[start : start + len(fences)]
        start += len(fences)
        if len(fences) > 1:
            status = 1 if own == [1] * len(fences) else 5
            records.append(bytes([status, 0, 0, 0, *len(own).to_bytes(4, "little")] + [0] * 24) if own else bytes(32))
    return bytes(memory), len(statuses), records


def trace(plan, pieces, finished, engines, choose):
    """A complete run, of which `choose` picks each next event of those that may come."""
    events, done = [], 0
    for epoch in epochs(plan):
        if done >= finished:
            break
        waiting, held = list(epoch), {}
        while waiting or held:
            steps = [(e, "take", k) for e in range(engines) if e not in held for k in waiting]
            steps += [(e, "line" if lines else "finish", k) for e, (k, lines) in held.items()]
            engine, kind, piece = choose(steps)
            events.append([engine, kind, piece])
            if kind == "take":
                waiting.remove(piece)
                held[engine] = (piece, pieces[piece].lines())
            elif kind == "line":
                held[engine] = (piece, held[engine][1] - 1)
            else:
                del held[engine]
                done += 1
    return events
