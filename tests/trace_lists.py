"""Random lists of all eight operations, for tests/trace_campaign.py and tests/rooms.py, and what they leave on a
device: by tests/model.py if all data is there, and at pages that are absent as trace/README.md and docs/USING.md
say."""

import model
from campaign import Case
from model import COMPARE, COPY_CRC, CRC, DELTA, DUALCAST, FENCE, FILL, MOVE, PATTERN, PLAIN_DATA, PLAIN_SUM, Checksum
from model import is_checksum, replace

BASE = 0x200000000  # where the memory begins on the device
MOST, PAGE = 12, 4096
BLOCKS = 0x0002  # a flag: the device waits for pages
ABSENT, BLOCKED, IS_WRITE = 0x03, 0x04, 0x80  # statuses of page faults


class Mixed(Case):
    """A list of up to twelve operations over few addresses, some after a barrier. Two of three lists have checksums,
    and no operation that is split; one of three has data before or after the memory, where it is absent."""

    def list(self):
        draw = self.random
        self.memory += bytes(-len(self.memory) % PAGE)
        self.has_checksums, self.has_faults = draw.random() < 2 / 3, draw.random() < 1 / 3
        self.earlier, operations, pieces, count = [], [], [], 1 + draw.randrange(MOST)
        for _ in range(8 * count):
            op = self.operation()
            own = model.pieces_of(op, self.transfer)
            if len(operations) < count and len(pieces) + len(own) <= MOST and self.may_have(op):
                self.earlier.append(op)
                operations.append(replace(op, flags=op.flags | draw.choice([FENCE] + [0] * 8)))
                pieces += own
        return operations, pieces

    def operation(self):
        draw = self.random
        if self.earlier and draw.random() < 0.1:  # once more, with another record
            return replace(self.earlier[-1], record_at=32 * draw.randrange(0x20))
        op = self.checksum() if self.has_checksums and draw.random() < 0.5 else super().operation()
        return self.at_edge(op) if self.has_faults and draw.random() < 0.4 else op

    def checksum(self):
        """A checksum, whose seed is given or read, often in the record of one of the last or where that writes."""
        draw, earlier = self.random, self.earlier[-3:]
        places = [self.address()] + [op.record_at + 16 for op in earlier if is_checksum(op)] * 2
        places += [at for op in earlier for at, _ in op.targets()]
        code = draw.choice((CRC, COPY_CRC))
        size = draw.choice((1, 100, 4100, 8192) if self.large else (1, 3, 8, 13, 16, 24, 40))
        flags = 0x0C | draw.choice((0, 0, BLOCKS))
        flags |= draw.choice((0, 0, 0, PLAIN_SUM, PLAIN_DATA, PLAIN_SUM | PLAIN_DATA))
        seed_at = draw.choice((None, draw.choice(places)))
        seed = draw.choice((0, draw.getrandbits(32))) if seed_at is None else 0
        record_at = 32 * draw.randrange(0x20) + draw.choice((0, 0x200))
        second = self.address() if code == COPY_CRC else 0
        return Checksum(code, size, record_at, self.address(), second, seed, flags, 0, seed_at)

    def at_edge(self, op):
        """The operation, but a part of its data is before or after the memory."""
        draw, end = self.random, len(self.memory)
        inside = draw.choice((0, draw.randrange(0, op.size, 8 if op.code == DELTA else 1)))
        at = draw.choice((end - inside, inside - op.size))
        if op.code == MOVE and draw.random() < 0.7:
            return replace(op, first=at, second=at + draw.randrange(1, 9))
        fields = {FILL: ("second",), DELTA: ("second",), PATTERN: ("first",), CRC: ("first", "seed_at")}
        name = draw.choice(fields.get(op.code, ("first", "second")))
        if name == "seed_at":
            return replace(op, own=0, seed_at=draw.choice((-4, -1, end - 3, end)))
        op = replace(op, **{name: at})
        return replace(op, own=op.second ^ PAGE) if op.code == DUALCAST else op

    def may_have(self, op):
        """Whether a list may have the operation, and it is certain what it leaves: its records are in the memory."""
        end = op.record_at + 32 * -(-op.size // self.transfer)
        is_split = op.size > self.transfer
        if not model.fits(op, self.transfer) or end > len(self.memory) or (self.has_checksums and is_split):
            return False
        ranges = op.sources() + op.targets()
        if not self.has_faults:
            return all(absent(self.memory, *it) is None for it in ranges)
        # a device may have written to the first target of a dualcast what it can't write to the second
        first, second = (absent(self.memory, at, op.size) for at in (op.second, op.own))
        is_certain = op.code != DUALCAST or second is None or (first is not None and first <= second)
        return is_certain and all(-2 * PAGE <= at <= len(self.memory) + PAGE for at, _ in ranges)


def moved(op):
    """The operation where the memory begins at BASE. Patterns stay."""
    op = replace(op, record_at=op.record_at + BASE)
    if op.code != FILL:
        op = replace(op, first=op.first + BASE)
    if op.code in (MOVE, FILL, COMPARE, DELTA, DUALCAST, COPY_CRC):
        op = replace(op, second=op.second + BASE)
    if is_checksum(op) and op.seed_at is not None:
        op = replace(op, seed_at=op.seed_at + BASE)
    return replace(op, own=op.own + BASE) if op.code == DUALCAST else op


def absent(memory, first, size):
    """How many bytes of a range come before the first one that is absent; or None, if all are there."""
    if first < 0 < size:
        return 0
    return max(0, len(memory) - first) if first + size > len(memory) and size else None


def is_from_end(op):
    """A move to a higher address within its own range begins at its end."""
    return op.code == MOVE and op.first < op.second < op.first + op.size


def first_absent(memory, op):
    """How many bytes an operation does before one is absent, the address of that, and whether it is to be written."""
    reads = [op.first] * (op.code != FILL) + [op.second] * (op.code == COMPARE)
    writes = [op.second] * (op.code in (MOVE, FILL, DUALCAST, COPY_CRC)) + [op.own] * (op.code == DUALCAST)
    for done in range(op.size):
        at = op.size - 1 - done if is_from_end(op) else done
        for start, is_write in [(it, False) for it in reads] + [(it, True) for it in writes]:
            if not 0 <= start + at < len(memory):
                return done, start + at, is_write
    raise AssertionError("all is there")


def first_unwritten(memory, op):
    """Where a delta is to write first what is absent, or None. What comes before that is written."""
    if model.delta(bytearray(memory), op) != 1:
        return None
    for at in range(op.first, op.first + op.own, 10):
        to = op.second + 8 * int.from_bytes(memory[at : at + 2], "little")
        if not 0 <= to < len(memory):
            return to
        memory[to : to + 8] = memory[at + 2 : at + 10]
    return None


def page_fault(memory, op, done, address, is_write):
    """Ends an operation by a page fault, in the record that a part of it has written; answers the status."""
    status = (BLOCKED if op.flags & BLOCKS else ABSENT) | (IS_WRITE if is_write else 0)
    value = memory[op.record_at + 16 : op.record_at + 24]
    record = bytes([status, is_from_end(op), 0, 0]) + done.to_bytes(4, "little")
    record += (BASE + address // PAGE * PAGE).to_bytes(8, "little") + value + bytes(8)
    memory[op.record_at : op.record_at + 32] = record
    return status


def execute(memory, op):
    """Does an operation as far as its data is there, and answers its status. The record of a checksum that stops has
    that of its part."""
    if all(absent(memory, *it) is None for it in op.sources() + op.targets()):
        return model.execute(memory, op)
    done, address, is_write = 0, None, False
    memory[op.record_at : op.record_at + 32] = bytes(32)
    if op.code == DELTA:
        address, is_write = first_unwritten(memory, op), True
    elif is_checksum(op) and any(absent(memory, *it) is not None for it in op.seeds()):
        address = op.seed_at + absent(memory, op.seed_at, 4)
    else:
        done, address, is_write = first_absent(memory, op)
        left = op.size - done if is_from_end(op) else 0
        model.execute(memory, replace(op, first=op.first + left, second=op.second + left, size=done))
        if memory[op.record_at + 1]:
            return memory[op.record_at]  # a compare has found a difference
    return model.execute(memory, op) if address is None else page_fault(memory, op, done, address, is_write)
