"""Entries of recordings, for tests/audit.py and the tests beside it: what makes them, what writes them as texts, and
what each reads and writes, byte by byte. Addresses are sets of bytes, and nothing is shared with the program."""

import struct

from common import move
from model import COMPARE, COPY_CRC, CRC, DELTA, DUALCAST, FILL, MOVE, PATTERN, Op

WRAP = 1 << 64
# Operations beyond the six of a descriptor, with their names: docs/FORMATS.md, and linux/idxd.h but for 0x0a and 0x17.
DRAIN, CREATE, FETCH, CHECK, INSERT, STRIP, UPDATE, FLUSH = 0x02, 0x07, 0x0A, *range(0x12, 0x16), 0x20
CHECKSUMS = (CRC, COPY_CRC)
FURTHER = {DRAIN: "drain", CREATE: "create delta", FETCH: "translation fetch", CRC: "CRC", COPY_CRC: "copy with CRC"}
FURTHER |= {CHECK: "DIF check", INSERT: "DIF insert", STRIP: "DIF strip", UPDATE: "DIF update", FLUSH: "cache flush"}
NAMED = FURTHER | {0x17: "DIX generate"}
# The bytes of a block of data, by the lowest two bits of byte 42 of an operation on data integrity fields.
BLOCKS = (512, 520, 4096, 4104)
# Flags (linux/idxd.h).
FENCE, RECORD_VALID, RECORD, INTERRUPT = 0x01, 0x04, 0x08, 0x10
# Why an entry is not looked at, beside an operation that is not known.
WHY = {
    "blank": "64 zero bytes",
    "nested": "a batch in a batch",
    "owner": "another PASID or privilege than its batch",
    "empty": "size 0",
    "wrap": "data or completion record past the last address",
}

# ---- what makes them


def entry(code, flags=0x0C, record=0x8000, first=0, second=0, size=0, own=0, owner=0, last=0):
    """The 64 bytes of an entry, whatever its fields are: `own` is in bytes 40 to 47, `last` from 48 on."""
    text = struct.pack("<IIQQQI", owner, code << 24 | flags, record, first, second, size)
    return text + bytes(4) + own.to_bytes(8, "little") + last.to_bytes(16, "little")


def batch(*members, flags=0x0C, owner=0, at=0x10000):
    """A batch as it is recorded: its descriptor, which says that its members are at this address, and its members."""
    return entry(0x01, flags, 0x7000, at, size=len(members), owner=owner) + b"".join(members)


def moves_apart(count, is_fenced=lambda k: False):
    """A batch of so many moves, of which no two conflict."""
    ways = [(0x1000000 + 64 * k, 0x9000000 + 64 * k, 0x20000000 + 32 * k) for k in range(count)]
    made = [move(first, second, record_at=at) for first, second, at in ways]
    return batch(*[it.bytes(is_fenced(k)) for k, it in enumerate(made)])


# ---- the entries of a recording


def is_foreign(head, it):
    """The entry cannot be a member of a batch with this descriptor."""
    return any(it) and (it[7] == 1 or owner_of(it) != owner_of(head))


def batches_of(recording):
    """Of each batch of a recording its descriptor's number, its descriptor and its members."""
    entries, at = [recording[k : k + 64] for k in range(0, len(recording), 64)], 0
    while at < len(entries):
        size = struct.unpack_from("<I", entries[at], 32)[0] if entries[at][7] == 1 else 0
        if entries[at][7] == 1:
            yield at, entries[at], entries[at + 1 : at + 1 + size]
        at += 1 + size


def submissions_of(recording):
    """Of each submission of a recording whether it is a batch, its descriptor, the number of its first member, and its
    members."""
    entries, at = [recording[k : k + 64] for k in range(0, len(recording), 64)], 0
    while at < len(entries):
        is_batch = entries[at][7] == 1
        size = struct.unpack_from("<I", entries[at], 32)[0] if is_batch else 1
        yield is_batch, entries[at], at + is_batch, entries[at + is_batch : at + is_batch + size]
        at += is_batch + size


def first_foreign(recording):
    """The first entry that cannot be a member of its batch, and the descriptor of that."""
    for at, head, members in batches_of(recording):
        for k, it in enumerate(members):
            if is_foreign(head, it):
                return at + 1 + k, at
    return None


def pasid_of(it):
    """How a message names the owner of an entry."""
    owner = struct.unpack_from("<I", it)[0]
    return f"PASID {owner % (1 << 20)}" + " privileged" * (owner >> 31)


def owner_of(entry):
    """The PASID and the privilege of an entry."""
    owner = struct.unpack_from("<I", entry)[0]
    return {"pasid": owner % 2**20, "privileged": owner >> 31 == 1}


def record_of(it):
    """Where the completion record of an entry is, as a report says it."""
    return f"{struct.unpack_from('<Q', it, 8)[0]:#x}"


def has_record(entry, address):
    """Whether the entry has a completion record, requested or on errors alone, that has the address."""
    return entry[4] & 0x04 > 0 and 0 <= address - struct.unpack_from("<Q", entry, 8)[0] < 32


# ---- what an entry reads and writes, byte by byte


def span(first, size):
    return range(first, first + size)


def further_data(it):
    """The spans that an operation beyond these six reads and those that it writes; or None, if they are not certain."""
    _, word, _, first, second, size = struct.unpack_from("<IIQQQI", it)
    code, one, other = word >> 24, span(first, size), span(second, size)
    delta_at, at_48, most = *struct.unpack_from("<QQ", it, 40), struct.unpack_from("<I", it, 48)[0]
    seed = [span(at_48, 4)] if word & 0x010000 else []
    block = BLOCKS[it[42] & 3]
    count, rest = divmod(size, block + 8 * (code != INSERT))
    if (code in (CHECK, INSERT, STRIP, UPDATE) and rest) or (code == DRAIN and word & 0xFF0000):
        return None
    known = {DRAIN: ([], []), FETCH: ([], []), CREATE: ([one, other], [span(delta_at, most)]), FLUSH: ([other], [])}
    known |= {CRC: ([one, *seed], []), COPY_CRC: ([one, *seed], [other]), CHECK: ([one], []), UPDATE: ([one], [other])}
    known |= {INSERT: ([one], [span(second, (block + 8) * count)]), STRIP: ([one], [span(second, block * count)])}
    return known.get(code)


def data_of(it):
    """The spans of data that an entry reads and those that it writes; or None, if its operation is not known."""
    _, word, record, first, second, size = struct.unpack_from("<IIQQQI", it)
    code, own = word >> 24, int.from_bytes(it[40:48], "little")
    if code not in (0, MOVE, FILL, COMPARE, PATTERN, DELTA, DUALCAST):
        return further_data(it)
    op = Op(code, size, record, first, second, own & 0xFFFFFFFF if code == DELTA else own)
    return [span(*it) for it in op.sources()], [span(*it) for it in op.targets()]


def spans_of(it, owner):
    """The spans that an entry reads and those that it writes; or why nothing is known of it."""
    its, word, record, _, _, size = struct.unpack_from("<IIQQQI", it)
    code, data = word >> 24, data_of(it)
    if not any(it):
        return "blank"
    if data is None and code != 1:
        return "operation"
    if code == 1:
        return "nested"
    if (its & 0x800FFFFF) != (owner & 0x800FFFFF):
        return "owner"
    if code not in (0, DRAIN) and size == 0:
        return "empty"
    reads, writes = data[0], data[1] + ([span(record, 32)] if word & 0x04 else [])
    if any(it.stop > WRAP for it in reads + writes):
        return "wrap"
    return reads, writes


def accesses(it, owner):
    """The bytes that an entry reads and those that it writes; or why nothing is known of it."""
    known = spans_of(it, owner)
    return known if isinstance(known, str) else tuple(set().union(*spans) for spans in known)


def parts_of(it):
    """The bytes of data that an entry reads, those that it writes, and those of its record, whatever else is wrong
    with it."""
    held = set(span(struct.unpack_from("<Q", it, 8)[0], 32)) if it[4] & 0x04 else set()
    reads, writes = data_of(it) or ([], [])
    return set().union(*reads), set().union(*writes), held


def operands_of(it):
    """The bytes of data that an entry reads and those that it writes, the value of a checksum in its record too."""
    reads, writes, record = parts_of(it)
    return reads, writes | (record if it[7] in CHECKSUMS else set())


def touches_record(one, other):
    """The second writes within the record of the first, or reads there a status, which is no checksum's."""
    record, (reads, writes, own) = parts_of(one)[2], parts_of(other)
    return bool(record & (writes | own) or (one[7] not in CHECKSUMS and record & reads))


def shares_record(one, other):
    """One of two entries touches the record of the other."""
    return touches_record(one, other) or touches_record(other, one)


def is_misaligned(it):
    return bool(it[4] & 0x04) and struct.unpack_from("<Q", it, 8)[0] % 32 != 0


def has_reserved_bytes(it):
    """A no-op, or a drain without flags of its own, has other bytes than zero where it reserves them: all but its
    header and the handle of its interrupt, bytes 36 and 37."""
    return (it[7] == 0 or (it[7] == DRAIN and not it[6])) and any(it[16:36] + it[38:])


def can_fail(it, known, resident):
    """The entry can end with another status than 1: a checked compare or creation of a delta, a delta that is applied,
    an operation on data integrity fields, a drain, a translation fetch, one that is no no-op and does not block on page
    faults where memory may be absent, or one of which nothing is known."""
    flags, code = it[4], it[7]
    if isinstance(known, str) or code in (DELTA, DRAIN, FETCH, CHECK, INSERT, STRIP, UPDATE):
        return True
    if code in (COMPARE, PATTERN, CREATE) and flags & 0x80:
        return True
    return code != 0 and not resident and not flags & 0x02


def shows(it, known, head, awaited, resident):
    """Software that looks at this sees that the entry has ended: an interrupt, a completion record, or data."""
    flags, code, whole = it[4], it[7], head[4]
    interrupt = bool(flags & 0x10)
    record = bool(flags & 0x04) and (bool(flags & 0x08) or can_fail(it, known, resident))
    if awaited == "batches" and (whole & 0x10 or whole & 0x0C == 0x0C):
        return interrupt or (record and code in (0, 1))
    writes = isinstance(known, str) or code in (MOVE, FILL, DELTA, DUALCAST, CREATE, COPY_CRC, INSERT, STRIP, UPDATE)
    return interrupt or record or (awaited == "writes" and writes)


def conflict(one, other):
    return bool(one[1] & (other[0] | other[1]) or one[0] & other[1])


def is_repeat(one, other):
    """Both have one operation of a plan, and all 64 bytes are equal but where the record is, the fence and what is
    requested; and neither reads what the other writes."""
    requests = FENCE | RECORD_VALID | RECORD | INTERRUPT
    what = [(it[:4], it[4] | requests, it[5:8], it[16:]) for it in (one, other)]
    is_listed = one[7] in (MOVE, FILL, COMPARE, PATTERN, DELTA, DUALCAST)
    return what[0] == what[1] and is_listed and not parts_of(one)[0] & parts_of(other)[1]


# ---- recordings as texts


def xxd(recording):
    lines = []
    for at in range(0, len(recording), 16):
        row = recording[at : at + 16]
        pairs = " ".join(row[k : k + 2].hex() for k in range(0, len(row), 2))
        signs = "".join(chr(byte) if 32 <= byte < 127 else "." for byte in row)
        lines.append(f"{at:08x}: {pairs:39}  {signs}\n")
    return "".join(lines)


def plain(recording):
    digits = recording.hex()
    return "".join(digits[k : k + 60] + "\n" for k in range(0, len(digits), 60))


def hexdump(recording):
    lines = []
    for at in range(0, len(recording), 16):
        row = recording[at : at + 16]
        halves = "  ".join(" ".join(f"{byte:02x}" for byte in row[k : k + 8]) for k in (0, 8))
        signs = "".join(chr(byte) if 32 <= byte < 127 else "." for byte in row)
        lines.append(f"{at:08x}  {halves:48}  |{signs}|\n")
    return "".join(lines) + (f"{len(recording):08x}\n" if recording else "")
