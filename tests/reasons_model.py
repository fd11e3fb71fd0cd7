"""Why the plans of random lists have their fences and their groups, and what is worth a warning, by the Python module
dsa_reasons: one reason for each fence and for each beginning of a group after the first, with the conflict that a look
at each two pieces finds, a barrier where there is one, and a sentence written by hand here. A third of the lists have
checksums, which no text has; of every eighth of the others the sentences of the fences are those that `dsa_text
explain` prints. tests/bindings.py runs it on the proved archive; by hand `DSA_PLANNER_LIBRARY=..
tests/reasons_model.py 20000 7` takes as many lists as one likes, from another seed."""

import random
import re
import subprocess
import sys
from collections import Counter

import model
from common import program
from model import COPY_CRC, CRC, Checksum, is_checksum
from resume_model import drawn_ops, listed
from dsa_planner import BEGINS, FENCED, Refusal, plan_list_certified
from dsa_reasons import OVERLAP, SHARED_RECORD, UNCHECKED, UNGUARDED, Conflict, ListWarning, Reason, explain_list
from dsa_reasons import warn_list

KINDS = ("fence", "beginning", "barrier", "in a record", "more", "none alone", "as dsa_text")
OF_CHECKSUMS = ("checksums", "copied", "seed", "seed in a record", "shared by a checksum", "too long")
WARNINGS = {SHARED_RECORD: "shared record", UNCHECKED: "unchecked", UNGUARDED: "unguarded", OVERLAP: "overlap"}
SAID = {
    SHARED_RECORD: "piece {}: it or piece {} writes into the completion record of the other",
    UNCHECKED: "piece {}: without check its result does not stop what is after a barrier",
    UNGUARDED: "piece {}: what is after its check, up to a barrier, may run even if it fails",
    OVERLAP: "piece {}: its ranges overlap, and only devices with overlapping copy support (GENCAP bit 1) take it",
}


def drawn_checksum(draw, record_at, before):
    """A checksum of some of the first bytes, whose seed is given, or read from them, perhaps where an earlier operation
    writes, or in the record of one."""
    code, size, first = draw.choice((CRC, COPY_CRC)), draw.randrange(1, 25), draw.randrange(128)
    second = draw.randrange(128) if code == COPY_CRC else 0
    written = [at for op in before[-2:] for at, _ in op.targets()] + [op.record_at + 16 for op in before[-2:]]
    seed_at = draw.choice((None, draw.randrange(128), *written))
    own = draw.randrange(1 << 32) if seed_at is None else 0
    return Checksum(code, size, record_at, first, second, own, seed_at=seed_at)


def with_checksums(draw, ops, transfer):
    """The operations, but some of them are checksums, as far as a list may have one with that record."""
    mixed = list(ops)
    for at in range(len(ops)):
        tried = [drawn_checksum(draw, ops[at].record_at, mixed[:at]) for _ in range(draw.choice((0, 20)))]
        may = [op for op in tried if model.fits(op, transfer)]
        mixed[at] = may[0] if may else ops[at]
    return mixed


def expect(right, seed, said):
    if not right:
        sys.exit(f"list {seed}: {said}")


def addresses(spans):
    return {at for first, size in spans for at in range(first, first + size)}


def hazard(one, other):
    """Why the later piece waits for the earlier one, and the addresses that show it; or none."""
    for name, left, right in (
        ("read after write", one.writes(), other.sources()),
        ("write after write", one.writes(), other.writes()),
        ("write after read", one.sources(), other.writes()),
    ):
        shared = addresses(left) & addresses(right)
        if shared:
            return name, shared
    return None


def separated(pieces, before, at, end):
    """The conflicting pairs of a piece from `before` to below `at` and one from there to below `end`, in order."""
    pairs = [(earlier, later) for later in range(at, end) for earlier in reversed(range(before, at))]
    return [pair for pair in pairs if hazard(pieces[pair[0]], pieces[pair[1]])]


def has_in_record(piece, address):
    return piece.record_at <= address < piece.record_at + 32


def fault_of_conflict(pieces, pair, conflict):
    """What is wrong with the conflict that the module names for this pair, or None."""
    name, shared = hazard(pieces[pair[0]], pieces[pair[1]])
    if conflict is None or conflict[:3] != (*pair, name) or conflict.address not in shared:
        return f"{pair} conflict, {name}, at {sorted(shared)[:3]}"
    holders = [piece for piece in pair if has_in_record(pieces[piece], conflict.address)]
    if conflict.record_of != (holders[0] if holders else None):
        return f"the address is in the records of {holders}"
    return None


def sentence(reason):
    """What the reason says."""
    words = ["a barrier"] if reason.is_barrier else []
    if reason.conflict:
        earlier, later, name, address, record_of = reason.conflict
        held = f" (record of {record_of})" if record_of is not None else ""
        words += [("and " if words else "") + f"{later} after {earlier}", f"{name} at {address:#x}{held}"]
    words = words or ["no conflict needs it alone"]
    return ", ".join(words + ([f"and {reason.more} more"] if reason.more else []))


def fault(pieces, marks, barriers, reasons):
    """What is wrong with the reasons of a plan, or None."""
    cuts = [piece for piece, mark in enumerate(marks) if piece and mark & (BEGINS | FENCED)]
    if [reason.piece for reason in reasons] != cuts:
        return f"the plan cuts the list at {cuts}"
    for reason, before, end in zip(reasons, [0, *cuts], [*cuts[1:], len(pieces)]):
        pairs = separated(pieces, before, reason.piece, end)
        group = sum(bool(mark & BEGINS) for mark in marks[: reason.piece + 1]) - 1
        told = (group, bool(marks[reason.piece] & FENCED), barriers[reason.piece], max(0, len(pairs) - 1))
        if (reason.group, reason.is_fence, reason.is_barrier, reason.more) != told:
            return f"{reason}: {told} is right"
        wrong = fault_of_conflict(pieces, pairs[0], reason.conflict) if pairs else reason.conflict
        if wrong:
            return f"{reason}: {wrong}"
        if str(reason) != sentence(reason):
            return f"{reason} is not {sentence(reason)}"
    return None


def shares(one, other):
    """One of the two writes into the record of the other."""
    own, others = [(one.record_at, 32)], [(other.record_at, 32)]
    return model.any_meet(own, other.writes()) or model.any_meet(others, one.writes())


def warnings(pieces, marks, barriers):
    """What is worth a warning about the pieces."""
    for piece, op in enumerate(pieces):
        sharing = [earlier for earlier in range(piece) if shares(pieces[earlier], op)]
        if sharing:
            yield ListWarning(SHARED_RECORD, piece, sharing[-1])
        is_compare, is_checked = op.code in (model.COMPARE, model.PATTERN), op.flags & model.CHECKED
        if is_compare and not is_checked and any(barriers[piece + 1 :]):
            yield ListWarning(UNCHECKED, piece, None)
        if is_compare and is_checked and piece + 1 < len(pieces) and marks[piece + 1] == 0:
            yield ListWarning(UNGUARDED, piece, None)
        if op.code == model.MOVE and abs(op.first - op.second) < op.size:
            yield ListWarning(OVERLAP, piece, None)


def printed(settings, given):
    """The sentences of the fences that dsa_text explains."""
    names = ("greatest_batch", "greatest_transfer", "lone", "batch", "fence", "staging")
    options = [word for name in names for word in ("--" + name.replace("_", "-"), str(getattr(settings, name)))]
    read = [program("dsa_text"), "disassemble", "--keep-fences"]
    lines = subprocess.run(read, input=given.hex(), capture_output=True, text=True, check=True).stdout
    explained = subprocess.run([program("dsa_text"), "explain", *options], input=lines, capture_output=True, text=True)
    return re.findall(r"^  -- fence, cost \d+: (.*)$", explained.stdout, re.M)


def kinds(reasons):
    """What kinds of reasons there are."""
    for reason in reasons:
        yield "fence" if reason.is_fence else "beginning"
        yield from ["barrier"] * reason.is_barrier + ["more"] * (reason.more > 0)
        if not reason.conflict and not reason.is_barrier:
            yield "none alone"
        if reason.conflict and reason.conflict.record_of is not None:
            yield "in a record"


def kinds_of_checksums(pieces, reasons, warned):
    """What is there of checksums."""
    yield "checksums"
    yield from ("shared by a checksum" for it in warned if it.other is not None and is_checksum(pieces[it.piece]))
    for conflict in (reason.conflict for reason in reasons if reason.conflict):
        one, other = pieces[conflict.earlier], pieces[conflict.later]
        at = [(conflict.address, 1)]
        if is_checksum(one) and model.any_meet(one.targets(), at):
            yield "copied"
        if is_checksum(other) and model.any_meet(other.seeds(), at):
            yield "seed" if conflict.record_of is None else "seed in a record"


def refused(call, settings, given):
    """The number and the first place of a refusal, or None."""
    try:
        call(settings, given)
    except Refusal as refusal:
        return refusal.number, refusal.first
    return None


def too_long(draw, seed, records):
    """Of a list with a checksum no operation is split: the first that is too long is refused. Answers the kind."""
    ops = with_checksums(draw, drawn_ops(draw, records, 8), 8)
    settings, given, *_ = listed(draw, ops, 8)
    long = [at for at, op in enumerate(ops) if op.size > 8]
    if not long or not any(map(is_checksum, ops)):
        return []
    for call in (explain_list, warn_list, plan_list_certified):
        answer = refused(call, settings, given)
        expect(answer == (37, long[0]), seed, f"operation {long[0]} is too long, {call.__name__} answers {answer}")
    return ["too long"]


def explained(seed):
    """One list; answers the kinds of its reasons."""
    draw = random.Random(seed)
    records, transfer = draw.choice(("apart", "shared", "among data")), draw.choice((8, 4096))
    may_sum = draw.random() < 1 / 3
    if may_sum and transfer == 8:
        return too_long(draw, seed, records)
    ops = drawn_ops(draw, records, transfer)
    ops = with_checksums(draw, ops, transfer) if may_sum else ops
    settings, given, pieces, barriers = listed(draw, ops, transfer)
    reasons, marks = explain_list(settings, given), plan_list_certified(settings, given).marks
    wrong = fault(pieces, marks, [False, *barriers[1:]], reasons)
    expect(not wrong, seed, wrong)
    warned, right = warn_list(settings, given), list(warnings(pieces, marks, [False, *barriers[1:]]))
    expect(warned == right, seed, f"{warned}: {right} is right")
    for warning in warned:
        expect(str(warning) == SAID[warning.kind].format(warning.piece, warning.other), seed, f"{warning}")
    found = [*kinds(reasons), *(WARNINGS[warning.kind] for warning in warned)]
    if any(map(is_checksum, pieces)):
        return [*found, *kinds_of_checksums(pieces, reasons, warned)]
    if seed % 8:
        return found
    said = [str(reason) for reason in reasons if reason.is_fence]
    expect(printed(settings, given) == said, seed, f"dsa_text prints {printed(settings, given)}, not {said}")
    return [*found, "as dsa_text"]


def made_up():
    """Reasons with the greatest numbers fit the text that the header says is enough, and are written whole."""
    most = 2**64 - 1
    conflict = Conflict(most - 1, most, "write after write", most, most)
    for reason in (Reason(most, most, True, True, conflict, most), Reason(0, 0, False, False, None, 0)):
        expect(str(reason) == sentence(reason), "made up", f"{reason} is not {sentence(reason)}")


def main(count, seed):
    made_up()
    found = Counter(kind for at in range(count) for kind in explained(seed + at))
    wanted = (*KINDS, *WARNINGS.values(), *OF_CHECKSUMS)
    expect(count < 200 or all(found[kind] for kind in wanted), seed, f"some kind is missing: {found}")
    print(", ".join(f"{kind} {count}" for kind, count in sorted(found.items())))


if __name__ == "__main__":
    main(int(sys.argv[1]), int(sys.argv[2]))
