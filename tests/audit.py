"""Runs `dsa_text audit` on recordings. Random ones are judged by the brute force of audit_model.py; audit_drawn.py has
the pictures, audit_lists.py what the planner submits and recordings as lists to plan. Here are also every operation
code, recordings that end early, that are read in parts and that come in another form, and how much memory and time
large ones take. The words are names of parts; a number is how many random recordings are judged, 400 without one."""

import itertools
import json
import random
import resource
import shutil
import struct
import subprocess
import tempfile
import time

import audit_model
import common
from audit_accepted import (
    accepting, by_hand, costs_by_hand, hazards_by_hand, padded_accepting, soon_accepted, soon_used, stale_by_hand,
    till_none_is_left,
)
from audit_drawn import alike, counted, known_beside_unknown, no_effect, pictures, sizes, soon_drawn, too_large
from audit_entries import (
    CHECK, FURTHER, INSERT, STRIP, UPDATE, batch, entry, first_foreign, hexdump, moves_apart, pasid_of, plain, xxd,
)
from audit_lists import lines, listed_entries, lists, planned, staged
from audit_model import GREATEST_BATCH, KINDS, Maker, audited, audited_with_dumps, judge, submissions
from common import move, named, program, run_test
from model import COMPARE, DELTA, DUALCAST, FILL, MOVE, PATTERN

# Less than the recording of `small_memory` has.
MOST_MEMORY = 48 << 20
# What can be assumed of software: what it looks at, and whether all memory is resident.
ASSUMED = list(itertools.product(("writes", "signals", "batches"), (False, True)))

# ---- random recordings


def refused(recording, foreign):
    """A recording with an entry that cannot be a member of its batch is refused, with the option that gives members."""
    ran = subprocess.run([program("dsa_text"), "audit"], input=recording, capture_output=True)
    member, head = (recording[64 * at : 64 * at + 64] for at in foreign)
    other = f"with {pasid_of(member)} this", f", which has {pasid_of(head)}"
    what, whose = ("a batch", "") if member[7] == 1 else other
    reason = (
        f"entry {foreign[0]}: error: {what} cannot be a member of the batch of {struct.unpack_from('<I', head, 32)[0]} "
        f"at entry {foreign[1]}{whose}: if members are not recorded, give a dump of them with --staging\n"
    )
    common.expect((ran.returncode, ran.stdout, ran.stderr.decode()) == (2, b"", reason), f"foreign at {foreign}: {ran}")


def brute_force():
    """Random recordings, judged."""
    sums = {}
    for seed in range(audit_model.COUNT):
        recording, assumed = Maker(seed, has_foreign=True).recording(), ASSUMED[seed % len(ASSUMED)]
        words = f"--await {assumed[0]}" + " --resident" * assumed[1]
        foreign = first_foreign(recording)
        if foreign:
            refused(recording, foreign)
        audit = audited_with_dumps if foreign else audited
        report, status = audit(recording, f"--greatest-batch {GREATEST_BATCH} {words}")
        for name, number in judge(recording, report, status, f"seed {seed} {words}", assumed).items():
            sums[name] = sums.get(name, 0) + number
    print(", ".join(f"{number} {name}" for name, number in sums.items()))
    common.expect(all(sums[kind] > audit_model.COUNT // 10 for kind in (*KINDS, "flaws")), f"too few findings: {sums}")


def wide_fills():
    """Fills with a flag that we do not know repeat each other only if the bytes agree that it may make a pattern."""
    def kinds(*patterns):
        fills = (entry(FILL, 0x01000E, 0x8000 + 32 * k, 0x11, 0x2000, 64, own) for k, own in enumerate(patterns))
        report, status = audited(batch(*fills))
        return status, [it["what"]["kind"] for it in report["findings"]]

    common.expect(kinds(0x22, 0x33) == (1, ["missing"]), f"other patterns: {kinds(0x22, 0x33)}")
    common.expect(kinds(0x22, 0x22) == (0, [audit_model.REPEATED]), f"the same pattern: {kinds(0x22, 0x22)}")


def found_in_batch(members):
    """What is found of a batch of these members, but for its size and records within its descriptors, which move with
    them."""
    findings = audited(batch(*members))[0]["findings"]
    return [it for it in findings if it["what"]["kind"] not in ("small batch", "overwrites batch")]


def padded():
    """A batch has the same findings with 70 more members, which touch nothing that it touches, after or before its own:
    above 64 members the last conflicts come from a sweep, else each two are compared."""
    found = 0
    # they read, wait for absent pages, and have no record: none of them can fail or show
    idle = [entry(COMPARE, 0x02, 0, 0x10000000 + 64 * k, 0x20000000 + 64 * k, 64) for k in range(70)]
    for seed in range(audit_model.COUNT // 10):
        recording = Maker(seed).recording()
        for it, is_batch in submissions(recording, {"findings": []}):
            if not is_batch or not it.entries:
                continue
            wanted = found_in_batch(it.entries)
            found += len(wanted)
            got = found_in_batch([*it.entries, *idle])
            common.expect(got == wanted, f"seed {seed}, {it.number}: {got} with members after it, and not {wanted}")
            if 0 in it.fences:
                continue
            for finding in wanted:
                finding["entry"], finding["member"] = finding["entry"] + 70, finding["member"] + 70
                for name in ("earlier", "awaited"):
                    if name in finding["what"]:
                        finding["what"][name] += 70
                if "records" in finding["what"]:
                    finding["what"]["records"] = [k + 70 for k in finding["what"]["records"]]
            got = found_in_batch([*idle, *it.entries])
            common.expect(got == wanted, f"seed {seed}, {it.number}: {got} with members before it, and not {wanted}")
    common.expect(found > audit_model.COUNT // 10, f"only {found} findings")


# ---- recordings made by hand


def unseen():
    """Every operation code, and a batch of members that are all not looked at."""
    # the size is that of no block with or without data integrity field
    listed = {MOVE, FILL, COMPARE, PATTERN, DELTA, DUALCAST, *FURTHER} - {CHECK, INSERT, STRIP, UPDATE}
    for code in range(3, 256):  # no-ops and drains have a flaw there
        report, status = audited(entry(code, 0, first=0x1000, second=0x2000, size=8, owner=1 << 31 | 5))
        owner = {"pasid": 5, "privileged": True}
        what = {"kind": "unseen", "operation": code, "owner": owner, "submission_owner": owner, "why": "operation"}
        place = {"entry": 0, "member": None, "severity": "warning", "submission": 0, "what": what}
        common.expect(report["findings"] == ([] if code in listed else [place]), f"operation {code}: {report}")
        common.expect(status == 0, f"operation {code}: status {status}")
    report, status = audited(batch(entry(0x17, size=8), *[entry(0x17, 0x0D, size=8)] * 63), "--deny unseen")
    kinds = [it["what"]["kind"] for it in report["findings"]]
    common.expect(kinds == ["unseen"] * 64, f"64 unseen: {kinds}")
    common.expect(status == 1, "members that are denied end with status 1")
    common.expect({it["severity"] for it in report["findings"]} == {"error"}, "what is denied is an error")


def reserved():
    """A no-op and a drain have a flaw for each byte that they reserve, and none for the handle of an interrupt. So a
    recording of moves that begins in the middle of one is not clean."""
    for code, place in itertools.product((0, 2), range(16, 64)):
        it = bytearray(entry(code))
        it[place] = 1
        report, status = audited(bytes(it))
        kinds = [finding["what"]["kind"] for finding in report["findings"]]
        wanted = ([], 0) if place in (36, 37) else (["reserved bytes"], 1)
        common.expect((kinds, status) == wanted, f"code {code} with byte {place} set: {kinds}, status {status}")
    for size, begin in itertools.product((8, 512, 4096, 1 << 17), range(1, 64)):
        ways = [(0x7F12_3456_7000 + size * k, 0x7F65_4321_0000 + size * k, 0x55AA_0000_8000 + 32 * k) for k in range(4)]
        moves = b"".join(move(first, second, size, at).bytes() for first, second, at in ways)
        words = [program("dsa_text"), "audit", "--deny", "unseen"]
        ran = subprocess.run(words, input=moves[begin : begin - 64], capture_output=True)
        common.expect(ran.returncode != 0, f"moves of {size} bytes from byte {begin} on: {ran.stdout[:300]}")


def ends():
    """Recordings that end early: status 2, nothing on standard output, and where and why on standard error."""
    whole = batch(*[move(0x1000, 0x2000).bytes()] * 3)
    hint = "if members are not recorded, give a dump of them with --staging\n"
    for recording, reason in [
        (whole[:65], "entry 1: error: the recording ends after 1 of its 64 bytes\n"),
        (whole[:-1], "entry 3: error: the recording ends after 63 of its 64 bytes\n"),
        (whole[:64], f"entry 0: error: the recording ends after 0 of the 3 members of this batch: {hint}"),
        (whole + whole[:192], f"entry 4: error: the recording ends after 2 of the 3 members of this batch: {hint}"),
        (entry(0x01, size=0xFFFFFFFF), f"entry 0: error: the recording ends after 0 of the {0xFFFFFFFF} members of this batch: {hint}"),
    ]:
        ran = subprocess.run([program("dsa_text"), "audit"], input=recording, capture_output=True, text=False)
        got = (ran.returncode, ran.stdout, ran.stderr.decode())
        common.expect(got == (2, b"", reason), f"{len(recording)} bytes: {got}")


def answer_of(recording, words):
    """The whole answer: the status, and what is written to both outputs."""
    ran = subprocess.run([program("dsa_text"), "audit", *words.split()], input=recording, capture_output=True)
    return ran.returncode, ran.stdout, ran.stderr


def faulty_ones(recording, large):
    """Recordings that begin with this one, and why each is none."""
    count, hint = len(recording) // 64, "if members are not recorded, give a dump of them with --staging"
    one, another = move(0x1000, 0x2000).bytes(), entry(MOVE, owner=7, size=64)
    foreign = recording + batch(one, another, one)
    lost = f"cannot be a member of the batch of 3 at entry {count}, which has {pasid_of(one)}: {hint}"
    yield recording + bytes(3), f"entry {count}", "the recording ends after 3 of its 64 bytes"
    yield recording + large[:-64], f"entry {count}", (
        f"the recording ends after 39999 of the 40000 members of this batch: {hint}"
    )
    yield foreign + recording, f"entry {count + 2}", f"with PASID 7 this {lost}"
    last = f"entry {2 * count + 4}"
    yield foreign + recording + bytes(1), last, "the recording ends after 1 of its 64 bytes"


def in_parts():
    """Recordings of bytes are read in parts of 1 MiB, texts as a whole: both have one answer, in each form. There are
    batches that go over the end of a part, one that has more members than a part, entries that cannot be members, and
    recordings that end early, all after the first part."""
    small, large = [Maker(seed).recording() for seed in range(200)], moves_apart(40_000, lambda k: k % 9 == 0)
    for seed in range(6):
        chosen, pieces = random.Random(seed), []
        while sum(map(len, pieces)) < 2_600_000:
            pieces.append(chosen.choice(small))
        if seed % 3 == 0:
            pieces.insert(chosen.randrange(len(pieces)), large)
        recording = b"".join(pieces)
        for words in ("", "--all", "--json", "--write-accept", "--deny needless,unseen --resident"):
            got, wanted = (answer_of(it, words) for it in (recording, plain(recording).encode()))
            said = f"{got[0]}, {got[1][-300:]} {got[2][:300]}"
            common.expect(got == wanted, f"seed {seed} {words}: another answer in parts: {said}")
        for made, place, reason in faulty_ones(recording, large):
            got, wanted = answer_of(made, ""), f"{place}: error: {reason}\n"
            common.expect(got == (2, b"", wanted.encode()), f"seed {seed}: wanted {wanted}, got {got}")


def small_memory():
    """An audit of 64 MiB needs memory for the largest batch and for what it writes: less than the recording has."""
    batches = moves_apart(31)
    with tempfile.NamedTemporaryFile() as file:
        for _ in range(64):
            file.write(batches * 512)
        file.flush()
        limit = lambda: resource.setrlimit(resource.RLIMIT_AS, (MOST_MEMORY, MOST_MEMORY))
        command = [program("dsa_text"), "audit", "--json", file.name]
        ran = subprocess.run(command, capture_output=True, preexec_fn=limit)
        count = json.loads(ran.stdout or "{}").get("totals", {}).get("batches")
        said = f"status {ran.returncode}, {count} batches, {ran.stderr[:300]}"
        common.expect((ran.returncode, count) == (0, 64 * 512), said)


def forms():
    """A recording has the same report in each form, and each form is what its program writes, where that is there."""
    writers = {"xxd": (xxd, ["xxd"]), "xxd -p": (plain, ["xxd", "-p"]), "hexdump": (hexdump, ["hexdump", "-v", "-C"])}
    for name in ("xxd", "hexdump"):
        if not shutil.which(name):
            common.skip(f"what {name} itself writes: it is not there")
    for seed in range(40):
        recording = Maker(seed).recording()
        report = audited(recording)
        for name, (write, command) in writers.items():
            text = write(recording).encode()
            common.expect(audited(text) == report, f"seed {seed}, {name}: another report")
            common.expect(audited(text.replace(b"\n", b"\r\n")) == report, f"seed {seed}, {name}, newlines as in DOS: another report")
            if shutil.which(command[0]):
                wrote = subprocess.run(command, input=recording, capture_output=True).stdout
                common.expect(text == wrote, f"seed {seed}, {name} writes otherwise")


def speed():
    """65,472 members in batches of 1,023, and in one batch. The time is printed; more than ten seconds are a fault."""
    for name, places in [
        ("apart", lambda k: (0x1000000 + 64 * k, 0x9000000 + 64 * k)),
        ("fenced all", lambda k: (0x1000000 + 64 * k, 0x9000000 + 64 * k)),
        ("all conflict", lambda k: (0x1000000 + 64 * k, 0x2000)),
        ("all conflict, fenced all", lambda k: (0x1000000 + 64 * k, 0x2000)),
        ("all repeat", lambda k: (0x1000, 0x2000)),
        ("first and last conflict", lambda k: (0x1000000 + 64 * k, 0x9000000 + 64 * (k % 1022))),
    ]:
        for count, size in [(64, 1023), (1, 64 * 1023)]:
            moves = [move(*places(k), record_at=0x20000000 + 32 * k) for k in range(size)]
            members = [it.bytes(fenced="fenced all" in name) for it in moves]
            recording = batch(*members) * count
            start = time.monotonic()
            report, _ = audited(recording)
            took = time.monotonic() - start
            print(f"{counted(count, 'batch', 'batches')} of {size}, {name}: {took:.2f} s, {len(report['findings'])} findings")
            common.expect(took < 10, f"{name}: {took:.1f} s")


def main(words):
    numbers = [int(word) for word in words if word.isdigit()]
    if numbers:
        audit_model.COUNT = numbers[-1]
    parts = [brute_force, padded, accepting, till_none_is_left, padded_accepting, by_hand, costs_by_hand]
    parts += [hazards_by_hand, stale_by_hand, soon_accepted, soon_used, pictures, sizes, no_effect]
    parts += [known_beside_unknown, alike]
    parts += [wide_fills, too_large]
    parts += [planned, staged, lines, lists, listed_entries, unseen, reserved]
    parts += [ends, in_parts, small_memory, forms, speed, soon_drawn]
    for part in named(parts, [it for it in words if not it.isdigit()]):
        part()


if __name__ == "__main__":
    run_test(main)
