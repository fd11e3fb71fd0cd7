"""What the planner submits, and recordings as lists to plan, for tests/audit.py. What the planner submits has no
finding, lacks a fence where one is left out, and has one report as a recording, as dumps and as lines. What
`audit --list` has to write is typed from docs/FORMATS.md."""

import itertools
import json
import re
import struct
import subprocess
import tempfile
from pathlib import Path

import audit_model
import common
from audit_entries import CHECKSUMS, FURTHER, NAMED, WHY, WRAP, entry, spans_of, xxd
from audit_model import Maker, audited
from common import program
from model import COMPARE, COPY_CRC, CRC, DELTA, DUALCAST, FILL, MOVE, PATTERN, PLAIN_DATA, PLAIN_SUM, SEED_READ

ADDED = 1 << 62

# ---- what the planner submits


def recorded(portal, staging, address):
    """A recording of the entries of a portal, and of the members of its batches in a staging area."""
    text = b""
    for k in range(0, len(portal), 64):
        text += portal[k : k + 64]
        if portal[k + 7] == 1:
            first = int.from_bytes(portal[k + 16 : k + 24], "little") - address
            text += staging[first : first + 64 * int.from_bytes(portal[k + 32 : k + 36], "little")]
    return text


def planned():
    """What the planner submits has no finding, and lacks a fence where one is left out."""
    without = 0
    for path in sorted(Path("tests/jobs").glob("plan-*.job")) + sorted(Path("examples").glob("**/p*.job")):
        answer = subprocess.run([program("dsa")], input=path.read_bytes(), capture_output=True).stdout
        if answer.startswith(b"refused"):
            continue
        answer, job = json.loads(answer), json.loads(path.read_text())
        portal, staging = bytes.fromhex(answer["portal"]), bytes.fromhex(answer["staging"])
        recording = recorded(portal, staging, job["settings"]["staging"])
        report, status = audited(recording, "--deny needless,guarding,signalling,unseen")
        # a list may have two operations with one record, which the planner keeps apart by a fence
        shared = {it["what"]["kind"] for it in report["findings"]}
        common.expect(shared <= {"shared record"} and status == len(shared), f"{path}: {report}")
        fenced = [k for k in range(0, len(recording), 64) if recording[k + 4] & 1]
        common.expect(report["totals"]["fences"] == len(fenced), f"{path}: {report['totals']}")
        for k in fenced[:3]:
            report, status = audited(recording[: k + 4] + bytes([recording[k + 4] - 1]) + recording[k + 5 :])
            kinds = {it["what"]["kind"] for it in report["findings"]}
            common.expect(kinds & {"missing", "shared record"} and status == 1, f"{path}, without the fence of entry {k // 64}: {report}")
            without += 1
    common.expect(without > 10, f"only {without} fences were left out")


def planned_jobs():
    """Of each job to plan of the tests and the examples that is answered the file, the portal, the staging area and its
    address."""
    for path in sorted(Path("tests/jobs").glob("plan-*.job")) + sorted(Path("examples").glob("**/p*.job")):
        answer = subprocess.run([program("dsa")], input=path.read_bytes(), capture_output=True).stdout
        if answer.startswith(b"refused"):
            continue
        answer, address = json.loads(answer), json.loads(path.read_text())["settings"]["staging"]
        yield path, bytes.fromhex(answer["portal"]), bytes.fromhex(answer["staging"]), address


def staged():
    """A portal and its staging area have the report of their recording, as one dump or as two that overlap, and as
    bytes or as text. A batch of which no dump has all members is refused."""
    batches = 0
    with tempfile.TemporaryDirectory() as folder:
        first, second = Path(folder, "first"), Path(folder, "second")
        for path, portal, staging, address in planned_jobs():
            wanted = audited(recorded(portal, staging, address))
            heads = [portal[k : k + 64] for k in range(0, len(portal), 64) if portal[k + 7] == 1]
            first.write_bytes(staging)
            got = audited(portal, f"--staging {address}:{first}")
            common.expect(got == wanted, f"{path}: another report of its portal and staging area")
            got = audited(xxd(portal).encode(), f"--staging {address:#x}:{first}")
            common.expect(got == wanted, f"{path}: another report of the text of its portal")
            if not heads:
                continue
            # each batch lies in one of two dumps, of which the first is a text
            batches += len(heads)
            spans = [(int.from_bytes(it[16:24], "little") - address, 64 * int.from_bytes(it[32:36], "little")) for it in heads]
            at = spans[len(spans) // 2][0]
            first.write_text(xxd(staging[: sum(spans[len(spans) // 2])]))
            second.write_bytes(staging[at:])
            got = audited(portal, f"--staging {address}:{first} --staging {address + at}:{second}")
            common.expect(got == wanted, f"{path}: another report with two dumps")
            # a byte less, and the last batch is in no dump
            last = max(range(len(heads)), key=lambda k: spans[k])
            first.write_bytes(staging[: sum(spans[last]) - 1])
            number = portal.index(heads[last]) // 64
            command = [program("dsa_text"), "audit", "--staging", f"{address}:{first}"]
            ran = subprocess.run(command, input=portal, capture_output=True)
            size, place = spans[last][1] // 64, address + spans[last][0]
            reason = f"entry {number}: error: no dump has the {size} members of this batch, at {place:#x}\n"
            common.expect((ran.returncode, ran.stdout, ran.stderr.decode()) == (2, b"", reason), f"{path}: {ran}")
    common.expect(batches > 10, f"only {batches} batches were staged")
    # a dump that 65 batches share: the members of the 64th would make a recording of more than 64 MiB
    with tempfile.TemporaryDirectory() as folder:
        dump = Path(folder, "dump")
        dump.write_bytes(bytes(1 << 20))
        batch = bytes(7) + b"\x01" + bytes(24) + (1 << 14).to_bytes(4, "little") + bytes(28)
        command = [program("dsa_text"), "audit", "--staging", f"0:{dump}"]
        ran = subprocess.run(command, input=65 * batch, capture_output=True)
        reason = "entry 63: error: with it the recording has more than 67108864 bytes\n"
        common.expect((ran.returncode, ran.stdout, ran.stderr.decode()) == (2, b"", reason), f"65 batches: {ran}")
        # a batch of no members needs no dump
        empty = bytes(7) + b"\x01" + bytes(8) + (1 << 40).to_bytes(8, "little") + bytes(40)
        common.expect(audited(empty, f"--staging 0:{dump}") == audited(empty), "a batch of no members in no dump")
    for word, reason in [
        ("0x10000", "error: --staging: '0x10000' is no ADDRESS:FILE\n"),
        ("ten:file", "error: --staging: 'ten:file' is no ADDRESS:FILE\n"),
        ("10:", "error: --staging: '10:' is no ADDRESS:FILE\n"),
        ("10:none/here", "error: none/here can't be opened: there is no such file\n"),
    ]:
        ran = subprocess.run([program("dsa_text"), "audit", "--staging", word], input=b"", capture_output=True)
        common.expect((ran.returncode, ran.stdout, ran.stderr.decode()) == (2, b"", reason), f"--staging {word}: {ran}")


def disassembled(words, emitted):
    """The lines of a portal or of a staging area."""
    command = [program("dsa_text"), "disassemble", *words.split()]
    ran = subprocess.run(command, input=emitted, capture_output=True, text=False)
    common.expect(ran.returncode == 0, f"disassemble {words} ends with {ran.returncode}: {ran.stderr[:300]}")
    return ran.stdout.decode().splitlines(keepends=True)


def lines():
    """What the planner submits has the same report in lines: those of the portal, and after that of each batch those of
    its members. So it has without one of its fences, which is a word less in one of the lines."""
    fences = 0
    for path, portal, staging, address in planned_jobs():
        if not portal:
            continue
        members, text = disassembled(f"--staging --at {address}", staging) if staging else [], []
        for line in disassembled("--portal", portal):
            text.append(line)
            if line.startswith("batch of "):
                words = line.split()
                first = (int(words[4].rstrip(","), 16) - address) // 64
                text += members[first : first + int(words[2])]
        recording = recorded(portal, staging, address)
        common.expect(audited("".join(text).encode()) == audited(recording), f"{path}: another report of its lines")
        fenced = [k for k, line in enumerate(text) if line.startswith("fence ")]
        for k in fenced[:2]:
            without = recording[: 64 * k + 4] + bytes([recording[64 * k + 4] - 1]) + recording[64 * k + 5 :]
            less = "".join([*text[:k], text[k].removeprefix("fence "), *text[k + 1 :]]).encode()
            common.expect(audited(less) == audited(without), f"{path}, without the fence of line {k}: another report")
            fences += 1
    common.expect(fences > 10, f"only {fences} fences were left out")


# ---- a recording as a list to plan


def is_checked(it):
    """The entry is a compare with the flag check result."""
    return it[7] in (COMPARE, PATTERN) and it[4] & 0x80 != 0


def operation_line(it, number):
    """The line of an entry in the list of its recording, as docs/FORMATS.md has the grammar."""
    owner, word, record, first, second, size = struct.unpack_from("<IIQQQI", it)
    own, digits = int.from_bytes(it[40:48], "little"), it[16:24].hex()
    expected, check = (it[40], ", check") if is_checked(it) else (0, "")
    given, address = own & 0xFFFFFFFF, int.from_bytes(it[48:56], "little")
    seed = f"seed at {address:#x}" if word & SEED_READ else f"seed {given:#x}"
    kept = word & (PLAIN_SUM | PLAIN_DATA) if it[7] in CHECKSUMS else 0
    front = {
        MOVE: f"move {first:#x} -> {second:#x}, {size} bytes",
        FILL: f"fill {second:#x} with {digits}, {size} bytes",
        COMPARE: f"compare {first:#x} with {second:#x}, {size} bytes, expect {expected}",
        PATTERN: f"compare {first:#x} with pattern {it[24:32].hex()}, {size} bytes, expect {expected}",
        DELTA: f"delta {first:#x}, {own & 0xFFFFFFFF} bytes -> {second:#x}, {size} bytes",
        DUALCAST: f"dualcast {first:#x} -> {second:#x} and {own:#x}, {size} bytes",
        CRC: f"crc {first:#x}, {size} bytes, {seed}",
        COPY_CRC: f"copy_crc {first:#x} -> {second:#x}, {size} bytes, {seed}",
    }[word >> 24]
    at = record if word & 0x0C == 0x0C else ADDED + 32 * number
    options = f", pasid {owner % 2**20}" if owner % 2**20 else ""
    options += f"{', privileged' if owner >> 31 else ''}{check}" + (f", flags {kept}" if kept else "")
    return f"{front}, record {at:#x}{options} # entry {number}"


def operation_words(code):
    return f"operation {code:#x}" + (f" ({NAMED[code]})" if code in NAMED else "")


def listed_line(it, owner, number, count):
    """The line of an entry, or the comment in its place."""
    known, code = spans_of(it, owner), it[7]
    if isinstance(known, str):
        return f"# entry {number}, not looked at: " + (operation_words(code) if known == "operation" else WHY[known])
    if code == 0:
        return f"# entry {number}, left out: a no-op"
    if code in FURTHER and code not in CHECKSUMS:
        return f"# entry {number}, left out: {operation_words(code)}"
    if any(span.start < ADDED + 32 * count and ADDED < span.stop and len(span) for span in known[0] + known[1]):
        return f"# entry {number}, left out: it touches addresses that this list keeps for records"
    if is_checked(it) and it[40] > 1:
        return f"# entry {number}, left out: its check expects another result than 0 or 1"
    return operation_line(it, number)


def kept_fences(recording):
    """The entries whose fences guard or signal, each with which it does, by the report in JSON, which others judge."""
    kinds = ("guarding", "signalling", "guarding and signalling")
    found = [(it["entry"], it["what"]["kind"]) for it in audited(recording)[0]["findings"]]
    return {number: kind for number, kind in found if kind in kinds}


def wanted_list(recording):
    """The list of a recording: a line for each entry but those of batches, and one before each fence that is kept; and
    before them how many entries have a comment in place of their operation."""
    entries = [recording[at : at + 64] for at in range(0, len(recording), 64)]
    lines, left, head, kept, total, out = [], 0, b"", kept_fences(recording), 0, 0
    for number, it in enumerate(entries):
        if number in kept:
            lines.append(f"barrier # {kept[number]} fence of entry {number}")
        if left == 0 and it[7] == 1:
            left, head = struct.unpack_from("<I", it, 32)[0], it
            continue
        lone = left == 0
        left -= 0 if lone else 1
        owner = struct.unpack_from("<I", it if lone else head)[0]
        lines.append(listed_line(it, owner, number, len(entries)))
        total, out = total + 1, out + lines[-1].startswith("#")
    if total == 0:
        lines.insert(0, "# this list is empty: the recording has no operations")
    if out:
        why = "each for the reason in its comment: no plan has them, and no cost counts them"
        lines.insert(0, f"# left out: {out} of {total} operations, {why}")
    return "".join(line + "\n" for line in lines)


def single_batches(recording):
    """How many batches of a recording have one member."""
    entries = [recording[at : at + 64] for at in range(0, len(recording), 64)]
    singles, at = 0, 0
    while at < len(entries):
        size = struct.unpack_from("<I", entries[at], 32)[0] if entries[at][7] == 1 else 0
        singles += size == 1
        at += 1 + size
    return singles


def as_list(recording):
    """What `audit --list` writes."""
    ran = subprocess.run([program("dsa_text"), "audit", "--list"], input=recording, capture_output=True)
    common.expect(ran.returncode == 0 and not ran.stderr, f"audit --list ends with {ran.returncode}: {ran.stderr[:300]}")
    return ran.stdout.decode()


def expect_list(recording, place):
    """The list of a recording is the wanted one."""
    text = as_list(recording)
    common.expect(text == wanted_list(recording), f"{place}: another list")
    return text


def lists():
    """Random recordings as lists. What the planner submits has a line for each piece. The least plan of a list costs at
    most what the recording costs with the missing fences, and one before each member that shares a record or repeats an
    operation."""
    explained = 0
    for seed in range(audit_model.COUNT):
        recording = Maker(seed, has_repeats=False).recording()
        text = expect_list(recording, f"seed {seed}")
        report = audited(recording)[0]
        costs, kinds = report["costs"], [it["what"]["kind"] for it in report["findings"]]
        ran = subprocess.run([program("dsa_text"), "explain", "--json"], input=text.encode(), capture_output=True)
        is_refused = ran.returncode == 1 and re.search(rb"\[(?!130 Line\])\d+ [A-Z]\w*", ran.stderr)
        said = f"{ran.returncode}: {ran.stderr[:300]}"
        common.expect(ran.returncode == 0 or is_refused, f"seed {seed}: explain ends with {said}")
        if ran.returncode == 0:
            # a batch of one member has no price: its member would cost 10 by itself
            bound = costs["corrected"] + 10 * single_batches(recording)
            bound += 3 * (kinds.count("shared record") + kinds.count(audit_model.REPEATED))
            least = json.loads(ran.stdout)["cost"]
            common.expect(least <= bound, f"seed {seed}: the least plan costs {least}, the recording {costs}")
            explained += 1
    common.expect(explained > audit_model.COUNT // 20, f"only {explained} lists were explained")
    for path, portal, staging, address in planned_jobs():
        text = expect_list(recorded(portal, staging, address), path)
        common.expect("left out" not in text, f"{path}: a piece was left out")


def listed_entries():
    """Entries around the records that a list adds, compares with each expected result, and checksums with each flag of
    their own, with all other flags and without a record, whatever is where they have no field."""
    for first in (ADDED - 65, ADDED - 64, ADDED - 63, ADDED, ADDED + 95, ADDED + 96, WRAP - 64):
        recording = b"".join(entry(MOVE, 0, 0, first, 0x2000 + 64 * k, 64) for k in range(3))
        expect_list(recording, f"a source at {first:#x}")
    for code, flags, expected in itertools.product((COMPARE, PATTERN, MOVE), (0x0C, 0x8C), (0, 1, 2, 255)):
        recording = entry(code, flags, 0x8000, 0x1000, 0x2000, 8, expected)
        expect_list(recording, f"operation {code}, flags {flags:#x}, {expected}")
    some = (0x0C, 0x01000C, 0x02000C, 0x04000C, 0x07000C, 0x05008D, 0xFFFFFF, 0x030004)
    places = (0, 0x9010, ADDED - 4, ADDED - 3, ADDED + 31, ADDED + 32)
    for code, flags, at in itertools.product(CHECKSUMS, some, places):
        recording = entry(code, flags, 0x8000, 0x1000, 0x2000, 64, 0x0102030405060708, last=at + (3 << 64))
        expect_list(recording, f"operation {code}, flags {flags:#x}, {at:#x}")
