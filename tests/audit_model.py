"""Judges what `dsa_text audit` reports of a recording by brute force, for tests/audit.py: every set of fences of each
batch is tried. It also makes random recordings, each from a seed."""

import itertools
import json
import random
import struct
import subprocess
import tempfile
from pathlib import Path

import common
from audit_entries import (
    BLOCKS, CHECK, CHECKSUMS, CREATE, DRAIN, FURTHER, INSERT, STRIP, UPDATE, WRAP, accesses, batch, batches_of,
    can_fail, conflict, entry, has_record, has_reserved_bytes, is_misaligned, is_repeat, operands_of, owner_of, parts_of,
    record_of,
    shares_record, shows, span, touches_record,
)
from common import program
from model import COMPARE, DELTA, DUALCAST, FILL, MOVE, PATTERN

# How many random recordings a part judges: `main` of tests/audit.py sets it.
COUNT = 400
GREATEST_BATCH = 6
KINDS = ("unseen", "missing", "needless", "guarding", "signalling")
# What is wrong beside fences.
REPEATED = "repeated operation"
FLAWS = ("shared record", "overwrites batch", "data over record", "misaligned record", "reserved bytes", "small batch")
FLAWS += ("fence without effect",)

# ---- reports


def audited(recording, words=""):
    """The report on a recording as JSON, and the status. findings.py judges its keys, and what it says of entries."""
    ran = subprocess.run([program("dsa_text"), "audit", "--json", *words.split()], input=recording, capture_output=True)
    is_told = ran.returncode in (0, 1) and ran.stdout and not ran.stderr
    common.expect(is_told, f"audit ends with {ran.returncode}, {len(ran.stdout)} bytes and {ran.stderr[:300]}")
    report = json.loads(ran.stdout or "{}")
    for finding in report.get("findings", []):
        del finding["entries"], finding["key"]
    return report, ran.returncode


def audited_with_dumps(recording, words=""):
    """The report on a recording as JSON, and the status, where its members are in dumps."""
    found = list(batches_of(recording))
    taken = {at + 1 + k for at, _, members in found for k in range(len(members))}
    portal = b"".join(recording[64 * k : 64 * k + 64] for k in range(len(recording) // 64) if k not in taken)
    with tempfile.TemporaryDirectory() as folder:
        for at, head, members in found:
            Path(folder, str(at)).write_bytes(b"".join(members))
            words += f" --staging {int.from_bytes(head[16:24], 'little')}:{Path(folder, str(at))}"
        return audited(portal, words)


# ---- sets of fences


def separated(fences, pair):
    """A fence is after the earlier member, and at the later one at the latest."""
    return any(pair[0] < fence <= pair[1] for fence in fences)


def all_separated(fences, pairs):
    return all(separated(fences, pair) for pair in pairs)


def fewest(given, choice, pairs):
    """The least number of fences of the choice with which, beside those given, all pairs are separated."""
    for count in range(len(choice) + 1):
        for some in itertools.combinations(choice, count):
            if all_separated(given | set(some), pairs):
                return count
    return None


# ---- the brute force


class Batch:
    """A recorded submission, what the report says of it, and what is assumed: what is awaited, and whether memory is
    resident."""

    def __init__(self, number, head, entries, findings, assumed, is_batch=True):
        self.number, self.entries, self.head, self.is_batch = number, entries, head, is_batch
        owner = struct.unpack_from("<I", head)[0]
        self.known = [accesses(it, owner) for it in entries]
        self.fences = {k for k, it in enumerate(entries) if it[4] & 1}
        pairs = list(itertools.combinations(range(len(entries)), 2))
        is_seen = [not isinstance(it, str) for it in self.known]
        self.operands = [operands_of(it) for it in entries]
        both = [p for p in pairs if all(is_seen[k] for k in p)]
        clash = {p for p in both if conflict(*(self.known[k] for k in p))}
        known = [p for p in both if conflict(*(self.operands[k] for k in p))]
        self.repeats = {p for p in known if is_repeat(*(entries[k] for k in p))}
        self.certain = [p for p in known if p not in self.repeats]
        lasts = {b: max(a for a, other in known if other == b) for _, b in known}
        self.wanted_repeats = {b: {"kind": REPEATED, "earlier": a} for b, a in lasts.items() if (a, b) in self.repeats}
        self.is_seen = is_seen
        self.possible = [p for p in pairs if p in clash or not all(is_seen[k] for k in p)]
        self.assume(*assumed)
        self.found, self.flaws, self.repeated = {kind: {} for kind in KINDS}, [], {}
        for finding in findings:
            if finding["what"]["kind"] in FLAWS:
                self.flaws.append((finding["entry"], finding["severity"], finding["what"]))
                continue
            if finding["what"]["kind"] == REPEATED:
                self.repeated[finding["member"]] = finding["what"]
                continue
            for kind in finding["what"]["kind"].split(" and "):
                self.found[kind][finding["member"] or 0] = finding["what"]
        self.corrected = self.fences | set(self.found["missing"])
        self.reduced = self.corrected - set(self.found["needless"]) if is_batch else set()

    def assume(self, awaited, resident):
        """Which members can fail, and which show that they have ended."""
        both = list(zip(self.entries, self.known))
        self.fallible = [k for k, (it, known) in enumerate(both) if can_fail(it, known, resident)]
        self.visible = [k for k, (it, known) in enumerate(both) if shows(it, known, self.head, awaited, resident)]

    def kept_pairs(self):
        """Which pairs of members have to stay separated: first those that may conflict, then a member that can fail and
        each later one, and one that shows and each earlier one."""
        count = len(self.entries)
        held = [pair for pair in self.possible if separated(self.corrected, pair)]
        pairs = [(m, b) for m in self.fallible for b in range(m + 1, count)] + [(a, b) for b in self.visible for a in range(b)]
        return held, [pair for pair in pairs if separated(self.corrected, pair)]

    def needless_with(self, assumed):
        """How many fences are needless, at most, under other assumptions."""
        self.assume(*assumed)
        held, others = self.kept_pairs()
        return len(self.corrected) - fewest(set(), sorted(self.corrected), held + others)

    def shared_with(self, earlier, it):
        """What is said of an entry that shares a record with an earlier one: the record is that of the earlier, if it
        touches that, else its own."""
        other = self.entries[earlier]
        address = record_of(other if touches_record(other, it) else it)
        return {"kind": "shared record", "earlier": earlier, "address": address}

    def wanted_flaws(self, at):
        """What is wrong beside fences, of the descriptor, which is entry `at`, and of each member."""
        if self.is_batch:
            count = len(self.entries)
            there = [(count < 2, {"kind": "small batch", "size": count})]
            there.append((is_misaligned(self.head), {"kind": "misaligned record", "address": record_of(self.head)}))
            there.append((self.head[4] & 1, {"kind": "fence without effect"}))
            yield from ((at, "error", what) for is_there, what in there if is_there)
        list_at = struct.unpack_from("<Q", self.head, 16)[0]
        listed, kept = set(span(list_at, 64 * len(self.entries))), parts_of(self.head)[2]
        for k, it in enumerate(self.entries):
            reads, writes, record = parts_of(it)
            # a record within its own descriptor is written after the device has read that
            own = record <= set(span(list_at + 64 * k, 64))
            overwrites = (writes | record) & kept or writes & listed or (record & listed and not own)
            earlier = [i for i in range(k) if self.is_seen[i] and self.is_seen[k] and shares_record(self.entries[i], it)]
            there = [
                (earlier, self.shared_with(max(earlier, default=0), it)),
                (self.is_batch and overwrites, {"kind": "overwrites batch"}),
                ((reads | writes) & record, {"kind": "data over record", "address": record_of(it)}),
                (is_misaligned(it), {"kind": "misaligned record", "address": record_of(it)}),
                (has_reserved_bytes(it), {"kind": "reserved bytes"}),
                (not self.is_batch and it[4] & 1, {"kind": "fence without effect"}),
            ]
            yield from ((at + self.is_batch + k, "error", what) for is_there, what in there if is_there)

    def faults(self, at):
        wanted = list(self.wanted_flaws(at))
        if self.flaws != wanted:
            yield f"beside fences {self.flaws} is wrong, and not {wanted}"
        if self.repeated != self.wanted_repeats:
            yield f"repeated are {self.repeated}, and not {self.wanted_repeats}"
        yield from self.unseen_faults()
        for later, what in self.found["missing"].items():
            yield from self.missing_faults(what, later)
        if not all_separated(self.corrected, self.certain):
            yield "a conflict is left"
        free = [k for k in range(len(self.entries)) if k not in self.fences]
        least = fewest(self.fences, free, self.certain)
        if len(self.found["missing"]) != least:
            yield f"{least} fences are missing at least"
        yield from self.needless_faults()

    def costs(self, is_batch):
        """What it costs with each set of fences, under the prices of docs/FORMATS.md; or that it has no price."""
        size = len(self.entries)
        if is_batch and not 2 <= size <= GREATEST_BATCH:
            return {"unpriced": 1}
        sets = {"recorded": self.fences, "corrected": self.corrected, "reduced": self.reduced}
        return {name: 14 + 3 * len(fences) if is_batch else 10 for name, fences in sets.items()}

    def unseen_faults(self):
        wanted = {k: it for k, it in enumerate(self.known) if isinstance(it, str)}
        got = {k: it["why"] for k, it in self.found["unseen"].items()}
        if wanted != got:
            yield f"not looked at are {wanted}, and not {got}"
        for k, what in self.found["unseen"].items():
            if what["operation"] != self.entries[k][7]:
                yield f"member {k} has another operation"
            if (what["owner"], what["submission_owner"]) != (owner_of(self.entries[k]), owner_of(self.head)):
                yield f"member {k} has another owner"

    def missing_faults(self, what, later):
        """The two members conflict within an epoch, at this address, as this hazard says."""
        earlier = what["earlier"]
        if (earlier, later) not in self.certain or separated(self.fences, (earlier, later)):
            yield f"no fence is missing between {earlier} and {later}"
            return
        (reads, writes), (reads2, writes2) = self.operands[earlier], self.operands[later]
        hazards = {
            "read after write": writes & reads2,
            "write after write": writes & writes2,
            "write after read": reads & writes2,
        }
        kind = next(name for name, shared in hazards.items() if shared)
        if what["hazard"] != kind or int(what["address"], 16) not in hazards[kind]:
            yield f"{earlier} and {later} have another hazard than {what}"
        if what["records"] != [k for k in (earlier, later) if has_record(self.entries[k], int(what["address"], 16))]:
            yield f"the address of {earlier} and {later} lies in other completion records than {what}"

    def needless_faults(self):
        if not set(self.found["needless"]) <= self.fences:
            yield "a fence is needless that is not there"
        held, others = self.kept_pairs()
        if not all_separated(self.reduced, held):
            yield "a needless fence is needed"
        if not all_separated(self.reduced, others):
            yield "a needless fence guards or signals"
        least = fewest(set(), sorted(self.corrected), held + others)
        if len(self.reduced) != least:
            yield f"{least} fences stay"
        yield from self.spare_faults(held)
        complete = not self.found["missing"]
        if any(what["once_corrected"] == complete for what in self.found["needless"].values()):
            yield "what is needless once fences are set is not so"

    def spare_faults(self, held):
        """A fence that stays guards or signals if no conflict needs it beside the fences that stay before it and all
        those after it."""
        spare = set()
        for k in self.reduced:
            others = {it for it in self.reduced if it < k} | {it for it in self.corrected if it > k}
            if all_separated(others, held):
                spare.add(k)
        if spare != {*self.found["guarding"], *self.found["signalling"]} or not spare <= self.fences:
            yield f"guarding or signalling fences are {sorted(spare)}"
        for k in spare:
            guards = [m for m in self.fallible if m < k and not separated(self.corrected, (m, k - 1))]
            signals = [j for j in self.visible if 0 < k <= j and not separated(self.corrected, (k, j))]
            earlier = self.found["guarding"].get(k, {}).get("earlier")
            awaited = self.found["signalling"].get(k, {}).get("awaited")
            if (earlier, awaited) != (min(guards, default=None), min(signals, default=None)):
                yield f"fence {k} guards {guards} and signals {signals}, and not {earlier} and {awaited}"


def submissions(recording, report, assumed=("writes", False)):
    """The submissions of a recording, each with its findings."""
    entries = [recording[k : k + 64] for k in range(0, len(recording), 64)]
    findings, at, number = {}, 0, 0
    for finding in report["findings"]:
        findings.setdefault(finding["submission"], []).append(finding)
    while at < len(entries):
        is_batch = entries[at][7] == 1
        first, size = (at + 1, struct.unpack_from("<I", entries[at], 32)[0]) if is_batch else (at, 1)
        mine = findings.get(number, [])
        for it in mine:
            of_head = is_batch and it["member"] is None
            right = it["entry"] == (at if of_head else first + (it["member"] or 0)) and (of_head or (it["member"] is None) != is_batch)
            common.expect(right, f"submission {number}: {it} is at no entry of it")
        yield Batch(number, entries[at], entries[first : first + size], mine, assumed, is_batch), is_batch
        at, number = first + size, number + 1


def freed(recording, report, assumed):
    """How many more fences would be needless with each set of further assumptions, if some fence guards or signals."""
    if not report["totals"]["guarding"] + report["totals"]["signalling"]:
        return []
    awaited, resident = assumed
    names, rows = ["writes", "signals", "batches"], []
    for more in [("writes", True), ("signals", False), ("batches", False), ("signals", True), ("batches", True)]:
        if more != assumed and names.index(more[0]) >= names.index(awaited) and more[1] >= resident:
            # the fence of a lone descriptor has no effect, and is an error of its own
            count = sum(it.needless_with(more) for it, is_batch in submissions(recording, report, assumed) if is_batch)
            rows.append({"assumptions": {"await": more[0], "resident": more[1]}, "needless": count - report["totals"]["needless"]})
    return rows


def judge(recording, report, status, name, assumed=("writes", False)):
    """Compares a report with what the brute force finds."""
    totals, at = dict.fromkeys(("batches", "lone", "descriptors", "fences", "flaws", *KINDS), 0), 0
    costs = dict.fromkeys(("recorded", "corrected", "reduced", "unpriced"), 0)
    said = {"await": assumed[0], "resident": assumed[1]}
    common.expect(report["assumptions"] == said, f"{name}: assumed is {report['assumptions']}")
    wanted = freed(recording, report, assumed)
    common.expect(report["freed"] == wanted, f"{name}: needless too are {report['freed']}, and not {wanted}")
    for it, is_batch in submissions(recording, report, assumed):
        for fault in it.faults(at):
            common.expect(False, f"{name}, submission {it.number}: {fault}")
        at += len(it.entries) + is_batch
        totals["flaws"] += len(it.flaws)
        totals["batches" if is_batch else "lone"] += 1
        totals["descriptors"] += len(it.entries)
        totals["fences"] += len(it.fences)
        for kind, some in it.found.items():
            totals[kind] += len(some)
        for kind, number in it.costs(is_batch).items():
            costs[kind] += number
    common.expect(report["costs"] == costs, f"{name}: costs {report['costs']}, and not {costs}")
    common.expect(report["totals"] == totals, f"{name}: totals {report['totals']}, and not {totals}")
    common.expect(status == int(totals["missing"] + totals["flaws"] > 0), f"{name}: status {status}")
    return totals


# ---- random recordings


class Maker:
    """Makes a recording of a few submissions, which are as the seed says; where asked for, with entries that cannot be
    members, and with repeated operations."""

    def __init__(self, seed, has_foreign=False, has_repeats=True):
        self.random, self.list_at = random.Random(seed), 0x10000
        self.has_foreign, self.has_repeats = has_foreign, has_repeats
        self.crowd = self.random.choice([2, 4, 8, 16, 40])
        self.blocking = self.random.choice([0, 0.5, 1])

    def address(self):
        if self.random.random() < 0.01:
            return self.random.choice([self.list_at, 0x7000, 0x800000]) + 8 * self.random.randrange(4)
        return 0x1000 + 8 * self.random.randrange(self.crowd)

    def further(self, code, flags, record, size):
        """An operation beyond those of a descriptor. The seed of a checksum may be in the record of another member."""
        block, first, second, last = self.random.choices(range(4), [10, 10, 1, 1])[0], self.address(), self.address(), 0
        if code in (CHECK, INSERT, STRIP, UPDATE):
            size = self.random.randint(0, 2) * (BLOCKS[block] + 8 * (code != INSERT))
            size += 8 * (self.random.random() < 0.05)
        own = self.address() if code == CREATE else block << 16
        if code == CREATE:
            last = 10 * self.random.randint(0, 2)
        if code in CHECKSUMS:
            last = self.address() if self.random.random() < 0.5 else (record & -32) - 32 * self.random.randrange(2)
        if code in (*CHECKSUMS, DRAIN) and self.random.random() < 0.5:
            flags |= self.random.choice([0x010000, 0x010000, 0x020000])
        return entry(code, flags, record, first, second, size, own, last=last)

    def member(self, number, k, is_lone):
        choose, size = self.random.random, 8 * self.random.randint(1, 2)
        record = 0x800000 + 32 * (number * 16 + (k if choose() < 0.97 else 0)) + 8 * (choose() < 0.01)
        record = 0x7000 if choose() < 0.005 else record
        record = self.list_at + 32 * self.random.randrange(16) if choose() < 0.02 else record
        foreign = int(self.has_foreign and not is_lone)
        flags = 0x0C if choose() < 0.9 else self.random.choice([0, 0x04, 0x08, 0x1C, 0x0E])
        flags |= int(choose() < (0.35 if k else 0.05))
        flags |= 0x80 * int(choose() < 0.1) | 0x02 * int(choose() < self.blocking) | 0x10 * int(choose() < 0.05)
        code = self.random.choices(
            [MOVE, FILL, COMPARE, PATTERN, DELTA, DUALCAST, 0, 0x17, 1, "further", "empty", "wrap", "owner", "blank"],
            [45, 15, 15, 5, 3, 4, 8, 1, foreign, 20, 1, 1, foreign, 1],
        )[0]
        if code == "further":
            return self.further(self.random.choice(list(FURTHER)), flags, record, size)
        if code == "blank":
            return bytes(64)
        if code == "wrap":
            return entry(MOVE, flags, record, WRAP - 8, self.address(), 16)
        if code == "empty":
            return entry(MOVE, flags, record, self.address(), self.address(), 0)
        if code == "owner":
            return entry(MOVE, flags, record, self.address(), self.address(), size, owner=self.random.choice([7, 1 << 31]))
        if code == 0:
            return self.no_op(flags, record)
        own = 10 if code == DELTA else self.address() + 0x8000 if code == DUALCAST else 0
        return entry(code, flags, record, self.address(), self.address(), size, own)

    def no_op(self, flags, record):
        """A no-op, sometimes with a bit set after its header."""
        it = bytearray(entry(0, flags, record))
        if self.random.random() < 0.3:
            it[self.random.choice([*range(16, 64), 36, 37])] |= 1 << self.random.randrange(8)
        return bytes(it)

    def alike(self, it, other):
        """The other entry with the record, the fence and the requests of this one; sometimes with one more bit changed,
        of a flag, of an unused byte or of an operand, so that they may do different things."""
        same = bytearray(other[:4] + bytes([it[4] & 0x1D | other[4] & 0xE2]) + other[5:8] + it[8:16] + other[16:])
        if self.random.random() < 0.4:
            same[self.random.choice([4, 5, 6, 36, 38, 47, 48, 63])] ^= 1 << self.random.randrange(8)
        return bytes(same)

    def members(self, number):
        """The members of a batch, of which some are like an earlier one."""
        found = []
        for k in range(self.random.randint(0, 8)):
            it = self.member(number, k, False)
            if found and self.has_repeats and self.random.random() < 0.1:
                other = self.random.choice(found)
                it = self.alike(it, other)
            found.append(it)
        return found

    def recording(self):
        text = b""
        for number in range(self.random.randint(0, 12)):
            self.list_at = 0x10000 + 0x1000 * number
            if self.random.random() < 0.15:
                text += self.member(number, 0, True)
            else:
                flags = self.random.choice([0x0C, 0x0C, 0x0C, 0x1C, 0x00, 0x0D])
                text += batch(*self.members(number), flags=flags, at=self.list_at)
        return text
