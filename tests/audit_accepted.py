"""Accepted pairs of conflicts, for tests/audit.py: random recordings, with the keys of random pairs of their members
accepted, are judged by a model of the definition (docs/FORMATS.md) that tries every set of fences; and recordings made
by hand."""

import json
import os
import random
import subprocess
import tempfile
from pathlib import Path

import audit_model
import common
from audit_entries import batch, entry, first_foreign
from audit_model import Batch, Maker, all_separated, audited, fewest, separated, submissions
from common import move, program
from findings import key_of
from model import COMPARE


# Two keys that fit nothing, and two lines that are no keys.
UNFIT = ("missing fence, read after write; batch of 9999; member 1: move, 8 bytes; member 0: move, 8 bytes",)
UNFIT += ("of last week", "# a comment", "")


def with_keys(recording, keys, *words):
    """The report on a recording, and the status, with these keys accepted."""
    with tempfile.NamedTemporaryFile("w") as file:
        file.write("".join(f"{key}\n" for key in keys))
        file.flush()
        return audited(recording, " ".join([*words, "--accept", file.name]))


def written_keys(recording, keys=()):
    """The keys that are written of the errors, with these accepted."""
    with tempfile.NamedTemporaryFile("w") as file:
        file.write("".join(f"{key}\n" for key in keys))
        file.flush()
        command = [program("dsa_text"), "audit", "--write-accept", "--accept", file.name]
        return subprocess.run(command, input=recording, capture_output=True).stdout.decode().splitlines()


class Accepting(Batch):
    """A recorded submission, of which the keys of some pairs are accepted."""

    def __init__(self, it, keys, findings, assumed):
        missing = [f for f in findings if f["what"]["kind"] == "missing"]
        errors = [f for f in findings if f["what"]["kind"] != "missing" or f["severity"] == "error"]
        super().__init__(it.number, it.head, it.entries, errors, assumed, it.is_batch)
        self.shown = {f["member"]: f["what"]["earlier"] for f in missing if f["severity"] == "accepted"}
        self.accepted = {p for p in self.certain if self.key(p) in keys and not separated(self.fences, p)}
        self.left = [p for p in self.certain if p not in self.accepted]

    def key(self, pair):
        """The key of a missing fence between two members that are known to conflict."""
        return key_of({"kind": "missing", "earlier": pair[0]}, self.entries, pair[1], 0, len(self.entries))

    def missing_before(self):
        """The missing fences if nothing is accepted, each with the last earlier member of its epoch that conflicts."""
        found, epoch = {}, 0
        for k in range(len(self.entries)):
            last = max((a for a, b in self.certain if b == k and a >= epoch), default=None)
            if k not in self.fences and last is not None:
                found[k] = last
            epoch = k if k in self.fences or k in found else epoch
        return found

    def stays(self, given, held):
        """Of fences those that are needed, that guard or signal, or that are held."""
        kept = set()
        for k in sorted(given):
            end = min((it for it in given if it > k), default=len(self.entries))
            begin = max((it for it in given if it < k), default=0)
            needed = any(a < k <= b < end and not any(a < it for it in kept) for a, b in self.possible)
            guards = any(begin <= m < k for m in self.fallible)
            signals = any(0 < k <= j < end for j in self.visible)
            if needed or guards or signals or k in held:
                kept.add(k)
        return kept

    def accepting_faults(self):
        """What is wrong with the missing, the accepted and the needless fences."""
        wanted = {k: a for k, a in self.missing_before().items() if (a, k) in self.accepted}
        if self.shown != wanted:
            yield f"accepted are {self.shown}, and not {wanted}"
        for later, what in self.found["missing"].items():
            pair = (what["earlier"], later)
            if pair not in self.left or separated(self.fences, pair):
                yield f"no fence is missing between {pair}"
        if not all_separated(self.corrected, self.left):
            yield "a conflict is left"
        free = [k for k in range(len(self.entries)) if k not in self.fences]
        if len(self.found["missing"]) != fewest(self.fences, free, self.left):
            yield "not the fewest fences are missing"
        if not self.is_batch:
            return
        before = self.stays(self.fences | set(self.missing_before()), set())
        held = before & self.fences
        if self.reduced != self.stays(self.corrected, held):
            yield f"{self.reduced} stay, and not {self.stays(self.corrected, held)}"
        if not held <= self.reduced:
            yield "accepting frees a fence"
        kept, others = self.kept_pairs()
        if len(self.reduced) != len(held) + fewest(held, sorted(self.corrected - held), kept + others):
            yield "not the fewest fences stay"


def drawn_keys(chosen, recording):
    """The keys of some pairs of members of a recording, which may conflict or not be in one epoch."""
    keys = set()
    for it, is_batch in submissions(recording, {"findings": []}):
        pairs = Accepting(it, (), [], ("writes", False)).certain if is_batch else []
        share = chosen.choice([0, 0.3, 0.7, 1])
        keys |= {Accepting(it, (), [], ("writes", False)).key(p) for p in pairs if chosen.random() < share}
    return keys


def accepting():
    """Random recordings with random pairs accepted; and with all errors accepted, one after another, none is left."""
    sums = {"accepted": 0, "missing": 0, "stale": 0}
    for seed in range(audit_model.COUNT // 2):
        chosen, recording = random.Random(seed), Maker(seed).recording()
        if first_foreign(recording):
            continue
        assumed = chosen.choice([("writes", False), ("signals", True), ("batches", True)])
        words = ["--await", assumed[0]] + ["--resident"] * assumed[1]
        keys = [*drawn_keys(chosen, recording), *UNFIT]
        chosen.shuffle(keys)
        report, status = with_keys(recording, keys, *words)
        errors = any(it["severity"] == "error" for it in report["findings"])
        common.expect(status == int(errors), f"seed {seed}: status {status}")
        used = {key for key in written_keys(recording) if not key.startswith("missing fence")}
        found = {}
        for finding in report["findings"]:
            found.setdefault(finding["submission"], []).append(finding)
        for it, _ in submissions(recording, report, assumed):
            judged = Accepting(it, keys, found.get(it.number, []), assumed)
            for fault in judged.accepting_faults():
                common.expect(False, f"seed {seed} {' '.join(words)}, submission {it.number}: {fault}")
            used |= {judged.key(pair) for pair in judged.accepted}
            sums["accepted"] += len(judged.accepted)
            sums["missing"] += len(judged.found["missing"])
        stale = [key for key in keys if key[:1].islower() and key not in used]
        common.expect(report["stale"] == stale, f"seed {seed}: stale are {report['stale']}, and not {stale}")
        sums["stale"] += len(stale) - 2
        denied = with_keys(recording, keys, *words, "--deny", "stale")[1]
        common.expect(denied == 1, f"seed {seed}: status {denied} with stale keys that are denied")
    print("accepting: " + ", ".join(f"{number} {name}" for name, number in sums.items()))
    common.expect(sums["accepted"] > audit_model.COUNT // 10, f"too few pairs are accepted: {sums}")


def till_none_is_left():
    """The keys that are written are accepted, until none is written; then no missing fence is an error."""
    for seed in range(audit_model.COUNT // 10):
        recording, keys = Maker(seed).recording(), []
        if first_foreign(recording):
            continue
        for _ in range(64):
            more = written_keys(recording, keys)
            if not more:
                break
            keys += more
        status = with_keys(recording, keys)[1]
        common.expect(not more and status == 0, f"seed {seed}: left are {more}, status {status}")


def padded_accepting():
    """A batch has the same findings with 70 more members, which touch nothing that it touches, and the same pairs
    accepted: above 64 members conflicts before accepted ones come from a sweep."""
    found, idle = 0, [entry(COMPARE, 2, 0, 0x10000000 + 64 * k, 0x20000000 + 64 * k, 64) for k in range(70)]
    left_out = ("small batch", "overwrites batch")

    def said(members, pairs):
        made = Accepting(Batch(0, batch(*members)[:64], members, [], ("writes", False)), (), [], ("writes", False))
        keys = [made.key(p) for p in pairs]
        return [it for it in with_keys(batch(*members), keys)[0]["findings"] if it["what"]["kind"] not in left_out]

    for seed in range(audit_model.COUNT // 10):
        chosen = random.Random(seed)
        for it, is_batch in submissions(Maker(seed).recording(), {"findings": []}):
            if not is_batch or len(it.entries) < 2:
                continue
            pairs = [p for p in it.certain if chosen.random() < 0.6]
            wanted, got = said(it.entries, pairs), said([*it.entries, *idle], pairs)
            common.expect(got == wanted, f"seed {seed}, {it.number}: {got} with members after it, and not {wanted}")
            found += sum(f["severity"] == "accepted" for f in wanted)
    common.expect(found > audit_model.COUNT // 50, f"only {found} are accepted")


def by_hand():
    """An accepted pair hides no other, and no fence is needless because an accepted one would be there."""
    first = move(0x1000, 0x2000, size=64, record_at=0x8000).bytes()
    second, near = (move(0x3000, at, size=8, record_at=0x8020).bytes() for at in (0x4000, 0x5000))
    check = entry(COMPARE, 0x0E, 0x8040, 0x2000, 0x4000, 8)
    keys = ["missing fence, read after write; batch of 3; member 2: compare, 8 bytes; member 1: move, 8 bytes"]
    for members, wanted in [((first, second, check), (1, 0)), ((first, near, check), (0,))]:
        report, status = with_keys(batch(*members), keys)
        errors = [it["what"]["earlier"] for it in report["findings"] if it["severity"] == "error"]
        accepted = [it["what"]["earlier"] for it in report["findings"] if it["severity"] == "accepted"]
        common.expect((status, accepted + errors) == (1, [*wanted]), f"{wanted}: {status}, {report['findings']}")
    reads = entry(COMPARE, 0x0E, 0x8020, 0x2000, 0x9000, 8)
    unfenced = move(0x2000, 0x3000, size=64, record_at=0x8040).bytes()
    copies = bytearray(unfenced)
    copies[4] |= 1
    keys = ["missing fence, read after write; batch of 3; member 1: compare, 8 bytes; member 0: move, 64 bytes"]
    words = ["--await", "batches", "--resident", "--deny", "needless"]
    report, status = with_keys(batch(first, reads, bytes(copies)), keys, *words)
    kinds = [(it["what"]["kind"], it["severity"]) for it in report["findings"]]
    common.expect((status, kinds) == (0, [("missing", "accepted")]), f"a fence is freed: {status}, {kinds}")
    report, status = with_keys(batch(first, reads, unfenced), keys)
    found = [(it["member"], it["what"]["kind"], it["severity"]) for it in report["findings"]]
    wanted = [(1, "missing", "accepted"), (2, "missing", "error")]
    common.expect((status, found) == (1, wanted), f"an accepted fence counts as set: {status}, {found}")


def costs_by_hand():
    """If each missing fence is accepted, no cost has the missing fences."""
    first, second = move(0x1000, 0x2000, size=64, record_at=0x8000), move(0x2000, 0x3000, size=8, record_at=0x8020)
    key = "missing fence, read after write; batch of 2; member 1: move, 8 bytes; member 0: move, 64 bytes"
    for keys, wanted in (([], "cost 14 as submitted, 17 with the missing fences"), ([key], "cost 14 as submitted")):
        with tempfile.NamedTemporaryFile("w") as file:
            file.write("".join(f"{it}\n" for it in keys))
            file.flush()
            command = [program("dsa_text"), "audit", "--accept", file.name]
            ran = subprocess.run(command, input=batch(first.bytes(), second.bytes()), capture_output=True)
        lines = ran.stdout.decode().splitlines()
        common.expect(wanted in lines, f"{keys}: {lines}, and not {wanted}")


def hazards_by_hand():
    """A key names all hazards of its pair, so another hazard of the two is not accepted by it."""
    first = move(0x1000, 0x2000, size=64, record_at=0x8000).bytes()
    reads = "missing fence, read after write; batch of 2; member 1: move, 8 bytes; member 0: move, 64 bytes"
    both = reads.replace("write;", "write, write after write;")
    for target, keys, wanted in (
        (0x3000, [], 1), (0x3000, [reads], 0), (0x3000, [both], 1), (0x2020, [reads], 1), (0x2020, [both], 0),
    ):
        report, status = with_keys(batch(first, move(0x2000, target, size=8, record_at=0x8020).bytes()), keys)
        severity = [it["severity"] for it in report["findings"]]
        common.expect((status, severity) == (wanted, [("accepted", "error")[wanted]]), f"{target:#x}, {keys}: {report}")


def stale_by_hand():
    """A key that takes a pair out is not stale, though no finding shows it: member 2 reads what both others write, and
    its conflict with member 1 alone is named. Several files are judged together."""
    first, second = move(0x1000, 0x2000, size=64, record_at=0x8000), move(0x3000, 0x4000, size=8, record_at=0x8020)
    recording = batch(first.bytes(), second.bytes(), entry(COMPARE, 0x0E, 0x8040, 0x2000, 0x4000, 8))
    key = "missing fence, read after write; batch of 3; member 2: compare, 8 bytes; member "
    of_0, of_1, other = f"{key}0: move, 64 bytes", f"{key}1: move, 8 bytes", f"{key}0: move, 63 bytes"
    of_wait = "missing wait, read after write; lone: move, 8 bytes; lone: move, 64 bytes"  # it needs events
    with tempfile.TemporaryDirectory() as folder:
        known, one, two, many = (Path(folder, name) for name in ("known.txt", "one.bin", "two.bin", "many.bin"))
        one.write_bytes(recording)
        two.write_bytes(first.bytes())
        many.write_bytes(recording * 5000)  # 1.28 million bytes, which are audited in parts
        for lines, files, wanted in (
            ([of_0], [one], []), ([of_1, other, of_0], [one], [2]), (["# known", "", of_0, other], [two, one], [4]),
            ([of_0, of_1], [two], [1, 2]), ([other, other], [one], [1, 2]), ([of_wait, of_0, other], [one], [3]),
            ([of_0, of_1, other], [many], [3]), ([other], [many], [1]),
        ):
            known.write_text("\n".join(lines))
            for denied in ("needless", "stale"):
                words = [program("dsa_text"), "audit", "--deny", denied, "--accept", known]
                ran = subprocess.run([*words, *files], capture_output=True)
                severity = "error" if denied == "stale" else "note"
                said = [f"{known}: line {n}: {severity}: this fits nothing: {lines[n - 1]}" for n in wanted]
                got = [line for line in ran.stdout.decode().splitlines() if "this fits nothing" in line]
                common.expect(got == said, f"{lines}, {files}: {got}, and not {said}")
                has_pairs = one in files or many in files
                is_error = denied == "stale" and wanted != [] or has_pairs and not {of_0, of_1} <= {*lines}
                common.expect(ran.returncode == int(is_error), f"{lines}, {files}, {denied}: {ran.returncode}")
            ran = subprocess.run([*words, "--json", *files], capture_output=True)
            got = json.loads(ran.stdout)["stale"]
            common.expect(got == [lines[n - 1] for n in wanted], f"{lines}, {files}: {got}")
            ran = subprocess.run([*words, "--write-accept", *files], capture_output=True)
            common.expect((ran.returncode, b"fits nothing" in ran.stdout) == (0, False), f"{lines}: {ran.stdout}")
        known.write_bytes(f"\ufeff{of_0}\r\n{of_1} \t\r\n".encode())  # as other systems write it
        ran = subprocess.run([*words, one], capture_output=True)
        common.expect((ran.returncode, b"fits nothing" in ran.stdout) == (0, False), f"CRLF: {ran.stdout}")
        known.write_text(f"{of_0} @ copy < main\n")
        placed = subprocess.run([*words, one], capture_output=True, text=True).stdout.splitlines()[-1]
        said = "error: a key with a place is for dsa_trace --audit, and this fits nothing here"
        said = f"{known}: line 1: {said}: {of_0} @ copy < main"
        common.expect(placed == said, f"of a key with a place is said {placed}")
        missing = subprocess.run([*words, "nowhere.bin"], capture_output=True)
        common.expect((missing.returncode, b"fits nothing" in missing.stdout) == (2, False), f"{missing.stdout}")


def soon_accepted():
    """65,472 members in one batch. Each second conflicts with the one before it, or all conflict; half of the pairs of
    neighbours are accepted. The processor time is printed; more than ten seconds are a fault."""
    size = 64 * 1023
    kinds = {"each second conflicts": lambda k: 0x9000000 + 64 * (k // 2), "all conflict": lambda k: 0x2000}
    for name, target in kinds.items():
        made = [move(0x1000000 + 64 * k, target(k), size=8, record_at=0x20000000 + 32 * k) for k in range(size)]
        members = [it.bytes() for it in made]
        what = "missing fence, write after write"
        keys = [
            f"{what}; batch of {size}; member {k}: move, 8 bytes; member {k - 1}: move, 8 bytes"
            for k in range(1, size, 2)
        ]
        start = os.times().children_user
        report, _ = with_keys(batch(*members), keys)
        took = os.times().children_user - start
        accepted = sum(it["severity"] == "accepted" for it in report["findings"])
        print(f"a batch of {size}, {name}, {accepted} accepted: {took:.2f} s, {len(report['findings'])} findings")
        common.expect(accepted == size // 2 and took < 10, f"{name}: {accepted} accepted, {took:.1f} s")


def soon_used():
    """4,000 batches that lack a fence, with 4,000 keys for batches of as many that fit nothing: the later member has
    another size in each, or the earlier one; and a batch of 1,000 with 20,000 keys, of which each pair of neighbours
    uses one. The processor time is printed; more than six seconds are a fault."""
    what = "missing fence, write after write; batch of"
    pair = [move(0x1000 + 64 * k, 0x2000, size=8, record_at=0x9000 + 32 * k).bytes() for k in range(2)]
    many = [move(0x100000 + 64 * k, 0x2000, size=8, record_at=0x900000 + 32 * k).bytes() for k in range(1000)]
    later = [f"{what} 2; member 1: move, {9 + k} bytes; member 0: move, 8 bytes" for k in range(4000)]
    earlier = [f"{what} 2; member 1: move, 8 bytes; member 0: move, {9 + k} bytes" for k in range(4000)]
    own = f"{what} 2; member 1: move, 8 bytes; member 0: move, 8 bytes"
    near = [f"{what} 1000; member {k}: move, 8 bytes; member {k - 1}: move, 8 bytes" for k in range(1, 1000)]
    far = [f"{what} 1000; member {k % 1000}: move, 8 bytes; member {k}: move, 8 bytes" for k in range(1000, 20001)]
    cases = {"another later member": (batch(*pair) * 4000, [*later, own], 4000, 0)}
    cases["another earlier member"] = (batch(*pair) * 4000, [own, *earlier], 4000, 0)
    cases["a long batch"] = (batch(*many), [*far, *near], 19001, 1)
    for name, (recording, keys, stale, wanted) in cases.items():
        start = os.times().children_user
        report, status = with_keys(recording, keys)
        took = os.times().children_user - start
        print(f"{len(keys)} accepted keys, {name}: {took:.2f} s")
        common.expect((status, len(report["stale"])) == (wanted, stale), f"{name}: {status}, {len(report['stale'])}")
        common.expect(took < 6, f"{name}: {took:.1f} s")
