"""Submits what the library plans to the software device, which shares no code with it, and compares what that leaves.

    tests/run trace_campaign [COUNT [SEED]]

Random lists of six operations, those of tests/campaign.py, and as many of all eight, with barriers and with pages that
are absent, those of tests/trace_lists.py, are planned by the proved library and submitted by the code of
bindings/c/submit.c, in the order of several seeds. Each plan is legal, and the bytes that submit it are those of
tests/model.py. Memory, records and batch records are those of the `run` job of dsa, or of the model where dsa is not
built or a job may not have the list. Then one fence is left out of each list that has some: of those whose order shows
in memory the device leaves something else within 100 tries, for nine of ten at least. What was submitted is audited,
where dsa_text is built: no plan lacks a fence, and one of which a fence was left out lacks it just if two operations
conflict there by more than a record that is no checksum's. And lists whose check fails: after a barrier they publish
nothing, under each seed."""

import itertools
import json
import random
import re
import shutil
import subprocess
import sys
import tempfile
from collections import Counter
from pathlib import Path

import bindings
import common
import model
import trace_lists
from audit_entries import is_repeat
from campaign import Case
from common import ROOT, expect, run_test, stop
from model import FENCE, is_checksum
from trace_lists import ABSENT, BASE, BLOCKED, Mixed, moved
from trace_runs import STRICT, TEXT, has_text

# What lists of all eight operations have between them: each status that an operation may end with among that.
STATUSES = (0x01, 0x02, 0x03, 0x04, 0x07, 0x08, 0x83, 0x84)
KINDS = ["barrier", "checksum that goes on", "copy with a checksum to a later source", "repeated operation"]
KINDS += ["stop on the way", "checksum that stops on its way", "move that stops on its way from the end"]
KINDS += [f"status {it:#x}" for it in STATUSES] + [f"operation {it:#x}" for it in (3, 4, 5, 6, 8, 9, 0x10, 0x11)]
TRIES = 100
SHOWN = 300  # of so many lists at most it is asked whether their order shows, which takes long
BLOCK = 500  # so many lists are submitted by one run
ORDERS = [("data", 1), ("data", 2), ("data", 3), ("members", 4), ("members", 5), ("members", 6)]
ARCHIVE = ROOT / "crates/dsa_c/out/libdsa_c.a"
PROGRAM = ROOT / "crates/dsa/out/dsa"


def left_by_dsa(case):
    """What `run` leaves: the memory and the batch records."""
    members = {"list": case.digits(map(moved, case.operations)), "image": {"base": BASE, "bytes": case.memory.hex()},
               "engines": 2}
    ran = subprocess.run([PROGRAM], input=json.dumps(case.job("run", **members)), capture_output=True, text=True)
    answer = json.loads(ran.stdout)
    return bytes.fromhex(answer["image"]), [bytes.fromhex(it) for it in answer["batch_records"]]


def groups_of(marks, planner):
    """The plan that the marks of pieces say: for each group which are fenced."""
    plan = []
    for mark in marks:
        if mark & planner.BEGINS:
            plan.append([])
        plan[-1].append(bool(mark & planner.FENCED))
    return plan


class Listed:
    """A list, its plan, and what a run of it leaves."""

    def __init__(self, name, case, planner):
        self.name, self.case, self.ended = name, case, []
        for piece in case.pieces:
            case.memory[piece.record_at : piece.record_at + 32] = bytes(32)
        planned = planner.plan_list_certified(planner.Settings(**vars(case.settings)),
                                              bytes.fromhex(case.digits(map(moved, case.operations))))
        self.plan, self.portal, self.staging = groups_of(planned.marks, planner), planned.portal, planned.staging
        self.starts = list(itertools.accumulate(map(len, self.plan), initial=0))
        memory, _, records = model.outcome(self.plan, case.pieces, case.memory, self.noted)
        is_mixed = isinstance(case, Mixed)
        self.left = left_by_dsa(case) if PROGRAM.exists() and not is_mixed else (memory, records)
        split = [model.pieces_of(op, case.transfer) for op in case.operations]
        self.barriers = {sum(map(len, split[:k])) for k, op in enumerate(case.operations) if op.flags & FENCE and k}

    def noted(self, memory, op):
        """Does an operation, and keeps the record with which it has ended."""
        status = trace_lists.execute(memory, op)
        self.ended.append((op, bytes(memory[op.record_at : op.record_at + 32])))
        return status

    def fault(self):
        """What is wrong with the plan and its bytes, or None."""
        pair = model.first_fault(self.case.pieces, self.plan)
        if pair:
            return f"no fence between {pair}"
        cuts = {at for epoch in model.epochs(self.plan) for at in epoch[:1]}
        if self.barriers - cuts:
            return f"the barriers before {self.barriers - cuts} are lost"
        emission = model.emission(self.plan, [moved(it) for it in self.case.pieces], self.case.settings)
        return None if emission == (self.portal, self.staging) else "other bytes submit it"

    def fences(self):
        """Each fence, as its group and its place in that, and the plan without it."""
        for group, fences in enumerate(self.plan):
            for at, fenced in enumerate(fences):
                if fenced:
                    without = [list(it) for it in self.plan]
                    without[group][at] = False
                    yield group, at, without

    def shows(self, without):
        """Whether some order of the pieces that lost their fence leaves something else."""
        case = self.case
        for epoch in model.epochs(without):
            if epoch in model.epochs(self.plan):
                continue
            for order in itertools.islice(itertools.permutations(epoch), 720):
                pieces = list(case.pieces)
                pieces[epoch[0] : epoch[-1] + 1] = [case.pieces[k] for k in order]
                memory, _, records = model.outcome(without, pieces, case.memory, trace_lists.execute)
                if (memory, records) != self.left:
                    return True
        return False

    def line(self, unfenced=None, tries=1):
        """The case for planned.c, perhaps without the fence of this group and place."""
        staging, (memory, records) = bytearray(self.staging), self.left
        if unfenced:
            group, place = unfenced
            batched = sum(len(it) for it in self.plan[:group] if len(it) > 1)
            staging[64 * (batched + place) + 4] &= 0xFF - FENCE
        parts = [self.portal, staging, self.case.memory, memory, b"".join(records)]
        return " ".join([str(tries), *(part.hex() + "00" for part in parts)]) + "\n"

    def lacking(self, group, place):
        """The pairs of members that conflict once the fence of this place is left out, as an audit looks at them: by
        their data and by records of checksums."""
        own = [moved(it) for it in self.case.pieces[self.starts[group] : self.starts[group + 1]]]
        fenced = [0, *(at for at, it in enumerate(self.plan[group]) if it), len(own)]
        before, end = max(at for at in fenced if at < place), min(at for at in fenced if at > place)
        pairs = itertools.product(range(before, place), range(place, end))
        return [pair for pair in pairs if needs_fence(*(own[at] for at in pair))]


def vectors():
    """The model's checksum has the published values, of the catalogue's nine digits and of RFC 3720, appendix B.4."""
    known = {b"123456789": 0xE3069283, bytes(32): 0x8A9136AA, b"\xff" * 32: 0x62A8AB43}
    known |= {bytes(range(32)): 0x46DD794E, bytes(reversed(range(32))): 0x113FDB5C}
    for data, value in known.items():
        expect(model.checksum(data, 0, 0) == value, f"the checksum of {data} is {model.checksum(data, 0, 0):#x}")
        goes_on = model.checksum(data[7:], model.checksum(data[:7], 0, 0), 0)
        expect(goes_on == value, f"the checksum of {data} in two parts is {goes_on:#x}")


def needs_fence(one, other):
    """Whether two members conflict by their data and records of checksums, and are no repeated operation."""
    writes = lambda op: op.targets() + [(op.record_at, 32)] * is_checksum(op)
    meets = model.any_meet(writes(one), writes(other) + other.sources()) or model.any_meet(writes(other), one.sources())
    return meets and not is_repeat(one.bytes(), other.bytes())


def submitted(folder, cases, order, seed, *options):
    """What the client prints of the cases, of each by its words."""
    Path(folder, "cases").write_text("".join(cases))
    command = [f"{folder}/dsa_trace", "--order", order, "--seed", str(seed), *options, "--", f"{folder}/planned",
               f"{folder}/cases"]
    ran = subprocess.run(command, capture_output=True, text=True, timeout=1200)
    right = ran.returncode == 0 and len(ran.stdout.splitlines()) == len(cases)
    expect(right, f"the submissions of seed {seed} end with status {ran.returncode}: {ran.stderr[-500:]}")
    return [line.split() for line in ran.stdout.splitlines()]


def whole(folder, lists):
    """The planner's lists leave what they should."""
    cases = [it.line() for it in lists]
    for listed in lists:
        expect(listed.fault() is None, f"list {listed.name}: {listed.fault()}")
    for order, seed in ORDERS:
        for listed, answer in zip(lists, submitted(folder, cases, order, seed)):
            right = answer[:2] == ["0", "-1"]
            expect(right, f"list {listed.name} in the order {order} of seed {seed} differs: try and place {answer}")


def without_fence(folder, lists):
    """With a fence less, lists whose order shows leave something else, most of them."""
    chosen = []
    for listed in lists:
        found = [place for *place, without in listed.fences() if listed.shows(without)]
        if found:
            chosen.append((listed.name, listed.line(random.Random(listed.name).choice(found), TRIES)))
    answers = submitted(folder, [line for _, line in chosen], "data", 1)
    late = [name for (name, _), answer in zip(chosen, answers) if answer[0] == "0"]
    seen = len(chosen) - len(late)
    print(f"{len(chosen)} lists with a fence less, whose order shows; {seen} left something else within {TRIES} tries")
    expect(chosen and seen >= 0.9 * len(chosen), f"only {seen} of {len(chosen)} are seen; not {late[:20]}")


def audited(folder, cases):
    """For each case what an audit of its submissions finds, as the group, the finding and the member."""
    with tempfile.TemporaryDirectory(dir=folder) as out:
        answers = submitted(folder, cases, "members", 1, "--out", out)
        parts = sorted(Path(out, "seed-1").glob("*.dsa"), key=lambda path: (len(path.name), path.name))
        recording = b"".join(path.read_bytes() for path in parts)
    ran = subprocess.run([TEXT, "audit", "--json"], input=recording, capture_output=True)
    report = json.loads(ran.stdout)
    starts = list(itertools.accumulate((int(answer[2]) for answer in answers), initial=0))
    count = report["totals"]["batches"] + report["totals"]["lone"]
    expect(count == starts[-1], f"{starts[-1]} submissions are made, and {count} are audited")
    found = {}
    for it in report["findings"]:
        found.setdefault(it["submission"], []).append(it)
    return [[(at - first, it) for at in range(first, end) for it in found.get(at, [])]
            for first, end in itertools.pairwise(starts)]


def missing(findings):
    """The missing fences among findings, each as its group, the earlier member and the later one."""
    return [(group, it["what"]["earlier"], it["member"]) for group, it in findings if it["what"]["kind"] == "missing"]


def audits(folder, lists):
    """An audit finds no missing fence; and of a fence that is left out just that it is missing, if it parts members
    that an audit looks at. Answers how many such fences, and how many others."""
    for listed, findings in zip(lists, audited(folder, [it.line() for it in lists])):
        needless = [(group, it["member"]) for group, it in findings if it["what"]["kind"] == "needless"]
        right = not missing(findings) and {listed.starts[group] + at for group, at in needless} <= listed.barriers
        expect(right, f"list {listed.name}: an audit finds {missing(findings)}, and needless {needless}")
    fences = [(it, [at for *at, _ in it.fences() if it.starts[at[0]] < len(it.ended)]) for it in lists]
    chosen = [(it, random.Random(it.name).choice(places)) for it, places in fences if places]
    counted = Counter()
    for (listed, (group, place)), findings in zip(chosen, audited(folder, [it.line(at) for it, at in chosen])):
        pairs, found = listed.lacking(group, place), missing(findings)
        right = [(group, *pair) for pair in pairs if all(one < pair[1] <= other for one, other in pairs)]
        expect(len(found) == bool(pairs) and set(found) <= set(right),
               f"list {listed.name} without fence {place} of group {group}: {pairs} conflict, and found is {found}")
        counted[bool(pairs)] += 1
    return counted


def kinds(listed):
    """What a list of all eight operations has, as far as it is done."""
    yield from {"barrier"} if listed.barriers else ()
    for op, record in listed.ended:
        yield f"operation {op.code:#x}"
        yield f"status {record[0]:#x}"
        if record[0] & 0x7F in (ABSENT, BLOCKED) and any(record[4:8]):
            yield "move that stops on its way from the end" if record[1] else "stop on the way"
            yield from {"checksum that stops on its way"} if is_checksum(op) else ()
    for (one, _), (other, _) in itertools.combinations(listed.ended, 2):
        if is_checksum(one) and is_checksum(other) and other.seeds() == [(one.record_at + 16, 4)]:
            yield "checksum that goes on"
        if is_checksum(one) and model.any_meet(one.targets(), other.sources()):
            yield "copy with a checksum to a later source"
        if model.any_meet(one.targets(), other.targets()) and is_repeat(moved(one).bytes(), moved(other).bytes()):
            yield "repeated operation"


def published(folder, count):
    """If a check fails, nothing after a barrier is done; without the barrier many lists publish all the same."""
    for seed in (1, 2, 3):
        for kind in ("barrier", "none"):
            command = [f"{folder}/dsa_trace", "--order", "data", "--seed", str(seed), "--", f"{folder}/published", kind]
            ran = subprocess.run([*command, str(count), str(seed)], capture_output=True, text=True, timeout=1200)
            found = re.fullmatch(rf"(\d+) of {count} lists have published\n", ran.stdout)
            right = found and (found[1] == "0" if kind == "barrier" else int(found[1]) > count // 4)
            expect(right, f"{kind}, seed {seed}: status {ran.returncode}, {ran.stdout}")


def build(folder):
    """The device, and the clients over the library."""
    commands = [["make", "-C", "trace", "CC=gcc", f"OUT={folder}"]]
    for name in ("planned", "published"):
        words = ["-O2", "-mmovdir64b", "-I", "bindings/c", "-o", f"{folder}/{name}"]
        commands.append(["gcc", *STRICT, *words, f"tests/trace/{name}.c", "bindings/c/memory.c", ARCHIVE])
    for command in commands:
        ran = subprocess.run(command, capture_output=True, text=True)
        if ran.returncode:
            stop(f"{command[0]}: {ran.stderr[-1000:]}")


def campaign(folder, names, planner):
    """For each name a list of six operations and one of all eight. Answers the first ones."""
    counted, cut, first, may_audit = Counter(), Counter(), [], has_text()
    for at in range(0, len(names), BLOCK):
        six = [Listed(name, Case(name), planner) for name in names[at : at + BLOCK]]
        eight = [Listed(f"{name} of eight", Mixed(name), planner) for name in names[at : at + BLOCK]]
        whole(folder, six + eight)
        cut += audits(folder, six + eight) if may_audit else {}
        counted.update(kind for listed in eight for kind in {*kinds(listed)})
        first = first or six[:SHOWN] + eight[:SHOWN]
        if len(names) > 1000:
            print(f"{at + len(six)} of {len(names)}, {common.failed} failed", file=sys.stderr, flush=True)
    print(", ".join(f"{kind} {number}" for kind, number in sorted(counted.items())))
    expect(len(names) < 200 or all(counted[kind] for kind in KINDS), f"some kind is missing: {counted}")
    if may_audit:
        print(f"{cut[True]} fences left out that an audit finds missing, {cut[False]} that it need not find")
        expect(len(names) < 200 or (cut[True] and cut[False]), f"only such fences are left out: {cut}")
    return first


def main(words):
    if len(words) > 2 or not all(word.isdigit() for word in words):
        stop("the words are COUNT and SEED")
    if not shutil.which("gcc") or not shutil.which("make") or not ARCHIVE.exists():
        print("skipped, there is no gcc or make, or crates/dsa_c is not built")
        sys.exit(0)
    if not PROGRAM.exists():
        print("crates/dsa is not built, so what is expected is that of tests/model.py")
    count, seed = [int(word) for word in words] + [200, 1][len(words) :]
    with tempfile.TemporaryDirectory() as folder:
        build(folder)
        vectors()
        names = [f"{seed}/{number}" for number in range(count)]
        without_fence(folder, campaign(folder, names, bindings.planner(folder)))
        published(folder, count)


if __name__ == "__main__":
    run_test(main)
