"""Pictures that `dsa_text audit --svg` draws of recordings, for tests/audit.py: each has what a model takes from the
report on the same recording, and nothing else."""

import itertools
import re
import struct
import subprocess
import tempfile
import time

import audit_model
import common
import findings
import pictured
from audit_entries import NAMED, batch, data_of, entry, submissions_of
from audit_model import Maker, audited
from common import move, program
from model import COMPARE, DELTA, DUALCAST, FILL, MOVE, PATTERN

NAMES = {0: "no-op", MOVE: "move", FILL: "fill", COMPARE: "compare", PATTERN: "compare pattern", DELTA: "delta"}
NAMES |= {DUALCAST: "dualcast"} | NAMED
WORDS = {
    "guarding": "guards {earlier}",
    "signalling": "signals {awaited}",
    "guarding and signalling": "guards {earlier} signals {awaited}",
    "needless": "needless",
    "no effect": "no effect",
}
PARTS = ("group", "operation", "folded", "mark", "conflict", *pictured.BARS)

# ---- what a picture has to have


def counted(number, one, more=""):
    return f"{number} {one if number == 1 else more or one + 's'}"


def listed(spans):
    return [(it.start, len(it)) for it in spans]


def column_of(number, at, it, why):
    """The column of a member, which is entry `at`; `why` says why it is not looked at, if it is not."""
    name = NAMES.get(it[7]) or f"0x{it[7]:02x}"
    title = f"{number}: {findings.operation(it)}, entry {at}"
    size = struct.unpack_from("<I", it, 32)[0]
    if why:
        return pictured.Column(title, number, f"{name} ({why})", seen=False, size=size)
    reads, writes = data_of(it)
    record = (struct.unpack_from("<Q", it, 8)[0], 32) if it[4] & 0x04 else None
    return pictured.Column(title, number, name, listed(reads), listed(writes), record=record, size=size)


def hazard_of(earlier, later):
    """Of two columns that conflict the kind and an address, by data and records; or nothing."""
    writes = [([it.record] if it.record else []) + it.writes for it in (earlier, later)]
    for kind, one, other in [("RAW", writes[0], later.reads), ("WAW", *writes), ("WAR", earlier.reads, writes[1])]:
        for (first, size), (second, other_size) in itertools.product(one, other):
            if max(first, second) < min(first + size, second + other_size):
                return kind, max(first, second)
    return None


def separated_by(k, members, kept, columns):
    """The pairs of members that are known to conflict and that, of all fences that stay, the one before k separates
    alone: those of the first later member first, and of these the last earlier one first."""
    start = max([members.start, *(it for it in kept if it < k)])
    end = min([members.stop, *(it for it in kept if it > k)])
    pairs = itertools.product(range(k, end), reversed(range(start, k)))
    return [(earlier, later) for later, earlier in pairs if hazard_of(columns[earlier], columns[later])]


def needed_bar(k, members, kept, columns, lines, said):
    """The bar of a fence that is needed. It has a known conflict that, of all fences that stay, this one separates
    alone: one that is drawn or, if one of the two is not shown, of the kind that is said, or else the first. If there
    is none, an unknown member needs it."""
    pairs = separated_by(k, members, kept, columns)
    if not pairs:
        return pictured.Bar(k, "fence", "unknown")
    of_kind = [pair for pair in pairs if hazard_of(*(columns[it] for it in pair))[0] == said.get(k)] or pairs
    earlier, later = next((line[:2] for line in lines if line[:2] in pairs), of_kind[0])
    kind, address = hazard_of(columns[earlier], columns[later])
    return pictured.Bar(k, "fence", kind, pair=(earlier, later, address))


def wanted_picture(recording, report, svg, words=""):
    """The columns, the submissions and the bars that the picture of a recording has to have, by its report; of a needed
    fence the conflict is taken from the picture, and judged."""
    found, columns, sizes, forms, bars, heads = {}, [], [], [], [], []
    for it in report["findings"]:
        what, place = it["what"], (it["submission"], it["member"] or 0)
        if what["kind"] == "unseen":
            found.setdefault(place, {})["why"] = what["why"]
        elif what["kind"] == "missing" or what["kind"] in WORDS:
            found.setdefault(place, {})["mark"] = what
        elif what["kind"] == "fence without effect" and it["member"] is None and recording[64 * it["entry"] + 7] != 1:
            found.setdefault(place, {})["mark"] = {"kind": "no effect", "denied": True}
        if what["kind"] == "needless" and it["member"] == 0:
            found[place]["mark"] = {"kind": "no effect", "denied": "needless" in words}
    for number, (is_batch, _, at, members) in enumerate(submissions_of(recording)):
        marks = [found.get((number, k), {}) for k in range(len(members))]
        kind, fences = f"batch of {len(members)}" if is_batch else "lone", sum(it[4] & 1 for it in members)
        cost = f"cost {14 + 3 * fences if is_batch else 10}" if not is_batch or 2 <= len(members) <= 32 else "no price"
        heads.append(f"submission {number}: {kind}, {cost}")
        sizes.append(len(members))
        forms.append(kind)
        columns += [column_of(k, at + k, it, mark.get("why")) for k, (it, mark) in enumerate(zip(members, marks))]
    drawn = pictured.drawn(svg, columns)[0] if svg else {"conflicts": [], "bars": []}
    lines, said = drawn["conflicts"], {bar[0]: bar[2] for bar in drawn["bars"]}
    first = 0
    for number, (is_batch, _, at, members) in enumerate(submissions_of(recording)):
        marks = [found.get((number, k), {}).get("mark") for k in range(len(members))]
        kinds = [mark["kind"] if mark else "fence" if it[4] & 1 else "" for it, mark in zip(members, marks)]
        kept = [first + k for k, kind in enumerate(kinds) if kind not in ("", "needless", "no effect")]
        own, before = range(first, first + len(members)), len(bars)
        for k, (it, mark) in enumerate(zip(members, marks)):
            if mark and mark["kind"] == "missing":
                pair = (first + mark["earlier"], first + k, int(mark["address"], 16))
                bars.append(pictured.Bar(first + k, "missing", f"missing {pictured.KINDS[mark['hazard']]}", pair=pair))
            elif mark:
                kind = "needless" if mark["kind"] in ("needless", "no effect") else "kept"
                kind = "denied" if mark.get("denied") else kind
                bars.append(pictured.Bar(first + k, kind, WORDS[mark["kind"]].format(**mark)))
            elif it[4] & 1:
                bars.append(needed_bar(first + k, own, kept, columns, lines, said))
        for bar in bars[before:]:
            bar.pairs = separated_by(bar.column, own, kept, columns)
        first += len(members)
    return columns, pictured.Groups(sizes, forms), bars, heads


def drawn_totals(totals):
    """The two lines of numbers of a report."""
    held = f"{counted(totals['batches'], 'batch', 'batches')} and {counted(totals['lone'], 'lone submission')}"
    first = f"{counted(totals['descriptors'], 'descriptor')} in {held}, {totals['unseen']} not looked at"
    numbers = ", ".join(f"{totals[name]} {name}" for name in ("missing", "needless", "guarding", "signalling"))
    return [first, f"{counted(totals['fences'], 'fence')}, {numbers}"]


# ---- pictures


def draw(recording, words=""):
    """The picture of a recording, the status, and what is written to standard error."""
    ran = subprocess.run([program("dsa_text"), "audit", "--svg", *words.split()], input=recording, capture_output=True)
    return ran.stdout.decode(), ran.returncode, ran.stderr.decode()


def compare(recording, name, words=""):
    """The picture of a recording has what its report says, and nothing else; the kinds of its parts."""
    report, _ = audited(recording)
    svg, status, error = draw(recording, words)
    totals = report["totals"]
    denied = totals["flaws"] + sum(totals[kind] for kind in ("needless", "unseen") if kind in words)
    common.expect((status, error) == (int(totals["missing"] + denied > 0), ""), f"{name}: status {status}, {error}")
    columns, groups, bars, heads = wanted_picture(recording, report, svg, words)
    fault, others = pictured.fault_of(svg, columns, groups, bars, {})
    common.expect(not fault, f"{name}: {fault}")
    titles = [it for it in others["groups"] if not it.startswith("groups ")]
    common.expect(set(titles) <= set(heads), f"{name}: the groups are {titles}, and not {heads}")
    common.expect(others["notes"][:2] == drawn_totals(totals), f"{name}: at the end are {others['notes']}")
    return {kind: svg.count(f'class="{kind}"') for kind in PARTS}


def pictures():
    """Random recordings, drawn: each picture is as the report on the same recording says. Each second one denies
    something."""
    sums = {}
    for seed in range(audit_model.COUNT):
        words = ["", "--deny needless", "", "--deny needless,unseen"][seed % 4]
        for kind, number in compare(Maker(seed).recording(), f"seed {seed} {words}", words).items():
            sums[kind] = sums.get(kind, 0) + number
    print("drawn: " + ", ".join(f"{number} {kind}" for kind, number in sums.items()))
    enough = all(number >= audit_model.COUNT // 100 for number in sums.values())
    common.expect(enough, f"too few parts are drawn: {sums}")


def sizes():
    """Pictures of nothing, of batches of several sizes, and of the most submissions and entries that a picture has."""
    apart = [move(0x1000000 + 64 * k, 0x9000000 + 64 * k, record_at=0x20000000 + 32 * k).bytes() for k in range(1025)]
    same = [move(0x1000000 + 64 * k, 0x2000, record_at=0x20000000 + 32 * k).bytes() for k in range(1023)]
    none = dict.fromkeys(PARTS, 0)
    common.expect(compare(b"", "nothing") == none, "nothing has parts")
    common.expect(compare(batch(), "an empty batch") == none | {"group": 1}, "an empty batch has other parts")
    for size in (1, 2, 15, 16, 24, 25, 33, 1023):
        got = compare(batch(*apart[:size]), f"{size} members")
        # of more than 24 the first, the second, and one column for those that are like it
        few, folded = (size, {}) if size <= 24 else (2, {"folded": 1})
        wanted = {"group": 1, "operation": few, "mark": 2 * few} | folded
        common.expect(got == none | wanted, f"{size} members: {got}")
        got = compare(batch(*same[:size]), f"{size} members that conflict")
        all_of = {"group": 1, "operation": few, "missing": few - 1, "conflict": few - 1} | folded
        common.expect(got | {"mark": 0} == none | all_of, f"{size} members that conflict: {got}")
        fenced = [bytes([*it[:4], it[4] | 1, *it[5:]]) for it in apart[:size]]
        got = compare(batch(*fenced), f"{size} needless fences")
        # each says which member it guards, so no two are alike, and what has no room shares the last column
        few, folded = (size, {}) if size <= 24 else (23, {"folded": 1})
        all_of = {"group": 1, "operation": few, "no-effect": 1, "kept": few - 1} | folded
        common.expect(got | {"mark": 0} == none | all_of, f"{size} fences that no conflict needs: {got}")
    lone, whole = b"".join(apart[:1024]), batch(*apart[:63]) * 1024
    got = compare(lone, "1024 lone submissions")
    one = {"group": 2, "operation": 1, "folded": 1, "mark": 2}
    common.expect(got == none | one, f"1024 lone submissions: {got}")
    got = compare(whole, "1024 batches of 65536 entries")
    once = {"group": 2, "operation": 2, "folded": 2, "mark": 4}
    common.expect(got == none | once, f"1024 batches of 65536 entries: {got}")


def no_effect():
    """A fence that orders nothing has a mark of its own: of a lone descriptor, where it is an error unless it is
    accepted; and of the first member of a batch, where it is an error if needless fences are denied."""
    lone = entry(MOVE, 0x0D, 0x8000, 0x1000, 0x2000, 64)
    first = batch(lone, entry(MOVE, 0x0C, 0x8020, 0x3000, 0x4000, 64))
    with tempfile.NamedTemporaryFile("w") as file:
        file.write("fence without effect; lone: move, 64 bytes\n")
        file.flush()
        for recording, words, stroke, status in [
            (lone, "", 'stroke="#c00"', 1), (lone, f"--accept {file.name}", 'stroke="black"', 0),
            (first, "", 'stroke="black"', 0), (first, "--deny needless", 'stroke="#c00"', 1),
        ]:
            svg, ended, error = draw(recording, words)
            found = re.findall(r'<g class="no-effect">.*?</g></g>', svg)
            common.expect((ended, error, len(found)) == (status, "", 1), f"{words}: {ended}, {error}, {found}")
            common.expect(">no effect<" in found[0] and stroke in found[0], f"{words}: {found}")
            if "accept" not in words:
                compare(recording, f"a fence without effect {words}", words)


def known_beside_unknown():
    """A fence between two members that conflict, with one between of which nothing is known: the conflict is drawn,
    also if a later member of the epoch has it, or if it is in a completion record; a fence that only such a member
    needs is `unknown`, and so is one that separates no conflict alone."""
    one, other = entry(MOVE, 0x0C, 0x8000, 0x1000, 0x2000, 64), entry(MOVE, 0x0C, 0x8020, 0x2000, 0x3000, 64)
    apart, unknown = entry(MOVE, 0x0C, 0x8040, 0x5000, 0x6000, 64), entry(0x17, 0x0C, 0x8060, 0x7000, 0x7800, 64)
    same_record = entry(FILL, 0x0C, 0x8000, 0, 0x9000, 64)
    again = entry(MOVE, 0x0C, 0x8040, 0x2000, 0x3000, 64)
    fenced = lambda it: bytes([*it[:4], it[4] | 1, *it[5:]])
    for members, words in [
        ([one, unknown, fenced(other)], ["RAW"]),
        ([other, unknown, fenced(one)], ["WAR"]),
        ([one, unknown, fenced(apart), other], ["RAW"]),
        ([one, unknown, fenced(other), again], ["RAW"]),
        ([one, unknown, fenced(same_record)], ["WAW"]),
        ([one, fenced(unknown), fenced(other)], ["unknown", "unknown"]),
        ([one, unknown, fenced(apart)], ["unknown"]),
        ([one, unknown, other], ["missing RAW"]),
        ([one, *[unknown] * 70, fenced(other)], ["RAW"]),
        ([one, *[unknown] * 70, fenced(apart), other], ["RAW"]),
    ]:
        recording = batch(*members)
        svg, _, _ = draw(recording)
        found = re.findall(r'<g class="(?:fence|missing)">.*?<text[^>]*>(.*?)</g>', svg)
        found = [" ".join(re.findall(r"([^<>]+)</text>", it)) for it in found]
        common.expect(found == words, f"{words}: {found}")
        compare(recording, f"{words} of {len(members)} members")


def alike():
    """Of submissions with the same operations, sizes and fences only the first is drawn, if there are more than 24
    columns: one after another or by turns, but not one with another size or without a fence."""
    def pair(k, size=64, fenced=True, at=0x20000000):
        src, dst = 0x1000000 + 0x1000 * k, 0x4000000 + 0x1000 * k
        one = entry(MOVE, 0x0C, at + 64 * k, src, dst, size)
        return batch(one, entry(MOVE, 0x0C | fenced, at + 64 * k + 32, dst, src + 0x800, size))

    ones, others = [pair(k) for k in range(100)], [pair(k, 32) for k in range(100)]
    open_ones = [pair(k, fenced=False) for k in range(100)]
    for recording, folded, shown in [
        (ones, ["99 more like it"], 2),
        (open_ones, ["99 more like it"], 2),
        (ones[:12], [], 24),
        (ones[:13], ["12 more like it"], 2),
        ([it for both in zip(ones, others) for it in both], ["198 more like these"], 4),
        (ones[:20] + others[:1] + ones[20:40], ["19 more like it", "20 more like 0"], 4),
        (ones[:50] + open_ones[50:], ["49 more like it", "49 more like it"], 4),
        ([entry(FILL, 0x0C, 0x200000 + 32 * k, 0, 64 * k, 64) for k in range(50)], ["49 more like it"], 1),
    ]:
        recording = b"".join(recording)
        svg, _, _ = draw(recording)
        found = re.findall(r'<g class="folded">.*?</g>', svg)
        found = [" ".join(re.findall(r"<text[^>]*>([^<]*)", it)[1:]) for it in found]
        common.expect(found == folded, f"{folded}: {found}")
        columns = svg.count('class="operation"')
        common.expect(columns == shown, f"{folded}: {columns} columns")
        compare(recording, f"{folded}")


def too_large():
    """No picture of more submissions or entries than it has at most, but of such a recording the report in words."""
    one = move(0x1000, 0x2000).bytes()
    for recording, reason in [
        (one * 1025, "1025 submissions, a picture has 1024"),
        (batch() * 1025, "1025 submissions, a picture has 1024"),
        (batch(*[entry(0, 0)] * 63) * 1023 + batch(*[entry(0, 0)] * 64), "65537 entries, a picture has 65536"),
    ]:
        got = draw(recording)
        common.expect(got == ("", 2, f"error: {reason} at most [131 Picture]\n"), f"{reason}: {got}"[:600])
        _, status = audited(recording)
        common.expect(status in (0, 1), f"{reason}: the report ends with status {status}")


def beside_unknown(count, later):
    """A batch of so many members: in the first half moves that conflict with nothing, the last of them not looked at;
    at a fence begins a second half of these."""
    half = count // 2
    ways = [(0x1000000 + 64 * k, 0x9000000 + 64 * k, 0x20000000 + 32 * k) for k in range(half - 1)]
    members = [move(first, second, record_at=at).bytes() for first, second, at in ways]
    return batch(*members, entry(0x99), *[later(k).bytes(k == 0) for k in range(half)])


def soon_drawn():
    """Pictures of 64,000 members. The one fence may be needed for a member that is not looked at, and is `unknown`: no
    member after it conflicts with one before it, but each with the one before. More than ten seconds is a fault: to
    compare each two members takes longer."""
    for name, later in [
        ("one record", lambda k: move(0x60000000 + 64 * k, 0x68000000 + 64 * k, record_at=0x7C000000)),
        ("one operation", lambda k: move(0x60000000, 0x68000000, record_at=0x70000000 + 32 * k)),
    ]:
        recording = beside_unknown(64_000, later)
        start = time.monotonic()
        svg, _, error = draw(recording)
        took = time.monotonic() - start
        print(f"a picture of 64000 members, half of {name}: {took:.2f} s")
        common.expect(not error and svg.count(">unknown<") == 1, f"{name}: {error} {svg[:300]}")
        common.expect(took < 10, f"{name}: {took:.1f} s")
