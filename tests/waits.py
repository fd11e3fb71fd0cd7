"""Runs `dsa_text audit --events` on random recordings with events, which a seed makes, and judges the missing waits by
brute force, typed from docs/FORMATS.md: each entry is compared with each of those in flight. The same in JSON, and the
keys of what is missing, written and accepted. Examples by hand. Events that do not fit. The words are names of parts; a
number is how many random recordings are judged."""

import json
import os
import random
import re
import struct
import subprocess
import tempfile
import time
from pathlib import Path

import common
import schema
from common import named, program, run_test

COUNT = 400
TEXT = []
NAMES = {0x00: "no-op", 0x01: "batch", 0x02: "drain", 0x03: "move", 0x04: "fill", 0x05: "compare", 0x10: "CRC"}
NO_OP, BATCH, DRAIN, MOVE, FILL, COMPARE, CRC = 0x00, 0x01, 0x02, 0x03, 0x04, 0x05, 0x10
FETCH, INSERT, FLUSH = 0x0A, 0x13, 0x20
VALID, REQUESTED, FENCE = 0x04, 0x08, 0x01
KINDS = {("reads", "writes"): "read after write", ("writes", "writes"): "write after write"}
KINDS |= {("writes", "reads"): "write after read"}
LINE = re.compile(
    r"entry (\d+) \((.*?)\): error: missing wait, (.*?): (\w+) what entry (\d+) \((.*?)\) (\w+), in flight, at (0x\w+) "
    r"\((\d+) bytes?\)(.*)\n  entry (\d+), byte (\d+): .*\n  entry (\d+), byte (\d+): .*"
)

# ---- recordings


def entry(code, flags=VALID | REQUESTED, record=0x8000, first=0, second=0, size=0):
    """The 64 bytes of an entry."""
    return struct.pack("<IIQQQI", 0, code << 24 | flags, record, first, second, size) + bytes(28)


def spans(raw):
    """What a member or a lone descriptor reads and writes, as pairs of first address and length."""
    flags, code = struct.unpack_from("<I", raw, 4)[0] & 0xFFFFFF, raw[7]
    record, first, second, size = struct.unpack_from("<QQQI", raw, 8)
    if code not in (NO_OP, DRAIN) and size == 0:
        return [], []
    reads, writes = {
        NO_OP: ([], []),
        DRAIN: ([], []),
        MOVE: ([(first, size)], [(second, size)]),
        FILL: ([], [(second, size)]),
        COMPARE: ([(first, size), (second, size)], []),
        CRC: ([(first, size)], []),
    }[code]
    return reads, writes + ([(record, 32)] if flags & VALID else [])


def head_spans(raw):
    """What the descriptor of a batch reads and writes."""
    flags = struct.unpack_from("<I", raw, 4)[0] & 0xFFFFFF
    record, first, _, size = struct.unpack_from("<QQQI", raw, 8)
    return ([(first, 64 * size)] if tells(raw) else []), ([(record, 32)] if flags & VALID else [])


def tells(raw):
    """Whether the entry asks for a record."""
    return raw[4] & 0x0C == 0x0C


def meet(one, other):
    """Whether two lists of spans have an address in common."""
    return any(max(a, c) < min(a + n, c + m) for a, n in one for c, m in other)


def conflict(one, other):
    """Whether one writes what the other reads or writes."""
    return meet(one[1], other[0] + other[1]) or meet(other[1], one[0])


def overlap(earlier, later, hazard, address):
    """How many bytes from the address on are in both sides of the hazard: of each the first span that has the address
    counts; none if one has it not."""
    sides = {
        "read after write": (earlier[1], later[0]), "write after read": (earlier[0], later[1]),
        "write after write": (earlier[1], later[1]),
    }[hazard]
    return min(next((at + n - address for at, n in side if at <= address < at + n), 0) for side in sides)


class Made:
    """A submission with the numbers of its entries."""

    def __init__(self, number, first, entries, queue):
        self.number, self.first, self.entries, self.queue = number, first, entries, queue
        self.is_batch = entries[0][7] == BATCH
        self.members = len(entries) - 1 if self.is_batch else 0
        self.watched = self.ended = self.failed = False

    def line(self):
        """Its event, as `dsa_trace` writes it."""
        head = self.entries[0]
        return f"S {self.number} {self.queue} op {head[7]} members {self.members} tid 1 part 1 entry {self.first}"

    def spans(self, k):
        """What its entry of this index reads and writes."""
        return head_spans(self.entries[0]) if self.is_batch and k == 0 else spans(self.entries[k])

    def known_by(self, member):
        """The entries of which the end of this member tells."""
        if not tells(self.entries[member + 1]):
            return set()
        fences = [k for k in range(member + 1) if self.entries[k + 1][4] & FENCE]
        before = range(fences[-1]) if fences else range(0)
        return {self.first + 1 + k for k in before} | {self.first + 1 + member}


def random_entry(draw):
    """A member or a lone descriptor."""
    code = draw.choice([NO_OP, MOVE, MOVE, MOVE, FILL, COMPARE, CRC])
    flags = draw.choice([VALID | REQUESTED] * 4 + [VALID, 0]) | (FENCE if draw.random() < 0.2 else 0)
    first, second = draw.randrange(0, 0x400), draw.randrange(0, 0x400)
    record = 0x8000 + 32 * draw.randrange(40)
    return entry(code, flags, record, first, second, draw.choice([0, 1, 8, 32, 64]))


def random_submission(draw):
    """The entries of a submission."""
    kind = draw.random()
    if kind < 0.1:
        return [entry(DRAIN, draw.choice([VALID | REQUESTED, 0]), 0x9000)]
    if kind < 0.5:
        members = [random_entry(draw) for _ in range(draw.randrange(2, 6))]
        flags = draw.choice([VALID | REQUESTED, VALID | REQUESTED, 0])
        head = entry(BATCH, flags, 0xA000 + 32 * draw.randrange(8), draw.randrange(0, 0x800), 0, len(members))
        return [head, *members]
    return [random_entry(draw)]


def random_course(draw):
    """A recording, its events, for each entry all that it should wait for, and what entries read and write."""
    recording, lines, made, flying, waits, uses = b"", [], [], {}, {}, []
    open_events = []
    for number in range(draw.randrange(1, 12)):
        new = Made(number, len(recording) // 64, random_submission(draw), f"wq0.{draw.randrange(2)}")
        recording += b"".join(new.entries)
        lines.append(new.line())
        for k in range(len(new.entries)):
            uses.append(new.spans(k))
            against = [e for e in flying if conflict(uses[e], uses[-1])]
            if against:
                waits[new.first + k] = sorted(against)
        made.append(new)
        flying |= {new.first + k: (new, k) for k in range(len(new.entries))}
        if draw.random() < 0.3:
            new.watched = True
            lines.append(f"W {number}")
        if draw.random() < 0.1:
            open_events.append(("K", new, None))
        open_events += [("c", new, m) for m in range(new.members)] + [("C", new, None)]
        draw.shuffle(open_events)
        for _ in range(draw.randrange(0, 5)):
            if open_events:
                happen(draw, open_events, lines, made, flying)
    return recording, "".join(line + "\n" for line in lines), waits, uses


def happen(draw, open_events, lines, made, flying):
    """An event comes."""
    kind, of, member = open_events.pop()
    status = draw.choice([1, 1, draw.randrange(1, 30)])
    if kind == "c":
        lines.append(f"c {of.number} {member} {status}")
        for e in of.known_by(member):
            flying.pop(e, None)
        return
    lines.append(f"{kind} {of.number} {status}" if kind == "C" else f"K {of.number}")
    if kind == "C":
        of.ended, of.failed = True, status != 1
        if of.watched:
            open_events.insert(0, ("K", of, None))
    # a look before the end is none, and a drain that failed has waited for nothing
    if of.ended if kind == "K" else tells(of.entries[0]) and not of.watched:
        is_drain = of.entries[0][7] == DRAIN and not of.failed
        gone = [s for s in made if s is of or (is_drain and s.number < of.number and s.queue == of.queue)]
        for s in gone:
            for k in range(len(s.entries)):
                flying.pop(s.first + k, None)


# ---- runs


def audited(recording, events, *words, known=None):
    """The run of an audit with these events, and these keys in the file of those that are accepted."""
    with tempfile.TemporaryDirectory() as folder:
        file, accepted = Path(folder) / "a.events", Path(folder) / "known.txt"
        file.write_text(events)
        if known is not None:
            accepted.write_text("".join(f"{key}\n" for key in known))
            words += ("--accept", str(accepted))
        ran = subprocess.run([*TEXT, "audit", "--events", str(file), *words], input=recording, capture_output=True)
    return ran.returncode, ran.stdout.decode(), ran.stderr.decode().replace(folder + "/", "")


def places(recording):
    """Of each entry its submission, its member or None, and how it is named in a key."""
    entries, found, number = [recording[k : k + 64] for k in range(0, len(recording), 64)], [], 0
    while len(found) < len(entries):
        head = entries[len(found)]
        words = lambda it: f"{NAMES[it[7]]}, {struct.unpack_from('<I', it, 32)[0]} bytes"
        if head[7] != BATCH:
            found.append((number, None, f"; lone: {words(head)}"))
        else:
            count = struct.unpack_from("<I", head, 32)[0]
            members = entries[len(found) + 1 :][:count]
            found.append((number, None, f"; batch of {count}"))
            for k, it in enumerate(members):
                found.append((number, k, f"; batch of {count}; member {k}: {words(it)}"))
        number += 1
    return found


def words_of(earlier, later):
    """That a wait is missing between two entries, with all their hazards in order."""
    sides = {
        "read after write": (earlier[1], later[0]), "write after write": (earlier[1], later[1]),
        "write after read": (earlier[0], later[1]),
    }
    return ", ".join(["missing wait", *(name for name, both in sides.items() if meet(*both))])


def keys_of(recording, waits, uses):
    """For each entry that should wait, the key of each that it should wait for."""
    where = places(recording)
    named = lambda e, a: f"{words_of(uses[a], uses[e])}{where[e][2]}{where[a][2]}"
    return {later: {earlier: named(later, earlier) for earlier in waits[later]} for later in sorted(waits)}


def shown_with(keys, known):
    """What is shown if these keys are accepted, in order: of each entry the last wait, if it is, and the last that is
    not; with whether it is an error."""
    found = []
    for later, named in keys.items():
        last, left = max(named), [earlier for earlier in named if named[earlier] not in known]
        found += [(later, last, "accepted")] if named[last] in known else []
        found += [(later, max(left), "error")] if left else []
    return found


def with_record(recording, numbers, address):
    """Those of these entries whose completion record has the address."""
    entries = [(n, recording[64 * n : 64 * n + 64]) for n in numbers]
    return [n for n, it in entries if it[4] & VALID and 0 <= address - struct.unpack_from("<Q", it, 8)[0] < 32]


def record_words(recording, earlier, later, address):
    """What a line says of them."""
    of_other, own = f"of entry {earlier}", later in with_record(recording, [later], address)
    if not with_record(recording, [earlier], address):
        return ", in its own record" if own else ""
    return f", in its own record and that {of_other}" if own else f", in the record {of_other}"


def judge_report(recording, events, waits, shown, uses, name):
    """What the report in JSON has of the missing waits, and what the words have; answers their keys."""
    _, out, _ = audited(recording, events, "--json")
    report, where, keys = json.loads(out), places(recording), []
    common.expect(schema.holds(schema.report_schema("audit"), report), f"{name}: the schema rejects {out[:400]}")
    got = report["waits"]
    looks = any(line[0] in "WK" for line in events.splitlines())
    common.expect(got["looks"] == looks, f"{name}: looks {got['looks']}")
    common.expect([it["later"]["entry"] for it in got["missing"]] == sorted(waits), f"{name}: missing {got['missing']}")
    for it in got["missing"]:
        later, earlier = it["later"]["entry"], waits[it["later"]["entry"]]
        hazard, address, bytes_there = shown[later]
        key = f"{words_of(uses[earlier], uses[later])}{where[later][2]}{where[earlier][2]}"
        ends = [{"entry": n, "member": where[n][1], "submission": where[n][0]} for n in (earlier, later)]
        wanted = {"address": address, "bytes": bytes_there, "earlier": ends[0], "hazard": hazard, "key": key}
        named = with_record(recording, (earlier, later), int(address, 16))
        wanted |= {"later": ends[1], "records": named, "severity": "error"}
        numbers = [one["entry"] for one in it.pop("entries")]
        common.expect((it, numbers) == (wanted, [later, earlier]), f"{name}: {it} of {numbers} is not {wanted}")
        keys.append(key)
    return keys


def judge_keys(recording, events, keys, draw, name):
    """The keys of the errors are written. A wait that is accepted hides no other; if all are, no wait is an error."""
    status, out, _ = audited(recording, events, "--write-accept")
    written = out.splitlines()
    of_waits = [key for key in written if key.startswith("missing wait")]
    others = written[: len(written) - len(of_waits)]
    last = list(dict.fromkeys(named[max(named)] for named in keys.values()))
    right = status == 0 and of_waits == last and written == others + of_waits
    common.expect(right, f"{name}: the keys {written} are not those of {keys}")
    more = others[:]
    while more:
        left = audited(recording, events, "--write-accept", known=others)[1].splitlines()
        more = [key for key in left if not key.startswith("missing wait")]
        others += more
    every = sorted({key for named in keys.values() for key in named.values()})
    some = [key for key in every if draw.random() < 0.5]
    for known in (of_waits, of_waits[:-1], some, every):
        unfit = "missing wait, read after write; lone: move, 9 bytes; lone: move, 9 bytes"
        status, out, _ = audited(recording, events, known=[*others, unfit, *known])
        stale = re.findall(r": line (\d+): note: this fits nothing: (.*)\n", out)
        common.expect(stale == [(str(len(others) + 1), unfit)], f"{name}, accepting {known}: stale are {stale}")
        found = re.findall(r"entry (\d+) \(.*?\): (\w+): missing wait, .*? what entry (\d+) ", out)
        got, wanted = [(int(later), int(earlier), kind) for later, kind, earlier in found], shown_with(keys, known)
        is_error = any(kind == "error" for _, _, kind in wanted)
        right = (status, got) == (int(is_error), wanted)
        common.expect(right, f"{name}, accepting {known}: {status}, {got}, not {wanted}")
        left = audited(recording, events, "--write-accept", known=[*others, *known])[1].splitlines()
        errors = list(dict.fromkeys(keys[later][earlier] for later, earlier, kind in wanted if kind == "error"))
        common.expect(left == errors, f"{name}, accepting {known}: {left} are left, not {errors}")


def judged(seed):
    """One random recording; answers whether a wait is missing."""
    draw = random.Random(seed)
    recording, events, every, uses = random_course(draw)
    waits = {later: max(against) for later, against in every.items()}
    status, out, err = audited(recording, events)
    found, told = {}, {}
    for shown in LINE.finditer(out):
        later, earlier = int(shown[1]), int(shown[5])
        found[later], told[later] = earlier, (shown[3], shown[8], int(shown[9]))
        named = [int(shown[k]) for k in range(11, 15)]
        count = overlap(uses[earlier], uses[later], shown[3], int(shown[8], 16))
        right = KINDS.get((shown[4], shown[7])) == shown[3] and 0 < int(shown[9]) == count
        right = right and shown[10] == record_words(recording, earlier, later, int(shown[8], 16))
        if not right or named != [later, 64 * later, earlier, 64 * earlier]:
            common.expect(False, f"seed {seed}: {count} bytes conflict: {shown[0]}")
    wanted = f"\n{len(waits)} missing wait{'s' * (len(waits) != 1)}, "
    right = found == waits and wanted in out and (status == 1 or not waits) and status < 2
    common.expect(right, f"seed {seed}: wanted {waits}, found {found}, status {status} {err}")
    if right:
        shown = judge_report(recording, events, waits, told, uses, f"seed {seed}")
        keys = keys_of(recording, every, uses)
        common.expect(shown == [keys[e][waits[e]] for e in keys], f"seed {seed}: the keys are {shown}, not {keys}")
        judge_keys(recording, events, keys, draw, f"seed {seed}")
        columns = sum(code != BATCH for code in recording[7::64])
        if columns <= 24:
            drawn = [it for title, _, _ in drawn_waits(recording, events)[1] for it in title.split("; ")]
            empty = lambda e: recording[64 * e + 7] == BATCH and recording[64 * e + 32 : 64 * e + 36] == bytes(4)
            said = [(waits[e], *told[e]) for e in sorted(waits) if not empty(e)]
            said = [f"missing wait for entry {a}: {hazard}, at {at}" for a, hazard, at, _ in said]
            common.expect(drawn == said, f"seed {seed}: {said}, drawn {drawn}")
    return len(waits) > 0


def brute_force():
    """Random recordings, of which many lack a wait."""
    lacking = sum(judged(seed) for seed in range(COUNT))
    common.expect(lacking > COUNT // 4, f"only {lacking} of {COUNT} recordings lack a wait")


def by_hand():
    """Two moves, of which the second reads what the first writes."""
    first = entry(MOVE, record=0x8000, first=0x1000, second=0x2000, size=64)
    second = entry(MOVE, record=0x8020, first=0x2010, second=0x3000, size=8)
    made = ["S 0 wq0.0 op 3 members 0 tid 7 part 1 entry 0\n", "S 1 wq0.0 op 3 members 0 tid 7 part 1 entry 1\n"]
    wait = (
        "entry 1 (submission 1): error: missing wait, read after write: reads what entry 0 (submission 0) writes,"
        " in flight, at 0x2010 (8 bytes)\n  entry 1, byte 64: move 0x2010 -> 0x3000, 8 bytes\n"
        "  entry 0, byte 0: move 0x1000 -> 0x2000, 64 bytes\n1 missing wait, 2 submissions\n"
    )
    status, out, _ = audited(first + second, made[0] + made[1] + "C 0 1\nC 1 1\n")
    common.expect(status == 1 and wait in out, f"no wait: status {status}, {out}")
    status, out, _ = audited(first + second, made[0] + "C 0 1\n" + made[1] + "C 1 1\n")
    common.expect(status == 0 and "\n0 missing waits, 2 submissions\n" in out, f"a wait: status {status}, {out}")
    status, out, _ = audited(first + second, made[0] + "W 0\nC 0 1\n" + made[1] + "K 0\n")
    common.expect(status == 1 and wait in out and "(W, K)" not in out, f"a lucky wait: status {status}, {out}")
    for looks, wanted in (("K 0\n", 1), ("W 0\nK 0\n", 1), ("W 0\nC 0 1\nK 0\n", 0), ("W 0\nK 0\nC 0 1\n", 1)):
        status, out, _ = audited(first + second, made[0] + looks + made[1] + "C 1 1\n")
        common.expect(status == wanted and (wait in out) == (status == 1), f"looks {looks!r}: status {status}, {out}")


EARLIER_KEY = "missing wait, read after write; lone: compare, 8 bytes; lone: move, 64 bytes"
LATER_KEY = "missing wait, read after write; lone: compare, 8 bytes; lone: move, 8 bytes"


def trio():
    """Two moves and a compare that reads what both write, and their events."""
    recording = entry(MOVE, first=0x1000, second=0x2000, size=64)
    recording += entry(MOVE, record=0x8020, first=0x3000, second=0x4000, size=8)
    recording += entry(COMPARE, record=0x8040, first=0x2000, second=0x4000, size=8)
    return recording, "".join(f"S {k} wq0.0 op {op} members 0\n" for k, op in enumerate((3, 3, 5)))


def accepted():
    """Of two waits that one entry lacks one that is accepted does not hide the other."""
    (recording, both), (of_0, of_1) = trio(), (EARLIER_KEY, LATER_KEY)
    made = both.splitlines(keepends=True)
    second = made[0] + "C 0 1\n" + made[1] + made[2]
    for events, known, wanted in (
        (both, [], [(1, "error")]), (both, [of_1], [(1, "accepted"), (0, "error")]), (both, [of_0], [(1, "error")]),
        (both, [of_0, of_1], [(1, "accepted")]), (second, [of_1], [(1, "accepted")]),
        (made[0] + made[1] + "C 1 1\n" + made[2], [of_1], [(0, "error")]),
    ):
        status, out, _ = audited(recording, events, known=known)
        got = [(int(e), kind) for kind, e in re.findall(r": (\w+): missing wait, .*? what entry (\d+) ", out)]
        is_error = int(any(kind == "error" for _, kind in wanted))
        common.expect((got, status) == (wanted, is_error), f"{events!r}, accepting {known}: {got}, {status}")


def drawn_waits(recording, events, known=None):
    """The status of a picture, and of each missing wait in it the title, the colour, and the words below it."""
    status, svg, said = audited(recording, events, "--svg", known=known)
    common.expect(svg.startswith("<svg") and svg.endswith("</svg>\n") and not said, f"a picture: {svg[-200:]} {said}")
    found = re.findall(r'<g class="wait"><title>(.*?)</title><line .*?stroke="(.*?)".*?/>(.*)</g>', svg)
    return status, [(title, colour, re.sub("<.*?>", " ", words).split()) for title, colour, words in found]


def pictures():
    """Missing waits are drawn: of lone moves, accepted ones, of a fenced member, and for the descriptor of a batch."""
    first = entry(MOVE, record=0x8000, first=0x1000, second=0x2000, size=64)
    second = entry(MOVE, record=0x8020, first=0x2010, second=0x3000, size=8)
    made = ["S 0 wq0.0 op 3 members 0\n", "S 1 wq0.0 op 3 members 0\n"]
    key = "missing wait, read after write; lone: move, 8 bytes; lone: move, 64 bytes"
    title, words = "missing wait for entry 0: read after write, at 0x2010", ["missing", "wait", "RAW"]
    for events, known, wanted in (
        (made[0] + made[1], None, (1, [(title, "#c00", words)])),
        (made[0] + made[1], [key], (0, [(f"accepted: {title}", "#999", words)])),
        (made[0] + "C 0 1\n" + made[1], None, (0, [])),
    ):
        got = drawn_waits(first + second, events, known)
        common.expect(got == wanted, f"{events!r}, accepting {known}: {got}, not {wanted}")
    # a batch whose second member is fenced for the first, and reads what an earlier move writes; its record, which one
    # more move reads
    head = struct.pack("<IIQQQI", 0, BATCH << 24 | VALID | REQUESTED, 0x9000, 0x5000, 0, 2) + bytes(28)
    members = entry(MOVE, record=0x8040, first=0x1000, second=0x4000, size=8)
    members += entry(COMPARE, VALID | REQUESTED | FENCE, 0x8060, 0x2000, 0x4000, 8)
    last = entry(MOVE, record=0x8080, first=0x9000, second=0x6000, size=8)
    events = made[0] + "S 1 wq0.0 op 1 members 2\n" + "S 2 wq0.0 op 3 members 0\n"
    status, got = drawn_waits(first + head + members + last, events)
    titles = [f"missing wait for entry {n}: read after write, at {at}" for n, at in ((0, "0x2000"), (1, "0x9000"))]
    wanted = [(titles[0], "#c00", []), (titles[1], "#c00", words)]
    common.expect((status, got) == (1, wanted), f"of a batch: {status}, {got}, not {wanted}")
    svg = audited(first + head + members + last, events, "--svg")[1]
    fence = re.search(r'<g class="fence">.*?</g>\n?</g>|<g class="fence">.*', svg)[0]
    said = " ".join(re.sub("<.*?>", " ", fence).split())
    common.expect("RAW, missing wait RAW" in said, f"below a fence that has a missing wait is {said}")
    common.expect("dotted: missing wait; 2 missing waits<" in svg, f"no number of missing waits: {svg[-900:]}")
    # a batch reads its list, which an earlier move writes; its first member, whose wait is accepted, reads other data
    writer = entry(MOVE, record=0x80a0, first=0x7000, second=0x5000, size=128)
    recording, made = writer + first + head + members, made[0] + made[1] + "S 2 wq0.0 op 1 members 2\n"
    at = [f"missing wait for entry {n}: read after write, at {at}" for n, at in ((0, "0x5000"), (1, "0x2000"))]
    key = "missing wait, read after write; batch of 2; member 1: compare, 8 bytes; lone: move, 64 bytes"
    status, got = drawn_waits(recording, made, [key])
    wanted = [(at[0], "#c00", words), (f"accepted: {at[1]}", "#999", [])]
    common.expect((status, got) == (1, wanted), f"of the list of a batch: {status}, {got}, not {wanted}")
    # one entry lacks two waits, of which one is accepted: one line, which is an error
    recording, made = trio()
    for known, colour in (([], "#c00"), ([LATER_KEY], "#c00"), ([LATER_KEY, EARLIER_KEY], "#999")):
        status, got = drawn_waits(recording, made, known)
        right = (status, [it[1] for it in got]) == (int(colour == "#c00"), [colour])
        titles = got[0][0].split("; ") if got else []
        common.expect(right and len(titles) == 1 + (len(known) == 1), f"accepting {known}: {status}, {got}")
    # pairs apart, of which the first is accepted: no error is folded with it
    pairs, events = b"", ""
    for k in range(15):
        second = (0x20000 + k * 0x1000, 0x30000) if k == 0 else (0x90000, 0x20000 + k * 0x1000)
        pairs += entry(MOVE, record=0x8000 + k * 64, first=0x40000 + k * 0x1000, second=0x20000 + k * 0x1000, size=64)
        pairs += entry(MOVE, record=0x8020 + k * 64, first=second[0], second=second[1] + k * 0x1000 * (k == 0), size=64)
        events += f"S {2 * k} wq0.0 op 3 members 0\nS {2 * k + 1} wq0.0 op 3 members 0\n"
    key = "missing wait, read after write; lone: move, 64 bytes; lone: move, 64 bytes"
    status, got = drawn_waits(pairs, events, [key])
    colours = [it[1] for it in got]
    common.expect(status == 1 and "#c00" in colours, f"of 14 errors beside an accepted one: {status}, {got}")


def drains():
    """A move, a drain, and a move that reads what the first writes: a drain that failed shows no end but its own."""
    first = entry(MOVE, record=0x8000, first=0x1000, second=0x2000, size=64)
    drain, made = entry(DRAIN, record=0x8020), [f"S {k} wq0.0 op {op} members 0\n" for k, op in enumerate((3, 2, 3))]
    for status, looks, source, wanted in (
        (1, "", 0x2000, 0), (17, "", 0x2000, 1), (2, "", 0x2000, 1), (17, "K 1\n", 0x2000, 1), (1, "K 1\n", 0x2000, 0),
        (17, "", 0x8020, 0), (17, "", 0x8000, 1),
    ):
        last = entry(MOVE, record=0x8040, first=source, second=0x3000, size=8)
        watched = "W 1\n" if looks else ""
        got, out, _ = audited(first + drain + last, made[0] + made[1] + watched + f"C 1 {status}\n{looks}" + made[2])
        common.expect(got == wanted, f"status {status}, {looks!r}, reading {source:#x}: status {got}, {out}")


def touched():
    """What entries of other operations read and write: a second entry reads, or flushes, where the first has been."""
    move_to = lambda source: entry(MOVE, record=0x8020, first=source, second=0x6000, size=8)
    flush = lambda address: entry(FLUSH, record=0x8020, second=address, size=64)
    fetch = entry(FETCH, record=0x8020, first=0x2000, size=64)
    move, insert = {"first": 0x1000, "second": 0x2000, "size": 64}, {"first": 0x1000, "second": 0x2000, "size": 512}
    for name, first, second, number in (
        ("a flush of what a move writes", entry(MOVE, **move), flush(0x2000), 1),
        ("a flush of what it reads", entry(MOVE, **move), flush(0x1000), 0),
        ("a record that only errors write", entry(MOVE, VALID, **move), move_to(0x8000), 1),
        ("no record", entry(MOVE, 0, **move), move_to(0x8000), 0),
        ("the record of a checksum", entry(CRC, first=0x1000, size=64), move_to(0x8000), 1),
        ("a fetch of translations", entry(MOVE, **move), fetch, 0),
        ("data past the last address", entry(MOVE, **move | {"first": 2**64 - 16}), move_to(0x2000), 0),
        ("no bytes", entry(MOVE, **move | {"size": 0}), move_to(0x8000), 0),
        ("an operation that is not known", entry(0x50, **move), move_to(0x8000), 0),
        ("a drain that reads back", entry(DRAIN, VALID | REQUESTED | 0x010000), move_to(0x8000), 0),
        ("fields after a block of 512 bytes", entry(INSERT, **insert), move_to(0x2000 + 512), 1),
        ("what comes after them", entry(INSERT, **insert), move_to(0x2000 + 520), 0),
        ("fields after no whole block", entry(INSERT, **insert | {"size": 513}), move_to(0x2000), 0),
    ):
        events = f"S 0 wq0.0 op {first[7]} members 0\nS 1 wq0.0 op {second[7]} members 0\n"
        status, out, err = audited(first + second, events)
        wanted = f"\n{number} missing wait{'s' * (number != 1)}, 2 submissions\n"
        common.expect(status == number and wanted in out, f"{name}: not {number} missing waits: {status} {out} {err}")


def many():
    """200,000 moves apart, whose ends nothing shows, are compared in time."""
    count = range(200000)
    recording = b"".join(entry(MOVE, 0, 0, 128 * k, 128 * k + 64, 64) for k in count)
    start = time.monotonic()
    status, out, err = audited(recording, "".join(f"S {k} wq0.0 op 3 members 0\nC {k} 1\n" for k in count))
    took = time.monotonic() - start
    right = status == 0 and "\n0 missing waits, 200000 submissions\n" in out and took < 20
    common.expect(right, f"apart moves: status {status} after {took:.0f} s, {out[-300:]} {err}")


def in_flight():
    """5,000 moves to one place, of which none is known to have ended, so that each two lack a wait: with the one key of
    all these accepted no error is left. More than six seconds of the processor are a fault."""
    count = range(5000)
    recording = b"".join(entry(MOVE, 0, 0, 0x10000 + 64 * k, 0x1000, 8) for k in count)
    events = "".join(f"S {k} wq0.0 op 3 members 0\n" for k in count)
    key = "missing wait, write after write; lone: move, 8 bytes; lone: move, 8 bytes"
    for known, status in ([key], 0), ([key.replace("after write", "after read")], 1):
        start = os.times().children_user
        got, out, err = audited(recording, events, known=known)
        took = os.times().children_user - start
        wanted = "\n4999 missing waits" in out and (f"fits nothing: {known[0]}\n" in out) == bool(status)
        common.expect((got, wanted) == (status, True), f"in flight: status {got}, {out[-300:]} {err}")
        common.expect(took < 6, f"in flight: {took:.1f} s")


def refusals():
    """Events that are none, or do not fit."""
    move = entry(MOVE, first=0x1000, second=0x2000, size=64)
    made = "S 0 wq0.0 op 3 members 0 tid 7 part 1 entry 0\n"
    none, number = "this is no event, or the line is cut off", "the submission is not the next one, or not made yet"
    other, member = "the recording has another operation or count of members there", "the submission has no such member"
    for events, reason in (
        (made + "C 0 1", f"line 2: error: {none}"),
        (made + "C 0\n", f"line 2: error: {none}"),
        (made + "X 0 1\n", f"line 2: error: {none}"),
        (made.replace("wq0.0", "wq0"), f"line 1: error: {none}"),
        (made.replace("op", "of"), f"line 1: error: {none}"),
        ("C 0 1\n" + made, f"line 1: error: {number}"),
        (made.replace("S 0", "S 1"), f"line 1: error: {number}"),
        (made + made.replace("S 0", "S 1"), f"line 2: error: {number}"),
        (made.replace("op 3", "op 4"), f"line 1: error: {other}"),
        (made.replace("members 0", "members 2"), f"line 1: error: {other}"),
        (made + "c 0 0 1\n", f"line 2: error: {member}"),
        ("", "error: the events have 0 submissions, and the recording has more"),
    ):
        got = audited(move, events)
        common.expect(got == (2, "", f"a.events: {reason}\n"), f"{events!r}: wanted {reason}, got {got}")


def main(words):
    global TEXT, COUNT
    TEXT = [program("dsa_text")]
    numbers = [int(word) for word in words if word.isdigit()]
    COUNT = numbers[-1] if numbers else COUNT
    parts = [by_hand, accepted, pictures, drains, touched, many, in_flight, refusals, brute_force]
    for part in named(parts, [it for it in words if not it.isdigit()]):
        part()


if __name__ == "__main__":
    run_test(main)
