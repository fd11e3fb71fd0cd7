"""What `dsa_text audit` says of each finding of random recordings, typed from docs/FORMATS.md: the entries that it is of
and what they do, how many bytes conflict, its key; that a text has the first finding of each key, and with --all each;
and that --write-accept names the errors, and --accept those that are known. Several files in one run: the report on
each is the one that it has alone. A number is how many recordings are judged, 200 without one."""

import json
import re
import struct
import subprocess
import tempfile
from collections import Counter
from pathlib import Path

import common
import schema
from audit_entries import (
    CHECK, COPY_CRC, CRC, CREATE, DRAIN, FETCH, FLUSH, INSERT, NAMED, STRIP, UPDATE, WHY, data_of, further_data, xxd,
)
from audit_model import Maker
from common import named, program, run_test
from model import COMPARE, DELTA, DUALCAST, FILL, MOVE, PATTERN

COUNT = 200
NAMES = {
    0: "no-op", 1: "batch", MOVE: "move", FILL: "fill", COMPARE: "compare", PATTERN: "compare pattern", DELTA: "delta",
    DUALCAST: "dualcast", DRAIN: "drain", CREATE: "create delta", FETCH: "translation fetch", CRC: "CRC",
    COPY_CRC: "copy with CRC", CHECK: "DIF check", INSERT: "DIF insert", STRIP: "DIF strip", UPDATE: "DIF update",
    0x17: "DIX generate", FLUSH: "cache flush",
}
KINDS = {"guarding": "guarding fence", "signalling": "signalling fence", "needless": "needless fence"}
KINDS |= {"guarding and signalling": "guarding and signalling fence", "overwrites batch": "overwrites its batch"}
KINDS |= {"data over record": "data over its own completion record", "reserved bytes": "reserved bytes set"}


def run(recording, *words):
    """The status and the output of an audit."""
    ran = subprocess.run([TEXT, "audit", *words], input=recording, capture_output=True, text=False)
    common.expect(ran.returncode in (0, 1), f"audit {words} ends with {ran.returncode}: {ran.stderr[:300]}")
    return ran.returncode, ran.stdout.decode()


def code_words(code):
    return f"operation {code:#x}" + (f" ({NAMES[code]})" if code in NAMED else "")


def operation(it):
    """What an entry does, with its operands."""
    _, word, _, first, second, size = struct.unpack_from("<IIQQQI", it)
    code, own, seed = word >> 24, int.from_bytes(it[40:48], "little"), int.from_bytes(it[48:56], "little")
    copy, at_seed = f"{first:#x} -> {second:#x}, {size} bytes", f", seed at {seed:#x}" if word & 0x010000 else ""
    known = {
        0: "no-op", 1: f"batch of {size} at {first:#x}", MOVE: f"move {copy}",
        FILL: f"fill {second:#x} with {it[16:24].hex()}, {size} bytes",
        COMPARE: f"compare {first:#x} with {second:#x}, {size} bytes, expect {it[40]}",
        PATTERN: f"compare {first:#x} with pattern {it[24:32].hex()}, {size} bytes, expect {it[40]}",
        DELTA: f"delta {first:#x}, {own & 0xFFFFFFFF} bytes -> {second:#x}, {size} bytes",
        DUALCAST: f"dualcast {first:#x} -> {second:#x} and {own:#x}, {size} bytes",
    }
    if code in known:
        return known[code]
    if further_data(it) is None:
        return code_words(code)
    return {
        DRAIN: "drain", FETCH: "translation fetch",
        CREATE: f"create delta {first:#x} with {second:#x} -> {own:#x}, {size} bytes",
        CRC: f"CRC {first:#x}, {size} bytes{at_seed}", COPY_CRC: f"copy with CRC {copy}{at_seed}",
        CHECK: f"DIF check {first:#x}, {size} bytes", INSERT: f"DIF insert {copy}", STRIP: f"DIF strip {copy}",
        UPDATE: f"DIF update {copy}", FLUSH: f"cache flush {second:#x}, {size} bytes",
    }[code]


def operands(it):
    """The spans of data that an entry reads and those that it writes, at last the record of a checksum."""
    (reads, writes), record = data_of(it), struct.unpack_from("<Q", it, 8)[0]
    return reads, writes + [range(record, record + 32)] * (it[7] in (CRC, COPY_CRC) and it[4] & 0x04 > 0)


def overlap(earlier, later, hazard, address):
    """How many bytes from the address on are in both: of each the first span that has the address counts."""
    (reads, writes), (reads2, writes2) = operands(earlier), operands(later)
    one, other = {
        "read after write": (writes, reads2), "write after read": (reads, writes2),
        "write after write": (writes, writes2),
    }[hazard]
    ends = [next(it.stop for it in spans if address in it) for spans in (one, other)]
    return min(ends) - address


def hazards(earlier, later):
    """All hazards between the data of two entries, in their order."""
    (reads, writes), (reads2, writes2) = operands(earlier), operands(later)
    sides = {"read after write": (writes, reads2), "write after write": (writes, writes2)}
    sides["write after read"] = (reads, writes2)
    meet = lambda one, other: any(max(a.start, b.start) < min(a.stop, b.stop) for a in one for b in other)
    return [name for name, both in sides.items() if meet(*both)]


def others(what):
    """The other members that a finding names."""
    return [what[name] for name in ("earlier", "awaited") if name in what]


def key_of(what, entries, place, first, size):
    """The key of a finding of a submission of so many members, of which entry `first` is the first one."""
    kind = what["kind"]
    text = KINDS.get(kind, kind)
    if kind == "missing":
        text = ", ".join(["missing fence", *hazards(entries[first + what["earlier"]], entries[first + place])])
    if kind == "unseen":
        text = "not looked at: " + (code_words(what["operation"]) if what["why"] == "operation" else WHY[what["why"]])

    def member(k):
        it = entries[first + k]
        return f"{NAMES.get(it[7]) or code_words(it[7])}, {struct.unpack_from('<I', it, 32)[0]} bytes"

    if place == "head":
        return f"{text}; batch of {size}"
    if place == "lone":
        return f"{text}; lone: {member(0)}" + "".join(f"; member {k}: {member(k)}" for k in others(what) if k)
    named = [place, *(k for k in others(what) if k != place)]
    return f"{text}; batch of {size}" + "".join(f"; member {k}: {member(k)}" for k in named)


def placed(entries):
    """The submissions of a recording: whether each is a batch, its first member, and how many it has."""
    at = 0
    while at < len(entries):
        is_batch = entries[at][7] == 1
        size = struct.unpack_from("<I", entries[at], 32)[0] if is_batch else 1
        yield is_batch, at + is_batch, size
        at += size + is_batch


def judge(recording, name):
    """Judges what is said of the findings of a recording, and answers their keys and whether they are errors."""
    entries, keys = [recording[k : k + 64] for k in range(0, len(recording), 64)], []
    report = json.loads(run(recording, "--json")[1])
    version = "1.0.0"
    common.expect(report["tool"] == {"name": "dsa_text", "version": version}, f"{name}: the tool is {report['tool']}")
    where = [*placed(entries)]
    for finding in report["findings"]:
        is_batch, first, size = where[finding["submission"]]
        what, at, k = finding["what"], finding["entry"], finding["member"]
        place = ("head" if is_batch and k is None else "lone" if k is None else k)
        numbers = [at, *(first + other for other in others(what) if place != "head" and first + other != at)]
        wanted = [{"entry": n, "offset": 64 * n, "operation": operation(entries[n])} for n in numbers]
        common.expect(finding["entries"] == wanted, f"{name}: {finding} is of {wanted}")
        if what["kind"] == "missing":
            address = int(what["address"], 16)
            count = overlap(entries[first + what["earlier"]], entries[at], what["hazard"], address)
            common.expect(what["bytes"] == count, f"{name}: {finding} conflicts in {count} bytes")
        key = key_of(what, entries, place, first, size)
        common.expect(finding["key"] == key, f"{name}: {finding} has the key {key!r}")
        keys.append((key, finding["severity"], wanted, what.get("once_corrected")))
    for finding, (line, *_) in zip(report["findings"], told(run(recording, "--all")[1])):
        address = finding["what"].get("address")
        found = re.search(r", at (0x[0-9a-f]+)(?:$| \()", line)
        common.expect((found and found[1]) == address, f"{name}: the line {line!r} has another address than {finding}")
    return keys


def told(text):
    """The findings of a text: the line of each, its entries, and how many more are like it."""
    found = []
    for line in text.splitlines():
        if line.startswith("entry "):
            found.append([line, [], 0])
        elif line.startswith("  entry "):
            found[-1][1].append(line)
        elif line.startswith("  and "):
            found[-1][2] = int(line.split()[1])
    return found


def texts(recording, keys, name):
    """Of findings with one key, and of needless fences with one condition, the first is written, and how many more
    there are; with --all each is."""
    shown = [entries for _, _, entries, _ in keys]
    lines = [[f"  entry {it['entry']}, byte {it['offset']}: {it['operation']}" for it in entries] for entries in shown]
    kinds = [(key, condition) for key, _, _, condition in keys]
    every = told(run(recording, "--all")[1])
    common.expect([entries for _, entries, _ in every] == lines, f"{name}: with --all {every}")
    common.expect(not any(more for *_, more in every), f"{name}: with --all some are left out")
    count, firsts = Counter(kinds), {kind: k for k, kind in reversed([*enumerate(kinds)])}
    wanted = [[every[k][0], lines[k], count[kind] - 1] for k, kind in enumerate(kinds) if firsts[kind] == k]
    common.expect(told(run(recording)[1]) == wanted, f"{name}: folded {run(recording)[1]}")


def accepting(recording, keys, folder, name):
    """The keys of the errors are written, and a finding with a key that is accepted is no error. What is not a missing
    fence stays as it was; audit_accepted.py judges the missing ones."""
    errors = [*dict.fromkeys(key for key, severity, *_ in keys if severity == "error")]
    status, text = run(recording, "--write-accept")
    common.expect((status, text) == (0, "".join(f"{key}\n" for key in errors)), f"{name}: the errors are {text}")
    for known in (errors, errors[:-1], errors[1:], ["# of last week", "", *errors[::2]]):
        path = Path(folder, "known.txt")
        path.write_text("\n".join(known) + "\n" * (len(known) % 2))
        status, text = run(recording, "--json", "--accept", str(path))
        stale = json.loads(text)["stale"]
        common.expect(stale == [], f"{name}, accepting {known}: {stale} are stale")
        found = [(it["key"], it["severity"]) for it in json.loads(text)["findings"]]
        severe = [(key, severity) for key, severity in found if severity in ("error", "accepted")]
        right = all((severity == "accepted") == (key in known) for key, severity in severe)
        left = [*dict.fromkeys(key for key, severity in severe if severity == "error")]
        common.expect((right, status) == (True, int(left != [])), f"{name}, accepting {known}: {severe}, {status}")
        stays = [key for key, severity, *_ in keys if severity in ("error", "warning") and "missing" not in key]
        same = [key for key, severity in found if severity != "note" and "missing" not in key]
        common.expect(same == stays, f"{name}, accepting {known}: {same} are found, and not {stays}")
        written = run(recording, "--write-accept", "--accept", str(path))[1]
        common.expect(written.splitlines() == left, f"{name}: left are {written}")


def brute_force():
    """Random recordings, also one after another with all that is in them."""
    folded = 0
    with tempfile.TemporaryDirectory() as folder:
        for seed in range(COUNT):
            maker = Maker(seed)
            recording = maker.recording() * (1 + maker.random.randrange(3))
            keys = judge(recording, f"seed {seed}")
            texts(recording, keys, f"seed {seed}")
            accepting(recording, keys, folder, f"seed {seed}")
            folded += len(keys) - len({key for key, *_ in keys})
    common.expect(folded > COUNT, f"only {folded} findings were folded")


def answered(words, given=b""):
    """The status of an audit, and what it writes to both outputs."""
    ran = subprocess.run([TEXT, "audit", *words], input=given, capture_output=True, text=False)
    return ran.returncode, ran.stdout.decode(), ran.stderr.decode()


def random_files(seed, folder):
    """Names of files and what they have: recordings as bytes and as texts, some that are none, some that are not there,
    and perhaps standard input."""
    maker, found = Maker(seed), {}
    for number in range(2 + maker.random.randrange(3)):
        recording, kind = maker.recording(), maker.random.randrange(6)
        path = str(Path(folder, f"{number}.bin"))
        contents = [recording, xxd(recording).encode(), recording + b"abc"]
        found["-" if kind == 0 and "-" not in found else path] = contents[kind % 3]
        if kind == 5:
            found[path] = None
    return found


def alone(name, content, words):
    """The status of a file by itself, its report, and the reason if it has none."""
    if content is None:
        return 2, "", "error: the file can't be opened: there is no such file\n"
    return answered(words, content)


def judge_files(found, words, name):
    """Judges a run over several files, and answers its status."""
    names, asked = [*found], [word for word in words if word != "--json"]
    each = [alone(file, found[file], asked) for file in names]
    status, out, err = answered([*words, *names], found.get("-", b""))
    statuses = [it[0] for it in each]
    reasons = "".join(f"{file}: {reason}" for file, (_, _, reason) in zip(names, each) if reason)
    right = (status, err) == (max(statuses), reasons)
    common.expect(right, f"{name}, {words}: status {status} of {statuses}, and {err!r}, not {reasons!r}")
    if "--json" in words:
        wanted = []
        for file, (its, _, reason) in zip(names, each):
            report = json.loads(alone(file, found[file], words)[1] or "null")
            wanted.append({"file": file, "status": its} | ({"error": reason[:-1]} if reason else {"report": report}))
        got = json.loads(out)
        common.expect(got == {"files": wanted}, f"{name}, {words}: {out[:400]}")
        common.expect(schema.holds(schema.report_schema("audit"), got), f"{name}: the schema rejects {out[:400]}")
    elif "--write-accept" in words:
        common.expect(out == "".join(keys for _, keys, _ in each), f"{name}, {words}: the keys are {out!r}")
    else:
        reports = [re.sub(r".*: line \d+: note: this fits nothing: .*\n", "", it[1]) for it in each]
        wanted = "".join(f"{file}:\n{text}\n" for file, text, it in zip(names, reports, each) if it[0] < 2)
        wanted += f"{len(names)} files: {statuses.count(1)} with errors, {statuses.count(2)} refused\n"
        common.expect(out == wanted, f"{name}, {words}: wrote {out[-400:]!r}, and not {wanted[-400:]!r}")
    return status


def files():
    """Several files: the report on each is the one that it has alone, and their status is the greatest; errors of all
    that are accepted leave it 0. Options of one file, and standard input twice, are refused."""
    seen = Counter()
    with tempfile.TemporaryDirectory() as folder:
        known = str(Path(folder, "known.txt"))
        for seed in range(max(COUNT // 4, 20)):
            found = random_files(seed, folder)
            for path, content in found.items():
                Path(path).unlink(missing_ok=True)
                if path != "-" and content is not None:
                    Path(path).write_bytes(content)
            name = f"seed {seed}"
            for words in ([], ["--all", "--resident"], ["--json"], ["--deny", "unseen", "--json"], ["--write-accept"]):
                seen[judge_files(found, words, name)] += 1
            Path(known).write_text("")
            for _ in range(64):
                more = answered(["--write-accept", "--accept", known, *found], found.get("-", b""))[1]
                Path(known).write_text(Path(known).read_text() + more)
                if not more:
                    break
            status = judge_files(found, ["--accept", known], name)
            common.expect(status != 1, f"{name}: there are errors beside those that are accepted")
        common.expect(min(seen[status] for status in range(3)) > 0, f"not each status is there: {seen}")
        one = str(Path(folder, "one.bin"))
        Path(one).write_bytes(Maker(1).recording())
        for words in (["--svg"], ["--list"], ["--staging", f"0:{one}"], ["--events", one]):
            got, wanted = answered([*words, one, one]), "error: --svg, --list, --staging and --events take one file\n"
            common.expect(got == (2, "", wanted), f"{words} with two files: {got}")
        got = answered(["-", one, "-"])
        common.expect(got == (2, "", "error: standard input (-) can be named once\n"), f"- twice: {got}")
        got = answered(["--deny", "fences", one, one])
        common.expect((got[0], got[1], got[2].count("\n")) == (2, "", 1), f"a word of no option: {got}")


def unread():
    """A file of accepted keys that is missing or no text is refused."""
    with tempfile.TemporaryDirectory() as folder:
        path = Path(folder, "known")
        for bad in (None, b"\xff\xfe"):
            if bad:
                path.write_bytes(bad)
            ran = subprocess.run([TEXT, "audit", "--accept", path], input="", capture_output=True, text=True)
            said = "is no text in UTF-8" if bad else "can't be opened: there is no such file"
            wanted = (2, "", f"error: {path} {said}\n")
            common.expect((ran.returncode, ran.stdout, ran.stderr) == wanted, f"{bad}: {ran}")


def main(words):
    global TEXT, COUNT
    TEXT = program("dsa_text")
    numbers = [int(word) for word in words if word.isdigit()]
    COUNT = numbers[-1] if numbers else COUNT
    for part in named([brute_force, files, unread], [it for it in words if not it.isdigit()]):
        part()


if __name__ == "__main__":
    run_test(main)
