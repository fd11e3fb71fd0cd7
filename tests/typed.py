"""Texts that a person types: with mistakes, each of which dsa_text names; with barriers, which the plan keeps at least
cost; of a list that stopped, of which `resume` says what is left, or that two pieces share a record; and with as many
groups as a picture has."""
import json
import random
import re
import struct
import subprocess
import tempfile
from pathlib import Path

import model
import pictured
from common import expect, move

LEAST = model.Settings(4, 4096, 10, 14, 3, 0x10000)
PAIR = "move 1 -> 2, 3 bytes, record 32"
WRONG = [
    ("move 1", "column 7: expected ->, found the end of the line", "130 Line"),
    ("MOVE 1", "column 1: expected move, fill, compare, delta, dualcast, crc or copy_crc, found 'MOVE'", "130 Line"),
    ("move 1 -> 2, 0 bytes, record 32", "operation {}: the transfer size is 0", "5 SizeZero {}"),
    ("move 1 -> 2, 3 bytes, record 33", "column 30, operation {}: ", "7 RecordAlign {}"),
    (f"{PAIR}, pasid 1", "column 40, operation {}: ", "12 MixedPasid {}"),
]


def mistakes(text):
    """Texts with some wrong lines. Each is named, up to 20 and in their order, and then how many there are."""
    for seed in range(60):
        choose = random.Random(seed)
        lines, found, operations = [PAIR], [], 1
        for number in range(2, choose.choice((4, 8, 60))):
            line, begin, name = choose.choice([*WRONG, (PAIR, None, None), ("# none", None, None)])
            lines.append(line)
            # of whom the operations are is known up to the first line that leaves the grammar
            is_told = "pasid" not in line or all(it[2] != "130 Line" for it in found)
            if begin and is_told:
                found.append((number, begin.format(operations), name.format(operations)))
            operations += line[0] != "#"
        ran = subprocess.run([text, "assemble"], input="\n".join(lines).encode(), capture_output=True)
        said = ran.stderr.decode().splitlines()
        is_grammar = any(name == "130 Line" for _, _, name in found)
        first = next((it for it in found if it[2] == "130 Line" or not is_grammar), None)
        others = [it for it in found if it != first][:19]
        named_lines = sorted([*others, first]) if first else []
        wanted = [(f"error: line {number}, {begin}", f" [{name}]") for number, begin, name in named_lines]
        if len(found) > 1:
            left = f", and {len(found) - len(named_lines)} of them are not named" * (len(found) > 20)
            wanted.append((f"error: {len(found)} lines are wrong{left}", " [130 Line]" * is_grammar))
        pairs = zip(said, wanted)
        is_right = len(said) == len(wanted) and all(it.startswith(a) and it.endswith(b) for it, (a, b) in pairs)
        expect(is_right and ran.returncode == int(bool(found)), f"{lines}: {said}, not {wanted}")


def keeps(plan, marks):
    """The plan has a fence or the start of a group before each piece after a barrier."""
    cuts = [at == 0 or fence for fences in plan for at, fence in enumerate(fences)]
    return all(cut for cut, mark in zip(cuts, marks) if mark)


def barriers(text):
    """Random lists with barriers: the plan is legal and keeps them, none that does costs less, and each fence says if
    a barrier needs it. The word fence, if it is kept, says what the line `barrier` does."""
    options = "--greatest-batch 4 --greatest-transfer 4096 --lone 10 --batch 14 --fence 3 --staging 0x10000".split()
    for seed in range(80):
        choose = random.Random(seed)
        ends = [[0x20000 + 0x1000 * choose.randrange(5) for _ in range(2)] for _ in range(5)]
        moves = [move(*it, record_at=0x8000 + 32 * k) for k, it in enumerate(ends)]
        marks = [choose.random() < 0.4 for _ in moves]
        rows = [f"move {it.first:#x} -> {it.second:#x}, {it.size} bytes, record {it.record_at:#x}" for it in moves]
        lines = "".join("barrier\n" * mark + row + "\n" for mark, row in zip(marks, rows))
        ran = subprocess.run([text, "explain", "--json", *options], input=lines, capture_output=True, text=True)
        expect(ran.returncode == 0, f"{lines}: {ran}")
        found = json.loads(ran.stdout)
        fenced, sizes = {it["before"] for it in found["fences"]}, [it["size"] for it in found["groups"]]
        plan = [[sum(sizes[:k]) + at in fenced for at in range(size)] for k, size in enumerate(sizes)]
        legal = [it for it in model.every_plan(5, 4) if model.first_fault(moves, it) is None and keeps(it, marks)]
        least = min(model.cost(it, LEAST) for it in legal)
        expect(plan in legal and least == found["cost"], f"{lines}: {found}, and the least cost is {least}")
        said = [it["before"] for it in found["fences"] if it.get("barrier")]
        expect(said == [k for k in sorted(fenced) if marks[k]], f"{lines}: barriers are said of {said}")
        words = "".join("fence " * mark + row + "\n" for mark, row in zip(marks, rows))
        command = [text, "explain", "--json", "--keep-fences", *options]
        kept = subprocess.run(command, input=words, capture_output=True, text=True)
        expect((kept.stdout, kept.stderr) == (ran.stdout, ran.stderr), f"{words}: {kept}")


def beside(ran):
    """What is said beside an answer of `resume` but for the notes on the pieces that have failed."""
    return re.sub("note: line .*: piece .* has failed .*\n", "", ran.stderr)


def resumed(text):
    """What is left of a list by completion records, typed by hand: operations that are split, both orders, records in
    each form and of another length, in a file or on standard input, and a file that is not there; lists with barriers,
    and pieces that are given up."""
    last = "compare 0x300000 with 0x400000, 64 bytes, expect 0, record 0x8060\n"
    lines = "move 0x100000 -> 0x200000, 10000 bytes, record 0x8000\n" + last
    first = "move 0x100000 -> 0x200000, 4096 bytes, record 0x8000\n"
    second = "move 0x101000 -> 0x201000, 4096 bytes, record 0x8020\n"
    third = "move 0x102000 -> 0x202000, 1808 bytes, record 0x8040\n"
    short = ["--greatest-transfer", "4096"]
    with tempfile.TemporaryDirectory() as folder:
        kinds = {"some": (1, 0, 3, 2), "none": (0, 0, 0, 0), "all": (1, 1, 1, 1), "late": (1, 0, 0, 0x84)}
        for name, statuses in kinds.items():
            records = b"".join(bytes([it]).ljust(32, b"\xa5" if it in (1, 2) else b"\0") for it in statuses)
            Path(folder, name).write_bytes(records)
            Path(folder, f"{name}.hex").write_text(records.hex() + "\n")
        Path(folder, "odd").write_bytes(b"\1" * 127)
        Path(folder, "lines").write_text(lines)
        for name, more, wanted in (
            ("some", [], second + third),
            ("some.hex", [], second + third),
            ("some.hex", ["--failed-first"], third + second),
            ("none", [], first + second + third + last),
            ("none", ["--failed-first"], first + second + third + last),
            ("all.hex", [], ""),
            ("late", [], second + third + last),
            ("late.hex", ["--failed-first"], last + second + third),
        ):
            words = ["resume", *short, *more, "--records", f"{folder}/{name}"]
            ran = subprocess.run([text, *words], input=lines, capture_output=True, text=True)
            got = (ran.returncode, ran.stdout, beside(ran))
            expect(got == (0, wanted, ""), f"{words}: wanted {wanted!r}, got {got}")
            listed = [text, "resume", *short, *more, "--records", "-", f"{folder}/lines"]
            piped = subprocess.run(listed, input=Path(folder, name).read_bytes(), capture_output=True)
            got = (piped.returncode, piped.stdout.decode(), piped.stderr.decode())
            expect(got == (0, wanted, ran.stderr), f"{name} on standard input, {more}: wanted {wanted!r}, got {got}")
        records = "there are not 32 bytes of completion records for each piece [112 Records]"
        sizes = "note: {} pieces have {} bytes of records, and these are {}\n".format
        both = "error: the list and the records can't both come from standard input: name a file for one\n"
        for words, given, status, error in (
            ([*short, "--records", f"{folder}/odd"], lines, 1, f"error: {records}\n{sizes(4, 128, 127)}"),
            (["--records", f"{folder}/some"], lines, 1, f"error: {records}\n{sizes(2, 64, 128)}"),
            ([*short, "--records", f"{folder}/some"], "mov 1", 1, "[130 Line]\n"),
            ([*short, "--give-up", "2,x", "--records", f"{folder}/some"], lines, 1, "with commas between\n"),
            ([*short, "--give-up", "65536", "--records", f"{folder}/some"], lines, 1, "with commas between\n"),
            (["--greatest-transfer", "7", "--records", f"{folder}/some"], lines, 1, "[83 Settings]\n"),
            (["--records", f"{folder}/no"], lines, 2, f"{folder}/no can't be opened: there is no such file\n"),
            (["--records", "-", f"{folder}/no"], "", 2, f"{folder}/no can't be opened: there is no such file\n"),
            ([*short, "--records", "-", f"{folder}/lines"], "", 1, f"error: {records}\n{sizes(4, 128, 0)}"),
            (["--records", "-"], lines, 2, both),
            (["--records", "-", "-"], lines, 2, both),
            ([], lines, 2, "For more information, try '--help'.\n"),
        ):
            ran = subprocess.run([text, "resume", *words], input=given, capture_output=True, text=True)
            right = (ran.returncode, ran.stdout) == (status, "") and ran.stderr.endswith(error)
            expect(right, f"resume {words}: status {ran.returncode}, {ran.stdout!r}, {ran.stderr!r}")
        # two groups of moves apart, and a compare whose source the move after it writes, so there is a fence between
        apart = "".join(f"move {at} -> {at + 64}, 64 bytes, record {0x8000 + at // 4}\n" for at in (0, 128, 256, 384))
        checked = "compare 0 with 64, 64 bytes, expect 0, record 0x8000, check\n"
        checked += "move 128 -> 0, 64 bytes, record 0x8020\n"
        early = "warning: piece {} has begun, and piece {}, of an earlier epoch of the plan, has not succeeded: "
        early += "groups submitted one after another leave no such records\n"
        for listed, statuses, places in (
            (apart, (1, 1, 0, 0), None),
            (apart, (1, 1, 3, 1), None),
            (apart, (3, 1, 0, 0), None),
            (apart, (0, 1, 0, 0), None),
            (apart, (3, 1, 1, 1), (2, 0)),
            (apart, (1, 0, 0, 3), (3, 1)),
            (apart, (2, 0, 0, 1), (3, 0)),
            (checked, (1, 1), None),
            (checked, (2, 0), None),
            (checked, (3, 0), None),
            (checked, (0, 0), None),
            (checked, (2, 1), (1, 0)),
            (checked, (0, 3), (1, 0)),
        ):
            Path(folder, "some").write_bytes(b"".join(bytes([status]).ljust(32, b"\0") for status in statuses))
            words = ["resume", "--greatest-batch", "2", "--records", f"{folder}/some"]
            ran = subprocess.run([text, *words], input=listed, capture_output=True, text=True)
            got = (ran.returncode, re.sub("warning: .* or in another order\n", "", beside(ran)))
            wanted = (0, early.format(*places) if places else "")
            expect(got == wanted, f"resume, statuses {statuses}: wanted {wanted}, got {got}")
        sharing(text, folder)
        stopped_at_barriers(text, folder)
        other_records(text, folder)
        checksums_left(text, folder)
        lacking = sum(forgone(text, folder, random.Random(seed)) for seed in range(200))
        expect(lacking > 50, f"only {lacking} pieces read what is given up")


def checksums_left(text, folder):
    """What is left of a list with checksums; of a compare alone can a record say that it has found a difference."""
    first = "copy_crc 0x1000 -> 0x2000, 64 bytes, seed 0x0, record 0x8000\n"
    second = "crc 0x5000, 256 bytes, seed at 0x8010, record 0x8020\n"
    wrong = "warning: piece 1: its record has status 2, which only those of compares have: these may be other records, "
    wrong += "or in another order\n"
    for statuses, options, wanted, said in (
        ((1, 1), [], "", ""),
        ((1, 0), [], second, ""),
        ((1, 3), ["--failed-first"], second, ""),
        ((3, 0), [], first + second, ""),
        ((0, 0), ["--failed-first"], first + second, ""),
        ((1, 2), [], "", wrong),
    ):
        Path(folder, "some").write_bytes(b"".join(bytes([status]).ljust(32, b"\0") for status in statuses))
        command = [text, "resume", *options, "--records", f"{folder}/some"]
        ran = subprocess.run(command, input=first + second, capture_output=True, text=True)
        got = (ran.returncode, ran.stdout, beside(ran))
        expect(got == (0, wanted, said), f"checksums with {statuses}: wanted {wanted!r}, {said!r}, got {got}")
    # a checksum that is given up leaves no value in its record, nor the data that it copies
    reads = "warning: piece 1 reads what piece 0, which is given up, was to write at 0x{:x}"
    for earlier, later, at in (
        (first, second, 0x8010),
        ("crc 0x1000, 64 bytes, seed 0x0, record 0x8000\n", second, 0x8010),
        (first, "crc 0x2020, 256 bytes, seed 0x0, record 0x8020\n", 0x2020),
        (first, "crc 0x5000, 256 bytes, seed 0x0, record 0x8020\n", None),
    ):
        Path(folder, "some").write_bytes(b"\3".ljust(32, b"\0") + bytes(32))
        command = [text, "resume", "--give-up", "0", "--records", f"{folder}/some"]
        ran = subprocess.run(command, input=earlier + later, capture_output=True, text=True)
        said = [line for line in ran.stderr.splitlines() if "reads what" in line]
        right = len(said) == (at is not None) and all(reads.format(at) in line for line in said)
        expect((ran.returncode, ran.stdout, right) == (0, later, True), f"{earlier} given up: {ran}")
    short = [text, "resume", "--greatest-transfer", "128", "--records", f"{folder}/some"]
    ran = subprocess.run(short, input=first + second, capture_output=True, text=True)
    too_long = "error: line 2, operation 1: 256 bytes are above the greatest transfer, 128, and no operation of a list "
    too_long += "with a checksum is split: raise --greatest-transfer [37 OverTransfer 1]\n"
    expect((ran.returncode, ran.stdout, ran.stderr) == (1, "", too_long), f"a checksum is split: {ran}")
    ran = subprocess.run(short, input=second + first, capture_output=True, text=True)
    for here, there in (("line 2, operation 1", "line 1, operation 0"), ("OverTransfer 1", "OverTransfer 0")):
        too_long = too_long.replace(here, there)
    expect((ran.returncode, ran.stdout, ran.stderr) == (1, "", too_long), f"a checksum is split: {ran}")


def forgone(text, folder, draw):
    """A random list of which some pieces have failed and are given up, judged by brute force: those that are left and
    read what one that is given up was to write, if no barrier is between, each with the last of these."""
    places, count = [0x1000 + 32 * n for n in range(12)], draw.randint(2, 9)
    pieces = [(*draw.sample(places, 2), draw.choice((8, 40, 100))) for _ in range(count)]
    pieces = [(source, target, min(size, abs(source - target))) for source, target, size in pieces]
    barrier = draw.randint(1, count - 1) if draw.random() < 0.3 else count
    statuses = [draw.choice((0, 1, 3, 3)) if n < barrier else 0 for n in range(count)]
    given = [n for n in range(count) if statuses[n] == 3 and draw.random() < 0.7]
    move = "move {:#x} -> {:#x}, {} bytes, record {:#x}\n".format
    lines = [move(*pieces[n], 0x8000 + 32 * n) for n in range(count)]
    lines.insert(barrier, "barrier\n" if barrier < count else "")
    wanted = []
    for n in range(barrier if given else 0):
        reads = {*range(pieces[n][0], pieces[n][0] + pieces[n][2])}
        writers = [k for k in given if k < n and reads & {*range(pieces[k][1], pieces[k][1] + pieces[k][2])}]
        if writers and n not in given and statuses[n] != 1:
            wanted.append((n, writers[-1]))
    Path(folder, "some").write_bytes(b"".join(bytes([status]).ljust(32, b"\0") for status in statuses))
    command = [text, "resume", "--records", f"{folder}/some"]
    command += ["--give-up", ",".join(map(str, given))] if given else []
    ran = subprocess.run(command, input="".join(lines), capture_output=True, text=True)
    found = re.findall(r": piece (\d+) reads what piece (\d+), which is given up, was to write at 0x", ran.stderr)
    got = [(int(n), int(k)) for n, k in found]
    expect((ran.returncode, got) == (0, wanted), f"{lines}, {statuses}, given up {given}: {wanted}, not {ran}")
    return len(wanted)


def other_records(text, folder):
    """Records that can't be those of their pieces, and pieces that read what one that is given up was to write."""
    lines = "move 0x1000 -> 0x3000, 8192 bytes, record 0x8000\n"
    lines += "compare 0x6000 with 0x7000, 64 bytes, expect 0, record 0x8020\n"
    lines += "delta 0x9000, 20 bytes -> 0xa000, 16 bytes, record 0x8040\n"
    rest = "its record has {}: these may be other records, or in another order".format
    at = "a page fault at 0x{:x}, in no page that it reads or writes".format
    for piece, status, done, fault, said in (
        (0, 3, 0, 0x1000, None), (0, 3, 8192, 0x2fff, None), (0, 0x83, 0, 0x4fff, None), (0, 4, 0, 0x8fff, None),
        (0, 3, 0, 0, None), (0, 3, 0, 0xfff, at(0xfff)), (0, 0x84, 0, 0x5000, at(0x5000)),
        (0, 3, 0, 0x7010, at(0x7010)),
        (0, 3, 8193, 0x1000, "a page fault after 8193 bytes, and it has 8192"),
        (1, 2, 7, 0, None), (0, 2, 0, 0, "status 2, which only those of compares have"),
        (0, 0, 0, 0, None), (1, 0, 1, 0, "status 0 and other bytes"),
        (2, 7, 0, 0, None), (2, 8, 0, 0, None), (1, 7, 0, 0, "status 7, which only those of deltas have"),
        (0, 0x88, 0, 0, "status 8, which only those of deltas have"),
        (2, 5, 0, 0, "status 5, which only those of batches have"),
        (0, 6, 0, 0, "status 6, which only those of batches have"),
        (1, 9, 0, 0, "status 9, which only those of operations on integrity fields have"),
        (2, 2, 0, 0, "status 2, which only those of compares have"),
        (1, 0x80, 0, 0, "status 0x80, which no record has"),
        (1, 0x81, 0, 0, "status 0x81, which no record has"), (1, 0x90, 0, 0, None),
        (1, 0x22, 0, 0, None), (1, 0x23, 0, 0, "status 0x23, which no record has"), (0, 0x1f, 0, 0, None),
        (1, 0x0a, 0, 0, "status 0x0a, which no record has"), (1, 0xff, 0, 0, "status 0xff, which no record has"),
        (2, 3, 20, 0x9000, None), (2, 3, 21, 0xa00f, "a page fault after 21 bytes, and it has 20"),
    ):
        records = [b"\1".ljust(32, b"\0")] * 3
        records[piece] = struct.pack("<B3xIQ16x", status, done, fault)
        Path(folder, "some").write_bytes(b"".join(records))
        command = [text, "resume", "--records", f"{folder}/some"]
        ran = subprocess.run(command, input=lines, capture_output=True, text=True)
        wanted = f"warning: piece {piece}: {rest(said)}\n" if said else ""
        got = (ran.returncode, beside(ran))
        expect(got == (0, wanted), f"piece {piece} with {status:#x}, {done}, {fault:#x}: wanted {wanted}, got {got}")
    move = "move {:#x} -> {:#x}, 64 bytes, record {:#x}\n".format
    many = "".join(move(n * 128, n * 128 + 64, 0x20000 + n * 32) for n in range(22))
    Path(folder, "some").write_bytes(b"\2".ljust(32, b"\0") * 22)
    ran = subprocess.run([text, "resume", "--records", f"{folder}/some"], input=many, capture_output=True, text=True)
    more = "note: and 2 more records that can't be those of their pieces\n"
    expect(ran.stderr.count("warning") == 20 and ran.stderr.endswith(more), f"22 wrong records: {ran.stderr}")
    # which pieces have failed, of which operation, and where
    split = "# two pieces\n" + move(0x1000, 0x3000, 0x8000).replace("64 bytes", "8192 bytes")
    split += move(0x6000, 0x7000, 0x8040)
    records = [struct.pack("<B3xIQ16x", *it) for it in ((1, 0, 0), (0x83, 0, 0x4000), (0x13, 0, 0))]
    Path(folder, "some").write_bytes(b"".join(records))
    command = [text, "resume", "--greatest-transfer", "4096", "--records", f"{folder}/some"]
    ran = subprocess.run(command, input=split, capture_output=True, text=True)
    wanted = "note: line 2, operation 0: piece 1 (2 of 2) has failed with status 0x83, a page fault by a write "
    wanted += "at 0x4000\n"
    wanted += "note: line 3, operation 1: piece 2 has failed with status 0x13\n"
    expect((ran.returncode, ran.stderr) == (0, wanted), f"pieces that have failed: {ran}")
    ran = subprocess.run([*command, "--give-up", "1"], input=split, capture_output=True, text=True)
    wanted = wanted.replace("0x4000\n", "0x4000, and is given up\n")
    expect((ran.returncode, ran.stderr) == (0, wanted), f"a piece that is given up: {ran}")
    # the second reads what the first writes, the third what the second does, the fourth overwrites, the last reads all
    chain = "move 0x1000 -> 0x2000, 64 bytes, record 0x8000\nmove 0x2020 -> 0x3000, 64 bytes, record 0x8020\n"
    chain += "move 0x3000 -> 0x4000, 64 bytes, record 0x8040\n"
    chain += "fill 0x2000 with 0102030405060708, 8 bytes, record 0x8060\n"
    chain += "compare 0x2000 with 0x3000, 64 bytes, expect 0, record 0x8080\n"
    line = "warning: piece {} reads what piece {}, which is given up, was to write at 0x{:x}\n".format
    for statuses, given, barrier, said in (
        ((3, 0, 0, 0, 0), "0", False, line(1, 0, 0x2020) + line(4, 0, 0x2000)),
        ((3, 0, 0, 0, 0), "0", True, ""),
        ((3, 3, 0, 0, 0), "0,1", False, line(2, 1, 0x3000) + line(4, 1, 0x3000)),
        ((1, 3, 0, 0, 3), "1", False, line(2, 1, 0x3000) + line(4, 1, 0x3000)),
        ((1, 3, 0, 0, 3), "4", False, ""), ((3, 0, 0, 0, 0), None, False, ""),
    ):
        listed = chain.replace("\n", "\nbarrier\n", 1) if barrier else chain
        Path(folder, "some").write_bytes(b"".join(bytes([end]).ljust(32, b"\0") for end in statuses))
        command = [text, "resume", "--records", f"{folder}/some", *(["--give-up", given] if given else [])]
        ran = subprocess.run(command, input=listed, capture_output=True, text=True)
        got = re.sub("note: .*\n|.*of an earlier epoch.*\n", "", beside(ran))
        expect((ran.returncode, got) == (0, said), f"statuses {statuses}, given up {given}: wanted {said!r}, got {ran}")
    # the second reads the record of the first too, which is written: the address is that of data
    after_record = "move 0x1000 -> 0x8020, 64 bytes, record 0x8000\nmove 0x8000 -> 0x9000, 128 bytes, record 0xa000\n"
    Path(folder, "some").write_bytes(bytes([3]).ljust(64, b"\0"))
    command = [text, "resume", "--records", f"{folder}/some", "--give-up", "0"]
    ran = subprocess.run(command, input=after_record, capture_output=True, text=True)
    expect(line(1, 0, 0x8020) in ran.stderr, f"what is read beside a record: {ran}")


def stopped_at_barriers(text, folder):
    """Barriers of a stopped list, by hand: those that hold stay, and what is after one that never can be passed is left
    out."""
    row = [f"move {128 * n:#x} -> {128 * n + 64:#x}, 64 bytes, record {0x8000 + 32 * n:#x}\n" for n in range(5)]
    lines = row[0] + row[1] + "barrier\n" + row[2] + row[3] + "barrier\n" + row[4]
    early = "piece {} has begun, piece {} has not succeeded, a barrier is between: restore memory, run the whole list "
    early += "[115 PassedBarrier {} {}]\n"
    given = "error: piece {} is given up, but the status in its record is not 3 or above, or there is no such piece "
    given += "[114 NotFailed {}]\n"
    out = "note: {} {} after a barrier left out: piece {} {}\n".format
    for statuses, more, status, left, said in (
        # nothing has begun, or all has succeeded
        ((0, 0, 0, 0, 0), [], 0, lines, ""),
        ((1, 1, 1, 1, 1), [], 0, "", ""),
        # a fault before the first barrier, and the same in the other order
        ((3, 0, 0, 0, 0), [], 0, lines, ""),
        ((0, 3, 0, 0, 0), ["--failed-first"], 0, row[1] + row[0] + "".join(lines.partition("barrier\n")[1:]), ""),
        # the first barrier is passed, the second holds
        ((1, 1, 1, 4, 0), [], 0, row[3] + "barrier\n" + row[4], ""),
        ((1, 1, 1, 1, 0), [], 0, row[4], ""),
        # what is given up is not done, nor what is after the next barrier
        ((3, 0, 0, 0, 0), ["--give-up", "0"], 0, row[1], out(3, "pieces", 0, "is given up")),
        ((1, 1, 3, 4, 0), ["--give-up", "3"], 0, row[2], out(1, "piece", 3, "is given up")),
        ((1, 1, 3, 4, 0), ["--give-up", "3,2"], 0, "", out(1, "piece", 2, "is given up")),
        ((1, 1, 1, 1, 3), ["--give-up", "4"], 0, "", ""),
        # a piece is given up that has not failed, or is not there
        ((1, 1, 3, 4, 0), ["--give-up", "1"], 1, "", given.format(1, 1)),
        ((1, 1, 3, 4, 0), ["--give-up", "5,4"], 1, "", given.format(4, 4)),
        ((1, 1, 3, 4, 0), ["--give-up", "5"], 1, "", given.format(5, 5)),
        # a piece has begun too early
        ((1, 0, 0, 1, 0), [], 1, "", "error: " + early.format(3, 1, 1, 3)),
        ((0, 3, 1, 1, 0), [], 1, "", "error: " + early.format(2, 0, 0, 2)),
        ((1, 1, 1, 0, 3), [], 1, "", "error: " + early.format(4, 3, 3, 4)),
    ):
        Path(folder, "some").write_bytes(b"".join(bytes([end]).ljust(32, b"\0") for end in statuses))
        ran = subprocess.run(
            [text, "resume", *more, "--records", f"{folder}/some"], input=lines, capture_output=True, text=True
        )
        got = (ran.returncode, ran.stdout, re.sub("warning: piece .*\n", "", beside(ran)))
        expect(got == (status, left, said), f"resume {more}, statuses {statuses}: wanted {left!r}, {said!r}, got {got}")
    # a check that has failed
    checked = "compare 0x0 with 0x40, 64 bytes, expect 0, record 0x8000, check\n" + row[1] + "barrier\n" + row[2]
    for statuses, left, said in (
        ((2, 0, 0), row[1], out(1, "piece", 0, "has status 2, another result than expected")),
        ((2, 1, 0), "", out(1, "piece", 0, "has status 2, another result than expected")),
        ((1, 0, 0), row[1] + "barrier\n" + row[2], ""),
    ):
        Path(folder, "some").write_bytes(b"".join(bytes([end]).ljust(32, b"\0") for end in statuses))
        command = [text, "resume", "--records", f"{folder}/some"]
        ran = subprocess.run(command, input=checked, capture_output=True, text=True)
        got = (ran.returncode, ran.stdout, re.sub("warning: piece .*\n", "", beside(ran)))
        expect(got == (0, left, said), f"resume of a check, statuses {statuses}: wanted {left!r}, {said!r}, got {got}")
    # a failed move over a part of its own source, and over all of it, which changes nothing
    for source, said in ((0x1030, "warning: piece 0 has failed, and may have overwritten a part of what it reads: "
                                  "restore that before it is done again\n"), (0x1000, ""), (0x1040, "")):
        line = f"move {source:#x} -> 0x1000, 64 bytes, record 0x8000\n"
        Path(folder, "some").write_bytes(b"\x03".ljust(32, b"\0"))
        command = [text, "resume", "--records", f"{folder}/some"]
        ran = subprocess.run(command, input=line, capture_output=True, text=True)
        got = (ran.returncode, ran.stdout, beside(ran))
        expect(got == (0, line, said), f"resume of a move over its source: wanted {line!r}, {said!r}, got {got}")
    # it is not done again if it is given up
    line = "move 0x1030 -> 0x1000, 64 bytes, record 0x8000\n"
    Path(folder, "some").write_bytes(b"\x03".ljust(32, b"\0"))
    command = [text, "resume", "--give-up", "0", "--records", f"{folder}/some"]
    ran = subprocess.run(command, input=line, capture_output=True, text=True)
    got = (ran.returncode, ran.stdout, beside(ran))
    expect(got == (0, "", ""), f"resume of a move over its source that is given up: got {got}")
    # a fence that was planned as a barrier
    Path(folder, "some").write_bytes(b"\x02".ljust(32, b"\0") + b"\x03".ljust(32, b"\0") + bytes(32))
    fenced = checked.replace("barrier\n", "fence ")
    passed = "note: line 3, operation 2: this fence is passed over; --keep-fences makes it a barrier\n"
    kept = out(1, "piece", 0, "has status 2, another result than expected")
    for more, left, said in (([], row[1] + row[2], passed), (["--keep-fences"], row[1], kept)):
        command = [text, "resume", *more, "--records", f"{folder}/some"]
        ran = subprocess.run(command, input=fenced, capture_output=True, text=True)
        got = (ran.returncode, ran.stdout, re.sub("warning: piece .*\n", "", beside(ran)))
        expect(got == (0, left, said), f"resume {more} of a fence: wanted {left!r}, {said!r}, got {got}")


def sharing(text, folder):
    """Lists in which a piece writes into the record of another are refused, whatever the records say: the least second
    piece is named, and for it the greatest first one. The operations beside it are named as `explain` names them."""
    words = "one of pieces {} and {} writes into the other's record: resume from the failed entry on if only groups "
    words += "before it share records; else restore the memory, and run the whole list with a record for each "
    words += "[113 SharedRecord {} {}]"
    row = "warning: operation {}'s record is in the row of operation {} (1 record, 0x8000 to 0x801f): use 0x{}\n".format
    over = "warning: operation {} writes data at 0x{:x} to 0x{:x}, "
    over += "and operation {} writes its completion records at 0x{:x} to 0x{:x}\n"
    moves = ["move 0x100 -> 0x200, 8 bytes, record 0x8000\n", "move 0x400 -> 0x500, 8 bytes, record 0x8020\n"]
    third = "move 0x300 -> 0x600, 8 bytes, record 0x{:x}\n".format
    one_record = ["move 0x100 -> 0x200, 8 bytes, record 0x8000\n", "move 0x300 -> 0x100, 8 bytes, record 0x8000\n"]
    one_record += ["move 0x400 -> 0x500, 8 bytes, record 0x8000\n"]
    shared_by_all = row(1, 0, "8020") + row(2, 0, "8040")
    fill = "fill 0x8010 with 0000000000000000, {} bytes, record 0x9000\n".format
    for lines, statuses, pair, notes in (
        ([*moves, third(0x8000)], (1, 3, 1), (0, 2), row(2, 0, "8040")),
        (one_record, (3, 3, 3), (0, 1), shared_by_all),
        ([fill(16), *moves], (1, 0, 3), (0, 1), over.format(0, 0x8010, 0x801F, 1, 0x8000, 0x801F)),
        ([*moves, fill(24)], (1, 1, 3), (1, 2), over.format(2, 0x8010, 0x8027, 1, 0x8020, 0x803F)),
        ([*moves, third(0x8040)], (1, 1, 3), None, ""),
    ):
        Path(folder, "some").write_bytes(b"".join(bytes([status]).ljust(32, b"\0") for status in statuses))
        command = [text, "resume", "--records", f"{folder}/some"]
        ran = subprocess.run(command, input="".join(lines), capture_output=True, text=True)
        wanted = (1, "", f"error: {words.format(*pair, *pair)}\n{notes}") if pair else (0, lines[2], "")
        got = (ran.returncode, ran.stdout, beside(ran))
        expect(got == wanted, f"resume of {lines}: wanted {wanted}, got {got}")
    ran = subprocess.run([text, "explain"], input="".join(one_record), capture_output=True, text=True)
    expect((ran.returncode, ran.stderr) == (0, shared_by_all), f"explain of {one_record}: {ran.stderr!r}")


def most_groups(written, refused):
    """A picture has 1,024 groups at most, of which a piece is drawn: of lone pieces, and of batches of two."""
    said = "1025 groups, a picture has 1024 at most (--from N --to M draws some)"
    line = "move {} -> {}, 64 bytes, record {}\n".format
    for options, size in (("--lone 0", 1), ("--greatest-batch 2", 2)):
        moves = ((0x10_0000 + 64 * k, 0x20_0000 + 64 * k, 0x30_0000 + 32 * k) for k in range(1026 * size))
        lines = "".join(line(*it) for it in moves)
        told, end = written(f"explain {options}", lines), 1026 * size - 1
        refused(f"explain --svg {options}", lines, said.replace("1025", "1026"), "131 Picture")
        for first, last in ((0, 1025 * size - 1), (size - 1, 1024 * size), (size, end), (2 * size - 1, 9999)):
            refused(f"explain --svg {options} --from {first} --to {last}", lines, said, "131 Picture")
        for first, last in ((0, 1024 * size - 1), (size, 1025 * size - 1), (2 * size, 9999), (1019, 1024), (end, end)):
            svg = written(f"explain --svg {options} --from {first} --to {last}", lines)
            fault = pictured.plan_fault(svg, told, lines, first, last)
            expect(not fault, f"{options}, from {first} to {last}: {fault}")
