"""Runs dsa_text on the examples of examples/text and compares what it writes with what is there; brings the list
of each job of tests/jobs to text and back; and asks about lines, texts, options and plans typed by hand from
docs/FORMATS.md: each operation and option as a line and back, where a line leaves the grammar, which fault of a list
is told, and the reason for each fence of a plan. The bytes of descriptors are those of the model. What people should
read, it compares with the golden files of tests/text: options, help, statuses, portals and staging areas, explanations
and pictures. The words are names of parts."""

import json
import random
import re
import shlex
import subprocess
import sys
import tempfile
from pathlib import Path

import common
import folded
import golden
import kinds
import noted
import pictured
import typed
from common import move, named, program, run_test
import model
from model import COMPARE, DELTA, DUALCAST, FILL, PATTERN, Op

sys.path.insert(0, str(common.ROOT / "bindings"))
import causes

LEAST = model.Settings(4, 4096, 10, 14, 3, 0x10000)
PAIR = "move 1 -> 2, 3 bytes, record 32"


def expect(command, text, wanted):
    """The program writes this line, or these, and ends with the status of such an end."""
    common.expect_line([TEXT, *command.split()], text, wanted)


def refused(command, text, begin, name):
    """The program writes no answer but one line on standard error, which begins and ends so, and ends with status 1; after
    that of a missing fence come the fences that are missing."""
    ran = subprocess.run([TEXT, *command.split()], input=text.encode(), capture_output=True)
    said = ran.stderr.decode()
    line, rest = said.split("\n", 1) if "\n" in said else (said, "")
    is_right = line.startswith(f"error: {begin}") and line.endswith(f" [{name}]") and (not rest or name.startswith("43 "))
    what = f"{command} {text[:400]!r}: wanted error: {begin} .. [{name}], got status {ran.returncode}, {said!r}"
    common.expect(ran.returncode == 1 and not ran.stdout and is_right, what)


def written(command, text=""):
    """What the program writes to standard output, whatever its status and its warnings."""
    return subprocess.run([TEXT, *command.split()], input=text, capture_output=True, text=True).stdout


def same(what, wrote, path):
    """What was written is what the file has."""
    wanted = path.read_text()
    common.expect(wrote == wanted, f"{what} is not {path}: {wrote!r}")


def example(path):
    """One text with its options: as a list and a job, as canonical lines, explained and drawn, and planned by dsa."""
    text, own = path.read_text(), path.with_suffix(".job").read_text()
    options = path.with_suffix(".args").read_text()
    list_of = json.loads(own)["list"]
    same("assemble --job", written(f"assemble --job {options}", text), path.with_suffix(".job"))
    common.expect(written(f"assemble {options}", text) == list_of + "\n", f"assemble does not give the list of {path}")
    same("disassemble", written("disassemble", list_of + "\n"), path.with_suffix(".lines"))
    same("explain, of the text,", written(f"explain {options}", text), path.with_suffix(".explain"))
    nameless = re.sub(" # .*", "", path.with_suffix(".explain").read_text())
    common.expect(written("explain", own) == nameless, f"explain, of the job, is not {path} without names")
    same("the picture", written(f"explain --svg {options}", text), path.with_suffix(".svg"))
    common.expect_line([program("dsa")], own, path.with_suffix(".line").read_text().rstrip("\n"))


def as_planned(path):
    """The plan of an example, judged and checked: explained as what was planned."""
    answer = json.loads(path.with_suffix(".line").read_text())
    rules = json.loads(path.with_suffix(".job").read_text())["settings"]
    # pieces, read back from bytes to submit, no longer know the operations that they are of, nor their names
    explained = re.sub(r" \(operation [^)]*\)| # .*", "", path.with_suffix(".explain").read_text())
    emitted = {name: answer[name] for name in ("portal", "staging")}
    check = {"do": "check", **emitted, "certificate": answer["certificate"], "settings": rules}
    expect("explain", json.dumps(check), explained.rstrip("\n"))
    common.expect(written("disassemble --portal", emitted["portal"] + "\n"), f"{path}: the portal has no text")
    staged = written("disassemble --staging", emitted["staging"] + "\n").split("\n")
    lines = [line.removeprefix("fence ") for line in staged if not line.startswith("#")]
    pieces = written("assemble", "\n".join(lines)).rstrip("\n")
    judge = {"do": "judge", "list": pieces, "plan": answer["plan"], "settings": rules}
    expect("explain", json.dumps(judge), f"{explained}least {answer['cost']}: no plan costs less")


def examples():
    for path in sorted(Path("examples/text").glob("*.txt")):
        example(path)
        as_planned(path)


def lists():
    """Every list of the other tests that is read, as text and back."""
    count = 0
    for path in sorted(Path("tests/jobs").glob("*.job")):
        found = re.search(r'"list": *"([0-9a-fA-F]+)"', path.read_text(errors="replace"))
        if not found:
            continue
        ran = subprocess.run([TEXT, "disassemble"], input=found[1] + "\n", capture_output=True, text=True)
        if ran.returncode == 0:
            count += 1
            back = written("assemble", ran.stdout)
            common.expect(back == found[1].lower() + "\n", f"{path}: its list comes back as {back[:200]}")
    common.expect(count > 10, f"only {count} lists came back")


def refusals():
    """Refusals by way of options, jobs and addresses."""
    plan, run = (Path(f"examples/{name}.job").read_text() for name in ("plan", "run"))
    two = "move 1 -> 2, 3 bytes, record 32\nmove 1 - 2\n"
    for command, text, begin, name in [
        ("assemble", two, "line 2, column 8: expected ->, found '-'", "130 Line"),
        ("assemble", "\nmove 1 -> 2, 0 bytes, record 32\n", "line 2, operation 0: the transfer size is 0", "5 SizeZero 0"),
        ("explain --lone 1000000001", PAIR + "\n", "--lone: ", "83 Settings"),
        ("disassemble", "xy", "line 1, column 1: expected a hexadecimal digit", "84 Hex"),
        ("disassemble", "00\n0 0\n0", "line 3, column 2: the text ends within a byte", "84 Hex"),
        ("disassemble --portal", "00000000: 4x", "line 1, column 12: expected a hexadecimal digit", "84 Hex"),
        ("disassemble --staging", "00000000  00 00\n*\n", "line 2, column 1: lines are left out here: use hexdump -v -C", "84 Hex"),
        ("explain", '{"do":"run"}', "", "81 Member"),
        ("explain", run, "a job to replay or to run is not explained", "82 Do"),
        ("explain --fence 3", plan, "a job has settings of its own", "132 Options"),
        ("explain", re.sub(r'("list": *")', r"\1 ", plan), "`list` is no hexadecimal text", "84 Hex"),
        ("disassemble --staging --at 0x10001", "", "--at: '0x10001' is no multiple of 64", "83 Settings"),
        ("disassemble --staging --at 0x8000000000000040", "", "--at: ", "83 Settings"),
        ("assemble", "compare 1 with patern 2, 8 bytes\n",
         "line 1, column 16: expected a number below 2^64, or pattern, found 'patern'", "130 Line"),
    ]:
        refused(command, text, begin, name)


def arguments():
    """Arguments that are refused before any text is read, and the help of each command."""
    for words in [
        "disassemble --at 0x10000",
        "disassemble --portal --at 0x10000",
        "explain --batch 14 --batches 5 --greatest-batch 2",
        "assemble --wrong",
    ]:
        common.expect_status([TEXT, *words.split()], 2)
    for command in ("assemble", "disassemble", "explain"):
        begins = written(f"{command} --help").find(f"Usage: dsa_text {command}")
        common.expect(begins >= 0, f"{command} --help has no usage")


def owned(op, pasid, privileged):
    """The descriptor of an owner, in hexadecimal."""
    return ((pasid | privileged << 31).to_bytes(4, "little") + op.bytes()[4:]).hex()


def lines():
    """Lines as they are written by hand, the bytes of their descriptors, and the canonical lines of these."""
    first = move(0x1000, 0x2000)
    for line, digits, canonical in [
        ("move 0x1000 -> 0x2000, 64 bytes, record 0x8000", first.bytes().hex(), None),
        (" move\t4096 -> 0x2000 , 0x40 bytes,record 32768, pasid 0xAb# end", owned(first, 171, 0),
         "move 0x1000 -> 0x2000, 64 bytes, record 0x8000, pasid 171"),
        ("fill 0x2000 with 01020304050607Ff, 4100 bytes, record 0x8000",
         Op(FILL, 4100, 0x8000, 0xFF07060504030201, 0x2000).bytes().hex(),
         "fill 0x2000 with 01020304050607ff, 4100 bytes, record 0x8000"),
        ("compare 0x10 with 0x4000, 8 bytes, expect 1, record 0x8000",
         Op(COMPARE, 8, 0x8000, 0x10, 0x4000, 1).bytes().hex(), None),
        ("compare 0x10 with pattern 0102030405060708, 8 bytes, expect 1, record 0x8000, check",
         Op(PATTERN, 8, 0x8000, 0x10, 0x0807060504030201, 1, 0x8C).bytes().hex(), None),
        ("delta 0x1000, 20 bytes -> 0x1040, 32 bytes, record 0x1080, pasid 1048575",
         owned(Op(DELTA, 32, 0x1080, 0x1000, 0x1040, 20), 1_048_575, 0), None),
        ("dualcast 0x1000 -> 0x2000 and 0x3000, 16 bytes, record 0x8000, flags 65314, handle 65535",
         Op(DUALCAST, 16, 0x8000, 0x1000, 0x2000, 0x3000, 0xFF2E, 65_535).bytes().hex(), None),
        ("compare 1 with 2, 8 bytes, expect 1, record 0x20, handle 3, flags 0x102, check, privileged, pasid 7",
         owned(Op(COMPARE, 8, 0x20, 1, 2, 1, 0x18E, 3), 7, 1),
         "compare 0x1 with 0x2, 8 bytes, expect 1, record 0x20, pasid 7, privileged, check, flags 258, handle 3"),
    ]:
        expect("assemble", line, digits)
        expect("disassemble", digits, canonical or line)


def grammar():
    """Where each line leaves the grammar, and what may come there."""
    operation = "move, fill, compare, delta, dualcast, crc or copy_crc"
    number, size = "a number below 2^64", "a number below 2^32"
    option = "an option that does not stand before: pasid, privileged, check, flags or handle"
    more = "a comma, or the end of the line"
    for line, column, words in [
        ("copy 1 -> 2, 64 bytes, record 0x8000", 1, operation),
        ("move", 5, number),
        ("move +4096 -> 0x2000, 64 bytes, record 0x8000", 6, number),
        ("move 0x -> 0x2000, 64 bytes, record 0x8000", 6, number),
        ("move 18446744073709551616 -> 0, 64 bytes", 6, number),
        ("\t move 4096->0x2000,64 bytes", 8, number),
        (" move\t4096 -> 0X2000 , 64 bytes,record 32768", 15, number),
        ("move 1 - 2", 8, "->"),
        ("move 0x1000 -> 0x2000 64 bytes, record 0x8000", 23, "a comma"),
        ("move 0 -> 0x2000, 4294967296 bytes, record 0", 19, size),
        ("fill 0 with 01020304050607, 8 bytes", 13, "16 hexadecimal digits"),
        ("compare 1 with patern 0102030405060708, 8 bytes", 16, "a number below 2^64, or pattern"),
        ("compare 1 with pattern 2, 8 bytes, expect 0, record 32", 24, "16 hexadecimal digits"),
        ("compare 0x10 with 0x4000, 8 bytes, expect 2, record 0x8000", 43, "0 or 1"),
        (f"{PAIR} pasid 1", 33, more),
        (f"{PAIR},", 33, option),
        (f"{PAIR}, pasid 0x100000", 40, "a number below 2^20"),
        (f"{PAIR}, pasid 1, pasid 1", 43, option),
        (f"{PAIR}, flags 4", 40, "flags of 0x0002, 0x0020, 0x0100 to 0x8000, 0x020000 and 0x040000"),
        (f"{PAIR}, handle 65536", 41, "a number below 2^16"),
    ]:
        refused("assemble", line, f"line 1, column {column}: expected {words}, found ", "130 Line")


def texts():
    """Texts of several lines. A line that leaves the grammar comes before any fault of the list, which names its line."""
    first, second = "move 0x1000 -> 0x2000, 64 bytes, record 0x8000", "move 0x2000 -> 0x4000, 64 bytes, record 0x8020"
    both = move(0x1000, 0x2000).bytes().hex() + move(0x2000, 0x4000, record_at=0x8020).bytes().hex()
    expect("assemble", f"# two moves\n{first}\n\n \t\n{second} # reads it", both)
    expect("disassemble", both, f"{first}\n{second}")
    for text, wanted in [
        ("", ""),
        ("# none\n", ""),
        ("\n \r\n", ""),
        (f"# a move\r\n\r\n{PAIR}\r\n", move(1, 2, 3, 32).bytes().hex()),
    ]:
        expect("assemble", text, wanted)
    for text, begin, name in [
        (f"# none\n{first}\n\nmove 1 -> 2, 0 bytes, record 0\n", "line 4, operation 1: ", "5 SizeZero 1"),
        (f"{PAIR}\n\nmove 1 -> 2, 3 bytes, record 64, pasid 1", "line 3, column 40, operation 1: ", "12 MixedPasid 1"),
        ("move 0x1000 -> 0x2000, 64 bytes, record 0x8010", "line 1, column 41, operation 0: ", "7 RecordAlign 0"),
        ("move 0x1000 -> 0x2000, 0 bytes, record 0x8000, check", "line 1, column 48, operation 0: ", "3 FlagBits 0"),
        ("dualcast 0x1000 -> 0x2000 and 0x3010, 16 bytes, record 0x8000", "line 1, operation 0: ", "8 DualcastBits 0"),
    ]:
        refused("assemble", text, begin, name)
    refused("disassemble", "000000", "the list's length is no multiple of 64: 3 bytes", "1 Length")


def sizes():
    """K and M after a size stand for 1,024 and 1,048,576 times the number."""
    spelled = [("4K", 4096), ("2M", 1 << 21), ("0x10K", 1 << 14), ("4095M", 4095 << 20), ("4194303K", 4194303 << 10)]
    for word, size in spelled:
        listed = move(0, 0x2_0000_0000, size, 0x4_0000_0000).bytes().hex()
        expect("assemble", f"move 0 -> 0x200000000, {word} bytes, record 0x400000000", listed)
    size = "column 24: expected a number below 2^32, found"
    for word, more in [("4096M", ""), ("4k", " (K and M are capitals)"), ("K", ""), ("0xK", ""), ("4KK", "")]:
        end = f"'{word}'{more}"
        refused("assemble", f"move 0 -> 0x200000000, {word} bytes, record 0x8000", f"line 1, {size} {end}", "130 Line")
    at_address = "line 1, column 6: expected a number below 2^64, found '4K' (K and M are for sizes)"
    refused("assemble", "move 4K -> 0x2000, 8 bytes, record 0x8000", at_address, "130 Line")


def sentences():
    """The sentences of dsa_sentences are those of docs/FORMATS.md, word for word, and there is no other cause; the
    causes in the header, the Rust crate and the Python module are made of them."""
    source = Path("crates/dsa_sentences/src/sentences.rt").read_text()
    of_causes, of_settings = source[: source.index("fn of_settings")], source[source.index("fn of_settings") :]
    pattern = r'^ *(\d+) =>\s*"([^"]*)"'
    known = {int(number): said for number, said in re.findall(pattern, of_causes, re.M)}
    page = Path("docs/FORMATS.md").read_text()
    rows = re.findall(r"^\| (\d+) \| ([A-Z]\w+)([^|]*) \| (.*) \|$", page, re.M)
    common.expect({int(number) for number, *_ in rows} == {*known}, "FORMATS.md has other causes than the sentences")
    for number, name, places, cause in rows:
        wanted = re.sub("^(preparing|filling|tracking|from C): ", "", cause)
        wanted = f"descriptor i: {wanted}" if 2 <= int(number) <= 13 else wanted
        said = known.get(int(number), "nothing")
        for sign, place in zip("#$", places.split() or ["i"]):
            said = said.replace(sign, place)
        common.expect(said == wanted, f"{number} {name} is {wanted!r}, and the program says {said!r}")
    settings = re.findall(r"^\| (\d) \| `\w+` \| (.*) \|$", page, re.M)
    said = re.findall(r'^ *(\d) =>\s*"([^"]*)"', of_settings[: of_settings.index("pub fn sentence_of")], re.M)
    right = len(settings) == 12 and said == settings
    common.expect(right, f"FORMATS.md says of settings and measures {settings}, the source {said}")
    for path, text in causes.made():
        common.expect(path.read_text() == text, f"{path} has other causes than bindings/causes.py makes of FORMATS.md")


def pieces_of(moves):
    """Moves of 64 bytes."""
    return [move(src, dst, record_at=0x2_0000 + 32 * k) for k, (src, dst) in enumerate(moves)]


def explained(moves, plan):
    """A job that judges the plan of these moves of 64 bytes, where a piece alone costs 10, a batch of at most four 14, and a
    fence 3."""
    return common.judge(pieces_of(moves), plan)


def shown(moves, plan, reasons):
    """What explaining the plan writes: of each group its pieces, before a fenced one its fence and the reason for it, and
    what the groups and the plan cost."""
    rows, piece, whole = [], 0, 0
    for number, fences in enumerate(plan):
        count = sum(fences)
        cost = 14 + 3 * count if len(fences) > 1 else 10
        full = " (full)" * (len(fences) == 4)
        kind = f"batch of {len(fences)}{full}, {count} fence{'s' * (count != 1)}, {count + 1} epoch{'s' * (count != 0)}"
        rows.append(f"group {number}: {kind if len(fences) > 1 else 'lone submission'}, cost {cost}")
        for fenced in fences:
            if fenced:
                rows.append(f"  -- fence, cost 3: {reasons[piece]}")
            src, dst = moves[piece]
            rows.append(f"  {piece}: move 0x{src:x} -> 0x{dst:x}, 64 bytes, record 0x{0x2_0000 + 32 * piece:x}")
            piece += 1
        whole += cost
    lone = 10 * len(moves)
    least = model.prices(pieces_of(moves), LEAST)[-1]
    more = f"this plan costs {whole - least} more" if whole > least else "no plan costs less"
    rows.append(f"cost {whole}; {len(moves)} lone submissions cost {lone}, saved {lone - whole}")
    return "\n".join([*rows, f"least {least}: {more}"])


def fences():
    """The reason for each fence: of all pairs that need it the one with the least later piece, and for it the greatest
    earlier one; the first kind of hazard that they have, and how many more pairs there are; or that no conflict needs it
    alone."""
    idle, read, last = "no conflict needs it alone", "read after write", (0x2000, 0x6000)
    apart, chain = [(0x1000, 0x2000), (0x3000, 0x4000), (0x2000, 0x5000)], [(0x1000 * k, 0x1000 * (k + 1)) for k in range(1, 5)]
    for moves, plan, reasons in [
        ([(0x1000, 0x2000), (0x2020, 0x4000)], [[False, True]], {1: f"1 after 0, {read} at 0x2020"}),
        ([(0x1000, 0x2000), (0x3000, 0x1030)], [[False, True]], {1: "1 after 0, write after read at 0x1030"}),
        ([(0x1000, 0x2000), (0x3000, 0x203F)], [[False, True]], {1: "1 after 0, write after write at 0x203f"}),
        ([(0x1000, 0x2000), (0x2000, 0x2040)], [[False, True]], {1: f"1 after 0, {read} at 0x2000"}),
        (apart, [[False, True, False]], {1: f"2 after 0, {read} at 0x2000"}),
        (apart, [[False, False, True]], {2: f"2 after 0, {read} at 0x2000"}),
        (apart, [[False, True, True]], {1: idle, 2: idle}),
        ([(0x1000, 0x2000), (0x3000, 0x4000), (0x4000, 0x5000), last], [[False, False, True, False]], {2: f"2 after 1, {read} at 0x4000, and 1 more"}),
        (chain, [[False, True], [False, True]], {1: f"1 after 0, {read} at 0x2000", 3: f"3 after 2, {read} at 0x4000"}),
    ]:
        expect("explain", explained(moves, plan), shown(moves, plan, reasons))
    for plan, begin, name in [
        ([[False, True]], "the sizes of the groups do not add up", "40 Count"),
        ([[False, True, True], [True]], "the first of group 1 is fenced", "42 FirstFence 1"),
        ([[], [False, True, True, True]], "group 0 is empty", "41 GroupSize 0"),
        ([[False, True], [False, False]], "pieces 2 and 3 of one group conflict", "43 Unfenced 2 3"),
    ]:
        refused("explain", explained(chain, plan), begin, name)
    refused("explain", explained([(0x1000, 0x2000)] * 65_536, []), "", "40 Count")
    refused("explain", explained([(0x1000, 0x2000)] * 65_537, []), "there are more than 65,536 pieces", "32 TooManyPieces")


def lacking(moves, plan, rules=common.SETTINGS):
    """The lines after the first of a refusal of the plan: which fences the plan lacks."""
    text = common.judge(pieces_of(moves), plan, rules)
    ran = subprocess.run([TEXT, "explain"], input=text.encode(), capture_output=True)
    common.expect((ran.returncode, ran.stdout) == (1, b""), f"explain of {text[:400]} ends with {ran.returncode}")
    return ran.stderr.decode().splitlines()[1:]


def missing():
    """A refused plan is told each fence that it lacks, however many. By hand: chains, in which each piece but the first of its
    group needs one. Random plans: a fence before each piece that the model finds to conflict with one of its epoch."""
    wide = common.settings(greatest_batch=16)
    chain = [(0x1000 * k, 0x1000 * (k + 1)) for k in range(1, 13)]
    reason = "read after write at 0x{:x}000, no fence between"
    wanted = [f"  {k} after {k - 1}, {reason.format(k + 1)}" for k in range(1, 12)]
    for plan, first in (([12], []), ([6, 6], [6]), ([3, 4, 5], [3, 7]), ([2] * 6, [2, 4, 6, 8, 10])):
        told = lacking(chain, [[False] * size for size in plan], wide)
        common.expect(told == [line for k, line in enumerate(wanted, 1) if k not in first], f"the chain as {plan}: {told}")
    draw = random.Random(20261126)
    for _ in range(60):
        moves = [(0x1000 + 64 * draw.randrange(30), 0x1000 + 64 * draw.randrange(30)) for _ in range(draw.randrange(4, 40))]
        pieces, plan, pairs, start = pieces_of(moves), [], [], 0
        while start < len(moves):
            group = [k > 0 and draw.random() < 0.2 for k in range(min(draw.randrange(1, 17), len(moves) - start))]
            plan.append([*group])
            while pair := model.unfenced(pieces, start, group):
                group[pair[1] - start] = True
                pairs.append(pair)
            start += len(group)
        if pairs:
            told = [tuple(map(int, re.match(r"  (\d+) after (\d+), ", line).groups())) for line in lacking(moves, plan, wide)]
            common.expect(told == [(later, earlier) for earlier, later in pairs], f"{moves} as {plan} lacks {pairs}, told {told}")


def warned(operations, words=""):
    """What explaining a text says beside the plan: of each operation the one in whose row its record is, that row, and the
    address to use; and how many more there are."""
    text = "".join(f"move 0x{src:x} -> 0x{dst:x}, {size} bytes, record 0x{at:x}\n" for src, dst, size, at in operations)
    ran = subprocess.run([TEXT, "explain", *words.split()], input=text.encode(), capture_output=True)
    said = ran.stderr.decode()
    common.expect(ran.returncode == 0 and ran.stdout, f"explain of {text!r} ends with {ran.returncode}, {said!r}")
    line = r"warning: operation (\d+)'s record is in the row of operation (\d+) \((\d+) records?, 0x(\w+) to 0x(\w+)\): use 0x(\w+)\n"
    found = [tuple(int(word, 16 if k > 2 else 10) for k, word in enumerate(it)) for it in re.findall(line, said)]
    return found, re.sub(line, "", said)


def shared_records():
    """Operations that share a completion record, or have theirs in the row of another: whichever form the plan is shown in; 20 at
    the most are named, and how many more there are. In random lists just those are named whose record is in a row that begins
    before it, or with it and is that of an earlier operation; the addresses that are named are free, one beside the other."""
    many = [(0x10_0000 + 0x100 * k, 0x20_0000 + 0x100 * k, 64, 0x8000) for k in range(25)]
    found, rest = warned(many)
    wanted = [(k, 0, 1, 0x8000, 0x801F, 0x8000 + 32 * k) for k in range(1, 21)]
    more = "note: and 4 more operations with a record in the row of another\n"
    common.expect((found, rest) == (wanted, more), f"25 operations with one record: {found}, {rest!r}")
    for form in ("--json", "--svg", "--all", "--waits"):
        common.expect(warned(many, form) == (wanted, more), f"explain {form} has other warnings: {warned(many, form)}")
    common.expect(warned(many[:1] + [(0x1000, 0x2000, 64, 0x8020)]) == ([], ""), "records apart are warned of")
    draw = random.Random(52)
    for _ in range(100):
        count = draw.randrange(1, 21)
        places = [0x10_0000 + 0x8000 * k for k in range(2 * count)]
        draw.shuffle(places)
        lists = [(places.pop(), places.pop(), draw.randrange(1, 5) * 4096, 0x8000 + 32 * draw.randrange(60)) for _ in range(count)]
        rows = [(at, at + 32 * (size // 4096)) for _, _, size, at in lists]
        sharing = {j for j, (at, _) in enumerate(rows) for i, (first, end) in enumerate(rows) if (first, i) < (at, j) and at < end}
        found, rest = warned(lists, "--greatest-transfer 4096")
        common.expect({it[0] for it in found} == sharing and not rest, f"{lists}: {sharing} share, {found} are named")
        taken = rows + [(at, at + size) for src, dst, size, _ in lists for at in (src, dst)]
        taken.append((0x10000, 0x10000 + 96 * sum(size // 4096 for _, _, size, _ in lists)))
        for own, holder, records, first, last, address in found:
            row = (address, address + rows[own][1] - rows[own][0])
            is_free = address % 32 == 0 and not any(row[0] < end and first < row[1] for first, end in taken)
            held = (first, last + 1) == rows[holder] and records == (last + 1 - first) // 32 and first <= rows[own][0] <= last
            common.expect(held and is_free, f"{lists}: of operation {own} the row of {holder} and 0x{address:x} are named")
            taken.append(row)


def large():
    """Texts and lists of more than 1 MiB: 65,536 moves that lie apart, which are 64 whole batches of 1,024."""
    count = 64 * 1024
    moves = [(0x1_0000_0000 + 0x1000 * k, 0x2_0000_0000 + 0x1000 * k, 0x3_0000_0000 + 32 * k) for k in range(count)]
    lines = [f"move 0x{src:x} -> 0x{dst:x}, 64 bytes, record 0x{at:x}" for src, dst, at in moves]
    text = "".join(f"{line}\n" for line in lines)
    listed = "".join(move(src, dst, record_at=at).bytes().hex() for src, dst, at in moves)
    rows = []
    for k, line in enumerate(lines):
        if k % 1024 == 0:
            rows.append(f"group {k // 1024}: batch of 1024 (full), 0 fences, 1 epoch, cost 14")
        rows.append(f"  {k}: {line}")
    rows.append(f"cost 896; {count} lone submissions cost 655360, saved 654464")
    expect("explain --greatest-batch 1024", text, "\n".join(rows))
    expect("explain", common.plan(listed, common.settings(greatest_batch=1024)), "\n".join(rows))
    expect("assemble", text, listed)
    expect("disassemble", listed, text.rstrip("\n"))
    expect("explain", f"{' ' * (1 << 20)}\nmove 1 -> 4, 3 bytes, record 32 # after a mebibyte of blanks",
           "group 0: lone submission, cost 10\n"
           "  0: move 0x1 -> 0x4, 3 bytes, record 0x20 # after a mebibyte of blanks\n"
           "cost 10; 1 lone submission costs 10, saved 0")


def split():
    """Six hundred pieces of three hundred moves: of which move each is, and which piece of it; two share a line, unless
    each has to have its own."""
    count = 300
    moves = [(0x10_0000 + 0x1000 * k, 0x1000_0000 + 0x1000 * k) for k in range(count)]
    text = "".join(f"move {src} -> {dst}, 64 bytes, record {0x2000_0000 + 64 * k}\n" for k, (src, dst) in enumerate(moves))
    group = f"group 0: batch of {2 * count}, 0 fences, 1 epoch, cost 14"
    costs = f"cost 14; {2 * count} lone submissions cost {20 * count}, saved {20 * count - 14}"
    each, shared = [group], [group]
    for k, (src, dst) in enumerate(moves):
        for piece in (0, 1):
            what = f"move 0x{src + 32 * piece:x} -> 0x{dst + 32 * piece:x}, 32 bytes, "
            what += f"record 0x{0x2000_0000 + 64 * k + 32 * piece:x}"
            each.append(f"  {2 * k + piece}: {what} (operation {k}, piece {piece + 1} of 2)")
            if piece == 0:
                both = f"(operation {k}, pieces 1 to 2 of 2, each 32 bytes further)"
                shared.append(f"  {2 * k} to {2 * k + 1}: {what} {both}")
    words = "explain --greatest-transfer 32 --greatest-batch 1024"
    expect(words, text, "\n".join([*shared, costs]))
    expect(f"{words} --all", text, "\n".join([*each, costs]))


def folds():
    """Random texts of which operations have several pieces."""
    folded.texts(TEXT)


def picture():
    """A picture of three groups of 40, 12 and 1 pieces, of which some are fenced: columns that repeat others are
    folded; one of 24 lone pieces, where nothing is folded; and one where rows are."""
    moves = [(0x10_0000 + 0x1000 * k, 0x1000_0000 + 0x1000 * k) for k in range(53)]
    groups = [[column % 7 == 5 and row != 1 for column in range(size)] for row, size in enumerate((40, 12, 1))]
    rules = common.settings(greatest_batch=40, staging=0x2000_0000)
    job = common.judge(pieces_of(moves), groups, rules)
    drawn, told = written("explain --svg", job), written("explain", job)
    common.expect(not pictured.plan_fault(drawn, told), pictured.plan_fault(drawn, told))
    # after piece 0 five times pieces 1 to 7, and four like 36; of the second group eleven after its first
    folds = re.findall(r">x (\d+)<", drawn)
    common.expect(folds == ["5", "4", "11"], f"folded are {folds}")
    common.expect(drawn.count('class="fence"') == 1 and drawn.count(">none<") == 1, f"bars are {drawn}")
    common.expect(">folded: 41 of 53 operations<" in drawn, f"no line says how many are folded: {drawn[-400:]}")
    job = common.judge(pieces_of(moves[:24]), [[False]] * 24, rules)
    drawn, told = written("explain --svg", job), written("explain", job)
    common.expect(not pictured.plan_fault(drawn, told), pictured.plan_fault(drawn, told))
    is_whole = drawn.count('class="mark"') == 48 and "folded" not in drawn
    common.expect(is_whole, f"of 24 pieces some are folded: {drawn[:200]}")
    rules = common.settings(greatest_batch=80, staging=0x2000_0000)
    job = common.judge(pieces_of([*moves, *moves[::2]]), [[k > 52 for k in range(80)]], rules)
    drawn, told = written("explain --svg", job), written("explain", job)
    common.expect(not pictured.plan_fault(drawn, told), pictured.plan_fault(drawn, told))
    pictured.pieces_and_barriers(written)
    pictured.rows_and_parts(written)
    pictured.many_drawn(written)
    typed.most_groups(written, refused)
    numbers = "--from and --to take the numbers of two pieces, the second not below the first"
    for words in ("--from 3 --to 2", "--from x", "--to 0x"):
        refused(f"explain --svg {words}", PAIR, numbers, "83 Settings")


def reasons_drawn():
    """What is below bars: why the later piece waits, and how many more conflicts there are; and the line in the row of
    the address, of the data or of a completion record."""
    waits = "move 0x1000 -> 0x2000, 64 bytes, record 0x8000\n{0}\n"
    for later, under, row in [
        ("move 0x2000 -> 0x3000, 64 bytes, record 0x8020", "RAW", "0x2000 +64"),
        ("fill 0x1000 with 0000000000000000, 64 bytes, record 0x8020", "WAR", "0x1000 +64"),
        ("move 0x3000 -> 0x2000, 64 bytes, record 0x8020", "WAW", "0x2000 +64"),
        ("move 0x3000 -> 0x4000, 64 bytes, record 0x8000", "WAW", "0x8000 +32"),
        ("move 0x8000 -> 0x4000, 64 bytes, record 0x9000", "RAW", "0x8000 +64"),
    ]:
        drawn = written("explain --svg", waits.format(later))
        row_at, bar = re.search(rf'<title>{re.escape(row)}</title><text x="8" y="(\d+)"', drawn), f">{under}</text>"
        common.expect(row_at and bar in drawn, f"{later}: {drawn}")
        line = rf'<line x1="\d+" y1="{int(row_at[1]) - 4}" x2="\d+" y2="\d+" class="conflict"'
        common.expect(re.search(line, drawn), f"{later}: {drawn}")
    # 500 pieces, and after a fence 500 that read what those write
    moves = [(0x10_0000 + 64 * k, 0x100_0000 + 64 * k) for k in range(500)]
    moves += [(0x100_0000 + 64 * k, 0x200_0000 + 64 * k) for k in range(500)]
    rules = common.settings(greatest_batch=1024, staging=0x4000_0000)
    drawn = written("explain --svg", common.judge(pieces_of(moves), [[k == 500 for k in range(1000)]], rules))
    found = re.findall(r'<g class="fence"[^>]*>.*?</title>.*?<text[^>]*>([^<]*)</text>', drawn)
    common.expect(found == ["RAW +499"], f"{found}: {drawn[:200]}")


def names_drawn():
    """Names from comments: of operations, of pieces, and of buffers; signs of SVG, other scripts, and bytes that are no
    text."""
    text = """# 0x2000: the log
# 8192: the log <again>
# 0x9000 no buffer
move 0x1000 -> 0x2000, 128 bytes, record 0x8000 # a & b <c> "d" # e
barrier # no name
move 0x2040 -> 0x3000, 64 bytes, record 0x8040 #größer
fill 0x4000 with 0000000000000000, 64 bytes, record 0x8060
compare 0x4000 with pattern 0000000000000000, 64 bytes, expect 0, record 0x8080
move 0x5000 -> 0x6000, 64 bytes, record 0x80a0 # b\tc and a name that is too long for a column
move 0x7000 -> 0x7100, 64 bytes, record 0x80c0 # b\x1b[2Jc
"""
    words = "--greatest-transfer 64"
    drawn, told = written(f"explain --svg {words}", text), written(f"explain {words}", text)
    # a tab is drawn as a blank
    fault = pictured.plan_fault(drawn, told.replace("\t", " "), text.replace("\t", " "))
    common.expect(not fault, f"{fault}: {drawn}")
    common.expect("\x1b" not in drawn + told and "# b\tc" in told, f"another comment is shown: {told}")
    for part in ('a &amp; b &lt;c&gt; "d" # e', ">the log<", ">größer<", ">fill<", ">pattern<"):
        common.expect(part in drawn, f"no {part} in {drawn}")
    wild = b"move 1 -> 2, 3 bytes, record 32 # \xff\xfe\n"
    wild = subprocess.run([TEXT, "explain", "--svg"], input=wild, capture_output=True).stdout.decode()
    common.expect(">move<" in wild, f"a comment that is no text is drawn: {wild}")
    job = written(f"assemble --job {words}", text.replace("barrier # no name\n", ""))
    common.expect(">move 1/2<" in written("explain --svg", job), "a job has names from comments")


def mixed(chance, count, has_checksums):
    """A text of all operations at few addresses, of which some share a record, with barriers, comments and buffers. Of
    checksums, which may be among them, some have their seed in the record of another operation."""
    place, lines = lambda: 0x1000 + 64 * chance.randrange(40), ["# 0x1000: first", "# 5120: second"]
    for k in range(count):
        first, second, size = place(), place(), chance.choice((8, 64, 128, 2048))
        record = 0x400000 + 32 * (chance.randrange(k + 1) if chance.random() < 0.2 else k)
        other = 0x400000 + 32 * chance.randrange(k + 1)
        seed = chance.choice(("", ", seed 0xe3069283", f", seed at {other + 16}" if other != record else ""))
        operation = chance.choice((
            f"move {first} -> {second}, {size} bytes",
            f"fill {first} with 0102030405060708, {size} bytes",
            f"compare {first} with {second}, {size} bytes, expect 0",
            f"compare {first} with pattern 0102030405060708, {size} bytes, expect 1",
            f"delta {first + 0x100000}, 80 bytes -> {second}, 64 bytes",
            f"dualcast {first + 0x100000} -> {second} and {second + 0x200000}, {size} bytes",
            *[f"crc {first}, {size} bytes{seed}"] * has_checksums,
            *[f"copy_crc {first + 0x100000} -> {second}, {size} bytes{seed}"] * has_checksums,
        ))
        lines += ["barrier"] * (chance.random() < 0.1)
        lines.append(f"{operation}, record {record}" + f" # the {'x' * (k % 14)} {'y ' * (k % 5)}" * (k % 3 > 0))
    return "\n".join(lines)


def pictures():
    """Pictures of plans, judged by the words of the same plan and the text: those of the golden files and of the
    examples, those of lists of up to 1,024 pieces that conflict here and there, and those of all operations."""
    asked = []
    for path in sorted(Path("tests/text").glob("*.golden")):
        for case in golden.cases(path):
            if case.words.startswith("explain") and "--svg" in case.words and case.output:
                asked.append((case.place, shlex.split(case.words), case.text, case.output.decode()))
    for path in sorted(Path("examples").glob("*/*.svg")):
        options = path.with_suffix(".args")
        words = ["explain", "--svg", *(options.read_text().split() if options.exists() else [])]
        asked.append((path, words, path.with_suffix(".txt").read_bytes(), path.read_text()))
    chance = random.Random(5)
    for count in (2, 7, 16, 17, 100, 1024):
        places = [(chance.randrange(2 * count) * 64, chance.randrange(2 * count) * 64) for _ in range(count)]
        lines = (f"move {a} -> {b + (a == b) * 64}, 64 bytes, record {0x1000_0000 + 32 * k}" for k, (a, b) in enumerate(places))
        words = ["explain", "--svg", "--greatest-batch", "1024", "--staging", "0x70000000"]
        asked.append((f"{count} moves", words, "\n".join(lines).encode(), None))
    for seed in range(120):
        chance = random.Random(seed)
        words = ["explain", "--svg", "--staging", "0x70000000", "--lone", str(seed % 2 * 10)]
        words += ["--greatest-batch", str((2, 4, 32)[seed % 3]), "--greatest-transfer", ("64", "2M")[seed % 2]]
        asked.append((f"seed {seed}", words, mixed(chance, 1 + seed % 40, seed % 2).encode(), None))
    # plans of one's own, of which the first costs more than the least
    moves = [(0x1000, 0x2000), (0x3000, 0x4000)]
    for plan, costs in [
        ([[False], [False]], "cost 20; 2 lone submissions cost 20, saved 0; least 14</title>"),
        ([[False, False]], "cost 14; 2 lone submissions cost 20, saved 6</title>"),
    ]:
        own = explained(moves, plan)
        common.expect(f"<title>{costs}" in written("explain --svg", own), f"no picture of {plan} says {costs}")
        asked.append((f"the plan {plan}", ["explain", "--svg"], own.encode(), None))
    for place, words, text, wanted in asked:
        told = [subprocess.run([TEXT, *less], input=text, capture_output=True).stdout.decode()
                for less in (words, [word for word in words if word != "--svg"])]
        spelled = None if text.lstrip().startswith(b"{") else text.decode()
        fault = pictured.plan_fault(*told, spelled)
        common.expect(not fault, f"{place}: {fault}: {told[0][:600]}")
        common.expect(wanted in (None, told[0]), f"{place}: {told[0][:600]}")


def named_files():
    """Each command reads the file that it names, and not standard input; and a text that is too long is refused."""
    store, job = (Path(f"examples/text/store.{end}") for end in ("txt", "job"))
    listed = json.loads(job.read_text())["list"]
    with tempfile.NamedTemporaryFile("w", suffix=".hex") as file:
        file.write(listed + "\n")
        file.flush()
        for words, wanted in [
            (["assemble", str(store)], listed + "\n"),
            (["disassemble", file.name], store.with_suffix(".lines").read_text()),
            (["explain", str(job)], re.sub(" # .*", "", store.with_suffix(".explain").read_text())),
            (["explain", "--svg", str(store)], store.with_suffix(".svg").read_text()),
        ]:
            for given in (b"", b"move 1 -> 2, 3 bytes, record 32\n"):
                ran = subprocess.run([TEXT, *words], input=given, capture_output=True)
                got = (ran.returncode, ran.stdout.decode(), ran.stderr)
                common.expect(got == (0, wanted, b""), f"{words}: {got}"[:600])
    for command in ("assemble", "disassemble", "explain", "audit"):
        ran = subprocess.run([TEXT, command, "no/such.file"], capture_output=True, text=True)
        got = (ran.returncode, ran.stdout, ran.stderr)
        common.expect(got == (2, "", "error: no/such.file can't be opened: there is no such file\n"), f"{command}: {got}")
    for command in ("assemble", "disassemble", "explain"):
        refused(command, " " * ((1 << 26) + 1), "the text has more than 67,108,864 bytes", "86 JobTooLong")


def forms_of_bytes():
    """`disassemble` reads what xxd, xxd -p and hexdump write, and bytes as they are."""
    job = json.loads(Path("examples/plan.job").read_text())
    answer = json.loads(Path("examples/plan.line").read_text())
    for command, digits in [
        (["disassemble"], job["list"]),
        (["disassemble", "--portal"], answer["portal"]),
        (["disassemble", "--staging"], answer["staging"]),
    ]:
        raw = bytes.fromhex(digits)
        rows = [raw[at : at + 16] for at in range(0, len(raw), 16)]
        pairs = [" ".join(row[at : at + 2].hex() for at in range(0, 16, 2)) for row in rows]
        singles = ["  ".join((row[:8].hex(" "), row[8:].hex(" "))) for row in rows]
        shown = ["".join(chr(byte) if 32 <= byte < 127 else "." for byte in row) for row in rows]
        offsets = [f"{at * 16:08x}" for at in range(len(rows))]
        lined = "\n".join(raw[at : at + 30].hex() for at in range(0, len(raw), 30)) + "\n"
        xxd = "".join(f"{at}: {row}  {text}\n" for at, row, text in zip(offsets, pairs, shown))
        hexdump = "".join(f"{at}  {row}  |{text}|\n" for at, row, text in zip(offsets, singles, shown))
        hexdump += f"{len(raw):08x}\n"
        wanted = subprocess.run([TEXT, *command], input=digits.encode(), capture_output=True)
        common.expect(wanted.returncode == 0 and wanted.stdout, f"{command}: {wanted.stderr}")
        for given in (raw, lined.encode(), xxd.encode(), hexdump.encode(), digits.upper().encode()):
            ran = subprocess.run([TEXT, *command], input=given, capture_output=True)
            got = (ran.returncode, ran.stdout, ran.stderr)
            common.expect(got == (0, wanted.stdout, b""), f"{command}, {given[:40]}: {got}"[:600])


def members():
    """Which member of a job, or of its settings, is at fault."""
    plan, judge = (json.loads(Path(f"examples/{name}.job").read_text()) for name in ("plan", "judge"))
    for job, name, value, kind in [
        (plan, "list", 1, "text"),
        (plan, "settings", [], "an object"),
        (judge, "plan", {}, "an array of groups"),
    ]:
        refused("explain", json.dumps(job | {name: value}), f"`{name}` is not {kind}", "81 Member")
        less = {known: value for known, value in job.items() if known != name}
        refused("explain", json.dumps(less), f"a job to {job['do']} lacks the member `{name}`", "81 Member")
    refused("explain", json.dumps(plan | {"other": 1}), "a job to plan has no member `other`", "81 Member")
    names = ("version", "greatest_batch", "greatest_transfer", "lone", "batch", "fence", "staging")
    for name in names:
        less = {known: value for known, value in plan["settings"].items() if known != name}
        refused("explain", json.dumps(plan | {"settings": less}), f"`settings` lacks the member `{name}`", "81 Member")
    more = json.dumps(plan | {"settings": plan["settings"] | {"other": 1}})
    refused("explain", more, "`settings` has no member `other`", "81 Member")
    for name, value, limits in [
        ("greatest_batch", 1, "number from 2 to 1024"),
        ("greatest_transfer", 12, "multiple of 8 from 8 to 2147483648 (2048M)"),
        ("lone", 1_000_000_001, "number from 0 to 1000000000"),
        ("batch", 1_000_000_001, "number from 0 to 1000000000"),
        ("fence", 1_000_000_001, "number from 0 to 1000000000"),
        ("staging", 32, "multiple of 64 from 0 to 0x8000000000000000"),
    ]:
        wrong = json.dumps(plan | {"settings": plan["settings"] | {name: value}})
        refused("explain", wrong, f"`settings`: `{name}` is no {limits}", "83 Settings")


def told_waits(sizes, operations):
    """What groups of these sizes wait for, by the addresses that their moves read and write."""
    groups, at = [], 0
    for size in sizes:
        own = operations[at : at + size]
        reads = {src + k for src, _, n, _ in own for k in range(n)}
        writes = {dst + k for _, dst, n, _ in own for k in range(n)} | {rec + k for *_, rec in own for k in range(32)}
        groups.append((reads, writes))
        at += size
    lines, chains = [], []
    for number, (reads, writes) in enumerate(groups):
        waits = [k for k, (r, w) in enumerate(groups[:number]) if w & (reads | writes) or r & writes]
        lines.append(f"group {number} waits for {' '.join(map(str, waits)) or 'none'}\n")
        chains.append(1 + max((chains[k] for k in waits), default=0))
    saved, s = len(groups) - max(chains), "" if len(groups) == 1 else "s"
    last = f"{max(chains)} of {len(groups)} group{s}, {saved} round trip{'' if saved == 1 else 's'} saved\n"
    return "".join(lines) + "longest chain of waits: " + last


def waits():
    """What the groups of random plans wait for; a plan with more groups than a tracker has slots is refused."""
    draw = random.Random(54)

    def explained(operations, *words):
        text = "".join(f"move 0x{src:x} -> 0x{dst:x}, {n} bytes, record 0x{at:x}\n" for src, dst, n, at in operations)
        ran = subprocess.run([TEXT, "explain", *words], input=text.encode(), capture_output=True)
        return ran.returncode, ran.stdout.decode(), ran.stderr.decode()

    for _ in range(100):
        places = [0x10_0000 + 0x1000 * k for k in range(draw.choice([4, 20, 60]))]
        moves = [(*draw.sample(places, 2), 64, 0x8000 + 32 * k) for k in range(draw.randrange(1, 60))]
        greatest = ["--greatest-batch", str(draw.choice([2, 3, 8]))]
        groups = re.findall(r"^group \d+: (?:batch of (\d+))?", explained(moves, *greatest)[1], re.M)
        wanted = told_waits([int(size or 1) for size in groups], moves)
        got = explained(moves, "--waits", *greatest)
        common.expect(got[:2] == (0, wanted), f"explain --waits of {moves}: {got}, not {wanted!r}")
    many = [(0x10_0000 + 64 * k, 0x20_0000 + 64 * k, 64, 0x8000 + 32 * k) for k in range(130)]
    got = explained(many, "--waits", "--greatest-batch", "2")
    refusal = "error: a tracker with 64 slots refuses the groups [128 FewSlots]\n"
    common.expect(got == (1, "", refusal), f"explain --waits of 65 groups: {got}")


def files():
    """The golden files of tests/text."""
    paths = sorted(Path("tests/text").glob("*.golden"))
    common.expect(len(paths) > 10, f"only {len(paths)} golden files")
    for case in [case for path in paths for case in golden.cases(path)]:
        fault = golden.fault_of(TEXT, case)
        common.expect(not fault, fault)


def overlaps():
    """What is said of moves whose source and destination overlap."""
    noted.overlaps(TEXT)


def suspicious():
    """What is said of operations that may be meant otherwise."""
    noted.suspicious(TEXT)


def inputs():
    """What an input is taken for."""
    for part in kinds.PARTS:
        part(TEXT)


def barriers():
    """Random lists with barriers."""
    typed.barriers(TEXT)


def mistakes():
    """Texts with some wrong lines."""
    typed.mistakes(TEXT)


def resumed():
    """What is left of a list by completion records."""
    typed.resumed(TEXT)


PARTS = [examples, lists, refusals, arguments, lines, grammar, texts, mistakes, sizes, fences, missing, shared_records]
PARTS += [sentences, large, split, folds, picture, pictures, reasons_drawn, names_drawn]
PARTS += [overlaps, suspicious, inputs, named_files]
PARTS += [forms_of_bytes, members, waits, barriers, resumed, files]


def main(words):
    global TEXT
    TEXT = program("dsa_text")
    for part in named(PARTS, words):
        part()


if __name__ == "__main__":
    run_test(main)
