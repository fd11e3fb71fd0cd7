"""What `dsa_text explain` takes an input for, by looking and by `--as`, and what it says of that, typed by hand; for
tests/text.py."""

import json
import subprocess
from pathlib import Path

from audit_entries import hexdump, plain, xxd
from common import expect, move
from model import COMPARE, CRC, Op

FIRST, SECOND = move(0x1000, 0x2000), move(0x5000, 0x6000, record_at=0x8020)
LIST = FIRST.bytes() + SECOND.bytes(fenced=True)
LINES = "move 0x1000 -> 0x2000, 64 bytes, record 0x8000{}\n", "move 0x5000 -> 0x6000, 64 bytes, record 0x8020{}\n"
FENCED = f"""group 0: batch of 2, 1 fence, 2 epochs, cost 17
  0: {LINES[0].format("")}  -- fence, cost 3: a barrier
  1: {LINES[1].format("")}cost 17; 2 lone submissions cost 20, saved 3
"""
# without a barrier, and with these comments
APART = "group 0: batch of 2, 0 fences, 1 epoch, cost 14\n  0: {}  1: {}cost 14; 2 lone submissions cost 20, saved 6\n"
NOTHING = "cost 0; 0 lone submissions cost 0, saved 0\n"
# a batch of a move, a cache flush, which no list of a text has, and a CRC and a compare with check that read what the
# move writes
HEAD = bytes(4) + (0x0100000C).to_bytes(4, "little") + (0x7000).to_bytes(8, "little") + (0x10000).to_bytes(8, "little")
HEAD += bytes(8) + (4).to_bytes(4, "little") + bytes(28)
FLUSH = Op(0x20, 0x2000, 0x8020, 0, 0x900000).bytes()
SUM = Op(CRC, 64, 0x8060, 0x2000, 0, 5).bytes()
CHECK = Op(COMPARE, 8, 0x8040, 0x2000, 0x3000, 1, 0x8C).bytes()
RECORDING = HEAD + FIRST.bytes() + FLUSH + SUM + CHECK
LISTED = """group 0: batch of 3, 1 fence, 2 epochs, cost 17
  0: move 0x1000 -> 0x2000, 64 bytes, record 0x8000 # entry 1
  -- fence, cost 3: 1 after 0, read after write at 0x2000, and 1 more
  1: crc 0x2000, 64 bytes, seed 0x5, record 0x8060 # entry 3
  2: compare 0x2000 with 0x3000, 8 bytes, expect 1, record 0x8040, check # entry 4
cost 17; 3 lone submissions cost 30, saved 13
"""
LEFT = "note: left out: 1 of 4 operations, each for the reason in its comment: "
LEFT += "no plan has them, and no cost counts them\n"
EMPTY = "note: the list is empty\n"
NO_OPERATIONS = "note: this list is empty: the recording has no operations\n"
FLAGS = "flags 0x0004 and 0x0008 have to be set; 0x0010 (interrupt), 0x0040 and bits 16 to 23 (of a checksum 19 "
FLAGS += "to 23) may not; 0x0001 (fence) only in lists with barriers; 0x0080 (check) only in compares"
HINT = "note: it has a fence (flag 0x0001), which --keep-fences reads as a barrier\n"
EXPECTED = "expected move, fill, compare, delta, dualcast, crc or copy_crc, found"
DUMP = "(a dump of bytes, which explain and disassemble read if only blanks are before it)"
JOB = "(a job, which explain reads if only blanks are before it)"
DIGIT = "error: line {}, column {}: expected a hexadecimal digit [84 Hex]\n".format


def taken(what):
    """The note on what an input is taken as."""
    lines = ", whose lines are those of audit --list" * ("recording" in what)
    return f"note: taken as {what}{lines}; --as decides\n"


def dumps(data):
    """Each form of dump, and the digits alone."""
    return [text.encode() for text in (xxd(data), plain(data), hexdump(data), data.hex(), f"\n {data.hex().upper()}\n")]


def answered(text, words, given, status, answer, said):
    """`explain` of these bytes ends so, and writes just this to standard output and to standard error."""
    ran = subprocess.run([text, "explain", *words.split()], input=given, capture_output=True)
    got = (ran.returncode, ran.stdout.decode(), ran.stderr.decode())
    expect(got == (status, answer, said), f"explain {words}, {given[:80]}: {got}, not {(status, answer, said)}"[:2000])


def seen(text):
    """What is taken by looking."""
    lined = "".join(line.format("") for line in LINES).encode()
    named = "".join(line.format(" # Größe") for line in LINES).encode()
    answered(text, "", LIST, 0, FENCED, taken("the bytes of a list"))
    for given in dumps(LIST):
        answered(text, "", given, 0, FENCED, taken("a dump of a list"))
    answered(text, "", RECORDING, 0, LISTED, taken("a recording") + LEFT)
    for given in dumps(RECORDING):
        answered(text, "", given, 0, LISTED, taken("a dump of a recording") + LEFT)
    answered(text, "", lined, 0, APART.format(*[line.format("") for line in LINES]), "")
    answered(text, "", named, 0, APART.format(*[line.format(" # Größe") for line in LINES]), "")
    answered(text, "", "# Größe\n".encode() + lined, 0, APART.format(*[line.format("") for line in LINES]), "")
    for given in (b"", b" \r\n\t\n", b"# none\n"):
        answered(text, "", given, 0, NOTHING, EMPTY)
    # a list of PASID 123, whose first byte is a brace
    owned = b"".join(b"\x7b" + op.bytes()[1:] for op in (FIRST, SECOND))
    owner = [line.format(", pasid 123") for line in LINES]
    answered(text, "", owned, 0, APART.format(*owner), taken("the bytes of a list"))


def said(text):
    """What `--as` says, against what it looks like."""
    entries = APART.format(*[line.format(f" # entry {k}") for k, line in enumerate(LINES)])
    job = b'{"do":"plan"}'
    for given in (LIST, *dumps(LIST)):
        answered(text, "--as list", given, 0, FENCED, "")
        answered(text, "--as recording", given, 0, entries, "")
    for given in (RECORDING, *dumps(RECORDING)):
        answered(text, "--as recording", given, 0, LISTED, LEFT)
    answered(text, "--as list", b"", 0, NOTHING, EMPTY)
    answered(text, "--as recording", b"", 0, NOTHING, NO_OPERATIONS)
    answered(text, "--as text", b"# none\n", 0, NOTHING, EMPTY)
    answered(text, "--as list", job, 1, "", DIGIT(1, 1))
    answered(text, "--as text", job, 1, "", f"error: line 1, column 1: {EXPECTED} '{job.decode()}' {JOB} [130 Line]\n")
    dump = f"error: line 1, column 1: {EXPECTED} '00000000:' {DUMP} [130 Line]\n"
    answered(text, "--as text", xxd(LIST).encode(), 1, "", dump)
    for word in ("lines", "List", ""):
        refused = "error: --as takes text, list or recording [83 Settings]\n"
        ran = subprocess.run([text, "explain", "--as", word], input=LIST, capture_output=True)
        got = (ran.returncode, ran.stdout, ran.stderr.decode())
        expect(got == (1, b"", refused), f"--as {word}: {got}")


def refused(text):
    """What is refused, with what it was taken as."""
    picture = b"\x89PNG\r\n\x1a\n" + bytes(60)
    bytes_of_list = taken("the bytes of a list")
    length = "error: the list's length is no multiple of 64: 68 bytes [1 Length]\n"
    answered(text, "", picture, 1, "", bytes_of_list + length)
    interrupt = FIRST.bytes()[:4] + b"\x1c" + FIRST.bytes()[5:]
    for flags, code, what in [
        (0x1C, 3, "0x0010 (interrupt) is set"),
        (0x4C, 3, "0x0040 (reserved) is set"),
        (0x8C, 3, "0x0080 (check result) is set"),
        (0x8D, 3, "0x0080 (check result) is set"),
        (0x08, 3, "0x0004 (record address valid) is not set"),
        (0x00, 3, "0x0004 (record address valid) is not set"),
        (0x04, 3, "0x0008 (request record) is not set"),
        (0x9C, 5, "0x0010 (interrupt) is set"),
        (0x02000C, 3, "0x020000 (reserved) is set"),
    ]:
        wrong = Op(code, 64, 0x8020, 0x5000, 0x6000, 0, flags).bytes()
        error = f"error: operation 1: {FLAGS}: {what} [3 FlagBits 1]\n"
        answered(text, "", FIRST.bytes() + wrong, 1, "", bytes_of_list + error)
        ran = subprocess.run([text, "disassemble"], input=FIRST.bytes() + wrong, capture_output=True)
        said = error + HINT * (flags & 1)
        expect((ran.returncode, ran.stderr.decode()) == (1, said), f"disassemble of flags {flags:#x}: {ran}")
    # a fence is a flag of lists with barriers alone
    ran = subprocess.run([text, "disassemble"], input=LIST, capture_output=True)
    error = f"error: operation 1: {FLAGS}: 0x0001 (fence) is set [3 FlagBits 1]\n"
    expect((ran.returncode, ran.stderr.decode()) == (1, error + HINT), f"disassemble of a fence: {ran}")
    owners = FIRST.bytes() + b"\5" + SECOND.bytes()[1:]
    error = "error: operation 1: its PASID or privilege is not the first operation's: pasid 5, and not pasid 0"
    answered(text, "", owners, 1, "", f"{bytes_of_list}{error} [12 MixedPasid 1]\n")
    # a batch whose members are not there
    cut = "entry 0: error: the recording ends after 1 of the 4 members of this batch: if members are not recorded, "
    answered(text, "", RECORDING[:128], 1, "", f"{taken('a recording')}{cut}give a dump of them with --staging\n")
    for given, place in [(xxd(interrupt).replace("0000 ", "00g0 ", 1), (1, 13)), ("0c000003 8\n00 x", (2, 4))]:
        answered(text, "", given.encode(), 1, "", taken("a dump") + DIGIT(*place))
    lacking = "error: line 3, column 1: lines are left out here: use hexdump -v -C [84 Hex]\n"
    short = "".join(hexdump(LIST).splitlines(keepends=True)[:2]) + "*\n00000080\n"
    answered(text, "", short.encode(), 1, "", taken("a dump") + lacking)


def alone(text):
    """What is no text of operations is refused in one line, also in `assemble` and after comments."""
    plan = "(a plan, which a job to judge has beside its list) [130 Line]\n"
    spread = json.dumps([[False, True], [False]], indent=1).encode()
    for given, said_of in [
        (b"[[false],[true]]\n", f"error: line 1, column 1: {EXPECTED} '[[false]' {plan}"),
        (spread, f"error: line 1, column 1: {EXPECTED} '[' {plan}"),
        (b"# a plan\n\n" + spread, f"error: line 3, column 1: {EXPECTED} '[' {plan}"),
        (b"# a dump\n" + xxd(LIST).encode(), f"error: line 2, column 1: {EXPECTED} '00000000:' {DUMP} [130 Line]\n"),
    ]:
        answered(text, "", given, 1, "", said_of)
        ran = subprocess.run([text, "assemble"], input=given, capture_output=True)
        expect((ran.returncode, ran.stderr.decode()) == (1, said_of), f"assemble of {given[:40]}: {ran}")
    # words of few digits are not of a dump
    words = b"# none\nadd 0x1000\nbad 0x1000\n"
    wrong = f"error: line {{}}, column 1: {EXPECTED} '{{}}' [130 Line]\n".format
    answered(text, "", words, 1, "", wrong(2, "add") + wrong(3, "bad") + "error: 2 lines are wrong [130 Line]\n")


def as_lines(text):
    """The bytes of lists are explained as their lines are, in each form; options of settings apply to them; and
    recordings as the lines that their audit lists."""
    given = LIST + move(0x2000, 0x7000, record_at=0x8040).bytes()
    for data, commands in [(given, ["disassemble", "--keep-fences"]), (RECORDING, ["audit", "--list"])]:
        lines = subprocess.run([text, *commands], input=data, capture_output=True).stdout
        for words in ("", "--json", "--all", "--svg", "--waits", "--fence 9", "--greatest-batch 2 --lone 1"):
            wanted, got = (
                subprocess.run([text, "explain", *words.split()], input=it, capture_output=True) for it in (lines, data)
            )
            # a line without a comment has an empty name, an operation of a list none
            lined = wanted.stdout.replace(b'"names":["","",""]', b'"names":[]')
            same = (got.returncode, got.stdout) == (wanted.returncode, lined)
            expect(same and got.stdout, f"{words} of {data[:8]}: {got}, not {wanted}"[:2000])
    note = taken("the bytes of a list")
    tracker = "warning: a tracker does not see barriers: let each group wait for all before it\n"
    waits = "group 0 waits for none\nlongest chain of waits: 1 of 1 group, 0 round trips saved\n"
    answered(text, "--waits", LIST, 0, waits, note + tracker)
    error = "error: --greatest-batch: '1' is no number from 2 to 1024 [83 Settings]\n"
    answered(text, "--greatest-batch 1", LIST, 1, "", note + error)


def job_of_list(text):
    """A job is one after blanks too, and has settings of its own; examples of jobs are no other kind."""
    for path in sorted(Path("examples").glob("*.job")):
        ran = subprocess.run([text, "explain"], input=b" \n\t" + path.read_bytes(), capture_output=True)
        expect(b"taken as" not in ran.stderr and b"[130 Line]" not in ran.stderr, f"{path}: {ran.stderr}")


PARTS = [seen, said, refused, alone, as_lines, job_of_list]
