"""What `dsa_text explain` says beside a plan, on standard error, typed by hand; for tests/text.py."""

import subprocess

from common import expect, judge, move, settings

MOVE = "move 0x1000 -> {}, 64 bytes, record {}\n".format
FILL = "fill {} with 1234567812345678, 64 bytes, record 0\n".format
COMPARE = "compare 0x1000 with {}, 64 bytes, expect 0, record {}{}\n".format
OVERLAP = "note: operation {}: its ranges overlap, and only devices with overlapping copy support "
OVERLAP += "(GENCAP bit 1) take it\n"
OVER = "warning: operation {} writes data at {}, and operation {} writes its completion records at {}\n"
UNCHECKED = "note: line 1, operation 0: without check its result does not stop what is after a barrier\n"
IDLE = "note: line {}, operation {}: what is after its check, up to a barrier, may run even if it fails\n".format
DECIMAL = "note: line 2, column {}: {} is decimal, {}, beside hexadecimal addresses{}\n".format
PATTERN = "note: line 1, column 21: 1234567812345678 is an address in decimal digits; "
PATTERN += "a pattern has the word pattern before it\n"


def said(text, given, words, wanted):
    """The program plans the given operations, and says just this beside the plan."""
    ran = subprocess.run([text, "explain", *words.split()], input=given, capture_output=True, text=True)
    expect((ran.returncode, ran.stderr) == (0, wanted), f"{given} {words}: {ran.returncode}, {ran.stderr}")


def overlaps(text):
    """A note for each move of which a piece's source and destination meet: of up to 20, and how many more."""
    line = "move {:#x} -> {:#x}, 64 bytes, record 0x8000\n"
    meeting, apart = line.format(0x1000, 0x103F), line.format(0x1000, 0x1040)
    copy = judge([move(0x1000, 0x1020)], [[False]], settings(staging=0x2000_0000))
    for given, words, noted in [
        (meeting, "", [0]),
        (apart, "", []),
        (line.format(0x103F, 0x1000), "", [0]),
        (line.format(0x1000, 0x1000), "", [0]),
        (line.format(0x1020, 0x1000), "--greatest-transfer 32", []),
        (line.format(0x101F, 0x1000), "--greatest-transfer 32", [0]),
        (FILL("0x3000") + meeting, "", [1]),
        (copy, "", [0]),
    ]:
        said(text, given, words, "".join(map(OVERLAP.format, noted)))
    many = "".join(meeting.replace("0x8000", f"{0x8000 + 32 * k:#x}") for k in range(23))
    said(text, many, "", "".join(map(OVERLAP.format, range(20))) + "note: and 3 more moves that overlap\n")


def suspicious(text):
    """Data over the records of another operation, compares whose results stop nothing, and addresses in decimal digits
    beside hexadecimal ones."""
    first, last = MOVE("0x2000", "0x8000"), MOVE("0x3000", "0x8040")
    other = "move 4096 -> 12288, 64 bytes, record 8000\n"
    for given, words, wanted in [
        (first + last, "", ""),
        # the record is written before the data, and after it; its first byte, and none of it
        (first + MOVE("0x7fc1", "0x8040"), "", OVER.format(1, "0x7fc1 to 0x8000", 0, "0x8000 to 0x801f")),
        (MOVE("0x7fc1", "0x8040") + first, "", OVER.format(0, "0x7fc1 to 0x8000", 1, "0x8000 to 0x801f")),
        (first + MOVE("0x7fc0", "0x8040") + MOVE("0x8060", "0x9000"), "", ""),
        # the records of four pieces
        (first + MOVE("0x8060", "0x9000"), "--greatest-transfer 16",
         OVER.format(1, "0x8060 to 0x809f", 0, "0x8000 to 0x807f")),
        # those of another lie among them
        (first + "move 0x4000 -> 0x5000, 16 bytes, record 0x8020\n" + MOVE("0x8060", "0x9000"),
         "--greatest-transfer 16",
         "warning: operation 1's record is in the row of operation 0 (4 records, 0x8000 to 0x807f): use 0x80a0\n"
         + OVER.format(2, "0x8060 to 0x809f", 0, "0x8000 to 0x807f")),
        # a source has the record of an earlier operation, and of a later one
        (first + "move 0x8000 -> 0x3000, 32 bytes, record 0x8040\n", "", ""),
        (first + "move 0x4000 -> 0x3000, 64 bytes, record 0x1020\n", "", OVER.replace("writes", "reads", 1).format(
            0, "0x1000 to 0x103f", 1, "0x1020 to 0x103f")),
        (COMPARE("0x2000", "0x8000", "") + "barrier\n" + last, "", UNCHECKED),
        (COMPARE("0x2000", "0x8000", "") + last, "", ""),
        (COMPARE("0x2000", "0x8000", ", check") + "barrier\n" + last, "", ""),
        (last + "barrier\n" + COMPARE("0x2000", "0x8000", ", check") + MOVE("0x4000", "0x8080"), "", IDLE(3, 1)),
        (COMPARE("pattern 1234567812345678", "0x8000", ", check") + last, "", IDLE(1, 0)),
        # the plan has a fence before the move that writes what is compared; and begins a group
        (COMPARE("0x2000", "0x8000", ", check") + "move 0x3000 -> 0x1000, 64 bytes, record 0x8040\n", "", ""),
        (COMPARE("0x2000", "0x8000", ", check") + last, "--batch 100", ""),
        (MOVE("0x4000", "0x8080") + COMPARE("0x2000", "0x8000", ", check") + last, "", IDLE(2, 1)),
        ("move 0x5000 -> 0x6000, 128 bytes, record 0x8080\n" + COMPARE("0x2000", "0x8000", ", check") + last,
         "--greatest-transfer 64", IDLE(2, 1)),
        (last + COMPARE("pattern 1234567812345678", "0x8000", ", check"), "", ""),
        # of two checks the second alone has a barrier just after it
        (COMPARE("0x2000", "0x8000", ", check") + last + COMPARE("0x2000", "0x8080", ", check") + "barrier\n"
         + MOVE("0x4000", "0x80a0"), "", IDLE(1, 0)),
        (COMPARE("0x2000", "0x8000", ", check") + "fence " + last, "--keep-fences", ""),
        (first + MOVE("0x3000", 8000), "", DECIMAL(41, 8000, "0x1f40", "")),
        (first + MOVE(12288, 8000), "", DECIMAL(16, 12288, "0x3000", "; another is, too")),
        (first + MOVE(12288, 8000) + "# 77\n" + MOVE(16384, "0x80a0"), "",
         DECIMAL(16, 12288, "0x3000", "; so are 2 others")),
        (first + "crc 12288, 64 bytes, seed 4096, record 0x8040\n", "", DECIMAL(5, 12288, "0x3000", "")),
        (first + "copy_crc 0x4000 -> 0x5000, 64 bytes, seed at 12288, record 0x8040\n", "",
         DECIMAL(46, 12288, "0x3000", "")),
        (FILL("0x2000") + other, "", DECIMAL(6, 4096, "0x1000", "; so are 2 others")),
        (FILL("8192") + other, "", ""),
        (COMPARE("1234567812345678", "0x8000", ""), "", PATTERN),
        (COMPARE("0000000000000000", "0x8000", ""), "", PATTERN.replace("1234567812345678", "0000000000000000")),
        (COMPARE("00000000", "0x8000", ""), "", PATTERN.replace("1234567812345678", "00000000")),
        (COMPARE("0", "0x8000", ""), "", ""),
    ]:
        said(text, given, words, wanted)
    many = "".join(COMPARE("0x2000", f"{0x8000 + 32 * k:#x}", ", check") for k in range(23))
    idle = "".join(IDLE(k + 1, k) for k in range(20))
    said(text, many, "", f"{idle}note: and 2 more compares whose results stop nothing\n")
