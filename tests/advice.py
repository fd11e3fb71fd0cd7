"""Asks `dsa_text audit` which fences of seventeen batches may go, under each combination of what software looks at
(`--await`) and of whether memory is resident (`--resident`). What is said of each fence is typed by hand, from
docs/USING.md. Then the words that these options do not take. The words are names of parts."""

import json
import subprocess

import common
from audit_entries import batch, entry
from common import named, program, run_test
from model import COMPARE, FILL, MOVE

NOOP, CRC, DIF_CHECK, DIX_GENERATE = 0x00, 0x10, 0x12, 0x17
FENCE, BLOCK, VALID, ASK, INTERRUPT, CHECK = 0x01, 0x02, 0x04, 0x08, 0x10, 0x80
RECORD = VALID | ASK
NEEDLESS = "needless"
A, B, C, D, X, Y, Z = (0x100000 * k for k in range(1, 8))

# What is assumed, a letter each: what software looks at (w: writes, s: signals, b: batches), and then r where all memory is
# resident.
EVERY = ("w", "wr", "s", "sr", "b", "br")


def own(k):
    """The address of a completion record of member k's own."""
    return 0x8000 + 32 * k


# A name: the batch, the members before which a fence is missing, and for the words of what is assumed what is said of each
# fence: "needless", "needed", or the first member that it guards against and the first that signals by it, where there are
# any. Of the missing fences nothing more is said.
CASES = {
    # the interrupt must not come before the copy
    "interrupt": (
        batch(entry(MOVE, BLOCK, 0, A, B, 1 << 20), entry(NOOP, FENCE | BLOCK | INTERRUPT)),
        [],
        {"w wr s sr b br": {1: (None, 1)}},
    ),
    # a ready flag after two copies; it is data, and has a record too
    "ready": (
        batch(
            entry(MOVE, RECORD, own(0), A, B, 4096),
            entry(MOVE, RECORD, own(1), C, D, 4096),
            entry(FILL, FENCE | RECORD, own(2), 1, X, 8),
        ),
        [],
        {"w s": {2: (0, 2)}, "wr sr": {2: (None, 2)}, "b": {2: (0, None)}, "br": {2: NEEDLESS}},
    ),
    # the record of a no-op has no other use
    "marker": (
        batch(
            entry(MOVE, BLOCK, 0, A, B, 4096),
            entry(MOVE, BLOCK, 0, C, D, 4096),
            entry(NOOP, FENCE | BLOCK | RECORD, own(2)),
        ),
        [],
        {"w wr s sr b br": {2: (None, 2)}},
    ),
    # a fence before the first member orders nothing, whatever signals
    "first": (
        batch(entry(MOVE, FENCE | RECORD, own(0), A, B, 64), entry(MOVE, RECORD | INTERRUPT, own(1), C, D, 64)),
        [],
        {"w wr s sr b br": {0: NEEDLESS}},
    ),
    # both reasons: residence alone does not free it
    "both": (
        batch(entry(MOVE, 0, 0, A, B, 64), entry(NOOP, FENCE | RECORD | INTERRUPT, own(1))),
        [],
        {"w s b": {1: (0, 1)}, "wr sr br": {1: (None, 1)}},
    ),
    # not the fenced member has a record, but one after it
    "after": (
        batch(
            entry(MOVE, BLOCK, 0, A, B, 64),
            entry(FILL, FENCE | BLOCK, 0, 7, X, 64),
            entry(MOVE, BLOCK | RECORD, own(2), C, D, 64),
        ),
        [],
        {"w wr": {1: (None, 1)}, "s sr": {1: (None, 2)}, "b br": {1: NEEDLESS}},
    ),
    # the missing fence before member 2 takes over its record
    "mended": (
        batch(
            entry(MOVE, BLOCK, 0, A, B, 64),
            entry(FILL, FENCE | BLOCK, 0, 7, X, 64),
            entry(MOVE, BLOCK | RECORD, own(2), X, Y, 64),
        ),
        [2],
        {"w wr": {1: (None, 1)}, "s sr b br": {1: NEEDLESS}},
    ),
    # two fences between members 0 and 2, which conflict: which one may go depends on what is assumed, and never both
    "either": (
        batch(
            entry(MOVE, BLOCK, 0, A, X, 64),
            entry(MOVE, FENCE | BLOCK | RECORD, own(1), C, D, 64),
            entry(COMPARE, FENCE | BLOCK, 0, X, Y, 64),
        ),
        [],
        {"w wr s sr": {1: (None, 1), 2: NEEDLESS}, "b br": {1: NEEDLESS, 2: "needed"}},
    ),
    # of three fences the last before a record, and none before a member that shows nothing
    "chain": (
        batch(
            entry(MOVE, BLOCK, 0, A, B, 64),
            entry(MOVE, FENCE | BLOCK, 0, C, D, 64),
            entry(FILL, FENCE | BLOCK | RECORD, own(2), 1, X, 8),
            entry(NOOP, FENCE | BLOCK),
        ),
        [],
        {
            "w wr": {1: (None, 1), 2: (None, 2), 3: NEEDLESS},
            "s sr": {1: NEEDLESS, 2: (None, 2), 3: NEEDLESS},
            "b br": {1: NEEDLESS, 2: NEEDLESS, 3: NEEDLESS},
        },
    ),
    # the fence after it is needed, since nothing is known of what it reads and writes
    "unseen": (
        batch(
            entry(DIX_GENERATE, BLOCK | RECORD, own(0), A, 0, 64),
            entry(MOVE, FENCE | RECORD, own(1), B, C, 64),
            entry(FILL, FENCE | BLOCK, 0, 7, X, 64),
        ),
        [],
        {
            "w": {1: "needed", 2: (1, 2)},
            "wr": {1: "needed", 2: (None, 2)},
            "s b": {1: "needed", 2: (1, None)},
            "sr br": {1: "needed", 2: NEEDLESS},
        },
    ),
    # a checksum of what a copy writes, and after it one that writes a byte without a record
    "checksum": (
        batch(
            entry(MOVE, BLOCK | RECORD, own(0), A, B, 64),
            entry(CRC, FENCE | BLOCK | RECORD, own(1), B, 0, 64),
            entry(FILL, FENCE | BLOCK, 0, 1, X, 8),
        ),
        [],
        {"w wr": {1: "needed", 2: (None, 2)}, "s sr b br": {1: "needed", 2: NEEDLESS}},
    ),
    # a check of one block with its field may find a fault, whatever is assumed
    "fields": (
        batch(entry(DIF_CHECK, BLOCK | RECORD, own(0), A, 0, 520), entry(FILL, FENCE | BLOCK, 0, 1, X, 8)),
        [],
        {"w wr": {1: (0, 1)}, "s sr b br": {1: (0, None)}},
    ),
    # a record that is written on failure alone, of a compare that can fail
    "error": (
        batch(entry(MOVE, BLOCK, 0, A, B, 64), entry(COMPARE, FENCE | BLOCK | VALID | CHECK, own(1), X, Y, 64)),
        [],
        {"w wr s sr": {1: (None, 1)}, "b br": {1: NEEDLESS}},
    ),
    # one record for two members: the fence decides whose status is left
    "shared": (
        batch(
            entry(MOVE, BLOCK | RECORD, own(0), A, B, 64),
            entry(MOVE, FENCE | BLOCK | RECORD, own(0), C, D, 64),
        ),
        [],
        {"w wr s sr b br": {1: "needed"}},
    ),
    # the batch itself raises no interrupt and has no record, so nobody awaits it as a whole
    "mute": (
        batch(entry(MOVE, BLOCK, 0, A, B, 64), entry(MOVE, FENCE | BLOCK | RECORD, own(1), C, D, 64), flags=0),
        [],
        {"w wr s sr b br": {1: (None, 1)}},
    ),
    # a flag that another thread polls, without a record
    "plain": (
        batch(
            entry(MOVE, BLOCK, 0, A, B, 4096),
            entry(MOVE, BLOCK, 0, C, D, 4096),
            entry(FILL, FENCE | BLOCK, 0, 1, X, 8),
        ),
        [],
        {"w wr": {2: (None, 2)}, "s sr b br": {2: NEEDLESS}},
    ),
    # a member that can fail whatever is assumed, and after it one that writes a byte without a record
    "checked": (
        batch(entry(COMPARE, BLOCK | RECORD | CHECK, own(0), A, B, 64), entry(FILL, FENCE | BLOCK, 0, 1, X, 8)),
        [],
        {"w wr": {1: (0, 1)}, "s sr b br": {1: (0, None)}},
    ),
}


def audit(recording, words):
    return subprocess.run([TEXT, "audit", *words.split()], input=recording, capture_output=True)


def said_by(report):
    """The members before which a fence is missing, and what is said of each fence of which something is said."""
    missing, said = [], {}
    for finding in report["findings"]:
        what, member = finding["what"], finding["member"]
        if what["kind"] == "missing":
            missing.append(member)
        elif what["kind"] == "needless":
            said[member] = NEEDLESS
        elif what["kind"] in ("guarding", "signalling", "guarding and signalling"):
            said[member] = (what.get("earlier"), what.get("awaited"))
    return missing, said


def classes():
    """What is said of each fence, under each combination."""
    for name, (recording, missing, combinations) in CASES.items():
        wanted = {word: said for words, said in combinations.items() for word in words.split()}
        common.expect(sorted(wanted) == sorted(EVERY), f"{name}: typed for {sorted(wanted)}")
        for word in EVERY:
            options = {"w": "--await writes", "s": "--await signals", "b": "--await batches"}[word[0]]
            options += " --resident" * (len(word) > 1)
            ran = audit(recording, f"--json {options}")
            said = {k: it for k, it in wanted[word].items() if it != "needed"}
            common.expect(said_by(json.loads(ran.stdout)) == (missing, said), f"{name} {options}: {ran.stdout.decode()}")
            # two members with one record are an error whatever their fences are
            common.expect(ran.returncode == int(bool(missing) or name == "shared"), f"{name} {options}: status {ran.returncode}")
        ran = audit(recording, "--json")
        said = {k: it for k, it in wanted["w"].items() if it != "needed"}
        common.expect(said_by(json.loads(ran.stdout)) == (missing, said), f"{name}: {ran.stdout.decode()}")


def denied():
    """--deny makes errors of fences that guard, that signal, or both, each by its own word."""
    recording = CASES["checked"][0]
    for words, status in [("guarding", 1), ("signalling", 1), ("guarding,signalling", 1), ("needless,unseen", 0)]:
        common.expect(audit(recording, f"--deny {words}").returncode == status, f"--deny {words}: not {status}")
    recording = CASES["plain"][0]
    for words, status in [("guarding", 0), ("signalling", 1), ("needless", 0), ("nothing", 0)]:
        common.expect(audit(recording, f"--deny {words}").returncode == status, f"--deny {words}: not {status}")
    for words, status in [("needless", 0), ("nothing", 1), ("unseen,nothing --json", 1), ("nothing --write-accept", 0)]:
        common.expect(audit(b"", f"--deny {words}").returncode == status, f"--deny {words} of nothing: not {status}")


def words():
    """Words that the options do not take: status 2, nothing on standard output, and what they take."""
    for options, reason in [
        ("--await nothing", "error: --await takes writes, signals or batches\n"),
        ("--await signals,batches", "error: --await takes writes, signals or batches\n"),
        (
            "--deny missing",
            "error: --deny takes needless, guarding, signalling, unseen, waits, stale and nothing, "
            "with commas between\n",
        ),
    ]:
        ran = audit(CASES["plain"][0], options)
        common.expect((ran.returncode, ran.stdout, ran.stderr.decode()) == (2, b"", reason), f"{options}: {ran}")
    ran = audit(CASES["plain"][0], "--await signals --await batches")
    said = ran.stderr.decode()
    is_refused = ran.returncode == 2 and ran.stdout == b"" and "--await <WHAT>" in said
    common.expect(is_refused and "multiple times" in said, f"--await twice: {ran}")


def main(names):
    global TEXT
    TEXT = program("dsa_text")
    for part in named([classes, denied, words], names):
        part()


if __name__ == "__main__":
    run_test(main)
