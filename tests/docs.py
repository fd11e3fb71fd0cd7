"""Runs the command blocks of README.md and docs that need no proof, with the built programs, and compares what they
print with what the pages say. tests/bindings.py runs the lines in C and Rust. The words are names of pages, as
USING."""

import json
import os
import re
import shutil
import subprocess
import sys
import tempfile
from pathlib import Path

from common import block_after, digits, expect, move, named, program, run_test, skip


def printed(command):
    """What a command of a shell prints, with the built programs on the path."""
    return subprocess.run(command, shell=True, env=PLACES, capture_output=True, text=True).stdout


def session(block):
    """A block of commands, each with `$ ` before it and what it prints after it."""
    parts = re.split(r"^\$ ", block, flags=re.M)[1:]
    expect(parts, f"no command begins with `$ `: {block!r}")
    for part in parts:
        command, _, wanted = part.partition("\n")
        got = printed(command)
        expect(got == wanted, f"{command}: printed {got!r}, and not {wanted!r}")


def noted(block):
    """A block of commands, each with what it prints in a comment after it or in the line before."""
    before = None
    for line in block.strip().split("\n"):
        if line.startswith("# "):
            before = line.split(": ", 1)[1]
            continue
        command, _, after = line.partition("     # ")
        wanted = after.strip() or before
        got = printed(command).strip()
        expect(got == wanted, f"{command}: printed {got!r}, and not {wanted!r}")


def README():
    """What the commands of the page print: an explanation, an audit, a trace, and the answer of the first job."""
    page = "README.md"
    session(block_after(page, "## What a plan looks like"))
    audit = block_after(page, "An audit takes `dsa_text`").strip()
    wanted = re.search(rf"{re.escape(audit)}\n\n((?:    [^\n]*\n)+)", Path(page).read_text())[1].replace("    ", "")
    got = printed(audit.replace("./run --unproved ", ""))
    expect(got.startswith(wanted), f"{page}: the audit begins {got[: len(wanted)]!r}, and not {wanted!r}")
    if shutil.which("gcc") and shutil.which("make"):
        with tempfile.TemporaryDirectory() as folder:
            commands = block_after(page, "In a clone gcc and make build") + block_after(page, "    gcc -O2 -mmovdir64b")
            commands = commands.replace("/tmp/", f"{folder}/").replace("$PWD/trace/out", folder)
            got = printed(commands.replace("make -C trace", f"make -s -C trace OUT={folder}"))
        expect('c is ""' in got, f"{page}: the program without a fence prints {got!r}")
    else:
        skip("the program without a fence, which needs gcc and make")
    proved = [sys.executable, "-B", "tests/gate/proved.py", "dsa", "dsa_text"]
    if subprocess.run(proved, capture_output=True).returncode != 0:
        skip("./run, which would prove first: the built programs are not recorded as proved")
        return
    answer = printed(block_after(page, "Nothing needs a network"))
    line = block_after(page, "It answers the plan").strip().replace("..", "")
    start = line[: line.index('"portal"')]
    expect(answer.startswith(start), f"{page}: the answer begins {answer[: len(start)]!r}, and not {start!r}")
    shown = printed(re.search(r"^`(\./run dsa_text [^`]*)`", Path(page).read_text(), re.M)[1])
    expect(shown == Path("examples/text/store.explain").read_text(), f"{page}: ./run dsa_text prints {shown!r}")


def USING():
    """The commands that answer jobs, audit recordings and check a batch."""
    checking = "## Checking other software's batches"
    for words in (
        "### As jobs",
        "One command reads the recording",
        "A checksum of two blocks",
        "As text it is `examples/barrier/checksum.txt`",
        "Two queues, and no wait between",
    ):
        session(block_after("docs/USING.md", words))
    # the list has ten operations that one batch holds; four wait for the one before, and two come after a barrier
    got = printed("dsa_text explain --greatest-transfer 2048M examples/audit/engine.xxd")
    wanted = "cost 32; 10 lone submissions cost 100, saved 68\n"
    expect(got.endswith(wanted), f"docs/USING.md: the recording is explained as {got!r}")
    noted(block_after("docs/USING.md", checking, "sh"))


def PRICES():
    """The example of a table of prices: groups and cost of five moves, with the table and with one price."""
    page = "docs/PRICES.md"
    settings = json.loads("{" + block_after(page, "a table shows", "json") + "}")["settings"]
    five = digits([move(0x100000 + 64 * k, 0x200000 + 64 * k, record_at=0x8000 + 32 * k) for k in range(5)])
    for batch, version, groups, cost, words in ([14, 16, 30], 2, [3, 2], 30, "costs 30"), (14, 1, [4, 1], 24, "for 24"):
        job = {"do": "plan", "list": five, "settings": settings | {"version": version, "batch": batch}}
        ran = subprocess.run([program("dsa")], input=json.dumps(job), capture_output=True, text=True)
        plan = json.loads(ran.stdout)
        sizes = sorted(map(len, plan["plan"]), reverse=True)
        right = (sizes, plan["cost"]) == (groups, cost) and words in open(page).read()
        expect(right, f"{page}: groups of {sizes} for {plan['cost']}, and not of {groups} for {cost}")


def PROOF():
    """The wrong body that the page shows is in its crate as the page has it."""
    page, folder = "docs/PROOF.md", "crates/dsa_checker/"
    shown = block_after(page, f"This is `{folder}must-fail/overlapping_pairs_counted.edit`")
    right = shown == open(folder + "must-fail/overlapping_pairs_counted.edit").read()
    expect(right, f"{page} shows another edit than overlapping_pairs_counted")


def main(words):
    global PLACES
    program("dsa")
    with tempfile.TemporaryDirectory() as folder:
        for name in ("dsa", "dsa_jobs", "dsa_text"):
            os.symlink(program(name), f"{folder}/{name}")
        PLACES = dict(os.environ, PATH=f"{folder}:{os.environ['PATH']}")
        for part in named([README, USING, PRICES, PROOF], words):
            part()


if __name__ == "__main__":
    run_test(main)
