"""The pages of the installed package, as a user reads them: each file that they name is there, and each command that
they show runs and prints what is shown. tests/package.py installs the package and calls it.

A block of commands is an indented one, or one of the language sh. A line is a command if `$ ` is before it, or if its
first word is one of PROGRAMS or keeps what one prints. A command without `$ ` has a row in COMMANDS, with the page and
how it is to end: so a page can't show one that nothing runs."""

import gzip
import os
import re
import shutil
import subprocess
import sys
from pathlib import Path

from common import ROOT, block_after, expect

sys.path.insert(0, str(ROOT / "bindings/package"))
import pages

PROGRAMS = "apt cc dsa dsa_jobs dsa_prices dsa_text dsa_trace export gcc make rt sed tar".split()
BLOCKS = re.compile(r"^```sh\n(.*?)^```|((?:^ {4,}[^\n]*\n)+)", re.M | re.S)
# Each command that is shown without what it prints: its page, the command, its status, and words that it says.
COMMANDS = [
    ("README", "gcc -O2 -mmovdir64b -o /tmp/copy_twice examples/trace/copy_twice.c", 0, ""),
    ("README", "dsa_trace --seeds 20 -- /tmp/copy_twice", 1, 'c is ""'),
    ("START", "cc app.c $(pkg-config --cflags --libs dsa_queue) -o app", 0, ""),
    ("START", "./app", 0, "hello"),
    ("START", "dsa_trace -- ./app", 0, "hello"),
    ("START", "dsa_trace --audit --seeds 20 --fault 2 -- ./app", 0, "find no errors"),
    ("USING", "cc app.c $(pkg-config --cflags --libs dsa_planner) -o app", 0, ""),
    ("USING", "cc app.c $(pkg-config --cflags --libs dsa_planner_static) -o app", 0, ""),
    ("USING", "dsa_text explain --greatest-transfer 2048M recording.bin", 0, "saved"),
    ("USING", "dsa_trace --audit --seeds 20 --write-accept -- build/my_test > dsa.known", 0, ""),
    ("USING", "dsa_trace --audit --seeds 20 --timeout 60 --accept dsa.known --junit dsa.xml -- build/my_test", 0,
     "find no errors"),
    ("USING", 'dsa < examples/judge.job     # {"cost":17}', 0, '{"cost":17}'),
    ("USING", 'dsa < examples/check.job     # {"cost":17}', 0, '{"cost":17}'),
    ("USING", r"sed 's/\[false,true\]/[false,false]/' examples/judge.job | dsa", 1, "refused 43 Unfenced 0 1"),
    ("USING", "sed 's/0d000003/0c000003/' examples/check.job | dsa", 1, "refused 60 Plan 43 Unfenced 0 1"),
    ("PRICES", "dsa_prices /dev/dsa/wq0.0", 0, '"lone"'),
    ("PRICES", "o=$(dsa_prices --options) && dsa_text explain $o list.txt", 0, "cost"),
    ("TRACE", "dsa_trace --audit --seeds 20 -- ./my_test", 0, "find no errors"),
]
# How commands begin that other parts of the test run.
INSTALLING = ("apt install ./dsa-planner_", "tar xf dsa-planner-", "export PATH=$P/bin:$PATH ")


class Reader:
    """A user of the package that is installed in `prefix`, in a folder with the examples of the pages."""

    def __init__(self, prefix, folder):
        self.prefix, self.docs, self.folder = Path(prefix), Path(prefix, "share/doc/dsa-planner"), Path(folder)
        self.folder.mkdir()
        (self.folder / "examples").symlink_to(self.docs / "examples")
        python = f"{prefix}/share/dsa-planner/python"
        self.places = {"PATH": f"{prefix}/bin:/usr/bin:/bin", "PKG_CONFIG_PATH": f"{prefix}/lib/pkgconfig"}
        self.places |= {"LD_LIBRARY_PATH": f"{prefix}/lib", "PYTHONPATH": python, "LC_ALL": "C"}
        self.places["HOME"] = os.environ.get("HOME", "/")

    def text(self, page):
        return (self.docs / f"{page}.md").read_text()

    def pages(self):
        return sorted(path.stem for path in self.docs.glob("*.md"))

    def run(self, command):
        """How a command of a shell ended: its status, what it printed, and that with what it said beside it. What it
        puts into /tmp goes to the folder."""
        how = {"cwd": self.folder, "env": self.places, "capture_output": True, "text": True}
        end = subprocess.run(["sh", "-c", command.replace("/tmp/", f"{self.folder}/")], stdin=subprocess.DEVNULL, **how)
        return end.returncode, end.stdout, end.stdout + end.stderr

    def put(self, name, text):
        (self.folder / name).write_text(text)


def names(reader):
    """Each page, schema, header and example that a page names is in the package; a path of the repository is in none
    that does not say so."""
    for page in reader.pages():
        text = reader.text(page)
        for name in set(re.findall(r"(?<![\w/])(?:[A-Z]{3,}\.md|\w+\.schema\.json|examples/\w[\w/.]*\w)", text)):
            expect((reader.docs / name).exists(), f"{page}.md names {name}, which is not installed")
        for name in set(re.findall(r"(?<![\w/])dsa_\w+\.h\b", text)):
            expect((reader.prefix / "include" / name).exists(), f"{page}.md names {name}, which is not installed")
        others = pages.ELSEWHERE.search(text)
        expect(not others or pages.NOTE in text, f"{page}.md names {others and others[0]} as if it were there")


def manuals(reader):
    """The manual pages name the pages and schemas at their places."""
    for path in sorted(reader.prefix.glob("share/man/man*/*.gz")):
        text = gzip.decompress(path.read_bytes()).decode()
        text = re.sub(r"\\f[BRI]", "", text.replace("\\-", "-"))
        for name in set(re.findall(r"(?<![\w/])[\w/-]*(?:\b[A-Z]{3,}\.md|\w+\.schema\.json)", text)):
            expect((reader.prefix / name).exists(), f"{path.name} names {name}, which is not installed")


def shown(text):
    """The commands of a page: those with what they print, in order, and those without."""
    sessions, alone = [], []
    for block in BLOCKS.finditer(text):
        lines = (block[1] or re.sub(r"^ {4}(?:  (?=dsa_))?", "", block[2], flags=re.M)).splitlines()
        for at, line in enumerate(lines):
            if line.startswith("$ "):
                after = next((k for k in range(at + 1, len(lines)) if lines[k].startswith("$ ")), len(lines))
                sessions.append((line[2:], "".join(f"{it}\n" for it in lines[at + 1 : after])))
            elif line.split(" ", 1)[0] in PROGRAMS or re.match(r"\./|\w+=\$\(", line):
                alone.append(line.strip())
    return sessions, alone


def plain(text):
    """What an audit of a run prints, without what differs from run to run: addresses, numbers and times."""
    text = re.sub(r"\b(entry|submission|thread|byte|at) [\d.]+", r"\1", re.sub("0x[0-9a-f]+", "ADDRESS", text))
    return text.replace("examples/trace/", "")


def prepared(reader, page):
    """What the commands of a page need beside the examples."""
    if page == "START":
        reader.put("app.c", block_after(reader.docs / "START.md", "### In C", "c"))
    if page == "USING":
        reader.put("app.c", block_after(reader.docs / "USING.md", "### From C", "c"))
        shutil.copy(reader.docs / "examples/audit/engine.xxd", reader.folder / "recording.bin")
        reader.put("dsa.known", "")
        (reader.folder / "build").mkdir()
        shutil.copy(reader.folder / "my_test", reader.folder / "build")
    if page == "PRICES":
        reader.put("list.txt", "move 0x1000 -> 0x2000, 64 bytes, record 0x8000\n")


def commands(reader):
    """Each command of each page, the page START first, whose program is the test that other pages run."""
    for page in sorted(reader.pages(), key=lambda name: (name != "START", name)):
        prepared(reader, page)
        sessions, alone = shown(reader.text(page))
        for command, wanted in sessions:
            is_run = command.startswith("dsa_trace --audit")  # slowly, so that also a busy machine has both in flight
            status, printed, _ = reader.run(command.replace("--audit", "--audit --delay 20000") if is_run else command)
            right = plain(wanted) in plain(printed) if is_run else printed == wanted
            expect(right, f"{page}.md: {command} ends with status {status} and prints {printed!r}, not {wanted!r}")
        known = {command: (status, words) for name, command, status, words in COMMANDS if name == page}
        for command in alone:
            if command.startswith(INSTALLING):
                continue
            expect(command in known, f"{page}.md: nothing runs the command {command}")
            status, words = known.pop(command, (0, ""))
            device = "dsa_prices" in command
            ended, _, said = reader.run(f"dsa_trace --order fifo -- sh -c '{command}'" if device else command)
            right = ended == status and words in said
            expect(right, f"{page}.md: {command} ends with status {ended}, not {status} and {words!r}: {said[-800:]}")
        expect(not known, f"{page}.md does not show {list(known)}")
        if page == "START":
            shutil.copy(reader.folder / "app", reader.folder / "my_test")
