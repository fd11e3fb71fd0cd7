"""dsa_trace --audit as one command for continuous integration: what dsa_text audit takes, over all runs, processes and
parts; keys of all runs, written and accepted; JSON by its schema; test cases for JUnit; a limit of time; a dsa_text
that is built without proofs; names on a terminal, and empty words. The words are names of parts."""

import json
import os
import pty
import re
import shutil
import subprocess
import tempfile
import time
import xml.etree.ElementTree as xml
from pathlib import Path

import schema
from common import block_after, expect, named, run_test, skip
from trace_runs import KNOWN, LONGEST, TEXT, WORK, built_all, client, has_text, ran, told, traced

# Keys typed by hand from docs/FORMATS.md, "Recordings and audits", of programs whose errors do not depend on an order.
WAIT = "missing wait, read after write; lone: move, 8192 bytes; lone: move, 8192 bytes"
FENCE = "missing fence, read after write; batch of 2; member 1: move, 8192 bytes; member 0: move, 8192 bytes"
STALE = "record not zero; lone: move, 64 bytes"


def audited(*words, **how):
    """How an audit ended that names no places, which have a test of their own (tests/trace_stacks.py)."""
    return traced("--audit", "--stacks", 0, *words, **({"env": KNOWN} | how))


def by_seed(**programs):
    """A program that is another one under each seed: fifo, so that each ends well."""
    lines = [f'[ $DSA_TRACE_SEED = {seed[1:]} ] && exec {client(words)}' for seed, words in programs.items()]
    return "--order", "fifo", "--seeds", len(programs), "--", "sh", "-c", "; ".join(lines)


def accepting(*keys):
    """The option with a file of these keys."""
    Path(WORK, "known.txt").write_text("".join(f"{key}\n" for key in keys))
    return "--accept", f"{WORK}/known.txt"


# ---- keys


def keys():
    """The keys of the errors of all runs are written, each once, and accepted. One that is not is an error."""
    runs = by_seed(s1="ordered blind", s2="ordered fence", s3="ordered blind", s4="unseen stale")
    end = audited("--write-accept", *runs)
    right = (end.returncode, end.stdout) == (0, f"{WAIT}\n{FENCE}\n{STALE}\n")
    expect(right, f"the keys: {end.returncode} {end.stdout}")
    end = audited(*accepting(WAIT, FENCE, STALE), *runs)
    told("all are accepted", end, 0, "the audits of 4 runs find no errors")
    for left, seed, said in ((WAIT, 1, "missing wait"), (FENCE, 2, "missing fence"), (STALE, 4, "record not zero")):
        end = audited(*accepting(*{WAIT, FENCE, STALE} - {left}), *runs)
        told(f"all but {left}", end, 1, f"of 4 runs find errors; to repeat seed {seed}:", f"error: {said}")
        errors = set(re.findall(r"\): error: ([^,:]*)", end.stdout))
        expect(errors == {said}, f"if all but {left} are accepted the errors are {errors}")
        end = audited("--write-accept", *accepting(*{WAIT, FENCE, STALE} - {left}), *runs)
        expect((end.returncode, end.stdout) == (0, f"{left}\n"), f"the key that is left: {end.returncode} {end.stdout}")
    end = audited("--write-accept", "--", "sh", "-c", f"{client('ordered')} blind; exit 3")
    told("the keys of a program that fails", end, 3, WAIT)
    for names, *said in (
        (["ordered waited"], "the audits find no errors; if the program"),
        (["ordered blind"], "no errors but those that 1 line of ", "known.txt knows, and these may be why"),
        (["ordered blind", "unseen stale"], "no errors but those that 2 lines of ", "known.txt know, and these may"),
    ):
        command = "; ".join(map(client, names)) + "; exit 3"
        end = audited("--order", "fifo", *accepting("# known", WAIT, FENCE, STALE), "--", "sh", "-c", command)
        told(f"the hint of {names}", end, 3, *said, "a member publishes what others write, and needs a fence")


def reports():
    """A text has the report of each run with an error that none before has."""
    end = audited(*by_seed(s1="ordered blind", s2="ordered fence", s3="ordered blind", s4="unseen right"))
    told("runs with two errors", end, 1, "the audits of 3 of 4 runs find errors; to repeat seed 1:")
    heads = re.findall(r"^seed \d+:$|error: missing \w+", end.stdout, re.M)
    wanted = ["seed 1:", "error: missing wait", "seed 2:", "error: missing fence"]
    expect(heads == wanted, f"the reports are {heads}, not {wanted}")
    end = audited("--", "sh", "-c", f"{client('unseen')} right; {client('ordered')} blind")
    told("two processes", end, 1, "error: missing wait")
    heads = re.findall(r"^(\w+)\.\d+:$", end.stdout, re.M)
    expect(sorted(heads) == ["ordered", "unseen"], f"the processes are {heads}")
    Path(WORK, "denies").write_text('#!/bin/sh\ncase "$*" in *--write*) ;; *--events*) echo denied; exit 1 ;; esac\n')
    Path(WORK, "denies").chmod(0o755)
    end = audited("--seeds", 3, "--", client("unseen"), "right", env={"DSA_TEXT": f"{WORK}/denies"})
    told("errors without keys", end, 1, "the audits of 3 of 3 runs find errors")
    expect(end.stdout == "seed 1:\ndenied\n", f"of errors without keys is said {end.stdout}")
    # what is preloaded for the test is not in dsa_text
    Path(WORK, "denies").write_text(f'#!/bin/sh\n[ -z "$LD_PRELOAD" ] || kill -ABRT $$\nexec {TEXT} "$@"\n')
    env = {"DSA_TEXT": f"{WORK}/denies", "LD_PRELOAD": "libm.so.6"}
    told("a test with a library of its own", audited("--", client("unseen"), "right", env=env), 0)


def noted():
    """What the library notes is shown in the form of dsa_text, of errors with one key the first."""
    end = audited("--order", "fifo", "--", client("unseen"), "stale")
    told("records that are never cleared", end, 1,
         "entry 1 (submission 1): error: record not zero: its completion record, at 0x", "\n  and 14 more like it\n")
    end = audited("--order", "fifo", *accepting(STALE), "--", client("unseen"), "stale")
    told("the same, accepted", end, 0, "entry 1 (submission 1): accepted: record not zero")
    # each cause for which a batch is refused has a key, so that who accepts one sees the others
    end = audited("--stacks", 0, "--write-accept", "--", client("odd"), "lists")
    told("the keys of refused batches", end, 0)
    keys = end.stdout.splitlines()
    causes = [f"batch {cause}; batch of 0" for cause in ("count", "list misaligned", "list unreadable")]
    expect({*causes} <= {*keys}, f"the keys of refused batches are {keys}")
    known = [key for key in keys if key != causes[0]]
    end = audited("--stacks", 0, *accepting(*known), "--", client("odd"), "lists")
    told("batches that are refused for their count", end, 1, "(submission 0, its descriptor): accepted: batch list unr",
         "(submission 1, its descriptor): accepted: batch list misaligned: its list of descriptors begins at no ",
         "(submission 2, its descriptor): error: batch count: fewer than two descriptors, or more than its ",
         "\n  and 2 more like it\n")


def fitting():
    """An accepted line that no process of any run needs is named once, and --deny stale makes it an error."""
    runs = by_seed(s1="ordered blind", s2="ordered fence", s3="unseen right", s4="unseen stale")
    other = FENCE.replace("8192", "9")
    known = accepting("# known", WAIT, FENCE, STALE, other)
    line = f"known.txt: line 5: note: this fits nothing: {other}\n"
    for denied, status, said in ("unseen", 0, line), ("stale", 1, line.replace("note", "error")):
        end = audited("--deny", denied, *known, *runs)
        told(f"a line that fits nothing, denying {denied}", end, status, said)
        expect(end.stdout.count("fits nothing") == 1, f"denying {denied}: {end.stdout}")
    end = audited("--json", *known, *runs)
    told("a line that fits nothing, in JSON", end, 0)
    it = json.loads(end.stdout)
    expect(schema.holds(schema.report_schema("runs"), it) and it["stale"] == [other], f"in JSON: {end.stdout}")
    end = audited("--deny", "stale", *accepting(WAIT, FENCE, STALE), *runs)
    told("lines that all fit", end, 0)
    expect("fits nothing" not in end.stdout, f"lines that all fit: {end.stdout}")
    Path(WORK, "known.txt").write_bytes(f"\ufeff{WAIT} \r\n".encode())  # as other systems write it
    known_as = ["--accept", f"{WORK}/known.txt", "--order", "fifo", "--", client("ordered"), "blind"]
    end = audited("--deny", "stale", *known_as)
    told("a key with a carriage return", end, 0)
    for order, status in (("fifo", 0), ("data", 1)):
        end = audited("--deny", "stale", *accepting(WAIT), "--order", order, "--", *client("ordered waited").split())
        told(f"the key of a wait that is not missing, in order {order}", end, status)
        expect(end.stdout.count("fits nothing") == status, f"such a key in order {order}: {end.stdout}")
    for what, status, words in (
        ("a part of a run", 125, ["sh", "-c", f"{client('unseen')} right; rm $DSA_TRACE_OUT/*"]),
        ("a program that fails", 3, ["sh", "-c", f"{client('unseen')} right; exit 3"]), ("no submission", 1, ["true"]),
    ):
        end = audited("--deny", "stale", *known, "--seeds", 2, "--", *words)
        told(what, end, status)
        expect("fits nothing" not in end.stdout, f"{what}: {end.stdout}")


def apart():
    """What the program prints is on standard error, if standard output is for keys or for JSON alone."""
    prints = f"printf 'no newline'; {client('ordered')} blind"
    for form, is_right in ("--write-accept", lambda text: text == f"{WAIT}\n"), ("--json", json.loads):
        for command in (prints, f"{prints}; printf 'the end'"):
            end = audited(form, "--order", "fifo", "--", "sh", "-c", command)
            right = "no newline" not in end.stdout and is_right(end.stdout)
            expect(right and "no newline" in end.stderr, f"{form} beside output: {end.stdout}{end.stderr}")
    end = audited("--order", "fifo", "--", "sh", "-c", prints)
    expect(end.stdout.startswith("no newline"), f"the output of a program that is audited in words: {end.stdout}")


# ---- options


def passed_on():
    """dsa_text gets its options for each process, and judges them before anything is run."""
    Path(WORK, "shows").write_text(f'#!/bin/sh\necho "$@" >> {WORK}/shown\n')
    Path(WORK, "shows").chmod(0o755)
    options = [*accepting(), "--deny", "needless,unseen", "--await=batches", "--resident", "--lone", 7, "--batch=9"]
    options += ["--batches", "9,10", "--fence", 2, "--greatest-batch", 3]
    told("options", audited(*options, "--", client("unseen"), "right", env={"DSA_TEXT": f"{WORK}/shows"}), 0)
    words = f"audit --accept {WORK}/known.txt --deny needless,unseen --await batches "
    words += "--greatest-batch 3 --lone 7 --batch 9 --batches 9,10 --fence 2 "
    lines = Path(WORK, "shown").read_text().splitlines()
    wanted = [re.escape(words) + "--resident -", re.escape(words) + r"--events \S+ --resident \S+"]
    right = len(lines) == 2 and all(re.fullmatch(pattern, line) for pattern, line in zip(wanted, lines))
    expect(right, f"dsa_text gets {lines}")
    for words in (["--await", "nothing"], ["--deny", "fences"], ["--accept", "/nowhere"], ["--lone", "x"],
                  ["--batch", 1, "--batches", 1], ["--greatest-batch", 1]):
        end = audited(*words, "--", "sh", "-c", "echo run")
        told(f"{words}", end, 125, "does not audit with these options")
        expect("run\n" not in end.stdout, f"with {words} the program is run")
    for words in (["--json"], ["--accept", "/dev/null"], ["--write-accept"], ["--lone", 1], ["--greatest-batch", 2]):
        told(f"{words} without an audit", traced(*words, "--", "true"), 125, "an audit alone takes")
    told("two forms", audited("--json", "--write-accept", "--", "true"), 125, "writes keys alone")
    end = audited("--deny", "unseen", "--", client("unseen"), "right")
    told("an option that denies what is not there", end, 0)
    end = audited("--lone", 7, "--", client("unseen"), "right")
    told("two submissions with a price of their own", end, 0, "\ncost 14 as submitted")


def in_json():
    """The reports of all runs in one object; those of dsa_text hold its schema."""
    end = audited("--json", *by_seed(s1="ordered blind", s2="unseen right", s3="unseen stale"))
    told("runs in JSON", end, 1)
    runs = json.loads(end.stdout)["runs"]
    expect(schema.holds(schema.report_schema("runs"), json.loads(end.stdout)), f"the schema rejects {end.stdout}")
    got = [(it["seed"], it["status"], it["verdict"], len(it["processes"])) for it in runs]
    expect(got == [(1, 0, "errors", 1), (2, 0, "clean", 1), (3, 0, "errors", 1)], f"the runs are {got}")
    first, right, stale = (it["processes"][0] for it in runs)
    for report in (first["report"], right["report"], stale["report"]):
        expect(schema.holds(schema.report_schema("audit"), report), f"the schema rejects {report}")
    named_wait = [it["key"] for it in first["report"]["waits"]["missing"]]
    expect(named_wait == [WAIT] and first["noted"] == [], f"the first run has {named_wait} {first['noted']}")
    expect(re.fullmatch(r"ordered\.\d+", first["process"]) and first["submissions"] == 2, f"the process is {first}")
    expect(right["report"]["waits"]["missing"] == [] and right["noted"] == [], f"the second run has {right}")
    notes, address = stale["noted"], stale["noted"][0].pop("address")
    wanted = {"entry": 1, "finding": "record not zero", "key": STALE, "member": None, "severity": "error"}
    wanted |= {"submission": 1}
    expect(notes[0] == wanted and re.fullmatch("0x[0-9a-f]+", address) and len(notes) == 15, f"noted is {notes[:2]}")
    end = audited("--json", "--", "true")
    told("JSON of nothing", end, 1)
    wanted = {"runs": [{"processes": [], "seed": 1, "status": 0, "verdict": "empty"}]}
    expect(json.loads(end.stdout) == wanted, f"of nothing is said {end.stdout}")
    end = audited("--json", "--", "sh", "-c", f"{client('unseen')} right; rm $DSA_TRACE_OUT/*")
    told("JSON of a part", end, 125)
    expect(json.loads(end.stdout)["runs"][0]["verdict"] == "part", f"of a part is said {end.stdout}")


def in_junit():
    """A test case for each run, with the report of one that fails."""
    def cases(*words, status):
        told(f"JUnit of {words}", traced("--junit", f"{WORK}/junit.xml", *words, env=KNOWN), status)
        suite = xml.parse(f"{WORK}/junit.xml").getroot()
        expect((suite.tag, suite.get("name")) == ("testsuite", "dsa_trace"), f"the suite is {suite}")
        expect(all(float(it.get("time")) >= 0 for it in suite), "a test case has no time")
        return [(it.get("name"), *((part.tag, part.get("message"), part.text or "") for part in it)) for it in suite]

    found = cases("--audit", *by_seed(s1="ordered blind", s2="unseen right"), status=1)
    report = found[0][1][2]
    wanted = [("sh, seed 1", ("failure", "the audit finds errors", report)), ("sh, seed 2",)]
    expect(found == wanted and "error: missing wait, read after write" in report, f"the cases are {found}")
    found = cases("--seeds", 2, "--", "sh", "-c", "exit 3", status=3)
    expect(found == [("sh, seed 1", ("failure", "the program ends with status 3", ""))], f"the cases are {found}")
    again = traced("--junit", f"{WORK}/junit.xml", "--seeds", 2, f"--junit={WORK}/junit.xml", "--", "false", env=KNOWN)
    told("two files of test cases", again, 125, "this option is given twice")
    for junit in (["--junit", f"{WORK}/junit.xml"], [f"--junit={WORK}/junit.xml"]):
        again = traced(*junit, "--seeds", 2, "--timeout", 9, "--", "false", env=KNOWN)
        told("how a run is repeated", again, 1, "dsa_trace --seed 1 --timeout 9 -- false\n")
    found = cases("--audit", "--", "true", status=1)
    expect([it[1][:2] for it in found] == [("failure", "nothing was submitted")], f"the cases are {found}")
    removing = f"{client('unseen')} right; rm $DSA_TRACE_OUT/*"
    found = cases("--audit", "--", "sh", "-c", removing, status=125)
    expect([it[1][:2] for it in found] == [("error", "the audit has seen a part of the run")], f"the cases are {found}")
    found = cases("--audit", "--", "sh", "-c", f"{removing}; exit 3", status=125)
    both = "the program ends with status 3, and the audit has seen a part of the run"
    expect([it[1][:2] for it in found] == [("error", both)], f"the cases are {found}")
    found = cases("--timeout", 1, "--", "sleep", 100, status=124)
    expect(found == [("sleep, seed 1", ("error", "the program was ended by --timeout", ""))], f"the cases are {found}")
    other = FENCE.replace("8192", "9")
    known = accepting(WAIT, "# known", other)
    runs = by_seed(s1="ordered blind", s2="unseen right")
    passed = [("sh, seed 1",), ("sh, seed 2",)]
    line = f"{WORK}/known.txt: line 3: error: this fits nothing: {other}\n"
    found = cases("--audit", "--stacks", 0, "--deny", "stale", *known, *runs, status=1)
    wanted = [*passed, ("accepted errors", ("failure", "accepted errors fit nothing", line))]
    expect(found == wanted, f"the cases of a line that fits nothing are {found}")
    as_json = cases("--audit", "--stacks", 0, "--json", "--deny", "stale", *known, *runs, status=1)
    expect(as_json == wanted, f"beside JSON the cases of a line that fits nothing are {as_json}")
    found = cases("--audit", "--stacks", 0, *known, *runs, status=0)
    expect(found == passed, f"the cases of a line that fits nothing, which is no error, are {found}")
    shutil.copy(client("unseen"), f"{WORK}/a<b&c")
    found = cases("--audit", "--", f"{WORK}/a<b&c", "stale", status=1)
    expect(found[0][0] == "a<b&c, seed 1", f"the name is {found[0][0]}")
    told("a file that can't be written", traced("--junit", "/nowhere/x", "--", "true"), 125, "/nowhere/x")
    full = "dsa_trace: /dev/full: No space left on device\n"
    told("a full disk", traced("--junit", "/dev/full", "--seeds", 2, "--", "true"), 125, f"all with status 0\n{full}")
    written = open(f"{WORK}/known.txt", encoding="utf-8").read()
    same = traced("--audit", *known, "--junit", f"{WORK}/../{os.path.basename(WORK)}/known.txt", "--", "true")
    told("one file for both", same, 125, "--junit would overwrite the file of --accept")
    expect(open(f"{WORK}/known.txt", encoding="utf-8").read() == written, "the accepted errors are overwritten")


def over_earlier():
    """A run removes what an earlier one with its seed has recorded, and nothing else; --report says which runs are not
    of the last command."""
    folder, words = f"{WORK}/again", ("--order", "fifo", "--", client("unseen"), "right")
    traced("--out", folder, "--seeds", 3, *words)
    others = ["my.dsa", "kept.part2.dsa", "a.events", "b.stacks", "c.places", "d.errors", "notes.7.errors"]
    others += ["ERRORS.7.errors", "B notes.errors", "notes.txt"]
    for name in others:
        Path(folder, "seed-1", name).write_text(name)
    Path(folder, "seed-1", "lost.7.errors").write_text("B it could not begin\n")
    before = {"lost.7.errors"} | {path.name for path in Path(folder, "seed-1").glob("unseen.*")}
    traced("--out", folder, "--seeds", 2, *words)
    now = {path.name for path in Path(folder, "seed-1").iterdir()}
    expect(before and not before & now and {*others, "processes.txt"} < now, f"{before}, and after a run {now}")
    expect(all(Path(folder, "seed-1", name).read_text() == name for name in others), "a file of others has changed")
    told("files of others beside a run", audited("--out", folder, *words), 0)
    for name in others:
        Path(folder, "seed-1", name).unlink()
    for path in Path(folder, "seed-1").glob("unseen.*"):
        path.rename(path.with_name(path.name.replace("unseen.", "earlier.", 1)))
    told("beside a recording with another name", audited("--out", folder, *words), 0)
    kept_files = {path.suffix for path in Path(folder, "seed-1").glob("earlier.*")}
    expect(len(kept_files) >= 3, f"of the recording with another name {kept_files} are left")
    for path in Path(folder, "seed-1").glob("earlier.*"):
        path.unlink()
    traced("--out", folder, "--seeds", 2, *words)
    said = f"1 of 3 runs in {folder} is of earlier commands, the first seed-3; runs.txt names those of the last"
    told("runs of two commands", traced("--report", folder, env=KNOWN), 0, said)
    traced("--out", folder, "--seeds", 3, *words)
    end = traced("--report", folder, env=KNOWN)
    expect("earlier commands" not in end.stderr, f"runs of one command: {end.stderr}")
    Path(folder, "runs.txt").write_text("my notes\n")
    told("a list of others", traced("--out", folder, *words), 125, "runs.txt is not of dsa_trace")
    expect(Path(folder, "runs.txt").read_text() == "my notes\n", "runs.txt of others is overwritten")


def kept():
    """The runs that --out has kept are audited again as they were, or with other options; what breaks off stays so."""
    folder = f"{WORK}/kept"
    runs = by_seed(s1="ordered blind", s2="ordered fence", s3="unseen stale", s4="unseen right")
    for form in ([], ["--json"]):
        first, again = audited(*form, "--out", folder, *runs), traced("--report", folder, *form, env=KNOWN)
        same = (again.returncode, again.stdout) == (first.returncode, first.stdout)
        expect(same and first.returncode == 1, f"audited again {form}: {again.returncode} {again.stdout}")
    told("the first with errors", again, 1, "the audits of 3 of 4 runs find errors; the first is seed 1:")
    told("accepted", traced("--report", folder, *accepting(WAIT, FENCE, STALE), env=KNOWN), 0, "find no errors")
    end = traced("--report", folder, "--write-accept", "--junit", f"{WORK}/junit.xml", env=KNOWN)
    expect((end.returncode, end.stdout) == (0, f"{WAIT}\n{FENCE}\n{STALE}\n"), f"keys: {end.returncode} {end.stdout}")
    names = [(it.get("name"), len(it)) for it in xml.parse(f"{WORK}/junit.xml").getroot()]
    wanted = [(f"kept, seed {seed}", int(seed < 4)) for seed in (1, 2, 3, 4)]
    expect(names == wanted, f"the test cases are {names}")
    tears = f"{client('unseen')} right; printf %064d 1 >> $(ls $DSA_TRACE_OUT/*.dsa)"
    for name, command in (("lost", f"exec {client('unseen')} files"), ("torn", tears)):
        traced("--out", f"{WORK}/{name}", "--", "sh", "-c", command)
        end = traced("--report", f"{WORK}/{name}", env=KNOWN)
        told(f"one that is {name}", end, 125, "is audited up to its submission", "has seen a part")
    for name, command, said in (
        ("uncut", "truncate -s +64 $(ls $DSA_TRACE_OUT/*.events)", "its process was still running"),
        ("alone", "touch $DSA_TRACE_OUT/other.1.errors", "its process has recorded nothing"),
    ):
        traced("--out", f"{WORK}/{name}", "--", "sh", "-c", f"{client('unseen')} right")
        ran("sh", "-c", command, env=KNOWN | {"DSA_TRACE_OUT": f"{WORK}/{name}/seed-1"})
        told(f"one that is {name}", traced("--report", f"{WORK}/{name}", env=KNOWN), 125, said, "has seen a part")
    two = f"{client('ordered')} blind; exec {client('unseen')} right"
    traced("--out", f"{WORK}/fewer", "--order", "fifo", "--", "sh", "-c", two)
    for path in Path(WORK, "fewer", "seed-1").glob("ordered.*.events"):
        path.unlink()
    told("a process without events", traced("--report", f"{WORK}/fewer", env=KNOWN), 125,
         ".events, so its recording is not audited", "has seen a part")
    told("a program beside it", traced("--report", folder, "--", "true", env=KNOWN), 125, "no program is run")
    for words in (["--seed", 2], ["--no-watch"], ["--out", f"{WORK}/other"]):
        told(f"{words} beside it", traced("--report", folder, *words, env=KNOWN), 125, f"{words[0]}: --report runs no")
    told("no folder", traced("--report", "/nowhere", env=KNOWN), 125, "/nowhere")
    told("a folder without runs", traced("--report", f"{folder}/seed-1", env=KNOWN), 125, "has no runs")


# ---- a limit of time


def late():
    """A run that takes too long is ended with all its processes, and audited. The status is 124."""
    shell = f"{client('ordered')} blind; sleep 1000 & echo $! > {WORK}/left; exec sleep 1000"
    start = time.monotonic()
    end = audited("--timeout", 1, "--", "sh", "-c", shell)
    took = time.monotonic() - start
    told("a run that takes too long", end, 124, "runs for more than 1 s (--timeout), and is ended",
         "error: missing wait")
    expect(1 <= took < 30, f"it took {took:.1f} s")
    left = int(Path(WORK, "left").read_text())
    expect(not Path(f"/proc/{left}").exists(), "a process in the background is left")
    end = traced("--timeout", 1, "--", "sh", "-c", "trap '' TERM; while :; do sleep 0.1; done")
    told("a program that does not end when it is asked to", end, 124)
    end = traced("--timeout", 1, "--seeds", 3, "--", "sh", "-c", "[ $DSA_TRACE_SEED = 2 ] && exec sleep 1000; exit 0")
    told("the second of three", end, 124, "dsa_trace: seed 2: the program runs for more than 1 s", "the same again:")
    told("a run in time", traced("--timeout", 60, "--", "sh", "-c", "exit 7"), 7)
    with tempfile.TemporaryDirectory(dir=WORK) as folder:
        end = traced("--timeout", 1, "--out", folder, "--", "sh", "-c", f"{client('unseen')} right; exec sleep 1000")
        told("a recording of a run that takes too long", end, 124)
        sizes = [path.stat().st_size for path in Path(folder, "seed-1").glob("*.dsa")]
        expect(sizes == [128], f"the recordings have {sizes} bytes")


# ---- a dsa_text that nothing has proved


def unproved():
    """A clone without dsa_text builds one without proofs, if there is a toolchain, and each report says so."""
    clone, tools = Path(WORK, "clone"), Path(WORK, "tools")
    shutil.copytree(f"{WORK}/gcc", clone / "trace/out")
    (clone / "tests/gate").mkdir(parents=True)
    tools.mkdir()
    words = [clone / "trace/out/dsa_trace", "--audit", "--order", "fifo"]
    runs, env = ["--", client("unseen"), "right"], {"PATH": f"{tools}:/usr/bin:/bin"}
    script = clone / "tests/gate/quick.py"
    script.write_text("raise SystemExit('not built')\n")
    told("a clone without a toolchain", ran(*words, *runs, env=env), 125, "needs the program dsa_text")
    (tools / "rt").write_text("#!/bin/sh\n")
    (tools / "rt").chmod(0o755)
    told("a build that fails", ran(*words, *runs, env=env), 125, "not built", "needs the program dsa_text")
    script.write_text(f"""import os, sys
to = os.path.dirname(__file__) + f"/../../crates/{{sys.argv[1]}}/out/unproved"
os.makedirs(to)
os.symlink({TEXT!r}, f"{{to}}/{{sys.argv[1]}}")
print("building")
""")
    end = ran(*words, "--junit", f"{WORK}/junit.xml", *runs, env=env)
    told("a clone that builds it", end, 0, "audits are by one that this clone builds without proofs", "building\n")
    line = f"by a dsa_text that was built without proofs ({clone.resolve()}/crates/dsa_text/out/unproved/dsa_text):\n"
    expect(end.stdout.startswith(line), f"the report begins {end.stdout[:200]}")
    cases = xml.parse(f"{WORK}/junit.xml").getroot()
    said = [it.attrib for it in cases.iter("property")]
    expect(said == [{"name": "dsa_text", "value": "built without proofs"}], f"the test cases say {said}")
    script.write_text("")
    end = ran(*words, "--json", *runs, env=env)
    told("the same in JSON", end, 0)
    whole = json.loads(end.stdout)
    expect(schema.holds(schema.report_schema("runs"), whole) and whole["unproved"], f"in JSON: {end.stdout}")
    end = ran(*words, "--write-accept", *runs, env=env)
    expect((end.returncode, end.stdout) == (0, ""), f"keys alone: {end}")


# ---- what is written by others


def on_terminal(*words):
    """What a command writes to a terminal."""
    first, second = pty.openpty()
    child = subprocess.Popen([str(word) for word in words], stdin=second, stdout=second, stderr=second, env=KNOWN)
    os.close(second)
    said = b""
    while True:
        try:
            part = os.read(first, 4096)
        except OSError:  # the other end is closed
            part = b""
        if not part:
            break
        said += part
    os.close(first)
    return child.wait(LONGEST), said.replace(b"\r\n", b"\n")


def terminal():
    """Names with bytes that command a terminal are shown as digits there, and as they are elsewhere."""
    name = "bell\a, red\x1b[31m, \x9b31m"
    escaped = b"bell\\x07, red\\x1b[31m, \xc2\\x9b31m"
    program = f"{WORK}/{name}"
    status, said = on_terminal(f"{WORK}/gcc/dsa_trace", "--", program)
    right = status == 127 and escaped in said and not {7, 27} & set(said)
    expect(right, f"a program that is not there: {status} {said}")
    told("the same in a file", traced("--", program), 127, f"{name} is not found")
    status, said = on_terminal(f"{WORK}/gcc/dsa_prices", program)
    right = status == 1 and escaped in said and not {7, 27} & set(said)
    expect(right, f"prices of a queue that is not there: {status} {said}")
    Path(program).write_text("#!/bin/sh\nexit 3\n")
    Path(program).chmod(0o755)
    status, said = on_terminal(f"{WORK}/gcc/dsa_trace", "--seeds", 2, "--", program)
    right = status == 3 and b"the same again" in said and escaped in said and not {7, 27} & set(said)
    expect(right, f"the command that repeats: {status} {said}")


def nothing():
    """Empty values, names and files each get a sentence, or are as none."""
    for words in (["--out", ""], ["--accept", ""], ["--junit="], ["--seed", ""], ["--report", ""]):
        told(f"{words}", traced(*words, "--", "true"), 125, "comes after this option")
    told("a program without a name", traced("--", ""), 125, "the program to run has no name")
    told("no program", traced("--"), 125, "the program to run is missing")
    told("an empty file of keys", audited(*accepting(), "--", client("unseen"), "right"), 0)
    told("a program as a file of keys", audited("--accept", client("unseen"), "--", "true"), 125, "is no text in UTF-8")
    told("a folder as one", audited("--accept", WORK, "--", "true"), 125, "does not audit with these options")
    Path(WORK, "neither/seed-1").mkdir(parents=True)
    for name, content in (("events", bytes(range(256))), ("dsa", b"neither"), ("errors", b"\0\xff"), ("stacks", b"\0")):
        Path(WORK, f"neither/seed-1/odd.1.{name}").write_bytes(content)
    told("recordings that are none", traced("--report", f"{WORK}/neither", env=KNOWN), 125, "has seen a part")
    told("a file to report", traced("--report", client("unseen"), env=KNOWN), 125,
         "Not a directory; --report takes the folder that --out has named")
    told("prices of a queue without a name", ran(f"{WORK}/gcc/dsa_prices", ""), 2, "the name of the queue is empty")


# ---- the page


def ctest():
    """The CMakeLists.txt of docs/USING.md, of a test that is right and one that does not clear its records."""
    if not shutil.which("cmake") or not shutil.which("ctest"):
        skip("the example for CTest: there is no cmake")
        return
    text = block_after("docs/USING.md", "A whole `CMakeLists.txt`", "cmake")
    for word, failed in (("right", 0), ("stale", 1)):
        folder = Path(WORK, f"ctest_{word}")
        folder.mkdir()
        (folder / "CMakeLists.txt").write_text(text)
        (folder / "dsa.known").write_text("")
        shutil.copy("tests/trace/client.h", folder)
        source = Path("tests/trace/unseen.c").read_text().replace(': "right";', f': "{word}";')
        (folder / "my_test.c").write_text(f"#define _GNU_SOURCE\n{source}")
        known = KNOWN | {"PATH": f"{WORK}/gcc:{KNOWN['PATH']}"}
        told(f"cmake of {word}", ran("cmake", "-B", folder / "build", folder), 0)
        told(f"the build of {word}", ran("cmake", "--build", folder / "build"), 0)
        end = ran("ctest", "--test-dir", folder / "build", "--output-on-failure", env=known)
        told(f"ctest of {word}", end, 8 * failed, f"{failed} tests failed out of 1")
        cases = xml.parse(folder / "build/my_test.dsa.xml").getroot()
        expect(len(cases) == 20 and all(len(it) == failed for it in cases), f"{word}: {len(cases)} test cases")


PARTS = [keys, reports, noted, fitting, apart, passed_on, in_json, in_junit, over_earlier, kept, late, unproved]
PARTS += [terminal, nothing, ctest]


def main(words):
    parts = named(PARTS, words)
    for part in parts if has_text() and built_all(["unseen", "ordered", "odd"]) else []:
        part()


if __name__ == "__main__":
    run_test(main)
