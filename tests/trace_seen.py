"""What an audit of dsa_trace may not pass over: recordings that break off or go, processes in the background, lists and
records that change in flight, waits that threads lack, programs that submit nothing; and the paces that seeds choose.
The programs are tests/trace/unseen.c and tests/trace/stages.c. It uses the rights of root and watchpoints where they
are, and says so where they aren't. The words are names of parts."""

import json
import os
import re
import signal
import subprocess
import tempfile
import time
from pathlib import Path

from common import expect, named, run_test, skip
from trace_runs import HAS_MOVDIR64B, KNOWN, WORK, audited, built_all, client, has_text, ran, told, traced

PART = "the audit has seen a part of the run"
EMPTY = "nothing was submitted, so nothing was audited"
UNSEEN = "\nit was not seen when the program looked at its records, so each end counts as known at once: "


def unseen(*words):
    return "--", client("unseen"), *words


def none(what, end):
    """A case: a right program ends well, and no error is said of it."""
    told(what, end, 0)
    expect("error" not in end.stdout, f"{what}: {end.stdout}")


# ---- recordings that break off


def lost():
    """A recording that breaks off ends the audit with status 125, says so also where the program's standard error is
    sent away, and has a mark."""
    ways = {"files": "Too many open files", "size": "File too large"}
    if os.getuid() == 0:
        ways |= {"chroot": "No such file or directory", "user": "Permission denied"}
    else:
        skip("chroot and setuid, which need root")
    for how, why in ways.items():
        said = ("breaks off: the ", f" can't grow: {why}\n", PART)
        told(f"a recording that {how} ends", audited(*unseen(how)), 125, *said, "is not recorded")
        end = audited("--", "sh", "-c", f"exec {client('unseen')} {how} 2> /dev/null")
        told(f"the same ({how}) without standard error", end, 125, *said)
        expect("is not recorded" not in end.stderr, f"the program says it on our standard error: {end.stderr}")
    shell = f"[ $DSA_TRACE_SEED = 2 ] && exec {client('unseen')} files; exec {client('unseen')} right"
    end = audited("--seeds", 3, "--", "sh", "-c", shell)
    told("the second of three", end, 125, "the audits of 0 of 2 runs find errors, and those of 1 have seen a part; ")
    with tempfile.TemporaryDirectory(dir=WORK) as folder:
        end = traced("--out", folder, *unseen("files"))
        told("the same without an audit", end, 0, " breaks off: ", " can't grow: Too many open files\n")
        [errors] = Path(folder, "seed-1").glob("*.errors")
        wanted = r"B the (recording|events) can't grow: Too many open files\n"
        expect(re.fullmatch(wanted, errors.read_text()), f"the mark is {errors.read_text()!r}")
        [size] = [path.stat().st_size for path in Path(folder, "seed-1").glob("*.dsa")]
        expect(size % 64 == 1 and size > 64 * 1000, f"the recording that breaks off has {size} bytes")


def full_folder():
    """A folder for temporary files that is full."""
    if os.getuid() != 0 or ran("unshare", "-m", "true").returncode:
        skip("a full folder, which needs the right to mount one")
        return
    Path(WORK, "full").mkdir()
    command = f"mount -t tmpfs -o size=600k none {WORK}/full && TMPDIR={WORK}/full exec {WORK}/gcc/dsa_trace"
    command += f" --audit {' '.join(unseen('disk'))}"
    told("a full folder", ran("unshare", "-m", "sh", "-c", command, env=KNOWN), 125, "No space left on device", PART)


def counted():
    """All that is submitted is recorded, or the audit says so: where recordings are removed, where a process can't tell
    the launcher, and where a full queue drops some. A thread that submits while its process ends is recorded."""
    end = audited("--", "sh", "-c", f'{client("unseen")} right; rm "$DSA_TRACE_OUT"/*')
    told("recordings that the program removes", end, 125, "of 2 submissions 0 are recorded", PART)
    end = audited("--", "env", "DSA_TRACE_BOARD=/nowhere", client("unseen"), "right")
    told("a process that can't tell the launcher", end, 4, "/nowhere can't be opened", "it gets no portal",
         "/dev/dsa/wq0.0: Permission denied")
    told("the same without a recording", traced("--", "env", "DSA_TRACE_BOARD=/nowhere", client("unseen"), "right"), 0)
    shell = f"ulimit -n 4; exec {client('unseen')} right"
    told("a queue that can't be read", audited("--", "sh", "-c", shell), 4,
         "the files of wq0.0 can't be read (Too many open files)", "/dev/dsa/wq0.0: Too many open files")
    told("a process that is killed", audited("--", client("odd"), "killed", 500), 128 + signal.SIGKILL)
    full = ("--queue", "dedicated,16,q", "--delay", 20000)  # nothing is done before all are submitted
    said = ("0 missing waits, 16 submissions", ": 24 more submissions, dropped by a full queue, are not audited", PART)
    with tempfile.TemporaryDirectory(dir=WORK) as folder:
        told("a full queue", audited(*full, "--out", folder, *unseen("dropped")), 125, *said)
        told("a full queue, kept", traced("--report", folder, env=KNOWN), 125, *said)
        [errors] = Path(folder, "seed-1").glob("*.errors")
        expect(errors.read_text() == 24 * "D 16 wq0.0\n", f"what is dropped is noted as {errors.read_text()!r}")
    told("a full queue without an audit", traced(*full, *unseen("dropped")), 0, "(16 in flight): MOVDIR64B is lost")
    with tempfile.TemporaryDirectory(dir=WORK) as folder:
        end = audited("--out", folder, *unseen("late"))
        told("a thread that submits while the process ends", end, 0)
        before, after = map(int, re.search(r"(\d+) before, (\d+) after", end.stdout).groups())
        [size] = [path.stat().st_size // 64 for path in Path(folder, "seed-1").glob("*.dsa")]
        expect(before < after <= size, f"of {after} submissions, {before} before the end, {size} are recorded")


def in_parts():
    """A recording in parts is audited as one: here a submission that ends the first part is not waited for. One of many
    parts is audited in the two minutes that a run of a test has."""
    end = audited(*unseen("parts"))
    told("a missing wait between two parts", end, 1,
         "entry 65536 (submission 65): error: missing wait, read after write: reads what entry 65535 (submission 64) "
         "writes, in flight, at 0x", "1 missing wait, 66 submissions\n")
    expect(end.stdout.count("descriptors in ") == 1, f"the parts have reports of their own: {end.stdout}")
    told("many parts", audited("--order", "fifo", "--", client("odd"), "left", 400000), 0, "waits, 400000 submissions")


def cut():
    """A recording that ends within a submission, or has fewer than its events name, is audited up to there, and the
    audit says that it has seen a part. Here a shell changes it after the program's end, as a kill could leave it. An
    event that is cut off is none, and dsa_text's limits are said."""
    middle, up_to = "ends in the middle of a submission", " is audited up to its submission "
    cases = {
        "its last event": ("printf 'S 2 wq0.0 op 3 members' >> $R.events", 125, 2, middle),
        "its last entry": ("printf %064d 1 >> $R.dsa", 125, 2, middle),
        "a part without events": ("printf %064d 1 > $R.part2.dsa", 125, 2, middle),
        "an end": ("printf 'C 1' >> $R.events", 0, 2, ""),
        "its entries": ("truncate -s 64 $R.dsa", 125, 1, f"{up_to}1, since the events name more than is recorded"),
        "too many events": ("yes 'K 0' | head -c 67108864 >> $R.events", 125, 2,
                            f"{up_to}2, since dsa_text reads at most 67,108,864 bytes of events"),
    }
    for name, (command, status, count, said) in cases.items():
        shell = f"{client('unseen')} right; R=$(ls $DSA_TRACE_OUT/*.events); R=${{R%.events}}; {command}"
        part = [PART] if status else []
        told(name, audited("--", "sh", "-c", shell), status, f"0 missing waits, {count} submission", said, *part)


# ---- processes in the background


def staying():
    """One that stays, and does not keep the outputs of the test."""
    return "--", "sh", "-c", f"exec {client('unseen')} stays > /dev/null 2>&1"


def ended(number):
    """Ends a process that a test has left in the background."""
    os.kill(number, signal.SIGKILL)
    for _ in range(200):
        if not Path(f"/proc/{number}").exists():
            return
        time.sleep(0.02)


def background():
    """A process that the program leaves is waited for, and its recording is audited. With --no-wait those that still
    run are named, and a recording of theirs is not audited."""
    for how in ([], ["--no-namespace"], ["--seeds", 2]):
        told(f"a process in the background {how}", audited(*how, *unseen("background")), 1,
             "error: missing wait")
    end = audited("--no-wait", *staying())
    told("one that is not waited for", end, 1, "the program has ended, but not process ", "(unseen)", EMPTY)
    ended(int(re.search(r"process (\d+) \(unseen\)", end.stderr)[1]))
    shell = f"{client('unseen')} stays > /dev/null 2>&1; sleep 1; exec {client('unseen')} right"
    end = audited("--no-wait", "--", "sh", "-c", shell)
    told("one that has submitted", end, 125, "is not audited, since its process still runs", PART)
    ended(int(re.search(r"process (\d+) \(unseen\)", end.stderr)[1]))


def waited_for():
    """After some seconds it is said for whom is waited; after a minute the audit goes on, and has seen a part."""
    start = time.monotonic()
    end = audited(*staying(), timeout=100)
    took = time.monotonic() - start
    told("a process that never ends", end, 125, "this waits for process ", "but not process ", "still runs", PART)
    expect(55 < took < 90, f"it is waited for {took:.0f} s")
    ended(int(re.search(r"process (\d+) \(unseen\)", end.stderr)[1]))
    with subprocess.Popen([f"{WORK}/gcc/dsa_trace", "--audit", *staying()], env=KNOWN, text=True,
                          stdout=subprocess.PIPE, stderr=subprocess.PIPE) as child:
        said = child.stderr.readline()
        ended(int(re.search(r"process (\d+) \(unseen\)", said)[1]))
        is_found = "error: missing wait" in child.stdout.read()
        expect(is_found and child.wait() == 1, "after it has ended there is no audit")


# ---- lists and records that change in flight


def lists():
    """What a batch does is what its list has when the device comes to it; a list that has changed since its submission
    is an error, with each pace but that of a device that is done at once."""
    wanted = "): error: descriptor list changed: when the device came to it after the submission, another descriptor"
    for how in (["--seed", 1], ["--seed", 3], ["--order", "all"], ["--seed", 4, "--delay", 100]):
        told(f"a list that is filled anew {how}", audited(*how, *unseen("list")), 1, wanted)
        told(f"what it does {how}", traced(*how, *unseen("list")), 3)
    for how in (["--order", "fifo"], ["--seed", 4]):
        none(f"a list that is filled anew {how}", audited(*how, *unseen("list")))
    end = audited(*unseen("gone"))
    told("a list that is unmapped", end, 1, "status 0x6, 0 members, at the list 1, moved 0",
         "entry 1 (submission 0, member 0): error: descriptor list gone: when the device came to it after the ",
         ", nothing could be read at 0x")
    with tempfile.TemporaryDirectory(dir=WORK) as folder:
        traced("--out", folder, *unseen("list"))
        [errors] = Path(folder, "seed-1").glob("*.errors")
        noted = sorted(errors.read_text().splitlines())
        of_each = all(re.fullmatch(rf"L 0 {member} \d+", line) for member, line in enumerate(noted))
        expect(of_each and len(noted) == 4, f"of the four members of a list is noted {noted}")
        [recording] = Path(folder, "seed-1").glob("*.dsa")
        members = [recording.read_bytes()[64 * at : 64 * at + 64] for at in range(10)]
        expect(members[1:5] != members[6:10], "the recording does not have what was submitted")
    none("a list that is filled anew after its members", audited(*unseen("reuse")))
    keys = [f"descriptor list changed; batch of 4; member {member}: move, 64 bytes" for member in range(4)]
    for left in (0, 3):
        Path(WORK, "known.txt").write_text("".join(f"{key}\n" for key in keys if key != keys[left]))
        end = audited("--stacks", 0, "--accept", f"{WORK}/known.txt", *unseen("list"))
        told(f"all but member {left} accepted", end, 1, f"member {left}): error: descriptor list changed")
        expect(end.stdout.count("error: ") == 1, f"of three accepted members is said {end.stdout}")


def records():
    """A record that is not zero when submitted, or is changed in flight, is an error that names it; that the device
    changes one which two members share is none of these. With a fast device a record that is cleared late is lost."""
    late = ("--delay", 2000)  # the program may take its time to clear the record
    end = audited(*late, *unseen("record"))
    told("a record that is cleared late", end, 1,
         "entry 1 (submission 1): error: record not zero: its completion record, at 0x", ", was not zero when it was ",
         "entry 1 (submission 1): error: record changed: its completion record, at 0x")
    expect("(submission 0): error" not in end.stdout, f"the first record was zero: {end.stdout}")
    end = audited(*unseen("stale"))
    told("a record that is never cleared", end, 1, "entry 1 (submission 1): error: record not zero")
    expect("record changed" not in end.stdout, f"nobody has changed the record: {end.stdout}")
    for seed in (1, 2, 3, 4):
        for word in ("right", "reuse"):
            none(f"{word} under seed {seed}", audited("--seed", seed, *unseen(word)))
        end = audited("--seed", seed, *unseen("shared"))
        told(f"a record that two members share under seed {seed}", end, 1, "error: shared record, use another")
        expect(end.stdout.count("error: ") == 1, f"of a record that two members share is said {end.stdout}")
    told("a record that is cleared late, and a fast device", traced("--seed", 4, *unseen("record")), 7)
    told("and a device that is not", traced(*late, *unseen("record")), 0)


# ---- waits that threads lack


def watches():
    """Whether the kernel gives watchpoints."""
    if "no watchpoints" in audited(*unseen("right")).stderr:
        skip("watchpoints, which the kernel does not give")
        return False
    return True


def threads():
    """An audit finds a wait that is missing between threads, or long before the next submission, since it sees which
    records the program looks at; with --no-watch it does not. A program that clears a record does not look at it, and
    none that has closed the files of watchpoints is taken to have looked."""
    with tempfile.TemporaryDirectory(dir=WORK) as folder:
        shell = f"exec 2> /dev/null; ulimit -n 5; exec {client('unseen')} right"
        end = audited("--seeds", 2, "--", "sh", "-c", shell)
        told("a program with few file numbers", end, 0, "no watchpoints in 1 process (Too many open files)", UNSEEN)
        expect(end.stderr.count("no watchpoints") == 1, f"it is said again: {end.stderr}")
        traced("--out", folder, *unseen("right"))
        lines = "".join(path.read_text() for path in Path(folder, "seed-1").glob("*.events"))
        expect("W" not in lines, f"without an audit records are watched: {lines}")
        told("what was recorded without an audit", traced("--report", folder, env=KNOWN), 0, UNSEEN)
    if not watches():
        return
    for how in ([], ["--watch", 5], ["--watch", 100]):
        end = audited(*how, "--", client("ordered"), "sleep")
        told(f"a sleep is no wait {how}", end, 1, "error: missing wait", "if the program polls data, or of several")
    for seed in (1, 2, 3):
        told(f"a wait that is missing for long, seed {seed}", audited("--seed", seed, *unseen("gap", 10000)), 1,
             "(submission 1): error: missing wait, read after write: reads what entry 0 (submission 0) writes, in ")
        end = audited("--seed", seed, "--", client("stages"), "omits")
        told(f"a stage that does not wait, seed {seed}", end, 1, "error: missing wait, read after write")
        none(f"stages that wait, seed {seed}", audited("--seed", seed, "--", client("stages")))
        none(f"--no-watch, seed {seed}", audited("--no-watch", "--seed", seed, *unseen("gap", 10000)))
        for many in (1, 2, 4):  # of two records the writes are counted, of four not
            end = audited("--seed", seed, *unseen("cleared", many))
            said = f"{3 * many} missing waits, {4 * many} submissions"
            told(f"{many} records that are cleared without a look, seed {seed}", end, 1, said)
        told(f"files that are closed, seed {seed}", audited("--seed", seed, *unseen("closed")), 1,
             "(submission 1): error: missing wait, read after write", "1 process has closed the files of watchpoints")
        none(f"files that are closed after a wait, seed {seed}", audited("--seed", seed, *unseen("looks")))


# ---- programs that submit nothing


def empty():
    """An audit of a program that submits nothing has status 1, or the program's own, and names --cpuid."""
    end = audited(*unseen("asks"))
    if HAS_MOVDIR64B:
        told("a program that asks CPUID of a CPU that has the instruction", end, 0)
    else:
        told("a program that asks CPUID", end, 1, EMPTY, "needs --cpuid")
    end = audited("--cpuid", *unseen("asks"))
    is_answered = "can't let CPUID fault" not in end.stderr
    told("the same with --cpuid", end, int(not is_answered))
    told("a program that fails before", audited("--", "sh", "-c", "exit 3"), 3, EMPTY)
    shell = f'[ $DSA_TRACE_SEED = 2 ] || exec {client("unseen")} right'
    told("one run of three", audited("--seeds", 3, "--", "sh", "-c", shell), 1,
         "in 1 of 3 runs nothing was submitted", "the audits of 3 runs find no errors")


# ---- paces


def paces():
    """Of four seeds one is of a fast device, one of a slow one, two of the usual one; --delay fixes it."""
    def took(*words):
        return int(traced(*words, *unseen("pace")).stdout.split()[0])

    usual, slow, fast = range(50, 300), range(300, 5000), range(50)
    for seed, right in ((1, usual), (2, usual), (3, slow), (4, fast), (7, slow), (8, fast)):
        found = took("--seed", seed)
        expect(found in right, f"under seed {seed} a move takes {found} us of the program's time")
    expect(took("--seed", 4, "--delay", 100) in usual, "--delay does not fix the pace of a fast device")
    expect(took("--seed", 3, "--delay", 100) in usual, "--delay does not fix the pace of a slow device")


def long_runs():
    """After 10,000 submissions most parts of 256 are done at once, and some have the delay: the same for a seed."""
    def parts(*words, count=80):
        return traced(*words, *unseen("long", 256 * count)).stdout[1:]  # in the first one the place is rewritten

    found = parts("--seed", 1)
    expect(found[:38] == 38 * "0" and set(found[39:]) == {"0", "1"} and found[39:].count("0") < 15,
           f"of a long run these parts are done at once: {found}")
    expect(parts("--seed", 1) == found, "another run of the same seed has other parts")
    expect(parts("--seed", 2) != found, "another seed has the same parts")
    expect(parts("--seed", 4) == 79 * "1", "a fast device does not do all at once")
    with tempfile.TemporaryDirectory(dir=WORK) as folder:
        for how in (["--delay", 100], ["--watch", 5], ["--seed", 4, "--delay", 100], ["--out", folder]):
            expect(parts(*how, count=44) == 43 * "0", f"with {how} some are done at once")
    for seed in (1, 2):
        told(f"a wait that is missing late, seed {seed}", audited("--seed", seed, *unseen("after", 12000)), 1,
             "error: missing wait, read after write")


def at_once():
    """If each submission was done at once, an audit says that no missing wait was looked for: also of a run that was
    kept, and not if another seed has looked."""
    said = "dsa_trace: each submission was done at once, so no missing wait was looked for"
    with tempfile.TemporaryDirectory(dir=WORK) as folder:
        in_report = "\nin this process each submission was done at once, as under every fourth seed"
        for how in (["--order", "fifo"], ["--order", "members"], ["--seed", 4], ["--seed", 4, "--out", folder]):
            told(f"all at once, {how}", audited(*how, *unseen("gap", 0)), 0, said, in_report)
        told("a kept run of these", traced("--report", folder, env=KNOWN), 0, said, in_report)
    for how in ([], ["--seed", 4, "--delay", 100], ["--seed", 4, "--watch", 5], ["--seed", 4, "--seeds", 2]):
        end = audited(*how, *unseen("right"))
        expect(end.returncode == 0 and said not in end.stderr, f"with {how} is said: {end.stderr}")
        expect(in_report not in end.stdout, f"with {how} the report has {end.stdout}")
    for seed, right in ((4, True), (5, None)):
        runs = json.loads(audited("--json", "--seed", seed, *unseen("right")).stdout)
        expect(runs.get("at_once") == right, f"as JSON, seed {seed}: {sorted(runs)}")


PARTS = [lost, full_folder, counted, in_parts, cut, background, waited_for, lists, records, threads, empty, paces]
PARTS += [long_runs, at_once]


def main(words):
    parts = named(PARTS, words)
    for part in parts if has_text() and built_all(["unseen", "stages", "odd", "ordered"]) else []:
        part()


if __name__ == "__main__":
    run_test(main)
