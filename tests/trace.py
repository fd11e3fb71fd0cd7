"""Builds dsa_trace with gcc and clang, and small clients with gcc alone, and runs them: with and without what keeps
their operations in order, under a hundred seeds each (SEEDS); each operation; sites that are rewritten; what goes
wrong; recordings; the decoder on every form of address. It uses dsa_text, the tests of accel-config-test and dpdk-dev,
valgrind, sanitizers and the rights of root where they are, and says so where they aren't. The words are names of
parts."""

import itertools
import json
import os
import re
import shutil
import signal
import subprocess
import sys
import tempfile
import time
from pathlib import Path

from common import ROOT, expect, named, run_test, side_by_side, skip
from trace_cases import REFUSED, SYSFS, launched, made_anew, rewriting
from trace_forms import OTHERS, PLACE, instructions, wrong_forms
from trace_runs import HAS_MOVDIR64B, KNOWN, STRICT, TEXT, WORK, audited, built_all, client, has_text, ran, told, traced

sys.path.insert(0, str(ROOT / "bindings/package"))
import make

SEEDS = int(os.environ.get("SEEDS", "100"))
CLIENTS = ("ordered", "threads", "odd", "operations", "ends", "registers", "rewritten")
QUEUES = (("wq0.0", "dedicated"), ("wq0.1", "shared"))
BY = ([], ["--signals"])  # rewritten sites after the first submissions, and signals alone


def built():
    """No compiler has a warning, and each builds what works."""
    for compiler in ("gcc", "clang"):
        if not shutil.which(compiler):
            skip(f"there is no {compiler}")
            continue
        folder = f"{WORK}/{compiler}"
        told(f"the build by {compiler}", ran("make", "-C", ROOT / "trace", f"CC={compiler}", f"OUT={folder}"), 0)
        for name, *lines in (("operations",), ("registers", "7 of 7 forms right, 7 rewritten")):
            told(f"{name} on what {compiler} built", ran(f"{folder}/dsa_trace", "--", client(name)), 0, *lines)


# ---- order


def wrong_of(mode, *options):
    """Of so many seeds, how many end right, wrong and otherwise."""
    words = [client("ordered"), mode]
    statuses = side_by_side(lambda seed: traced("--seed", seed, *options, "--", *words).returncode,
                            range(1, SEEDS + 1), 3)
    return statuses.count(0), statuses.count(3), len([it for it in statuses if it not in (0, 3)])


def ordered():
    """A program with what keeps its operations in order is right under each seed; without it is wrong under many."""
    for mode in ("fenced", "waited", "member", "drain", "polled", "after"):
        right, wrong, other = wrong_of(mode)
        expect(right == SEEDS, f"{mode}: right under {right} seeds of {SEEDS}, wrong under {wrong}, otherwise under {other}")
    for mode in ("fence", "wait"):
        right, wrong, other = wrong_of(mode)
        print(f"without {mode}: wrong under {wrong} of {SEEDS} seeds")
        expect(wrong >= SEEDS / 5 and other == 0, f"{mode}: wrong under {wrong} seeds of {SEEDS}, otherwise under {other}")


def orders():
    """In plain order no run shows what is missing; in any order of records a program may not rely on theirs."""
    for order, mode, wanted in (("fifo", "fence", 0), ("fifo", "wait", 0), ("members", "wait", 0)):
        statuses = [traced("--order", order, "--seed", seed, "--", client("ordered"),
                           mode).returncode for seed in range(1, 11)]
        expect(set(statuses) == {wanted}, f"{mode} in the order {order} ends with {statuses}")
    statuses = {traced("--order", "members", "--seed", seed, "--", client("ordered"),
                       "fence").returncode for seed in range(1, 31)}
    expect(statuses == {0, 3}, f"a missing fence in the order members ends with {statuses}")
    for mode in ("fenced", "waited", "polled", "drain"):
        statuses = {traced("--order", "all", "--seed", seed, "--", client("ordered"),
                           mode).returncode for seed in range(1, 11)}
        expect(statuses == {0}, f"{mode} in the order all ends with {statuses}")


def repeated():
    """The same seed gives the same order, and another one another. Of all runs one may differ, since a machine with much more
    work than it can do may stop the program for longer than its delay."""
    orders, odd = set(), 0
    for seed in (1, 2, 3, 4):
        for mode, begin in (("polled", ""), ("fence", "c")):
            runs = [tuple(it for it in events(seed, mode) if it.startswith(begin)) for _ in range(5)]
            usual = max(runs, key=runs.count)
            odd += len(runs) - runs.count(usual)
            orders.add(usual)
    expect(odd <= 1, f"{odd} of 40 runs have another order than others of their seed")
    expect(len(orders) > 2, "all seeds give the same order")


def events(seed, mode):
    """The events of a run, without threads and times."""
    with tempfile.TemporaryDirectory(dir=WORK) as folder:
        traced("--order", "all", "--delay", 400, "--seed", seed, "--out", folder, "--", client("ordered"), mode)
        [path] = Path(folder, f"seed-{seed}").glob("*.events")
        return re.sub(r"(tid|time) \d+", "", path.read_text()).splitlines()


def seeds():
    """--seeds stops at the first run that fails, and names the seed, under which it fails again."""
    end = traced("--seeds", 60, "--", client("ordered"), "fence")
    told("many seeds of a missing fence", end, 3, "the same again", "dsa_trace --seed ")
    expect(end.stderr.count("the same again") == 1, f"after a run that fails there are others: {end.stderr}")
    again = re.search(r"^\S*/dsa_trace --seed \d+ -- .*$", end.stderr, re.M)
    told("the seed that is named", ran("sh", "-c", again[0]) if again else end, 3)
    shell = f"{client('ordered')} fence; s=$?; : 'it'; exit $s"
    end = traced("--seeds", 60, "--", "sh", "-c", shell)
    told("words with blanks and quotes", ran("sh", "-c", end.stderr.splitlines()[-1]), 3)
    words = ["-O2", "-mmovdir64b", "-o", client("copy_twice"), "examples/trace/copy_twice.c"]
    told("the example", ran("gcc", *STRICT, *words), 0)
    told("the example without a device", ran(client("copy_twice")), 1, "/dev/dsa/wq0.0: No such file or directory")
    told("many seeds of the example", traced("--seeds", 40, "--", client("copy_twice")), 1, 'c is ""', "the same again")
    end = traced("--seeds", 2, "--no-namespace", "--", client("ordered"), "fenced")
    told("two seeds without a namespace", end, 0, "2 runs, all with status 0")
    end = traced("--seeds", 5, "--", client("ordered"), "fenced")
    told("many seeds of a right program", end, 0, "5 runs, all with status 0")


# ---- what the device does


def operations():
    """Each operation in each order, with threads, a child of fork and a handler of signals beside it."""
    for order, by in itertools.product(("fifo", "members", "data", "all"), BY):
        told(f"all operations in the order {order} {by}", traced("--order", order, *by, "--", client("operations")), 0)
        told(f"threads in the order {order} {by}", traced("--order", order, *by, "--", client("threads")), 0)
    told("operations without a namespace", traced("--no-namespace", "--", client("operations")), 0)
    told("submitting in a handler", traced("--", client("odd"), "handler"), 0, "in a handler: status 0x1,")
    for options, stops in (([], 0), (["--fault", 1], 1)):
        lines = [f"{case}: right, more than one part: {stops}" for case in ("apart", "up", "down")]
        told(f"moves that may stop at pages {options}", traced(*options, "--", client("odd"), "partial"), 0, *lines)
    for by in BY:
        told("a queue that says retry", traced("--retry", 3, *by, "--", client("odd"), "retried"), 0,
             "retries from 20 to 80: 1")
        told("a queue that does not", traced(*by, "--", client("odd"), "retried"), 0, "retries from 20 to 80: 0")


def queues():
    """Queues of a size and a mode, what is written to their files, and what the driver refuses of maps."""
    for how in ([], ["--no-namespace"], ["--order", "fifo"]):
        told(f"writing to a queue's file {how}", traced(*how, "--", client("odd"), "written"), 0,
             "written 64 64, moved 5 5, unreadable -1 1, signals blocked 0")
    told("a full queue", traced("--", client("odd"), "full"), 0, "all kept 0, 16 at least 1, retried 1",
         "wq0.0 is full (16 in flight): MOVDIR64B is lost")
    words = ["--queue", "dedicated,40,a", "--queue", "shared,40,b"]
    told("a larger queue", traced(*words, "--", client("odd"), "full"), 0, "all kept 1, 16 at least 1, retried 0")
    end = traced("--", client("odd"), "maps")
    told("the driver's maps", end, 128 + signal.SIGSEGV, "refused 1 1, two 1", "the second: status 0x1,", "over it 0")
    expect("does not take it" not in end.stderr, f"a portal over another is of another queue: {end.stderr}")
    files = ["/sys/bus/dsa/devices/wq0.0/mode", "/sys/bus/dsa/devices/wq0.0/size", "/sys/bus/dsa/devices/wq0.0/name"]
    told("the files of a queue", traced("--queue", "shared,8,mine", "--", "cat", *files), 0, "shared\n8\nmine\n")
    told("another mode", traced("--queue", "shared,8,mine", "--", client("ordered"), "fenced"), 0,
         "a device does not take it")


def refused():
    """Pages that are missing, lists that can't be read, records at odd places, and descriptors that no device takes."""
    for (case, lines), order, by in itertools.product(REFUSED.items(), ("fifo", "data"), BY):
        told(f"{case} in the order {order} {by}", traced("--order", order, *by, "--", client("odd"), case), 0, *lines)


def died():
    """Programs that fault at the instruction, have children, are replaced, or are killed."""
    told("a descriptor that can't be read", traced("--", client("odd"), "unreadable"), 42, "can't be read",
         "signal 11 at 0x2000")
    told("the same without a handler", traced("--", client("ends"), "unread"), 128 + signal.SIGSEGV, "can't be read")
    for how in (*BY, ["--order", "fifo"], ["--no-namespace"]):
        for case in ("forks", "spawned"):
            told(f"{case} {how}", traced(*how, "--", client("ends"), case), 0, "30 of 30 children end well",
                 "a move afterwards: 1")
    told("a child of fork", traced("--", client("odd"), "child"), 0, "ends by signal 11", "in the parent: status 0x1")
    with tempfile.TemporaryDirectory(dir=WORK) as folder:
        told("a program that is replaced", traced("--out", folder, "--", client("odd"), "replaced"), 0,
             "before: status 0x1")
        sizes = sorted(path.stat().st_size // 64 for path in Path(folder, "seed-1").glob("*.dsa"))
        expect(sizes == [1, 11], f"the two programs of a process are recorded with {sizes} entries")
    told("a program that is killed", traced("--", client("odd"), "killed", 3), 128 + signal.SIGKILL)


def other_cpus():
    """The same on a CPU that has the instructions: they raise a page fault at the portal, or a fault of protection.
    Another program turns the signals of this CPU into those (tests/trace/faults.c)."""
    sources = ["-I", "trace", "tests/trace/faults.c", "trace/decode.c"]
    told("the build of faults", ran("gcc", *STRICT, "-O1", "-o", client("faults"), *sources), 0)
    if ran(client("faults"), "/bin/true").returncode:
        skip("signals as other CPUs raise them: the system permits no ptrace")
        return
    clients = [(["operations"], 0, 39, []), (["threads"], 0, 560, []), (["ordered", "fenced"], 0, 1, []),
               (["ordered", "waited"], 0, 2, []), (["odd", "handler"], 0, 1, ["in a handler: status 0x1,"]),
               (["odd", "pages"], 0, 3, REFUSED["pages"]), (["odd", "record"], 0, 2, REFUSED["record"]),
               (["odd", "unreadable"], 42, 1, ["signal 11 at 0x2000"]),
               (["odd", "child"], 0, 2, ["ends by signal 11", "in the parent: status 0x1"])]
    for (words, status, count, lines), order in itertools.product(clients, ("fifo", "data")):
        for by in BY:
            end = traced("--order", order, *by, "--", client("faults"), client(words[0]), *words[1:])
            counted = [f"{count} signals turned"][: not HAS_MOVDIR64B and by != []]
            told(f"{words} by SIGSEGV in the order {order} {by}", end, status, *lines, *counted)
    for words, line in ((["registers"], "7 of 7 forms right, 7 rewritten"),
                        (["rewritten", "threads", "all4000"], "4000 of 4000 right, 64 rewritten")):
        end = traced("--order", "fifo", "--", client("faults"), client(words[0]), *words[1:])
        told(f"{words} by SIGSEGV", end, 0, line)
    words = [client("faults"), client("ordered"), "fence"]
    statuses = {traced("--seed", seed, "--", *words).returncode for seed in range(1, 31)}
    expect(statuses == {0, 3}, f"a missing fence by SIGSEGV ends with {statuses}")


def rewritten():
    """Stubs in place of instructions: what a submission leaves of all registers; sites that threads, handlers of signals
    and children of fork use while they are rewritten; code that is loaded or made anew; what only a signal can do."""
    words = ["-shared", "-fPIC", "-o", f"{WORK}/loaded.so", "tests/trace/loaded.c"]
    told("the build of loaded", ran("gcc", *STRICT, *words), 0)
    for order, by in itertools.product(("fifo", "data"), BY):
        how, count = ["--order", order, *by, "--"], 100000 if order == "fifo" else 1000
        told(f"registers {how}", traced(*how, client("registers")), 0,
             f"7 of 7 forms right, {0 if by else 7} rewritten")
        cases = rewriting(not by, count, f"{WORK}/loaded.so") | (made_anew(not by) if order == "fifo" else {})
        for name, (words, *lines) in cases.items():
            told(f"{name} {how}", traced(*how, client("rewritten"), *words), 0, *lines)
    for _ in range(10):
        told("many sites again", traced("--order", "fifo", "--", client("rewritten"), "threads", "all8000"), 0,
             "8000 of 8000 right, 64 rewritten")
    parts, lines, _ = recorded(client("rewritten"), "threads", "all2000", options=["--order", "members"])
    starts = [int(line.split()[1]) for line in lines if line[0] == "S"]
    expect(starts == list(range(2000)) and len(b"".join(parts)) == 64 * 2000,
           f"of 2000 submissions {len(starts)} are recorded")


# ---- recordings


def recorded(*words, status=0, options=()):
    """The bytes of the recordings, the events, and the lines of the index."""
    with tempfile.TemporaryDirectory(dir=WORK) as folder:
        end = traced("--out", folder, *options, "--", *words)
        expect(end.returncode == status, f"{words}: status {end.returncode}, not {status}: {end.stderr[-500:]}")
        run = Path(folder, "seed-1")
        parts = sorted(run.glob("*.dsa"), key=lambda path: (len(path.name), path.name))
        lines = [path.read_text() for path in run.glob("*.events")]
        index = (run / "processes.txt").read_text().splitlines()
        return [path.read_bytes() for path in parts], "".join(lines).splitlines(), index


def recordings():
    """What is recorded is what was submitted, with its reserved bits, also of a process that is killed or leaves early. A
    recording of more than 65,536 entries is in parts, each of whole submissions."""
    # word 0 has the reserved bits, word 1 the flags 0x0c of a no-op, and the interrupt handle is its number
    for how, status in (("killed", 128 + signal.SIGKILL), ("left", 0)):
        parts, lines, index = recorded(client("odd"), how, 5000, status=status)
        entries = b"".join(parts)
        heads = {entries[at : at + 8] for at in range(0, len(entries), 64)}
        numbers = [int.from_bytes(entries[at + 36 : at + 38], "little") for at in range(0, len(entries), 64)]
        expect(heads == {(0x2AA << 20).to_bytes(4, "little") + bytes([0x0C, 0, 0, 0])},
               f"{how}: the entries begin with {heads}")
        expect(numbers == list(range(5000)), f"{how}: {len(numbers)} submissions are recorded")
        starts = [line for line in lines if line[0] == "S"]
        ends = [line for line in lines if line[0] == "C"]
        expect(len(starts) == len(ends) == 5000, f"{how}: {len(starts)} submissions and {len(ends)} completions have events")
        expect(len(index) == 1 and index[0].split("\t")[3] == "odd", f"{how}: the index has {index}")
    with tempfile.TemporaryDirectory(dir=WORK) as folder:
        end = traced("--out", folder, "--order", "fifo", "--", client("odd"), "closed", 5000)
        told("a program that closes all files", end, 0, "my file has 32 bytes")
        [size] = [path.stat().st_size for path in Path(folder, "seed-1").glob("*.dsa")]
        expect(size == 64 * 10000, f"of a program that closes all files {size / 64} entries are recorded")
    parts, lines, _ = recorded(client("odd"), "large", 70)
    expect([len(part) // 64 for part in parts] == [65 * 1001, 5 * 1001],
           f"the parts have {[len(it) / 64 for it in parts]} entries")
    places = [(part, at) for part in parts for at in range(0, len(part), 64 * 1001)]
    counts = [int.from_bytes(part[at + 32 : at + 36], "little") for part, at in places]
    expect(counts == [1000] * 70, "a part does not begin with a batch")
    _, _, index = recorded(client("threads"))
    expect(len(index) == 2 and index[0].split("\t")[1] == index[1].split("\t")[2],
           f"the index of a parent and a child: {index}")


def killed_at_any_time():
    """The recording of a program that is killed while its threads submit has whole submissions, each with its event."""
    for wait in (0.2, 0.25, 0.3, 0.35):
        with tempfile.TemporaryDirectory(dir=WORK) as folder:
            quiet = dict.fromkeys(("stdin", "stdout", "stderr"), subprocess.DEVNULL)
            command = [f"{WORK}/gcc/dsa_trace", "--out", folder, "--", client("ends"), "endless"]
            child = subprocess.Popen(command, **quiet)
            run = Path(folder, "seed-1")
            for _ in range(500):
                if list(run.glob("*.events")):
                    break
                time.sleep(0.01)
            time.sleep(wait)
            os.kill(int(Path(f"/proc/{child.pid}/task/{child.pid}/children").read_text()), signal.SIGKILL)
            expect(child.wait(30) == 128 + signal.SIGKILL, f"a program that is killed ends with {child.returncode}")
            [recording], [lines] = run.glob("*.dsa"), run.glob("*.events")
            entries = recording.stat().st_size // 64
            starts = [line.split() for line in lines.read_text().splitlines() if line[0] == "S"]
            expect(len(starts) == entries > 0, f"{entries} entries have {len(starts)} events")
            expect([int(words[1]) for words in starts] == list(range(entries)), "the events have other numbers")


def full_disk():
    """On a full disk the program goes on, and one sentence says that its recording ends."""
    if os.getuid() != 0 or ran("unshare", "-m", "true").returncode:
        skip("a full disk, which needs the right to mount one")
        return
    command = f"mount -t tmpfs -o size=400k none {WORK}/small && exec {WORK}/gcc/dsa_trace --out {WORK}/small"
    command += f" -- {client('odd')} large 20"
    Path(WORK, "small").mkdir()
    end = ran("unshare", "-m", "sh", "-c", command)
    told("a full disk", end, 0, "No space left on device", "not recorded")
    expect(end.stdout.count("batch: status 0x1") == 20, f"on a full disk the program prints {end.stdout}")
    expect(end.stderr.count("not recorded") == 1, f"on a full disk it is said again: {end.stderr}")


def audits():
    """--audit names the missing fence or wait, with status 1, and nothing else of a right program."""
    if not has_text():
        return
    end = audited("--", client("ordered"), "fence")
    told("a missing fence", end, 1, "entry 2 (submission 0, member 1): error: missing fence, read after write: reads what",
         "(8192 bytes)\n  entry 2, byte 128: move 0x", "0 missing waits, 1 submission\n")
    end = audited("--", client("ordered"), "wait")
    wanted = "error: missing wait, read after write: reads what entry 0 (submission 0) writes, in flight, at 0x"
    told("a missing wait", end, 1, f"entry 1 (submission 1): {wanted}", "(8192 bytes)\n  entry 1, byte 64: move 0x",
         "1 missing wait, 2 submissions\n")
    expect(end.stdout.count("error: ") == 1, f"of one missing wait is said {end.stdout}")
    end = audited("--order", "data", "--", client("ordered"), "early")
    words = "the audits find no errors; if the program does not fail with --order fifo"
    told("a program that reads early", end, 3, f"{words}, it uses memory itself before a record says",
         "or a member publishes what others write, and needs a fence (in a list a barrier) before it")
    for mode in ("fenced", "waited", "member", "drain", "polled", "after"):
        for order in ("data", "all"):
            told(f"{mode} in the order {order}", audited("--order", order, "--", client("ordered"), mode), 0,
                 " 0 missing", "0 missing waits")
    told("threads", audited("--", client("threads")), 0)
    told("a sleep after a move without a record", audited("--", client("ordered"), "blind"), 1, "error: missing wait")
    end = audited("--", client("odd"), "members")
    told("a batch and another PASID in a batch", end, 1, "the batch: status 0x5,", "the member: status 0x10\n",
         "entry 2 (submission 0, member 1): warning: nested batch: the device refuses a batch in a batch",
         "entry 3 (submission 0, member 2): warning: another owner: it has another PASID or privilege than its batch",
         "entry 4 (submission 0, member 3): error: missing fence, read after write: reads what member 0 writes",
         "4 descriptors in 1 batch and 0 lone submissions, 0 not looked at\n")
    audited_runs()


def found_text():
    """Where dsa_text is found, and what its failures come to."""
    told("an audit that fails", audited("--", client("ordered"), "waited", env={"DSA_TEXT": "/bin/false"}), 1)
    for dies, said in (
        ("exit 2", "does not audit with these options\n"),
        ("kill -9 $$", "does not run here: it ends with status 137, before the program is begun\n"),
    ):
        Path(WORK, "dies").write_text(f"#!/bin/sh\n{dies}\n")
        Path(WORK, "dies").chmod(0o755)
        end = audited("--seeds", 3, "--", client("ordered"), "waited", env={"DSA_TEXT": f"{WORK}/dies"})
        told(f"dsa_text that ends by {dies}", end, 125, f"{WORK}/dies {said}")
        expect(end.stderr.count("dies does not") == 1, f"after an audit that fails there are others: {end.stderr}")
    end = audited("--seeds", 3, "--", client("ordered"), "waited", env={"DSA_TEXT": "/bin/false"})
    told("audits of several runs that fail", end, 1, "3 of 3")
    told("no such program", audited("--", "/bin/true", env={"DSA_TEXT": "/nowhere"}), 125, "DSA_TEXT names /nowhere")
    told("--audit without dsa_text", audited("--", "/bin/true", env={"PATH": "/nowhere"}), 125,
         "needs the program dsa_text")
    shutil.copytree(f"{WORK}/gcc", f"{WORK}/clone/trace/out")
    built_text = Path(WORK, "clone/crates/dsa_text/out/dsa_text")
    built_text.parent.mkdir(parents=True)
    built_text.symlink_to("/bin/false")
    words = [f"{WORK}/clone/trace/out/dsa_trace", "--audit", "--", client("ordered"), "waited"]
    told("--audit in a clone where dsa_text is built", ran(*words, env={"PATH": "/nowhere"}), 1)


def audited_runs():
    """Of several runs each is audited: here the program lacks a wait in the second of three, and ends well in all."""
    for lacking, how, status, words in (
            (2, [], 1, ["the audits of 1 of 3 runs find errors; to repeat seed 2:", "dsa_trace --seed 2 --audit -- sh",
                        "(submission 1): error: missing wait"]),
            (9, [], 0, ["the audits of 3 runs find no errors; that of seed 3:"]),
            (9, ["--seed", 2, "--no-watch"], 0, ["the audits of 3 runs find no errors; that of seed 3:"]),
            (2, ["--out", f"{WORK}/audited"], 1, ["find errors"])):
        program = f"[ $DSA_TRACE_SEED = {lacking} ] && exec {client('ordered')} blind; exec {client('ordered')} waited"
        end = audited("--seeds", 3, *how, "--", "sh", "-c", program)
        told(f"audits of three runs, of which {lacking} lacks a wait", end, status, "3 runs, all with status 0", *words)
        expect(end.stdout.count("error: missing wait") == status, f"of three runs is said {end.stdout}")
    for mode in ("wait", "fence"):
        end = audited("--seeds", 60, "--", client("ordered"), mode)
        told("runs up to the first that fails", end, 1, "the same again", "runs find errors; the first is seed",
             f"error: missing {mode}")
        expect(end.stderr.count("dsa_trace --seed") == 1, f"it is said twice how to repeat a run: {end.stderr}")


# ---- the launcher


def statuses():
    """The statuses of programs, and those of env for what can't be run, with sentences."""
    told("the program's status", traced("--", client("odd"), "status", 7), 7)
    told("a program that is not there", traced("--", "/nowhere/at_all"), 127, "/nowhere/at_all")
    for case, (command, status, *lines) in launched(WORK, TEXT if has_text() else "").items():
        told(case, ran("sh", "-c", command), status, *lines)
    told("a name that is not found", traced("--", "no_such_program_at_all"), 127, "is not found")
    told("a folder", traced("--", "/tmp"), 126, "/tmp")
    Path(WORK, "plain").write_text("no program")
    told("a file that may not be run", traced("--", f"{WORK}/plain"), 126, "may not be run")
    Path(WORK, "empty.c").write_text("int main(void) { return 0; }\n")
    if ran("gcc", "-static", "-o", f"{WORK}/static", f"{WORK}/empty.c").returncode == 0:
        told("a static program", traced("--", f"{WORK}/static"), 126, "is a static program")
        Path(WORK, "script").write_text(f"#!{WORK}/static\n")
        Path(WORK, "script").chmod(0o755)
        told("a script of one", traced("--", f"{WORK}/script"), 126, "is a static program")
    else:
        skip("static programs, which gcc does not build here")
    if os.getuid() == 0:
        shutil.copy("/bin/true", f"{WORK}/set_uid")
        os.chown(f"{WORK}/set_uid", 65534, 65534)
        os.chmod(f"{WORK}/set_uid", 0o4755)
        told("a set-uid program", traced("--", f"{WORK}/set_uid"), 126, "runs with other rights")
    else:
        skip("set-uid programs, which need root to make")


def options():
    """Help, wrong options, and the page and the completion, which name each option."""
    end = traced("--help")
    told("--help", end, 0, "Usage: dsa_trace [OPTIONS] [--] PROGRAM", "Examples:")
    for words, why in ((["--nonsense"], "no such option"), ([], "the program to run is missing"),
                       (["--seed"], "a value comes"), (["--seed", "x"], "whole number"), (["--seeds", "0"], "at least"),
                       (["--audit=no"], "--audit: this option takes no value"),
                       (["--deny", "stale", "--deny=unseen"], "--deny: this option is given twice"),
                       (["--order", "x"], "fifo, members, data or all"), (["--queue", "shared,0,x"], "from 1 to 128")):
        told(f"the options {words}", traced(*words, *(["--", "true"] if words else [])), 125, why)
    told("a value after =", traced("--seed=7", "--order=all", "true"), 0)
    bare = traced()
    wanted = "dsa_trace: the program to run is missing (see dsa_trace --help)\n"
    expect(bare.stderr == wanted, f"without a program is said {bare.stderr}")
    names = re.findall(r"^ +(?:-[hV], )?(--[a-z-]+)", end.stdout, re.M)
    expect(len(names) == 34, f"--help names {names}")
    page = Path("bindings/package/dsa_trace.1").read_text().replace("\\-", "-")
    completion = Path("bindings/package/dsa_trace.bash").read_text()
    missing = [name for name in names if name not in page or name not in completion]
    expect(not missing, f"the manual page or the completion does not name {missing}")
    if shutil.which("man"):
        end = ran("man", "--warnings", "-l", "bindings/package/dsa_trace.1",
                  env=os.environ | {"MANWIDTH": "120", "LC_ALL": "C.UTF-8"})
        expect(end.returncode == 0 and not end.stderr, f"man dsa_trace.1: {end.stderr[:500]}")


def files():
    """What is written to the driver's files changes the states, by a shell's own output too. Other files are as before."""
    wanted = "disabled disabled enabled disabled enabled"
    other = "ls /sys/bus/pci/devices /sys/bus /dev /sys/module | grep -v -e dsa -e idxd | md5sum"
    for how in (["--"], ["--no-namespace", "--"]):
        end = traced(*how, "bash", "-c", SYSFS)
        expect(" ".join(end.stdout.split()[:5]) == wanted, f"the states with {how}: {end.stdout} {end.stderr}")
        right = "/dev/dsa/wq0.1\n/sys/module/idxd\n0\n"
        expect(end.stdout.endswith(right), f"the device's files with {how}: {end.stdout} {end.stderr}")
        seen = traced(*how, "sh", "-c", other).stdout
        expect(seen == ran("sh", "-c", other).stdout, f"with {how} the program sees other files than we")
    if shutil.which("setpriv") and os.getuid() == 0:
        bare = ["setpriv", "--bounding-set=-all", "--inh-caps=-all"]
        end = ran(*bare, f"{WORK}/gcc/dsa_trace", "--", client("operations"))
        told("no right to a namespace", end, 0, "no namespace of mounts")
        end = ran("unshare", "-m", "sh", "-c", f"umount -l /proc && exec {WORK}/gcc/dsa_trace true")
        told("no /proc", end, 125, "dsa_trace: /proc, by which")
        alone = ["setpriv", "--reuid=65534", "--regid=65534", "--clear-groups"]
        os.chmod(WORK, 0o755)
        told("another user than root", ran(*alone, f"{WORK}/gcc/dsa_trace", "--", client("operations")), 0)
    else:
        skip("users without rights, which need setpriv and root")


def killed():
    """Killed, it leaves nothing mounted, no file of its device, and no program."""
    def mounts():
        return Path("/proc/self/mountinfo").read_text().count("dsa_trace")

    before, devices = mounts(), set(os.listdir("/dev"))
    with tempfile.TemporaryDirectory(dir=WORK) as folder:
        quiet = dict.fromkeys(("stdin", "stdout", "stderr"), subprocess.DEVNULL)
        how = quiet | {"env": os.environ | {"TMPDIR": folder}}
        child = subprocess.Popen([f"{WORK}/gcc/dsa_trace", "--", client("odd"), "hang"], **how)
        program = None
        for _ in range(200):
            time.sleep(0.02)
            found = Path(f"/proc/{child.pid}/task/{child.pid}/children").read_text().split()
            if found and Path(f"/proc/{found[0]}/comm").read_text() == "odd\n":
                program = found[0]
                break
        expect(program and mounts() == before, "the program's mounts are seen outside, or it does not start")
        child.kill()
        child.wait()
        for _ in range(200):
            if not program or not Path(f"/proc/{program}").exists():
                break
            time.sleep(0.02)
        survives = program and Path(f"/proc/{program}").exists()
        expect(not survives, "the program outlives dsa_trace")
        if survives:
            os.kill(int(program), signal.SIGKILL)
    expect(mounts() == before and set(os.listdir("/dev")) == devices, "something is left in /dev, or mounted")
    expect(not Path("/sys/bus/dsa").exists() or Path("/sys/bus/dsa/devices/dsa0/cdev_major").exists(),
           "the device's files are left")
    with tempfile.TemporaryDirectory(dir=WORK) as folder:
        look = 'find "$TMPDIR" ! -type d ! -type f ! -type l; find "$TMPDIR" -name null'
        end = traced("--", "sh", "-c", look, env=os.environ | {"TMPDIR": folder})
        expect((end.returncode, end.stdout) == (0, ""), f"devices are in the folder of a run: {end.stdout[:300]}")
    with tempfile.TemporaryDirectory(dir=WORK) as folder:
        traced("--", client("operations"), env=os.environ | {"TMPDIR": folder})
        told("no folder for recordings", traced("--out", "/proc/x", "true", env=os.environ | {"TMPDIR": folder}), 125,
             "/proc/x")
        expect(not os.listdir(folder), f"a run leaves {os.listdir(folder)}")


# ---- the decoder, beside the assembler


def assembled(lines):
    """The bytes of instructions, each at a multiple of 16, and the length of each."""
    text = "".join(f".p2align 4,0x90\n1: {line}\n2: .pushsection .data\n.byte 2b-1b\n.popsection\n" for line in lines)
    Path(WORK, "forms.s").write_text(text + ".p2align 4,0x90\n")
    told("the assembler", ran("as", "-o", f"{WORK}/forms.o", f"{WORK}/forms.s"), 0)
    for part in ("text", "data"):
        ran("objcopy", "-O", "binary", "-j", f".{part}", f"{WORK}/forms.o", f"{WORK}/forms.{part}")
    return Path(WORK, "forms.data").read_bytes()


def decoded(lines):
    """What the decoder says of each instruction, with the lengths that the assembler gives."""
    lengths = assembled(lines)
    end = ran(f"{WORK}/decode", f"{WORK}/forms.text", hex(PLACE))
    return lengths, end.stdout.splitlines()


def decoder():
    """Each form of address with each register, of both instructions, as the assembler writes it; the others; and bytes that
    are none of them."""
    sources = ["tests/trace/decode.c", "trace/decode.c"]
    told("the build of the decoder", ran("gcc", *STRICT, "-I", "trace", "-o", f"{WORK}/decode", *sources), 0)
    if not shutil.which("as") or not shutil.which("objcopy"):
        skip("the decoder beside the assembler, which is not there")
        return
    lines, wanted = instructions()
    lengths, got = decoded(lines)
    faults = wrong_forms(lines, wanted, lengths, got)
    fault = f"{len(got)} of {len(lines)} forms decoded, {len(faults)} wrong: {faults[:3]}"
    expect(len(got) == len(lines) > 10000 and not faults, fault)
    lengths, got = decoded(OTHERS)
    for (line, right), found in itertools.zip_longest(OTHERS.items(), got, fillvalue=("no line", "")):
        expect(found == right, f"{line} is decoded as {found}, not {right}")


# ---- speed, and large clients


def cost():
    """What a submission takes, by stubs and by signals: printed, and judged loosely, since other work may run."""
    told("the build of cost", ran("gcc", *STRICT, "-O2", "-o", client("cost"), "tests/trace/cost.c"), 0)
    for words in (["--order", "fifo"], [], ["--out", f"{WORK}/costs"]):
        took = []
        for by in BY:
            end = traced(*words, *by, "--", client("cost"))
            told("cost", end, 0)
            print(f"dsa_trace {' '.join([*words, *by])}: {end.stdout.strip()}")
            took += re.findall(r"and ([\d.]+) us to the portal", end.stdout)
        is_less = len(took) == 2 and float(took[0]) < float(took[1]) / 2
        expect(is_less or words != ["--order", "fifo"], f"by stubs and by signals a submission takes {took} us")
    start = time.monotonic()
    for _ in range(10):
        traced("--", "/bin/true")
    print(f"a start takes {(time.monotonic() - start) * 100:.0f} ms")


def prices():
    """dsa_prices says that there is no device; under dsa_trace it measures the one in software, and says so."""
    tool = f"{WORK}/gcc/dsa_prices"
    if not Path("/dev/dsa").exists():
        told("prices without a device", ran(tool), 1, "/dev/dsa/wq0.0: there is no such queue")
    told("a wrong option", ran(tool, "--nonsense"), 2, "no such option")
    told("a wrong size", ran(tool, "--greatest-batch", 1), 2, "a number from 2 to 1024")
    for queue, greatest in (("wq0.0", 2), ("wq0.0", 23), ("wq0.1", 8)):
        words = ["--order", "fifo", "--", tool, "--times", 30, "--greatest-batch", greatest, f"/dev/dsa/{queue}"]
        end = traced(*words)
        told(f"the prices of {queue}", end, 0, "prices of the emulation")
        expect("does not take it" not in end.stderr, f"the prices of {queue} are measured with the wrong instruction")
        found = json.loads(end.stdout or "{}")
        names = {"version", "greatest_batch", "greatest_transfer", "lone", "batch", "fence", "staging"}
        right = set(found) == names and found["version"] == 2 and len(found["batch"]) == greatest - 1 and found["lone"] > 0
        expect(right and found["greatest_transfer"] == 2**31, f"the settings of {queue} are {found}")
        program = ROOT / "crates/dsa/out/dsa"
        if program.exists():
            job = {"do": "plan", "list": "", "settings": found}
            told("a plan with these prices", ran(program, input=json.dumps(job), stdin=None), 0, '"cost":0')
        end = traced(*words, "--options")
        right = rf"--greatest-batch {greatest} --greatest-transfer {2**31} --lone \d+ --fence \d+ --batches "
        right += rf"\d+(,\d+){{{greatest - 2}}}\n"
        expect(re.fullmatch(right, end.stdout), f"the options of {queue} are {end.stdout}")


def example(source, *more):
    """Whether an example in C is built with the proved library and these sources, as the client of its name; it is
    skipped without the library."""
    archive = ROOT / "crates/dsa_c/out/libdsa_c.a"
    if not archive.exists():
        skip(f"{source}: crates/dsa_c is not built")
        return False
    flags = [*STRICT, "-O2", "-pthread", "-I", "bindings/c", "-I", "bindings/queue", "-I", "trace"]
    sources = [source, *more, "bindings/c/memory.c", archive]
    told(f"the build of {source}", ran("gcc", *flags, *sources, "-o", client(Path(source).stem)), 0)
    return True


def submit():
    """The example bindings/c/submit.c plans with the proved library, and submits to the device."""
    for (queue, kind), seed in itertools.product(QUEUES if example("bindings/c/submit.c") else (), range(1, 21)):
        end = traced("--seed", seed, "--", client("submit"), f"/dev/dsa/{queue}", kind)
        told(f"submit to {queue}", end, 0, "copied")


def in_flight():
    """The example queue_threads.c: each seed leaves what its requests leave in order, and no wait is missing; if the
    tracker is told nothing, some seeds don't, and each audit finds a missing wait."""
    source, other = "examples/queue/queue_threads.c", f"{WORK}/without_waits.c"
    shutil.copy(source, other)
    told_nothing = ["tests/trace/told_nothing.c", "-Ddsa_track_list=told_nothing"]
    is_built = example(source, *make.QUEUE_OF) and example(other, *make.QUEUE_OF, *told_nothing)
    if not is_built or not has_text():
        return
    wrong = 0
    for (queue, _), seed in itertools.product(QUEUES, range(1, 11)):
        end = audited("--seed", seed, "--", client("queue_threads"), f"/dev/dsa/{queue}")
        told(f"requests in flight to {queue}", end, 0, "400 requests, as in order")
        end = audited("--seed", seed, "--delay", 100, "--", client("without_waits"), f"/dev/dsa/{queue}")
        wrong += "400 requests, DIFFERENT" in end.stdout
        expect("error: missing wait" in end.stdout, f"seed {seed}: no missing wait is found: {end.stdout[-500:]}")
    expect(wrong > 5, f"without waits {wrong} of 20 runs leave something else")


def sanitized():
    """valgrind and AddressSanitizer name what the device writes to memory that is freed."""
    if not shutil.which("valgrind"):
        skip("there is no valgrind")
        return
    told("the build of freed", ran("gcc", *STRICT, "-g", "-o", client("freed"), "tests/trace/freed.c"), 0)
    for order in ("fifo", "data"):
        end = traced("--order", order, "--", "valgrind", "-q", "--error-exitcode=9", client("freed"))
        told(f"freed memory under valgrind in the order {order}", end, 9, "Invalid write", "free'd")
    told("rewritten sites under valgrind", traced("--order", "fifo", "--", "valgrind", "-q", "--error-exitcode=9",
                                                  client("rewritten"), "threads", "all800"), 0, "800 of 800 right")
    words = ["-g", "-fsanitize=address", "-o", client("freed_asan"), "tests/trace/freed.c"]
    if ran("gcc", *STRICT, *words).returncode:
        skip("AddressSanitizer, which gcc does not have here")
        return
    library = ran("gcc", "-print-file-name=libasan.so").stdout.strip()
    end = traced("--", client("freed_asan"), env=os.environ | {"LD_PRELOAD": library})
    told("freed memory with AddressSanitizer", end, 1, "heap-use-after-free", "WRITE of size 64")


def undefined():
    """The library with the sanitizer of undefined behaviour, and the launcher with that of addresses too, find nothing."""
    if not has_text():
        return
    folder = f"{WORK}/undefined"
    flags = ["-O1 -g -Wno-error -fsanitize=undefined -static-libubsan",
             "-O1 -g -Wno-error -fsanitize=address,undefined"]
    for target, words in (("libdsa_trace.so", flags[0]), ("dsa_trace", flags[1])):
        end = ran("make", "-C", ROOT / "trace", "CC=gcc", f"OUT={folder}", f"CFLAGS={words}", f"{folder}/{target}")
        if end.returncode:
            skip(f"sanitizers, with which gcc does not build here: {end.stderr[-300:]}")
            return
    runs = [["operations"], ["threads"], ["odd", "large", "70"], ["odd", "killed", "50"], ["ordered", "wait"],
            ["ordered", "after"], ["registers"], ["rewritten", "threads", "all800"], ["rewritten", "unreadable"]]
    for words in [*runs, *(["odd", case] for case in [*REFUSED, "child", "unreadable", "written", "full", "maps"])]:
        for how in ([], ["--order", "fifo"], ["--watch", "5", "--fault", "2", "--no-namespace"]):
            end = ran(f"{folder}/dsa_trace", "--audit", *how, "--", client(words[0]), *words[1:], env=KNOWN)
            said = [line for line in end.stderr.splitlines() if "runtime error" in line or "Sanitizer" in line]
            expect(not said, f"{words} {how}: {said[:3]}")


def runner():
    """Intel's script, which configures the device by accel-config and runs dsa_test some hundred times: sizes and
    operations, alone and in batches, on both queues. Loading the module is left out: the device is there, and off."""
    script = Path("/usr/libexec/accel-config/test/dsa_user_test_runner.sh")
    if not script.exists() or not shutil.which("accel-config"):
        skip("dsa_user_test_runner.sh: there is no package accel-config or accel-config-test")
        return
    if not has_text():
        return
    stubs = Path(WORK, "stubs")
    stubs.mkdir()
    for name, does in (("modprobe", "accel-config disable-device dsa0 > /dev/null 2>&1"), ("rmmod", ":"), ("lsmod", ":")):
        (stubs / name).write_text(f"#!/bin/sh\n{does}\nexit 0\n")
        (stubs / name).chmod(0o755)
    known = KNOWN | {"PATH": f"{stubs}:{os.environ['PATH']}"}
    end = audited("--out", f"{WORK}/runner", "--", script, env=known, timeout=600)
    told("dsa_user_test_runner.sh", end, 0)
    expect("error: missing wait" not in end.stdout, f"dsa_test lacks a wait: {end.stdout[-500:]}")
    index = Path(WORK, "runner/seed-1/processes.txt").read_text().splitlines()
    expect(len(index) >= 400, f"the script ran {len(index)} programs that submit")


def large():
    """The programs of Intel and of DPDK that test the device and its drivers, where their packages are."""
    runner()
    if not shutil.which("dpdk-test"):
        skip("dmadev_autotest: there is no package dpdk-dev")
        return
    words = ["dpdk-test", "--no-huge", "-m", "512", "--no-pci", "-l", "0", "dmadev_autotest"]
    told("dmadev_autotest", traced("--", *words), 0, "Test OK")


PARTS = [built, decoder, ordered, orders, repeated, seeds, operations, queues, refused, died, other_cpus, rewritten]
PARTS += [recordings, killed_at_any_time, full_disk, audits, found_text, statuses]
PARTS += [options, files, killed, prices, submit, in_flight, sanitized, undefined, cost, large]


def main(words):
    parts = named(PARTS, words)
    for part in parts if built_all(CLIENTS) else []:
        part()


if __name__ == "__main__":
    run_test(main)
