#!/usr/bin/env python3
"""The merge gate, from nothing: each crate proved, each must-fail edit refused, each test and script run. See docs/TESTING.md.

    gate.py [--seed N]              all of it
    gate.py --kept [NAME ..]        the same over what earlier checks proved: of these crates and scripts alone
    gate.py --kept --proofs NAME .. only the proofs of these crates and of those below them
    gate.py --kept --alone [NAME ..] the proofs, and each edit (of these crates) in a check of its own

The edits of a crate are tried if tests/gate/tried does not have the crate as it is now (record.py). Of those of all
other crates a tenth is tried, drawn with the seed, and with --kept none; with --alone all are.

Tasks run side by side, one a processor. Each is a process of its own, so its processor time is known; what it printed
is in the log folder. The last lines have the table of parts, each failure with its reason, and `N passed, N failed`."""
import argparse
import importlib.machinery
import importlib.util
import os
import random
import re
import shutil
import signal
import subprocess
import sys
import tempfile
import threading
import time
from concurrent.futures import FIRST_COMPLETED, ThreadPoolExecutor, wait

import record
import toolchain

HERE = os.path.dirname(os.path.realpath(__file__))
ROOT = toolchain.ROOT
# The most jobs of one proof. Each job reads the libraries below anew: two take a quarter to a third more of the
# processors than one, and four up to four fifths. So a proof gets several only where processors are idle.
MOST_JOBS = 4
# A task whose way to the end is at least this part of the longest one counts as on it.
NEAR_LONGEST = 0.9
# The seconds after which a task is ended.
LIMIT = 7200
# The seconds that it takes to read all libraries, compile and link a program or an archive.
LINKING = 100
# The seconds that an edit takes: with others in one check, and in a check of its own.
EDIT, EDIT_ALONE = 6, 35
# Proofs that take several times what their lines tell, by measurement: their bodies call much of clap and of JSON's crates.
TIMES_LONGER = {"dsa_text": 2.4, "dsa_report": 1.6}
COUNTS = re.compile(r"^(?:[\w./-]+: )?(\d+) passed[,;] (\d+) failed", re.M)
KINDS = ("proofs", "edits", "tests", "scripts")
# Of so many edits of crates that are as they were tried, one is tried again.
ONE_IN = 10
# What a proof over kept work takes, as a part of one from nothing.
OVER_KEPT = 1 / 3
# Of how many crates edits that change nothing are tried beside the others, at the least.
FEWEST_CONTROLS = 5
# The GB of disk that a gate from nothing needs: it leaves 14, and its edits take some meanwhile.
DISK = 20


class Task:
    """One command; its weight is about the seconds that it takes."""

    def __init__(self, kind, name, command, weight, waits=(), folder=ROOT):
        self.kind, self.name, self.command, self.weight = kind, name, command, weight
        self.waits, self.folder = [*waits], folder
        # the seconds of the longest way from it to the end, its own too
        self.waiting, self.jobs, self.can_wait = weight, 1, False
        self.passed, self.failed, self.processor, self.clock, self.said = 0, 0, 0.0, 0.0, ""
        # of a task that tries all edits of a crate: what to note if none fails
        self.digest = None

    def label(self):
        return f"{self.kind[:-1]} of {self.name}" if self.kind in ("proofs", "edits") else f"{self.kind[:-1]} {self.name}"

    def run(self, log):
        """Runs the command to its end; a command that cannot be started fails with the reason."""
        # What the end does not wait for takes the processors that the longest way leaves.
        command = [*["nice"] * self.can_wait, *self.command, *([str(self.jobs)] if self.kind == "proofs" else [])]
        start = time.monotonic()
        try:
            # Each task leads a process group, so that all it started can be ended.
            how = {"cwd": self.folder, "stdin": subprocess.DEVNULL, "stderr": subprocess.STDOUT, "process_group": 0}
            with open(log, "w+", encoding="utf-8", errors="replace") as out:
                child = subprocess.Popen(command, stdout=out, **how)
                RUNNING.add(child.pid)
                clock = threading.Timer(LIMIT, end, [child.pid])
                clock.start()
                _, status, usage = os.wait4(child.pid, 0)
                clock.cancel()
                child.returncode = os.waitstatus_to_exitcode(status)
                RUNNING.discard(child.pid)
                out.seek(0)
                self.said = out.read()
            self.processor = usage.ru_utime + usage.ru_stime
        except OSError as error:
            self.said, status = f"{command[0]}: {error.strerror}", 1
        self.clock = time.monotonic() - start
        if self.clock >= LIMIT:
            self.said += f"\nFAILED: ended after {LIMIT} seconds\n"
        self.count(status == 0)

    def count(self, is_well):
        """Takes over the numbers that the command printed; a command without counts is one test. No test is a failure."""
        found = COUNTS.findall(self.said)
        self.passed, self.failed = map(int, found[-1]) if found else (int(is_well), int(not is_well))
        if not self.failed and not (is_well and self.passed):
            self.failed = 1


RUNNING = set()


def end(pid):
    """Ends a task, and all that it started."""
    try:
        os.killpg(pid, signal.SIGKILL)
    except OSError:
        pass


def stop_all(number, _frame):
    for pid in list(RUNNING):
        end(pid)
    os._exit(128 + number)


def add_up_what_waits(tasks):
    """Notes for each task how much work waits for it, on the longest way to the end."""
    for task in reversed(tasks):
        for below in task.waits:
            below.waiting = max(below.waiting, below.weight + task.waiting)


def jobs_of(task, others, idle):
    """Returns how many jobs a task gets: of a proof the processors that no other proof and no edits wait for."""
    return max(1, min(MOST_JOBS, idle - others)) if task.kind == "proofs" else 1


def skip(left, done):
    """Takes the tasks out that wait for one that failed."""
    for task in [it for it in left if any(below in done and below.failed for below in it.waits)]:
        left.remove(task)
        done.add(task)
        broken = next(it for it in task.waits if it in done and it.failed)
        task.failed, task.said = 1, f"not run, since the {broken.label()} failed"


def start_ready(left, running, done, lanes, start):
    """Starts tasks while a processor is idle, first those for which the most work waits."""
    ready = [it for it in left if all(below in done for below in it.waits)]
    for at, task in enumerate(ready):
        idle = lanes - len(running)
        if idle <= 0:
            break
        most_waiting = max(it.waiting for it in [*left, *running.values()])
        is_longest = task.waiting >= NEAR_LONGEST * most_waiting
        others = sum(it.kind in ("proofs", "edits") for it in ready[at + 1 :])
        task.jobs, task.can_wait = jobs_of(task, others, idle), not is_longest
        left.remove(task)
        running[start(task)] = task


def seconds_of(tasks, lanes):
    """Returns about how long tasks take: as their longest way, or as all of them in these lanes."""
    return max([0, *(it.waiting for it in tasks)] + [sum(it.weight for it in tasks) / lanes])


class Forecast:
    """How long the rest of some tasks takes, by how long the first of them took."""

    def __init__(self, tasks, lanes):
        self.tasks, self.lanes, self.start = tasks, lanes, time.monotonic()
        self.all = seconds_of(tasks, lanes)

    def minutes(self, done):
        rest = seconds_of([it for it in self.tasks if it not in done], self.lanes)
        spent = self.all - rest
        # on idle processors, where proofs get several jobs, the first proofs took half of their weight
        pace = (time.monotonic() - self.start) / spent if spent > self.all / 20 else 0.5
        return round(rest * pace / 60)


def in_lanes(tasks, logs, lanes, note):
    """Runs the tasks, each when those that it waits for have passed, and notes each that passed."""
    add_up_what_waits(tasks)
    left, running, done, printing = sorted(tasks, key=lambda it: -it.waiting), {}, set(), threading.Lock()
    forecast = Forecast(tasks, lanes)
    print(f"about {forecast.minutes(set())} minutes", flush=True)

    def work(task):
        task.run(f"{logs}/{task.kind}-{task.name}.log")
        with printing:
            note(task)
            how = "ok" if not task.failed else "FAILED"
            took = f"{task.clock:.0f} s, processors {task.processor:.0f} s, jobs {task.jobs}"
            rest = f"{forecast.minutes({*done, task})} minutes left"
            print(f"{time.strftime('%H:%M:%S')} {task.label()}: {how}, {took}; {rest}", flush=True)

    with ThreadPoolExecutor(lanes) as pool:
        while left or running:
            skip(left, done)
            start_ready(left, running, done, lanes, lambda task: pool.submit(work, task))
            if running:
                for future in wait(running, return_when=FIRST_COMPLETED).done:
                    done.add(running.pop(future))
                    future.result()


def python(script, *words):
    return [sys.executable, "-B", f"{HERE}/{script}", *words]


def proofs_of(crates):
    """Returns a task for the proof of each crate, by name, lowest first."""
    tasks = {}
    for name, crate in crates.items():
        waits = [tasks[it.name] for it in crate.below()]
        # Tests run unproved, so a crate of tests alone has little to prove.
        lines = 0 if crate.has_tests() else crate.count(rb"\n")
        weight = 15 + 5 * len(crate.below()) + lines / 8 + (0 if crate.makes_rlib() else LINKING)
        weight *= TIMES_LONGER.get(name, 1)
        tasks[name] = Task("proofs", name, python("prove.py", name), weight, waits)
    return tasks


def needs_of_scripts():
    """Returns the names of the tests that tests/run knows, each with the crates that it needs built."""
    loader = importlib.machinery.SourceFileLoader("tests_run", f"{ROOT}/tests/run")
    module = importlib.util.module_from_spec(importlib.util.spec_from_loader("tests_run", loader))
    loader.exec_module(module)
    return {name: module.needs(name) for name in module.NAMES}


class Edits:
    """Which edits are tried: all of a crate that is not as the record has it, and of the others a part."""

    def __init__(self, crates, given):
        self.names = {crate: names_of_edits(crate) for crate in crates if names_of_edits(crate)}
        self.digests = {crate: record.digest_of(crate) for crate in self.names}
        noted, kit = record.lines(), record.kit()
        is_tried = {crate: noted.get((crate.name, kit)) == digest for crate, digest in self.digests.items()}
        self.whole = [crate for crate in self.names if given.alone or not is_tried[crate]]
        rest = [crate for crate in self.names if crate not in self.whole]
        self.seed = random.SystemRandom().randrange(10**6) if given.seed is None else given.seed
        self.drawn = {} if given.kept and given.seed is None else drawn(self.names, rest, self.seed)

    def words(self, crate):
        """Returns the names of the edits of a crate that are tried, none for all, or None if it has none to try."""
        return [] if crate in self.whole else self.drawn.get(crate)

    def said(self):
        """Returns the line that says how many edits are tried."""
        tried = sum(len(self.names[it]) for it in self.whole) + sum(map(len, self.drawn.values()))
        resting = sum(map(len, self.names.values())) - tried
        seed = f", --seed {self.seed} draws the same" if self.drawn else ""
        return f"edits: {tried} tried, {resting} rest on tests/gate/tried{seed}"


def names_of_edits(crate):
    good, controls, bad = record.files_of_edits(crate)
    return [os.path.basename(it).removesuffix(".edit") for it in [*good, *controls, *bad]]


def drawn(names, crates, seed):
    """Returns by crate the names of a part of the edits of these crates, drawn with the seed."""
    every = [(at, name) for at, crate in enumerate(crates) for name in names[crate]]
    found = {}
    for at, name in sorted(random.Random(seed).sample(every, -(-len(every) // ONE_IN))):
        found.setdefault(crates[at], []).append(name)
    return found


def tasks_of_edits(edits, proofs, given):
    """Returns the tasks that try the edits of crates."""
    found = []
    for crate, names in edits.names.items():
        words = edits.words(crate)
        if words is None:
            continue
        command = python("edits.py", *["--alone", "--kept"] * given.alone, crate.name, *words)
        count = len(words) or len(names)
        weight = 30 + count * (EDIT_ALONE if given.alone else EDIT)
        task = Task("edits", crate.name, command, weight, [proofs[crate.name]])
        task.digest = None if words else edits.digests[crate]
        found.append(task)
    return found


def tasks_of_tests(crates, proofs):
    command = [shutil.which("rt") or "rt", "try", "--test"]
    tested = {name: crate for name, crate in crates.items() if crate.has_tests()}
    waits = {name: [proofs[it.name] for it in crate.below()] for name, crate in tested.items()}
    return [Task("tests", name, command, 90, waits[name], crate.folder) for name, crate in tested.items()]


def tasks_of_scripts(scripts, proofs):
    found = []
    for name, crates in scripts.items():
        needs = [proofs[it] for it in crates]
        found.append(Task("scripts", name, [f"{ROOT}/tests/run", "--built", name], 20 if needs else 120, needs))
    return found


def tasks_of(crates, given):
    """Returns all tasks, lowest crates first, and which edits they try; those of the named crates and scripts alone, if
    some are named."""
    names = given.names
    scripts = needs_of_scripts()
    unknown = [it for it in names if it not in crates and it not in scripts]
    if unknown:
        sys.exit(f"there is no crate and no script {unknown[0]}")
    scripts = {name: needs for name, needs in scripts.items() if not names or name in names}
    wanted = {name: crate for name, crate in crates.items() if not names or name in names}
    built = {*wanted, *(it for needs in scripts.values() for it in needs)}
    proved = {it.name for name in built for it in [*crates[name].below(), crates[name]]}
    proofs = proofs_of({name: crate for name, crate in crates.items() if name in proved})
    for name, task in proofs.items():
        if given.kept and crates[name].is_made():
            task.weight = task.waiting = 1
        elif given.kept and os.path.isdir(f"{crates[name].folder}/{toolchain.KEPT}"):
            task.weight *= OVER_KEPT
    if given.proofs:
        return [*proofs.values()], None
    edits = Edits([*wanted.values()], given)
    tried = tasks_of_edits(edits, proofs, given)
    if given.alone:
        return [*proofs.values(), *tried], edits
    return [*proofs.values(), *tried, *tasks_of_tests(wanted, proofs), *tasks_of_scripts(scripts, proofs)], edits


def note_of_room():
    """Returns what to say if the disk has too little room: once it is full, tasks fail and give no reason."""
    free = shutil.disk_usage(ROOT).free // 10**9
    return f"note: a gate from nothing needs {DISK} GB of disk, and {free} were free" if free < DISK else ""


def clear(crates):
    """Removes what earlier checks left, so that nothing of it is trusted."""
    for crate in crates.values():
        if os.path.lexists(f"{crate.folder}/out"):
            shutil.rmtree(f"{crate.folder}/out")


def table(tasks, clock):
    """Prints processor minutes by crate and kind, and the sums."""
    rows = {}
    for task in tasks:
        rows.setdefault(task.name, {})[task.kind] = task.processor / 60
    print(f"\n{'processor minutes':20}" + "".join(f"{it:>9}" for it in KINDS))
    for name, row in sorted(rows.items(), key=lambda it: -sum(it[1].values())):
        print(f"{name:20}" + "".join(f"{row[it]:9.1f}" if it in row else " " * 9 for it in KINDS))
    sums = {kind: sum(it.processor for it in tasks if it.kind == kind) / 60 for kind in KINDS}
    print(f"{'together':20}" + "".join(f"{sums[it]:9.1f}" for it in KINDS))
    print(f"{sum(sums.values()):.1f} processor minutes, {clock / 60:.1f} by the clock, {toolchain.rt.processors()} processors")


def reasons(task):
    """Returns the lines that say why a task failed: those that name a failure, else its last ones."""
    lines = [it for it in task.said.split("\n") if it.strip()]
    named = [it for it in lines if re.search(r"FAILED|BAD EDIT|NOT REFUSED", it)]
    goals = [it for it in lines if re.search(r": error|it is not proved that|^rt: ", it)]
    return (named or goals or lines)[-6:]


def report(tasks, clock, note_of_disk, tried):
    table(tasks, clock)
    for task in tasks:
        if task.failed:
            print(f"\nFAILED {task.label()}:")
            print("\n".join(f"    {it[:300]}" for it in reasons(task)))
    failed = sum(it.failed for it in tasks)
    if failed and note_of_disk:
        print(note_of_disk)
    if tried:
        print(tried)
    print(f"{sum(it.passed for it in tasks)} passed, {failed} failed")
    return 1 if failed else 0


def stop_where_rt_would(crates):
    """Ends the gate where rt ci would end before any proof: files that no check reads, links, names that are taken."""
    every = list(crates.values())
    controls = os.listdir(f"{HERE}/controls")
    if len(controls) < FEWEST_CONTROLS or not {*controls} <= {*crates}:
        toolchain.rtlib.stop(f"tests/gate/controls has edits of fewer than {FEWEST_CONTROLS} crates, or of one that is not listed")
    stray = [it for it in os.listdir(ROOT) if it.endswith((".rt", ".antt"))]
    if stray:
        toolchain.rtlib.stop(f"no check reads {stray[0]}")
    for name in sorted(it for it in os.listdir(ROOT) if it != ".git" and os.path.isdir(f"{ROOT}/{it}")):
        toolchain.rtlib.stop_on_unread(f"{ROOT}/{name}", every)
    for crate in every:
        if crate.name in toolchain.rt.TAKEN:
            toolchain.rtlib.stop(f"{crate.name} is the name of a library of the toolchain")
        if {"libc", "os"} & {*crate.of_kit}:
            toolchain.rtlib.stop(f"{crate.name}: crates.txt lists libc or os, which reach past the handles")


def words():
    """Reads the command line."""
    parser = argparse.ArgumentParser(description="Runs the merge gate, or a part of it.")
    parser.add_argument("--kept", action="store_true", help="take over what earlier checks proved")
    parser.add_argument("--proofs", action="store_true", help="prove and build alone")
    parser.add_argument("--alone", action="store_true", help="prove, and try each edit in a check of its own")
    parser.add_argument("--seed", metavar="N", type=int, help="draw the edits of unchanged crates with this number")
    parser.add_argument("--logs", help="the folder of logs (a temporary one)")
    parser.add_argument("names", metavar="NAME", nargs="*", help="a crate or a script (all)")
    given = parser.parse_args()
    if (given.names or given.proofs or given.alone) and not given.kept:
        parser.error("names, --proofs and --alone go with --kept: the gate from nothing runs all")
    return given


def main():
    given = words()
    for number in (signal.SIGINT, signal.SIGTERM, signal.SIGHUP):
        signal.signal(number, stop_all)
    start, crates = time.monotonic(), toolchain.crates()
    logs = given.logs or tempfile.mkdtemp(prefix="dsa-gate-")
    os.makedirs(logs, exist_ok=True)
    stop_where_rt_would(crates)
    note = ""
    if not given.kept:
        clear(crates)
        note = note_of_room()
    tasks, edits = tasks_of(crates, given)
    said = edits.said() if edits else ""
    print("\n".join(filter(None, (f"logs: {logs}", note, said))), flush=True)

    def note_tried(task):
        if task.digest and not task.failed:
            record.note(crates[task.name], task.digest)

    in_lanes(tasks, logs, toolchain.rt.processors(), note_tried)
    return report(tasks, time.monotonic() - start, note, said)


if __name__ == "__main__":
    sys.exit(main())
