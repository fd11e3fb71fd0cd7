#!/usr/bin/env -S python3 -B
"""Measures what docs/SPEED.md and trace/README.md say, by hand and on a quiet machine, and writes each group to a file
of docs/figures:

    tests/measure.py short_lists filling in_flight work_queue small_jobs audits traces stacks
    tests/measure.py jobs longest OTHER      beside another program of the same jobs

`tests/figures.py --write` makes the tables of the pages anew from these files. Times are of the built programs and the
built archive. Instructions are counted by callgrind, and do not depend on what else the machine does."""

import json
import os
import re
import subprocess
import sys
import tempfile
import time
from datetime import date
from itertools import product
from pathlib import Path

import bench
from audit_entries import moves_apart
from common import ROOT, compiler, program, stop

sys.path.insert(0, str(ROOT / "bindings/package"))
import make

FOLDER = ROOT / "docs/figures"
KINDS = ("apart", "two areas", "shuffled", "chained", "random")
LENGTHS = ("8", "32", "64")
CALL = "dsa_plan_list"
GIB = 2**30


def machine():
    """What the figures of a file are of."""
    models = re.findall(r"^model name\s*: (.*)$", Path("/proc/cpuinfo").read_text(), re.M)
    found = {"date": date.today().isoformat(), "processor": models[0] if models else "unknown"}
    return found | {"processors": os.cpu_count(), "load": round(os.getloadavg()[0], 1)}


def compiled(name, folder):
    """Builds a caller in C over the archive; answers where the program is."""
    path, source = f"{folder}/{name}", ROOT / f"tests/bindings/{name}.c"
    flags = ["-std=c11", "-D_GNU_SOURCE", "-O2", "-g", "-I", ROOT / "bindings/c"]
    sources = [source, ROOT / "bindings/c/memory.c", ROOT / "crates/dsa_c/out/libdsa_c.a"]
    subprocess.run([compiler(), *flags, *sources, "-o", path], check=True)
    return path


def lines_of(name, rounds):
    """What a caller in C prints of so many rounds."""
    with tempfile.TemporaryDirectory() as folder:
        return subprocess.run([compiled(name, folder), rounds], stdout=subprocess.PIPE, text=True, check=True).stdout


def speed_of_queue(folder):
    """Builds the program that measures the layer of bindings/queue; answers where it is."""
    path, include = f"{folder}/speed", ["-I", ROOT / "bindings/c", "-I", ROOT / "bindings/queue", "-I", ROOT / "trace"]
    flags = ["-std=c11", "-D_GNU_SOURCE", "-O2", "-g", *include, "-pthread"]
    sources = [ROOT / "tests/work_queue/speed.c", *make.QUEUE_OF, ROOT / "bindings/c/memory.c"]
    sources.append(make.PROVED["libdsa_c.a"])
    subprocess.run([compiler(), *flags, *sources, "-o", path], check=True)
    return path


def least(rows, place):
    return min(row.pop(place) for row in rows)


# ---- from C


def instructions(caller, kind, length, folder):
    """The instructions of CALL for each move of a list, of one round of 4,096 moves; without `memset`, of which
    callgrind counts an instruction for each byte."""
    out = f"{folder}/callgrind"
    command = ["valgrind", "--tool=callgrind", f"--toggle-collect={CALL}", f"--callgrind-out-file={out}"]
    subprocess.run([*command, caller, "1", kind, length, "plain"], check=True, capture_output=True)
    show = ["callgrind_annotate", "--auto=no", "--threshold=100", out]
    shown = subprocess.run(show, stdout=subprocess.PIPE, text=True, check=True).stdout
    counts = re.findall(r"^ *([\d,]+) \([ \d.]+%\)  (.*)$", shown, re.M)
    total = sum(int(count.replace(",", "")) for count, name in counts if ":" in name and "memset" not in name)
    return round(total / (4096 // int(length) * int(length)))


def short_lists():
    """Planning short lists: nanoseconds and instructions for each move, and what copying its descriptor takes."""
    form = r"^.* moves: plan +([\d.]+) .* at each fourth +([\d.]+), copy +([\d.]+);"
    rows = []
    with tempfile.TemporaryDirectory() as folder:
        caller = compiled("speed", folder)
        for kind, length in product(KINDS, LENGTHS):
            command = [caller, "1600", kind, length]
            ran = subprocess.run(command, stdout=subprocess.PIPE, text=True, check=True)
            plan, barriers, copy = map(float, re.match(form, ran.stdout).groups())
            row = {"kind": kind, "moves": int(length), "ns": plan, "barriers": barriers, "copy": copy}
            rows.append(row | {"instructions": instructions(caller, kind, length, folder)})
    return {"copy": least(rows, "copy"), "rows": rows}


def filling():
    """Filling a prepared list: nanoseconds for each of 32 moves, beside copying as many bytes by 32."""
    form = r"^ ?(\d+) regions, bases (.*): plan +([\d.]+) .* fill +([\d.]+), copy by 32 bytes +([\d.]+),"
    found = re.findall(form, lines_of("fill_speed", "400"), re.M)
    rows = [{"regions": int(n), "bases": bases, "ns": float(fill), "plan": float(plan), "copy": float(copy)}
            for n, bases, plan, fill, copy in found]
    return {"rows": rows}


def in_flight():
    """Tracking lists in flight: nanoseconds for each move, beside planning them and comparing all pairs of spans."""
    form = r"^(\S.*?) +(\d+) moves, +(\d+) in flight: track +([\d.]+) .* plan +([\d.]+), compare all +([\d.]+),"
    found = re.findall(form, lines_of("track_speed", "50"), re.M)
    rows = [{"kind": kind, "moves": int(moves), "flight": int(flight), "ns": float(track), "plan": float(plan),
             "compare": float(compare)} for kind, moves, flight, track, plan, compare in found]
    return {"rows": rows}


def work_queue():
    """What the layer of bindings/queue adds to a list: nanoseconds by hand and by the layer, in software."""
    form = r"^ ?(\d+) moves: planned (\d+) by hand, (\d+) .*; again (\d+), (\d+); other buffers (\d+), (\d+); "
    form += r"in flight (\d+)$"
    names = ("moves", "plan", "planned", "hand_again", "again", "fill", "placed", "in_flight")
    with tempfile.TemporaryDirectory() as folder:
        ran = subprocess.run([speed_of_queue(folder), "301"], stdout=subprocess.PIPE, text=True, check=True)
    return {"rows": [dict(zip(names, map(int, row))) for row in re.findall(form, ran.stdout, re.M)]}


# ---- jobs


def small_jobs():
    """Small jobs a second: by dsa_jobs, and by a process of dsa for each, started by a shell."""
    job, many, few = (ROOT / "examples/plan.job").read_bytes().strip() + b"\n", 200_000, 1_000
    start = time.monotonic()
    subprocess.run([program("dsa_jobs")], input=job * many, stdout=subprocess.DEVNULL, check=True)
    lines = many / (time.monotonic() - start)
    loop = f"for i in $(seq {few}); do {program('dsa')} < examples/plan.job; done"
    start = time.monotonic()
    subprocess.run(["sh", "-c", loop], stdout=subprocess.DEVNULL, check=True, cwd=ROOT)
    return {"lines": round(lines), "processes": round(few / (time.monotonic() - start))}


def beside(other, names):
    """What bench.py measures of jobs beside another program, in a process of its own, which has a smaller peak."""
    with tempfile.TemporaryDirectory() as folder:
        path = f"{folder}/rows"
        subprocess.run([ROOT / "tests/bench.py", "--json", path, other, *names], check=True)
        return {"rows": json.loads(Path(path).read_text())}


def jobs(other):
    """Large jobs beside another program."""
    return beside(other, list(bench.JOBS))


def longest(other):
    """The longest texts beside another program."""
    return beside(other, list(bench.LONGEST_JOBS))


# ---- audits


# Starts a program, and prints its processor seconds and its peak in kB: no peak is seen below that of the process that
# started it, and this one is small.
ALONE = """import os, sys
nowhere = (os.POSIX_SPAWN_OPEN, 1, os.devnull, os.O_WRONLY, 0)
child = os.posix_spawn(sys.argv[1], sys.argv[1:], os.environ, file_actions=[nowhere])
_, status, usage = os.wait4(child, 0)
print(usage.ru_utime + usage.ru_stime, usage.ru_maxrss)
sys.exit(os.waitstatus_to_exitcode(status))"""


def of_a_gibibyte(block):
    """The processor seconds and the peak in MB of an audit of a block again and again, up to a gibibyte."""
    command = [sys.executable, "-ISc", ALONE, str(program("dsa_text")), "audit"]
    child = subprocess.Popen(command, stdin=subprocess.PIPE, stdout=subprocess.PIPE)
    many = block * (2**20 // len(block))
    for _ in range(GIB // len(many)):
        child.stdin.write(many)
    child.stdin.close()
    seconds, peak = child.stdout.read().split()
    if child.wait():
        stop(f"dsa_text audit ended with status {child.returncode}")
    return {"seconds": round(float(seconds), 1), "peak": round(int(peak) / 1000)}


def audits():
    """Audits of 65,472 members as JSON, and of a gibibyte in batches of 31 moves."""
    command = [sys.executable, "-B", ROOT / "tests/audit.py", "speed"]
    ran = subprocess.run(command, stdout=subprocess.PIPE, text=True, check=True).stdout
    found = re.findall(r"^(\d+) batch(?:es)? of (\d+), (.*): ([\d.]+) s, (\d+) findings", ran, re.M)
    rows = [{"batches": int(count), "members": name, "seconds": float(took)} for count, _, name, took, _ in found]
    plain = of_a_gibibyte(moves_apart(31))
    guarded = of_a_gibibyte(moves_apart(31, lambda k: k == 16))
    return {"rows": rows, "plain": plain, "guarded": guarded}


# ---- dsa_trace

# What the client says of the portal.
FROM_STACKS = r"and ([\d.]+) us to the portal, ([\d.]+) from other depths"


def traces():
    """What a submission takes under dsa_trace, in microseconds, by code and by a signal; a start in milliseconds."""
    command = [sys.executable, "-B", ROOT / "tests/trace.py", "cost"]
    ran = subprocess.run(command, stdout=subprocess.PIPE, text=True, check=True).stdout
    rows = {}
    for words, took in re.findall(r"^dsa_trace(.*): .*and ([\d.]+) us to the portal", ran, re.M):
        options = "--out DIR" if "--out" in words else words.replace("--signals", "").strip() or "none"
        row = rows.setdefault(options, {"options": options})
        row["signals" if "--signals" in words else "stubs"] = round(float(took), 1)
    return {"start": int(re.search(r"a start takes (\d+) ms", ran)[1]), "rows": list(rows.values())}


def stacks():
    """What a submission takes with call stacks and without, in microseconds, in turns: of several medians the least."""
    rows = []
    with tempfile.TemporaryDirectory() as folder:
        subprocess.run(["make", "-s", "-C", ROOT / "trace", f"OUT={folder}"], check=True)
        flags = ["-std=c11", "-D_GNU_SOURCE", "-O2", "-o", f"{folder}/cost"]
        subprocess.run([compiler(), *flags, ROOT / "tests/trace/cost.c"], check=True)
        for words in (["--order", "fifo"], ["--delay", "0"]):
            took = {frames: [] for frames in (0, 16)}
            for frames in list(took) * 7:
                command = [f"{folder}/dsa_trace", *words, "--stacks", str(frames), "--out", f"{folder}/out", "--"]
                ran = subprocess.run([*command, f"{folder}/cost"], stdout=subprocess.PIPE, text=True, check=True)
                took[frames].append([float(it) for it in re.search(FROM_STACKS, ran.stdout).groups()])
            for frames, medians in took.items():
                one, many = map(min, zip(*medians))
                rows.append({"options": " ".join(words), "frames": frames, "one": one, "many": many})
    return {"rows": rows}


GROUPS = {it.__name__: it for it in (short_lists, filling, in_flight, work_queue, small_jobs, audits, traces, stacks)}
BESIDE = {it.__name__: it for it in (jobs, longest)}


def main(words):
    names = [word for word in words if word in GROUPS or word in BESIDE]
    others = [word for word in words if word not in names]
    if not names or len(others) != any(name in BESIDE for name in names):
        stop(__doc__)
    FOLDER.mkdir(exist_ok=True)
    for name in names:
        found = machine()
        found |= GROUPS[name]() if name in GROUPS else BESIDE[name](*others)
        (FOLDER / f"{name}.json").write_text(json.dumps(found, indent=2) + "\n")
        print(f"docs/figures/{name}.json", flush=True)


if __name__ == "__main__":
    main(sys.argv[1:])
