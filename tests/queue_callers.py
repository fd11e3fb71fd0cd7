"""The callers of bindings/queue in Rust and in Python, over the proved archive: each operation, how lists end, wrong
use, threads and lists in flight, in software and on the software device of `trace`; a device that answers too late,
whose buffers are kept; the examples; the structs and numbers of the header; and wrong variants of the Python module,
each of which has to fail. Without cargo only Python is tried. The words are names of parts."""

import os
import re
import shutil
import sys
from pathlib import Path

from common import ROOT, block_after, expect, named, run_test, skip
from trace_runs import STRICT, WORK, built_all, client, ran, told, traced

sys.path.insert(0, str(ROOT / "bindings/package"))
import make

PREFIX = Path(WORK, "prefix")
MODULES = ROOT / "bindings/python"
CRATE = Path(WORK, "crate")
CASES = ROOT / "tests/queue_callers/cases.py"
PAGE, BEGINS = ROOT / "docs/START.md", "## A list"
LATE = ["--delay", 1000000]
GOLDEN = (ROOT / "bindings/rust/examples/queue.stdout").read_text()
DEVICES = ([], ["--order", "fifo", "--"], ["--order", "all", "--fault", 2, "--"])


def installed():
    """What the callers need of the package."""
    for folder in ("lib", "include"):
        (PREFIX / folder).mkdir(parents=True)
    make.libraries(PREFIX / "lib")
    for header in (*(ROOT / "bindings/c").glob("*.h"), ROOT / "bindings/queue/dsa_queue.h"):
        shutil.copy(header, PREFIX / "include")


def python(*words, modules=MODULES, options=()):
    """How the Python module ended, under dsa_trace if there are options."""
    libraries = {"DSA_PLANNER_LIBRARY": "libdsa_planner.so.1", "DSA_QUEUE_LIBRARY": make.QUEUE_SONAME}
    env = {**os.environ, "PYTHONPATH": str(modules), **{name: f"{PREFIX}/lib/{it}" for name, it in libraries.items()}}
    command = [sys.executable, "-B", *words]
    return traced(*options, *command, env=env) if options else ran(*command, env=env)


def cargo(*words):
    """How a command of cargo ended, in the copy of the crate."""
    places = {"DSA_PLANNER_PREFIX": str(PREFIX), "CARGO_TARGET_DIR": f"{WORK}/target", "RUSTFLAGS": "-Dwarnings"}
    how = {"cwd": CRATE, "env": os.environ | places, "timeout": 600}
    return ran("cargo", *words, "-q", "--offline", "--features", "queue", **how)


def has_cargo():
    """Whether there is cargo, and then a copy of the crate with the program of lost lists."""
    if not shutil.which("cargo"):
        skip("there is no cargo")
        return False
    if not CRATE.exists():
        shutil.copytree(ROOT / "bindings/rust", CRATE, ignore=shutil.ignore_patterns("target"))
        shutil.copy(ROOT / "tests/queue_callers/lost.rs", CRATE / "examples")
        Path(CRATE, "examples/page.rs").write_text(block_after(PAGE, BEGINS, "rust"))
        told("the build of the examples", cargo("build", "--examples"), 0)
    return True


# ---- parts

OF_C = {"uint8_t": "u8", "uint32_t": "u32", "uint64_t": "u64", "ubyte": "u8", "uint": "u32", "ulong": "u64"}


def fields_of_header(name):
    """The fields of a struct of the header, with their types as Rust writes them."""
    body = re.search(rf"struct {name} {{\n(.*?)\n}};", (ROOT / "bindings/queue/dsa_queue.h").read_text(), re.S)[1]
    plain = re.sub(r"/\*.*?\*/", "", body, flags=re.S)
    return [(it, OF_C[kind]) for kind, names in re.findall(r"(\w+) ([\w, ]+);", plain) for it in names.split(", ")]


def layout():
    """Both callers have the structs and numbers of the header."""
    header = (ROOT / "bindings/queue/dsa_queue.h").read_text()
    rust = (ROOT / "bindings/rust/src/queue/raw.rs").read_text()
    structs = (("dsa_queue_options", "Options", "_Options"), ("dsa_result", "Outcome", "_Result"))
    for name, in_rust, in_python in structs:
        wanted = fields_of_header(name)
        body = re.search(rf"pub struct {in_rust} {{\n(.*?)\n}}", rust, re.S)[1]
        found = re.findall(r"pub (\w+): (\w+),", body)
        expect(len(wanted) >= 5 and found == wanted, f"{name} has {wanted}, in Rust {found}")
        line = f"import ctypes, dsa_queue\nfor it in dsa_queue.{in_python}._fields_: print(it[0], it[1].__name__[2:])"
        end = python("-c", line)
        found = [(one, OF_C[kind]) for one, kind in (it.split() for it in end.stdout.splitlines())]
        expect(found == wanted, f"{name} has {wanted}, in Python {found}{end.stderr}")
    flags = {it.lower(): int(number) for it, number in re.findall(r"DSA_QUEUE_(\w+) = (\d+)", header)}
    found = {it.lower(): int(number) for it, number in re.findall(r"const (\w+): u32 = (\d+);", rust)}
    expect(len(flags) == 5 and found == flags, f"the flags are {flags}, in Rust {found}")
    end = python("-c", "import dsa_queue; print(dsa_queue._FLAGS)")
    expect(end.stdout == f"{flags}\n", f"the flags are {flags}, in Python {end.stdout}{end.stderr}")
    ends = dict(zip(re.findall(r"DSA_LIST_([A-Z_]+)(?:,| +/\*)", header.split("enum dsa_end {")[1]), range(6)))
    found = {it: int(number) for it, number in re.findall(r"const (\w+): c_int = (\d);", rust)}
    expect({**found, "REFUSED": 2} == ends and len(ends) == 6, f"lists end {ends}, in Rust {found}")
    room = int(re.search(r"#define DSA_WHY_ROOM (\d+)u", header)[1])
    expect(f"WHY_ROOM: usize = {room};" in rust, f"a sentence has {room} bytes, in Rust not")
    end = python("-c", "import dsa_queue as q; print(q._DONE, q._FAILED, q._REFUSED, q._LOST, q._LEFT_OUT, q._RUNNING, "
                       "q._WHY_ROOM)")
    order = [ends.get(it) for it in ("DONE", "FAILED", "REFUSED", "LOST", "LEFT_OUT", "RUNNING")]
    expect(end.stdout.split() == [str(it) for it in (*order, room)], f"in Python lists end {end.stdout}{end.stderr}")


def rust():
    """The tests of the crate and its page, in software; clippy has nothing to say."""
    if not has_cargo():
        return
    told("the tests of the queue in Rust", cargo("test", "--test", "queue"), 0, "10 passed")
    told("the page of the queue in Rust", cargo("test", "--doc", "queue"), 0, "1 passed")
    if ran("cargo", "clippy", "--version").returncode:
        skip("there is no clippy")
    else:
        told("clippy", cargo("clippy", "--lib", "--example", "queue", "--test", "queue"), 0)


def module():
    """The cases of the Python module, in software and on the device."""
    for options in DEVICES:
        if options or not Path("/dev/dsa").exists():
            told(f"the cases in Python {options}", python(CASES, "lists", options=options), 0, "0 wrong\n")


def lost():
    """What a device may still write to is neither freed nor moved, nor given back."""
    told("lost lists in Python", python(CASES, "lost", options=[*LATE, "--"]), 0, "0 wrong\n")
    if has_cargo():
        told("lost lists in Rust", traced(*LATE, "--", f"{WORK}/target/debug/examples/lost"), 0, "lost\n")


def examples():
    """The examples print what they should, on a device too."""
    for options in DEVICES:
        end = python(ROOT / "examples/queue/queue_copy.py", options=options)
        expect((end.returncode, end.stdout) == (0, GOLDEN), f"queue_copy.py {options}: {end}")
        if has_cargo():
            program = f"{WORK}/target/debug/examples/queue"
            end = traced(*options, program) if options else ran(program)
            expect((end.returncode, end.stdout) == (0, GOLDEN), f"queue.rs {options}: {end}")


def compiled(source, name):
    """Builds a program in C over the archives of the package."""
    archives = [PREFIX / f"lib/libdsa_{it}.a" for it in ("queue", "planner")]
    command = ["gcc", *STRICT, "-O2", source, "-I", PREFIX / "include", *archives, "-pthread", "-o", client(name)]
    told(f"the build of {name}", ran(*command), 0)


def publish():
    """The example publish.c prints what docs/USING.md says, under each of 20 seeds."""
    compiled(ROOT / "examples/barrier/publish.c", "publish")
    parts = block_after("docs/USING.md", "`examples/barrier` has").split("$ dsa_trace -- ./publish ")[1:]
    expect(len(parts) == 2, f"docs/USING.md shows {len(parts)} runs of publish.c")
    for part in parts:
        outcome, _, wanted = part.partition("\n")
        end = traced("--seeds", 20, "--", client("publish"), outcome)
        expect((end.returncode, end.stdout) == (0, 20 * wanted), f"publish {outcome}: {end}")


def page():
    """The programs of docs/START.md print what it says."""
    sources = {name: Path(WORK, f"page.{name}") for name in ("c", "python")}
    for name, path in sources.items():
        path.write_text(block_after(PAGE, BEGINS, name))
    compiled(sources["c"], "page")
    programs = [client("page")] + ([f"{WORK}/target/debug/examples/page"] if has_cargo() else [])
    for options in DEVICES:
        ends = [traced(*options, it) if options else ran(it) for it in programs]
        for end in (*ends, python(sources["python"], options=options)):
            expect((end.returncode, end.stdout) == (0, "hello\n"), f"a program of the page {options}: {end}")


# Wrong variants of the module: what is changed, and the cases that have to see it.
WRONG = [
    ("buffers of a lost list are released", "            self.held.clear()  # and nobody releases them\n",
     "            pass\n", "lost"),
    ("a list in flight is not waited for", "            if self.is_in_flight:\n                self.ended",
     "            if False:\n                self.ended", "lists"),
    ("a target may be read-only", "if is_written and self._view.readonly:", "if False:", "lists"),
    ("buffers are not held", "            made.held += held  # before", "            # before", "lists"),
    ("a list after one of another queue", "other._queue is not self._queue or not other._is_open", "False", "lists"),
    ("a queue closes without its lists", "                one.close()\n", "                pass\n", "lists"),
]


def wrong():
    """Each wrong variant of the module fails."""
    for number, (what, old, new, case) in enumerate(WRONG):
        folder = Path(WORK, f"wrong{number}")
        shutil.copytree(MODULES, folder, ignore=shutil.ignore_patterns("__pycache__"))
        text = (folder / "dsa_queue.py").read_text()
        expect(text.count(old) == 1, f"dsa_queue.py has not once: {old}")
        (folder / "dsa_queue.py").write_text(text.replace(old, new))
        options = [*LATE, "--"] if case == "lost" else ["--order", "fifo", "--"]
        end = python(CASES, case, modules=folder, options=options)
        expect(end.returncode != 0, f"{what}: the cases {case} end with 0")


def main(words):
    make.need_proved("libdsa_c.a")
    if not built_all(()):
        return
    installed()
    for part in named([layout, rust, module, lost, examples, publish, page, wrong], words):
        part()


if __name__ == "__main__":
    run_test(main)
