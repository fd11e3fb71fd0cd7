"""Programs of all kinds under dsa_trace: little stack, Rust, constructors, programs that others start, threads that
find a queue full or are cancelled, what goes past the library, what can't be traced, what the driver refuses, names
of files, and other tools; and any bytes (FUZZ_RUNS=1000000). The words are names of parts."""

import itertools
import os
import shutil
import signal
import struct
from pathlib import Path

from common import ROOT, expect, named, run_test, skip
from trace_runs import HAS_MOVDIR64B, STRICT, WORK, built_all, client, ran, told, traced

KNOWN = os.environ | {"DSA_TEXT": "/bin/true"}
CLIENTS = ("stacks", "starts", "threads", "cancelled", "past", "driver")


def faults():
    """The words before a program that has it raise the signals of a CPU with the instructions (tests/trace/faults.c);
    None where nothing may be traced."""
    sources = ["-I", "trace", "tests/trace/faults.c", "trace/decode.c"]
    told("the build of faults", ran("gcc", *STRICT, "-O1", "-o", client("faults"), *sources), 0)
    if ran(client("faults"), "/bin/true").returncode:
        skip("signals as other CPUs raise them: the system permits no ptrace")
        return None
    return [client("faults")]


# ---- little stack


def stacks():
    """The first submissions on threads and coroutines with 16 KB of stack, the least that a thread may have, and on a
    stack of 8 KB for handlers, by SIGILL and by SIGSEGV, leave what is below the stack alone."""
    ways = [way for way in ([], faults()) if way is not None]
    orders = ([], ["--order", "fifo"])
    cases = [*itertools.product(("", "batch", "pattern", "file", "refused"), orders)]
    cases += [("missing", []), *(("", order) for order in (["--watch", 5], ["--signals"], ["--no-namespace"]))]
    for (kind, size), way in itertools.product((("thread", 16384), ("fiber", 16384), ("other", 8192)), ways):
        for what, order in cases:
            end = traced("--audit", *order, "--", *way, client("stacks"), kind, size, what, env=KNOWN)
            status = {"refused": "0x11", "missing": "0x4"}.get(what, "0x1")
            said = f" of {size} are used, status {status}"
            told(f"{what} on {kind} {order} {way}", end, int(what == "refused"), said)


def rust():
    """A Rust program, whose handler of SIGSEGV asks for another stack."""
    if not shutil.which("rustc"):
        skip("a Rust program: there is no rustc")
        return
    told("the build", ran("rustc", "-O", "-o", client("plain"), "tests/trace/plain.rs"), 0)
    for way in ([], faults()):
        if way is not None:
            told(f"a Rust program {way}", traced("--audit", "--", *way, client("plain"), env=KNOWN), 0, "status 1")


# ---- constructors, and programs that others start


def early_library():
    """The library whose constructor submits."""
    library, source = f"{WORK}/early.so", "tests/trace/early.c"
    told("the library", ran("gcc", *STRICT, "-DLIBRARY", "-shared", "-fPIC", "-o", library, source), 0)
    return library


def early():
    """A constructor of a linked or preloaded library submits, and one of the program. The library's handler, which it
    has asked for before, still has the program's faults."""
    library, source = early_library(), "tests/trace/early.c"
    told("the program", ran("gcc", *STRICT, "-o", client("early"), source, library), 0)
    both = ("the library: status 0x1", "the program: status 0x1")
    for how, way in itertools.product(([], ["--no-namespace"], ["--order", "fifo"]), ([], faults())):
        if way is not None:
            told(f"constructors {how} {way}", traced("--audit", *how, "--", *way, client("early"), env=KNOWN), 0, *both)
            told(f"a fault {how} {way}", traced(*how, "--", *way, client("early"), "faults"), signal.SIGSEGV, *both)
        words = ["env", f"LD_PRELOAD={library}", client("starts"), "submits", "word"]
        told(f"a library before ours {how}", traced(*how, "--", *words), 0, both[0], "status 0x1, word, mine 0")


def started():
    """A program that another one starts keeps our library and settings, whatever environment it is given, and has all
    that it is given."""
    for how, child in (([], []), ([], ["child"]), (["--no-namespace"], ["child"])):
        for name in ("execve", "execvpe", "fexecve", "execle", "posix_spawn", "posix_spawnp"):
            end = traced("--audit", *how, "--", client("starts"), name, *child, env=KNOWN)
            told(f"{name} {how} {child}", end, 0, "status 0x1, word, mine 1")
        for name in ("nothing", "execv", "execvp", "execl", "execlp"):
            end = traced("--audit", *how, "--", client("starts"), name, *child, env=KNOWN)
            told(f"{name} {how} {child}", end, 0, "status 0x1, word, mine 0")
    for command in ("env -i", "env LD_PRELOAD=libm.so.6", "env -u LD_PRELOAD"):
        end = traced("--", "sh", "-c", f"{command} {client('starts')} submits word")
        told(command, end, 0, "status 0x1, word, mine 0")
    end = traced("--", "env", "DSA_TRACE_SEED=7", "sh", "-c", "echo $DSA_TRACE_SEED")
    told("a variable of ours that is given", end, 0, "7\n")


# ---- more threads than a queue takes


def many():
    """Of 64 threads most find the queue full, and ask again and again; all their moves are done."""
    for how in ([], ["--order", "all"], ["--order", "fifo"], ["--seed", 3]):
        told(f"64 threads {how}", traced(*how, "--", client("threads"), 64, 2), 0)


# ---- threads that are cancelled


def cancelled():
    """A thread that waits in write() is cancelled, and threads at any time while they submit; each runs its cleanup,
    and another thread can submit afterwards."""
    for how in ([], ["--signals"], ["--order", "fifo"], ["--watch", 5]):
        for what, times in (("write", 1), ("submits", 200), ("file", 200)):
            end = traced("--audit", *how, "--", client("cancelled"), what, env=KNOWN)
            told(f"{what} {how}", end, 0, f"{times} of {times} cancelled, 0 without cleanup, moved 5")


# ---- past the library, and against it


def past():
    """Maps that no function of ours has made, signals that are blocked, code and memory that a handler may not read,
    and children that have no portal or share their parent's memory."""
    said = {name: [] for name in ("mapped", "enqueued", "thread", "bsd", "held", "context", "hidden", "keys")}
    said |= {"kept": ["munmap failed 1 1, "], "moved": ["moved 1, "], "bsd": ["0 1 "]}
    said |= {"forked": [f"the child ends by signal {int(signal.SIGSEGV)}, "]}
    said |= {"many": ["256 portals, then ENOMEM 1, ", "more than 256 portals are mapped at once"]}
    for (name, words), how in itertools.product(said.items(), ([], ["--signals"], ["--no-namespace"])):
        end = traced(*how, "--", client("past"), name)
        told(f"{name} {how}", end, 0, *words, "status 0x1\n")
        expect("wrong" not in end.stdout, f"{name} {how} moves wrong bytes")
    way = faults()
    for name in ("mapped", "enqueued", "keys", "hidden", "thread") if way else ():
        told(f"{name} by SIGSEGV", traced("--", *way, client("past"), name), 0, "status 0x1\n")
    library = early_library()
    end = traced("--", client("past"), "deep", library)
    told("a library of other functions", end, 0, "the library: status 0x1\n", "loaded\n")
    told("a handler that a child resets", traced("--", client("past"), "reset"), 0, "my handler\n")
    blocks = [client("past"), "blocks"]
    told("all is blocked before", ran(*blocks, f"{WORK}/gcc/dsa_trace", "--", client("past")), 0, "status 0x1\n")
    told("all is blocked by another", traced("--", *blocks, client("past")), 0, "status 0x1\n")


def refused():
    """What can't be traced ends the program, and a sentence says why."""
    fault = "SIGSEGV" if HAS_MOVDIR64B else "SIGILL"
    told(f"{fault} is blocked past us", traced("--", client("past"), "raw"), 128 + signal.Signals[fault],
         f"dsa_trace: ended by {fault}: ", f"{fault} is blocked by a system call")
    told("a filter", traced("--", client("past"), "filtered"), 128 + signal.SIGSYS, "dsa_trace: ended by SIGSYS: ")
    end = traced("--", "sh", "-c", "kill -ABRT $$")
    told("another signal", end, 128 + signal.SIGABRT)
    expect("ended by" not in end.stderr, f"of another signal is said: {end.stderr}")


# ---- the driver

# By idxd_cdev_mmap and idxd_cdev_write of Linux 6.1.192, and mmap(2): a device of version 1.0 takes no batch by a
# write, and no record at an odd place.
DRIVER = """a map: 0
of a byte: 0
to read: 0
at a page: 0
of nothing: EINVAL
of two pages: EINVAL
at byte 123: EINVAL
of a file to read: EACCES
of a file to write: EACCES
writev: 128
statuses 1 1, moved 5 5
pwrite: 64
65 bytes: 64
63 bytes: 0
a batch: EINVAL
an odd record: EINVAL
a move and an odd record: 64
"""


def driver():
    """What the driver takes and refuses of maps and writes, with the errors of the kernel."""
    for how in ([], ["--no-namespace"], ["--order", "fifo"]):
        told(f"the driver {how}", traced(*how, "--", client("driver")), 0, DRIVER)


# ---- names of files

FILES = """scandir 4
glob /dev/dsa/wq0.0 /dev/dsa/wq0.1
glob of nothing 1
nftw /sys/bus/dsa/devices/wq0.1 at level 1
canonical /sys/bus/dsa/.devices/pci0000:6a/0000:6a:01.0/dsa0/wq0.0
access 0 -1
freopen shared
"""


def files():
    """The device's files have the same names with and without a namespace, by functions for small and large files."""
    for bits in ([], ["-D_FILE_OFFSET_BITS=64"]):
        told("the build of named", ran("gcc", *STRICT, *bits, "-o", client("named"), "tests/trace/named.c"), 0)
        for how in ([], ["--no-namespace"]):
            end = traced(*how, "--", client("named"))
            expect(end.returncode == 0 and end.stdout == FILES, f"names {bits} {how}: {end.stdout} {end.stderr}")


# ---- other tools


def gdb():
    """Under gdb a program runs to its end, and a stack in the library goes on in the program."""
    if not shutil.which("gdb") or faults() is None:
        skip("gdb, which is not there or may not trace")
        return
    tool = ["gdb", "-q", "-batch", "-ex", "handle SIGILL SIGSEGV nostop noprint pass"]
    program = ["--args", client("past"), "enqueued"]
    told("gdb", traced("--", *tool, "-ex", "run", *program), 0, "exited normally")
    stop = ["-ex", "set breakpoint pending on", "-ex", "break emulate if order.submitted == 3"]
    end = traced("--", *tool, *stop, "-ex", "run", "-ex", "bt", *program)
    told("a stack from a stub", end, 0, "in stub_entry ()", "in enqueued ()", "in main ()")


def thread_sanitizer():
    """With the suppressions ThreadSanitizer says nothing of right programs, by gcc and clang."""
    known = os.environ | {"TSAN_OPTIONS": f"suppressions={ROOT}/trace/libdsa_trace.supp:die_after_fork=0"}
    for compiler, name in itertools.product(("gcc", "clang"), ("stages", "threads")):
        words = ["-g", "-O1", "-fsanitize=thread", "-o", client(name), f"tests/trace/{name}.c", "-lpthread"]
        if not shutil.which(compiler) or ran(compiler, *STRICT, *words).returncode:
            skip(f"ThreadSanitizer, which {compiler} does not have here")
            continue
        for seed in (1, 3, 4):
            end = traced("--seed", seed, "--", client(name), env=known)
            told(f"{name} by {compiler}, seed {seed}", end, 0)
            expect("WARNING" not in end.stderr, f"{name}, seed {seed}: {end.stderr[:1000]}")


# ---- any bytes

FUZZED = "board crc decode device dif execute intake maps memory order pace process random record records say settings"
FUZZED = [f"trace/{name}.c" for name in [*FUZZED.split(), "stacks", "valid", "walk", "watch"]]


def corpus(folder):
    """A descriptor of each operation, and a batch of three moves."""
    def entry(code, more):
        return struct.pack("<IIQQQI", 0, code << 24 | 0x0E, 0x8000, 0x1000, 0x3000, 1040) + more

    more = {7: struct.pack("<IQI12x", 0, 0x5000, 800), 8: struct.pack("<II20x", 0, 100),
            9: struct.pack("<IQ16x", 0, 0x5000)}
    Path(folder).mkdir()
    for code in (0, *range(2, 10), *range(0x10, 0x16), 0x20):
        Path(folder, f"{code:02x}").write_bytes(entry(code, more.get(code, bytes(28))))
    batch = struct.pack("<IIQQQI28x", 0, 1 << 24 | 0x0C, 0x8000, 0, 0, 3)
    Path(folder, "batch").write_bytes(batch + 3 * entry(3, bytes(28)))


def fuzzed():
    """The decoder, operations and submissions on bytes that libFuzzer makes, with the sanitizers of addresses and of
    undefined behaviour; FUZZ_RUNS asks for more."""
    runs = os.environ.get("FUZZ_RUNS", "30000")
    Path(WORK, "empty_target.c").write_text("int LLVMFuzzerTestOneInput(void) { return 0; }\n")
    words = ["-fsanitize=fuzzer", "-o", client("empty_target"), f"{WORK}/empty_target.c"]
    if not shutil.which("clang") or ran("clang", *words).returncode:
        skip("libFuzzer, which is not there")
        return
    # a descriptor may have the address 0, which no argument of memcpy has
    flags = ["-g", "-O1", "-fsanitize=fuzzer,address,undefined", "-fno-sanitize=nonnull-attribute",
             "-fno-sanitize-recover=undefined"]
    for number, name in enumerate(("decoder", "operation", "submission")):
        words = [*flags, f"-DTARGET={number}", "-I", "trace", "-o", client(name), "tests/trace/fuzz.c", *FUZZED]
        told(f"the build of the {name}", ran("clang", *STRICT, *words, "-lpthread", "-ldl"), 0)
        corpus(f"{WORK}/corpus_{name}")
        how = [f"-runs={runs}", "-seed=1", "-max_len=640", "-handle_segv=0", "-handle_bus=0",
               f"-artifact_prefix={WORK}/"]
        end = ran(client(name), *how, f"{WORK}/corpus_{name}", timeout=3600)
        told(f"the fuzzed {name}", end, 0, f"Done {runs} runs")


PARTS = [stacks, rust, early, started, many, cancelled, past, refused, driver, files, gdb, thread_sanitizer, fuzzed]


def main(words):
    parts = named(PARTS, words)
    for part in parts if built_all(CLIENTS) else []:
        part()


if __name__ == "__main__":
    run_test(main)
