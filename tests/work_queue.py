"""Builds the layer of bindings/queue with gcc and clang over the proved archive, and runs it on the software device of
`trace`: random lists beside the processor, in each order, with faults, retries and small queues (LISTS=5000,
SEEDS=100), on several queues, and by write(); how lists end, and what is said; each allocation refused; a device that
stops, and a kernel that keeps portals, which the test plays; the same lists in software, also with sanitizers, and
descriptors of all operations, whose records have to be those of the device; and wrong variants of the layer, each of
which has to fail. The words are names of parts."""

import os
import re
import shutil
import sys
import tempfile
from pathlib import Path

import model
from common import ROOT, SANITIZE, SANITIZE_THREADS, expect, named, run_test, sanitizers, skip
from trace_runs import STRICT, WORK, built_all, client, ran, told, traced

sys.path.insert(0, str(ROOT / "bindings/package"))
import make
import measure

LISTS = os.environ.get("LISTS", "60")
SEEDS = int(os.environ.get("SEEDS", "3"))
LAYER = ROOT / "bindings/queue"
OF_LAYER = [path for path in make.QUEUE_OF if path.parent == LAYER]
OF_DEVICE = [path for path in make.QUEUE_OF if path.parent != LAYER]
INCLUDE = ["-I", ROOT / "bindings/c", "-I", ROOT / "trace"]
ARCHIVE = ROOT / "crates/dsa_c/out/libdsa_c.a"
MEMORY = ROOT / "bindings/c/memory.c"
JOURNAL = ROOT / "examples/queue/queue_journal.c"
CHECKSUM = ROOT / "examples/queue/queue_checksum.c"
THREADS = ROOT / "examples/queue/queue_threads.c"
WRAPPED = ["-Wl,--wrap=calloc,--wrap=mmap,--wrap=madvise"]
QUEUES = ("/dev/dsa/wq0.0", "/dev/dsa/wq0.1")
BOTH = ":".join(QUEUES)
DONE = "all operations have succeeded\n"
DEVICES = "/sys/bus/dsa/devices"


def compiled(name, *words, source=None, without="", folder=LAYER, output=None):
    """Builds a client over the layer, but for a file of it; answers how that ended."""
    layer = [folder / path.name for path in OF_LAYER if path.name != without]
    memory = [] if name in ("memory", "placed") else [MEMORY]
    files = [source or f"tests/work_queue/{name}.c", *layer, *OF_DEVICE, *memory, ARCHIVE]
    how = [*STRICT, "-O1", "-g", *INCLUDE, "-I", folder, *words, "-pthread", "-o", output or client(name)]
    return ran("gcc", *files, *how)


def shell(command, *options):
    """How a shell under dsa_trace ended, for a device whose files are changed before the program is run."""
    return traced(*options, "--", "sh", "-c", command)


def built():
    """No compiler has a warning, of the header in C++ neither."""
    for cc in ("gcc", "clang"):
        if not shutil.which(cc):
            skip(f"there is no {cc}")
            continue
        for path in OF_LAYER:
            words = ["-Wconversion", "-Wshadow", "-O2", *INCLUDE, "-I", LAYER, "-c", path, "-o", f"{WORK}/object.o"]
            told(f"the build of {path.name} by {cc}", ran(cc, *STRICT, *words), 0)
    if shutil.which("g++"):
        words = ["-x", "c++", "-std=c++11", "-Wall", "-Wextra", "-pedantic", "-Werror", "-fsyntax-only"]
        told("the header in C++", ran("g++", *words, *INCLUDE, LAYER / "dsa_queue.h"), 0)
    long = [path.name for path in LAYER.glob("*.[ch]") if len(path.read_text().splitlines()) >= 400]
    expect(not long, f"files of 400 lines and more: {long}")


def lists():
    """Random lists leave what the processor leaves, and have its results; a failed check stops just what it has to."""
    right = f"{LISTS} lists, "
    for seed in range(1, SEEDS + 1):
        for order in ("fifo", "members", "data", "all"):
            for queue, options in zip(QUEUES, ([], ["--retry", 3])):
                words = ["--seed", seed, "--order", order, "--fault", 2, *options]
                end = traced(*words, "--", client("lists"), queue, LISTS, seed)
                told(f"random lists: {words}, {queue}", end, 0, right, " 0 wrong")
                expect(" 0 failed" not in end.stdout, f"no check failed: {end.stdout}")
                end = traced(*words, "--", client("lists"), queue, LISTS, seed, 8)
                told(f"lists in flight: {words}, {queue}", end, 0, right, " 0 wrong")
    for size in (1, 2, 3):
        for mode in ("dedicated", "shared"):
            words = ["--queue", f"{mode},{size},x", "--order", "all", "--cpuid"]
            for deep in (0, 8):
                end = traced(*words, "--", client("lists"), QUEUES[0], LISTS, size, deep)
                told(f"random lists: {words}, {deep} in flight", end, 0, " 0 wrong")
    for file, values in (("max_transfer_size", (4096, 1000)), ("max_batch_size", (1, 3))):
        for value in values:
            for queue in (QUEUES[0], BOTH):
                command = f"echo {value} > {DEVICES}/wq0.0/{file} && exec {client('lists')} {queue} {LISTS} {value}"
                end = shell(command, "--order", "all", "--fault", 2)
                told(f"random lists: {file} {value}, {queue}", end, 0, " 0 wrong")


def several():
    """Lists on several work queues with one tracker, also small ones, and each work queue has some of them."""
    three = [f"/dev/dsa/wq0.{i}" for i in range(3)]
    small = ["--queue", "dedicated,1,x", "--queue", "shared,1,y", "--queue", "dedicated,2,z"]
    for seed in range(1, SEEDS + 1):
        for files, options in ((QUEUES, []), (three, small)):
            for deep in (0, 8):
                words = ["--seed", seed, "--order", "all", "--fault", 2, *options]
                folder = f"{WORK}/several-{seed}-{len(files)}-{deep}"
                command = [client("lists"), ":".join(files), LISTS, seed, deep]
                end = traced(*words, "--out", folder, "--", *command)
                told(f"several queues: {words}, {deep} in flight", end, 0, f"{LISTS} lists, ", " 0 wrong")
                events = "".join(it.read_text() for it in Path(folder).rglob("*.events"))
                came = set(re.findall(r"^S \d+ (wq0\.\d)", events, re.M))
                expect(len(came) == len(files), f"only {came} of {files} had entries")


def placed():
    """Lists on other buffers, prepared or not: what the processor leaves; those that need no plan allocate nothing."""
    for seed in range(1, SEEDS + 1):
        for queue in QUEUES:
            end = traced("--seed", seed, "--order", "all", "--fault", 2, "--", client("placed"), queue, LISTS, seed)
            told(f"placed: seed {seed}, {queue}", end, 0, " 0 wrong")
        end = traced("--seed", seed, "--order", "all", "--", client("placed"), QUEUES[1], LISTS, seed, 16)
        told(f"placed in flight: seed {seed}", end, 0, " 0 wrong")
        limit = f"echo 1000 > {DEVICES}/wq0.0/max_transfer_size && exec {client('placed')} {QUEUES[0]} {LISTS} {seed}"
        told(f"placed and split: seed {seed}", shell(limit, "--order", "all"), 0, " 0 wrong")


def speed():
    """What measures the layer is built and run for a moment; its times are judged by nobody."""
    with tempfile.TemporaryDirectory() as folder:
        end = ran(measure.speed_of_queue(folder), 1)
    found = re.findall(r"^ ?(\d+) moves: planned \d+ by hand, \d+ by the layer; .*; in flight \d+$", end.stdout, re.M)
    expect(end.returncode == 0 and found == ["1", "8", "32"], f"status {end.returncode}, {end.stdout}{end.stderr}")


# A device of which programs may not map portals, as the driver shows it: without batches.
KEPT_PORTALS = f"echo 0,0,0,0,0,0,1,3f03fd > {DEVICES}/dsa0/op_cap"
UNWRITTEN = QUEUES[0] + ": an entry could not be written ({}), and nothing more was begun; {}\n"
NO_RIGHT = "the process is another than the one that has opened it, or a rule of security (seccomp, SELinux) forbids "
NO_RIGHT += "it: open a queue here, or permit it"
REFUSED = "the kernel refuses the descriptor, or takes none by write(): Linux 6.10 or later does"
KEPT_WITHOUT = QUEUES[0] + ": the kernel lets only programs with CAP_SYS_RAWIO map this portal (Operation not "
KEPT_WITHOUT += "permitted), and takes no descriptors by write(); Linux 6.10 or later does\n"


def written():
    """A kernel that keeps portals: lists go by write(), without batches, and each error of it is said."""
    end = shell(f"{KEPT_PORTALS} && exec {client('records')} {QUEUES[0]} 1 1")
    expect(end.returncode == 2, f"a portal that is kept is mapped: status {end.returncode}")
    for queue in (*QUEUES, BOTH):
        for deep in (0, 8):
            command = f"{KEPT_PORTALS} && exec {client('lists')} {queue} {LISTS} {deep} {deep}"
            for words in (["--queue", "dedicated,2,x", "--queue", "shared,2,y"], ["--retry", 3]):
                end = shell(command, "--order", "all", "--fault", 2, "--verbose", *words)
                told(f"lists by write(): {queue}, {deep} in flight", end, 0, " 0 wrong", ", 0 of them batches")
    no_memory = "the kernel has not enough memory: free some, and run the list again"
    errors = [("Operation not permitted", NO_RIGHT), ("Permission denied", NO_RIGHT)]
    errors += [("Cannot allocate memory", no_memory), ("Invalid argument", REFUSED)]
    errors += [("Input/output error", "see write(2)")]
    end = traced("--", client("kernel"), QUEUES[0], *(0, 11, 16, 4), *(1, 13, 12, 22, 5))  # errno, as of Linux
    ended("errors of write()", end, DONE * 4 + "".join(UNWRITTEN.format(*it) for it in errors) + "16 entries\n")
    ended("no descriptors by write()", traced("--", client("kernel"), QUEUES[0], -1), KEPT_WITHOUT, 2)


def threads():
    """The example of threads leaves what its requests leave in order, and needs at most 80 lines."""
    expect(len(THREADS.read_text().splitlines()) <= 80, f"{THREADS.name} has more than 80 lines")
    for options in (["--fault", 2], ["--queue", "shared,2,x", "--retry", 2], ["--queue", "dedicated,2,x"]):
        for order in ("fifo", "all"):
            end = traced("--seeds", SEEDS, "--order", order, *options, "--", client(THREADS.stem))
            told(f"threads: {order} {options}", end, 0)
            expect(end.stdout == f"{QUEUES[0]}: 400 requests, as in order\n" * SEEDS, f"threads print {end.stdout}")


def checksum():
    """The example publishes exactly a block that is right, and says its checksum."""
    expect(len(CHECKSUM.read_text().splitlines()) <= 70, f"{CHECKSUM.name} has more than 70 lines")
    block = bytes(i * 7 & 0xFF for i in range(4096))
    said = f"checksum {model.checksum(block, 0, 0):08x}, "
    failed = CHECKED.format(4, "the first difference is at byte 0")
    for how, lines in (("right", f"{said}published\n"), ("wrong", f"{failed}{said}not published\n")):
        end = traced("--seeds", 4 * SEEDS, "--order", "all", "--", client("queue_checksum"), how)
        told(f"the checksum: {how}", end, 0)
        expect(end.stdout == lines * (4 * SEEDS), f"the checksum {how} prints {end.stdout}")


def journal():
    """The example publishes exactly what is right, under many seeds, and needs at most 70 lines."""
    expect(len(JOURNAL.read_text().splitlines()) <= 70, f"{JOURNAL.name} has more than 70 lines")
    several = (["--fault", 2], ["--queue", "shared,1,x", "--retry", 2], ["--queue", "dedicated,1,x", "--fault", 1])
    for how, line in (("right", DONE), ("wrong", CHECKED.format(9, "the first difference is at byte 0"))):
        for options in several:
            end = traced("--seeds", 4 * SEEDS, "--order", "all", *options, "--", client("queue_journal"), how)
            told(f"the journal: {how} {options}", end, 0)
            expect(end.stdout == line * (4 * SEEDS), f"the journal {how} {options} prints {end.stdout}")


# What ends.c prints, by hand: the sentence of each list, with addresses as AT.
FAULT = "operation {}: page fault at AT ({}, status 0x{}): nothing is mapped there, or it is not for {}; correct the "
FAULT += "address or the mapping\n"
KEPT = "operation 0: page fault at AT (write, status 0x{}); make the page present, "
KEPT += "restore what the list has changed, and run it again\n"
CHECKED = "operation {}: the check failed, {}; nothing after the next barrier was begun\n"
DELTA = "operation 0: the offsets of the delta {}; correct the delta\n"
OVERLAP = "operation 0: its source and its target overlap, and this device can't move that; let the processor do "
OVERLAP += "it\n"
OVERLAPS_NOW = "operation {}: its source and its target overlap where it was placed, and this device can't move that; "
OVERLAPS_NOW += "place it elsewhere\n"
NOT_THERE = "there is no operation 2 to place, and nothing was placed; place all of the list's 2 in order, from 0, or "
NOT_THERE += "prepare or clear it\n"
FULL = "{} has not accepted an entry for {} ms, and nothing more was begun; it is enabled\n"
SILENT = QUEUES[0] + " has not answered for {} ms; it is {}; leave the buffers as they are, since the device may still "
SILENT += "use them\n"
LACKING = "the prices are {} for a lone descriptor, {} for a batch and {} for a fence; give those of both a lone "
LACKING += "descriptor and a batch, or none\n"
ABOVE = "the prices are {} for a lone descriptor, {} for a batch and {} for a fence, and none may be above 1000000000\n"
SAID = {
    "options": "a queue has at most 64 lists, and a list at most 65536 pieces\n"
    "no flag of a queue is AT; dsa_queue.h has them\n"
    + "".join(LACKING.format(*it) for it in ((7, 0, 0), (0, 8, 0), (0, 0, 9), (7, 0, 9), (0, 8, 9)))
    + "".join(ABOVE.format(*it) for it in ((1000000001, 8, 0), (7, 8, 1000000001))),
    "absent": FAULT.format(1, "read", 3, "reading") + "at the page 1\n" + DONE + FAULT.format(0, "write", 3, "writing"),
    "kept": KEPT.format(3) + KEPT.format(4),
    "both": CHECKED.format(1, "the first difference is at byte 0"),
    "failing": DELTA.format("do not increase (status 7)") + DELTA.format("are out of range (status 8)") + DONE
    + CHECKED.format(0, "the bytes are equal"),
    "checksums": 3 * DONE + CHECKED.format(1, "the first difference is at byte 0")
    + FAULT.format(1, "write", 3, "writing") + 2 * DONE,
    "refused": "the list has not been run since it was changed; run it\nthe list is empty; add an operation\n"
    "refused 5: descriptor 1: the transfer size is 0\n"
    "operation 0 has 4294967296 bytes, and one may have at most 4294967295; use several\n"
    "operation 3: a list of this queue has at most 3 pieces; open the queue with more\n"
    "refused 8: descriptor 0: the low twelve bits of a dualcast's destinations differ\n" + DONE,
    "misplaced": 2 * (NOT_THERE + DONE + DONE),
    "again": DONE,
    "polled": "the queue was not opened for lists in flight; open it for them, or run the list\n",
    "forked": 2 * "this process is a child of fork, and the queue is its parent's; open a queue here\n" + DONE,
}


def ended(what, end, wanted, status=0):
    printed = re.sub(r"0x[0-9a-f]{5,}", "AT", end.stdout)
    right = end.returncode == status and printed == wanted
    expect(right, f"{what}: status {end.returncode}, printed\n{printed}{end.stderr}and not\n{wanted}")


def ends():
    """Faults, failures, refusals, forks and runs again, each with its status and its sentence."""
    for name, wanted in SAID.items():
        for queue in QUEUES:
            options = ["--fault", 2, *(["--cpuid"] if queue == QUEUES[1] else [])]
            ended(name, traced("--order", "all", *options, "--", client("ends"), name, queue), wanted)
    ended("no overlap", shell(f"echo 0x0 > {DEVICES}/dsa0/gen_cap; exec {client('ends')} refused {QUEUES[0]}"),
          SAID["refused"].removesuffix(DONE) + OVERLAP)
    ended("placed without overlap", shell(f"echo 0x0 > {DEVICES}/dsa0/gen_cap; exec {client('ends')} overlapped"),
          OVERLAPS_NOW.format(0) + OVERLAPS_NOW.format(1) + OVERLAPS_NOW.format(1) + DONE)
    for size in (1, 2, 3):
        for mode in ("dedicated", "shared"):
            words = ["--queue", f"{mode},{size},x", "--order", "fifo" if mode == "shared" else "all"]
            ended(f"threads: {words}", traced(*words, "--", client("ends"), "threads"), "")
    end = traced("--retry", 1, "--", client("ends"), "limit", QUEUES[1])
    ended("a queue that takes nothing", end, FULL.format(QUEUES[1], 100))
    words = ["--retry", 1, "--queue", "shared,1,x", "--queue", "shared,1,y"]
    ended("queues that take nothing", traced(*words, "--", client("ends"), "limit", BOTH),
          f"none of {BOTH} has accepted an entry for 100 ms, and nothing more was begun; {QUEUES[0]} is enabled, "
          f"{QUEUES[1]} is enabled\n")
    words = ["--queue", "dedicated,1,x", "--delay", 3000000]
    end = traced(*words, "--", client("ends"), "dropped", QUEUES[0])
    ended("a queue that drops an entry", end, SILENT.format(100, "enabled"))


# What is done to a device's files, the queue that is asked for (without a name the first), and what is said.
UNBIND = "/sys/bus/dsa/drivers/user/unbind"
OPENED = [
    ("true", "", f"opened {QUEUES[0]}"),
    (f"echo wq0.0 > {UNBIND}", "", f"opened {QUEUES[1]}"),
    (f"echo wq0.1 > {UNBIND}", "wq0.1", "FILE: the queue is disabled; accel-config enable-wq enables it"),
    (f"echo 0 > {DEVICES}/dsa0/pasid_enabled", "",
     f"{QUEUES[0]}: the device can't use addresses of programs (dsa0/pasid_enabled is not 1); start Linux with "
     "intel_iommu=on,sm_on"),
    (f"echo kernel > {DEVICES}/wq0.0/type", "wq0.0",
     "FILE: the queue is of type kernel; accel-config config-wq --type=user makes it one for programs"),
    (f"echo kernel > {DEVICES}/wq0.0/type; echo mdev > {DEVICES}/wq0.1/type", "",
     f"no queue of type user is enabled in {DEVICES}; accel-config load-config makes one"),
    (f"echo 0 > {DEVICES}/wq0.0/size", "wq0.0",
     f"FILE: the driver does not say how many entries the queue holds ({DEVICES}/wq0.0/size)"),
    ("true", "wq1.0", f"FILE: {DEVICES} has no such queue of DSA; accel-config list shows those that there are"),
    ("true", f"wq0.0:{QUEUES[1]}", f"opened {BOTH}"),
    ("true", f"wq0.0:{QUEUES[0]}", f"{QUEUES[0]} is there twice; name it once"),
    ("true", "wq0.0:", "a queue's file has 1 to 255 bytes, and there is a name of 0; names are between colons"),
    ("true", f"wq0.0:/dev/dsa/{'w' * 300}",
     "a queue's file has 1 to 255 bytes, and there is a name of 309; names are between colons"),
    ("true", ":".join(f"wq0.{i}" for i in range(300)), "the names of files have more than 1023 bytes; name fewer"),
    (f"echo wq0.1 > {UNBIND}", f"wq0.0:{QUEUES[1]}",
     f"{QUEUES[1]}: the queue is disabled; accel-config enable-wq enables it"),
    (f"rm {QUEUES[0]}", "wq0.0", "FILE can't be opened: No such file or directory"),
]


def opening():
    """What opening says of a device or a queue that can't be used, and which queue it takes."""
    for change, name, said in OPENED:
        file = f"/dev/dsa/{name}" if name else ""
        end = shell(f"{change}; exec {client('ends')} open {file}")
        ended(f"opening after {change}", end, said.replace("FILE", file) + "\n", 0 if said.startswith("opened") else 2)
    if os.getuid() == 0 and shutil.which("setpriv"):
        nobody = f"setpriv --reuid 65534 --clear-groups {client('ends')} open {QUEUES[0]}"
        os.chmod(WORK, 0o755)
        said = f"{QUEUES[0]}: there is no right to open it; chgrp and chmod, or a rule of udev, give it\n"
        ended("opening without the right", shell(f"chmod 600 {QUEUES[0]}; exec {nobody}"), said, 2)
    else:
        skip("opening without the right, which needs root and setpriv")
    if not Path(DEVICES).exists():
        ended("opening without a device", ran(client("ends"), "open"),
              f"there is no device: the driver idxd has made no {DEVICES}; dsa_trace has one in software\n", 2)


OF_LOST = "a list that this one has to wait for is lost; use other buffers\n"
HELD = "the device has not answered what was submitted of this list before; use another list\n"
STOPPED = {
    "in_flight": f"{OF_LOST}a list that this one comes after has not succeeded; that one says why, and what to do\n"
    + OF_LOST + HELD + DONE + DONE + FULL.format(QUEUES[0], 10000),
    "after": DONE,
    "lost": SILENT.format(10000, "enabled") + HELD + DONE + SILENT.format(10000, "enabled"),
    "disabled": FULL.format(QUEUES[0], 10000) + SILENT.format(10000, "disabled"),
    "populated": 3 * DONE,
    "blamed": "operation 1: page fault at 0x1000 (write, status 0x3): nothing is mapped there, or it is not for "
    "writing; correct the address or the mapping\n",
    "overlapping": DONE + DONE,
    "endless": "operation 0: pages are absent again each time they were made present; pin the buffers\n",
    "batches": DONE + "a batch has failed with status 0x14, which linux/idxd.h names; correct the queue's "
    "configuration\n",
    "other_status": "operation 0: status 0x1a, which linux/idxd.h names; correct the operation or the queue's "
    "configuration\n",
}


def stopped():
    """A device that does not answer, that stops at pages and in batches, and that is disabled in flight."""
    for name, wanted in STOPPED.items():
        ended(name, traced("--", client("stopped"), name), wanted)


def allocations():
    """Each allocation of opening and of planning fails: it is said, nothing is left, and the next run succeeds."""
    for flags in (0, 16):  # DSA_QUEUE_IN_FLIGHT
        refused_memory(traced("--fault", 1, "--", client("memory"), QUEUES[0], flags))


def refused_memory(end):
    """What is said of each allocation that fails."""
    lines = ["there is not enough memory for a queue", "the portal can't be mapped: Cannot allocate memory",
             "there is not enough memory for 16 lists of 64 pieces; open the queue with fewer",
             "memory can't be kept from children of fork (madvise: Cannot allocate memory); it can with Linux 4.14 or",
             "\nrefused 73: there was not enough memory",
             "after a failure what is left can't be planned, and was not begun: refused 73: ",
             "refused 1, failed 1, done 1, 0 wrong"]
    told("each allocation refused", end, 0, *lines)


# How operations end on a device; 0: no record is written. 6, 0x1a and 0x1b are no answer to a descriptor.
STATUSES = {0, 1, 2, 5, 7, 8, 9, *range(0x10, 0x1A), 0x1C}


def records():
    """Descriptors of all operations, right and wrong, end in software as on the software device, byte for byte."""
    limits = f"cd {DEVICES}/wq0.0 && echo 4096 > max_transfer_size && echo 3 > max_batch_size"
    for seed in range(1, SEEDS + 1):
        alone = ran(client("records"), "software", 2000, seed)
        end = shell(f"{limits} && exec {client('records')} {QUEUES[0]} 2000 {seed}", "--order", "fifo")
        expect(alone.returncode == 0 == end.returncode and alone.stdout == end.stdout, f"seed {seed}: records differ")
        came = {int(it, 0) for it in re.findall(r"^status (\w+):", alone.stdout, re.M)}
        expect(came == STATUSES, f"seed {seed}: statuses {sorted(map(hex, came))}")


def software():
    """The processor in the place of a device: the same memory, results and sentences; with sanitizers too."""
    said = {name: SAID[name] for name in ("options", "failing", "refused", "misplaced", "again", "polled", "forked")}
    said["threads"] = ""
    for flags in ([], SANITIZE, SANITIZE_THREADS):
        if flags and not sanitizers(flags):
            skip(f"there is no {flags[0]}")
            continue
        for name, source in (("lists", None), ("ends", None), ("placed", None), (THREADS.stem, THREADS)):
            end = compiled(name, *flags, source=source, output=client(f"{name}_alone"))
            told(f"the build of {name} {flags}", end, 0)
        if not Path(DEVICES).exists():
            end = ran(client(f"{THREADS.stem}_alone"))
            told(f"threads in software {flags}", end, 0, "software: 400 requests, as in order")
        for seed in range(1, SEEDS + 1):
            for deep in (0, 2, 8):
                end = ran(client("lists_alone"), "software", 10 * int(LISTS), seed, deep)
                told(f"lists in software {flags}, {deep} in flight", end, 0, " 0 wrong")
            end = ran(client("placed_alone"), "software", 5 * int(LISTS), seed)
            told(f"placed in software {flags}", end, 0, " 0 wrong")
        for name, wanted in said.items():
            ended(f"{name} in software {flags}", ran(client("ends_alone"), name, "software"), wanted)


NO_SUCH = f"FILE: {DEVICES} has no such queue of DSA; accel-config list shows those that there are"
NO_NAME = "a queue's file has 1 to 255 bytes, and there is a name of 0; names are between colons"
# What is named if software would do: what is said on a machine without a device, where it does them if the second is
# true, and under dsa_trace, where it does them never.
OR_SOFTWARE = [
    ("/dev/dsa/wq9.9", True, NO_SUCH, NO_SUCH),
    ("/dev/dsa/wq9.9:/dev/dsa/wq9.8", True, NO_SUCH.replace("FILE", "/dev/dsa/wq9.9"), NO_SUCH),
    ("", False, NO_NAME, NO_NAME),
    (f"{QUEUES[0]}:", False, NO_NAME, NO_NAME),
    (f"{QUEUES[0]}:{QUEUES[0]}", False, *2 * (f"{QUEUES[0]} is there twice; name it once",)),
    ("/etc/passwd", False, NO_SUCH, NO_SUCH),
    ("/dev/dsa/wq0.0x", False, NO_SUCH, NO_SUCH.replace(" of DSA", "")),
    ("/dev/dsa", False, NO_SUCH, NO_SUCH),
    ("WORK/wq0.0", False, NO_SUCH, ""),
    (QUEUES[1], True, NO_SUCH, f"{QUEUES[1]}: the queue is disabled; accel-config enable-wq enables it"),
]


def or_software():
    """DSA_QUEUE_OR_SOFTWARE hides no wrong name, and no queue that is there and can't be opened."""
    Path(WORK, "wq0.0").write_text("")
    for name, is_done, alone, with_device in OR_SOFTWARE:
        file = name.replace("WORK", WORK)
        if not Path(DEVICES).exists():
            said = alone.replace("FILE", file) + "\n"
            end = ran(client("ends"), "or_software", file)
            ended(f"{name} or software", end, f"software: {said}{DONE}" if is_done else said, 0 if is_done else 2)
        if with_device:
            end = shell(f"echo wq0.1 > {UNBIND}; exec {client('ends')} or_software '{file}'")
            said = with_device.replace("FILE", file.split(":")[0])
            ended(f"{name} or software, with a device", end, said + "\n", 2)
    ended("a device, though software would do", traced("--", client("ends"), "or_software"), f"{QUEUES[0]}: \n" + DONE)
    unbound = shell(f"echo wq0.0 > {UNBIND}; echo wq0.1 > {UNBIND}; exec {client('ends')} or_software")
    said = f"software: no queue of type user is enabled in {DEVICES}; accel-config load-config makes one\n"
    ended("no name, and no queue that is enabled", unbound, said + DONE)


# Wrong variants of the layer: a file, what is changed, and a run that has to see it.
WRONG = [
    ("records are not cleared", "run.c", "    memset(list->records, 0, RECORD * (size_t)list->pieces);\n", "", "again"),
    ("records of batches are not cleared", "run.c",
     "            memset(record_of(list->portal + ENTRY * i), 0, RECORD);", "            continue;", "again"),
    ("a barrier is lost after a page fault", "fault.c", "bytes += number_at(list->rest + at + 32, 4);",
     "bytes += number_at(list->rest + at + 32, 4);\n        list->rest[at + 4] &= 0xfe;", "journal"),
    ("records of pieces that run from the end are taken in the other order", "fault.c",
     "(is_from_end(d) ? count - 1 - k : k)", "k", "split"),
    ("a checksum is not said", "why.c", "        result.has_checksum = 1;\n", "", "lists"),
    ("a checksum does not go on after an absent page", "fault.c", "    const bool is_page_fault = ",
     "    const bool is_page_fault = !is_checksum(d) && ", "populated"),
    ("the place of a checksum is that of another", "list.c", "list->first[operation] + CHECKSUM_AT",
     "list->first[operation / 2] + CHECKSUM_AT", "lists"),
    ("an overlapping move is done again", "fault.c",
     "        shorten(list->rest + at, record_of(list->rest + at));\n", "", "lists"),
    ("a page fault that was mended is said", "fault.c", "                list->stopped_at = record;\n",
     "                list->stopped_at = list->records;\n", "blamed"),
    ("a failed check is forgotten", "fault.c", "        list->has_failed_check = true;\n", "        ;\n", "journal"),
    ("nothing is left out", "flight.c", "ready = leave_out(queue, ready);", ";", "deep"),
    ("the end of a start is not noted", "flight.c", "    tell(list, how);\n", "", "after"),
    ("a start that has ended before is forgotten", "flight.c",
     "        list->is_after_failed |= other->end != DSA_LIST_DONE;\n", "        ;\n", "after"),
    ("a list that was given back counts as its next user's", "flight.c", "    tell(list, DSA_LIST_REFUSED);\n", "",
     "after"),
    ("what was lost and is answered stays lost for others", "flight.c",
     "        recover(queue->of_slot[__builtin_ctzll(left)]);\n", "        ;\n", "in_flight"),
    ("a list is changed in flight", "flight.c", "    dsa_list_wait(list);\n    list->was_started = false;\n",
     "    list->was_started = false;\n", "polled"),
    ("a list is filled whose operands are not in step", "prepared.c", "(*base != unset && *base != now)", "0",
     "placed"),
    ("a seed in memory is no operand", "list.c", "        count++;\n", "        ;\n", "placed"),
    ("a list that was placed elsewhere keeps its plan", "list.c", "    list->is_planned = false;\n", "    ;\n",
     "placed"),
    ("a place that fails is forgotten", "run.c", "        return list->misplaced;\n", "        ;\n", "misplaced"),
    ("a barrier is lost", "list.c", "        dsa_set_flags(to, DSA_BARRIER);\n", "        ;\n", "journal"),
    ("a move goes on a byte too far", "fault.c", "number_at(d + 16, 8) + done, 8);",
     "number_at(d + 16, 8) + done + 1, 8);", "lists"),
    ("nothing waits", "flight.c", "    else if (waits == 0)\n", "    else\n", "deep"),
    ("no credits are counted", "portal.c",
     "    if (!port->is_shared && !take_credit(port))\n        return REFUSED_FULL;\n", "", "threads"),
]
# How a variant is run; a right layer ends with 0.
RUNS = {
    "again": ["ends", "again", QUEUES[0]],
    "lists": ["lists", QUEUES[0], LISTS, 1],
    "split": ["lists", QUEUES[0], 5 * int(LISTS), 1],
    "deep": ["lists", QUEUES[0], 5 * int(LISTS), 1, 8],
    "journal": ["queue_journal", "wrong", QUEUES[0]],
    "threads": ["ends", "threads", QUEUES[0]],
    "polled": ["ends", "polled", QUEUES[0]],
    "placed": ["placed", QUEUES[0], LISTS, 1],
    "misplaced": ["ends", "misplaced", QUEUES[0]],
    "after": ["stopped", "after"],
    "in_flight": ["stopped", "in_flight"],
    "blamed": ["stopped", "blamed"],
    "populated": ["stopped", "populated"],
}
WITHOUT = {"stopped": "portal.c"}


def statuses(program, words, is_split):
    """How a program ends on a small queue under eight seeds; if operations are to be split, at 1,000 bytes."""
    command = f"exec {program} {' '.join(map(str, words))}"
    command = f"echo 1000 > {DEVICES}/wq0.0/max_transfer_size; {command}" if is_split else command
    options = ["--queue", "dedicated,2,x", "--order", "all", "--fault", 2]
    for seed in range(1, 9):
        yield shell(command, "--seed", seed, *options).returncode


def wrong():
    """Each wrong variant of the layer fails, where the right one does not."""
    for run, (name, *words) in RUNS.items():
        expect(not any(statuses(client(name), words, run == "split")), f"the right layer: {run} fails")
    for what, file, old, new, run in WRONG:
        folder = Path(WORK, f"wrong {what}")
        shutil.copytree(LAYER, folder)
        text = (folder / file).read_text()
        expect(text.count(old) == 1, f"{file} has not once: {old}")
        (folder / file).write_text(text.replace(old, new))
        name, *words = RUNS[run]
        source = JOURNAL if name == JOURNAL.stem else f"tests/work_queue/{name}.c"
        output = f"{WORK}/wrong_{name}"
        how = {"source": source, "folder": folder, "output": output, "without": WITHOUT.get(name, "")}
        told(f"the build: {what}", compiled(name, "-w", **how), 0)
        expect(any(statuses(output, words, run == "split")), f"{what}: {run} ends with 0 under each seed")


def main(words):
    make.need_proved("libdsa_c.a")
    if not built_all(()):
        return
    told("the build of lists", compiled("lists"), 0)
    told("the build of ends", compiled("ends"), 0)
    told("the build of stopped", compiled("stopped", without="portal.c"), 0)
    told("the build of memory", compiled("memory", *WRAPPED), 0)
    told("the build of placed", compiled("placed"), 0)
    told("the build of kernel", compiled("kernel", "-Wl,--wrap=mmap,--wrap=write"), 0)
    told("the build of records", compiled("records"), 0)
    told("the build of threads", compiled(THREADS.stem, source=THREADS), 0)
    for example in (JOURNAL, CHECKSUM):
        told(f"the build of {example.name}", compiled(example.stem, source=example), 0)
    parts = [built, lists, several, written, placed, threads, checksum, journal, ends, opening, stopped, allocations]
    parts += [records, software, or_software, speed, wrong]
    for part in named(parts, words):
        part()


if __name__ == "__main__":
    run_test(main)
