"""Builds callers in C of the proved archive, before it is packed, and looks at what they print: golden output, each
allocation refused in turn, random lists beside the program. It uses valgrind and sanitizers where they are, and says so
where they aren't; without a C compiler it is skipped. CC names the compiler, LISTS how many random lists (250),
FILLED how many are prepared and filled (1,000), REASONS how many are explained (400), TRACKED how many sequences of a
tracker's calls are made (2,000), FLIGHTS how many cases of many submissions in flight are run (300). tests/package.py
has the callers of the package. The words are names of parts."""

import os
import re
import shutil
import struct
import subprocess
import sys
import tempfile
from pathlib import Path

import measure
from common import ROOT, SANITIZE, SANITIZE_THREADS, block_after, compiler, expect, named, program, run_test, sanitizers

sys.path.insert(0, str(ROOT / "bindings/package"))
import make

ARCHIVE = ROOT / "crates/dsa_c/out/libdsa_c.a"
WARN = ["-Wall", "-Wextra", "-Werror"]
# The most instructions for each of 32 moves. Without the short ways of such lists they take 100 to 490 more.
MOST_INSTRUCTIONS = {"apart": 330, "two areas": 335, "shuffled": 410, "chained": 530, "random": 525}


def tried(what, command, printed=None, **how):
    """A case: the command ends with status 0, and prints just this text where one is wanted."""
    ran = subprocess.run(command, capture_output=True, text=True, **how)
    right = ran.returncode == 0 and printed in (None, ran.stdout)
    said = "\n".join((ran.stdout + ran.stderr).splitlines()[-20:])
    expect(right, f"{what} ends with status {ran.returncode}:\n{said}")


def compiled(source, *words, memory=True):
    """Builds a caller, a file or a folder of them, over the memory functions of the package unless it has its own;
    answers where the program is."""
    output = f"{WORK}/{Path(source).stem}{len(os.listdir(WORK))}"
    flags = ["-std=c11", "-D_GNU_SOURCE", *WARN, "-O2", "-g", "-I", "bindings/c"]
    files = sorted(Path(source).glob("*.c")) or [source]
    sources = [*files, *(["bindings/c/memory.c"] if memory else [])]
    tried(f"the build of {source}", [compiler(), *flags, *sources, ARCHIVE, *words, "-o", output])
    return output


def header():
    """The header declares each function that the archive exports, and beside them the version alone; it is C++ too."""
    symbols = subprocess.run(["nm", "-g", "--defined-only", ARCHIVE], capture_output=True, text=True).stdout
    exported = set(re.findall(r" T (dsa_[a-z_]*)$", symbols, re.M))
    declared = set(re.findall(r"\b(dsa_[a-z_]*)\(", Path("bindings/c/dsa_planner.h").read_text()))
    declared.remove("dsa_planner_version")
    expect(exported and exported == declared, f"the archive exports {exported}, the header declares {declared}")
    plus = [compiler(), "-x", "c++", "-std=c++17", *WARN, "-fsyntax-only"]
    if subprocess.run([*plus, "/dev/null"], capture_output=True).returncode == 0:
        tried("the header in C++", [*plus, "bindings/c/dsa_planner.h"])
    else:
        print("there is no C++ compiler")


def examples():
    """The examples in C; submit is not run, since it needs the device (`trace` runs it)."""
    golden = Path("bindings/c/two_moves.stdout").read_text()
    tried("two_moves", [compiled("bindings/c/two_moves.c")], golden)
    golden = Path("bindings/c/own_memory.stdout").read_text()
    tried("own_memory", [compiled("bindings/c/own_memory.c", memory=False)], golden)
    compiled("bindings/c/submit.c")


def calls():
    """Each call with good and bad arguments, with each allocation refused, and under valgrind and sanitizers."""
    tried("calls", [compiled("tests/bindings/calls.c")])
    refused = compiled("tests/bindings/refused_memory.c", memory=False)
    tried("refused allocations", [refused])
    if shutil.which("valgrind"):
        watch = ["valgrind", "-q", "--error-exitcode=9", "--leak-check=full", "--errors-for-leak-kinds=all"]
        for caller in (compiled("bindings/c/two_moves.c"), refused):
            tried(f"{Path(caller).name} under valgrind", [*watch, caller])
    else:
        print("there is no valgrind")
    if sanitizers():
        tried("sanitizers", [compiled("tests/bindings/refused_memory.c", *SANITIZE, memory=False)])
    else:
        print("there are no sanitizers")


def fenced():
    """Lists in which a fence is a barrier, beside every plan of them (FENCED=10000)."""
    count = os.environ.get("FENCED", "200")
    tried("fenced", [compiled("tests/bindings/fenced.c"), count], f"{count} lists with barriers\n")


def with_library():
    """The environment in which the Python module finds a shared object of the archive."""
    library = f"{WORK}/libdsa_planner.so.1"
    if not Path(library).exists():
        whole = ["-Wl,--whole-archive", ARCHIVE, "-Wl,--no-whole-archive"]
        parts = [f"bindings/c/{name}.c" for name in ("memory", "version")]
        flags = ["-O2", "-fPIC", "-shared", "-I", "bindings/c"]
        tried("the build of a shared object", [compiler(), *flags, *parts, *whole, "-o", library])
    return {**os.environ, "DSA_PLANNER_LIBRARY": library}


def planner(folder):
    """The Python module over that shared object, which is built in the folder."""
    global WORK
    WORK = folder
    os.environ.update(with_library())
    sys.path.insert(0, str(ROOT / "bindings/python"))
    import dsa_planner

    return dsa_planner


def resumed():
    """What is left of random lists by random completion records, and each refusal (RESUMED=100000); lists that stop,
    some with shared records, beside a model (STOPPED=20000)."""
    count = os.environ.get("RESUMED", "2000")
    tried("resumed", [compiled("tests/bindings/resumed.c"), count, "20261127"], f"{count} lists resumed\n")
    if sanitizers():
        tried("resumed with sanitizers", [compiled("tests/bindings/resumed.c", *SANITIZE), "200", "7"])
    command = [sys.executable, "-B", "tests/resume_model.py", os.environ.get("STOPPED", "200"), "20261128"]
    tried("lists that stop beside the model", command, env=with_library())


def reasons():
    """Why random lists have their fences and groups, beside a model and dsa_text (REASONS=20000)."""
    command = [sys.executable, "-B", "tests/reasons_model.py", os.environ.get("REASONS", "400"), "20261129"]
    tried("reasons beside the model", command, env=with_library())


def random_lists():
    """The answers of the library are those of the program, but for the names of refusals."""
    lists = Path(WORK, "lists")
    lists.mkdir()
    count = os.environ.get("LISTS", "250")
    tried("random lists", [compiled("tests/bindings/random_lists.c"), lists, count, "20261123"])
    jobs = sorted(lists.glob("*.job"))
    for job in jobs:
        ran = subprocess.run([program("dsa")], input=job.read_bytes(), stdout=subprocess.PIPE)
        line = ran.stdout.decode()
        line = re.sub(r" [A-Z][A-Za-z]*", "", line) if line.startswith("refused") else line
        own = job.with_suffix(".line").read_text()
        if line.strip() != own.strip():
            expect(False, f"{job.read_text()}: the program answers {line}, the library {own}")
            return
    expect(len(jobs) >= int(count), f"of {count} random lists there are only {len(jobs)} jobs")


def prepared():
    """What is filled of random prepared lists is what planning them at their new addresses answers, and each refusal is
    that of a model, also of rows that were damaged; the most pieces and none; threads that share a prepared list. Then the
    ring of buffers of which docs/USING.md says what it prints."""
    source, count = "tests/bindings/prepared.c", os.environ.get("FILLED", "1000")
    tried("prepared lists", [compiled(source, "-pthread"), count, "20261125", "4"])
    if shutil.which("valgrind"):
        tried("prepared lists under valgrind", ["valgrind", "-q", "--error-exitcode=9", compiled(source, "-pthread"), "20", "7", "2"])
    if sanitizers():
        tried("prepared lists with sanitizers", [compiled(source, "-pthread", *SANITIZE), "200", "9", "4"])
    tried("the ring of docs/USING.md", [compiled("bindings/c/ring.c")], block_after("docs/USING.md", "It prints", ""))


def chains():
    """Random chains cost what a plain model says, and have the plan that a table of equal prices leads to."""
    tried("chains", [compiled("tests/bindings/chains.c"), os.environ.get("CHAINS", "20000"), "20261127"])


def regions():
    """Bases in any order are refused as a look at each two regions says, around the counts that are sorted."""
    tried("regions", [compiled("tests/bindings/regions.c"), os.environ.get("REGIONS", "5000"), "20261127"])


def tracked():
    """Calls of a tracker on words that nobody began, and sequences of them by the Python module beside a model."""
    source, count = "tests/bindings/tracked.c", os.environ.get("TRACKED", "2000")
    tried("a tracker on any words", [compiled(source), "20000", "20261126"])
    if shutil.which("valgrind"):
        watch = ["valgrind", "-q", "--error-exitcode=9"]
        tried("a tracker on any words under valgrind", [*watch, compiled(source), "200", "7"])
    if sanitizers():
        tried("a tracker on any words with sanitizers", [compiled(source, *SANITIZE), "2000", "9"])
    command = [sys.executable, "-B", "tests/tracker_model.py", count, "20261126"]
    tried("a tracker beside the model", command, env=with_library())


def flights():
    """Lists that several threads do as a tracker lets them leave what they leave in order; a dropped wait is seen."""
    source, count = "tests/bindings/flights", os.environ.get("FLIGHTS", "300")
    plain = compiled(source, "-pthread")
    tried("flights", [plain, count, "50", "20261126"])
    if shutil.which("valgrind"):
        watch = ["valgrind", "-q", "--error-exitcode=9", "--fair-sched=yes"]
        tried("flights under valgrind", [*watch, plain, "3", "0", "7"])
    for flags in (SANITIZE, SANITIZE_THREADS):
        if sanitizers(flags):
            tried(f"flights with {flags[0]}", [compiled(source, "-pthread", *flags), "20", "0", "9"])
        else:
            print(f"there is no {flags[0]}")


def in_flight():
    """The example of a tracker prints what docs/USING.md says."""
    printed = block_after("docs/USING.md", "The program prints")
    tried("the tracker of docs/USING.md", [compiled("bindings/c/tracker.c")], printed)


def recorder():
    """Four threads record by the lines of docs/USING.md: each batch is followed by its own members, and none is lost."""
    lines, recording = Path(WORK, "recorder.inc"), Path(WORK, "recording")
    lines.write_text(block_after("docs/USING.md", "At the place where it rings the portal", "c"))
    built = f"{WORK}/recorder"
    words = [compiler(), "-std=c11", "-D_GNU_SOURCE", *WARN, "-O2", "-pthread", f'-DRECORDER="{lines}"']
    tried("the build of the recorder", [*words, "tests/bindings/recorder.c", "-o", built])
    tried("the recorder", [built, recording])
    entries, found = recording.read_bytes(), []
    for at in range(0, len(entries), 64):
        owner, _, code, record = struct.unpack_from("<I3sBQ", entries, at)
        found.append((owner, code, record))
    batches = [found[at : at + 4] for at in range(0, len(found), 4)]
    mixed = [batch for batch in batches if batch != [(batch[0][0], 1, 0), *((batch[0][0], 0, k) for k in range(3))]]
    owners = sorted(batch[0][0] for batch in batches)
    expect(not mixed and owners == [thread for thread in range(4) for _ in range(200)], f"the recording has {mixed[:3]}")


def sentences_of_the_page():
    """What docs/FORMATS.md says of each cause of a call from C, by number, with its places as fields to fill in; and of
    83 and 126 what it says by their first number, of each setting and each measure of a tracker."""
    page, said = Path("docs/FORMATS.md").read_text(), {}
    for number, places, cause in re.findall(r"^\| (\d+) \| [A-Z]\w+([^|]*) \| (.*) \|$", page, re.M):
        sentence = re.sub("^(preparing|filling|tracking|from C): ", "", cause)
        if 2 <= int(number) <= 13:
            sentence, places = f"descriptor i: {sentence}", "i"
        for place, field in zip(places.split(), ("{0}", "{1}")):
            sentence = re.sub(rf"\b{place}\b", field, sentence)
        said[int(number)] = sentence
    settings, measures = page.split("\n| Measure | Argument | Sentence |\n")
    rows = (re.findall(r"^\| (\d) \| `\w+` \| (.*) \|$", part, re.M) for part in (settings, measures))
    return said, {one: {int(first): it for first, it in of_one} for one, of_one in zip((83, 126), rows)}


def texts():
    """The text of each refusal is the sentence that docs/FORMATS.md has, whatever the room; no cause has none."""
    (said, by_first), most, wanted, asked = sentences_of_the_page(), 2**64 - 1, [], []
    within = [(47, inner) for inner in (2, 10, 12, 13, 33, 37)] + [(60, inner) for inner in (40, 41, 42, 43)]
    numbers = [(number, 0) for number in said] + within + [(0, 0), (14, 0), (129, 0), (2**32 - 1, 0), (0, 43), (60, 14)]
    for number, inner in numbers:
        firsts = ((k, 0) for k in range(1, 10)) if number in by_first else ()
        for first, second in ((0, 0), (7, 65_535), (most, most), *firsts):
            known = {**said, **{one: rows.get(first, said[one]) for one, rows in by_first.items()}}
            parts = [known[one] for one in (number, inner) if number in said and one in said]
            text = ": ".join(parts).format(first, second)
            for room in {512, len(text), max(0, len(text) - 1), 10, 0}:
                asked.append(f"{number} {inner} {first} {second} {room}\n")
                wanted.append(f"{len(text)} {text[:room].ljust(room + 1, '~')}\n")
    caller = compiled("tests/bindings/texts.c")
    ran = subprocess.run([caller], input="".join(asked), capture_output=True, text=True)
    for one, got, right in zip(asked, ran.stdout.splitlines(True), wanted):
        expect(got == right, f"the text of {one.strip()} is {got!r}, not {right!r}")
    expect(ran.returncode == 0 and len(ran.stdout.splitlines()) == len(wanted), "not all texts were written")


def speed():
    """How long short lists take from C: printed, not judged."""
    ran = subprocess.run([compiled("tests/bindings/speed.c"), "5"], stdout=subprocess.PIPE, text=True)
    print("\n".join(line for line in ran.stdout.splitlines() if " 32 moves" in line))
    for name in ("fill_speed", "track_speed"):
        ran = subprocess.run([compiled(f"tests/bindings/{name}.c"), "20"], stdout=subprocess.PIPE, text=True)
        expect(ran.returncode == 0, f"{name} ended with status {ran.returncode}")
        print(ran.stdout.rstrip())


def instructions():
    """Short lists are planned in the instructions that they have taken so far, however fast the machine is."""
    if not shutil.which("valgrind"):
        print("there is no valgrind")
        return
    caller = compiled("tests/bindings/speed.c")
    for kind, most in MOST_INSTRUCTIONS.items():
        counted = measure.instructions(caller, kind, "32", WORK)
        expect(0 < counted <= most, f"a move of 32 that are {kind} takes {counted} instructions, not up to {most}")


def main(words):
    global WORK
    if not compiler():
        print("skipped, there is no C compiler")
        sys.exit(0)
    make.need_proved("libdsa_c.a")
    with tempfile.TemporaryDirectory() as WORK:
        parts = [header, examples, calls, fenced, resumed, reasons, texts, chains, prepared, regions, tracked, flights]
        parts += [in_flight, recorder, random_lists, instructions, speed]
        for part in named(parts, words):
            part()


if __name__ == "__main__":
    run_test(main)
