"""What dsa_trace says of places: the stacks of submissions that findings name, from each kind of code and by each
compiler; findings from one place, shown once; variables; what is kept of it. Expected functions and lines are those of
the sources. The words are names of parts."""

import json
import os
import re
import shutil
from pathlib import Path

import schema
from common import block_after, expect, named, run_test, skip
from trace_runs import KNOWN, STRICT, TEXT, WORK, audited, built_all, client, has_text, ran, told, traced

SOURCE, HEADER = Path("tests/trace/placed.c"), Path("tests/trace/client.h")  # from the folder in which tests run
# At once; or in flight until the thread has run on for so many microseconds, also on a busy machine.
FIFO, LONG = ["--order", "fifo"], ["--delay", 20000]
FENCE = "missing fence, read after write"


def line(text, path=SOURCE):
    """FILE:LINE of the only line of a source that has this text."""
    [number] = [k for k, it in enumerate(path.read_text().splitlines(), 1) if text in it]
    return f"{path}:{number}"


def frames(*outer, first="flush", mark="flush submits"):
    """The lines of a stack: the instruction, the function that submits, and others outwards by texts of their lines."""
    ring = f"submit ({line('_movdir64b(portal, d)', HEADER)})"
    return [f"at {ring}", f"by {first} ({line(mark)})", *(f"by {name} ({line(text)})" for name, text in outer)]


def findings(text):
    """The findings of a report: what each is, its stacks, and its other lines."""
    found = []
    for row in text.splitlines():
        head = re.match(r"entry \d+ \(submission [^)]*\): (?:error|accepted): ([^:]*)", row)
        if head:
            found.append({"what": head[1], "stacks": [], "lines": []})
        elif found and re.match(r"    (?:at|by) ", row):
            found[-1]["stacks"][-1].append(row.strip())
        elif found and re.match(r"  submission \d+, by thread ", row):
            found[-1]["stacks"].append([])
        if found:
            found[-1]["lines"].append(row)
    return found


def built_by(compiler, *flags):
    """Builds the client with these flags and -g; false if the compiler is not there."""
    if not shutil.which(compiler):
        skip(f"places by {compiler}, which is not there")
        return False
    words = [compiler, *STRICT, "-g", *flags, "-o", client("placed"), SOURCE, "-ldl"]
    told(f"the build by {' '.join(map(str, words))}", ran(*words), 0)
    return True


def placed(*words, options=FIFO, **how):
    """The findings of an audit of the client."""
    end = audited(*options, "--", client("placed"), *words, **how)
    told(f"placed {words}", end, 1)
    return findings(end.stdout)


def shown(what, finding, kind, *stacks):
    """A case: a finding is of this kind, and has these stacks. Of a last call the line is that of the function."""
    got = finding["stacks"]
    right = finding["what"] == kind and [len(it) for it in got] == [len(it) for it in stacks]
    for row, wanted in zip(sum(got, []), sum(stacks, [])):
        last = row.endswith(", as its last call")
        right &= row.split(":")[0] == wanted.split(":")[0] if last else row == wanted
    expect(right, f"{what}: {finding['what']}: {got}, not {list(stacks)}")


# ---- places


def compilers():
    """A missing fence has its place by each compiler, with inlined functions and with last calls; the fault of another
    function is another finding, and those of one place are one."""
    main = ("main", "modes[i].run()")
    by_commit = frames(("commit", "commit flushes"), ("fence", "fence commits"), main)
    by_mirror = frames(("mirror", "mirror flushes"), ("fence", "fence mirrors"), main)
    for compiler, *flags in (("gcc", "-O0"), ("gcc", "-O2"), ("gcc", "-O2", "-no-pie"), ("clang", "-O2"),
                             ("gcc", "-O2", "-fomit-frame-pointer", "-gz")):
        if not built_by(compiler, *flags):
            continue
        found = placed("fence")
        expect(len(found) == 2, f"{compiler} {flags}: {len(found)} findings, not 2")
        for it, stack in zip(found, (by_commit, by_mirror)):
            shown(f"{compiler} {flags}", it, FENCE, stack)
            more = "  and 4 more like it from the same place"
            expect(more in it["lines"], f"{compiler} {flags}: it does not say how many: {it['lines']}")
    last = [row for row in found[0]["stacks"][0] if row.endswith(", as its last call")]
    expect(len(last) == 1 and "commit" in last[0], f"calls that are the last are {last}")


def kinds():
    """A submission in a handler, a child, a deep recursion, a library, by the queue's file, and of a list that is
    filled anew."""
    built_by("gcc", "-O0")
    words = [*STRICT, "-g", "-DLIBRARY", "-shared", "-fPIC", "-o", f"{WORK}/placed.so", SOURCE]
    told("the library", ran("gcc", *words), 0)
    run = ("main", "modes[i].run()")
    stack = frames(run, first="refill", mark="refill submits")
    shown("a list", placed("list", options=LONG)[0], "descriptor list changed", stack)
    stack = frames(("commit", "commit flushes"), ("in_child", "a child commits"), run)
    shown("a child", placed("fork")[0], FENCE, stack)
    [found] = placed("library", f"{WORK}/placed.so")
    by_library = ("submit_in_library", "the library flushes"), ("in_library", "main calls the library")
    shown("a library", found, FENCE, frames(*by_library, ("main", "in_library(argv[2])")))
    expect("  and 1 more like it from the same place" in found["lines"], f"loaded twice: {found['lines']}")
    [stack] = placed("handler")[0]["stacks"]
    wanted = frames(("on_signal", "a handler flushes"))
    ends = f"by main ({line('raise(SIGUSR1)')})"
    expect(stack[:3] == wanted and stack[-1] == ends, f"a handler of signals: {stack}")
    marks = [line(f"the {it} is written") for it in ("second", "first")]
    stacks = [[f"at written ({mark})", f"by main ({line(run[1])})"] for mark in marks]
    shown("a queue's file", placed("written", options=LONG)[0], "missing wait, read after write", *stacks)
    for options, depth in (([], 16), (["--stacks", 5], 5), (["--stacks", 32], 32)):
        [stack] = placed("deep", options=[*FIFO, *options])[0]["stacks"]
        again = f"by deep ({line('deep goes deeper')})"
        wanted = [*frames(("commit", "commit flushes"), ("deep", "deep commits"))[1:], *[again] * 28]
        # the instruction's own frame has two functions, one inlined by its name alone
        expect(stack[1:] == wanted[:len(stack) - 1] and len(stack) == depth, f"{options}: {len(stack)} frames: {stack}")


def ways():
    """By a signal and by a stub, and after a wait of any length, a stack is the same: each place is written once."""
    built_by("gcc", "-O2")
    for how in (FIFO, [*FIFO, "--signals"], ["--order", "data"]):
        folder = f"{WORK}/ways"
        told(f"recorded {how}", traced(*how, "--out", folder, "--", client("placed"), "fence"), 0)
        [path] = Path(folder, "seed-1").glob("*.stacks")
        rows = [it.split() for it in path.read_text().splitlines() if it.startswith("s ")]
        events = path.with_suffix(".events").read_text()
        used = re.findall(r"^S .* time \d+ stack (\d+)$", events, re.M)
        expect(len(rows) == 2 and used == ["1", "2"] * 5, f"{how}: {len(rows)} stacks, used {used}")


def two_threads():
    """A missing wait between threads has the stacks of both, as docs/USING.md shows."""
    words = [*STRICT, "-g", "-O2", "-mmovdir64b", "-pthread", "-o", client("two_threads")]
    told("the example", ran("gcc", *words, "examples/trace/two_threads.c"), 0)
    end = audited(*LONG, "--", client("two_threads"))
    told("two threads", end, 1, "missing wait")

    def plain(text):
        text = re.sub(r"0x[0-9a-f]+", "0x", text)
        return re.sub(r"\b(entry|submission|thread|byte|at) [\d.]+", r"\1", text).replace("examples/trace/", "")

    page = block_after("docs/USING.md", "Places in the source").split("\n", 2)[2]  # after two commands
    got = plain("\n".join(findings(end.stdout)[0]["lines"]))
    expect(got.startswith(plain(page.rstrip("\n"))), f"the page has\n{plain(page)}\nand the report\n{got}")


def data():
    """Addresses of data are variables, on the heap, or on a thread's stack."""
    built_by("gcc", "-O0")
    for mode, said in (("fence", r"is data\+0x1000, a variable of placed"), ("heap", "is on the heap"),
                       ("stack", r"is on the stack of thread \d+ \(placed\)"),
                       ("list", r"is list\.\d+\+0x40, a variable of placed")):
        lines = placed(mode, options=LONG if mode == "list" else FIFO)[0]["lines"]
        right = [it for it in lines if re.fullmatch(rf"  0x[0-9a-f]+ {said}", it)]
        expect(len(right) == 1, f"{mode}: no line {said!r}: {lines}")


# ---- keys

KEY = f"{FENCE}; batch of 2; member 1: move, 4096 bytes; member 0: move, 4096 bytes"
BY_COMMIT = f"{KEY} @ submit < flush < commit < fence < main"
BY_MIRROR = f"{KEY} @ submit < flush < mirror < fence < main"
PAIRS = [f"{FENCE}; batch of 3; member 2: move, 4096 bytes; member {it}"
         for it in ("0: move, 128 bytes", "1: move, 64 bytes")]
WAIT = "missing wait, read after write; lone: move, 12288 bytes; lone: move"
WAITS = [f"{WAIT}, {size} bytes @ submit < start < last < waits < main | submit < start < {name} < waits < main"
         for size, name in ((128, "first"), (256, "second"), (64, "third"))]


def accepted(mode, *lines, options=FIFO, program="placed"):
    """How an audit ends that knows these keys."""
    Path(WORK, "known").write_text("".join(f"{it}\n" for it in lines))
    return audited(*options, "--accept", f"{WORK}/known", "--deny", "stale", "--", client(program), mode)


def keys_of(mode, *options, program="placed"):
    """The keys that an audit writes."""
    end = audited(*options, "--write-accept", "--", client(program), mode)
    told(f"the keys of {mode}", end, 0)
    return end.stdout.splitlines()


def keys():
    """A key with a place accepts an error there and not elsewhere, also of what the library notes; without one it
    accepts it anywhere. What an accepted error hides is an error."""
    built_by("gcc", "-O2")
    end = audited(*FIFO, "--write-accept", "--", client("placed"), "fence")
    expect(end.stdout == f"{BY_COMMIT}\n{BY_MIRROR}\n", f"the keys are {end.stdout}")
    for line, other, name in ((BY_COMMIT, BY_MIRROR, "mirror"), (BY_MIRROR, BY_COMMIT, "commit")):
        end = accepted("fence", "# known", line)
        told(f"all but {name}", end, 1, "): accepted: missing fence", "): error: missing fence")
        [left] = [it for it in findings(end.stdout) if "error" in it["lines"][0]]
        expect(f"by {name} (" in "".join(left["stacks"][0]), f"all but {name}: {left}")
        end = audited(*FIFO, "--accept", f"{WORK}/known", "--write-accept", "--", client("placed"), "fence")
        expect(end.stdout == f"{other}\n", f"all but {name}: the keys are {end.stdout}")
    told("both", accepted("fence", BY_COMMIT, BY_MIRROR), 0)
    end = audited(*FIFO, "--accept", f"{WORK}/known", "--json", "--", client("placed"), "fence")
    known = json.loads(end.stdout)["runs"][0]["processes"][0]["accepted"] if end.returncode == 0 else end.stdout
    expect(known == [BY_COMMIT, BY_MIRROR], f"both in JSON: {known}")
    told("without a place", accepted("fence", KEY), 0)
    unused = "error: this fits nothing: "
    told("elsewhere", accepted("heap", BY_COMMIT), 1, "): error: missing fence", f"line 1: {unused}{BY_COMMIT}")
    told("one more", accepted("fence", BY_COMMIT, f"{KEY} @ main", BY_MIRROR), 1, f"line 2: {unused}{KEY} @ main")
    listed = "descriptor list changed; batch of 2; member 1: move, 4096 bytes"
    end = audited(*LONG, "--write-accept", "--", client("placed"), "list")
    expect(end.stdout == f"{listed} @ submit < refill < main\n", f"the key of a list is {end.stdout}")
    told("a list", accepted("list", end.stdout.strip(), options=LONG), 0, "): accepted: descriptor list")
    told("another list", accepted("list", f"{listed} @ submit < main", options=LONG), 1, "): error: descriptor list")
    pairs = [f"{it} @ submit < three < hidden < main" for it in PAIRS]
    for first, other in (pairs, pairs[::-1]):
        told("a hidden pair", accepted("hidden", first), 1, "): error: missing fence")
        end = audited(*FIFO, "--accept", f"{WORK}/known", "--write-accept", "--", client("placed"), "hidden")
        expect(end.stdout == f"{other}\n", f"the key that is left is {end.stdout}, not {other}")
    told("both pairs", accepted("hidden", *pairs), 0)


def hidden_waits():
    """Of waits for moves from other places each is an error until all are accepted, in any order."""
    built_by("gcc", "-O0")
    expect(keys_of("waits", *LONG) == [WAITS[2]], f"the last wait is not {WAITS[2]}")
    for known in (WAITS[2:], WAITS[1:], WAITS[::2]):
        told(f"of the waits {known}", accepted("waits", *known, options=LONG), 1, "): error: missing wait")
        left = keys_of("waits", *LONG, "--accept", f"{WORK}/known")
        expect(len(left) == 1 and left[0] in WAITS and left[0] not in known, f"with {known} the keys are {left}")
    told("all waits", accepted("waits", *WAITS, options=LONG), 0)


def elsewhere():
    """What accepted errors hide, one or several together, is an error too if its key is accepted at other places, and
    also if one of these is theirs."""
    built_by("gcc", "-O0")
    fences = [f"{it} @ submit < three < {by}twins < main" for it in PAIRS for by in ("hidden < ", "")]
    waits = [f"{WAIT}, {size} bytes @ submit < start < last < {by} | submit < start < {name} < {by}"
             for by, pairs in (("waits < again < main", ((128, "first"), (256, "second"), (64, "third"))),
                               ("again < main", ((128, "fourth"), (256, "fourth"), (128, "third"))))
             for size, name in pairs]
    for mode, all_known, options in (("twins", fences, FIFO), ("again", waits, LONG)):
        for left in all_known:
            known = [it for it in all_known if it != left]
            told(f"all but {left}", accepted(mode, *known, options=options), 1, f"): error: {left.split(',')[0]}")
            found = keys_of(mode, *options, "--accept", f"{WORK}/known")
            expect(found == [left], f"all but {left}: the keys are {found}")
        told(f"all of {mode}", accepted(mode, *all_known, options=options), 0)


def bounded():
    """If all that is hidden can't be looked for, the audit has seen a part: more audits than the page permits, and a
    dsa_text that fails in one of them."""
    built_by("gcc", "-O0")
    known = [f"{KEY.replace('4096', str(size))} @ submit < both < lengths < main" for size in range(1, 102)]
    known += [known[0].replace("both", "both < one_byte")]
    part = ": not all that its accepted errors hide was looked for: "
    told("100 keys", accepted("lengths", *known), 125, f"{part}that takes more than 100 audits", "has seen a part")
    known[-2] = known[-2].split(" @ ")[0]
    told("99 keys", accepted("lengths", *known), 0)
    Path(WORK, "picky").write_text(f"""#!/bin/sh
case "$3" in /proc/*) grep -q "^missing" "$3" && exit 2 ;; esac
exec {TEXT} "$@"
""")
    Path(WORK, "picky").chmod(0o755)
    Path(WORK, "known").write_text(f"{BY_COMMIT}\n{BY_MIRROR}\n")
    picky = KNOWN | {"DSA_TEXT": f"{WORK}/picky"}
    end = audited(*FIFO, "--accept", f"{WORK}/known", "--", client("placed"), "fence", env=picky)
    told("a dsa_text that fails later", end, 125, f"{part}dsa_text does not audit with the keys of places")


def alike():
    """A finding that reads like an accepted one of the same place and has another key is shown."""
    built_by("gcc", "-O0")
    sizes = [f"{KEY.replace('batch of 2', f'batch of {count}')} @ submit < sizes < main" for count in (2, 3)]
    for known, left in (sizes, sizes[::-1]):
        told(f"all but {left}", accepted("sizes", known), 1, "): error: missing fence", "): accepted: missing fence")
        expect(keys_of("sizes", *FIFO, "--accept", f"{WORK}/known") == [left], f"the key that is left is not {left}")
    told("both sizes", accepted("sizes", *sizes), 0)


def unnumbered():
    """A stack without a number is `?` in a key, which accepts the error at no other place."""
    built_by("gcc", "-O0")
    full = "more than 4096 call stacks (each dlclose counts them anew); findings name no further ones; "
    told("many stacks", audited(*FIFO, "--", client("placed"), "many"), 1, full)
    expect(keys_of("many", *FIFO) == [f"{KEY} @ ?"], "the key of stacks without numbers is another")
    told("without numbers", accepted("many", f"{KEY} @ ?"), 0)
    told("with them", accepted("fence", f"{KEY} @ ?"), 1, "): error: missing fence")


def long_names():
    """A key has all functions, however long their names are."""
    long = "f" * 4200
    built_by("gcc", "-O0", f"-Dflush={long}", f"-Drefill=re{long}")
    both = [f"{KEY} @ submit < {long} < {name} < fence < main" for name in ("commit", "mirror")]
    expect(keys_of("fence", *FIFO) == both, "the keys of long names are others")
    told("a long key", accepted("fence", both[0]), 1, "): error: missing fence")
    told("both long keys", accepted("fence", *both), 0)
    [listed] = keys_of("list", *LONG)
    expect(listed.endswith(f" @ submit < re{long} < main"), f"the key of a list is {listed}")
    told("a long key of a list", accepted("list", listed, options=LONG), 0, "): accepted: descriptor list")


def in_cpp():
    """A name in C++ is whole in a key, with its parts in parentheses, and so is that of a variable in a report."""
    if not shutil.which("g++"):
        skip("places of a C++ program: there is no g++")
        return
    words = [*STRICT, "-g", "-DLIBRARY", "-c", "-o", f"{WORK}/placed.o", SOURCE]
    told("the C part", ran("gcc", *words), 0)
    told("the C++ part", ran("g++", "-g", "-O1", "-o", client("placed_cpp"), SOURCE.with_suffix(".cpp"),
                             f"{WORK}/placed.o"), 0)
    both = keys_of("", *FIFO, program="placed_cpp")
    right = len(both) == 2 and all(f"::{name}_caller<" in it for it, name in zip(both, ("first", "second")))
    expect(right, f"the keys in C++ are {both}")
    told("one caller in C++", accepted("", both[0], program="placed_cpp"), 1, "): error: missing fence")
    told("both callers in C++", accepted("", *both, program="placed_cpp"), 0)
    lines = findings(audited(*FIFO, "--", client("placed_cpp")).stdout)[0]["lines"]
    variable = r"  0x[0-9a-f]+ is \(anonymous namespace\)::\w+, a variable of placed_cpp"
    named = [it for it in lines if re.fullmatch(variable, it)]
    expect(len(named) == 1, f"a variable in C++: {lines}")


# ---- without names


def unnamed():
    """A file without symbols has addresses, and a sentence says what to do; so without addr2line. --stacks 0: none."""
    built_by("gcc", "-O2", "-s")
    end = audited(*FIFO, "--", client("placed"), "fence")
    told("a stripped program", end, 1, f"{client('placed')} has no line numbers: build it with -g, or install")
    expect(end.stderr.count("has no line numbers") == 1, f"it is said more than once: {end.stderr}")
    for it in findings(end.stdout):
        right = all(re.fullmatch(r"(at|by) placed\+0x[0-9a-f]+", row) for row in it["stacks"][0])
        expect(right and len(it["stacks"][0]) >= 3, f"a stripped program: {it['stacks']}")
    built_by("gcc", "-O2")
    end = audited(*FIFO, "--", client("placed"), "fence", env=KNOWN | {"DSA_TRACE_ADDR2LINE": "/nowhere/addr2line"})
    told("a wrong addr2line", end, 1, "DSA_TRACE_ADDR2LINE names /nowhere/addr2line, which can't be run")
    expect(len(findings(end.stdout)[0]["stacks"][0]) >= 3, f"a wrong addr2line: {end.stdout}")
    end = audited(*FIFO, "--", client("placed"), "fence", env=KNOWN | {"PATH": "/nowhere"})
    told("no addr2line", end, 1, "there is no addr2line (package binutils or llvm)")
    end = audited(*FIFO, "--stacks", 0, "--", client("placed"), "fence")
    told("no stacks", end, 1, "\n  and 9 more like it (--all writes each)\n")
    expect("submission 0, by thread" not in end.stdout, f"without stacks: {end.stdout}")
    told("too many frames", audited("--stacks", 33, "--", "true"), 125, "at most 32 frames")


def tools():
    """Each program that knows lines finds the same ones."""
    built_by("gcc", "-O0")
    wanted = frames(("commit", "commit flushes"), ("fence", "fence commits"), ("main", "modes[i].run()"))
    for name in ("llvm-addr2line", "addr2line", "eu-addr2line"):
        if not shutil.which(name):
            skip(f"places by {name}, which is not there")
            continue
        shown(name, placed("fence", env=KNOWN | {"DSA_TRACE_ADDR2LINE": name})[0], FENCE, wanted)


# ---- other forms


def in_json():
    """The places of all submissions that a report names."""
    built_by("gcc", "-O0")
    end = audited(*FIFO, "--json", "--", client("placed"), "fence")
    told("places in JSON", end, 1)
    it = json.loads(end.stdout)
    expect(schema.holds(schema.report_schema("runs"), it), f"the schema rejects {end.stdout[:1000]}")
    places = it["runs"][0]["processes"][0]["places"]
    expect([it["submission"] for it in places] == list(range(10)), f"the submissions are {places}")
    wanted = frames(("commit", "commit flushes"), ("fence", "fence commits"), ("main", "modes[i].run()"))
    expect(places[2]["stack"] == wanted and places[2]["thread_name"] == "placed", f"the third has {places[2]}")
    times = [it["nanoseconds"] for it in places]
    expect(times == sorted(times) and times[0] == 0, f"the times are {times}")


def hidden_in_json():
    """What accepted errors hide is in the object of its process as in the text, the later of the entries first."""
    built_by("gcc", "-O0")
    for known, status, left, numbers in ((WAITS[2:], 1, WAITS[1], (3, 1)), (WAITS[1:], 1, WAITS[0], (3, 0)),
                                         (WAITS, 0, None, ()), ([], 1, None, ())):
        Path(WORK, "known").write_text("".join(f"{it}\n" for it in known))
        end = audited(*LONG, "--json", "--accept", f"{WORK}/known", "--", client("placed"), "waits")
        told(f"{len(known)} accepted waits in JSON", end, status)
        it = json.loads(end.stdout)
        expect(schema.holds(schema.report_schema("runs"), it), f"the schema rejects {end.stdout[:1000]}")
        process, wanted = it["runs"][0]["processes"][0], []
        if left:
            key, place = left.split(" @ ")
            entries = [{"entry": number, "submission": number} for number in numbers]
            wanted = [{"entries": entries, "key": key, "place": place, "severity": "error"}]
        expect(process["hidden"] == wanted, f"{len(known)} accepted waits hide {process['hidden']}, not {wanted}")
        places = {it["submission"] for it in process["places"]}
        expect(set(numbers) <= places, f"{len(known)} accepted waits: the places are of {places}")


def kept():
    """What is kept names the places when it is audited again, and when the program is gone, too."""
    built_by("gcc", "-O0")
    folder = f"{WORK}/kept"
    first = audited(*FIFO, "--out", folder, "--", client("placed"), "fence")
    told("the first audit", first, 1, "by commit (")
    os.remove(client("placed"))
    again = traced("--report", folder, env=KNOWN)
    expect((again.returncode, again.stdout) == (1, first.stdout), f"audited again: {again.stdout} {again.stderr}")
    for path in Path(folder, "seed-1").glob("*.places"):
        path.unlink()
    end = traced("--report", folder, env=KNOWN)
    told("without the texts and the program", end, 1, "at placed+0x")
    for path in Path(folder, "seed-1").glob("*.stacks"):
        path.unlink()
    told("without stacks", traced("--report", folder, env=KNOWN), 1, "\n  and 9 more like it (--all writes each)\n")


def kept_in_part():
    """What was cut or changed in a folder is said or left out, and what an audit has not found a later one finds."""
    built_by("gcc", "-O0")
    folder = f"{WORK}/kept_in_part"
    without = KNOWN | {"DSA_TRACE_ADDR2LINE": "/nowhere/addr2line"}
    told("kept without names", audited(*FIFO, "--out", folder, "--", client("placed"), "fence", env=without), 1)
    first = traced("--report", folder, env=KNOWN)
    told("names that are found later", first, 1, "by commit (")
    [events], [places] = (list(Path(folder, "seed-1").glob(f"*.{it}")) for it in ("events", "places"))
    whole = places.read_text()
    places.write_text(f"1 x\n2 \n1\n{whole}")
    again = traced("--report", folder, env=KNOWN)
    expect((again.returncode, again.stdout) == (1, first.stdout), f"with other lines: {again.stdout} {again.stderr}")
    places.unlink()
    told("found again", traced("--report", folder, env=KNOWN), 1, "by commit (")
    with open(client("placed"), "ab") as program:
        program.write(b"\0")  # the number of its file stays
    end = traced("--report", folder, env=KNOWN)
    told("a program that has changed", end, 1, "at placed+0x")
    expect("commit" not in end.stdout, f"a program that has changed: {end.stdout}")
    lines = events.read_text()
    less = "since its events name less than is recorded"
    for left, count in ((lines[:lines.rindex("S ")], 9), ("", 0)):
        events.write_text(left)
        told(f"{count} events", traced("--report", folder, env=KNOWN), 125, f"up to its submission {count}, {less}")


def rust():
    """A Rust program has its own functions and lines."""
    if not shutil.which("rustc"):
        skip("places of a Rust program: there is no rustc")
        return
    source = Path("tests/trace/placed.rs")
    told("the build", ran("rustc", "-g", "-O", "-o", client("placed_rust"), source), 0)
    end = audited(*FIFO, "--", client("placed_rust"))
    told("a Rust program", end, 1)
    [stack] = findings(end.stdout)[0]["stacks"]
    wanted = [f"submit ({line('movdir64b', source)})", f"commit ({line('submit(portal, &batch)', source)})",
              f"main ({line('commit(portal, &list);', source)})"]
    got = [re.sub(r"^(at|by) (placed::)?", "", it) for it in stack]
    expect(got[:3] == wanted and len(got) < 6, f"a Rust program: {got}, not {wanted}")


PARTS = [compilers, kinds, ways, two_threads, data, keys, hidden_waits, elsewhere, bounded, alike, unnumbered,
         long_names, in_cpp, unnamed, tools, in_json, hidden_in_json, kept, kept_in_part, rust]


def main(words):
    parts = named(PARTS, words)
    for part in parts if has_text() and built_all([]) else []:
        part()


if __name__ == "__main__":
    run_test(main)
