"""Makes the packages, installs them, and builds callers in C, C++, Rust and Python from what was installed alone: in a
folder without the repository, with a path of /usr/bin and /bin (and cargo's). The same rows go to each caller. It uses
dpkg, man, cmake, g++, clang and cargo where they are, and says so where they aren't. The words are names of parts."""

import gzip
import itertools
import json
import os
import re
import shutil
import subprocess
import sys
import tarfile
import tempfile
from pathlib import Path

import package_pages
from common import ROOT, block_after, compiler, expect, named, program, run_test

sys.path.insert(0, str(ROOT / "bindings/package"))
import make

DESCRIPTORS = (ROOT / "tests/package/descriptors.txt").read_text().splitlines(True)
STRICT = ["-Wall", "-Wextra", "-pedantic", "-Werror", "-O2"]
QUEUE_PRINTS = ROOT / "bindings/rust/examples/queue.stdout"
MEMORY = {"malloc", "realloc", "free"}
COPYING = {"memcpy", "memmove", "memset"}
OWN_MEMORY = {"rattle_alloc", "rattle_realloc", "rattle_dealloc"}


def environment(**more):
    """The variables of a user who has the installed package and nothing else."""
    return {"PATH": "/usr/bin:/bin", "LC_ALL": "C", "PKG_CONFIG_PATH": f"{PREFIX}/lib/pkgconfig", **more}


def ran(*command, **more):
    """What a command printed and how it ended, in the folder of callers."""
    how = {"cwd": FOLDER, "capture_output": True, "text": True, "stdin": subprocess.DEVNULL}
    return subprocess.run([str(word) for word in command], env=environment(**more), **how)


def tried(what, *command, printed=None, **more):
    """A case: the command ends with status 0, and prints just this text where one is wanted. Answers what it printed."""
    end = ran(*command, **more)
    right = end.returncode == 0 and printed in (None, end.stdout)
    said = "\n".join((end.stdout + end.stderr).splitlines()[-15:])
    expect(right, f"{what} ends with status {end.returncode}:\n{said}")
    return end.stdout


def refused(what, words, *command, **more):
    """A case: the command fails, by no signal, and says these words."""
    end = ran(*command, **more)
    said = end.stdout + end.stderr
    right = end.returncode > 0 and all(word in said for word in words)
    expect(right, f"{what} ends with status {end.returncode}, and not with {words}:\n{said[-1500:]}")


def has(*names):
    """Whether the programs are there for a user of /usr/bin and /bin; says which are missing."""
    missing = [name for name in names if not shutil.which(name, path="/usr/bin:/bin")]
    if missing:
        print(f"there is no {' and no '.join(missing)}")
    return not missing


def linking(package):
    """The words that pkg-config gives for a compiler."""
    return ran("pkg-config", "--cflags", "--libs", package).stdout.split()


# ---- the packages


def version():
    """The number of the header is that of the crate, of the Python module, of the exported names and of the changes."""
    numbers = make.version()
    whole = ".".join(map(str, numbers))
    cargo = Path("bindings/rust/Cargo.toml").read_text()
    expect(f'\nversion = "{whole}"\n' in cargo, f"bindings/rust/Cargo.toml has another version than {whole}")
    module = Path("bindings/python/dsa_planner.py").read_text()
    needed = tuple(map(int, re.search(r"^_MAJOR, _MINOR = (\d+), (\d+)$", module, re.M).groups()))
    expect(needed[0] == numbers[0] and needed[1] <= numbers[1], f"dsa_planner.py needs {needed}, the header has {whole}")
    nodes = re.findall(r"^DSA_PLANNER_(\d+)\.(\d+) \{", Path("bindings/package/dsa_planner.map").read_text(), re.M)
    nodes = [tuple(map(int, node)) for node in nodes]
    expect(all(node[0] == numbers[0] and node <= numbers[:2] for node in nodes), f"dsa_planner.map has {nodes}")
    pages = {
        "README.md": [f"dsa-planner_{whole}_amd64.deb", f"dsa-planner-{whole}-x86_64-linux.tar.gz"],
        "docs/START.md": [f"dsa-planner-{whole}-x86_64-linux/install.sh"],
        "docs/USING.md": [f"dsa-planner-{whole}-x86_64-linux/install.sh", f"find_package(dsa_planner {numbers[0]}.0)"],
        "bindings/c/dsa_planner.h": [f"find_package(dsa_planner {numbers[0]}.0)"],
    }
    missing = [(page, word) for page, words in pages.items() for word in words if word not in Path(page).read_text()]
    expect(not missing, f"other versions than {whole} are in pages: {missing}")
    expect(f"\n## {whole}\n" in Path("CHANGELOG.md").read_text(), f"CHANGELOG.md has no part {whole}")
    end = subprocess.run([program("dsa_text"), "--version"], capture_output=True, text=True, stdin=subprocess.DEVNULL)
    printed = (end.returncode, end.stdout)
    expect(printed == (0, f"dsa_text {whole}\n"), f"dsa_text --version: {printed}, the header has {whole}")


def reproduced():
    """Made again, the packages are the same, byte for byte."""
    for path in make.make(Path(WORK, "again")):
        first = ROOT / "out" / path.name
        expect(first.read_bytes() == path.read_bytes(), f"{path.name} differs when it is made again")


def unproved():
    """Nothing is packaged but files that the gate recorded as proved: in a copy of the tree with another file, without a record,
    with that of another crate or kit, or with another source, make.py stops with the reason and writes nothing."""
    tree, crates = Path(WORK, "tree"), ("dsa", "dsa_jobs", "dsa_text", "dsa_c")
    shutil.copytree(ROOT, tree, ignore=shutil.ignore_patterns("out", ".git"))
    for crate in crates:
        built = make.PROVED["libdsa_c.a" if crate == "dsa_c" else crate]
        (tree / f"crates/{crate}/out").mkdir()
        for path in (built, built.parent / "proved"):
            shutil.copy(path, tree / f"crates/{crate}/out")
    packed, path_of_rt = (tree / "bindings/package/make.py", "--built", Path(WORK, "none")), os.environ["PATH"]
    record = tree / "crates/dsa/out/proved"
    name, kit, rest = record.read_text().split(" ", 2)
    changes = {
        tree / "crates/dsa/out/dsa": (lambda old: old + b"\0", "crates/dsa/out/dsa is another file than the one that was proved"),
        tree / "crates/dsa_c/out/libdsa_c.a": (lambda old: None, "crates/dsa_c/out/libdsa_c.a is missing"),
        tree / "crates/dsa_text/out/proved": (lambda old: None, "there is no record that crates/dsa_text/out/dsa_text was proved"),
        tree / "crates/dsa_ranges/src/lib.rt": (lambda old: old + b"\n", "crates/dsa_c/out/libdsa_c.a is older than its sources"),
    }
    records = {f"dsa_text {kit} {rest}": "of another crate", f"{name} rattle-kit-0 {rest}": "proved with another kit"}
    for text, why in records.items():
        record.write_text(text)
        refused(why, [f"make.py: crates/dsa/out/dsa is {why}; prove it first: "], *packed, PATH=path_of_rt)
    record.write_text(f"{name} {kit} {rest}")
    for path, (change, why) in changes.items():
        old = path.read_bytes()
        new = change(old)
        path.unlink() if new is None else path.write_bytes(new)
        refused(why, [f"make.py: {why}; prove it first: "], *packed, PATH=path_of_rt)
        path.write_bytes(old)
    expect(not Path(WORK, "none").exists(), "make.py wrote a package of what is not recorded as proved")
    tried("make.py in the copy", *packed, PATH=path_of_rt)


def installed():
    """What is in the archive is in the prefix, a second installation takes the place of the first, and what is taken away
    leaves what others had there and nothing else."""
    with tarfile.open(TARBALL) as packed:
        names = {name.partition("/")[2] for name in packed.getnames()} - {"", "install.sh"}
    prefix = Path(WORK, "other prefix")
    (prefix / "lib").mkdir(parents=True)
    (prefix / "lib/theirs").write_text("theirs")
    script = str(UNPACKED / "install.sh")
    for _ in range(2):
        tried("the installation", script, prefix)
        found = {str(path.relative_to(prefix)) for path in prefix.rglob("*")}
        rest = found ^ (names | {"lib/theirs", "share/dsa-planner/installed"})
        expect(not rest, f"the installation and the archive differ in {rest}")
    tried("the removal", script, "--remove", prefix)
    found = {str(path.relative_to(prefix)) for path in prefix.rglob("*")}
    expect(found == {"lib", "lib/theirs"}, f"the removal leaves {found}")
    new = Path(WORK, "new prefix")
    tried("the installation", script, new)
    tried("Python from the prefix", "python3", "-c", "import dsa_planner", PYTHONPATH=f"{new}/share/dsa-planner/python")
    tried("the removal", script, "--remove", new)
    expect(not new.exists(), f"the removal leaves {new}")
    for other in ("bin/dsa", "share/doc/dsa-planner/README.md"):
        theirs = Path(WORK, "others", other)
        theirs.parent.mkdir(parents=True, exist_ok=True)
        theirs.symlink_to("/nowhere") if other == "bin/dsa" else theirs.write_text("theirs")
        refused(f"a prefix with {other} of others", [f"others/{other} is there, and not of this package"], script,
                f"{WORK}/others")
        found = [path for path in Path(WORK, "others").rglob("*") if not path.is_dir() or path.is_symlink()]
        expect(found == [theirs], f"a refused installation leaves {found}")
        theirs.unlink()
    tried("the installation where nothing of others is left", script, f"{WORK}/others")
    refused("a removal of nothing", ["nothing is installed there"], script, "--remove", new)
    refused("no prefix", ["install.sh PREFIX"], script)
    refused("a prefix that is a file", ["cannot write to"], script, "/dev/null/prefix")


def debian():
    """dpkg installs the package, what it installed runs, and it purges all of it."""
    path = ROOT / "out" / f"dsa-planner_{'.'.join(map(str, make.version()))}_amd64.deb"
    if not has("dpkg", "dpkg-deb") or os.getuid() != 0:
        print("dpkg is not tried: it needs root")
        return
    root = Path(WORK, "debian")
    (root / "var/lib/dpkg/info").mkdir(parents=True)
    (root / "var/lib/dpkg/updates").mkdir()
    (root / "var/lib/dpkg/status").touch()
    before = {*root.rglob("*")}
    dpkg = ["dpkg", f"--root={root}", "--force-depends", "--force-script-chrootless", "--no-triggers", "--log=/dev/null"]
    tools = {"PATH": "/usr/bin:/bin:/usr/sbin:/sbin"}
    tried("dpkg --install", *dpkg, "--install", path, **tools)
    library = root / "usr/lib/x86_64-linux-gnu/libdsa_planner.so.1"
    module = {"PYTHONPATH": f"{root}/usr/lib/python3/dist-packages", "DSA_PLANNER_LIBRARY": str(library)}
    module["DSA_QUEUE_LIBRARY"] = str(library.with_name(make.QUEUE_SONAME))
    tried("Python from the Debian package", "python3", "-c", f"import {', '.join(make.MODULES)}", **module)
    kept = {path.name.split(".")[0] for path in root.rglob("*.pyc")}
    expect(kept == {*make.MODULES}, f"Python has compiled {kept}")
    said = tried("dpkg-deb --info", "dpkg-deb", "--field", path, "Description", **tools)
    programs = {path.name for path in (root / "usr/bin").iterdir()}
    expect(len(programs) == 5 and "Five programs" in said, f"the package has {programs}, and says\n{said}")
    expect(all(re.search(rf"\b{name}\b", said) for name in programs), f"of {programs} the package says\n{said}")
    pages = {path.name for path in root.rglob("*.gz")}
    wanted = {f"{name}.1.gz" for name in ("dsa", "dsa_jobs", "dsa_text", "dsa_trace", "dsa_prices")}
    expect(pages == wanted | {"dsa_planner.3.gz", "dsa_queue.3.gz"}, f"the Debian package has the pages {pages}")
    tried("dpkg --purge", *dpkg, "--purge", "dsa-planner", **tools)
    rest = {path for path in {*root.rglob("*")} - before if "var/lib/dpkg" not in str(path)}
    expect(not rest, f"dpkg --purge leaves {rest}")


def symbols():
    """Libraries define the header's names and no other, and need no more than memory and copying; nothing in the package
    has a stack or a text that could be changed, and all is bound before it starts."""
    names = set(make.exported())
    library = Path(PREFIX, "lib")
    for file, needed in {"libdsa_planner.a": MEMORY, "libdsa_planner_own_memory.a": OWN_MEMORY}.items():
        defined = set(re.findall(r" [A-TV-Z] (\S+)", tried("nm", "nm", "-g", "--defined-only", library / file)))
        missing = set(re.findall(r" U (\S+)", tried("nm", "nm", "-u", library / file)))
        expect((defined, missing) == (names, needed | COPYING), f"{file} defines {defined} and needs {missing}")
        notes = tried("readelf", "readelf", "-SW", library / file)
        stack = re.findall(r"\.note\.GNU-stack.*", notes)
        expect(stack and not any(" X " in note for note in stack), f"{file} asks for an executable stack")
    queue, of_queue = library / make.QUEUE_SONAME, set(make.exported(make.QUEUE / "dsa_queue.h"))
    listed = tried("nm", "nm", "-g", "--defined-only", library / "libdsa_queue.a")
    defined = set(re.findall(r" [A-TV-Z] (\S+)", listed))
    expect(defined == of_queue, f"libdsa_queue.a defines {defined}")
    shared = library / "libdsa_planner.so.1"
    dynamic = set(re.findall(r" [B-TV-Z] (\S+?)(?:@|$)", tried("nm", "nm", "-D", "--defined-only", shared), re.M))
    expect(dynamic == names, f"the shared object exports {dynamic}")
    needed = set(re.findall(r" U (\S+?)(?:@|$)", tried("nm", "nm", "-D", "-u", shared), re.M))
    expect(needed == MEMORY | COPYING, f"the shared object needs {needed}")
    dynamic = set(re.findall(r" [B-TV-Z] (\S+?)(?:@|$)", tried("nm", "nm", "-D", "--defined-only", queue), re.M))
    expect(dynamic == of_queue, f"{queue.name} exports {dynamic}")
    linked = tried("readelf", "readelf", "-dW", queue)
    expect(f"[{queue.name}]" in linked and "[libdsa_planner.so.1]" in linked, f"{queue.name} is linked so: {linked}")
    soname = f"Library soname: [libdsa_planner.so.{make.version()[0]}]"
    expect(soname in tried("readelf", "readelf", "-dW", shared), f"the shared object has no {soname}")
    built = [Path(PREFIX, f"bin/{name}") for name in ("dsa", "dsa_jobs", "dsa_text", "dsa_trace", "dsa_prices")]
    for path in (shared, queue, Path(PREFIX, "lib/dsa-planner/libdsa_trace.so"), *built):
        said = tried("readelf", "readelf", "-dlW", path)
        stack = re.search(r"GNU_STACK +(?:\S+ +){5}(R?W?E?) ", said)
        right = stack and stack[1] == "RW" and "GNU_RELRO" in said and "BIND_NOW" in said and "TEXTREL" not in said
        expect(right and "RUNPATH" not in said and "RPATH" not in said, f"{path.name} is not hardened:\n{said}")


def pages():
    """The manual pages have no fault that man sees, each call and each cause, and each option."""
    if not has("man"):
        return
    shown = {}
    programs = ("dsa", "dsa_jobs", "dsa_text", "dsa_trace", "dsa_prices")
    for page in (*(f"man1/{name}.1" for name in programs), "man3/dsa_planner.3", "man3/dsa_queue.3"):
        source = Path(FOLDER, Path(page).name)
        source.write_bytes(gzip.decompress(Path(PREFIX, f"share/man/{page}.gz").read_bytes()))
        end = ran("man", "--warnings", "-l", source, MANWIDTH="200", LC_ALL="C.UTF-8")
        expect(end.returncode == 0 and not end.stderr, f"man {page}: {end.stderr[:500]}")
        shown[page] = " ".join(end.stdout.split())
    words = {"man1/dsa.1": ["no arguments", "nothing to standard error", "Unfenced", "greatest_transfer", "DualcastBits"], "man3/dsa_planner.3": make.exported()}
    words["man1/dsa_text.1"] = ["--greatest-batch", "--svg", "--at", "dualcast"]
    words["man1/dsa_jobs.1"] = ["no arguments", "67,108,864", "before it reads on"]
    words |= {"man1/dsa_trace.1": ["--seeds", "--no-namespace"], "man1/dsa_prices.1": ["--options"]}
    words["man3/dsa_queue.3"] = [*make.exported(make.QUEUE / "dsa_queue.h"), "dsa_list_check", "DSA_QUEUE_OR_SOFTWARE",
                                 "One list for buffers that change"]
    for page, wanted in words.items():
        missing = [word for word in wanted if word not in shown[page]]
        expect(not missing, f"{page} does not say {missing}")
        is_plain = page.endswith("3") or not re.search(r"`|\*\*", shown[page])
        expect(is_plain, f"{page} has marks of Markdown")
    in_turn = ["void dsa_list_barrier", "What is added next begins", "enum dsa_end {", "enum dsa_end dsa_list_run"]
    in_turn = [shown["man3/dsa_queue.3"].find(words) for words in [*in_turn, "Plans the list"]]
    expect(-1 not in in_turn and in_turn == sorted(in_turn), f"comments below their declarations are at {in_turn}")


def documents():
    """What the installed pages and manual pages name is installed."""
    package_pages.names(READER)
    package_pages.manuals(READER)


def commands():
    """What the installed pages show runs from what is installed alone, as it is shown."""
    package_pages.commands(READER)


def completion():
    """How bash completes the beginning of a line."""
    script = f"{PREFIX}/share/bash-completion/completions/dsa_text"
    lines = {
        "dsa_text ex": "explain",
        "dsa_text disassemble --st": "--staging",
        "dsa_text explain --sv": "--svg",
        "dsa_text assemble --jo": "--job",
        "dsa_text assemble --lone ": "",
        "dsa_text help dis": "disassemble",
        "dsa_text disassemble --sv": "",
    }
    for line, offered in lines.items():
        words = " ".join(f'"{word}"' for word in line.split(" "))
        line_is = f"COMP_WORDS=({words}); COMP_CWORD={len(line.split(' ')) - 1}"
        ask = f'. "{script}"; {line_is}; _dsa_text; echo "${{COMPREPLY[*]}}"'
        tried(f"completion of {line!r}", "bash", "-c", ask, printed=f"{offered}\n")


def device():
    """The installed dsa_trace finds its library and dsa_text: it names what a client lacks that gcc alone has built. dsa_prices
    says that there is no device, and measures the one in software."""
    strict = ["-std=c11", "-D_GNU_SOURCE", *STRICT[:2], "-Werror", "-O1"]
    tried("the build of ordered", "cc", *strict, ROOT / "tests/trace/ordered.c", "-o", "ordered")
    trace, prices = f"{PREFIX}/bin/dsa_trace", f"{PREFIX}/bin/dsa_prices"
    for name, option in itertools.product(("dsa_trace", "dsa_prices", "dsa_text"), ("--version", "-V")):
        wanted = f"{name} {'.'.join(map(str, make.version()))}\n"
        tried(f"{name} {option}", f"{PREFIX}/bin/{name}", option, printed=wanted)
    tried("dsa_trace --audit", trace, "--audit", "--seeds", 5, "--", "./ordered", "fenced")
    refused("a missing fence", ["missing fence, read after write"], trace, "--audit", "--", "./ordered", "fence")
    tried("the build of the example", "cc", "-O2", "-mmovdir64b", EXAMPLES / "trace/copy_twice.c", "-o", "copy_twice")
    refused("the example", ["missing fence, read after write"], trace, "--audit", "--seeds", 20, "--", "./copy_twice")
    words = ["cc", *STRICT, EXAMPLES / "barrier/publish.c", *linking("dsa_queue"), "-o", "publish"]
    tried("the build of the example with a barrier", *words)
    library = {"LD_LIBRARY_PATH": f"{PREFIX}/lib"}
    words = ["cc", *STRICT, EXAMPLES / "barrier/publish.c", *linking("dsa_queue_static"), "-o", "publish_static"]
    tried("the build with archives alone", *words)
    tried("a list that publishes", trace, "--", "./publish_static", "right", printed="published\n")
    tried("a list that publishes", trace, "--", "./publish", "right", printed="published\n", **library)
    for name in ("queue_journal", "queue_checksum"):
        tried(f"the build of {name}", "cc", *STRICT, EXAMPLES / f"queue/{name}.c", *linking("dsa_queue"), "-o", name)
        for how in ("right", "wrong"):
            tried(f"{name} {how}", trace, "--audit", "--seeds", 5, "--", f"./{name}", how, **library)
    source = EXAMPLES / "queue/queue_threads.c"
    words = ["cc", *STRICT, "-D_GNU_SOURCE", source, *linking("dsa_queue"), "-o", "queue_threads"]
    tried("the build of the example of threads", *words)
    tried("threads on a queue", trace, "--audit", "--", "./queue_threads", **library)
    refused("a missing wait", ["missing wait, read after write"], trace, "--audit", "--", "./ordered", "wait")
    if not Path("/dev/dsa").exists():
        refused("prices without a device", ["there is no such queue"], prices)
    keep = "echo 0,0,0,0,0,0,1,3f03fd > /sys/bus/dsa/devices/dsa0/op_cap"
    refused("prices of a portal that the kernel keeps", ["with CAP_SYS_RAWIO map its portal; without it the queue"],
            trace, "--", "sh", "-c", f"{keep}; exec {prices}")
    for queue in ("wq0.0", "wq0.1"):
        words = [prices, "--greatest-batch", 8, "--times", 20, f"/dev/dsa/{queue}"]
        found = json.loads(tried("prices", trace, "--order", "fifo", "--", *words) or "{}")
        right = found.get("version") == 2 and len(found["batch"]) == 7 and found["lone"] > 0
        expect(right, f"dsa_prices measures {found}")
        options = tried("prices as options", trace, "--order", "fifo", "--", *words[:1], "--options", *words[1:]).split()
        text = "move 0x1000 -> 0x2000, 64 bytes, record 0x8000\n"
        Path(FOLDER, "one.txt").write_text(text)
        tried("a plan with these prices", f"{PREFIX}/bin/dsa_text", "explain", *options, "one.txt")


def said():
    """The file PROVED names the commit, the toolchain, each promise of docs/PROOF.md, and the sums of the programs."""
    text = Path(PREFIX, "share/doc/dsa-planner/PROVED").read_text()
    kit = subprocess.run(["rt", "version"], capture_output=True, text=True, check=True).stdout.split()[0]
    expect(f"Toolchain: {kit}\n" in text and make.commit()[0] in text, "PROVED does not name the toolchain and the commit")
    promised = Path("docs/PROOF.md").read_text().split("## What is promised")[1].split("\n## ")[0]
    rows = re.findall(r"^\| (.*?) \| ", promised, re.M)
    expect(len(rows) > 5 and all(row in text for row in rows[1:]), "PROVED does not have the promises of docs/PROOF.md")
    for name in ("dsa", "dsa_jobs", "dsa_text"):
        summed = tried("sha256sum", "sha256sum", f"{PREFIX}/bin/{name}").split()[0]
        expect(f"{summed}  {name}\n" in text, f"PROVED has another sum of {name}")


# ---- callers


def c():
    """C by pkg-config, and C++17: static and shared, by each compiler."""
    for name in ("two_moves", "own_memory"):
        golden = Path(f"bindings/c/{name}.stdout").read_text()
        package = "dsa_planner_own_memory" if name == "own_memory" else "dsa_planner"
        words = ["cc", "-std=c11", *STRICT, EXAMPLES / f"{name}.c", *linking(package), "-o", name]
        tried(f"the build of {name}", *words)
        tried(name, f"./{name}", printed=golden, LD_LIBRARY_PATH=f"{PREFIX}/lib")
    for cc, language in (("gcc", "c11"), ("clang", "c11"), ("g++", "c++17"), ("clang++", "c++17")):
        if not has(cc):
            continue
        words = ["-x", "c" if language == "c11" else "c++", f"-std={language}", *STRICT, "-Wconversion"]
        source = [*words, ROOT / "tests/package/descriptors.c", "-I", f"{PREFIX}/include"]
        tried(f"descriptors.c by {cc}", cc, *source, "-o", f"descriptors_{cc}")
        tried(f"descriptors in {language} by {cc}", f"./descriptors_{cc}", printed="".join(DESCRIPTORS[:-1]))
        source = [*words, EXAMPLES / "rows.c", "-x", "none"]
        for package in ("dsa_planner", "dsa_planner_static"):
            output = f"rows_{cc}_{package}"
            tried(f"rows.c by {cc}, {package}", cc, *source, *linking(package), "-o", output)
            tried(output, f"./{output}", ROWS, printed=WANTED, LD_LIBRARY_PATH=f"{PREFIX}/lib")
    Path(FOLDER, "older.c").write_text("unsigned dsa_planner_version(void) { return 900; }\n")
    Path(FOLDER, "older.map").write_text("DSA_PLANNER_0.9 { global: dsa_planner_version; local: *; };\n")
    Path(FOLDER, "older").mkdir()
    older = ["-shared", "-fPIC", "-Wl,-soname,libdsa_planner.so.1", "-Wl,--version-script=older.map", "older.c"]
    tried("an older library", "cc", *older, "-o", "older/libdsa_planner.so.1")
    needed = "version `DSA_PLANNER_1.0' not found"
    refused("C over an older library", [needed], "./two_moves", LD_LIBRARY_PATH=f"{FOLDER}/older")
    headers = {"gcc": ["-std=c90", "-Wno-long-long"], "g++": ["-std=c++11", "-Wold-style-cast"]}
    Path(FOLDER, "header.c").write_text("#include <dsa_planner.h>\nsize_t n = DSA_PORTAL_ROOM(2);\n")
    for cc, words in headers.items():
        if has(cc):
            what = ["-x", "c" if cc == "gcc" else "c++", *STRICT, *words, "-fsyntax-only", f"-I{PREFIX}/include", "header.c"]
            tried(f"the header by {' '.join(words)}", cc, *what)
    tried("a static program", "cc", "-static", EXAMPLES / "rows.c", *linking("dsa_planner_static"), "-o", "rows_all_static")
    tried("a static program", "./rows_all_static", ROWS, printed=WANTED)


def cmake():
    """C and C++ by CMake, and what CMake says where the version is too old."""
    if not has("cmake", "make"):
        return
    folder = Path(FOLDER, "cmake")
    folder.mkdir()
    sources = [EXAMPLES / f"{name}.c" for name in ("rows", "own_memory", "queue/queue_journal")]
    for source in (ROOT / "tests/package/CMakeLists.txt", *sources):
        shutil.copy(source, folder)
    shutil.copy(EXAMPLES / "rows.c", folder / "rows.cpp")
    where = f"-DCMAKE_PREFIX_PATH={PREFIX}"
    tried("cmake", "cmake", "-S", folder, "-B", folder / "out", where)
    tried("cmake --build", "cmake", "--build", folder / "out")
    for name in ("rows_shared", "rows_static", "rows_cxx_shared", "rows_cxx_static"):
        tried(f"{name} by CMake", folder / "out" / name, ROWS, printed=WANTED)
    tried("the journal by CMake", f"{PREFIX}/bin/dsa_trace", "--", folder / "out/queue_journal", "right")
    tried("own_memory by CMake", folder / "out/own_memory", printed=Path("bindings/c/own_memory.stdout").read_text())
    text = (folder / "CMakeLists.txt").read_text()
    major, minor, _ = make.version()
    for needed in (f"{major}.{minor + 1}", f"{major + 1}.0", f"{major - 1}.9"):
        (folder / "CMakeLists.txt").write_text(text.replace("dsa_planner 1.0", f"dsa_planner {needed}"))
        words = ["compatible with", f'version "{needed}"', f"version: {'.'.join(map(str, make.version()))}"]
        refused(f"find_package of {needed}", words, "cmake", "-S", folder, "-B", folder / f"out{needed}", where)


def cargo(*words, **more):
    """A command of cargo, with the variables that say where cargo is."""
    found = shutil.which("cargo")
    own = {name: os.environ[name] for name in ("HOME", "CARGO_HOME", "RUSTUP_HOME") if name in os.environ}
    places = {**own, "PATH": f"{Path(found).parent}:/usr/bin:/bin", "CARGO_TARGET_DIR": f"{WORK}/target"}
    return ["cargo", *words, "-q", "--offline"], {**places, **more}


def rust():
    """The crate of the package: its own tests, a caller that has it as a dependency, and what it says of bad installations."""
    if not shutil.which("cargo"):
        print("there is no cargo")
        return
    crate = shutil.copytree(f"{PREFIX}/share/dsa-planner/rust", f"{FOLDER}/crate")
    command, places = cargo("test", "--manifest-path", f"{crate}/Cargo.toml")
    tried("the tests of the crate", *command, **places)
    command, places = cargo("build", "--no-default-features", "--manifest-path", f"{crate}/Cargo.toml")
    tried("the crate without std", *command, **places)
    command, places = cargo("run", "--example", "two_moves", "--manifest-path", f"{crate}/Cargo.toml")
    tried("two_moves in Rust", *command, printed=Path("bindings/rust/examples/two_moves.stdout").read_text(), **places)
    words = ("--features", "queue", "--example", "queue", "--manifest-path", f"{crate}/Cargo.toml")
    command, places = cargo("run", *words)
    tried("the queue in Rust", *command, printed=QUEUE_PRINTS.read_text(), **places)
    caller = Path(FOLDER, "caller")
    (caller / "src/bin").mkdir(parents=True)
    package = f'[package]\nname = "caller"\nversion = "0.0.0"\nedition = "2021"\n\n[dependencies]\n'
    needs = f'dsa_planner = {{ path = "{PREFIX}/share/dsa-planner/rust" }}\n'
    Path(caller, "Cargo.toml").write_text(package + needs)
    shutil.copy(EXAMPLES / "rows.rs", caller / "src/bin/rows.rs")
    Path(caller, "src/bin/readme.rs").write_text(block_after("docs/USING.md", "### From Rust", "rust"))
    manifest = ["--manifest-path", f"{caller}/Cargo.toml"]
    command, places = cargo("run", *manifest, "--bin", "rows")
    tried("rows in Rust", *command, "--", ROWS, printed=WANTED, **places)
    command, places = cargo("run", *manifest, "--bin", "readme")
    tried("the Rust lines of docs/USING.md", *command, printed="cost 10\n", **places)
    bad_rust(f"{crate}/Cargo.toml")


def bad_rust(manifest):
    """What the build of the crate says where the package is missing, or of another version."""
    old = shutil.copytree(PREFIX, f"{WORK}/old")
    header = Path(old, "include/dsa_planner.h")
    text = header.read_text()
    what_to_do = ["Install the package dsa-planner", "DSA_PLANNER_PREFIX"]
    needed = "and this crate needs {}.{} or a later one".format(*make.version())
    for major in (make.version()[0] - 1, make.version()[0] + 1):
        header.write_text(re.sub(r"MAJOR \d+", f"MAJOR {major}", text))
        command, places = cargo("build", "--manifest-path", manifest, DSA_PLANNER_PREFIX=old)
        refused(f"the crate over {major}.x", [f"has version {major}.", needed, *what_to_do], *command, **places)
    header.unlink()
    command, places = cargo("build", "--manifest-path", manifest, DSA_PLANNER_PREFIX=old)
    refused("the crate without a header", ["cannot read", *what_to_do], *command, **places)
    command, places = cargo("build", "--manifest-path", manifest, DSA_PLANNER_PREFIX="/nowhere")
    refused("the crate over no prefix", ["DSA_PLANNER_PREFIX is /nowhere", *what_to_do], *command, **places)
    for program_of in ("pkg-config", "/nowhere/pkg-config"):
        command, places = cargo("build", "--manifest-path", manifest, PKG_CONFIG_PATH="/nowhere", PKG_CONFIG=program_of)
        refused("the crate over nothing", ["the package dsa-planner is not found", *what_to_do], *command, **places)


# Two moves, the second of what the first wrote, prepared once and filled where all buffers lie elsewhere; and the same
# with a checksum of what was written, whose seed is read there.
FILLED = """
from dsa_planner import Prepared, Refusal, Settings, crc, plan_list, prepare

def moves(*at):
    words = [(0x0300000C << 32, at[3], at[0], at[1], 64), (0x0300000C << 32, at[3] + 32, at[1], at[2], 64)]
    return b"".join(b"".join(word.to_bytes(8, "little") for word in it) + bytes(24) for it in words)

def with_checksum(*at):
    return moves(*at)[:64] + crc(at[1], 64, at[3] + 32, seed_at=at[2] + 4)

def settings(staging):
    return Settings(4, 4096, lone=10, batch=14, fence=3, staging=staging)

old, new = (0x1000, 0x2000, 0x3000, 0x8000), (0x91040, 0x700, 0x5000, 0x60)
prepared = prepare(settings(0x10000), moves(*old), [(first, 64) for first in old])
planned = plan_list(settings(0x40000), moves(*new))
same = [Prepared(bytes(it)).fill(new, 0x40000) == (planned.portal, planned.staging) for it in (prepared, bytes(prepared))]
seeded = prepare(settings(0x10000), with_checksum(*old), [(first, 64) for first in old])
planned_so = plan_list(settings(0x40000), with_checksum(*new))
same.append(seeded.fill(new, 0x40000) == (planned_so.portal, planned_so.staging))
assert len(planned.portal) == 64
try:
    prepared.fill(new, 0x5000)
except Refusal as refusal:
    print(sum(same), "batches as planned, then", refusal.number)
"""

# two moves with a barrier between: a batch of cost 14 with a fence of cost 3, where one of them alone costs 10
BARRIERS = """
from dsa_planner import BARRIER, Settings, check_list, move, plan_list_certified
settings = Settings(4, 4096, 10, 14, 3, 65536)
operations = move(0x1000, 0x2000, 64, 0x8000) + move(0x3000, 0x4000, 64, 0x8020, flags=BARRIER)
planned = plan_list_certified(settings, operations)
cost = check_list(settings, operations, planned.portal, planned.staging, planned.certificate)
print(cost, planned.cost, planned.certificate.prices, planned.certificate.pairs, planned.marks.hex())
"""


def python():
    """The module of the package, and what it says of bad libraries and of arguments that C would take otherwise."""
    if not has("python3"):
        return
    module = f"{PREFIX}/share/dsa-planner/python"
    tried("rows in Python", "python3", "-B", EXAMPLES / "rows.py", ROWS, printed=WANTED, PYTHONPATH=module)
    script = ROOT / "tests/package/descriptors.py"
    tried("descriptors in Python", "python3", "-B", script, printed="".join(DESCRIPTORS), PYTHONPATH=module)
    printed = QUEUE_PRINTS.read_text()
    tried("the queue in Python", "python3", "-B", EXAMPLES / "queue/queue_copy.py", printed=printed, PYTHONPATH=module)
    Path(FOLDER, "readme.py").write_text(block_after("docs/USING.md", "### From Python", "python"))
    tried("the Python lines of docs/USING.md", "python3", "-B", "readme.py", printed="cost 10\n", PYTHONPATH=module)
    printed = "3 batches as planned, then 109\n"
    tried("a list prepared in Python", "python3", "-B", "-c", FILLED, printed=printed, PYTHONPATH=module)
    printed = "17 17 [0, 10, 17] [(0, 1), None] 0102\n"
    tried("a list with a barrier in Python", "python3", "-B", "-c", BARRIERS, printed=printed, PYTHONPATH=module)
    Path(FOLDER, "none.c").write_text("int nothing;\n")
    Path(FOLDER, "old.c").write_text("unsigned dsa_planner_version(void) { return 901; }\n")
    Path(FOLDER, "next.c").write_text("unsigned dsa_planner_version(void) { return 20000; }\n")
    Path(FOLDER, "text.so").write_text("no library")
    for name in ("none", "old", "next"):
        tried(f"the build of {name}.so", "cc", "-shared", "-fPIC", f"{name}.c", "-o", f"{name}.so")
    text = Path(module, "dsa_planner.py").read_text()
    needed = "{}.{}".format(*re.search(r"^_MAJOR, _MINOR = (\d+), (\d+)$", text, re.M).groups())
    said_of = {
        "none": f"is no library of dsa-planner {needed} or later",
        "old": f"has version 0.9, and this module needs {needed}",
        "next": f"has version 2.0, and this module needs {needed}",
        "text": "Install the package dsa-planner",
        "missing": "which DSA_PLANNER_LIBRARY names",
    }
    for name, words in said_of.items():
        library = {"PYTHONPATH": module, "DSA_PLANNER_LIBRARY": f"{FOLDER}/{name}.so"}
        words = ["ImportError: dsa_planner: ", words]
        refused(f"Python over {name}.so", words, "python3", "-Bc", "import dsa_planner", **library)
    bad = {
        "Settings(4, 4096, -1, 14, 3, 0)": "ValueError: lone is -1",
        "Settings(4, 4096, 2**64 + 10, 14, 3, 0)": "ValueError: lone is 18446744073709551626",
        "Settings(4, 4096, 10, [1, 2, 2**64], 3, 0)": "ValueError: a price of a batch is",
        "Settings(4, 4096, 10.0, 14, 3, 0)": "TypeError: lone is 10.0",
        "Settings(4, 4096, 10, 14, True, 0)": "TypeError: fence is True",
    }
    for settings, words in bad.items():
        lines = f"from dsa_planner import Settings, plan_list\nplan_list({settings}, b'')"
        refused(settings, [words], "python3", "-Bc", lines, PYTHONPATH=module)
    measures = {
        "65, 4": "refused 126 NotATracker: a tracker has at most 64 slots",
        "4, 4, 33": "log2_rows of a tracker is not 1 to 32",
        "4, 4, log2_unit=64": "log2_unit of a tracker is not 1 to 63",
    }
    for words, said in measures.items():
        lines = f"from dsa_planner import Tracker\nTracker({words})"
        refused(f"Tracker({words})", [said], "python3", "-Bc", lines, PYTHONPATH=module)
    good = "Settings(4, 4096, 10, 14, 3, 65536)"
    lines = f"from dsa_planner import Settings, plan_list\nplan_list({good}, 'text')"
    refused("a list that is text", ["TypeError: operations is of type str"], "python3", "-Bc", lines, PYTHONPATH=module)


def sentences():
    """The crate and the module say the same of each refusal."""
    if not has("python3") or not Path(WORK, "target/debug/rows").exists():
        print("sentences are compared after the part rust alone")
        return
    module = f"{PREFIX}/share/dsa-planner/python"
    of_python = tried("sentences in Python", "python3", "-B", EXAMPLES / "rows.py", ROWS, "say", PYTHONPATH=module)
    of_rust = tried("sentences in Rust", f"{WORK}/target/debug/rows", ROWS, "say")
    expect(of_python == of_rust and ": refused " in of_rust, "the crate and the module say other sentences")


def readme():
    """The lines of docs/USING.md in C."""
    Path(FOLDER, "app.c").write_text(block_after("docs/USING.md", "### From C", "c"))
    tried("the C lines of docs/USING.md", "cc", *STRICT, "app.c", *linking("dsa_planner_static"), "-o", "app")
    tried("the C lines of docs/USING.md", "./app", printed="0: cost 10\n")


def threads():
    """Random lists from eight threads at once with sanitizers (LISTS sets how many, 100), and the stack that each call
    takes beside what the header says."""
    asked = Path(PREFIX, "include/dsa_planner.h").read_text()
    words = r"has (\d+) KiB of stack free for dsa_check, .* and dsa_judge, and (\d+) KiB for\s"
    limits = re.search(words, asked)
    common = ["cc", "-std=c11", "-D_GNU_SOURCE", "-O1", "-g", "-Wall", "-Wextra", "-Werror", "-pthread"]
    tried("stack.c", *common, ROOT / "tests/bindings/stack.c", *linking("dsa_planner_static"), "-o", "stack")
    checking, planning = (1024 * int(number) for number in limits.groups())
    tried("the stack of each call", "./stack", planning, checking)
    Path(FOLDER, "empty.c").write_text("int main(void) { return 0; }\n")
    for kind in ([], ["-fsanitize=address,undefined", "-fno-sanitize-recover=all"], ["-fsanitize=thread"]):
        if kind and ran("cc", *kind, "empty.c", "-o", "empty").returncode + ran("./empty").returncode:
            print(f"there is no {kind[0]}")
            continue
        source = ROOT / "tests/bindings/threads.c"
        tried(f"threads.c {kind}", *common, *kind, source, *linking("dsa_planner_static"), "-o", "threads")
        tried(f"threads {kind}", "./threads", os.environ.get("LISTS", "100"), 8, 20261124)


PARTS = [version, reproduced, unproved, installed, debian, symbols, pages, documents, commands, completion, device]
PARTS += [said, c, cmake, rust, python, sentences, readme, threads]


def main(words):
    global WORK, FOLDER, PREFIX, UNPACKED, EXAMPLES, ROWS, WANTED, TARBALL, READER
    if not compiler() or not has("cc", "pkg-config", "nm", "readelf", "ld", "objcopy"):
        print("skipped, there is no C compiler, no binutils or no pkg-config")
        sys.exit(0)
    parts = named(PARTS, words)
    with tempfile.TemporaryDirectory() as WORK:
        TARBALL = make.make(ROOT / "out")[0]
        FOLDER, PREFIX = f"{WORK}/callers", f"{WORK}/prefix"
        Path(FOLDER).mkdir()
        subprocess.run(["tar", "xf", TARBALL, "-C", WORK], check=True)
        UNPACKED = Path(WORK, TARBALL.name.removesuffix(".tar.gz"))
        subprocess.run([UNPACKED / "install.sh", PREFIX], check=True)
        EXAMPLES = Path(PREFIX, "share/doc/dsa-planner/examples")
        ROWS = EXAMPLES / "rows.txt"
        READER = package_pages.Reader(PREFIX, f"{WORK}/reader")
        WANTED = f"{ROWS.read_text().count(chr(10) + 'row ')} rows, 0 wrong\n"
        for part in parts:
            part()


if __name__ == "__main__":
    run_test(main)
