#!/usr/bin/env -S python3 -B
"""Makes the packages in out/ from what was proved: an archive to unpack, and one for Debian.

    bindings/package/make.py [--built] [FOLDER]

It needs the archive and the programs, as the gate proved and recorded them, and proves and builds what is lacking;
with --built it stops instead. It needs the toolchain too, a C compiler (CC names it), make, binutils, and dpkg-deb for
the second.
If the folder is given, the packages are written there. Equal inputs give equal packages, byte for byte."""

import gzip
import hashlib
import io
import os
import re
import shutil
import subprocess
import sys
import tarfile
import tempfile
from pathlib import Path

sys.path.insert(0, str(Path(__file__).resolve().parent))
import completion
import manual
import pages
import rows

HERE = Path(__file__).resolve().parent
ROOT = HERE.parent.parent
HEADER = ROOT / "bindings/c/dsa_planner.h"
QUEUE = ROOT / "bindings/queue"
# The layer, and the device in software that it shares with dsa_trace.
QUEUE_OF = [*sorted(QUEUE.glob("*.c")), *(ROOT / f"trace/{name}.c" for name in ("crc", "device", "dif", "valid"))]
QUEUE_SONAME = "libdsa_queue.so.0"  # its calls may change in any version
MODULES = ("dsa_descriptors", "dsa_planner", "dsa_queue", "dsa_reasons")  # of Python
PROVED = {
    "libdsa_c.a": ROOT / "crates/dsa_c/out/libdsa_c.a",
    "dsa": ROOT / "crates/dsa/out/dsa",
    "dsa_jobs": ROOT / "crates/dsa_jobs/out/dsa_jobs",
    "dsa_text": ROOT / "crates/dsa_text/out/dsa_text",
}
COMPILE = ["-std=c11", "-D_GNU_SOURCE", "-O2", "-fPIC", "-Wall", "-Wextra", "-Werror", "-ffunction-sections"]
HARDEN = ["-Wl,-z,relro,-z,now,-z,noexecstack,-z,defs,-z,text"]
# How the names of examples end.
EXAMPLES = ("job", "c", "py", "txt", "svg", "xxd", "events")
# Where the package has its files, unpacked anywhere or installed by dpkg.
ANYWHERE = {"prefix": "${pcfiledir}/../..", "lib": "lib", "python": "share/dsa-planner/python"}
DEBIAN = {"prefix": "/usr", "lib": "lib/x86_64-linux-gnu", "python": "lib/python3/dist-packages"}
# Before dpkg removes the Python modules: what Python has compiled of them.
PRERM = f"""#!/bin/sh
set -e
compiled="$DPKG_ROOT"/usr/lib/python3/dist-packages/__pycache__
for module in {' '.join(MODULES)}; do
    rm -f "$compiled/$module".*.pyc
done
rmdir "$compiled" 2>/dev/null || true
"""


def run(*command, **how):
    """What a command prints; the words that it fails with end the script."""
    ran = subprocess.run([str(word) for word in command], capture_output=True, text=True, **how)
    if ran.returncode != 0:
        sys.exit(f"make.py: {' '.join(map(str, command))}: {ran.stderr.strip()}")
    return ran.stdout


def version():
    """Major, minor and patch, from the header, which is their one place."""
    found = re.findall(r"^#define DSA_PLANNER_(?:MAJOR|MINOR|PATCH) (\d+)$", HEADER.read_text(), re.M)
    return tuple(map(int, found))


def exported(header=HEADER):
    """The functions that callers may use."""
    return sorted(set(re.findall(r"^(?!static)\w[\w ]*[ *](dsa_\w+)\(", header.read_text(), re.M)))


def need_proved(*files):
    """The kit and the sum of each built file, as the gate recorded them when it was proved; the reason ends the script where the
    gate has no record of the file, or not of this file, these sources and this kit."""
    crates = [PROVED[file].parent.parent.name for file in files or PROVED]
    ask = [sys.executable, "-B", ROOT / "tests/gate/proved.py", *crates]
    ran = subprocess.run(ask, capture_output=True, text=True)
    if ran.returncode != 0:
        sys.exit(f"make.py: {ran.stderr.strip()}")
    return {name: (kit, summed) for name, kit, summed in map(str.split, ran.stdout.splitlines())}


def compiled(source, to):
    """Compiles a file in C; answers the object."""
    made = f"{to}/{source.stem}.o"
    flags = [*COMPILE, f"-ffile-prefix-map={ROOT}=.", "-I", HEADER.parent, "-I", ROOT / "trace"]
    run(os.environ.get("CC", "cc"), *flags, "-c", source, "-o", made)
    return made


def archive(to, objects, names, work):
    """An archive of one object, in which all but these names are hidden."""
    joined = f"{work}/{to.stem.removeprefix('lib')}.o"
    run("ld", "-r", "-o", joined, *objects)
    run("objcopy", *(f"--keep-global-symbol={name}" for name in names), "--remove-section=.llvm_addrsig", joined)
    run("ar", "rcsD", to, joined)


def shared(to, soname, objects, script, *more):
    """A shared object, which exports what the script names."""
    named = [f"-Wl,-soname,{soname}", f"-Wl,--version-script={script}"]
    run(os.environ.get("CC", "cc"), "-shared", *named, *HARDEN, *objects, *more, "-o", to)
    run("strip", "--strip-unneeded", to)


def libraries(to):
    """Both archives of the planner and its shared object; the archive of the queue and its shared object."""
    numbers, names = version(), exported()
    soname = f"libdsa_planner.so.{numbers[0]}"
    planner = to / f"libdsa_planner.so.{'.'.join(map(str, numbers))}"
    with tempfile.TemporaryDirectory() as work:
        memory, of_version = (compiled(HEADER.parent / f"{source}.c", work) for source in ("memory", "version"))
        run("ar", "x", PROVED["libdsa_c.a"], cwd=work)
        for name, more in {"": [memory], "_own_memory": []}.items():
            archive(to / f"libdsa_planner{name}.a", [f"{work}/dsa_c.o", *more, of_version], names, work)
        shared(planner, soname, [f"{work}/dsa_c.o", memory, of_version], HERE / "dsa_planner.map")
    with tempfile.TemporaryDirectory() as work:
        objects, names = [compiled(source, work) for source in QUEUE_OF], exported(QUEUE / "dsa_queue.h")
        archive(to / "libdsa_queue.a", objects, names, work)
        script = Path(work, "names")
        script.write_text("{ global: %s; local: *; };\n" % "; ".join(names))
        shared(to / QUEUE_SONAME, QUEUE_SONAME, objects, script, planner, "-pthread")
    (to / soname).symlink_to(planner.name)
    (to / "libdsa_planner.so").symlink_to(soname)


def device(root):
    """The software device: dsa_trace, the library that it loads into programs, and dsa_prices."""
    with tempfile.TemporaryDirectory() as work:
        flags = f"-O2 -ffile-prefix-map={ROOT}=."
        run("make", "-C", ROOT / "trace", f"OUT={work}", f"CFLAGS={flags}", f"CC={os.environ.get('CC', 'cc')}")
        (root / "lib/dsa-planner").mkdir(parents=True, exist_ok=True)
        places = {"dsa_trace": "bin", "dsa_prices": "bin", "libdsa_trace.so": "lib/dsa-planner"}
        for name, place in places.items():
            run("strip", "--strip-unneeded", f"{work}/{name}")
            shutil.copy(f"{work}/{name}", root / place)
    shared = root / "share/dsa-planner"
    shared.mkdir(parents=True, exist_ok=True)
    shutil.copy(ROOT / "trace/libdsa_trace.supp", shared)


def filled(template, **values):
    """A template with its `@name@` filled in."""
    return re.sub(r"@(\w+)@", lambda mark: str(values[mark[1]]), (HERE / template).read_text())


def build_files(to, places):
    """What pkg-config and CMake look for."""
    numbers = version()
    common = {"version": ".".join(map(str, numbers)), "major": numbers[0], **places}
    in_archive = "${libdir}/lib%s.a"
    kinds = {
        "dsa_planner": ("the shared object", "-L${libdir} -ldsa_planner"),
        "dsa_planner_static": ("the archive", in_archive % "dsa_planner"),
        "dsa_planner_own_memory": ("the archive for programs with memory functions of their own", None),
    }
    for name, (what, libs) in kinds.items():
        text = filled("pkgconfig.in", name=name, what=what, libs=libs or in_archive % name, requires="", **common)
        write(to / f"pkgconfig/{name}.pc", text)
    what, libs = "lists on a work queue, experimental", in_archive % "dsa_queue" + " -pthread"
    for end, how in {"": "", "_static": ", archives alone"}.items():
        more = {"what": what + how, "requires": f"Requires: dsa_planner{end}\n"}
        text = filled("pkgconfig.in", name=f"dsa_queue{end}", libs=libs, **more, **common)
        write(to / f"pkgconfig/dsa_queue{end}.pc", text)
    up = "/".join([".."] * (len(Path(places["lib"]).parts) + 2))
    write(to / "cmake/dsa_planner/dsa_planner-config.cmake", filled("config.cmake.in", up=up, **common))
    write(to / "cmake/dsa_planner/dsa_planner-config-version.cmake", filled("config-version.cmake.in", **common))


def write(path, text):
    path.parent.mkdir(parents=True, exist_ok=True)
    path.write_text(text)


def promises():
    """The table of promises, from docs/PROOF.md."""
    text = (ROOT / "docs/PROOF.md").read_text()
    rows = re.search(r"^## What is promised\n.*?^\| Promise [^\n]*\n\|-[^\n]*\n((?:\|[^\n]*\n)+)", text, re.M | re.S)[1]
    cells = [[cell.strip() for cell in row.strip("|\n").split("|")] for row in rows.splitlines()]
    return "\n".join(f"- {promise}. Clauses: {place}." for promise, place in cells)


def commit():
    """The commit that this tree has, whether it has changes, and the commit's time."""
    if subprocess.run(["git", "-C", str(ROOT), "rev-parse", "HEAD"], capture_output=True).returncode != 0:
        return "unknown (no git)", 0
    name = run("git", "-C", ROOT, "rev-parse", "HEAD").strip()
    changes = run("git", "-C", ROOT, "status", "--porcelain").strip()
    time = int(run("git", "-C", ROOT, "log", "-1", "--format=%ct"))
    return name + (", with changes that are not committed" if changes else ""), time


def proved(records):
    """The file that says what was proved, from what the gate recorded of each built file."""
    name, _ = commit()
    [kit] = {kit for kit, _ in records.values()}
    sums = "\n".join(f"{records[path.parent.parent.name][1]}  {file}" for file, path in PROVED.items())
    return f"""What was proved of dsa-planner {".".join(map(str, version()))}

Commit: {name}
Toolchain: {kit}

The toolchain proved each function of the archive libdsa_c.a and of the programs dsa, dsa_jobs and dsa_text before it
compiled them. Their SHA-256 sums:

{sums}

libdsa_planner.a, libdsa_planner_own_memory.a and libdsa_planner.so have the code of libdsa_c.a as it is. Not proved, and
in this package beside it: memory.c (three functions over malloc, realloc and free; not in libdsa_planner_own_memory.a),
version.c (one function), the Rust crate, the Python modules, and that a caller in C keeps what dsa_planner.h asks of
it. Nor are libdsa_queue.a, libdsa_queue.so, dsa_trace, its library and dsa_prices.

Promises, for all inputs, with the functions whose clauses carry them:

{promises()}
"""


def tree(root, places, records):
    """All files of the package, under one folder."""
    numbers = ".".join(map(str, version()))
    library = root / places["lib"]
    docs = root / "share/doc/dsa-planner"
    for folder in (root / "bin", root / "include", library, docs / "examples"):
        folder.mkdir(parents=True)
    for name in ("dsa", "dsa_jobs", "dsa_text"):
        copied = Path(shutil.copy(PROVED[name], root / "bin" / name))
        if hashlib.sha256(copied.read_bytes()).hexdigest() != records[name][1]:
            sys.exit(f"make.py: {name} changed while it was packaged")
    for header in (HEADER, HEADER.parent / "dsa_descriptors.h", QUEUE / "dsa_queue.h"):
        shutil.copy(header, root / "include")
    libraries(library)
    device(root)
    build_files(library, places)
    manuals(root / "share/man", numbers)
    script = completion.bash(str(PROVED["dsa_text"]), "dsa_text")
    write(root / "share/bash-completion/completions/dsa_text", script)
    write(docs / "PROVED", proved(records))
    shutil.copy(HERE / "dsa_trace.bash", root / "share/bash-completion/completions/dsa_trace")
    pages.write(docs)
    examples(docs / "examples")
    crate = root / "share/dsa-planner/rust"
    ignored = shutil.ignore_patterns("target", "Cargo.lock", ".gitignore", "*.stdout")
    shutil.copytree(ROOT / "bindings/rust", crate, ignore=ignored)
    for module in MODULES:
        write(root / places["python"] / f"{module}.py", (ROOT / f"bindings/python/{module}.py").read_text())


def manuals(to, numbers):
    """The manual pages, dated by the commit."""
    date = run("date", "-u", "-d", f"@{commit()[1]}", "+%Y-%m-%d").strip()
    head = {"version": numbers, "date": date}
    texts = {
        "dsa.1": manual.dsa(head),
        "dsa_jobs.1": manual.dsa_jobs(head),
        "dsa_text.1": manual.dsa_text(head, str(PROVED["dsa_text"])),
        "dsa_planner.3": manual.of_header(head, "bindings/c/dsa_planner.h", "dsa", "dsa_text"),
        "dsa_queue.3": manual.of_header(head, "bindings/queue/dsa_queue.h", "dsa_planner", "dsa_trace"),
        "dsa_trace.1": filled("dsa_trace.1", **head),
        "dsa_prices.1": filled("dsa_prices.1", **head),
    }
    for name, text in texts.items():
        path = to / f"man{name[-1]}" / f"{name}.gz"
        path.parent.mkdir(parents=True, exist_ok=True)
        path.write_bytes(gzip.compress(pages.placed(text).encode(), mtime=0))


def examples(to):
    """Examples of the calls, and those of the repository in their folders; rows for tests of a caller's own, with three
    readers."""
    for name in ("two_moves.c", "own_memory.c", "submit.c", "ring.c", "tracker.c"):
        shutil.copy(ROOT / "bindings/c" / name, to)
    for path in (ROOT / "examples").rglob("*"):
        if path.suffix[1:] in EXAMPLES and path.is_file():
            write(to / path.relative_to(ROOT / "examples"), path.read_text())
    for path in (ROOT / "tests/package").glob("rows.*"):
        shutil.copy(path, to)
    write(to / "rows.txt", rows.rows(ROOT / "tests/jobs"))


def tidy(root):
    """Gives each file of a tree the time of the commit and plain rights, so that packages can be compared."""
    time = commit()[1]
    for path in [root, *root.rglob("*")]:
        if not path.is_symlink():
            executable = path.is_dir() or path.parent.name == "bin" or path.name == "install.sh"
            path.chmod(0o755 if executable else 0o644)
        os.utime(path, (time, time), follow_symlinks=False)


def tarball(root, to):
    """Packs a tree. Names are in order, owners are root, and the packed file has no time of its own."""

    def plain(info):
        info.uid = info.gid = 0
        info.uname = info.gname = "root"
        return info

    packed = io.BytesIO()
    with tarfile.open(fileobj=packed, mode="w", format=tarfile.GNU_FORMAT) as out:
        for path in [root, *sorted(root.rglob("*"))]:
            out.add(path, path.relative_to(root.parent), recursive=False, filter=plain)
    replace(to, gzip.compress(packed.getvalue(), mtime=0))


def replace(path, content):
    """Writes a file so that no reader sees part of it."""
    part = path.with_name(f"{path.name}.{os.getpid()}")
    part.write_bytes(content)
    part.replace(path)


def debian(root, to, numbers):
    """Packs a tree, which has usr, for Debian."""
    files = [path for path in root.rglob("*") if path.is_file() and not path.is_symlink()]
    built = [path for path in files if path.parent.name == "bin" or ".so" in path.suffixes]
    needed = {tuple(map(int, it.split("."))) for path in built
              for it in re.findall(r"GLIBC_([\d.]+)", run("readelf", "-VW", path))}
    libc = ".".join(map(str, max(needed)))
    size = sum(path.stat().st_size for path in files) // 1024 + 1
    sums = "".join(f"{hashlib.md5(path.read_bytes()).hexdigest()}  {path.relative_to(root)}\n" for path in sorted(files))
    write(root / "DEBIAN/md5sums", sums)
    write(root / "DEBIAN/triggers", "activate-noawait ldconfig\n")
    write(root / "DEBIAN/prerm", PRERM)
    libraries_of = {"libdsa_planner": numbers.split(".")[0], "libdsa_queue": QUEUE_SONAME.split(".")[-1]}
    lines = (f"{name} {major} dsa-planner (>= {numbers})\n" for name, major in libraries_of.items())
    write(root / "DEBIAN/shlibs", "".join(lines))
    write(root / "DEBIAN/control", filled("control.in", version=numbers, libc=libc, size=size))
    tidy(root)
    (root / "DEBIAN/prerm").chmod(0o755)
    part = to.with_name(f"{to.name}.{os.getpid()}")
    time = dict(os.environ, SOURCE_DATE_EPOCH=str(commit()[1]))
    run("dpkg-deb", "--root-owner-group", "-Zxz", "--build", root, part, env=time)
    part.replace(to)


def make(to):
    """Makes the packages; answers where they are."""
    records = need_proved()
    numbers = ".".join(map(str, version()))
    name = f"dsa-planner-{numbers}-x86_64-linux"
    to.mkdir(parents=True, exist_ok=True)
    made = [to / f"{name}.tar.gz"]
    with tempfile.TemporaryDirectory() as work:
        root = Path(work, name)
        tree(root, ANYWHERE, records)
        shutil.copy(HERE / "install.sh", root)
        tidy(root)
        tarball(root, made[0])
        if shutil.which("dpkg-deb"):
            made.append(to / f"dsa-planner_{numbers}_amd64.deb")
            tree(Path(work, "debian/usr"), DEBIAN, records)
            debian(Path(work, "debian"), made[1], numbers)
        else:
            print("there is no dpkg-deb, so no package for Debian")
    return made


def main(words):
    if words[:1] == ["--built"]:
        words = words[1:]
    else:
        crates = sorted({path.parent.parent.name for path in PROVED.values()})
        if subprocess.run([sys.executable, "-B", ROOT / "tests/gate/built.py", *crates]).returncode != 0:
            sys.exit("make.py: not all is proved and built")
    for path in make(Path(words[0]) if words else ROOT / "out"):
        print(path)


if __name__ == "__main__":
    main(sys.argv[1:])
