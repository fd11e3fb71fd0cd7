"""What the tests share: programs and where they are, counting cases, jobs made from parts, copies of crates, and an
end that leaves nothing running. A test is a module with `main(words)`, the words being names of its cases."""

import json
import os
import re
import shutil
import signal
import subprocess
import sys
import tempfile
from concurrent.futures import ThreadPoolExecutor
from contextlib import contextmanager
from pathlib import Path

from model import MOVE, Op

ROOT = Path(__file__).resolve().parent.parent
NUMBERS = {
    "version": 1,
    "greatest_batch": 4,
    "greatest_transfer": 4096,
    "lone": 10,
    "batch": 14,
    "fence": 3,
    "staging": 0x10000,
}

passed = failed = skipped = 0

# ---- cases, and the end of a test


def expect(right, fault):
    """Counts a case, and prints its fault where it is wrong, with the word by which the gate finds it."""
    global passed, failed
    if right:
        passed += 1
    else:
        failed += 1
        print(f"FAILED: {fault}", flush=True)


def expect_line(command, text, line):
    """The command answers the text with this line, or these, ends with status 1 for a refusal and else 0, and writes
    nothing to standard error."""
    text = text if isinstance(text, bytes) else text.encode()
    ran = subprocess.run(command, input=text, capture_output=True)
    wanted = (int(line.startswith("refused")), line.encode() + b"\n", b"")
    got = (ran.returncode, ran.stdout, ran.stderr)
    if got != wanted:
        words = " ".join(map(str, command[1:]))
        got = f"status {ran.returncode}, {ran.stdout[:400]} and on standard error {ran.stderr[:200]}"
        expect(False, f"{words} {text[:400]}: wanted status {wanted[0]} and {wanted[1][:400]}, got {got}")
    else:
        expect(True, "")


def expect_status(command, status, **how):
    """The command ends with this status and answers nothing."""
    quiet = {"stdin": subprocess.DEVNULL, "stdout": subprocess.PIPE, "stderr": subprocess.DEVNULL}
    ran = subprocess.run(command, **(quiet | how))
    right = ran.returncode == status and not ran.stdout
    expect(right, f"{command}: wanted status {status} and no line, got {ran.returncode} and {ran.stdout}")


def skip(reason):
    """Says what is not tried, and why."""
    global skipped
    skipped += 1
    print(f"skipped: {reason}", flush=True)


def stop(reason):
    """Ends the test with the reason why it can't be run."""
    print(reason)
    sys.exit(1)


def named(parts, words):
    """Of some functions those of these names, or all where no name is given."""
    known = {part.__name__: part for part in parts}
    for word in words:
        if word not in known:
            stop(f"there is no case {word}, but {', '.join(known)}")
    return [known[word] for word in words] or parts


def having(names, words):
    """Of some names those that have one of the words, or all where no word is given."""
    for word in words:
        if not any(word in name for name in names):
            stop(f"no case has {word} in its name")
    return [name for name in names if not words or any(word in name for word in words)]


def end_early(number, _frame):
    """Ends what this test has started, and then the test, which clears up on its way."""
    signal.signal(number, signal.SIG_IGN)
    signal.signal(signal.SIGTERM, signal.SIG_IGN)
    if os.getpgrp() == os.getpid():
        os.killpg(0, signal.SIGTERM)
    sys.exit(128 + number)


def run_test(main):
    """Runs a test on the words of the command line, and ends with its status."""
    for number in (signal.SIGINT, signal.SIGTERM):
        signal.signal(number, end_early)
    os.chdir(ROOT)
    main(sys.argv[1:])
    print(f"{passed} passed, {failed} failed" + (f", {skipped} skipped" if skipped else ""))
    sys.exit(int(failed > 0 or passed == 0))


def side_by_side(work, items, most=os.cpu_count()):
    """What the work answers of each item, at most so many at a time; an early end drops those that wait."""
    pool = ThreadPoolExecutor(most)
    try:
        return list(pool.map(work, items))
    finally:
        pool.shutdown(cancel_futures=True)


# ---- programs


def program(name):
    """The path of a built program."""
    path = ROOT / "crates" / name / "out" / name
    if not path.exists():
        stop(f"build crates/{name} first: tests/gate/built.py {name}")
    return str(path)


def compiler():
    """The C compiler, or None where there is none."""
    return shutil.which(os.environ.get("CC", "cc"))


SANITIZE = ["-fsanitize=address,undefined", "-fno-sanitize-recover=all"]
SANITIZE_THREADS = ["-fsanitize=thread"]


def sanitizers(flags=SANITIZE):
    """Whether the compiler has them, and what it builds with them runs."""
    with tempfile.TemporaryDirectory() as folder:
        Path(folder, "empty.c").write_text("int main(void) { return 0; }\n")
        how = {"stdout": subprocess.DEVNULL, "stderr": subprocess.DEVNULL}
        built = subprocess.run([compiler(), *flags, f"{folder}/empty.c", "-o", f"{folder}/empty"], **how)
        return built.returncode == 0 and subprocess.run([f"{folder}/empty"], **how).returncode == 0


@contextmanager
def refuse_so():
    """Builds the shared object that refuses memory and threads, and makes input and output faulty."""
    if not compiler():
        stop("a C compiler is needed, as cc or named by CC")
    with tempfile.TemporaryDirectory() as folder:
        shared = f"{folder}/refuse.so"
        flags = ["-O2", "-Wall", "-Wextra", "-Werror", "-shared", "-fPIC"]
        subprocess.run([compiler(), *flags, "-o", shared, ROOT / "tests/memory/refuse.c"], check=True)
        yield shared


# ---- lists and jobs


def raw(value):
    """A member as a text has it: a string is text already, any other value is written as JSON."""
    return value if isinstance(value, str) else json.dumps(value, separators=(",", ":"))


def object_of(members):
    return "{" + ",".join(f'"{name}":{raw(value)}' for name, value in members.items()) + "}"


def settings(**changes):
    """The numbers with these changes; a member that is None is left out."""
    return object_of({name: value for name, value in {**NUMBERS, **changes}.items() if value is not None})


SETTINGS = settings()


def move(src, dst, size=64, record_at=0x8000):
    return Op(MOVE, size, record_at, src, dst)


def digits(pieces):
    """The bytes of a list, in hexadecimal; a text is taken as it is."""
    return pieces if isinstance(pieces, str) else b"".join(piece.bytes() for piece in pieces).hex()


def job(name, rules=SETTINGS, **members):
    return object_of({"do": f'"{name}"', **members, "settings": rules})


def plan(pieces, rules=SETTINGS, **more):
    return job("plan", rules, list=f'"{digits(pieces)}"', **more)


def judge(pieces, groups, rules=SETTINGS, **more):
    return job("judge", rules, list=f'"{digits(pieces)}"', plan=groups, **more)


# ---- pages and crates


def block_after(page, words, language=""):
    """The first block of this language, or the first indented block, after these words of a page."""
    text = Path(page).read_text()
    if words not in text:
        stop(f"{page} does not say {words!r}")
    rest = text[text.index(words) :]
    if language:
        found = re.search(rf"```{language}\n(.*?)```", rest, re.S)
        return found[1] if found else stop(f"{page} has no {language} block after {words!r}")
    lines = rest.split("\n")
    begin = next(k for k, line in enumerate(lines) if line.startswith("    "))
    end = next(k for k in range(begin, len(lines)) if not lines[k].startswith("    "))
    return "\n".join(line[4:] for line in lines[begin:end]) + "\n"


def crates():
    """Each crate of crates.txt, with its line there and the libraries that it uses."""
    found = {}
    for line in Path("crates.txt").read_text().splitlines():
        if line.strip() and not line.startswith("#"):
            words, _, below = line.partition(":")
            found[words.split()[0]] = (line, below.split())
    return found


def crates_up_to(name):
    """The crate and all crates below it."""
    known, found, waiting = crates(), set(), [name]
    while waiting:
        crate = waiting.pop()
        if crate in known and crate not in found:
            found.add(crate)
            waiting += known[crate][1]
    return found


def copy_crates(name, tree, also=()):
    """Copies the crate and all below it to an empty folder, without what is built. The copy uses `also` too."""
    chosen = {below for top in (name, *also) for below in crates_up_to(top)}
    for crate in chosen:
        shutil.copytree(f"crates/{crate}", f"{tree}/crates/{crate}", ignore=shutil.ignore_patterns("out"))
    lines = [line for crate, (line, _) in crates().items() if crate in chosen and crate != name]
    lines.append(" ".join([crates()[name][0], *also]))
    Path(tree, "crates.txt").write_text("\n".join(lines) + "\n")
    shutil.copy("HANDLES", tree)


def patched(folder, patch):
    """Applies a patch to a folder, without fuzz; answers what is wrong where it does not apply so, and else nothing."""
    if not shutil.which("patch"):
        stop("the program patch is needed")
    how = ["-s", "-f", "-F0", "-p1", "-r", "-", "--no-backup-if-mismatch"]
    ran = subprocess.run(["patch", *how, "-d", folder, "-i", os.path.abspath(patch)], capture_output=True, text=True)
    return f"{patch} does not apply without fuzz: {ran.stdout}{ran.stderr}" if ran.returncode else ""
