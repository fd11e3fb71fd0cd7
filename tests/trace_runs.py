"""What tests of dsa_trace share: a folder for what is built, the builds, and runs."""

import os
import shutil
import subprocess
import sys
import tempfile
from pathlib import Path

import common
from common import ROOT, expect, skip

STRICT = ["-std=c11", "-D_GNU_SOURCE", "-Wall", "-Wextra", "-Werror"]
FOLDER = tempfile.TemporaryDirectory()  # it goes at the end of the test
WORK = FOLDER.name
HAS_MOVDIR64B = "movdir64b" in Path("/proc/cpuinfo").read_text()
TEXT = os.environ.get("DSA_TEXT") or str(ROOT / "crates/dsa_text/out/dsa_text")
KNOWN = os.environ | {"DSA_TEXT": TEXT}
LONGEST = 900  # seconds of a command, which on a busy machine take long


def ran(*command, **how):
    """How a command ended, and what it printed."""
    how = {"capture_output": True, "text": True, "stdin": subprocess.DEVNULL, "errors": "replace"} | how
    how = {"timeout": LONGEST} | how
    try:
        return subprocess.run([str(word) for word in command], **how)
    except subprocess.TimeoutExpired:
        return subprocess.CompletedProcess(command, -1, "", f"it runs for more than {how['timeout']} seconds")


def traced(*words, **how):
    """How dsa_trace ended."""
    return ran(f"{WORK}/gcc/dsa_trace", *words, **how)


def has_text():
    """Whether there is a dsa_text for audits: the one that is built, or the one that DSA_TEXT names."""
    is_there = Path(TEXT).exists()
    if not is_there:
        skip("audits: crates/dsa_text is not built")
    return is_there


def audited(*words, **how):
    """How an audit ended."""
    return traced("--audit", *words, **({"env": KNOWN} | how))


def client(name):
    return f"{WORK}/{name}"


def told(what, end, status, *words):
    """A case: the run has this status, and says these words."""
    said = end.stdout + end.stderr
    missing = [word for word in words if word not in said]
    fault = f"{what}: status {end.returncode}, not {status}, or not {missing}:\n{said[-1500:]}"
    expect(end.returncode == status and not missing, fault)


def built_all(clients):
    """Builds dsa_trace and these clients by gcc; answers whether all is built. Without gcc or make the test ends."""
    if not shutil.which("gcc") or not shutil.which("make"):
        print("skipped, there is no gcc or no make")
        sys.exit(0)
    told("the build", ran("make", "-C", ROOT / "trace", "CC=gcc", f"OUT={WORK}/gcc"), 0)
    for name in clients:
        words = ["-O1", "-o", client(name), f"tests/trace/{name}.c", "-lpthread", "-ldl"]
        told(f"the build of {name}", ran("gcc", *STRICT, *words), 0)
    return common.failed == 0
