"""What the gate takes of the toolchain: its command `rt`, loaded as a module, with one way to prove a crate of its own.

`rt ci` builds libraries whose kept work no later check can use. The gate proves each crate over an empty folder, keeps
what it proved in the crate's out/, and tries edits and builds programs over that. It reads functions of the `rt` of two
kits, so it stops where the kit is another. Run as a program it says whether the kit is one of them."""
import importlib.machinery
import importlib.util
import os
import re
import shutil
import sys

# Both kits print the same verdicts and have the functions that the gate takes.
KIT_IDS = ("rattle-kit-13b", "rattle-kit-13f")
ROOT = os.path.dirname(os.path.dirname(os.path.dirname(os.path.realpath(__file__))))
KEPT = "out/incremental"


def load_rt():
    """Returns the module `rt`; its `rtlib` is the part that runs rattle."""
    sys.dont_write_bytecode = True
    program = shutil.which("rt") or sys.exit("the gate needs the Rattle toolchain: there is no rt on the path")
    loader = importlib.machinery.SourceFileLoader("rt", os.path.realpath(program))
    module = importlib.util.module_from_spec(importlib.util.spec_from_loader("rt", loader))
    loader.exec_module(module)
    found = kit_of(module)
    if not found.startswith(KIT_IDS):
        sys.exit(f"the gate knows {' and '.join(KIT_IDS)}, and this is {found}: run rt ci")
    return module


def kit_of(module):
    """Returns the kit of an `rt`, as `rt version` prints it."""
    with open(f"{module.KIT}/KIT-ID", encoding="utf-8") as file:
        return file.read().strip()


rt = load_rt()
rtlib = rt.rtlib
# What a check over kept work says at its end. The gate's own checks begin with an empty folder.
rtlib.VERDICT = re.compile(
    rf"^logic=proved( ({rtlib.KNOWN.replace(' ', '|')})=\S+)+"
    r" native=nat,char,string logic-built=trusted libraries-built=trusted statements=trusted incremental=trusted\n\Z",
    re.M,
)


# The search for contracts that no call can meet costs a twentieth of a proof: `tests/full proofs` makes it.
HELP = rtlib.help_of
rtlib.help_of = lambda verb: HELP(verb).replace("--empty-contracts", "")


class Crate(rt.Crate):
    """A crate under rt ci's rules that keeps what a check proved."""

    def made(self):
        """Returns the file or folder that a build of the crate makes."""
        if self.is_program:
            return f"{self.folder}/out/{self.name}.o"
        return f"{self.folder}/out/lib{self.name}.a" if self.is_static else self.rlib

    def words_of_check(self, jobs):
        return [*self.words(["--jobs", str(jobs)]), "--incremental", KEPT]

    def built(self):
        """Returns what is used of a proved crate: the linked program, the archive or the library."""
        return f"{self.folder}/out/{self.name}" if self.is_program else self.made()

    def record_file(self):
        """Returns where it is noted that the crate was proved: for a library where rt looks for it."""
        return f"{self.folder}/out/rlib/stamp" if self.makes_rlib() else f"{self.folder}/out/proved"

    def record(self):
        """Returns what is noted of a proved crate: the sum of its sources; of a program or an archive also its name, the kit and
        the sum of the built file, so that another file is not taken for the proved one."""
        if self.makes_rlib():
            return self.stamp()
        kit = kit_of(rt).split()[0]
        return f"{self.name} {kit} {rtlib.sum_of(self.built())} {self.stamp()}\n"

    def is_made(self):
        return os.path.exists(self.made()) and rtlib.text_of(self.record_file()) == self.record()

    def build(self, jobs):
        """Proves the crate over what its out/ keeps, and makes its library, archive or program."""
        if self.is_made():
            return 0
        words, sources = self.words_of_check(jobs), self.stamp()
        if not self.makes_rlib():
            words += ["--toolchain", f"{rt.KIT}/toolchain", "--backend", "llvm"]
        os.makedirs(os.path.dirname(self.made()), exist_ok=True)
        status = self.prove(["build", *words, "-o", self.made()])
        if not status and self.is_program:
            status = self.link(self.made(), f"out/{self.name}")
        if not status and self.stamp() != sources:
            rtlib.stop(f"{self.name}: its sources changed while they were proved")
        if not status:
            with open(self.record_file(), "w", encoding="utf-8") as file:
                file.write(self.record())
        return status


def crates(root=ROOT):
    """Returns the crates by name, lowest first."""
    rt.Crate.allowed = rt.handles_of(root)
    rtlib.Crate = Crate
    for variable in (rtlib.ALLOW_C, rtlib.BACKEND, "RT_SECONDS"):
        os.environ.pop(variable, None)
    return {crate.name: crate for crate in sorted(rtlib.crates_below(f"{root}/crates"), key=lambda it: len(it.below()))}


def fault_of_text(crate):
    """Returns why rt ci refuses the crate's text before any proof, or None."""
    code = rtlib.code_of(crate.folder)
    if re.search(rt.RENAMES, code):
        return "it renames std, or takes it whole"
    if re.search(rt.IGNORED, code):
        return "it has a test under #[ignore], which nothing would run"
    for handle, words in rt.REACHES.items():
        if handle not in crate.allowed and re.search(words, code):
            return f"it names what only the handle {handle} reaches"
    return "run rt fmt in its folder" if rtlib.fmt(crate.folder, "--check", sys.stdout) else None


def stop_on_text(crate, crates_of_all):
    """Ends the process where rt ci would end, with its message."""
    rtlib.stop_on_links(crate.folder)
    rtlib.stop_on_unread(crate.folder, crates_of_all)
    rtlib.stop_on_text(crate, "verdict")
    rt.stop_on_words(crate)
    why = fault_of_text(crate)
    if why:
        rtlib.stop(f"{crate.name}: {why}")


if __name__ == "__main__":
    print("the gate runs with this kit", flush=True)
