"""Looks for names in the pages that the tree does not have: paths, crates, and words in `code` marks that look like
names. A word is known if the code, the definitions or the proofs have it outside of comments, or if it names a file: a
must-fail edit, a patch, a test. The page of a crate has to name each of its modules and edits. A page that says what
tests/words prints has to have its counts and, in a table, its files in their order, each with its definitions or their
number. It looks for unsafe code too. It needs no program. The words are names of pages, as docs/MODEL.md."""

import io
import re
import tokenize
from functools import cache
from glob import glob
from pathlib import Path

import definitions
from common import crates, expect, having, run_test

ROOT = Path(__file__).parent.parent
PAGES = ["README.md", "CONTRIBUTING.md", "SECURITY.md"]
PAGES += sorted(page for folder in ("docs", "crates/*") for page in glob(f"{folder}/*.md", root_dir=ROOT))

# Names of others: Linux, the toolchain, Rust, C, and the packages, libraries and programs that the pages speak of,
# among them those that are built from C.
OTHERS = set(
    """
    max_batch_size max_transfer_size
    desc desc_addr desc_count desc_list_addr desc_ring dsa_hw_desc idxd_hw_desc op_flags opcode
    Net Processes alloc apt cargo gcc git nice patch python3 rt rustfmt rustup valgrind
    binutils clang cmake ctypes dpkg find_package flockfile man pthread_attr_setstacksize toml
    ops.txt dsa_trace dsa_prices dsa_planner dsa_planner_static dsa_planner_own_memory
    libdsa_planner libdsa_planner_own_memory libdsa_c libdsa_queue dsa_queue dsa_queue_static
    """.split()
)
# Paths that a reader makes, or that a build does.
MADE = {"crates/dsa_checker/must-fail/looks_at_lone_only.edit", "crates/NAME", "crates/NAME/README.md", "tests/NAME.py"}
FOLDERS = "crates|tests|docs|bindings|examples|\\.ci"

NAME = re.compile(r"[A-Za-z_][A-Za-z0-9_]*")
# A name, perhaps of a part (Room::new, Tariff.batch), of a trait's case (From<ListFault>) or of a call (serve()).
WHOLE = re.compile(rf"{NAME.pattern}(?:(?:::|\.){NAME.pattern}|<{NAME.pattern}>)*(?:\(\))?")
FILE = re.compile(r"[\w-]+\.(?:rt|antt|py|c|h|rs|md|json|svg|txt|job|line|edit|patch|sh)")
PATH = re.compile(rf"(?<![\w/.])(?:\.\./)*((?:{FOLDERS})/[\w./*-]*[\w*]|dsa_\w+/(?:specs|src|proofs|must-fail)[\w./]*)")
OF_C = r"/\*.*?\*/|//[^\n]*"
COMMENTS = {".rt": r"//[^\n]*", ".rs": r"//[^\n]*", ".antt": r"--[^\n]*", ".c": OF_C, ".h": OF_C, ".v": r"\(\*.*?\*\)"}


def files():
    """Every file of the tree but those that are built."""
    for top in ("crates", "tests", "docs", "bindings", "examples", "coq", ".ci"):
        for path in Path(top).rglob("*"):
            if path.is_file() and not {"out", "target", "__pycache__"} & set(path.parts):
                yield path
    yield from (path for path in Path(".").iterdir() if path.is_file())


def names_in(path):
    """The names that the file has outside of comments; of a script those of its code alone."""
    text = path.read_text(errors="replace")
    if path.suffix == ".py":
        tokens = tokenize.generate_tokens(io.StringIO(text).readline)
        return {token.string for token in tokens if token.type == tokenize.NAME}
    return set(NAME.findall(re.sub(COMMENTS[path.suffix], "", text, flags=re.S)))


@cache
def known():
    """All names of the tree, and of its files with and without what ends them."""
    found = {name for schema in Path("docs").glob("*.schema.json") for name in NAME.findall(schema.read_text())}
    for path in files():
        found |= {path.name, path.stem, *path.parent.parts}
        if path.suffix == ".py" or path.suffix in COMMENTS:
            found |= names_in(path)
    headers = [Path("bindings/c/dsa_planner.h"), Path("bindings/queue/dsa_queue.h")]
    declared = {name for header in headers for name in names_in(header) if name.startswith("dsa_")}
    return {name for name in found if not name.startswith("dsa_")} | set(crates()) | declared | OTHERS


def is_known(name):
    """Whether the tree has it, or, of a part of names as `after_` and `_pieces`, a name that begins or ends so. A name
    in capitals stands for any, as NAME.job."""
    if re.fullmatch(r"[A-Z_]+(\.(?!md)\w+)?", name) or name in known():
        return True
    begins, ends = name.endswith("_"), name.startswith("_")
    return any(begins and it.startswith(name) or ends and it.endswith(name) for it in known())


def is_there(path):
    """Whether there is such a file or folder; words in capitals are any name, and of what is built the crate counts."""
    if path in MADE:
        return True
    path = re.sub(r"/out(/.*)?$", "", path if not path.startswith("dsa_") else f"crates/{path}")
    path = re.sub(r"\b[A-Z]{2,}\b", "*", path) if not path.endswith(".md") else path
    return bool(glob(path) or glob(path + ".*"))


def names_of(mark):
    """The names in a `code` mark: all of one that is a name, and of any other those that no other text has."""
    if WHOLE.fullmatch(mark) and not FILE.fullmatch(mark):
        return NAME.findall(mark)
    rest = PATH.sub(" ", mark)
    inner = [name for name in NAME.findall(rest) if re.search(r"[a-z]_[a-z]|[a-z][A-Z]", name)]
    return [] if "/" in rest else inner + FILE.findall(rest)


def look(page):
    text = Path(page).read_text()
    for path in sorted(set(PATH.findall(text))):
        expect(is_there(path), f"{page}: there is no {path}")
    prose = re.sub(r"^```.*?^```|^    .*?$", "", text, flags=re.S | re.M)
    for mark in sorted(set(re.findall(r"`([^`\n]+)`", prose))):
        for name in names_of(mark):
            expect(is_known(name), f"{page}: the tree has no {name} (in `{mark}`)")


def look_at_counts(page):
    """The page says what tests/words prints, and its table has just these files, each with its definitions or their
    number."""
    text = Path(page).read_text()
    for words, said in re.findall(r"tests/words ((?:[\w:/]+ ?)+)`?\s+prints (\d+ definitions .*? of the code)", text):
        starts, _, unknown = definitions.found_by(words.split())
        places = definitions.in_reading_order(definitions.rest_on(starts))
        wanted = definitions.summed(places)
        expect(not unknown and said == wanted, f"{page}: {words} prints {wanted}")
        rows = re.findall(r"^\| (dsa_\w+) (\w+) \| (.*?) \|", text, re.M)
        defined = {}
        for place in places:
            defined.setdefault((place.crate, place.file), []).append(f"`{place.name}`")
        expect([(crate, file) for crate, file, _ in rows] == list(defined), f"{page}: {words} prints other files")
        for crate, file, listed in rows:
            names = defined.get((crate, file), [])
            right = listed in (str(len(names)), ", ".join(names))
            expect(right, f"{page}: {words} prints {len(names)} of {crate} {file}: {', '.join(names)}")


def look_at_promises():
    """Each clause of the promises of docs/PROOF.md is one that tests/words prints."""
    table = Path("docs/PROOF.md").read_text().split("## What is promised")[1].split("## The example")[0]
    for row in re.findall(r"^\| .*? \| (.*) \|$", table, re.M)[1:]:
        for said in row.split("; "):
            names, _, clauses = said.partition(": ")
            wanted = re.findall(r"`([\w:]+)`", clauses) or [""]
            calls = re.findall(r"`([\w:]+)`", names) if not said.endswith((" of the calls", " to C")) else []
            for call, clause in ((call, clause) for call in calls for clause in wanted):
                unknown = definitions.found_by([f"{call}:{clause}".rstrip(":")])[2]
                expect(not unknown, f"docs/PROOF.md: tests/words knows no clause {call}: {clause}")


def look_at_halves():
    """README.md says on how many definitions each half of the headline rests, as docs/PROOF.md and docs/MODEL.md do."""
    said = re.search(r"the first rests on (\d+) definitions, both together on (\d+);", Path("README.md").read_text())
    pages = [Path(f"docs/{name}.md").read_text() for name in ("PROOF", "MODEL")]
    counted = [re.search(r"prints (\d+) definitions", page) for page in pages]
    expect(said and all(counted) and said.groups() == tuple(it[1] for it in counted), "README.md has other counts")


def look_at_crate(crate):
    """The page of a crate names each of its modules, if it has definitions, and each of its edits."""
    page = Path(f"crates/{crate}/README.md")
    if not page.exists():
        expect(False, f"{page} is missing")
        return
    named = {name for mark in re.findall(r"`([^`\n]+)`", page.read_text()) for name in NAME.findall(mark)}
    wanted = {Path(edit).stem for edit in glob(f"crates/{crate}/must-fail/*.edit")}
    if Path(f"crates/{crate}/specs").exists():
        wanted |= {Path(module).stem for module in glob(f"crates/{crate}/src/*.rt")} - {"lib"}
    expect(wanted <= named, f"{page} does not name {', '.join(sorted(wanted - named))}")


def look_for_unsafe():
    """No crate but that of the calls from C has code of which the checker of borrows knows nothing."""
    files = glob("crates/*/src/**/*.rt", recursive=True)
    found = [path for path in files if re.search(r"\bunsafe\b", Path(path).read_text())]
    others = [path for path in found if not path.startswith("crates/dsa_c/")]
    expect(found and not others, f"unsafe code outside dsa_c: {others}")


def main(words):
    for page in having(PAGES, words):
        look(page)
        look_at_counts(page)
    if not words:
        for crate in crates():
            look_at_crate(crate)
        look_at_halves()
        look_at_promises()
        look_for_unsafe()


if __name__ == "__main__":
    run_test(main)
