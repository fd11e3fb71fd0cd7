"""Wrong definitions and wrong proved parts of coq/, and operations that may not be split, for tests/coq.py."""

import json
import shutil
import subprocess
import tempfile
from pathlib import Path

import common
from common import ROOT
from model import CHECKED, COMPARE, DELTA, DUALCAST, MOVE, Op, replace

COQ = ROOT / "coq"
SOURCE, TARGET = "[(source d, size d)]", "[(target d, size d)]"
# Of plans: a name, what Definitions.v has, and what the wrong one has in its place.
DEFINITIONS = [
    ("a move reads nothing", f"| 3 => {SOURCE}  ", "| 3 => []  "),
    ("a compare reads its first range alone", "| 5 => [(source d, size d); (target d, size d)]", f"| 5 => {SOURCE}"),
    ("a delta does not read its record", "| 8 => [(source d, delta_size d); (target d, size d)]", f"| 8 => {TARGET}"),
    ("a dualcast reads nothing", f"| 9 => {SOURCE} ", "| 9 => [] "),
    ("a fill writes nothing", f"| 3 | 4 | 8 | 17 => {TARGET}", f"| 3 | 8 | 17 => {TARGET}"),
    ("a dualcast writes once", "| 9 => [(target d, size d); (target2 d, size d)]", f"| 9 => {TARGET}"),
    ("a record has 64 bytes", "(record d, 32)", "(record d, 64)"),
    ("a lone piece costs what a batch costs", "match g with [_] => lone s | _ =>", "match g with [] => lone s | _ =>"),
    ("prices by size begin with one piece", "nth (N.to_nat (n - 2)) t 0", "nth (N.to_nat (n - 1)) t 0"),
    ("fences cost nothing", "+ fence s * fences g", "+ 0 * fences g"),
    ("records come before the batches", "staging s + 64 * total + 32 * batches", "staging s + 32 * batches"),
    ("records are aligned to 64", "record d mod 32", "record d mod 64"),
    ("a batch has three pieces at the least", "1 <? count g", "2 <? count g"),
]
# Of runs: the file too.
RUNS = [
    ("Machine", "a false predicate succeeds", "=? field 40 1 d) then 2", "=? field 40 1 d) then 1"),
    ("Machine", "a compare counts one byte more", "word 4 (c - 1)", "word 4 c"),
    ("Machine", "a pattern repeats after four bytes", "place + k mod 8", "place + k mod 4"),
    ("Machine", "a delta writes four bytes further", "8 * offset b j] 0 8", "8 * offset b j + 4] 0 8"),
    ("Machine", "an offset of a delta may be repeated", "offset b j <=? offset", "offset b j <? offset"),
    ("Machine", "the faults of a delta are exchanged", "if falls b j then 7 else 8", "if falls b j then 8 else 7"),
    ("Machine", "a dualcast writes once", "| 9 => put [target d; target2 d] 0", "| 9 => put [target d] 0"),
    ("Runs", "the stop point is an epoch later", "(fun q => fst q <=? e)", "(fun q => fst q <=? S e)"),
    ("Runs", "the stop point is an epoch earlier", "(fun q => fst q <=? e)", "(fun q => S (fst q) <=? e)"),
    ("Definitions", "a group begins no epoch", "| (_, x) :: r => (true, x) :: r", "| (f, x) :: r => (f, x) :: r"),
]
# Of the checker, of the quick one that the judges run, of what operations and runs do, and of engines: what a proof
# refuses.
PROVED = {
    "Checker": [
        ("pairs may come before the piece", "(k <=? a) && (a <? b) &&", "(a <? b) &&"),
        ("a pair may end before it begins", "(k <=? a) && (a <? b) &&", "(k <=? a) &&"),
        ("pairs need no conflict", "Some x, Some y => cb x y", "Some x, Some y => true"),
        ("each price may be one too high", "(p <=? budget + c) && along", "(p <=? budget + c + 1) && along"),
        ("a pair counts two fences", "then budget + fence s else", "then budget + fence s + fence s else"),
        ("no bound by a lone piece", "(p <=? price + lone s)\n      && along", "along"),
        ("no bound by a batch", "      && along (k + 1) (option_map snd link) price batch_costs prs' rest'\n", ""),
        ("any first price", "(price =? 0) && steps", "steps"),
        ("the last price may be one too low", "[], [] => price =? total", "[], [] => total <=? price + 1"),
        ("the first of a group may be fenced", "match g with [] => false | m :: _ => negb (fst m) end\n  && ", ""),
        ("groups of any size", "  && (count g <=? greatest_batch s) && parted [] g", "  && parted [] g"),
        ("two writes do not conflict", " || any_meet (snd x) (snd y) ||", " ||"),
        ("the staging area is not compared", " && equal (staging_bytes p) staged", ""),
        ("the pieces are not looked at", " && submittable s (pieces p)", ""),
    ],
    "Quick": [
        ("a barrier is not seen", "one_section l && clear", "clear"),
        ("no barrier makes a pair", "clash (snd x) (snd y) || negb (fst x =? fst y)", "clash (snd x) (snd y)"),
        ("reads meet no write", "if is_write m then all else written) (whose m)", "written) (whose m)"),
        ("the second end stays", "second := N.max (second t) e", "second := second t"),
        ("a range of no byte conflicts", "\n    (filter (fun r => 0 <? snd r) l)", " l"),
        ("a fence is not seen", "if f then now :: between_fences [x] r else", "if f then between_fences [x] r else"),
        ("the next pair may end elsewhere", "(a =? a') && (b =? b')", "(a =? a')"),
        ("a pair may end before it begins", "(k <=? a) && (a <? b) &&", "(k <=? a) &&"),
        ("pieces have the numbers from one on", "with_numbers 0 ps (Pos", "with_numbers 1 ps (Pos"),
        ("each piece has one number", "with_numbers (k + 1) r", "with_numbers k r"),
        ("the rise of the costs is left out", "(b' + rise <=? b)", "(b' <=? b)"),
        ("the last step is left out", "one_step last_cost (raised (b - b') far)", "Some (raised (b - b') far)"),
    ],
    "QuickCheck": [
        ("bytes 38 and 39 are left out", "  && (its_zeros v =? 0) &&", "  &&"),
        ("more bytes may come after", "| [] => match m with [] => true | _ => false end", "| [] => true"),
        ("more pieces may come after", "| [] => match ps with [] => Some [] | _ => None end", "| [] => Some []"),
        ("the pieces of a move are not turned", "then rev_append ks [] else ks", "then ks else ks"),
        ("the bytes at the end are left out", "b then Some ([], b)", "b then Some ([], [])"),
        ("a barrier begins no section", "if f then now + 1 else now", "if f then now else now"),
        ("an operation is its first piece", "if (n =? 1) &&", "if (1 <=? n) &&"),
        ("a seed in memory is not read", "(from :: seed_of flags rest, [own])", "([from], [own])"),
        ("a copy may meet its seed", "(fst (its_touch v)))", "[(its_source v, its_size v)])"),
        ("beside a checksum others are split", "if split_alike s (map snd (map read_member ops)) then", "if true then"),
    ],
    "Machine": [
        ("a compare looks at one byte less", "difference 0 (size d) b", "difference 0 (size d - 1) b"),
        ("a move goes up over its own source", "then rev l else l", "then l else l"),
        ("each line of a checksum reads the seed", "(if t =? 0 then begun", "(if t <=? 4 then begun"),
        ("a copy with a checksum copies nothing", "| 17 => map sum_copy_line l", "| 17 => map sum_line l"),
        ("a checksum reads six bytes of a seed", "numbers (seed_place d) 4)", "numbers (seed_place d) 6)"),
    ],
    "Runs": [
        ("a piece may begin after one that has failed", "finished d /\\ good d = true", "finished d"),
    ],
    "Checksum": [
        ("a coefficient is not added", "(if b then 2 ^ 32 else 0)", "(if b then 0 else 0)"),
        ("ends are not inverted", "of_bits (map negb (bits 32 x))", "of_bits (bits 32 x)"),
    ],
    "Engines": [
        ("no engine takes a piece", "h k = None -> done e = 0", "h k <> h k -> done e = 0"),
        ("engines take what others have ended", "h k = None -> done e = 0", "h k = None -> finished e"),
    ],
}
# Those that each needs to be right about.
PROOFS = {
    "Checker": ("Sound", "Unique"),
    "Quick": ("QuickConflicts", "QuickPrices"),
    "QuickCheck": ("QuickBytes", "QuickLists"),
    "Machine": ("Together", "Locality", "Lines", "Meaning"),
    "Runs": ("Moments",),
    "Checksum": ("Machine", "Lines", "Remainders"),
    "Engines": ("Turns",),
}
# The theories that a judge and the executor read bytes by, each after those that it needs.
READ = ("Definitions", "Split", "Checker")
JUDGE = """From Dsa Require Import Numbers Definitions Checker.
Definition joined s portal staged := check s (concat portal) (concat staged).
Extraction "checker.ml" joined.
"""


def lines_of(program, jobs):
    """The lines of a program that answers a job on each line."""
    ran = subprocess.run([program], input="".join(job + "\n" for job in jobs), capture_output=True, text=True)
    lines = ran.stdout.splitlines()
    return lines if len(lines) == len(jobs) else [f"no line: {ran.stderr[:200]}"] * len(jobs)


def compiled(folder, name):
    command = ["coqc", "-Q", ".", "Dsa", f"{name}.v"]
    return subprocess.run(command, cwd=folder, capture_output=True).returncode == 0


def with_edit(folder, file, old, new):
    """Copies the theories into a folder, one of them with an edit."""
    for path in (COQ / "theories").glob("*.v"):
        shutil.copy(path, folder)
    path = Path(folder) / file
    text = path.read_text()
    if text.count(old) != 1:
        common.stop(f"{file} does not have once: {old}")
    path.write_text(text.replace(old, new))


def built(out, folder, theories, sources):
    """The program over what the last of these theories extracts, in the first of these sources. Other theories are
    those that were built."""
    for path in Path(out).glob("*.vo"):
        shutil.copy(path, folder)
    if not all(compiled(folder, it) for it in theories):
        common.stop(f"{folder}: {', '.join(theories)} do not compile")
    for path in Path(folder).glob("*.mli"):
        path.unlink()
    words = f"ocamlfind ocamlopt -w -a -package zarith,yojson -linkpkg {' '.join(sources)} -o program"
    subprocess.run(words.split(), cwd=folder, check=True, capture_output=True)
    return f"{folder}/program"


def judged_by_wrong_definitions(out, jobs):
    """The name of each wrong definition of plans, and what a judge over it says of the jobs."""

    def tried(edit):
        name, old, new = edit
        with tempfile.TemporaryDirectory() as folder:
            with_edit(folder, "Definitions.v", old, new)
            Path(folder, "Judge.v").write_text(JUDGE)
            shutil.copy(COQ / "judge/fast.ml", f"{folder}/num.ml")
            text = (COQ / "judge/main.ml").read_text()
            for call in ("quick_check_list s l", "quick_check s"):
                text = text.replace(f"{call} portal", "joined s portal")
            Path(folder, "main.ml").write_text(text)
            program = built(out, folder, (*READ, "Judge"), ("checker.ml", "num.ml", "main.ml"))
            return name, lines_of(program, jobs)

    return common.side_by_side(tried, DEFINITIONS)


def executed_by_wrong_definitions(out, jobs):
    """The name of each wrong definition of runs, and what runs leave by it."""

    def tried(edit):
        file, name, old, new = edit
        with tempfile.TemporaryDirectory() as folder:
            with_edit(folder, f"{file}.v", old, new)
            for path in (COQ / "execute").iterdir():
                shutil.copy(path, folder)
            theories = (*READ, "Runs", "Machine", "Execute")
            program = built(out, folder, theories[theories.index(file) :], ("sim.ml", "main.ml"))
            return name, lines_of(program, jobs)

    return common.side_by_side(tried, RUNS)


def is_proved(out, file, old, new):
    """Whether the proofs about a file with an edit hold; if both texts are one, about the file as it is."""
    with tempfile.TemporaryDirectory() as folder:
        with_edit(folder, f"{file}.v", old, new)
        for path in Path(out).glob("*.vo"):
            shutil.copy(path, folder)
        if not compiled(folder, file):
            common.stop(f"{file}.v does not compile with: {new}")
        return all(compiled(folder, it) for it in PROOFS[file])


def proofs_of_edits(out):
    """The name of each edit that a proof refuses, and whether the proofs hold; and the same of each file as it is."""
    edits = [(file, *edit) for file, edits in PROVED.items() for edit in edits]
    right = [(file, "", edits[0][1], edits[0][1]) for file, edits in PROVED.items()]
    return common.side_by_side(lambda it: (it[1], is_proved(out, it[0], *it[2:])), right + edits)


def unsplit(tried):
    """Operations of two pieces and more beside bytes that submit these: a name, the job, and how the judge begins its
    line. All but the first may not be split."""
    row = 0x1000 - 6 * 32
    flags = 0x0C
    cases = [
        ("a move that may be split", Op(MOVE, 16, 0x4000, 0x1000, 0x8000, 0, flags, 0), "{"),
        ("its row meets the source", Op(MOVE, 56, row, 0x1000, 0x8000, 0, flags, 0), "refused"),
        ("a delta of two pieces", Op(DELTA, 16, 0x4000, 0x1000, 0x8000, 10, flags, 0), "refused"),
        ("a difference is expected", Op(COMPARE, 16, 0x4000, 0x1000, 0x8000, 1, flags | CHECKED, 0), "refused"),
        ("destinations of a dualcast meet", Op(DUALCAST, 16, 0x4000, 0x10000, 0x10008, 0x21008, flags, 0), "refused"),
    ]
    settings = {**common.NUMBERS, "greatest_batch": 32, "greatest_transfer": 8, "staging": 1 << 40}
    for name, op, begins in cases:
        pieces = pieces_by_eight(op)
        plan = json.dumps({"do": "plan", "settings": settings, "list": b"".join(it.bytes() for it in pieces).hex()})
        answer = json.loads(tried.asked([plan])[0])
        members = {it: answer[it] for it in ("portal", "staging", "certificate")}
        yield name, json.dumps({"do": "check", "settings": settings, "list": op.bytes().hex(), **members}), begins


def pieces_by_eight(op):
    """The pieces of eight bytes that the operation would have, were it split as moves are."""
    found = []
    for k in range(op.size // 8):
        by = 0 if op.code == DELTA else 8 * k
        own = op.own + by if op.code == DUALCAST else op.own
        at = op.record_at + 32 * k
        found.append(replace(op, size=8, record_at=at, first=op.first + by, second=op.second + by, own=own))
    return found
