#!/usr/bin/env python3
"""Tries the must-fail edits of a proved crate, many at a time: edits.py [--alone] [--kept] NAME [EDIT ..]. With --alone and
--kept a crate is passed over if nothing has changed since its edits were tried so.

The proof of a function reads its own body and the contracts of what it calls. So one check of a copy with an edit in
each of many functions refuses or proves each of them by itself, and its output says which. In such a round an edit counts
as refused only where the check names a goal of the edited function; that a function calls a refused one counts for
nothing. Every other edit is tried alone, by the rules of `rt must-fail`, and has to be refused by a goal as well; with
--alone each is.

Controls, tests/gate/controls/NAME/*.edit, change no meaning: they go into the same rounds, and have to be found not refused."""
import argparse
import os
import re
import shutil
import sys
import tempfile

import record
import toolchain
from toolchain import rt, rtlib

# What an error of a proof file says where it lacks a name, or the proof of another function: nothing of its own goals.
LACKS = re.compile(r"has no field|is not in scope|has no `|was not admitted")
HEAD = re.compile(r'(\s*)(?:pub(?:\([^)]*\))?\s+)?(?:const\s+|unsafe\s+|extern\s+"C"\s+)*fn\s+(\w+)')


class Edit:
    def __init__(self, file, crate, is_control):
        self.file, self.is_control = file, is_control
        self.name = os.path.basename(file) + (" (control)" if is_control else "")
        self.texts, self.fault = rt.read_edit(file, crate.folder)
        self.pairs = pairs_of(file)
        self.targets = set() if self.fault else targets_of(crate, self.pairs)


def pairs_of(file):
    """Returns the edit's triples of path, old and new text."""
    path, old, pairs = "", "", []
    with open(file, encoding="utf-8") as lines:
        for line in lines.read().split("\n"):
            if line.startswith("file: "):
                path = line[len("file: ") :].strip()
            elif line.startswith("old: "):
                old = line[len("old: ") :]
            elif line.startswith("new:"):
                pairs.append((path, old, line[len("new:") :].removeprefix(" ")))
    return pairs


def impl_of(line):
    """Returns the word that rattle's names have for the impl that begins at this line: its type, or None of a trait's."""
    head = re.match(r"impl\b\s*(?:<.*?>\s+)?(.*)", line)
    return None if " for " in line else re.match(r"[\w:]+", head[1])[0].split("::")[-1]


def last_line(lines, at, indent):
    """Returns the index of the line that ends the function that begins at a line, in rt fmt's layout."""
    if lines[at].endswith("}") and "{" in lines[at]:
        return at
    return next((it for it in range(at, len(lines)) if lines[it] == indent + "}"), at)


def head_line(lines, at):
    """Returns the index of the first line of a function with its attributes, where the prover places what it ensures."""
    while at > 0 and lines[at - 1].lstrip().startswith("#["):
        at -= 1
    return at


def body_line(lines, at, indent):
    """Returns the index of the line that opens the body of the function that begins at a line, after its contract."""
    opens = (it for it in range(at, len(lines)) if lines[it].startswith(indent) and not lines[it].startswith(indent + " "))
    return next((it for it in opens if lines[it].endswith(("{", "}"))), at)


def has_body(lines, at, indent):
    """Returns whether the function that begins at a line has a body: a trait's method that its types write has none."""
    return not any(it.endswith(";") for it in lines[at : body_line(lines, at, indent)])


def functions_of(path, text):
    """Returns the name, the first line, that of the body and the last one, counted from 1, of each function of a file. A
    method goes by the end of its name, since rattle names it below the module of its type; one of a trait has no name."""
    module = re.sub(r"(^src/|/mod\.rt$|\.rt$)", "", path).replace("/", "::")
    parts, impl, at, lines, found = [] if module in ("lib", "main") else [module], "", 0, text.split("\n"), []
    while at < len(lines):
        line = lines[at]
        if re.match(r"impl\b", line):
            impl = impl_of(line)
        elif line.startswith("}"):
            impl = ""
        head = HEAD.match(line)
        if head and has_body(lines, at, head[1]):
            end = last_line(lines, at, head[1])
            names = [] if impl is None else [*([impl] if impl else parts), head[2]]
            found.append(("::".join(names), head_line(lines, at) + 1, body_line(lines, at, head[1]) + 1, end + 1))
            at = end
        at += 1
    return found


def targets_of(crate, pairs):
    """Returns the functions that an edit changes, as (name, path, first line, last line): none where a part is in no body."""
    targets = set()
    for path, old, _ in pairs:
        with open(f"{crate.folder}/{path}", encoding="utf-8") as file:
            text = file.read()
        line = text[: text.find(old)].count("\n") + 1
        inside = [it for it in functions_of(path, text) if it[2] <= line <= it[3]]
        if not inside or not inside[-1][0] or not path.startswith("src/"):
            return set()
        name, first, _, last = inside[-1]
        targets.add((name, path, first, last))
    return targets


def applied(crate, edits):
    """Returns the texts of the files with all these edits, or None if the old text of one is not there just once."""
    texts = {}
    for edit in edits:
        for path, old, new in edit.pairs:
            if path not in texts:
                with open(f"{crate.folder}/{path}", encoding="utf-8") as file:
                    texts[path] = file.read()
            if texts[path].count(old) != 1:
                return None
            texts[path] = texts[path].replace(old, new)
    return texts


def rounds_of(crate, edits):
    """Returns the edits in rounds, each with one edit of a function at most."""
    rounds = []
    for edit in edits:
        fits = (it for it in rounds if not any(edit.targets & other.targets for other in it) and applied(crate, [*it, edit]))
        into = next(fits, None)
        if into is None:
            rounds.append([edit])
        else:
            into.append(edit)
    return rounds


def lines_of(said):
    """Returns the messages of a check, each in one line: what goes on in a further line is indented."""
    return re.sub(r"\n\s+", " ", said.rstrip("\n")).split("\n")


def is_goal(line):
    """Returns whether a message names a goal that was not proved: not that a name is lacking, or another proof."""
    named = re.match(r"(?:note: )?\S+:\d+:\d+: (?:error: |it is not proved that )|fn \S+: .*did not prove `", line)
    return bool(named) and not LACKS.search(line)


def own_goal(crate, edit, lines):
    """Returns the line by which a check refuses a function of the edit for a goal of the function's own, or None."""
    for name, path, first, last in sorted(edit.targets):
        parts = name.split("::")
        verdict = re.compile(rf"fn {crate.name}::(?:\w+::)*{'::'.join(parts)}: (not proved|no proof)")
        refused = next((it for it in lines if verdict.match(it)), None)
        if refused and "did not prove `" in refused:
            return refused
        proof = re.compile(rf"(?:\./)?proofs/(?:\w+/)*{'/'.join(parts)}/\w+\.antt:\d+:\d+: error: ")
        for line in lines if refused else ():
            goal = re.match(r"(?:note: )?(?:\./)?(\S+?):(\d+):\d+: it is not proved that ", line)
            if goal and goal[1] == path and first <= int(goal[2]) <= last:
                return line
            if proof.match(line) and not LACKS.search(line):
                return line
    return None


def only(edits):
    """Returns the words by which a check proves the edited functions alone, with what they call."""
    return [word for edit in edits for name, *_ in sorted(edit.targets) for word in ("--only", name)]


def checked_round(crate, edits, kept):
    """Returns the lines of one check with all these edits, or none where the check did not reach the prover."""
    texts = applied(crate, edits)
    ran = rt.checked(crate, texts, ["--jobs", "1", *only(edits)], kept)
    lines = lines_of(ran.stdout)
    is_read = not any(rt.unread(line, texts) for line in lines) and not rtlib.STALE.search(ran.stdout)
    reached = ran.returncode == 1 and lines[-1].startswith(("logic=not-proved", "only="))
    if not (is_read and reached):
        print(f"note: a round of {len(edits)} edits says nothing, so each is tried alone: {lines[-1][:200]}", flush=True)
    return lines if is_read and reached else []


def tried_alone(crate, edit, kept):
    """Returns whether the edit is as it should be, and what to say: a control is not refused, every other edit is."""
    if edit.is_control:
        ran = rt.checked(crate, edit.texts, ["--jobs", "1", *only([edit])], kept)
        return ran.returncode == 0, "not refused, as it must be" if ran.returncode == 0 else "REFUSED, though it changes nothing"
    ran = rt.checked(crate, edit.texts, ["--jobs", "1"], kept)
    lines = lines_of(ran.stdout)
    bad = next((it for it in lines if rt.unread(it, edit.texts)), "")
    if bad or rtlib.STALE.search(ran.stdout):
        return False, f"BAD EDIT: {bad or 'the kept work of a library could not be used'}"
    if ran.returncode == 0:
        return False, "NOT REFUSED: the crate is still proved with this edit"
    if ran.returncode != 1 or not lines[-1].startswith("logic=not-proved"):
        return False, f"BAD EDIT: it did not reach the prover: {' | '.join(lines[:3])}"
    goal = own_goal(crate, edit, lines) if edit.targets else next((it for it in lines if is_goal(it)), None)
    if not goal:
        return False, "NOT REFUSED BY A GOAL: a proof file lacks a name, or another proof"
    return True, f"refused, as it must be: {goal}"


def tried(crate, edits, kept, is_alone):
    """Yields each edit with whether it is as it should be, and what to say."""
    alone = [it for it in edits if not it.fault and (is_alone or not it.targets)]
    for edit in edits:
        if edit.fault:
            yield edit, False, f"BAD EDIT: {edit.fault}"
    for its in rounds_of(crate, [it for it in edits if it.targets and not is_alone]):
        lines = checked_round(crate, its, kept)
        for edit in its:
            goal = own_goal(crate, edit, lines)
            if goal and edit.is_control:
                yield edit, False, f"REFUSED, though it changes nothing: {goal}"
            elif goal:
                yield edit, True, f"refused, as it must be: {goal}"
            else:
                alone.append(edit)
    for edit in alone:
        yield edit, *tried_alone(crate, edit, kept)


def edits_of(crate, names):
    """Returns the crate's edits and controls, of these names if there are some, and the files that are no edits."""
    good, controls, bad = record.files_of_edits(crate)
    edits = [Edit(it, crate, False) for it in good] + [Edit(it, crate, True) for it in controls]
    by_name = {os.path.basename(it.file).removesuffix(".edit"): it for it in edits}
    unknown = [it for it in names if it not in by_name]
    if unknown:
        sys.exit(f"{crate.name} has no edit {unknown[0]}")
    return [it for name, it in by_name.items() if not names or name in names], bad


def take_kept(crate, to):
    """Links what the crate's proof kept if the kit's checks replace such files and change none, and else copies it. Where
    a file could not be taken, it says why and tries once more."""
    take = getattr(rt, "linked", shutil.copytree)
    try:
        take(f"{crate.folder}/{toolchain.KEPT}", to)
    except shutil.Error as error:
        _, path, why = error.args[0][0]
        print(f"note: {os.path.basename(path)}: {why}; trying once more", flush=True)
        shutil.rmtree(to)
        take(f"{crate.folder}/{toolchain.KEPT}", to)


def failures_of(crate, edits, is_alone):
    """Tries the edits, prints what came of each, and returns how many are not as they should be."""
    failed = 0
    # In the crate's own out/, where links can be made.
    with tempfile.TemporaryDirectory(prefix="edits-", dir=f"{crate.folder}/out") as room:
        kept = f"{room}/kept"
        take_kept(crate, kept)
        for edit, is_well, said in tried(crate, edits, kept, is_alone):
            failed += not is_well
            print(f"must-fail {crate.name}/{edit.name}: {said[:160] if is_well else 'FAILED: ' + said[:400]}", flush=True)
    return failed


def words():
    """Reads the command line."""
    parser = argparse.ArgumentParser(description="Tries the must-fail edits of a proved crate.")
    parser.add_argument("--alone", action="store_true", help="try each edit in a check of its own")
    parser.add_argument("--kept", action="store_true", help="with --alone: pass over a crate that was tried so as it is")
    parser.add_argument("name", metavar="NAME", help="the crate")
    parser.add_argument("edits", metavar="EDIT", nargs="*", help="the names of edits (all)")
    given = parser.parse_args()
    if given.kept and not given.alone:
        parser.error("--kept goes with --alone: of other edits tests/gate/tried says what was tried")
    return given


def main():
    given = words()
    crate = toolchain.crates()[given.name]
    rtlib.guarded()
    edits, bad = edits_of(crate, given.edits)
    stamp, digest = f"{crate.folder}/out/alone.stamp", record.digest_of(crate)
    if given.kept and not bad and rtlib.text_of(stamp) == digest:
        print(f"tried since the last change\n{len(edits)} passed, 0 failed")
        return 0
    for file in bad:
        print(f"{given.name}: BAD EDIT: {file} is no .edit file right in must-fail/")
    failed = len(bad) + failures_of(crate, edits, given.alone)
    if given.alone and not failed and not given.edits:
        with open(stamp, "w", encoding="utf-8") as file:
            file.write(digest)
    print(f"{len(edits) + len(bad) - failed} passed, {failed} failed")
    return 1 if failed else 0


if __name__ == "__main__":
    sys.exit(main())
