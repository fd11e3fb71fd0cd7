"""The lines of an explanation, folded and not: pieces of one operation that share a line, and groups that share a
heading. Both ways are written from docs/FORMATS.md: `unfolded` gives each piece and each group a line of its own again,
and `folded` takes such lines together."""

import random
import re
import subprocess

from common import expect

PIECE = re.compile(r"  (\d+): (.*?)(?: \(operation (\d+), piece (\d+) of (\d+)\))?( # .*)?")
PARTS = r" \(operation (\d+), pieces (\d+) to (\d+) of (\d+), each (\d+) bytes (further|lower)\)"
RUN = re.compile(rf"  (\d+) to (\d+): (.*?){PARTS}( # .*)?")
GROUP = re.compile(r"group (\d+): (?:(lone submission)|batch of (\d+).*), .*cost \d+")
GROUPS = re.compile(r"groups (\d+) to (\d+): (\d+) (lone submissions|batches of (\d+).*), (.*cost \d+) each")


def further(words, count, size, is_lower):
    """The line of the piece that comes so many after this one in a run."""
    step = -count if is_lower else count
    own = words.split(", record ")
    data = re.sub("0x[0-9a-f]+", lambda it: hex(int(it[0], 16) + step * size), own[0])
    return f"{data}, record " + re.sub("^0x[0-9a-f]+", lambda it: hex(int(it[0], 16) + step * 32), own[1])


def unfolded(text):
    """The same explanation with a line for each piece and each group."""
    lines, heads, size = [], [], 0
    for line in text.splitlines():
        if found := GROUPS.fullmatch(line):
            first, last, count = (int(number) for number in found.groups()[:3])
            if count != last - first + 1 or count < 2:
                return f"{line}: {first} to {last} are not {count} groups"
            size = int(found[5] or 1)
            kind = found[4].replace("batches", "batch").replace("submissions", "submission")
            heads = [f"group {number}: {kind}, {found[6]}" for number in range(first, last + 1)]
        elif found := RUN.fullmatch(line):
            first, last, words, operation, part, until, parts, step, way, name = found.groups()
            many = int(last) - int(first) + 1
            if many < 2 or int(until) - int(part) + 1 != many or f", {step} bytes" not in words:
                return f"{line}: the numbers of a run"
            for k in range(many):
                if heads and k % size == 0:
                    lines.append(heads.pop(0))
                own = further(words, k, int(step), way == "lower")
                origin = f" (operation {operation}, piece {int(part) + k} of {parts})"
                lines.append(f"  {int(first) + k}: {own}{origin}{name or ''}")
            if heads:
                return f"{line}: it has fewer groups than are said"
        else:
            lines.append(line)
    return "".join(f"{line}\n" for line in lines)


def pieces_in(lines):
    """The pieces of lines that are not folded: number, words, operation, part and parts, name, group, fence, size."""
    pieces, group, is_fenced = [], -1, False
    for line in lines:
        if GROUP.fullmatch(line):
            group += 1
        elif line.startswith("  -- "):
            is_fenced = True
        elif found := PIECE.fullmatch(line):
            number, words, operation, part, parts, name = found.groups()
            size = re.findall(r"(\d+) bytes", words)[-1]
            origin = tuple(map(int, (operation, part, parts))) if operation else None
            pieces.append((int(number), words, origin, name or "", group, is_fenced, int(size)))
            is_fenced = False
    return pieces


def runs_of(pieces, heads):
    """The pieces that share a line, by the number of the first."""
    whole, runs, first = {}, {}, 0
    for piece in pieces:
        whole.setdefault(piece[4], []).append(piece)

    def is_of(group, operation):
        """All pieces of the group are of the operation, without fences."""
        return all(piece[2] and piece[2][0] == operation and not piece[5] for piece in whole[group])

    def shares(before, piece):
        """The piece shares the line of the one before it."""
        if piece[5] or not piece[2] or not before[2] or piece[2][0] != before[2][0] or piece[6] != before[6]:
            return False
        if piece[4] == before[4]:
            return True
        both = is_of(before[4], piece[2][0]) and is_of(piece[4], piece[2][0])
        return both and heads[before[4]] == heads[piece[4]] and whole[before[4]][0][6] == piece[6]

    for before, piece in zip([None, *pieces], pieces):
        if not before or not shares(before, piece):
            first = piece[0]
        runs.setdefault(first, []).append(piece)
    return runs


def run_line(run):
    """The line of a run."""
    number, words, (operation, part, parts), name, _, _, size = run[0]
    first, second = (int(re.search(r"record (0x[0-9a-f]+)", piece[1])[1], 16) for piece in run[:2])
    way = "lower" if second < first else "further"
    last = f"pieces {part} to {run[-1][2][1]} of {parts}"
    return f"  {number} to {run[-1][0]}: {words} (operation {operation}, {last}, each {size} bytes {way}){name}"


def folded(text):
    """The same explanation as it is written if not each piece is asked for."""
    lines = text.splitlines()
    heads = [line.split(": ", 1)[1] for line in lines if GROUP.fullmatch(line)]
    pieces = pieces_in(lines)
    runs = runs_of(pieces, heads)
    first_of = {piece[4]: piece[0] for piece in reversed(pieces)}
    out = []
    for line in lines:
        if found := GROUP.fullmatch(line):
            group = int(found[1])
            if first_of[group] not in runs:
                continue
            last = runs[first_of[group]][-1][4]
            if last > group:
                kind = heads[group].replace("lone submission", "lone submissions").replace("batch of", "batches of")
                line = f"groups {group} to {last}: {last - group + 1} {kind} each"
        elif found := PIECE.fullmatch(line):
            run = runs.get(int(found[1]))
            if not run:
                continue
            line = run_line(run) if len(run) > 1 else line
        out.append(line)
    return "".join(f"{line}\n" for line in out)


def operations(chance, seed):
    """Up to six operations of several pieces, at few addresses, with barriers and names."""
    places, lines = [0x10_0000 + 0x1_0000 * k for k in range(12)], []
    for k in range(1 + seed % 6):
        first, second = chance.choice(places), chance.choice(places) + chance.choice((0, 0, 8, 16, 256))
        size, record = chance.choice((64, 512, 728, 1600, 4096)), 0x100_0000 + 0x1000 * k
        ways = (f"move {first} -> {second}", f"fill {second} with 0102030405060708", f"compare {first} with {second}")
        words = chance.choice(ways)
        words += f", {size} bytes" + ", expect 0" * words.startswith("compare") + f", record {record}"
        lines += ["barrier"] * (chance.random() < 0.1)
        lines.append(words + f" # the {'x' * k} (operation {k})" * (seed % 2))
    return "\n".join(lines)


def texts(program):
    """Random texts: a line for each piece and each group says the same as lines and headings that they share, both
    ways."""
    shared = 0
    for seed in range(200):
        text = operations(random.Random(seed), seed)
        options = ["--greatest-transfer", "64", "--staging", "0x70000000", "--lone", str((10, 3, 0)[seed % 3])]
        options += ["--greatest-batch", str((2, 4, 32)[seed // 3 % 3])]
        each, once = (
            subprocess.run([program, "explain", *options, *more], input=text, capture_output=True, text=True).stdout
            for more in (["--all"], [])
        )
        # the conflicts of a fence after its first one are only counted
        counted = re.sub(r"\n((?:     and .*\n)+)", lambda it: f", and {it[1].count('    and ')} more\n", each)
        wanted = folded(counted)
        expect(each and once == wanted, f"{text} {options}: {once}, not {wanted}")
        expect(unfolded(once) == counted, f"{text} {options}: {once} says {unfolded(once)}")
        shared += counted.count("\n") - once.count("\n")
    expect(shared > 1000, f"only {shared} lines are shared")
