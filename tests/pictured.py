"""Reads pictures of plans and of audits, and says what has to be in them: docs/FORMATS.md has the form. What a plan
does is taken from the words of its explanation, what an audit found from its report."""
import itertools
import random
import re
from bisect import bisect_right
from dataclasses import dataclass, field
from xml.etree import ElementTree

import common
import folded

MOST_COLUMNS, MOST_ROWS, MOST_PERIOD = 24, 48, 12
SVG = "{http://www.w3.org/2000/svg}"
KINDS = {"read after write": "RAW", "write after read": "WAR", "write after write": "WAW"}
GROUP = re.compile(r"group (\d+): (?:lone submission|batch of (\d+)(?: \(full\))?, (\d+) fences?, \d+ epochs?), cost (\d+)")
FENCE = re.compile(r"  -- fence, cost \d+: (.*)")
REASON = r"(a barrier, and )?(\d+) after (\d+), (.*) at (0x[0-9a-f]+)(?: \(record of \d+\))?(?:, and (\d+) more)?"
PIECE = re.compile(r"  (\d+): (\w+) (.*), record 0x[^(#]*( \(operation (\d+), piece (\d+) of (\d+)\))?( # .*)?")
ADDRESS = r"(0x[0-9a-f]+)"
BARS = ("fence", "missing", "needless", "kept", "no-effect")
UNITS = ((1 << 30, "GiB"), (1 << 20, "MiB"), (1 << 10, "KiB"), (1, "bytes"))


@dataclass
class Column:
    """An operation: what a browser says of it, its number and name, and the spans that it reads and writes, each as its
    first address and its size; or that it is not looked at. Of a piece of several the number and the name of its
    operation."""

    title: str
    number: int
    name: str
    reads: list = field(default_factory=list)
    writes: list = field(default_factory=list)
    seen: bool = True
    record: tuple | None = None
    split: tuple | None = None
    size: int = 0

    def common(self):
        """What columns that are alike have in common. The record is among what is written."""
        touched = (len(self.reads), len(self.writes) + (self.record is not None)) if self.seen else None
        return self.name, self.size, touched


@dataclass
class Bar:
    """What is before a column: the kind of bar, the words below it, what a browser says of it, if that is looked at; if
    it is about a conflict the columns of the two, and the address; and all conflicts that tell it from others, if these
    are more."""

    column: int
    kind: str
    words: str
    title: str | None = None
    pair: tuple | None = None
    pairs: list | None = None

    def seen_from(self, start):
        """What it has in common with the bars of columns that are alike: places are counted from a column on."""
        pairs = [self.pair] if self.pairs is None and self.pair else self.pairs or []
        return self.column - start, self.words, [(it[0] - start, it[1] - start) for it in pairs]


@dataclass
class Groups:
    """How many operations each group has, what it is, and the groups that begin after a barrier."""

    sizes: list
    kinds: list
    barriers: set = field(default_factory=set)

    def likes(self, columns, bars):
        """For each group the first that has the same operations, sizes and fences, if it is not that."""
        firsts, likes, start = {}, [], 0
        for number, (size, kind) in enumerate(zip(self.sizes, self.kinds)):
            own = [it.common() for it in columns[start : start + size]]
            fences = [bar.seen_from(start) for bar in bars if start <= bar.column < start + size]
            key = repr((kind, number in self.barriers, own, fences))
            likes.append(firsts.get(key))
            firsts.setdefault(key, number)
            start += size
        return likes


@dataclass
class Slot:
    """A column of a picture: its operations, the first of the groups that they are of, how many these are, and what
    they have in common: ("pieces", operation, name), ("like", group), "like several", ("repeats", columns, times),
    "rest" or "plain"."""

    operations: list
    group: int
    groups: int
    fold: object

    def name(self):
        """What is above it, if it is folded."""
        if self.fold == "like several":
            return f"{self.groups} more like these"
        if self.fold == "rest":
            return f"{len(self.operations)} more"
        if self.fold[0] == "repeats":
            return f"x {self.fold[2]} the {'one' if self.fold[1] == 1 else self.fold[1]} before"
        if self.fold[0] == "like":
            return f"{self.groups} more like {'it' if self.fold[1] + 1 == self.group else self.fold[1]}"
        if self.fold[0] == "pieces":
            return f"{len(self.operations)} pieces of {' '.join(self.fold[2].split())}"
        return f"{len(self.operations)} in {self.groups} groups" if self.groups > 1 else f"{len(self.operations)} more"

    def is_single(self):
        return len(self.operations) == 1 and self.groups == 1

    def is_folded(self):
        return len(self.operations) > 1 or self.groups > 1


# ---- what has to be in a picture


def joined(one, other, parted):
    """What two columns that are folded as one have in common, or nothing."""
    likes = ["like" in (it if isinstance(it, str) else it[0]) for it in (one, other)]
    if one == other:
        return one
    if all(likes):
        return "like several"
    return None if any(likes) or parted else "plain"


def slots_with(columns, groups, likes, kept, small=False, parted=False):
    """The columns of a picture in which these operations are kept. Groups are folded unless it is small, and pieces of
    two operations never share a column if it is parted."""
    slots, first, before = [], 0, False
    folds = [("pieces", *it.split) if it.split else "plain" for it in columns]
    for number, size in enumerate(groups.sizes):
        own, fold = range(first, first + size), None
        if not any(k in kept for k in own):
            kinds = {folds[k] for k in own} or {"plain"}
            fold = kinds.pop() if len(kinds) == 1 else None if parted else "plain"
        if not fold and not small and likes[number] is not None:
            fold = ("like", likes[number])
        runs = [Slot([*own], number, 1, fold)] if fold else [Slot([k], number, 1, folds[k]) for k in own]
        if fold:
            merges = before and not small and number not in groups.barriers
        for k, it in enumerate(runs):
            if not fold:
                merges = k > 0 and not {it.operations[0], it.operations[0] - 1} & kept
            both = joined(slots[-1].fold, it.fold, parted) if merges else None
            if both:
                slots[-1].operations += it.operations
                slots[-1].groups += 1 if fold else 0
                slots[-1].fold = both
            else:
                slots.append(it)
        before, first = bool(fold), first + size
    return slots


def slot_key(slot, begins, columns, groups, fences):
    """What columns that are alike have in common; no two folds of groups that are like others are alike."""
    head = (groups.kinds[slot.group], slot.group in groups.barriers) if begins else None
    if slot.fold == "plain" or slot.fold[0] == "pieces" and not slot.is_folded():
        own = [columns[k].common() for k in slot.operations]
    else:
        own = slot.fold[2] if slot.fold[0] == "pieces" else ("alone", id(slot))
    start = slot.operations[0] if slot.operations else 0
    bars = [bar.seen_from(start) for k in slot.operations for bar in fences.get(k, [])]
    return repr((head, len(slot.operations), slot.groups, own, bars))


def merged(slots, fold):
    """One column for these."""
    last = slots[-1]
    operations = [k for slot in slots for k in slot.operations]
    return Slot(operations, slots[0].group, last.group + last.groups - slots[0].group, fold)


def without_repeats(slots, columns, groups, bars):
    """The columns, with one for all that repeat those before it, if it takes the place of two or more. Of several ways
    to begin at a column the one that folds most is taken, and of these the shortest. Columns that do not begin a group
    repeat only within their group."""
    fences, begins = {}, [k == 0 or slots[k - 1].group != slot.group for k, slot in enumerate(slots)]
    for bar in bars:
        fences.setdefault(bar.column, []).append(bar)
    keys = [slot_key(slot, begin, columns, groups, fences) for slot, begin in zip(slots, begins)]
    kept, at = [], 0
    while at < len(slots):
        end = len(slots) if begins[at] else next((k for k in range(at, len(slots)) if begins[k]), len(slots))
        best, best_period = 0, 1
        for period in range(1, MOST_PERIOD + 1):
            more = 0
            while keys[at : at + period] == keys[at + (more + 1) * period : at + (more + 2) * period] and (
                at + (more + 2) * period <= end
            ):
                more += 1
            if more * period > best:
                best, best_period = more * period, period
        if best < 2:
            kept.append(slots[at])
            at += 1
            continue
        kept += slots[at : at + best_period]
        rest = slots[at + best_period : at + best_period + best]
        kept.append(merged(rest, ("repeats", best_period, best // best_period + 1)))
        at += best_period + best
    return kept


def slots_of(columns, groups, kept, bars):
    """The columns of a picture in which these operations are kept if there are many: all, if they are few, else all but
    those of groups that are like others, else but those that repeat others and all but one of pieces, else those of
    these operations, or the first of them."""
    every, likes = {*range(len(columns))}, groups.likes(columns, bars)
    if sum(max(1, size) for size in groups.sizes) <= MOST_COLUMNS:
        return slots_with(columns, groups, likes, every, small=True)
    different = slots_with(columns, groups, likes, every)
    if len(different) <= MOST_COLUMNS:
        return different
    unsplit = kept | {k for k, it in enumerate(columns) if not it.split}
    repeated = without_repeats(slots_with(columns, groups, likes, unsplit, parted=True), columns, groups, bars)
    if len(repeated) <= MOST_COLUMNS:
        return repeated
    parted = slots_with(columns, groups, likes, kept, parted=True)
    if len(parted) <= MOST_COLUMNS:
        return parted
    fewest = without_repeats(slots_with(columns, groups, likes, kept), columns, groups, bars)
    if len(fewest) <= MOST_COLUMNS:
        return fewest
    return [*fewest[: MOST_COLUMNS - 1], merged(fewest[MOST_COLUMNS - 1 :], "rest")]


def union(spans):
    """Spans that meet or touch as one."""
    ends = []
    for first, size in sorted(span for span in spans if span[1]):
        if ends and first <= ends[-1][1]:
            ends[-1][1] = max(ends[-1][1], first + size)
        else:
            ends.append([first, first + size])
    return [(first, end - first) for first, end in ends]


def starts_of(spans):
    """Where rows begin: where a span does, but within another one only if that has smaller ones on both sides."""
    inner = {}
    for span in spans:
        own = [it for it in spans if span[0] <= it[0] and it[1] <= span[1]]
        inner[span] = min(end for _, end in own), max(first for first, _ in own)
    starts = sorted({first for first, _ in spans})
    return [at for at in starts if all(inner[it][0] <= at <= inner[it][1] for it in spans if it[0] < at < it[1])]


def label_of(row, name):
    """The label of a row that is not folded, which has this name, if any, of a buffer at that address."""
    if not name:
        return f"{row[0]:#x} +{row[1] - row[0]}"
    return name[1] + f" at {row[0] - name[0]}" * (name[0] < row[0])


def labels_of(rows, spans, buffers):
    """The labels of rows that are not folded: a row has the name of the buffer that begins in it, or that of the row
    before if an operation touches bytes of both."""
    labels, name = [], None
    for row in rows:
        is_joined = any(first < row[0] < end for first, end in spans)
        own = [(address, words) for address, words in sorted(buffers.items()) if row[0] <= address < row[1]]
        name = own[0] if own else name if is_joined else None
        labels.append(label_of(row, name))
    return labels


def rows_of(spans, conflicts, buffers):
    """The rows of spans, as the first address, the end and the number of ranges, and their labels; of more than 48 only
    those of conflicts have one of their own."""
    spans = {(first, first + size) for first, size in spans if size}
    starts, rows = starts_of(spans), []
    for first, after in zip(starts, [*starts[1:], 1 << 65]):
        rows.append([first, min(after, max(end for begin, end in spans if begin < after)), 1])
    labels = labels_of(rows, spans, buffers)
    if len(rows) <= MOST_ROWS:
        return rows, labels
    marked = {bisect_right([row[0] for row in rows], address) - 1 for address in conflicts}
    folded, names, before = [], [], True
    for k, row in enumerate(rows):
        if k in marked or before:
            folded.append(row)
            names.append(labels[k])
        else:
            folded[-1] = [folded[-1][0], row[1], folded[-1][2] + 1]
            names[-1] = f"{folded[-1][2]} buffers"
        before = k in marked
    return folded, names


def marks_of(uses, rows):
    """What operations do in rows: by operation and row the letters, the addresses if they are a part of the row, and
    whether the mark goes on in the next row."""
    firsts, marks = [row[0] for row in rows], {}
    for k, (first, size), letter in uses:
        end, at = first + size, bisect_right(firsts, first) - 1
        while size and at < len(rows) and rows[at][0] < end:
            mark = marks.setdefault((k, at), [set(), 1 << 65, 0, False])
            mark[0].add(letter)
            mark[1], mark[2] = min(mark[1], max(first, rows[at][0])), max(mark[2], min(end, rows[at][1]))
            mark[3] |= rows[at][1] < end and rows[at][2] == 1
            at += 1
    wanted = {}
    for (k, at), (letters, first, end, goes_on) in marks.items():
        is_part = rows[at][2] == 1 and [first, end] != rows[at][:2]
        wanted[k, at] = "".join(sorted(letters)), f"{first:#x} +{end - first}" if is_part else None, goes_on
    return wanted


def wanted(columns, groups, bars, buffers):
    """What a picture has of operations in these groups, and of these names of buffers: its columns, rows, labels,
    marks, bars, conflicts, barriers, and the columns of each second epoch and of operations that are not looked at."""
    kept = {bar.column for bar in bars} | {k for bar in bars if bar.pair for k in bar.pair[:2]}
    slots = slots_of(columns, groups, kept, bars)
    shown = [slot.operations[0] for slot in slots if slot.is_single()]
    fenced = {bar.column for bar in bars if bar.kind != "missing"}
    bars = [bar for bar in bars if bar.column in set(shown)]
    pairs = [bar.pair for bar in bars if bar.pair and {*bar.pair[:2]} <= set(shown)]
    uses = [(k, span, "R") for k in shown for span in columns[k].reads]
    uses += [(k, span, "W") for k in shown for span in columns[k].writes]
    for slot in slots:
        if slot.is_folded() and slot.fold[0] == "pieces":
            pieces = [columns[k] for k in slot.operations]
            written = [span for it in pieces for span in [*it.writes, it.record]]
            uses += [(slot.operations[0], span, "R") for span in union(span for it in pieces for span in it.reads)]
            uses += [(slot.operations[0], span, "W") for span in union(written)]
    for earlier, later, address in pairs:
        for k in (earlier, later):
            record = columns[k].record
            if record and record[0] <= address < record[0] + record[1]:
                uses.append((k, record, "W"))
    rows, labels = rows_of([span for _, span, _ in uses], [address for _, _, address in pairs], buffers)
    firsts = [row[0] for row in rows]
    row_of = lambda address: bisect_right(firsts, address) - 1
    second, is_second, at = set(), False, 0
    for size in groups.sizes:
        is_second = False
        for k in range(at, at + size):
            is_second ^= k in fenced and k != at
            if is_second:
                second.add(k)
        at += size
    return {
        "columns": [slot.operations[0] if slot.is_single() else slot.name()
                    for slot in slots if slot.is_single() or slot.is_folded()],
        "rows": [(first, end - first, count) for first, end, count in rows],
        "labels": labels,
        "marks": marks_of(uses, rows),
        "bars": [(bar.column, bar.kind, bar.words, bar.title) for bar in bars],
        "conflicts": sorted((earlier, later, row_of(address)) for earlier, later, address in pairs),
        "barriers": [k for k, slot in enumerate(slots)
                     if slot.group in groups.barriers and k and slots[k - 1].group != slot.group],
        "second": second & set(shown),
        "unseen": {k for k in shown if not columns[k].seen},
    }


# ---- what is in a picture


def words_in(part):
    return " ".join(text.text or "" for text in part.iter(f"{SVG}text"))


def place_of(shape):
    """Where a rectangle or a line begins."""
    return int(shape.get("x", shape.get("x1"))), int(shape.get("y", shape.get("y1")))


def drawn(svg, columns):
    """What a picture has, in the same form, with the titles of its groups and the names of its columns and rows.
    Operations are known by their titles, in order."""
    root = ElementTree.fromstring(svg)
    parts = {}
    for it in root.iter():
        parts.setdefault(it.get("class"), []).append(it)
    titles, next_one, found, lefts, names, all_lefts = [column.title for column in columns], 0, [], {}, {}, []
    for part in root.iter(f"{SVG}g"):
        if part.get("class") == "operation":
            next_one = titles.index(part[0].text.split(", not looked at: ")[0], next_one)
            lefts[int(part[1].get("x")) - 4] = next_one
            names[next_one] = (part[1].text, " ".join(text.text for text in part[2:]))
            found.append(next_one)
            all_lefts.append(int(part[1].get("x")) - 4)
            next_one += 1
        elif part.get("class") == "folded":
            found.append(" ".join(words_in(part).removeprefix("…").split()))
            all_lefts.append(int(part[1].get("x")) - 4)
            lefts[all_lefts[-1]] = next_one
            next_one += int(re.match(r"folded: (\d+) operations?, ", part[0].text)[1])
    rows, labels, tops = [], [], {}
    for part in parts.get("row", []):
        first, size = re.fullmatch(r"0x([0-9a-f]+) \+(\d+)", part[0].text).groups()
        label = part[1].text
        folded = re.fullmatch(r"(\d+) buffers", label)
        tops[int(part[2].get("y1")) - 22] = len(rows)
        rows.append((int(first, 16), int(size), int(folded[1]) if folded else 1))
        labels.append(label)
    marks = {}
    for part in parts.get("mark", []):
        x, y = place_of(part.find(f"{SVG}rect"))
        marks[lefts[x - 7], tops[y - 4]] = mark_in(part, rows[tops[y - 4]])
    ends = {left + int(root_width(parts)): k for left, k in lefts.items()}
    bars = []
    for part in root.iter(f"{SVG}g"):
        if part.get("class") in BARS:
            x, _ = place_of(part[1])
            left = x if part[1].tag == f"{SVG}line" else x + 2
            bars.append((lefts[left], kind_of(part), words_in(part), part[0].text))
    barriers = []
    for part in parts.get("barrier", []):
        barriers.append(next(k for k, left in enumerate(all_lefts) if left > place_of(part[1])[0]))
        if words_in(part) != "barrier":
            barriers.append(words_in(part))
    lines = [[int(it.get(name)) for name in ("x1", "x2", "y1")] for it in parts.get("conflict", [])]
    conflicts = sorted((ends[left + 7], lefts[right - 7], tops[y - 11]) for left, right, y in lines)
    grounds = {kind: {place_of(it)[0] for it in parts.get(kind, [])} for kind in ("epoch", "unseen")}
    grounds = {kind: {lefts[left] for left in places if lefts.get(left) in names} for kind, places in grounds.items()}
    return {
        "columns": found, "rows": rows, "labels": labels, "marks": marks, "bars": bars, "conflicts": conflicts,
        "barriers": barriers, "second": grounds["epoch"], "unseen": grounds["unseen"],
    }, {
        "groups": [part[0].text for part in parts.get("group", [])],
        "names": names,
        "notes": [it.text for it in root.findall(f"{SVG}text")],
        "title": root[0].text,
        "size": (int(root.get("width")), int(root.get("height"))),
    }


def root_width(parts):
    """How wide the columns of a picture are: marks are 14 narrower."""
    return int(parts["mark"][0].find(f"{SVG}rect").get("width")) + 14 if parts.get("mark") else 0


def mark_in(part, row):
    """A mark in this row: its letters, its addresses if it is a part of the row, and whether it goes on in the next.
    A part has its offset if that has room in letters of 7 points, and a strip that is black where it is."""
    title, (box, *strip), words = part.find(f"{SVG}title"), part.findall(f"{SVG}rect"), words_in(part)
    letters, height = words.split()[0], int(box.get("height"))
    if height not in (14, 22) or (title is None) != (not strip):
        return f"a box {height} high, with {len(strip)} further boxes"
    if strip:
        first, size = re.fullmatch(r"0x([0-9a-f]+) \+(\d+)", title.text).groups()
        offset, size = int(first, 16) - row[0], int(size)
        whole, room = f"{letters} at {offset}", int(box.get("width")) - 8
        if words != (whole if len(whole) <= room * 5 // 21 else letters):
            return f"{words}, and not {whole}"
        (_, top), (_, begin) = map(place_of, strip)
        above, own = begin - top, int(strip[1].get("height"))
        if abs(above - 10 * offset / row[1]) > 2 or abs(own - 10 * size / row[1]) > 2 or above + own > 10:
            return f"{own} from {above} on of 10 are black, of {row} {title.text}"
    elif words != letters:
        return words
    return letters, title.text if strip else None, height == 22


def kind_of(part):
    """The kind of a bar by what can be seen of it."""
    shape = part[1]
    if shape.tag == f"{SVG}line":
        return "missing" if (shape.get("stroke"), shape.get("stroke-dasharray")) == ("#c00", "6 4") else "a line"
    if shape.get("stroke") == "#c00":
        return "denied"
    return {"black": "fence", "white": "needless", "#999": "kept"}.get(shape.get("fill"), "a bar")


def fault_of(svg, columns, groups, bars, buffers):
    """What is wrong with a picture of operations in these groups, or nothing; and what else is in it."""
    needed, (found, others) = wanted(columns, groups, bars, buffers), drawn(svg, columns)
    for k, (label, whole) in enumerate(zip(found["labels"], needed["labels"])):
        if label.endswith("…") and whole.startswith(label[:-1]):
            found["labels"][k] = whole
    for k, (name, whole) in enumerate(zip(found["columns"], needed["columns"])):
        if isinstance(name, str) and isinstance(whole, str) and "…" in name and cut_of(name, whole):
            found["columns"][k] = whole
    for part, want in needed.items():
        if part == "bars":
            titles = [title for *_, title in want] + [""] * len(found[part])
            found[part] = [(*bar[:3], bar[3] if title is not None else None) for bar, title in zip(found[part], titles)]
        if found[part] != want:
            return f"{part}: wanted {want}, drawn {found[part]}", others
    for k, (number, name) in others["names"].items():
        name, whole = (" ".join(words.split()) for words in (name, columns[k].name))
        if number != str(columns[k].number) or not (name == whole or "…" in name and cut_of(name, whole)):
            return f"column {k} is named {number} {name}, and not {columns[k].number} {whole}", others
    width, height = others["size"]
    if not 500 <= width <= 960 or height > 1600:
        return f"the picture is {width} wide and {height} high", others
    return "", others


def cut_of(name, whole):
    """A name is the whole one, of which words have been cut off."""
    pattern = ".*".join(re.escape(part) for part in name.split("…"))
    return re.fullmatch(pattern + ".*", whole) is not None


# ---- the picture of a plan


def spans_of(word, rest):
    """What a piece reads and writes, by its line."""
    numbers = [int(number, 0) for number in re.findall(r"0x[0-9a-f]+", rest)]
    sizes = [int(size) for size in re.findall(r"(\d+) bytes", rest)]
    if word == "move":
        return [(numbers[0], sizes[0])], [(numbers[1], sizes[0])]
    if word == "fill":
        return [], [(numbers[0], sizes[0])]
    if word == "delta":
        return [(numbers[0], sizes[0]), (numbers[1], sizes[1])], [(numbers[1], sizes[1])]
    if word == "dualcast":
        return [(numbers[0], sizes[0])], [(number, sizes[0]) for number in numbers[1:]]
    if word in ("crc", "copy_crc"):
        seeds = [(int(place, 16), 4) for place in re.findall(r"seed at (0x[0-9a-f]+)", rest)]
        return [(numbers[0], sizes[0]), *seeds], [(numbers[1], sizes[0])] if word == "copy_crc" else []
    return [(number, sizes[0]) for number in numbers[: 1 if " with pattern " in rest else 2]], []


def comments_of(text):
    """The comment of each operation of a text, and the buffers that comments name. One with a character that a terminal
    obeys is none."""
    comments, buffers = [], {}
    for line in text.split("\n"):
        before, _, comment = line.partition("#")
        words, comment = before.replace(",", " ").split(), comment.strip()
        if re.search("[\0-\x08\x0a-\x1f\x7f-\x9f]", comment):
            comment = ""
        if words and words[0] not in ("barrier", "batch"):
            comments.append(comment)
        elif not words and (found := re.fullmatch(r"(0x[0-9a-f]+|\d+):\s*(.*)", comment)):
            buffers.setdefault(int(found[1], 0), found[2].strip())
    return comments, buffers


def barriers_of(text):
    """The operations of a text that begin after a barrier."""
    barriers, operations = set(), 0
    for line in text.split("\n"):
        words = line.partition("#")[0].replace(",", " ").split()
        if words and words[0] == "barrier":
            barriers.add(operations)
        elif words and words[0] != "batch":
            operations += 1
    return barriers


def columns_of(words, text):
    """The operations of a plan that is explained in these words, by the comments of its text if it has one."""
    columns, comments = [], comments_of(text)[0] if text is not None else None
    for line in words.splitlines():
        if not (found := PIECE.fullmatch(line)):
            continue
        number, word, rest, part = int(found[1]), found[2], found[3], found[4] or ""
        operation = int(found[5]) if part else split_index(columns)
        comment = comments[operation] if comments is not None else ""
        name = comment or ("compare pattern" if " with pattern " in rest else word)
        title = f"{number}: {word} {rest}{part}" + f" # {comment}" * bool(comment)
        if (found[8] or "") != f" # {comment}" * bool(comment):
            name = f"{found[8]} is said, and the comment is {comment}"
        columns.append(Column(title, number, f"{name} {found[6]}/{found[7]}" if part else name, *spans_of(word, rest)))
        columns[-1].operation, columns[-1].called = operation, (name, bool(comment), bool(part))
        columns[-1].record = (int(re.search(r"record (0x[0-9a-f]+)", line)[1], 16), 32)
        columns[-1].size = int(re.findall(r"(\d+) bytes", rest)[-1])
    name_splits(columns)
    return columns


def name_splits(columns):
    """Notes in the pieces of operations of several pieces the number and the name of the operation."""
    sizes = {}
    for it in columns:
        size = int(re.search(r"(\d+) bytes", it.title)[1])
        sizes[it.operation] = sizes.get(it.operation, 0) + size
    for it in columns:
        name, is_comment, is_piece = it.called
        unit = next(unit for unit in UNITS if sizes[it.operation] % unit[0] == 0)
        size = f"{sizes[it.operation] // unit[0]} {unit[1]}"
        it.split = (it.operation, name if is_comment else f"{name} {size}") if is_piece else None


def split_index(columns):
    """The index of the operation after those of these pieces."""
    return columns[-1].operation + 1 if columns else 0


def bars_of(words, columns):
    """The fences of a plan that is explained in these words; the completion records that they are about are noted in
    the columns."""
    bars, number = [], 0
    for line in words.splitlines():
        if PIECE.fullmatch(line):
            number += 1
        if not (found := FENCE.fullmatch(line)):
            continue
        label, pair, reason = "none alone", None, re.fullmatch(REASON, found[1])
        if found[1] == "a barrier":
            label = "barrier"
        elif reason:
            label = KINDS[reason[4]] + (f" +{reason[6]}" if reason[6] else "") + (" barrier" if reason[1] else "")
            pair = (int(reason[3]), int(reason[2]), int(reason[5], 16))
            for k in pair[:2]:
                own = [*columns[k].reads, *columns[k].writes]
                if not any(first <= pair[2] < first + size for first, size in own):
                    # a conflict is in the data of both or in the completion record of one, which has 32 bytes
                    columns[k].record = (pair[2] & ~31, 32)
        bars.append(Bar(number, "fence", label, f"fence: {found[1]}", pair))
    return bars


def pieces_between(columns, groups, bars, first, last):
    """The pieces from the first to the last, with the groups that have some of them, and the bars before them."""
    shift = lambda pair: (pair[0] - first, pair[1] - first, pair[2]) if first <= pair[0] and pair[1] <= last else None
    some, starts = Groups([], []), itertools.accumulate([0, *groups.sizes])
    for number, (start, size, kind) in enumerate(zip(starts, groups.sizes, groups.kinds)):
        own = min(start + size, last + 1) - max(start, first)
        if own > 0:
            some.barriers |= {len(some.sizes)} if number in groups.barriers and start >= first else set()
            some.sizes.append(own)
            some.kinds.append(kind)
    own = [Bar(bar.column - first, bar.kind, bar.words, bar.title, bar.pair and shift(bar.pair))
           for bar in bars if first <= bar.column <= last]
    return columns[first : last + 1], some, own


def plan_fault(svg, words, text=None, first=0, last=None):
    """What is wrong with the picture of a plan that is explained in these words, and was planned from this text; of
    these pieces alone, if a last one is given."""
    words = folded.unfolded(words)
    columns = columns_of(words, text)
    bars = bars_of(words, columns)
    heads = [found for line in words.splitlines() if (found := GROUP.fullmatch(line))]
    sizes = [int(found[2] or 1) for found in heads]
    groups = Groups(sizes, sizes)
    starts = [sum(groups.sizes[:k]) for k in range(len(heads))]
    parted = barriers_of(text) if text is not None else set()
    for k, start in enumerate(starts):
        operation = columns[start].operation
        if operation in parted and (not start or columns[start - 1].operation != operation):
            groups.barriers.add(k)
    count = len(columns)
    if last is not None:
        columns, groups, bars = pieces_between(columns, groups, bars, first, last)
    fault, others = fault_of(svg, columns, groups, bars, comments_of(text)[1] if text is not None else {})
    if fault:
        return fault
    note = f"pieces {first} to {min(last, count - 1)} of {count}" if last is not None and len(columns) < count else ""
    if note and others["notes"][1] != note:
        return f"the notes are {others['notes']}, and not {note}"
    costs = next(line for line in words.splitlines() if line.startswith("cost "))
    if found := re.search(r"^least (\d+): this plan costs ", words, re.M):
        costs += f"; least {found[1]}"
    if others["title"] != costs or others["notes"][0] != f"total {costs}":
        return f"the costs are {others['title']}, {others['notes']}, and not {costs}"
    groups = [title for title in others["groups"] if not re.fullmatch(r"groups \d+ to \d+", title)]
    if not set(groups) <= {found[0] for found in heads}:
        return f"the groups are {groups}"
    return ""


# ---- plans of which pieces are folded


def compared(written, words, text):
    """The picture of the plan of a text, and what is wrong with it."""
    drawn_one, told = (written(f"explain {form} {words}", text) for form in ("--svg", ""))
    return drawn_one, plan_fault(drawn_one, told, text)


def pieces_and_barriers(written):
    """One move of 3 GiB in 1,536 pieces has one column, with its name and its ranges; so has each of two operations of
    many pieces. A fence can part the pieces of one into two columns. Of 300 moves of two pieces each those of a group
    are folded, and the groups. A barrier where the plan begins a group has a mark."""
    move = "move 0x100000000 -> 0x200000000, 3145728K bytes, record 0x500000000"
    fill = "fill 0x400000000 with 0000000000000000, 1024M bytes, record 0x600000000 # clear the rest"
    for text, words, names, marks in [
        (move, "", ["1536 pieces of move 3 GiB"], "RWW"),
        (f"{move} # copy", "", ["1536 pieces of copy"], "RWW"),
        (move.replace("3145728K", "3145727K"), "", ["1536 pieces of move 3145727 KiB"], "RWW"),
        (f"{move}\n{fill}", "", ["1536 pieces of move 3 GiB", "512 pieces of clear the rest"], "RWWWW"),
        (move.replace("3145728K", "1000"), "--greatest-transfer 8", ["125 pieces of move 1000 bytes"], "RWW"),
    ]:
        svg, fault = compared(written, words, text)
        columns = fault or drawn(svg, [])[0]["columns"]
        common.expect(columns == names, f"{text}: {columns}: {svg[:300]}")
        found = "".join(sorted(re.findall(r'class="mark".*?>(R|W|RW)</text>', svg)))
        common.expect(found == marks, f"{text}: the marks are {found}")
    text = f"{move.replace('3145728K', '81920K')}\nmove 0x204e00000 -> 0x300000000, 64 bytes, record 0x500001000"
    svg, fault = compared(written, "", text)
    names = [" ".join(re.findall(r">([^<…]+)</text>", it)) for it in re.findall(r'<g class="folded">.*?</g>', svg)]
    wanted_names = ["32 pieces of move 80 MiB", "7 pieces of move 80 MiB"]
    common.expect(not fault and names == wanted_names, f"pieces around a fence: {fault}, {names}")
    line = "move {} -> {}, 64 bytes, record {}\n"
    text = "".join(line.format(0x10_0000 + 64 * k, 0x20_0000 + 64 * k, 0x30_0000 + 64 * k) for k in range(300))
    svg, fault = compared(written, "--greatest-transfer 32 --greatest-batch 100", text)
    found = drawn(svg, [])[0]["columns"]
    once = "2 pieces of move 64 bytes"
    common.expect(not fault and found == [once, once, "x 49 the one before", "5 more like it"], f"{fault}: {found}")
    lines = [line.format(0x10_0000 + 64 * k, 0x20_0000 + 64 * k, 0x30_0000 + 32 * k) for k in range(60)]
    for places, words, count in [
        ((1,), "--fence 99", 1), ((1,), "", 0), ((2,), "--greatest-batch 2", 1), ((0, 4), "--greatest-batch 2", 0),
        ((1, 2), "--greatest-batch 2 --fence 99", 2), ((30,), "--greatest-batch 30", 1),
        ((30, 45), "--greatest-batch 30 --fence 99", 2),
    ]:
        operations = lines[: 60 if 30 in places else 4]
        text = "".join("barrier\n" * (k in places) + it for k, it in enumerate(operations))
        svg, fault = compared(written, words, text + "barrier\n" * (4 in places))
        found = svg.count('class="barrier"')
        common.expect(not fault and found == count, f"barriers before {places}, {words}: {fault}, {found} marks")


# ---- rows and parts of them


def rows_and_parts(written):
    """Ranges that only a larger one joins have a row each, and the larger one a mark in each of these, which goes on
    from row to row, as the name of the buffer does. Ranges that overlap otherwise share a row, in which each has its
    offset; so has a part of a range."""
    move = "move {:#x} -> {:#x}, {} bytes, record {:#x}\n"
    apart = move.format(0x4000, 0x30000, 64, 0x8000) + move.format(0x5000, 0x30040, 192, 0x8020)
    packet = apart + move.format(0x30000, 0x41000, 256, 0x8040)
    overlapping = "".join(move.format(0x4000, 0x1000 + 64 * k, 128, 0x8000 + 32 * k) for k in range(3))
    header = move.format(0x4000, 0x1000, 64, 0x8000) + move.format(0x1038, 0x5000, 8, 0x8020)
    for text, labels, parts in [
        (packet, ["0x4000 +64", "0x5000 +192", "0x30000 +64", "0x30040 +192", "0x41000 +256"],
         [(0, 2, "W"), (1, 3, "W"), (2, 2, "R on"), (2, 3, "R")]),
        ("# 0x30000: the packet\n" + packet,
         ["0x4000 +64", "0x5000 +192", "the packet", "the packet at 64", "0x41000 +256"],
         [(0, 2, "W"), (1, 3, "W"), (2, 2, "R on"), (2, 3, "R")]),
        (overlapping, ["0x1000 +256", "0x4000 +128"],
         [(0, 0, "W at 0x1000 +128"), (1, 0, "W at 0x1040 +128"), (2, 0, "W at 0x1080 +128")]),
        (header, ["0x1000 +64", "0x4000 +64", "0x5000 +8"], [(0, 0, "W"), (1, 0, "R at 0x1038 +8")]),
    ]:
        svg, fault = compared(written, "", text)
        found = drawn(svg, columns_of(written("explain --all", text), text))[0]
        common.expect(not fault and found["labels"] == labels, f"{text}: {fault}: {found['labels']}")
        told = {place: it[0] + f" at {it[1]}" * bool(it[1]) + " on" * it[2] for place, it in found["marks"].items()}
        for operation, row, wanted_mark in parts:
            common.expect(told.get((operation, row)) == wanted_mark, f"{text}: {told}, and not {wanted_mark}")
    common.expect(">R at 56<" in svg, f"no offset is drawn: {svg}")


# ---- many operations, and parts of them


def many(kind, count=500):
    """A text of so many operations, of which each reads what the one before writes, or each third what the two before
    write; or they have nothing to do with each other, or conflict here and there."""
    lines, chance = [], random.Random(count)
    for k in range(count):
        record, step, at = 0x800_0000 + 32 * k, k % 3, 0x1000 * (k // 3)
        if kind == "a chain":
            words = f"move {0x10_0000 + 0x1000 * k:#x} -> {0x10_1000 + 0x1000 * k:#x}, 4096 bytes"
        elif kind == "nothing":
            words = f"move {0x10_0000 + 0x1000 * k:#x} -> {0x400_0000 + 0x1000 * k:#x}, 4096 bytes"
        elif kind == "random":
            places = [0x10_0000 + 64 * chance.randrange(300), 0x20_0000 + 64 * chance.randrange(300)]
            chance.shuffle(places)
            words = f"move {places[0]:#x} -> {places[1]:#x}, {chance.choice((64, 128, 256))} bytes"
        elif step == 0:
            words = f"move {0x10_0000 + at:#x} -> {0x400_0000 + at:#x}, 4096 bytes"
        elif step == 1:
            words = f"fill {0x400_0800 + at:#x} with 0000000000000000, 64 bytes"
        else:
            words = f"compare {0x400_0800 + at:#x} with {0x10_0000 + at:#x}, 64 bytes, expect 0"
        lines.append(f"{words}, record {record:#x}")
    return "\n".join(lines) + "\n"


def many_drawn(written):
    """Pictures of 500 operations, and of parts of them: each fits a page, and what repeats has been folded."""
    repeated = ["x 31 the one before", "14 more like it"]
    for kind, names in [("a chain", repeated), ("triples", []), ("nothing", repeated), ("random", [])]:
        text = many(kind)
        told = written("explain", text)
        svg = written("explain --svg", text)
        fault = plan_fault(svg, told, text)
        found = drawn(svg, columns_of(folded.unfolded(told), text))[0]["columns"]
        common.expect(not fault and set(names) <= {*found}, f"{kind}: {fault}: {found}")
        for first, last in ((0, 0), (100, 119), (31, 200), (499, 499), (480, 700)):
            svg = written(f"explain --svg --from {first} --to {last}", text)
            fault = plan_fault(svg, told, text, first, last)
            common.expect(not fault, f"{kind} from {first} to {last}: {fault}")
        common.expect("nothing from 500 on: 500 pieces" in written("explain --svg --from 500", text), kind)
