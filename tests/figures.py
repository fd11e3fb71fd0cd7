"""The tables of speed in README.md, docs/SPEED.md and trace/README.md are those of the files of docs/figures, which
tests/measure.py writes, and docs/SPEED.md has no figure of speed in prose alone. A table is between
`<!-- figures: NAME -->` and `<!-- end -->`. `tests/figures.py --write` makes the tables of the pages anew."""

import json
import re
from pathlib import Path

from common import expect, run_test

PAGES = ("README.md", "docs/SPEED.md", "trace/README.md")
FOLDER = Path("docs/figures")
BLOCK = re.compile(r"(<!-- figures: (\w+) -->\n)(.*?)(<!-- end -->)", re.S)
# What prose may not say outside of the tables: a number with a unit of time or memory, or a ratio.
FIGURE = re.compile(r"\d[\d.,]*(?: to \d[\d.,]*)? (?:ns|ms|s|seconds|minutes|times|MB|GB|instructions|%)(?![\w-])")


def figures(name):
    return json.loads((FOLDER / f"{name}.json").read_text())


def source(found):
    """When the figures were measured, and beside what."""
    copy = f", copying a descriptor {found['copy']} ns" if "copy" in found else ""
    return f"{found['date']}, load {found['load']}{copy}:\n\n"


def machine():
    """What all figures were measured on."""
    every = [json.loads(path.read_text()) for path in sorted(FOLDER.glob("*.json"))]
    return "; ".join(sorted({f"{it['processors']} processors {it['processor']}" for it in every})) + "\n"


def table(heads, rows):
    lines = [f"| {' | '.join(map(str, cells))} |\n" for cells in (heads, *rows)]
    return lines[0] + "|" + "---|" * len(heads) + "\n" + "".join(lines[1:])


def span(values, form="{:.0f}"):
    """The least and the greatest of some values."""
    least, most = form.format(min(values)), form.format(max(values))
    return least if least == most else f"{least} to {most}"


def short_lists():
    found, kinds, lengths = figures("short_lists"), {}, []
    for row in found["rows"]:
        kinds.setdefault(row["kind"], {})[row["moves"]] = row
        lengths += [] if row["moves"] in lengths else [row["moves"]]
    heads = ["", *(f"{it} moves" for it in lengths), *(f"instructions, {it}" for it in lengths), "barriers, 32"]
    rows = [[kind, *(f"{its[it]['ns']:.0f}" for it in lengths), *(its[it]["instructions"] for it in lengths),
             f"{its[32]['barriers']:.0f}"] for kind, its in kinds.items()]
    return source(found) + table(heads, rows)


def filling():
    found = figures("filling")
    rows = [[row["regions"], row["bases"], f"{row['ns']:.1f}", f"{row['ns'] / row['copy']:.1f}", f"{row['plan']:.0f}"]
            for row in found["rows"] if row["bases"] != "opposite"]
    return source(found) + table(["regions", "bases", "fill, ns", "copies", "plan, ns"], rows)


def small_jobs():
    found = figures("small_jobs")
    return f"{found['date']}, load {found['load']}: {found['lines']} and {found['processes']} a second\n"


def rows_of_jobs(found):
    for row in found["rows"]:
        own, other = row["own"], row["other"]
        yield [row["job"], *(f"{it['wall']:.0f}" for it in (own, other)), f"{own['wall'] / other['wall']:.2f}",
               *(f"{it['system']:.0f}" for it in (own, other)), *(it["faults"] for it in (own, other)),
               *(it["peak"] for it in (own, other))]


def jobs():
    found = figures("jobs")
    rows = [[*cells[:4], *cells[6:]] for cells in rows_of_jobs(found)]
    return source(found) + table(["job", "ms", "other", "ratio", "new pages", "other", "MiB", "other"], rows)


def longest():
    found = figures("longest")
    rows = [[cells[0], *cells[1:4], *cells[8:]] for cells in rows_of_jobs(found)]
    return source(found) + table(["job", "ms", "other", "ratio", "MiB", "other"], rows)


def first_of(groups):
    return next(iter(groups.values()))


def audits():
    found, members = figures("audits"), {}
    for row in found["rows"]:
        members.setdefault(row["members"], {})[row["batches"]] = row["seconds"]
    counts = sorted(first_of(members), reverse=True)
    rows = [[name, *(f"{its[count]:.2f}" for count in counts)] for name, its in members.items()]
    heads = ["members", *(f"{count} batch{'es' if count > 1 else ''}, s" for count in counts)]
    large = [[name, found[key]["seconds"], found[key]["peak"]] for key, name in
             (("plain", "nothing is found"), ("guarded", "a guarding fence in each batch"))]
    return source(found) + table(heads, rows) + "\n" + table(["1 GiB", "processor s", "MB"], large)


def in_flight():
    found, kinds = figures("in_flight"), {}
    for row in found["rows"]:
        kinds.setdefault(row["kind"], []).append(row)
    first = first_of(kinds)
    heads = ["moves a list, lists", *(f"{row['moves']}, {row['flight']}" for row in first)]
    rows = [[kind, *(f"{row['ns']:.0f}" for row in its)] for kind, its in kinds.items()]
    rows.append(["planning, apart", *(f"{row['plan']:.0f}" for row in first)])
    rows.append(["comparing all, apart", *(f"{row['compare']:.0f}" for row in first)])
    return source(found) + table(heads, rows)


def work_queue():
    found = figures("work_queue")
    heads = ["moves", "planned by hand", "by the layer", "in flight", "again, by hand", "by the layer",
             "other buffers, by hand", "by the layer"]
    rows = [[row[name] for name in ("moves", "plan", "planned", "in_flight", "hand_again", "again", "fill", "placed")]
            for row in found["rows"]]
    return source(found) + table(heads, rows)


def traces():
    found = figures("traces")
    rows = [[row["options"], row["stubs"], row["signals"]] for row in found["rows"]]
    rows.append(["a start", f"{found['start']} ms", ""])
    return source(found) + table(["options", "by code, us", "by a signal, us"], rows)


def stacks():
    found = figures("stacks")
    rows = [[row["options"], row["frames"], f"{row['one']:.2f}", f"{row['many']:.2f}"] for row in found["rows"]]
    return source(found) + table(["options", "--stacks", "one stack, us", "many stacks, us"], rows)


def summary():
    """What README says of all these."""
    short, jobs_of, fills = figures("short_lists")["rows"], figures("jobs")["rows"], figures("filling")["rows"]
    plans = [row for row in jobs_of if row["job"].startswith("plan-")]
    ratios = [row["own"]["wall"] / row["other"]["wall"] for row in plans]
    took = [row["seconds"] for row in figures("audits")["rows"] if row["batches"] > 1]
    return table(["What", "Time"], [
        ["planning moves from C", f"{span([row['ns'] for row in short])} ns each, in lists of 8 to 64"],
        ["filling a prepared list of 3 to 65 regions", f"{span([row['ns'] for row in fills])} ns an operation"],
        ["planning 65,536 pieces as a JSON job", f"{span([row['own']['wall'] for row in plans])} ms, "
         f"{span(ratios, '{:.1f}')} times the time of an ordinary Rust program"],
        ["an audit of 65,472 members in batches of 1,023, as JSON", f"{span(took, '{:.2f}')} s"],
    ])


MADE = (machine, short_lists, filling, small_jobs, jobs, longest, audits, in_flight)
MADE += (work_queue, traces, stacks, summary)
TABLES = {it.__name__: it for it in MADE}


def rewritten(text):
    """A page with the tables of the files."""
    return BLOCK.sub(lambda block: block[1] + TABLES[block[2]]() + block[4], text)


def main(words):
    used = []
    for page in map(Path, PAGES):
        if words == ["--write"]:
            page.write_text(rewritten(page.read_text()))
        text = page.read_text()
        used += [block[2] for block in BLOCK.finditer(text)]
        for block in BLOCK.finditer(text):
            expect(block[3] == TABLES[block[2]](), f"{page}: the table {block[2]} is not that of docs/figures")
    for path in sorted(FOLDER.glob("*.json")):
        expect(path.stem in used, f"{path} has figures that no page shows")
        differ = [row["job"] for row in json.loads(path.read_text()).get("rows", []) if not row.get("equal", True)]
        expect(not differ, f"{path}: the programs answer {differ} differently, and the page says that they don't")
    for name in TABLES:
        expect(used.count(name) == 1, f"{name} is a table in {used.count(name)} places")
    prose = BLOCK.sub("", Path("docs/SPEED.md").read_text())
    for said in FIGURE.findall(prose) or [None]:
        expect(said is None, f"docs/SPEED.md says {said} in prose alone")


if __name__ == "__main__":
    run_test(main)
