"""Writes the pages of the package: those of the repository, with the names that files have in the package.

What is between `<!-- in the repository -->` and `<!-- end -->` is for the repository alone, and left out."""

import re
from pathlib import Path

ROOT = Path(__file__).resolve().parent.parent.parent
# Each page by its name in the package.
PAGES = {f"{name}.md": f"docs/{name}.md" for name in ("START", "USING", "FORMATS", "PRICES", "SPEED", "PROOF")}
PAGES |= {"TRACE.md": "trace/README.md"} | {name: name for name in ("README.md", "CHANGELOG.md", "SECURITY.md")}
SCHEMAS = [f"{name}.schema.json" for name in ("jobs", "explain", "audit", "runs")]
ALONE = re.compile(r"<!-- in the repository -->\n.*?<!-- end -->\n+", re.S)
# What a page calls a file, and its name in the package.
PLACES = {rf"\b{re.escape(place)}": name for name, place in PAGES.items()}
PLACES |= {rf"\bdocs/{re.escape(name)}": name for name in SCHEMAS}
PLACES |= {r"\bbindings/(?:c|queue)/(dsa_\w+\.h)": r"\1", r"\bbindings/c/(\w+\.c)\b": r"examples/\1"}
ELSEWHERE = re.compile(r"(?<![\w/])(?:bindings|coq|crates|docs|tests|trace)/[\w*]")
NOTE = "What this page names in `bindings`, `coq`, `crates`, `docs`, `tests` and `trace` is in the repository.\n"


def text_of(name):
    """The text of a page of the package."""
    text = ALONE.sub("", (ROOT / PAGES[name]).read_text())
    for place, in_package in PLACES.items():
        text = re.sub(place, in_package, text)
    title, rest = text.split("\n", 1)
    return f"{title}\n\n{NOTE}{rest}" if ELSEWHERE.search(rest) else text


def placed(text):
    """A manual page, which is read anywhere, with the places of the pages and schemas that it names."""
    names = "|".join(re.escape(name) for name in (*PAGES, *SCHEMAS))
    return re.sub(rf"(?<!/)docs/({names})", r"share/doc/dsa\-planner/\1", text)


def write(to):
    """Writes all pages and schemas to a folder."""
    for name in PAGES:
        (to / name).write_text(text_of(name))
    for name in SCHEMAS:
        (to / name).write_text((ROOT / "docs" / name).read_text())
