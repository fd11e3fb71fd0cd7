"""Writes the manual pages from docs/FORMATS.md, the programs' `--help`, and the header."""

import re
from pathlib import Path

from completion import commands_of, help_of

ROOT = Path(__file__).resolve().parent.parent.parent
PAGE = '.TH {title} {section} "{date}" "dsa-planner {version}" "dsa-planner"\n'


def plain(text):
    """Text as roff takes it: no letter of it is a command."""
    text = text.replace("\\", "\\e").replace("-", "\\-").replace("'", "\\(aq").replace("`", "\\(ga")
    return re.sub(r"^\.", r"\\&.", text, flags=re.M)


def inline(text):
    """A line of Markdown: code and bold are printed bold, a link as its words."""
    text = re.sub(r"\[([^]]*)\]\([^)]*\)", r"\1", text)
    parts = re.split(r"(``[^`]+``|`[^`]+`|\*\*[^*]+\*\*)", text)
    return "".join(f"\\fB{plain(it.strip('`*'))}\\fR" if k % 2 else plain(it) for k, it in enumerate(parts))


def shown(lines):
    """Lines as they are."""
    return [".PP", ".RS 4", ".nf", *map(plain, lines), ".fi", ".RE"]


def table(lines):
    """A table: the first cell of a row is its tag, and the others follow the names of their columns."""
    rows = [[cell.strip() for cell in re.split(r"(?<!\\)\|", line.strip().strip("|"))] for line in lines]
    names, out = rows[0], []
    for row in rows[2:]:
        rest = [f"{name}: {cell}" if name and len(row) > 2 else cell for name, cell in zip(names[1:], row[1:]) if cell]
        out += [".TP", inline(row[0]), inline(". ".join(rest)) or "\\&"]
    return out


def roff(markdown):
    """A piece of Markdown as roff: headings, paragraphs, lists, tables, and blocks of code."""
    out, lines, at = [], markdown.strip("\n").split("\n"), 0

    def run(begins):
        nonlocal at
        start = at
        while at < len(lines) and lines[at] and re.match(begins, lines[at]):
            at += 1
        return lines[start:at]

    while at < len(lines):
        line = lines[at]
        if not line:
            at += 1
        elif line.startswith("#"):
            out.append(f".SS {inline(line.lstrip('# '))}")
            at += 1
        elif line.startswith("    "):
            out += shown([it[4:] for it in run("    ")])
        elif line.startswith("```"):
            end = lines.index("```", at + 1)
            out += shown(lines[at + 1 : end])
            at = end + 1
        elif line.startswith("|"):
            out += table(run(r"\|"))
        elif mark := re.match(r"(- |\d+\. )", line):
            bullet = "\\(bu" if mark[1] == "- " else mark[1].strip()
            out += [f".IP {bullet} 4", inline(line[mark.end() :])]
            at += 1
        else:
            out += [".PP", inline(" ".join(run(r"(?!- |\d+\. |\||#|    )")))]
    return "\n".join(out) + "\n"


def section(page, heading):
    """What a page of the docs has under a heading."""
    text = (ROOT / page).read_text()
    found = re.search(rf"^## {re.escape(heading)}\n(.*?)(?=^## |\Z)", text, re.M | re.S)
    return found[1]


def sections(**parts):
    """Sections of a manual page from their roff; `_` in a name stands for a blank."""
    return "".join(f'.SH "{name.replace("_", " ")}"\n{text}' for name, text in parts.items())


STATUS = roff("""
| Status | Meaning |
|---|---|
| 0 | the line is the answer |
| 1 | the line is a refusal |
| 2 | reading failed, or 1,048,576 turns of reading did not reach the end: there is no line. Or writing failed: part of the line may be written |
""")


JOBS_STATUS = roff("""
| Status | Meaning |
|---|---|
| 0 | all was read, and each job has its line, of an answer or of a refusal |
| 2 | reading failed, and the jobs before have their lines; or writing failed: part of the lines may be written |
""")


TEXT_STATUS = roff("""
| Status | Meaning |
|---|---|
| 0 | an answer is on standard output |
| 1 | there is none, and standard error says why; of `audit`, a fence is missing |
| 2 | reading or writing failed, or the arguments are wrong; of `audit`, there is no recording |
""")


def dsa(head):
    """dsa(1)."""
    about = """
`dsa` reads one job, a JSON object, on standard input to its end, and writes one line on standard output: the answer, or a
refusal with the number and the name of its first cause. It looks at no arguments and writes nothing to standard error, so
the line and the status are all that it says. `dsa_text explain` of a job to plan, judge or check says in a sentence what is
refused and why. All addresses are the device's; nothing here touches a device.

`share/doc/dsa-planner/examples` has a job of each kind:

    dsa < /usr/share/doc/dsa-planner/examples/plan.job
"""
    return PAGE.format(title="DSA", section=1, **head) + sections(
        NAME=plain("dsa - plan, check, judge, replay and run lists of DSA descriptors") + "\n",
        SYNOPSIS=".B dsa\n< JOB\n",
        DESCRIPTION=roff(about),
        JOBS=roff(section("docs/FORMATS.md", "Jobs")),
        LISTS=roff(section("docs/FORMATS.md", "What a list may hold (profile)")),
        REFUSALS=roff(section("docs/FORMATS.md", "Refusals")),
        EXIT_STATUS=STATUS,
        SEE_ALSO=".BR dsa_jobs (1),\n.BR dsa_text (1),\n.BR dsa_planner (3)\n",
    )


def dsa_jobs(head):
    """dsa_jobs(1)."""
    about = """
`dsa_jobs` reads a job on each line of standard input, and writes for each the line that `dsa` writes for that job, in
order, before it reads on. An empty line is a job too, and is refused; what follows the last newline is one unless it is
empty. A line longer than 67,108,864 bytes is refused, and the next one is read. It looks at no arguments and writes
nothing to standard error.

    dsa_jobs < JOBS
"""
    return PAGE.format(title="DSA_JOBS", section=1, **head) + sections(
        NAME=plain("dsa_jobs - a job of dsa on each line") + "\n",
        SYNOPSIS=".B dsa_jobs\n< JOBS\n",
        DESCRIPTION=roff(about),
        EXIT_STATUS=JOBS_STATUS,
        SEE_ALSO=".BR dsa (1)\n",
    )


def dsa_text(head, program):
    """dsa_text(1)."""
    texts = [(name, help_of(program, name)) for name in commands_of(help_of(program))]
    usages = [(name, re.search(rf"^Usage: dsa_text {name} (.*)", text, re.M)[1]) for name, text in texts]
    synopsis = "".join(f".B dsa_text {name}\n{plain(usage)}\n.br\n" for name, usage in usages)
    described = "".join(roff(f"## {name}") + roff(text.split("\n")[0] + ".") + options(text) for name, text in texts)
    return PAGE.format(title="DSA_TEXT", section=1, **head) + sections(
        NAME=plain("dsa_text - descriptors of the data streaming accelerator as text, and explanations of plans") + "\n",
        SYNOPSIS=synopsis,
        DESCRIPTION=roff("Each command reads a file, or standard input, and writes to standard output.") + described,
        TEXT=roff(section("docs/FORMATS.md", "Operations as text")),
        EXIT_STATUS=TEXT_STATUS,
        SEE_ALSO=".BR dsa (1),\n.BR dsa_planner (3)\n",
    )


def options(text):
    """The options of a help text."""
    out = []
    for spelling, meaning in re.findall(r"^ +(-.*?)  +(\S.*)$", text, re.M):
        out += [".TP", f"\\fB{plain(spelling)}\\fR", plain(meaning)]
    return "\n".join(out) + "\n"


def declared(code, comment):
    """Declarations, and below the first, up to an empty line, its comment; a comment of none is an introduction."""
    shown_of = lambda part: "\n".join([".PP", ".nf", *map(plain, part.split("\n")), ".fi"]) + "\n"
    parts = [shown_of(part) for part in code.split("\n\n") if part]
    about = paragraphs(comment)
    if not parts or not comment:
        return about + "".join(parts)
    return f"{parts[0]}.RS 4\n{about}.RE\n" + "".join(parts[1:])


def of_header(head, path, *see):
    """A page of section 3, from the comments of a header and what follows each."""
    header, title = (ROOT / path).read_text(), Path(path).stem
    blocks = re.findall(r"^/\*(.*?)\*/\n(.*?)(?=^/\*|\Z)", header, re.M | re.S)
    about, blocks[0] = blocks[0][0], ("", blocks[0][1])
    name, about = re.match(rf"\s*\* {title}\.h: (.*?)\n \*\n(.*)", about, re.S).groups()
    calls = []
    for comment, code in blocks:
        code = re.sub(rf"^#(ifndef|define) {title.upper()}_H\n|^#include.*\n", "", code, flags=re.M)
        code = re.sub(r"^#ifdef __cplusplus\n#define.*?^#else\n", "", code, flags=re.M | re.S)
        code = re.sub(r"^static inline (.*?)\n\{.*?^\}\n", r"\1;\n", code, flags=re.M | re.S)
        code = re.sub(r"^#(ifdef|else|endif|if).*\n|^extern \"C\" \{\n|^}\n", "", code, flags=re.M).strip("\n")
        calls.append(declared(code, comment))
    sections_of = {"dsa_planner": 3}
    return PAGE.format(title=title.upper(), section=3, **head) + sections(
        NAME=plain(f"{title} - {name.split(',')[0].rstrip('.')}") + "\n",
        SYNOPSIS=f".B #include <{title}.h>\n",
        DESCRIPTION=paragraphs(about),
        CALLS="".join(calls),
        SEE_ALSO=",\n".join(f".BR {other} ({sections_of.get(other, 1)})" for other in see) + "\n",
    )


def paragraphs(comment):
    """A comment of C: its paragraphs, its lists, code that is indented after an empty line, and the lines that begin with
    a word and a colon as tags."""
    out, is_open, in_tag = [], False, False
    lines = [re.sub(r"^ ?\* ?", "", line).rstrip() for line in comment.strip().split("\n")]
    while lines:
        if not is_open and lines[0].startswith("  ") and not lines[0].startswith("  - "):
            end = lines.index("") if "" in lines else len(lines)
            out += shown(line[2:] for line in lines[:end])
            lines = lines[end:]
            continue
        line = lines.pop(0)
        tag = re.match(r"([A-Z]\w+): +(.*)", line)
        words = line.strip()
        if not words:
            is_open = in_tag = False
        elif tag:
            out += [".TP 11", f"\\fB{tag[1]}\\fR", plain(tag[2])]
            is_open = in_tag = True
        elif words.startswith("- "):
            out += [*([".br"] if in_tag else [".IP \\(bu 4"]), ("\\(bu " if in_tag else "") + plain(words[2:])]
            is_open = True
        elif words.startswith("cc "):
            out += [".br", plain(words)]
        else:
            out += [plain(words)] if is_open else [".PP", plain(words)]
            is_open = True
    return "\n".join(out) + "\n"
