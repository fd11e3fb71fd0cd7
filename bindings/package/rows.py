"""Writes jobs and their lines as rows for callers of the library: what goes in, and what the call answers."""

import json
import re

NONE = 2**32 - 1
MEMBERS = ("version", "greatest_batch", "greatest_transfer", "lone", "batch", "fence", "staging")
HEAD = """# Rows for tests of a caller: lines of a key and what belongs to it; the line `answer` ends a row. `settings` are the
# seven numbers of struct dsa_settings in their order, `table` the prices by size, bytes are hexadecimal, a pair is two
# numbers, and of no pair both are 4294967295. An answer of a refusal has its four numbers.
"""


def outside(settings):
    """The number of the setting that is outside its limits, of several the first, but the prices of batches last."""
    version, batch, transfer, lone, price, fence, staging = (settings[key] for key in MEMBERS)
    wrong = {
        1: version not in (1, 2),
        2: not 2 <= batch <= 1024,
        3: not 8 <= transfer <= 1 << 31 or transfer % 8 != 0,
        4: lone > 10**9,
        6: fence > 10**9,
        7: staging > 1 << 63 or staging % 64 != 0,
        5: not isinstance(price, list),
        8: True,
    }
    return next(number for number, is_wrong in wrong.items() if is_wrong)


def refusal(line, settings):
    """The four numbers of a refusal, or none if no call of the library has it."""
    words = line.split()[1:]
    number = int(words[0])
    if number in (20, 21, 50) or 70 <= number <= 86 and number != 83:
        return None
    found = [int(word) for word in words[1:] if word.isdigit()]
    if number == 60:
        inner, *places = found
    elif number == 47:
        places, inner = found[:1], found[1]
    else:
        inner, places = 0, [outside(settings)] if number == 83 else found
    first, second = (*places, 0, 0)[:2]
    return f"refused {number} {inner} {first} {second}"


def cost_line(job, answer):
    if job["do"] != "plan":
        return f"cost {answer['cost']}"
    marks = marks_of(answer["plan"])
    prices = "".join(f" {price}" for price in answer["certificate"]["prices"])
    pairs = "".join(f" {first} {second}" for first, second in pairs_of(answer["certificate"]))
    bytes_of = f"portal {answer['portal']} staging {answer['staging']} marks {marks}"
    return f"cost {answer['cost']} {bytes_of} prices{prices} pairs{pairs}"


def pairs_of(certificate):
    return [pair or (NONE, NONE) for pair in certificate["pairs"]]


def marks_of(plan):
    """The marks of a plan's pieces, in hexadecimal."""
    return "".join(f"{(place == 0) + 2 * fenced:02x}" for group in plan for place, fenced in enumerate(group))


def row(name, job, line):
    """The row of a job, or none where a caller of the library cannot ask for it."""
    settings = job["settings"]
    table = settings["batch"] if isinstance(settings["batch"], list) else []
    numbers = [settings[key] for key in ("version", "greatest_batch", "greatest_transfer", "lone")]
    numbers += [0 if table else settings["batch"], settings["fence"], settings["staging"]]
    answer = refusal(line, settings) if line.startswith("refused") else cost_line(job, json.loads(line))
    lines = [f"row {name}", f"do {job['do']}", "settings " + " ".join(map(str, numbers)), "table " + " ".join(map(str, table))]
    lines += [f"{key} {job[key].lower()}" for key in ("list", "portal", "staging") if key in job]
    if job["do"] == "judge":
        lines.append(f"marks {marks_of(job['plan'])}")
        numbers += [1 << 64] * any(not group for group in job["plan"])
    if job["do"] == "check":
        certificate = job["certificate"]
        flat = [number for pair in pairs_of(certificate) for number in pair]
        lines.append(f"version {certificate['version']}")
        lines.append("prices " + " ".join(map(str, certificate["prices"])))
        lines.append("pairs " + " ".join(map(str, flat)))
        numbers += [*certificate["prices"], certificate["version"], *(number << 32 for number in flat)]
    given = "".join(job.get(key, "") for key in ("list", "portal", "staging"))
    is_asked = answer and re.fullmatch("([0-9a-fA-F]{2})*", given) and settings["version"] == (2 if table else 1)
    if not is_asked or not all(isinstance(it, int) and 0 <= it < 1 << 64 for it in [*numbers, *table]):
        return None
    return "\n".join([*lines, f"answer {answer}"]) + "\n"


def rows(folder):
    """The rows of a folder of jobs."""
    found = []
    for path in sorted(folder.glob("*.job")):
        text, line = path.read_text(), path.with_suffix(".line").read_text().strip()
        is_call = re.search(r'"do" *: *"(plan|check|judge)"', text)
        if is_call and not re.match(r"refused (50|8[0-24-9]) ", line):
            found.append(row(path.stem, json.loads(text), line))
    found = [made for made in found if made]
    return HEAD + "\n" + "\n".join(found)
