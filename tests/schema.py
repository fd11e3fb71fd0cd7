"""Looks at docs/jobs.schema.json by a validator of the keywords that it uses: it accepts the jobs that the program
reads and their answers, and rejects the others; and at the schemas of reports beside it. What is right is taken
from docs/FORMATS.md, typed by hand, from the lines beside the jobs, and from the golden files. It needs no program. The
words are names of parts."""

import copy
import json
import re
from pathlib import Path

import common
import golden
from common import expect, named, run_test

SCHEMA = json.loads((common.ROOT / "docs/jobs.schema.json").read_text())
COST, PLAN, RUN = "cost_answer", "plan_answer", "run_answer"
ANSWERS = {"judge": COST, "plan": PLAN, "check": COST, "replay": RUN, "run": RUN}

# Refusals of what a schema describes; 80 is of texts that are no JSON, and all others are of lists, plans and bytes.
DESCRIBED = {"50", "81", "82", "83", "84", "85"}
# Jobs with such a refusal that the schema accepts, and why.
EXCEPTIONS = {"plan-table-too-short": "a schema can't compare a table's length with greatest_batch"}

# ---- the validator

NOTES = {"$schema", "$defs", "$comment", "title", "description"}
KINDS = {"object": dict, "array": list, "string": str, "boolean": bool, "null": type(None)}


def is_number(value):
    return isinstance(value, (int, float)) and not isinstance(value, bool)


def has_type(value, name):
    if name == "integer":
        return is_number(value) and value == value // 1
    return isinstance(value, KINDS[name])


def is_same(one, other):
    """Equality of scalars, where 1 and true differ."""
    return one == other and isinstance(one, bool) == isinstance(other, bool)


def definition(reference):
    name = reference.removeprefix("#/$defs/")
    return SCHEMA["$defs"][name]


def matches(pattern, text):
    """In a schema `$` is the end of the text alone."""
    return re.search(re.sub(r"\$$", r"\\Z", pattern), text) is not None


# For each keyword: of its argument, the value and the schema around it, whether the value keeps it.
RULES = {
    "$ref": lambda name, value, _: holds(definition(name), value),
    "oneOf": lambda schemas, value, _: sum(holds(schema, value) for schema in schemas) == 1,
    "type": lambda names, value, _: any(has_type(value, name) for name in ([names] if isinstance(names, str) else names)),
    "const": lambda constant, value, _: is_same(constant, value),
    "enum": lambda constants, value, _: any(is_same(constant, value) for constant in constants),
    "minimum": lambda least, value, _: not is_number(value) or value >= least,
    "maximum": lambda most, value, _: not is_number(value) or value <= most,
    "multipleOf": lambda unit, value, _: not is_number(value) or value % unit == 0,
    "pattern": lambda pattern, value, _: not isinstance(value, str) or matches(pattern, value),
    "maxLength": lambda most, value, _: not isinstance(value, str) or len(value) <= most,
    "minItems": lambda least, value, _: not isinstance(value, list) or len(value) >= least,
    "maxItems": lambda most, value, _: not isinstance(value, list) or len(value) <= most,
    "prefixItems": lambda schemas, value, _: not isinstance(value, list) or all(map(holds, schemas, value)),
    "items": lambda schema, value, around: not isinstance(value, list)
    or all(holds(schema, item) for item in value[len(around.get("prefixItems", [])) :]),
    "required": lambda names, value, _: not isinstance(value, dict) or all(name in value for name in names),
    "properties": lambda schemas, value, _: not isinstance(value, dict)
    or all(holds(schemas[name], value[name]) for name in schemas if name in value),
    "additionalProperties": lambda allowed, value, around: not isinstance(value, dict)
    or allowed
    or all(name in around["properties"] for name in value),
}


def holds(schema, value):
    """Whether the value keeps every keyword; another keyword than those above is an error of the schema."""
    return all(RULES[word](argument, value, schema) for word, argument in schema.items() if word not in NOTES)


# ---- the tests

def accepts(value, name):
    expect(holds(SCHEMA, value), f"{name} is rejected")


def rejects(value, name):
    expect(not holds(SCHEMA, value), f"{name} is accepted")


def subschemas(schema):
    """The schema and all schemas in it."""
    yield schema
    for word in ("items",):
        if word in schema:
            yield from subschemas(schema[word])
    for word in ("oneOf", "prefixItems"):
        for inner in schema.get(word, []):
            yield from subschemas(inner)
    for word in ("$defs", "properties"):
        for inner in schema.get(word, {}).values():
            yield from subschemas(inner)


def keywords():
    for schema in subschemas(SCHEMA):
        unknown = set(schema) - set(RULES) - NOTES
        expect(not unknown, f"unknown keywords {unknown}")
        if "$ref" in schema:
            name = schema["$ref"].removeprefix("#/$defs/")
            expect(name in SCHEMA["$defs"], f"the reference {name} leads nowhere")
        if "required" in schema:
            closed = schema.get("additionalProperties") is False and schema["type"] == "object"
            expect(closed and set(schema["required"]) == set(schema["properties"]), f"{schema['required']} are not exact")


def formats():
    """The members that the table of jobs in docs/FORMATS.md names are those of the schema."""
    page = Path("docs/FORMATS.md").read_text()
    text = page[page.index("\n## Jobs\n") : page.index("\n## ", page.index("\n## Jobs\n") + 1)]
    rows = re.findall(r"^\| `([a-z]+)` \| (`.*?) \| (.*?) \|$", text, re.M)
    expect([name for name, _, _ in rows] == list(ANSWERS), "the table of jobs in docs/FORMATS.md has other rows")
    for name, members, answer in rows:
        wanted = {"do", *re.findall(r"`(\w+)`", members)}
        expect(set(SCHEMA["$defs"][name]["properties"]) == wanted, f"{name} has other members than docs/FORMATS.md")
        wanted = set(re.findall(r"`(\w+)`", answer))
        expect(set(SCHEMA["$defs"][ANSWERS[name]]["properties"]) == wanted, f"the answer of {name} has other members")
    settings = re.search(r"^- `settings`: exactly (.*?)\. ", text, re.M).group(1)
    wanted = set(re.findall(r"`([a-z_]+)`", settings))
    expect(set(SCHEMA["$defs"]["settings"]["properties"]) == wanted, "the settings have other members than docs/FORMATS.md")


def examples():
    seen = set()
    for path in sorted([*Path("examples").glob("*.job"), *Path("tests/jobs").glob("*.job")]):
        line = path.with_suffix(".line").read_text()
        words = line.split()
        if words[:2] == ["refused", "80"]:
            continue
        job = json.loads(path.read_text())
        if words[0] == "refused" and words[1] in DESCRIBED and path.stem not in EXCEPTIONS:
            rejects(job, str(path))
        else:
            accepts(job, str(path))
        if words[0] != "refused":
            expect(holds(definition(ANSWERS[job["do"]]), json.loads(line)), f"the answer to {path} is rejected")
        seen.add(path.stem)
    expect(set(EXCEPTIONS) <= seen, "an exception names no job")


def changed(job, member, value):
    """A copy of the job with this value at a member, whose names dots separate."""
    job = copy.deepcopy(job)
    *outer, last = member.split(".")
    place = job
    for name in outer:
        place = place[name]
    place[last] = value
    return job


PRICES = ([0, 1000000000], [-1, 1000000001, 0.5, "1", True, None])
ENGINES = ([1, 64], [0, 65, -1, "2", None])
BYTES = (["", "aB", "00" * 65], ["a", "0g", "0x00", " 00", "00\n", 0, None, []])
BY_SIZE = "tests/jobs/plan-by-size.job"

# A job, one of its members, values that docs/FORMATS.md lets it have, and values that it doesn't.
VALUES = [
    *[(f"examples/{name}.job", "do", [name], ["other", name.upper(), "", None, 1]) for name in ANSWERS],
    ("examples/plan.job", "settings.version", [1], [0, 2, 3, "1", True, None]),
    (BY_SIZE, "settings.version", [2], [0, 1, 3, "2"]),
    ("examples/plan.job", "settings.greatest_batch", [2, 1024], [1, 1025, 2.5, "4", None]),
    ("examples/plan.job", "settings.greatest_transfer", [8, 2147483648], [0, 12, 2147483656, -8, "8"]),
    ("examples/plan.job", "settings.staging", [0, 64, 9223372036854775808], [32, 9223372036854775872, -64, "0"]),
    ("examples/plan.job", "settings.lone", *PRICES),
    ("examples/plan.job", "settings.fence", *PRICES),
    ("examples/plan.job", "settings.batch", PRICES[0], [*PRICES[1], [14, 14, 14]]),
    (BY_SIZE, "settings.batch", [[0], [1000000000] * 1023], [14, None, [], [0] * 1024, [-1], [1000000001], ["1"], [[1]]]),
    *[(f"examples/{name}.job", "list", *BYTES) for name in ANSWERS if name != "check"],
    ("examples/check.job", "portal", *BYTES),
    ("examples/check.job", "staging", *BYTES),
    ("examples/run.job", "image.bytes", [*BYTES[0], "00" * 16777216], [*BYTES[1], "00" * 16777217]),
    ("examples/run.job", "image.base", [0, 18446744073709551615], [-1, 18446744073709551616, "0", 0.5]),
    ("examples/run.job", "image", [], [None, "00", [0, "00"]]),
    ("examples/run.job", "engines", *ENGINES),
    ("examples/replay.job", "engines", *ENGINES),
    ("examples/replay.job", "trace", [[], [[255, "line", 4294967295]], [[0, "take", 0], [0, "finish", 0]]],
     [None, {}, [0], [[256, "line", 0]], [[-1, "line", 0]], [["0", "line", 0]], [[0, "line", 4294967296]], [[0, "line", -1]],
      [[0, "line", "0"]], [[0, "step", 0]], [[0, "line"]], [[0, "line", 0, 0]], [["line", 0, 0]]]),
    ("examples/judge.job", "plan", [[], [[]], [[True], [False, True]]], [None, [True], [[0]], [["true"]], [[None]], {}]),
    ("examples/check.job", "certificate", [], [None, [], {}, "", 1]),
    ("examples/check.job", "certificate.version", [0, 3, 18446744073709551615], [-1, 18446744073709551616, "1", None]),
    ("examples/check.job", "certificate.prices", [[], [0, 18446744073709551615]],
     [[-1], [18446744073709551616], ["0"], [None], 0, None]),
    ("examples/check.job", "certificate.pairs", [[], [None], [[0, 4294967295]], [[4294967295, 0]]],
     [[[0]], [[0, 1, 2]], [[0, 4294967296]], [[4294967296, 0]], [[-1, 0]], [["0", 1]], [0], [{}], None]),
]

DIGITS = "0123456789abcdef"
# The same of the answers beside the jobs.
ANSWER_VALUES = [
    ("judge", "cost", [0, 65536000000000], [-1, 65536000000001, "17", None]),
    ("plan", "cost", [0, 65536000000000], [-1, 65536000000001, 0.5]),
    ("plan", "portal", ["", DIGITS * 8, DIGITS * 16], ["0" * 126, "A" * 128, "g" * 128, None]),
    ("plan", "staging", ["", DIGITS * 4, DIGITS * 20], ["0" * 62, "A" * 64, "g" * 64, None]),
    ("plan", "plan", [[], [[False] * 1024]], [[[]], [[False] * 1025], [[0]], [True], None]),
    ("plan", "certificate.version", [1, 2], [0, 3, "1"]),
    ("plan", "certificate.prices", [[0], [65536000000000], [0] * 65537], [[], [-1], [65536000000001], [0] * 65538]),
    ("plan", "certificate.pairs", [[], [None] * 65536, [[0, 1]]], [[None] * 65537, [[0]], [0]]),
    ("run", "batch_records", [[], [DIGITS * 4]], [["0" * 62], ["0" * 66], ["A" * 64], [0], None]),
    ("run", "finished", [0, 65536], [-1, 65537, "2"]),
    ("run", "image", ["", DIGITS], ["0", "AA", "00" * 16777217, None]),
]


def values():
    for path, member, within, outside in VALUES:
        job = json.loads(Path(path).read_text())
        for value in within:
            accepts(changed(job, member, value), f"{path}: {member} {str(value)[:40]}")
        for value in outside:
            rejects(changed(job, member, value), f"{path}: {member} {str(value)[:40]}")
    for name, member, within, outside in ANSWER_VALUES:
        answer = json.loads(Path(f"examples/{name}.line").read_text())
        schema = definition(ANSWERS[name])
        for value in within:
            what = f"the answer of {name}: {member} {str(value)[:40]}"
            expect(holds(schema, changed(answer, member, value)), f"{what} is rejected")
        for value in outside:
            what = f"the answer of {name}: {member} {str(value)[:40]}"
            expect(not holds(schema, changed(answer, member, value)), f"{what} is accepted")


def objects(value, place=""):
    """The dotted names of the objects in an object, with itself as the empty name."""
    yield place
    for name, inner in value.items():
        if isinstance(inner, dict):
            yield from objects(inner, f"{place}{name}.")


def inexact(value):
    """The object with one member more, or with one less, at every place."""
    for place in objects(value):
        yield f"{place}more", changed(value, f"{place}more", 0)
        inner = value
        for name in place.split(".")[:-1]:
            inner = inner[name]
        for name in inner:
            less = {other: inner[other] for other in inner if other != name}
            yield f"no {place}{name}", changed(value, place[:-1], less) if place else less


def members():
    for name in ANSWERS:
        for what, job in inexact(json.loads(Path(f"examples/{name}.job").read_text())):
            rejects(job, f"examples/{name}.job with {what}")
        for what, answer in inexact(json.loads(Path(f"examples/{name}.line").read_text())):
            expect(not holds(definition(ANSWERS[name]), answer), f"examples/{name}.line with {what} is accepted")
    for value in (None, [], 0, "", {}):
        rejects(value, f"the job {value}")


def resolved(schema, definitions):
    """The schema with its definitions in place of the references to them."""
    if isinstance(schema, list):
        return [resolved(inner, definitions) for inner in schema]
    if not isinstance(schema, dict):
        return schema
    own = {word: resolved(inner, definitions) for word, inner in schema.items() if word not in ("$ref", "$defs")}
    if "$ref" in schema:
        own |= resolved(definitions[schema["$ref"].removeprefix("#/$defs/")], definitions)
    return own


def report_schema(name):
    """The schema of the reports of a command, without references."""
    schema = json.loads(Path(f"docs/{name}.schema.json").read_text())
    return resolved(schema, schema["$defs"])


def reports():
    """The schemas of reports accept what the golden files of `--json` have, and nothing with a member more or less."""
    schemas = {name: report_schema(name) for name in ("explain", "audit")}
    seen = dict.fromkeys(schemas, 0)
    for path in sorted(Path("tests/text").glob("*.golden")):
        for case in golden.cases(path):
            if "--json" not in case.words or not case.output:
                continue
            command = case.words.split()[0]
            seen[command] += 1
            report = json.loads(case.output)
            expect(holds(schemas[command], report), f"{case.place}: the schema of {command} rejects what is written")
            for what, other in inexact(report):
                expect(not holds(schemas[command], other), f"{case.place}: the schema of {command} accepts it with {what}")
    expect(min(seen.values()) > 2, f"few reports are compared: {seen}")


def main(words):
    keywords()
    # the others need a validator that knows every keyword
    if not common.failed:
        for part in named([formats, examples, values, members, reports], words):
            part()


if __name__ == "__main__":
    run_test(main)
