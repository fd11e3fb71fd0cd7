"""Does the rows of a file by the Python module of the installed package: rows.py FILE. It prints as rows.c does, and with a
second word each refusal's sentence."""

import sys

import dsa_planner
from dsa_planner import Certificate, Refusal, Settings

NONE = 2**32 - 1


def pairs_of(numbers):
    couples = list(zip(numbers[::2], numbers[1::2]))
    return [None if couple == (NONE, NONE) else couple for couple in couples]


def answer(row):
    """The answer to a row, as the file writes it."""
    version, batch_size, transfer, lone, batch, fence, staging_at = map(int, row["settings"].split())
    table = list(map(int, row["table"].split()))
    settings = Settings(batch_size, transfer, lone, table if version == 2 else batch, fence, staging_at)
    given = {name: bytes.fromhex(row.get(name, "")) for name in ("list", "portal", "staging", "marks")}
    if row["do"] == "judge":
        return f"cost {dsa_planner.judge(settings, given['list'], given['marks'])}"
    if row["do"] == "check":
        prices, pairs = ([int(it) for it in row[name].split()] for name in ("prices", "pairs"))
        certificate = Certificate(int(row["version"]), prices, pairs_of(pairs))
        return f"cost {dsa_planner.check(settings, given['portal'], given['staging'], certificate)}"
    planned = dsa_planner.plan_list_certified(settings, given["list"])
    again = dsa_planner.plan_list(settings, given["list"])
    assert again == (planned.cost, len(planned.marks), planned.portal, planned.staging)
    assert again.pieces == dsa_planner.count_pieces(settings, given["list"])
    prices = "".join(f" {price}" for price in planned.certificate.prices)
    pairs = "".join(" %d %d" % (pair or (NONE, NONE)) for pair in planned.certificate.pairs)
    texts = planned.portal.hex(), planned.staging.hex(), planned.marks.hex()
    return "cost {} portal {} staging {} marks {} prices{} pairs{}".format(planned.cost, *texts, prices, pairs)


def main(path, sentences=False):
    rows = wrong = 0
    row = {}
    for line in open(path):
        key, _, rest = line.rstrip("\n").partition(" ")
        if not key or key.startswith("#"):
            continue
        row[key] = rest
        if key != "answer":
            continue
        try:
            got = answer(row)
        except Refusal as it:
            got = f"refused {it.number} {it.inner} {it.first} {it.second}"
            if sentences:
                print(f"{row['row']}: {it}")
        rows += 1
        if got != rest:
            wrong += 1
            print(f"{row['row']}: {got}, and not {rest}")
        row = {}
    print(f"{rows} rows, {wrong} wrong")
    return int(wrong != 0 or rows == 0)


sys.exit(main(*sys.argv[1:]))
