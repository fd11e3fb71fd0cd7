"""Runs the program on jobs that are made from parts, and looks at its line and its status in each case: texts that
are no job, members of other kinds, limits, fields of descriptors, the order in which faults are found, and the
longest lists. What is right is taken from docs/FORMATS.md, typed by hand. The words are names of parts."""

import common
import model
from common import NUMBERS, SETTINGS, digits, job, judge, move, named, object_of, plan, program, raw, run_test, settings
from model import COMPARE, DELTA, DUALCAST, FILL, MOVE, PATTERN, Op

CERTIFICATE = {"pairs": [[0, 1], None], "prices": [0, 10, 17], "version": 1}
LAST = 2**64 - 1
ALONE, FENCED = [[False]], [[False, True]]
NO_BATCH, BATCH_OF_ONE = settings(greatest_batch=None), settings(greatest_batch=1)


def expect(text, line):
    """The program answers the text with the line, and ends with the status of such a line."""
    common.expect_line([DSA], text, line)


def check(portal, staging, certificate=CERTIFICATE, rules=SETTINGS):
    return job("check", rules, portal=f'"{portal}"', staging=f'"{staging}"', certificate=certificate)


def image(text, base=0):
    return object_of({"base": base, "bytes": f'"{text}"'})


def replay(pieces, memory, engines, trace, rules=SETTINGS):
    return job("replay", rules, list=f'"{digits(pieces)}"', image=memory, engines=engines, trace=trace)


def run(pieces, memory, engines, rules=SETTINGS, **more):
    return job("run", rules, list=f'"{digits(pieces)}"', image=memory, engines=engines, **more)


def changed(text, *changes):
    """The digits with bytes changed: the place and the new byte of each."""
    found = bytearray.fromhex(text)
    for place, byte in changes:
        found[place] = byte
    return found.hex()


# The second move reads what the first writes; the third is apart from both.
FIRST, AFTER = move(0x1000, 0x2000), move(0x2000, 0x4000, record_at=0x8020)
APART = move(0x3000, 0x5000, record_at=0x8020)
PAIR = [FIRST, AFTER]
# What submits the two as one batch: a descriptor of two at 0x10000 with its record after them, and these.
PORTAL = "000000000c0000018000010000000000" + "00000100000000000000000000000000" + "02".ljust(64, "0")
STAGING = FIRST.bytes().hex() + AFTER.bytes(fenced=True).hex() + "00" * 32
# Moves of 8 bytes, apart.
LEFT, RIGHT = move(0x00, 0x20, 8, 0x80), move(0x40, 0x60, 8, 0xA0)
# The settings, with the address of these moves' batches.
AREA = model.Settings(4, 4096, 10, 14, 3, 0x10000)
MEMORY = image("0102030405060708".ljust(128, "0") + "1112131415161718".ljust(256, "0"))


def texts():
    """Texts that are no job, or lack members."""
    expect("{", "refused 80 Json")
    expect(b'"\xff"', "refused 80 Json")
    for text in ("[]", '"judge"', *(f'{{"do":"{name}"}}' for name in ("plan", "judge", "check", "replay", "run"))):
        expect(text, "refused 81 Member")
    for name in ('"plans"', '"runs"', '"Plan"', "1"):
        expect(f'{{"do":{name}}}', "refused 82 Do")


CUT_SHORT = ['"', '"\\', '"\\u12', '"\\ud83d', '"\\ud83d\\u12', "[", "1.", "1e", "-", "tru"]


def ends():
    """What follows a text: blanks, few and many, or another byte before or after them; texts that end too early."""
    text = judge(PAIR, FENCED)
    for count in (1, 4095, 4096, 4097, 8200):
        for blank in " \t\n\r":
            expect(text + blank * count, '{"cost":17}')
            expect("1" + blank * count, "refused 81 Member")
        for wrong in [*CUT_SHORT, text + "\f"]:
            expect(wrong + " " * count, "refused 80 Json")
        expect(text + "\n" * count + "\f", "refused 80 Json")


def members():
    """Members of other kinds, further and missing ones, twice, and in another order."""
    other = [judge(PAIR, FENCED, x=0), judge(PAIR, [[0]]), judge(PAIR, "{}"), judge(PAIR, "0")]
    other += [plan([], plan="[]"), run([], image(""), 1, trace="[]")]
    other += [judge(PAIR, FENCED, settings(**{name: None})) for name in NUMBERS]
    for number in ("4.0", "-1", "18446744073709551616", '"4"', "null"):
        other.append(judge(PAIR, FENCED, settings(greatest_batch=number)))
    other += [judge(PAIR, FENCED, settings(version=2)), judge(PAIR, FENCED, settings(batch="[14,14,14]"))]
    for text in other:
        expect(text, "refused 81 Member")
    expect(judge(PAIR, "[]")[:-1] + ',"list":""}', '{"cost":0}')
    upper = move(0xAB00, 0xCD00).bytes().hex().upper() + APART.bytes().hex()
    expect(f' {{"settings":{SETTINGS},\n"plan":[[false],[false]],"list":"{upper}","do":"judge"}} ', '{"cost":20}')
    for text in ("0g", "00 00", "000"):
        expect(judge(text, FENCED), "refused 84 Hex")
    expect(judge("00", FENCED), "refused 1 Length")
    expect(judge("", "[]"), '{"cost":0}')


def limits_of_settings():
    most = 1_000_000_000
    largest = settings(greatest_batch=1024, greatest_transfer=2**31, lone=most, batch=most, fence=most, staging=2**63)
    least = settings(greatest_batch=2, greatest_transfer=8, lone=0, batch=0, fence=0, staging=0)
    tables = [settings(version=2, batch=[14, 16, most]), settings(version=2, greatest_batch=2, batch=[0])]
    for rules in (largest, least, *tables):
        expect(judge("", "[]", rules), '{"cost":0}')
    outside = [{"version": 0}, {"version": 3}, {"greatest_batch": 1}, {"greatest_batch": 1025}]
    outside += [{"greatest_transfer": size} for size in (0, 4097, 4100, 2**31 + 8)]
    outside += [{name: most + 1} for name in ("lone", "batch", "fence")]
    outside += [{"staging": address} for address in (32, 0x10001, 2**63 + 64)]
    outside += [{"version": 2, "batch": table} for table in ([], [14, 16], [14, 16, 30, 30])]
    outside += [{"version": 2, "batch": table} for table in ([14, 16, most + 1], [most + 1, 16, 30])]
    outside.append({"version": 2, "greatest_batch": 1, "batch": []})
    outside.append({"version": 2, "staging": 0x10001, "batch": [14, 16, 30]})
    for changes in outside:
        expect(judge("", "[]", settings(**changes)), "refused 83 Settings")


def fields():
    """Each rule of a descriptor's fields, and what is carried."""
    one, pattern = FIRST.bytes().hex(), 0x0807060504030201
    bad = [("2 Opcode", changed(one, (7, code))) for code in (0x00, 0x01, 0x02, 0x07, 0x0A)]
    # fence, interrupt, 0x40, check result, and the bits 16 to 23 of a move; a required flag left out
    refused = [(4, 0x0D), (4, 0x1C), (4, 0x4C), (4, 0x8C), *((6, 1 << bit) for bit in range(8))]
    bad += [("3 FlagBits", changed(one, flag)) for flag in (*refused, (4, 0x04), (4, 0x08), (4, 0x00))]
    bad.append(("3 FlagBits", Op(FILL, 64, 0x8000, pattern, 0x2000, flags=0x8C).bytes().hex()))
    bad += [("4 Reserved", changed(one, place)) for place in ((2, 0x10), (38, 1), (40, 1), (63, 1))]
    bad.append(("5 SizeZero", changed(one, (32, 0))))
    wrong = [
        ("6 Wrap", move(LAST - 7, 0x2000, 9)),
        ("7 RecordAlign", move(0x1000, 0x2000, record_at=0x8010)),
        ("8 DualcastBits", Op(DUALCAST, 16, 0x8000, 0x1000, 0x2000, 0x3010)),
        ("9 Overlap", Op(DUALCAST, 16, 0x8000, 0x1000, 0x1008, 0x3008)),
        ("9 Overlap", Op(DELTA, 32, 0x8000, 0x1048, 0x1040, 20)),
        ("10 Delta", Op(DELTA, 32, 0x8000, 0x3000, 0x1044, 20)),
        ("10 Delta", Op(DELTA, 32, 0x8000, 0x3000, 0x1040, 19)),
        ("11 Expected", Op(COMPARE, 8, 0x8000, 0x10, 0x4000, 2)),
        ("11 Expected", Op(PATTERN, 8, 0x8000, 0x10, pattern, 2)),
        ("13 RecordMeetsData", move(0x1000, 0x7FE0)),
        ("37 OverTransfer", Op(FILL, 4100, 0x8000, pattern, 0x2000)),
    ]
    for cause, text in [*bad, *((cause, digits([piece])) for cause, piece in wrong)]:
        expect(judge(text, ALONE), f"refused {cause} 0")
    kept = [changed(one, (4, 0x2E), (5, 0xFF), (36, 0x34), (37, 0x12)), digits([move(LAST - 7, 0x2000, 8)])]
    kept += [digits([Op(COMPARE, 8, 0x8000, 0x10, 0x4000, 1)]), digits([Op(PATTERN, 12, 0x8000, 0x10, pattern, 1)])]
    for text in kept:
        answer = {"certificate": {"pairs": [None], "prices": [0, 10], "version": 1}, "cost": 10, "plan": ALONE}
        expect(plan(text), raw({**answer, "portal": text, "staging": ""}))
    privileged = changed(APART.bytes().hex(), (3, 0x80))
    expect(judge(one + privileged, FENCED), "refused 12 MixedPasid 1")
    expect(judge(one + changed(one, (38, 1)), FENCED), "refused 4 Reserved 1")


def splits():
    """Operations that can't be split, or whose pieces are too many."""
    for piece, cause in [
        (move(0x1000, 0x10000), "33 StagingMeets 0"),
        (Op(FILL, 4097, 0x8000, 0, 0x8020), "34 RowMeetsData 0"),
        (Op(FILL, 4097, LAST - 31, 0, 0x1000), "35 RowWrap 0"),
        (Op(COMPARE, 4097, 0x8000, 0x10, 0x4000, 1, flags=0x8C), "31 ExpectedSplit 0"),
        (Op(DELTA, 8192, 0x8000, 0x1000, 0x2000), "30 DeltaTooLong 0"),
    ]:
        expect(plan([piece]), f"refused {cause}")
    expect(plan([Op(FILL, 2**32 - 1, 0x2_0000_0000, 0, 0)], settings(greatest_transfer=8)), "refused 32 TooManyPieces")


def plans():
    """Plans of two moves, the second of which reads what the first writes, and of others."""
    four = [move(0x1000, 0x2000), move(0x3000, 0x4000, record_at=0x8020)]
    four += [move(0x4000, 0x5000, record_at=0x8040), move(0x2000, 0x6000, record_at=0x8060)]
    three, overwriting = settings(greatest_batch=3), move(0x3000, 0x203F, record_at=0x8020)
    for pieces, groups, rules, line in [
        (PAIR, FENCED, SETTINGS, '{"cost":17}'),
        (PAIR, [[False], [False]], SETTINGS, '{"cost":20}'),
        (PAIR, [[False, False]], SETTINGS, "refused 43 Unfenced 0 1"),
        (PAIR, ALONE, SETTINGS, "refused 40 Count"),
        (PAIR, [[True, True]], SETTINGS, "refused 42 FirstFence 0"),
        (PAIR, [[False], [True]], SETTINGS, "refused 42 FirstFence 1"),
        (PAIR, [[], [False], [False]], SETTINGS, "refused 41 GroupSize 0"),
        ([FIRST, overwriting], [[False, False]], SETTINGS, "refused 43 Unfenced 0 1"),
        ([FIRST, move(0x1000, 0x2040, record_at=0x8020)], [[False, False]], SETTINGS, '{"cost":14}'),
        # the third reads what the second writes, and the last what the first writes
        (four, [[False, False, True, False]], SETTINGS, '{"cost":17}'),
        (four, [[False, False, False, True]], SETTINGS, "refused 43 Unfenced 1 2"),
        (four, [[False, False, False, False]], SETTINGS, "refused 43 Unfenced 1 2"),
        (four, [[False, False], [False, False]], SETTINGS, '{"cost":28}'),
        (four, [[False, False, True, False]], three, "refused 41 GroupSize 0"),
    ]:
        expect(judge(pieces, groups, rules), line)


def answers():
    """Whole answers: a fence in a batch, and a conflict past a batch of two and within one of four."""
    two_batches = settings(greatest_batch=2)
    third = [FIRST, move(0x3000, 0x4000, record_at=0x8020), move(0x2000, 0x5000, record_at=0x8040)]
    for pieces, rules, groups, prices, pairs in [
        (PAIR, SETTINGS, FENCED, [0, 10, 17], [[0, 1], None]),
        (third, two_batches, [[False, False], [False]], [0, 10, 14, 24], [None] * 3),
        (third, SETTINGS, [[False, False, True]], [0, 10, 14, 17], [[0, 2], None, None]),
    ]:
        portal, staging = model.emission(groups, pieces, AREA)
        answer = {"certificate": {"pairs": pairs, "prices": prices, "version": 1}, "cost": prices[-1], "plan": groups}
        expect(plan(pieces, rules), raw({**answer, "portal": portal.hex(), "staging": staging.hex()}))


def many_overlaps():
    """Whole answers of the model for 300 pieces in which more ranges overlap than are looked at one after another: moves of
    64 KiB that all meet, and twenty dualcasts of a byte before ten compares over all that they write, again and again."""
    wide = [move(0x100_0000 + 0x1357 * k % 0x1_0000, 0x200_0000 + 0x2468 * k % 0x1_0000, 0x1_0000, 0x8000 + 32 * k) for k in range(300)]
    casts = []
    for k in range(300):
        record_at, place = 0x8000 + 32 * k, 16 * (k % 30)
        if k % 30 < 20:
            casts.append(Op(DUALCAST, 1, record_at, 0x1000, 0x2000 + place, 0x3000 + place))
        else:
            casts.append(Op(COMPARE, 0x400, record_at, 0x2000, 0x3000))
    for pieces in [wide, casts]:
        expect_chosen(pieces, model.Settings(4, 0x1_0000, 10, 14, 3, 0x100_0000_0000))


def rules_of(area):
    """The settings of a model, as a job spells them."""
    return settings(greatest_batch=area.greatest_batch, greatest_transfer=area.greatest_transfer, staging=area.staging)


def expect_planned(operations, pieces, area):
    """The answer is the plan that the model chooses for the pieces of the operations."""
    groups, prices, pairs = model.chosen(pieces, area)
    portal, staging = model.emission(groups, pieces, area)
    answer = {"certificate": {"pairs": pairs, "prices": prices, "version": 1}, "cost": prices[-1], "plan": groups}
    expect(plan(operations, rules_of(area)), raw({**answer, "portal": portal.hex(), "staging": staging.hex()}))


def expect_chosen(pieces, area):
    """The same, where each operation is its own only piece."""
    expect_planned(pieces, pieces, area)


def placed(count, size, places, records):
    """Operations of one size at places of 8 KiB each: moves and compares at two, fills and patterns at one of these."""
    codes = [MOVE, MOVE, COMPARE, FILL, PATTERN]
    found = []
    for k in range(count):
        one, other = (0x10_0000 + 0x2000 * place for place in places[2 * k : 2 * k + 2])
        code = codes[7 * k % len(codes)]
        first, second = (0 if code == FILL else one, 0 if code == PATTERN else other)
        found.append(Op(code, size, records(k), first, second))
    return found


def short_lists():
    """Plans of the model for lists around each length at which conflicts are looked for in another way: with nothing shared,
    and with one byte or one record that a piece shares with one up to three before it, in each way in which two can conflict."""
    area = model.Settings(4, 4096, 10, 14, 3, 0x100_0000_0000)
    for count in (2, 3, 7, 8, 9, 31, 32, 33, 63, 64, 65):
        rising = list(range(2 * count))
        shuffled = sorted(rising, key=lambda k: k * 0x9E37_79B9 % 2**32)
        for places, size in [(rising, 4096), (shuffled, 100)]:
            plain = placed(count, size, places, lambda k: 0x8000 + 32 * k)
            above = placed(count, size, places, lambda k: 0x8000_0000 + 32 * k)
            falling = placed(count, size, places, lambda k: 0x8_0000 - 32 * k)
            among = placed(count, size, places, lambda k: 0x10_1800 + 0x2000 * k)
            later = count - 1 - count % 3 if count > 3 else count - 1
            one = move(0x800_0000, 0x801_1000, size, plain[later - min(later, 3)].record_at)
            base = [*plain]
            base[later - min(later, 3)] = one
            other = base[later].record_at
            shared = [
                move(one.second + size - 1, 0x900_0000, size, other),
                move(0x900_0000, one.second - size + 1, size, other),
                move(0x900_0000, one.first + size - 1, size, other),
                Op(FILL, size, other, 0, one.second),
                Op(COMPARE, size, other, 0x900_0000, one.second + size - 1),
                Op(PATTERN, size, other, one.second, 0),
                Op(DUALCAST, size, other, 0x900_0000, 0x901_0000, one.second),
                move(one.record_at + 31, 0x900_0000, 1, other),
                move(0x900_0000, 0x901_0000, size, one.record_at),
                move(0x900_0000, 0x901_0000, size, one.second),
                move(one.first, 0x900_0000, size, other),
            ]
            lists = [plain, above, falling, among]
            lists += [[*base[:later], piece, *base[later + 1 :]] for piece in shared]
            for pieces in lists:
                expect_chosen(pieces, area)


def in_two_areas(count, size, lower, upper, records):
    """Moves of one size, side by side: piece after piece from one area to the other."""
    return [move(lower + size * k, upper + size * k, size, records + 32 * k) for k in range(count)]


def rising_lists():
    """Plans of the model for lists whose data rises in one area or in two, with a gap, side by side, and with one byte that
    two pieces share: where the lower area ends, where the upper one begins, and after the piece before."""
    area = model.Settings(4, 4096, 10, 14, 3, 0x100_0000_0000)
    for count in (2, 5, 8, 9, 33, 64, 65, 70):
        last, size = count - 1, 64
        end = 0x10_0000 + size * count
        fills = [Op(FILL, size, 0x8000 + 32 * k, 0, 0x10_0000 + size * k) for k in range(count)]
        lists = [fills, [*fills[:last], Op(FILL, size, fills[last].record_at, 0, fills[last].second - 1)]]
        for records in (0x8000, 0x8000_0000, end + 0x1000 - 32 * count, end + 0x1000 - 32 * count + 1 & -32):
            lists.append(in_two_areas(count, size, 0x10_0000, end + 0x1000, records))
        for lower, upper in [(0x10_0000, end), (end, 0x10_0000), (0x10_0000, end - 1), (end - 1, 0x10_0000)]:
            lists.append(in_two_areas(count, size, lower, upper, 0x8000))
        two = in_two_areas(count, size, 0x10_0000, end, 0x8000)
        at = two[last].record_at
        lists += [
            [*two[:last], piece]
            for piece in [
                move(two[last].first - 1, two[last].second, size, at),
                move(two[last].first, two[last].second - 1, size, at),
                move(two[last].first + 1, two[last].second, size, at),
                move(end + size * count, end + size * count + 32, size, at),
                move(end + size * last - 1, end + size * last + 64, size, at),
                Op(COMPARE, size, at, two[0].first, two[0].first),
                Op(DELTA, size, at, 0x90_0000, two[last].second, 10),
                Op(DUALCAST, size, at, two[last].first, 0x90_0000, 0x91_0000),
                move(two[last].first, two[last].second, size, two[last - 1].record_at),
                move(two[last].first, two[last].second, size, two[0].first & -32),
            ]
        ]
        for pieces in lists:
            expect_chosen(pieces, area)


def around_the_staging_area():
    """Lists with data and records below, above and on both sides of the staging area, next to it, and with one byte in it: of
    operations that are their own pieces, and with one that is two."""
    for count in (1, 2, 8, 33):
        for long in (False, True):
            pieces_in_all = count + long
            area = model.Settings(4, 4096, 10, 14, 3, 0x100_0000)
            first, end = area.staging, area.staging + 96 * pieces_in_all
            for data in (first - 0x2000 * count, end):
                for records in (first - 0x8_0000, first - 0x10_0000 - 32 * count, end + 0x8_0000):
                    moves = [move(data + 0x2000 * k, data + 0x2000 * k + 0x1000, 4096, records + 64 * k) for k in range(count)]
                    if long:
                        moves[0] = move(0x3000_0000, 0x3001_0000, 4097, moves[0].record_at)
                    pieces = [piece for one in moves for piece in model.pieces_of(one, 4096)]
                    expect_planned(moves, pieces, area)
                    place, number = count - 1, pieces_in_all - 1
                    if long and count == 1:
                        continue
                    for source, record_at in [
                        (first - 4095, moves[place].record_at),
                        (end - 1, moves[place].record_at),
                        (0x3000_0000, first),
                        (0x3000_0000, end - 32),
                    ]:
                        wrong = [*moves[:place], move(source, 0x3002_0000, 4096, record_at)]
                        expect(plan(wrong, rules_of(area)), f"refused 33 StagingMeets {number}")


def ask(pieces, prices, pairs, table, cause):
    """Asks for the plan of lone pieces, where batches have prices by their size. Such a plan costs more than the last price
    says: so Total is what is answered where each step holds."""
    rules = settings(version=2, greatest_batch=len(table) + 1, batch=table)
    document = {"pairs": pairs, "prices": prices, "version": 2}
    expect(check(digits(pieces), "", document, rules), f"refused {cause}")


def apart(count):
    """Moves, no two of which conflict."""
    return [move(0x10_0000 + 64 * k, 0x20_0000 + 64 * k, record_at=0x4000 + 32 * k) for k in range(count)]


def meeting(count):
    """Moves to one address."""
    return [move(0x10_0000 + 64 * k, 0x20_0000, record_at=0x4000 + 32 * k) for k in range(count)]


def chain(count):
    """Each piece has a pair with the next."""
    return [[k, k + 1] for k in range(count - 1)] + [None]


def with_price(prices, end, price):
    return [*prices[:end], price, *prices[end + 1 :]]


def steps():
    """Prices that just hold and that are one too high, where batches of 2, 3 and 4 cost 14, 15 and 18."""
    table, hold = [14, 15, 18], [0, 10, 14, 15, 18, 28]
    ask(apart(5), hold, [None] * 5, table, "64 Total")
    for start, end in [(0, 4), (0, 3), (0, 2), (0, 1), (1, 5)]:
        ask(apart(5), with_price(hold, end, hold[end] + 1), [None] * 5, table, f"63 Price {start} {end}")
    ask(apart(5), with_price(hold, 5, LAST), [None] * 5, table, "63 Price 1 5")
    ask(meeting(4), [0, 10, 17, 21, 27], chain(4), table, "64 Total")
    ask(meeting(4), [0, 10, 17, 21, 28], chain(4), table, "63 Price 0 4")
    ask(meeting(4), [0, 10, 17, 22, 27], chain(4), table, "63 Price 0 3")
    ask(meeting(4), [0, 10, 14, 15, 21], [[0, 3], None, None, None], table, "64 Total")
    ask(meeting(4), [0, 10, 14, 15, 22], [[0, 3], None, None, None], table, "63 Price 0 4")


def steps_over_blocks():
    """The same over 200 pieces, where a batch of any size up to 100 costs 14."""
    table, none = [14] * 99, [0] * 201
    ask(apart(200), none, [None] * 200, table, "64 Total")
    # each batch that ends there is too cheap by one; a batch is dear enough, but not the piece alone
    ask(apart(200), with_price(none, 150, 15), [None] * 200, table, "63 Price 50 150")
    ask(apart(200), with_price(none, 150, 14), [None] * 200, table, "63 Price 149 150")
    # 62 pieces with 61 fences cost 197, 63 pieces 200; 11 pieces 44, 12 pieces 47
    ask(meeting(200), none, chain(200), table, "64 Total")
    high = with_price(none, 170, 200)
    ask(meeting(200), high, chain(200), table, "63 Price 108 170")
    ask(meeting(200), with_price(high, 120, 47), chain(200), table, "63 Price 108 170")
    ask(meeting(200), with_price(high, 120, 48), chain(200), table, "63 Price 108 120")
    # the least costs of up to 100 pieces in one batch, and no more for the others
    hold = [0, 10, *(11 + 3 * size for size in range(2, 101)), *[311] * 100]
    ask(meeting(200), hold, chain(200), table, "64 Total")
    ask(meeting(200), with_price(hold, 100, 312), chain(200), table, "63 Price 0 100")


def emissions():
    """Bytes that submit two moves, and bytes that are not quite these."""
    single = FIRST.bytes().hex() + "00" * 32
    for portal, staging, line in [
        (PORTAL, STAGING, '{"cost":17}'),
        (STAGING, PORTAL, "refused 44 PortalLength"),
        (PORTAL[:-2], STAGING, "refused 44 PortalLength"),
        (PORTAL, "", "refused 46 StagingLength"),
        (PORTAL, STAGING[:-2], "refused 46 StagingLength"),
        (changed(PORTAL, (8, 0x81)), STAGING, "refused 45 BatchFields 0"),
        (changed(PORTAL, (32, 1)), single, "refused 45 BatchFields 0"),
        (PORTAL, changed(STAGING, (4, 0x0D)), "refused 48 EntryFence 0"),
        (PORTAL, changed(STAGING, (102, 1)), "refused 47 Entry 1 4 Reserved"),
        (PORTAL, changed(STAGING, (97, 0x11)), "refused 47 Entry 1 37 OverTransfer"),
        (PORTAL, changed(STAGING, (64, 1)), "refused 47 Entry 1 12 MixedPasid"),
        (PORTAL, changed(STAGING, (89, 0), (90, 1)), "refused 47 Entry 1 33 StagingMeets"),
        (PORTAL, changed(STAGING, (128, 1)), "refused 49 RecordBytes 0"),
    ]:
        expect(check(portal, staging), line)
    pairs = ([[0, 2**32], None], [[0, 1, 2], None], [[0], None], [[0, 1], False])
    shapes = [{**CERTIFICATE, "pairs": pair} for pair in pairs]
    shapes += [{**CERTIFICATE, "x": 0}, {**CERTIFICATE, "version": None}]
    shapes += [{**CERTIFICATE, "prices": [0, 10, price]} for price in (-17, 17.0)]
    shapes += [{name: value for name, value in CERTIFICATE.items() if name != "version"}, []]
    expect(check(digits([FIRST, APART]), "", {**CERTIFICATE, "prices": [0, 10, 20]}), "refused 62 Pair 0")
    expect(check(PORTAL, STAGING, {**CERTIFICATE, "pairs": [None]}), "refused 61 Lengths")
    for shape in shapes:
        expect(check(PORTAL, STAGING, shape), "refused 50 Shape")


def order_of_faults():
    """Of several causes the first in the order of docs/FORMATS.md."""
    wide, short = image("0000", LAST), image("00", LAST)
    for text, cause in [
        (plan("0", NO_BATCH), "81 Member"),
        (plan("0", BATCH_OF_ONE), "83 Settings"),
        (plan("0"), "84 Hex"),
        (check("0", "0", "[]", NO_BATCH), "81 Member"),
        (check("0", "0", "[]", BATCH_OF_ONE), "83 Settings"),
        (check("0", "", "[]"), "84 Hex"),
        (check("", "0", "[]"), "84 Hex"),
        (check("00", STAGING, "[]"), "50 Shape"),
        (check("00", STAGING), "44 PortalLength"),
        (replay("0", image("0"), 0, "[0]", BATCH_OF_ONE), "81 Member"),
        (replay("0", image("0"), 0, "[]", BATCH_OF_ONE), "83 Settings"),
        (replay("00", image("0"), 0, "[]"), "84 Hex"),
        (replay("0", wide, 0, "[]"), "84 Hex"),
        (replay("00", wide, 0, "[]"), "21 ImageSize"),
        (replay("00", short, 0, "[]"), "1 Length"),
        (run("0", image("0", LAST), -1, BATCH_OF_ONE), "81 Member"),
        (run("0", image("0", LAST), 0, BATCH_OF_ONE), "83 Settings"),
        (run("00", image("0", LAST), 0), "84 Hex"),
        (run("0", wide, 0), "84 Hex"),
        (run("00", wide, 0), "21 ImageSize"),
        (run("00", short, 0), "1 Length"),
        (run([LEFT, RIGHT], image("00"), 0), "85 Engines"),
        (run([LEFT, RIGHT], image("00"), 65), "85 Engines"),
        (run([LEFT, RIGHT], image("00"), 1), "20 OutOfImage 0"),
        (run([LEFT, move(0, 8, 8, 0xC0)], image("00" * 192), 1), "20 OutOfImage 1"),
        (run([], image("00" * (2**24 + 1)), 1), "21 ImageSize"),
    ]:
        expect(text, f"refused {cause}")


def traces():
    """Traces of two moves that are none, by events, engines and members."""
    two, finish = [LEFT, RIGHT], [0, "finish", 0]
    begun = [[0, "take", 0], [1, "take", 1], [1, "line", 1], [1, "finish", 1]]
    fenced = [LEFT, move(0x20, 0x60, 8, 0xA0)]
    for pieces, trace, cause in [
        (two, [[2, "take", 0]], "76 NotAStep 0"),
        (two, [[0, "take", 0], [255, "take", 1]], "76 NotAStep 1"),
        (two, [[0, "take", 0], [1, "take", 2**32 - 1]], "76 NotAStep 1"),
        (two, [*begun, finish, finish], "76 NotAStep 4"),
        (two, [*begun, [0, "line", 0]], "77 Incomplete"),
        # a fence is before the second
        (fenced, [[0, "take", 0], [1, "take", 1]], "76 NotAStep 1"),
    ]:
        expect(replay(pieces, MEMORY, 2, trace), f"refused {cause}")
    for engines in (0, 65, LAST):
        expect(replay(two, MEMORY, engines, begun), "refused 85 Engines")
    images = ('""', '{"base":0}', '{"base":-1,"bytes":""}', '{"base":0,"bytes":"","x":0}', '{"base":0,"bytes":0}')
    events = ("0", '[0,"take"]', '[0,"take",0,0]', '[0,"takes",0]', "[0,0,0]", '[256,"take",0]', '[0,"take",4294967296]')
    other = [replay("0", memory, 1, "[]") for memory in images]
    other += [replay("0", image(""), 1, f"[{event}]") for event in events]
    other += [replay("0", image(""), engines, "[]") for engines in ("1.0", LAST + 1)]
    other.append(replay("0", image(""), 1, "{}"))
    for text in other:
        expect(text, "refused 81 Member")


def longest():
    """As many descriptors as a list may have, and one more; the longest text, and one byte more."""
    many = FIRST.bytes().hex() * 65_536
    expect(judge(many, ALONE), "refused 40 Count")
    expect(judge(many + FIRST.bytes().hex(), ALONE), "refused 32 TooManyPieces")
    expect(b" " * 67_108_864, "refused 80 Json")
    expect(b" " * 67_108_865, "refused 86 JobTooLong")


PARTS = [texts, ends, members, limits_of_settings, fields, splits, plans, answers, many_overlaps, short_lists]
PARTS += [rising_lists, around_the_staging_area, steps, steps_over_blocks, emissions, order_of_faults, traces, longest]


def main(words):
    global DSA
    DSA = program("dsa")
    for part in named(PARTS, words):
        part()


if __name__ == "__main__":
    run_test(main)
