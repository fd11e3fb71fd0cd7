"""Texts that take as much memory as a job of their length may, with the most that each may take, in bytes for each byte
of text, and the number of its refusal. They are read under a limit of address space, as jobs and to be explained."""

import resource
import subprocess

MIB = 2**20
# A little past a power of two, at which buffers that double have most in reserve.
LENGTH = 33 * MIB
# The program, its libraries and its stack, and what buffers that double have in reserve: address space, of which most is
# never touched.
ROOM = 40 * MIB
SETTINGS = '"settings":{"batch":14,"fence":3,"greatest_batch":4,"greatest_transfer":4096,"lone":10,"staging":65536'
SETTINGS += ',"version":1}'


def filled(before, part, after):
    """The part as often as fits between, with commas."""
    times = (LENGTH - len(before) - len(after)) // (len(part) + 1)
    return before + part + f",{part}" * (times - 1) + after


def judge(part):
    return filled(f'{{"do":"judge","list":"",{SETTINGS},"plan":[', part, "]}")


def check(pairs, prices):
    """A certificate of one of these, again and again."""
    certificate = f'"pairs":[{pairs}],"prices":[{prices}],"version":1'
    before, after = f'{{"do":"check","portal":"","staging":"",{SETTINGS},"certificate":{{{certificate}}}}}'.split("..")
    return filled(before, "null" if pairs else "0", after)


def replay(part):
    image = '"image":{"base":0,"bytes":""},"engines":1'
    return filled(f'{{"do":"replay","list":"",{image},{SETTINGS},"trace":[', part, "]}")


def by_size(part):
    rules = SETTINGS.replace('"batch":14', '"batch":[..]').replace('"version":1', '"version":2')
    before, after = f'{{"do":"plan","list":"",{rules}}}'.split("..")
    return filled(before, part, after)


def falling():
    """Names of which each is less than all before it."""
    count = LENGTH // len('"00000000":0,') - 20
    return '{"do":"plan","list":"",' + SETTINGS + "," + ",".join(f'"{count - k:08}":0' for k in range(count)) + "}"


def long_name_after_list():
    """A list of a tenth of the text, and settings with a member whose name is the rest."""
    digits = "0" * (LENGTH // 20 * 2)
    name = "x" * (LENGTH - len(digits) - 200)
    return f'{{"do":"plan","list":"{digits}",{SETTINGS[:-1]},"{name}":0}}}}'


# name: the text, the most bytes for each of its bytes, the number of the refusal
TEXTS = {
    "small objects": lambda: (filled("[", '{"":0}', "]"), 3, 81),
    "members of no job": lambda: (filled("{", '"member":0', "}"), 3, 82),
    "other members of a job": lambda: (filled('{"do":"plan","list":"",' + SETTINGS + ",", '"member":0', "}"), 3, 81),
    "names that fall": lambda: (falling(), 3, 81),
    "a long name": lambda: ('{"do":"plan","list":"",' + SETTINGS + ',"' + "x" * (LENGTH - 200) + '":0}', 3, 81),
    "a long name after a list": lambda: (long_name_after_list(), 3, 81),
    "settings of other names": lambda: (filled('{"do":"plan","list":"","settings":{', '"member":0', "}}"), 3, 81),
    "bytes of other digits": lambda: ('{"do":"plan",' + SETTINGS + ',"list":"' + "x" * (LENGTH - 200) + '"}', 3, 84),
    "names again and again": lambda: (filled("{", '"do":"run"', "}"), 3, 81),
    "texts of other kinds": lambda: (filled("{", '"plan":"x","do":[]', "}"), 3, 82),
    "deep nesting": lambda: (filled("[", "[" * 120 + "]" * 120, "]"), 3, 81),
    "nesting that is too deep": lambda: ("[" * LENGTH, 3, 80),
    "a long number": lambda: ("1" * LENGTH, 3, 80),
    "a long fraction": lambda: ("0." + "1" * (LENGTH - 2), 3, 81),
    "escapes": lambda: ('"' + "\\u0041" * (LENGTH // 6 - 1) + '"', 3, 81),
    "a text without its end": lambda: ('"' + "x" * (LENGTH - 1), 3, 80),
    "groups of one": lambda: (judge("[true]"), 3, 40),
    "empty groups": lambda: (judge("[]"), 3, 41),
    "one long group": lambda: (filled(f'{{"do":"judge","list":"",{SETTINGS},"plan":[[', "true", "]]}"), 3, 40),
    "pairs of nothing": lambda: (check("..", ""), 3, 61),
    "prices of 0": lambda: (check("", ".."), 3, 61),
    "prices by size": lambda: (by_size("0"), 3, 83),
    "events": lambda: (replay('[0,"take",0]'), 4, 76),
}


def limited(most):
    """Limits the address space of this process, which becomes the program."""
    return lambda: resource.setrlimit(resource.RLIMIT_AS, (most, most))


def answer(program, text, most):
    """The line that answers the text, with so many bytes of memory for each of its bytes."""
    return told([program], text, most).stdout.decode()


def reason(program, text):
    """Why the text is not explained, with 4 bytes of memory for each of its bytes. One that begins with no brace is the
    list of a job."""
    job = text if text.startswith("{") else f'{{"do":"plan","list":{text}}}'
    return told([program, "explain"], job, 4).stderr.decode()


def told(command, text, most):
    limit = limited(ROOM + most * len(text))
    return subprocess.run(command, input=text.encode(), capture_output=True, preexec_fn=limit)
