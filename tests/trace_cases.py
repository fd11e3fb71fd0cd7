"""What clients of tests/trace.py print."""

# What a shell does to the driver's files.
SYSFS = """
echo dsa0 > /sys/bus/dsa/drivers/idxd/unbind
cat /sys/bus/dsa/devices/dsa0/state /sys/bus/dsa/devices/wq0.0/state
echo dsa0 > /sys/bus/dsa/drivers/idxd/bind
echo wq0.1 > /sys/bus/dsa/drivers/user/bind
cat /sys/bus/dsa/devices/dsa0/state /sys/bus/dsa/devices/wq0.0/state /sys/bus/dsa/devices/wq0.1/state
ls -d /dev/dsa/* /sys/module/idxd
echo wq0.1 > /sys/bus/dsa/drivers/user/unbind
ls /dev/dsa | wc -l
"""

# The statuses are those of linux/idxd.h; 0x84 is 4 with the bit of a write. Two pages are there, and the next is missing.
REFUSED = {
    "pages": ["write, blocking: status 0x84, 0 bytes, at 0x2000", "write: status 0x83, 0 bytes, at 0x2000",
              "read: status 0x3, 4096 bytes, at 0x2000"],
    "gone": ["to an unmapped page: status 0x84, 0 bytes", "from an unmapped page: status 0x4, 0 bytes",
             "beyond the end of a file: status 0x84, 0 bytes", "to a page that is read alone: status 0x84, 0 bytes",
             "can't be written, so the completion is lost", "the next: status 0x1,"],
    "lists": ["missing list: status 0x6, 0 bytes, at 0x2000", "odd list: status 0x18,", "one member: status 0x14,",
              "too many members: status 0x14,", "the move before it has ended 1"],
    "stops": ["a copy: status 0x4, 4096 bytes, at 0x2000", "its page: status 0x1,", "of the same checksum 1",
              "a delta: status 0x3, 4096 bytes, at 0x2000", "a record of 10 bytes",
              "from its end: status 0x4, 4096 bytes, at", "result 1, at its first page 1"],
    "edges": ["a fill over pages: status 0x1,", "a fill: status 0x84, 99 bytes, at 0x2000",
              "before it 0x55, wrong 0\n",
              "a move onto itself: status 0x4, 4096 bytes, at 0x2000", "alone: status 0x84, 0 bytes, at 0x1000",
              "a flush: status 0x3, 4086 bytes, at 0x2000", "a wrong field: status 0x9, 520 bytes"],
    "sent": ["failed 0, seen 1"],
    "record": ["no multiple of 32", "the next: status 0x1,", "moved 0, record 0"],
    "refused": ["reserved flag: status 0x11,", "invalid flags 0x40\n", "check result of a move: status 0x11,",
                "interrupt: status 0x19,", "operation 0xa: status 0x10,", "no bytes: status 0x13,",
                "reserved byte: status 0x12,",
                "reserved bits: status 0x12,", "dualcast bits: status 0x17,", "dualcast overlap: status 0x16,",
                "delta of 12 bytes: status 0x13,", "delta record of 11 bytes: status 0x15,"],
}


def rewriting(is_on, count, library):
    """The cases of tests/trace/rewritten.c: a name, the words, and lines that are printed if sites are rewritten or
    not."""
    codes = [f"code {i}: 5 right, rewritten {is_on and i < 3:d}\n" for i in range(4)]
    return {
        "one site": (["threads", f"one{count}"], f"{count} of {count} right, {is_on:d} rewritten"),
        "many sites": (["threads", f"all{count}"], f"{count} of {count} right, {64 * is_on} rewritten"),
        "a handler": (["timer"], "0 wrong in threads, 0 wrong in the handler, fired 1"),
        "children": (["forks"], "20 of 20 children right, 0 wrong in threads, without a portal 139, afterwards 1"),
        "a library": (["library", library], f"50 of 50 right, rewritten in {10 * is_on} of 10 loads"),
        "other code": (["made"], *codes),
        "what faults": (["unreadable"], f"7 right, fault at 1, stored 1, no portal, rewritten {is_on:d}"),
    }


def made_anew(is_on):
    """Those of code that is made 300 times; it takes its time if each submission waits for another thread."""
    rounds = f"in {300 * is_on} of 300 rounds, "
    return {
        "code made anew": (["anew"], "12000 of 12000 right", rounds),
        "children of it": (["anew", "forks"], "12000 of 12000 right", f"{rounds}300 children right"),
    }


def launched(work, text):
    """Commands of a shell, how each ends, and what is said: what is around the launcher, and the program's name. The
    last needs dsa_text."""
    trace = f"{work}/gcc/dsa_trace"
    cases = {
        "a caller that ignores SIGCHLD": (f"trap '' CHLD; {trace} -- sh -c 'exit 3'", 3),
        "a folder with a blank": (f"cp -r {work}/gcc '{work}/a b' && '{work}/a b/dsa_trace' true", 125,
                                  "the loader takes no path with a blank"),
    }
    as_a_part = f"cp {work}/ordered {work}/a.part && DSA_TEXT={text} {trace} --audit -- {work}/a.part wait"
    return cases | ({"a program that is named as a part": (as_a_part, 1, "error: missing wait")} if text else {})
