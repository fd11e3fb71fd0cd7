"""Forms of addresses of instructions, for the decoder of the software device."""

import itertools

WIDE = "rax rcx rdx rbx rsp rbp rsi rdi r8 r9 r10 r11 r12 r13 r14 r15".split()
KINDS = {"movdir64b": 1, "enqcmd": 2}
# Where the first instruction is, and each next one 16 bytes further.
PLACE = 0x7F0012345000
NARROW = "eax ecx edx ebx esp ebp esi edi r8d r9d r10d r11d r12d r13d r14d r15d".split()


def value(register, is_narrow):
    whole = 0x1111111111111111 * (register + 1) % 2**64
    return whole % 2**32 if is_narrow else whole


def forms():
    """Each form of address: its text for the assembler, and its address, with which the registers are as in
    decode.c."""
    for is_narrow in (False, True):
        names, size = (NARROW, 32) if is_narrow else (WIDE, 64)
        for base, index in itertools.product([None, *range(16)], [None, *(k for k in range(16) if k != 4)]):
            for scale, offset in itertools.product((1, 2, 4, 8) if index is not None else (1,),
                                                   (0, 0x7F, -0x80, 0x12345678)):
                inside = names[base] if base is not None else ""
                text = f"%{inside}" if inside else ""
                text += f",%{names[index]},{scale}" if index is not None else ""
                if not text:
                    continue
                address = offset + (value(base, is_narrow) if base is not None else 0)
                address += value(index, is_narrow) * scale if index is not None else 0
                yield f"{offset}({text})", address % 2**size, is_narrow, 0
        prefix, address = "%fs:" if is_narrow else "", (0x1000 + value(3, is_narrow)) % 2**size
        yield f"{prefix}0x1000(%{names[3]})", address, is_narrow, int(is_narrow)
    for segment, number in (("fs", 1), ("gs", 2)):
        yield f"%{segment}:0x40", 0x40, False, number
        yield f"%{segment}:8(%r13,%r14,2)", (8 + value(13, False) + 2 * value(14, False)) % 2**64, False, number


def instructions():
    """Both instructions with each form of address, and what the decoder says of each: kind, register, address (None: it
    goes by the place of the instruction), segment, and whether its address has 32 bits."""
    lines, wanted = [], []
    for (name, kind), (number, form) in itertools.product(KINDS.items(), enumerate(forms())):
        text, address, is_narrow, segment = form
        register = number % 16
        lines.append(f"{name} {text}, %{(NARROW if is_narrow else WIDE)[register]}")
        wanted.append((kind, register, address, segment, int(is_narrow)))
    for name, kind in KINDS.items():
        lines.append(f"{name} 0x1234(%rip), %r9")
        wanted.append((kind, 9, None, 0, 0))
    return lines, wanted


def wrong_forms(lines, wanted, lengths, got):
    """What the decoder says of instructions that is not what is wanted."""
    faults = []
    for place, (line, (kind, register, address, segment, is_narrow), length,
                found) in enumerate(zip(lines, wanted, lengths, got)):
        if address is None:
            address = PLACE + 16 * place + length + 0x1234
        shown = f"{address:#x}" if address else "0"
        right = f"{kind} {length} {register} {shown} {segment} {is_narrow}"
        if found.rsplit(" ", 1)[0] != right:
            faults.append(f"{line}: {found}, not {right}")
    return faults


# Other instructions, as tests/trace/decode.c prints them.
OTHERS = {
    "movdiri %rax, 8(%rbx)": "3 6 0 0x444444444444444c 0 0 1",
    "movdiri %r9d, (%rcx)": "3 5 9 0x2222222222222222 0 0 0",
    "umonitor %r11": "4 5 11 0 0 0 0",
    "umwait %ecx": "5 4 1 0 0 0 0",
    "tpause %r15d": "6 5 15 0 0 0 0",
    ".byte 0x66,0x66,0x66,0x66,0x66,0x66,0x66,0x66,0x66,0x66,0x66,0x66,0x66,0x66,0x66,0x66": "none",
    ".byte 0x66,0x66,0x66,0x66,0x66,0x66,0x0f,0x38,0xf8,0x84,0x24,1,0,0,0,0x90": "1 15 0 0x5555555555555556 0 0 0",
    ".byte 0x66,0x66,0x66,0x66,0x66,0x66,0x66,0x0f,0x38,0xf8,0x84,0x24,1,0,0,0": "none",
    ".byte 0x66,0x66,0x66,0x66,0x66,0x66,0x66,0x66,0x66,0x66,0x66,0x0f,0x38,0xf8,0x84,0x24": "none",
}
OTHERS |= dict.fromkeys(("mfence", "clwb (%rax)", "enqcmds (%rax), %rbx", "ud2", "crc32l %eax, %ebx"), "none")
OTHERS |= dict.fromkeys(("movbe (%rax), %ebx", "incsspd %eax"), "none")
