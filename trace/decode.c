/* Decodes MOVDIR64B, ENQCMD, MOVDIRI, UMONITOR, UMWAIT and TPAUSE in 64-bit code. */
#include "decode.h"

#include <string.h>

enum { LONGEST = 15, REX_B = 1, REX_X = 2, REX_R = 4, REX_W = 8 };

struct cursor {
    const uint8_t *start, *next;
    const uint64_t *registers;
    uint64_t at;        /* the address at which the code runs */
    uint8_t rex;
    bool has_operand_size; /* the prefix 66 */
    uint8_t repeat;     /* the last of the prefixes f2 and f3, or 0 */
    bool is_too_long;
};

/// The next bytes; zeros if an instruction can't be so long.
static const uint8_t *take_bytes(struct cursor *c, int count)
{
    static const uint8_t none[4];
    if (c->next - c->start > LONGEST - count) {
        c->is_too_long = true;
        return none;
    }
    c->next += count;
    return c->next - count;
}

static uint8_t take(struct cursor *c) { return *take_bytes(c, 1); }

static int64_t take_displacement(struct cursor *c, int bytes)
{
    int32_t value = 0;
    memcpy(&value, take_bytes(c, bytes), bytes);
    return bytes == 1 ? (int8_t)value : value;
}

/// Takes one prefix. Answers false at the first byte that is none, and at a LOCK, with which none of ours is valid.
static bool take_prefix(struct cursor *c, struct instruction *out)
{
    const uint8_t byte = *c->next;
    switch (byte) {
    case 0x66: c->has_operand_size = true; break;
    case 0x67: out->is_narrow = true; break;
    case 0xf2: case 0xf3: c->repeat = byte; break;
    case 0x64: out->segment = SEGMENT_FS; break;
    case 0x65: out->segment = SEGMENT_GS; break;
    case 0x26: case 0x2e: case 0x36: case 0x3e: break; /* other segments have base 0, and do not undo FS or GS */
    default:
        if ((byte & 0xf0) != 0x40)
            return false;
    }
    c->rex = (byte & 0xf0) == 0x40 ? byte : 0; /* a REX counts only directly before the operation code */
    c->next++;
    return c->next - c->start < LONGEST;
}

/// The kind by operation code and prefixes; a repeat prefix goes before the operand size.
static enum kind take_kind(struct cursor *c)
{
    const uint8_t prefix = c->repeat ? c->repeat : c->has_operand_size ? 0x66 : 0;
    if (take(c) != 0x0f)
        return NO_INSTRUCTION;
    const uint8_t second = take(c);
    if (second == 0xae)
        return prefix == 0xf3 ? UMONITOR : prefix == 0xf2 ? UMWAIT : prefix == 0x66 ? TPAUSE : NO_INSTRUCTION;
    if (second != 0x38)
        return NO_INSTRUCTION;
    const uint8_t third = take(c);
    if (third == 0xf8)
        return prefix == 0x66 ? MOVDIR64B : prefix == 0xf2 ? ENQCMD : NO_INSTRUCTION; /* f3 is ENQCMDS, for kernels */
    return third == 0xf9 && !prefix ? MOVDIRI : NO_INSTRUCTION;
}

/// The base and index of a SIB byte.
static uint64_t take_scaled(struct cursor *c, unsigned mod)
{
    const uint8_t sib = take(c);
    const unsigned index = (sib >> 3 & 7) | (c->rex & REX_X ? 8 : 0), base = (sib & 7) | (c->rex & REX_B ? 8 : 0);
    uint64_t address = index == 4 ? 0 : c->registers[index] << (sib >> 6);
    if ((sib & 7) == 5 && mod == 0)
        return address + take_displacement(c, 4);
    return address + c->registers[base];
}

/// The address of the memory operand. One relative to the instruction pointer counts from the end of the instruction,
/// which ends with it, since none of these has an immediate.
static uint64_t take_address(struct cursor *c, uint8_t modrm)
{
    const unsigned mod = modrm >> 6, rm = modrm & 7;
    uint64_t address;
    if (rm == 4)
        address = take_scaled(c, mod);
    else if (rm == 5 && mod == 0) {
        address = take_displacement(c, 4);
        return address + c->at + (c->next - c->start);
    } else
        address = c->registers[rm | (c->rex & REX_B ? 8 : 0)];
    if (mod == 1)
        address += take_displacement(c, 1);
    else if (mod == 2)
        address += take_displacement(c, 4);
    return address;
}

/// Decodes the instruction at `code`, as decode.h says.
bool decode(const uint8_t *code, uint64_t at, const uint64_t registers[16], struct instruction *out)
{
    struct cursor c = {.start = code, .next = code, .registers = registers, .at = at};
    memset(out, 0, sizeof *out);
    while (take_prefix(&c, out))
        ;
    out->kind = take_kind(&c);
    if (out->kind == NO_INSTRUCTION)
        return false;
    const uint8_t modrm = take(&c);
    const bool is_register = modrm >> 6 == 3, is_wait = out->kind >= UMONITOR;
    if (is_register != is_wait || (is_wait && (modrm >> 3 & 7) != 6))
        return false;
    if (is_wait)
        out->reg = (modrm & 7) | (c.rex & REX_B ? 8 : 0);
    else {
        out->reg = (modrm >> 3 & 7) | (c.rex & REX_R ? 8 : 0);
        out->address = take_address(&c, modrm);
        if (out->is_narrow)
            out->address = (uint32_t)out->address;
        out->is_wide = c.rex & REX_W;
    }
    out->length = c.next - c.start;
    return !c.is_too_long;
}
