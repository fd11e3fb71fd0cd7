/* Each operation once, against values from elsewhere: the check values of CRC-32C and of the T10 checksum for the
 * digits 1 to 9, the polynomial 0x1edc6f41, and fields written by hand. Status 0 when all are right; else it says which
 * are not. */
#include "client.h"

static void *portal;
static volatile completion *r;
static uint8_t *a, *b, *c;
static int faults;

enum { ROOM = 16384 };

static void expect(const char *what, unsigned long got, unsigned long wanted)
{
    if (got == wanted)
        return;
    printf("%s is %#lx and not %#lx\n", what, got, wanted);
    faults++;
}

static uint8_t done(descriptor d)
{
    memset((void *)r, 0, sizeof *r);
    d.completion_addr = (uintptr_t)r;
    submit(portal, &d);
    return await(r);
}

static descriptor operation(unsigned code, const void *from, void *to, uint32_t size)
{
    descriptor d = move(from, to, size, r);
    d.opcode = code;
    return d;
}

static void moves(void)
{
    memcpy(a, "abcdefgh", 8);
    expect("a move", done(operation(DSA_OPCODE_MEMMOVE, a, a + 2, 6)), DSA_COMP_SUCCESS);
    expect("an overlapping move", memcmp(a, "ababcdef", 8), 0);
    descriptor d = operation(DSA_OPCODE_MEMFILL, NULL, b, 11);
    memcpy(&d.pattern, "01234567", 8);
    expect("a fill", done(d), DSA_COMP_SUCCESS);
    expect("the pattern", memcmp(b, "01234567012\0", 12), 0);
    d = operation(DSA_OPCODE_DUALCAST, a, b, 8);
    d.dest2 = (uintptr_t)c;
    expect("a dualcast", done(d), DSA_COMP_SUCCESS);
    expect("both copies", memcmp(b, "ababcdef", 8) | memcmp(c, "ababcdef", 8), 0);
}

static void compares(void)
{
    memset(a, 7, 9000);
    memset(b, 7, 9000);
    b[8200] = 8;
    descriptor d = operation(DSA_OPCODE_COMPARE, a, b, 8192);
    expect("equal", done(d) << 8 | r->result, DSA_COMP_SUCCESS << 8);
    d.xfer_size = 9000;
    expect("different", done(d) << 8 | r->result, DSA_COMP_SUCCESS << 8 | 1);
    expect("where they differ", r->bytes_completed, 8200);
    d.flags |= IDXD_OP_FLAG_CR;
    expect("equal was expected", done(d), DSA_COMP_SUCCESS_PRED);
    d.expected_res = 1;
    expect("a difference was expected", done(d), DSA_COMP_SUCCESS);
    d = operation(DSA_OPCODE_COMPVAL, b, NULL, 9000);
    memset(&d.comp_pattern, 7, 8);
    expect("a pattern", done(d) << 8 | r->result, DSA_COMP_SUCCESS << 8 | 1);
    expect("where it differs", r->bytes_completed, 8200);
}

static void deltas(void)
{
    memset(a, 0, 4096);
    memset(b, 0, 4096);
    b[8] = 1, b[4095] = 2;
    descriptor d = operation(DSA_OPCODE_CR_DELTA, a, b, 4096);
    d.delta_addr = (uintptr_t)c;
    d.max_delta_size = 100;
    expect("a delta", done(d) << 8 | r->result, DSA_COMP_SUCCESS << 8 | 1);
    expect("its size", r->delta_rec_size, 20);
    expect("its entries", memcmp(c, "\1\0\1\0\0\0\0\0\0\0\xff\1\0\0\0\0\0\0\0\2", 20), 0);
    d = operation(DSA_OPCODE_AP_DELTA, c, a, 4096);
    d.delta_rec_size = 20;
    expect("applying it", done(d), DSA_COMP_SUCCESS);
    expect("what it leaves", memcmp(a, b, 4096), 0);
    c[10] = 1, c[11] = 0;
    expect("offsets that do not rise", done(d), DSA_COMP_DR_OFFSET_NOINC);
    c[11] = 2;
    expect("an offset out of range", done(d), DSA_COMP_DR_OFFSET_ERANGE);
}

static void checksums(void)
{
    memcpy(a, "123456789", 9);
    expect("a checksum", done(operation(DSA_OPCODE_CRCGEN, a, NULL, 9)), DSA_COMP_SUCCESS);
    expect("CRC-32C", r->crc_val, 0xe3069283);
    expect("a copy with it", done(operation(DSA_OPCODE_COPY_CRC, a, b, 9)), DSA_COMP_SUCCESS);
    expect("its CRC-32C", r->crc_val, 0xe3069283);
    expect("its copy", memcmp(b, "123456789", 9), 0);
}

/* A checksum of one byte without inversion. A byte of which the last bit alone is set leaves the polynomial, and one of
 * zeros moves the seed by a byte. */
static uint32_t plain_checksum(uint8_t byte, uint32_t seed, unsigned flags)
{
    descriptor d = operation(DSA_OPCODE_CRCGEN, a, NULL, 1);
    d.flags |= flags;
    d.crc_seed = flags & 0x10000 ? 0 : seed;
    d.seed_addr = flags & 0x10000 ? (uintptr_t)b : 0;
    memcpy(b, &seed, sizeof seed);
    a[0] = byte;
    expect("a plain checksum", done(d), DSA_COMP_SUCCESS);
    return r->crc_val;
}

/* 0x10000: the seed is read. 0x20000: neither inversion nor reflection of the checksum. 0x40000: none of the data. */
static void checksum_flags(void)
{
    expect("neither", plain_checksum(0x01, 0, 0x60000), 0x1edc6f41);
    expect("the data reflected", plain_checksum(0x80, 0, 0x20000), 0x1edc6f41);
    expect("the checksum reflected and inverted", plain_checksum(0x01, ~0u, 0x40000), ~0x82f63b78u);
    expect("a seed", plain_checksum(0, 0x12, 0x60000), 0x1200);
    expect("a seed that is read", plain_checksum(0, 0x12, 0x70000), 0x1200);
    expect("a seed of which a byte leaves", plain_checksum(0, 0x01000000, 0x60000), 0x1edc6f41);
}

/* Parts of the source's fields that pass through an update of those below: flags of the destination. The guard of the
 * first is wrong, which flag 0x20 of the source leaves unchecked. */
static void passing(descriptor d)
{
    d.src_upd_flags = 0x20;
    b[512] = 0xaa, b[513] = 0xbb;
    for (unsigned flags = 0; flags < 8; flags++) {
        uint8_t first[8] = {0xd0, 0xdb, 0x56, 0x78, 0, 0, 0, 1}, second[8] = {0, 0, 0x56, 0x78, 0, 0, 0, 2};
        d.upd_dest_flags = (flags & 1 ? 0x08 : 0) | (flags & 2 ? 0x20 : 0) | (flags & 4 ? 0x40 : 0);
        if (flags & 1)
            memcpy(first + 2, "\x12\x34", 2), memcpy(second + 2, "\x12\x34", 2);
        if (flags & 2)
            memcpy(first, "\xaa\xbb", 2);
        if (flags & 4)
            first[7] = 9, second[7] = 10;
        expect("an update with parts that pass", done(d), DSA_COMP_SUCCESS);
        expect("its fields", memcmp(c + 512, first, 8) | memcmp(c + 1032, second, 8), 0);
    }
}

/* Block 1 is 503 zero bytes and the digits, of which the checksum is that of the digits, 0xd0db. Block 2 is zeros. */
static void integrity(void)
{
    static const uint8_t first[8] = {0xd0, 0xdb, 0x12, 0x34, 0, 0, 0, 9}, second[8] = {0, 0, 0x12, 0x34, 0, 0, 0, 10};
    memset(a, 0, ROOM);
    memcpy(a + 503, "123456789", 9);
    descriptor d = operation(DSA_OPCODE_DIF_INS, a, b, 1024);
    d.ins_app_tag_seed = 0x1234;
    d.ins_ref_tag_seed = 9;
    expect("inserting fields", done(d), DSA_COMP_SUCCESS);
    expect("the fields", memcmp(b + 512, first, 8) | memcmp(b + 1032, second, 8), 0);
    d = operation(DSA_OPCODE_DIF_CHECK, b, NULL, 1040);
    d.chk_app_tag_seed = 0x1234;
    d.chk_ref_tag_seed = 9;
    expect("checking them", done(d), DSA_COMP_SUCCESS);
    expect("the next tags", (unsigned long)r->dif_chk_ref_tag << 16 | r->dif_chk_app_tag, 11 << 16 | 0x1234);
    d.chk_ref_tag_seed = 8;
    expect("another reference", done(d) << 8 | r->dif_status, DSA_COMP_DIF_ERR << 8 | 4);
    expect("the reference that was expected", r->dif_chk_ref_tag, 8);
    d.chk_ref_tag_seed = 9;
    d.chk_app_tag_seed = 0x1235;
    expect("another application", done(d) << 8 | r->dif_status, DSA_COMP_DIF_ERR << 8 | 2);
    d.chk_app_tag_mask = 1;
    expect("a bit that is not looked at", done(d), DSA_COMP_SUCCESS);
    b[700] = 1;
    expect("other data", done(d) << 8 | r->dif_status, DSA_COMP_DIF_ERR << 8 | 1);
    b[700] = 0;
    d.opcode = DSA_OPCODE_DIF_STRP;
    d.dst_addr = (uintptr_t)c;
    expect("stripping them", done(d), DSA_COMP_SUCCESS);
    expect("the data", memcmp(a, c, 1024), 0);
    d.opcode = DSA_OPCODE_DIF_UPDT;
    d.dest_app_tag_seed = 0x5678;
    d.dest_ref_tag_seed = 1;
    expect("updating them", done(d), DSA_COMP_SUCCESS);
    expect("the new fields",
           memcmp(c + 512, "\xd0\xdb\x56\x78\0\0\0\1", 8) | memcmp(c + 1032, "\0\0\x56\x78\0\0\0\2", 8), 0);
    unsigned long tags = (unsigned long)r->dif_upd_dest_ref_tag << 16 | r->dif_upd_dest_app_tag;
    expect("the next of them", tags, 3 << 16 | 0x5678);
    passing(d);
}

/* Operations on fields that come to a page that is missing: 15 blocks of 520 bytes are in two pages. */
static void integrity_stops(void)
{
    uint8_t *pages = fresh(3 * 4096);
    mprotect(pages + 2 * 4096, 4096, PROT_NONE);
    descriptor d = operation(DSA_OPCODE_DIF_CHECK, pages, NULL, 20 * 520);
    d.src_dif_flags = 0x50; /* references unchecked, application tags count */
    d.chk_ref_tag_seed = 9;
    d.chk_app_tag_mask = 0xffff;
    expect("a check that stops", done(d), DSA_COMP_PAGE_FAULT_IR);
    expect("its bytes", r->bytes_completed, 15 * 520);
    expect("its tags", (unsigned long)r->dif_chk_ref_tag << 16 | r->dif_chk_app_tag, 24 << 16 | 15);
    expect("its mask", r->dif_chk_app_tag_mask, 0xffff);
    memset(a, 0, ROOM);
    d = operation(DSA_OPCODE_DIF_INS, a, pages, 20 * 512);
    d.ins_ref_tag_seed = 9;
    d.ins_app_tag_seed = 7;
    expect("an insertion that stops", done(d), DSA_COMP_PAGE_FAULT_IR | DSA_COMP_STATUS_WRITE);
    expect("its bytes", r->bytes_completed, 15 * 512);
    expect("its tags", (unsigned long)r->dif_ins_ref_tag << 16 | r->dif_ins_app_tag, 24 << 16 | 7);
}

__attribute__((target("movdir64b,movdiri"))) static void store(const uint8_t *from)
{
    _movdir64b(b, from);
    _directstoreu_u32(b + 64, 0x64636261);
    _directstoreu_u64(b + 72, 0x6c6b6a6968676665);
}

__attribute__((target("waitpkg"))) static void wait_a_little(void)
{
    _umonitor(b);
    _umwait(0, __rdtsc() + 1000);
    _tpause(1, __rdtsc() + 1000);
}

/* The instructions where no portal is: plain stores, and waits that end. */
static void instructions(void)
{
    memset(b, 0, 80);
    memset(a, 'm', 64);
    store(a);
    wait_a_little();
    expect("MOVDIR64B to memory", memcmp(a, b, 64), 0);
    expect("MOVDIRI", memcmp(b + 64, "abcd\0\0\0\0efghijkl", 16), 0);
}

/* A member that fails, and what a fence after it stops. */
static void failing_batch(void)
{
    descriptor *list = fresh(4096);
    list[0] = operation(DSA_OPCODE_COMPARE, a, b, 8);
    list[0].flags |= IDXD_OP_FLAG_CR;
    list[1] = operation(DSA_OPCODE_MEMMOVE, a, c, 8);
    list[1].flags |= IDXD_OP_FLAG_FENCE;
    for (int i = 0; i < 2; i++)
        list[i].completion_addr = (uintptr_t)(r + 1 + i);
    memcpy(a, "aaaaaaaa", 8), memcpy(b, "aabaaaaa", 8), memcpy(c, "cccccccc", 8);
    memset((void *)r, 0, 3 * sizeof *r);
    expect("a batch that fails", done(batch(list, 2, r)), DSA_COMP_BATCH_FAIL);
    expect("its members that ended", r->bytes_completed, 1);
    expect("the first", r[1].status << 8 | r[1].bytes_completed, DSA_COMP_SUCCESS_PRED << 8 | 2);
    expect("the second", r[2].status, 0);
    expect("what it did not write", memcmp(c, "cccccccc", 8), 0);
}

int main(void)
{
    portal = portal_of("/dev/dsa/wq0.0");
    r = fresh(4096);
    a = fresh(ROOM), b = fresh(ROOM), c = fresh(ROOM);
    moves();
    compares();
    deltas();
    checksums();
    checksum_flags();
    integrity();
    integrity_stops();
    failing_batch();
    instructions();
    return faults ? WRONG : 0;
}
