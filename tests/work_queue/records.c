/* Random descriptors of all operations, right and wrong, lone and in batches: what their records and memory are.
 *     records software|QUEUE COUNT SEED     prints both after each, and how often each status came
 * With dsa_trace --order fifo each is done before the next is submitted, so nothing is awaited. */
#include <fcntl.h>
#include <linux/idxd.h>
#include <stdio.h>
#include <stdlib.h>
#include <string.h>
#include <sys/mman.h>

#include "queue.h"

enum { DATA = 16 * PAGE, MEMBERS = 4, FLAGS = IDXD_OP_FLAG_CRAV | IDXD_OP_FLAG_RCR };

static uint8_t *const data = (uint8_t *)0x200000000; /* the same in each run, since an address may be a pattern */
static _Alignas(64) struct dsa_hw_desc entry, members[MEMBERS];
static _Alignas(64) struct dsa_completion_record record, records[MEMBERS];
static int counts[256];

static uint64_t draw(uint64_t below) { return (uint64_t)rand() % below; }

/* An address in the data, mostly a multiple of 8. */
static uint64_t place(void) { return (uintptr_t)data + draw(DATA / 2) / 8 * 8 + (draw(16) == 0 ? draw(8) : 0); }

/* Flags that every operation takes, and now and then one more. */
static uint32_t flags(void)
{
    static const uint32_t more[] = {IDXD_OP_FLAG_BOF, IDXD_OP_FLAG_CR, IDXD_OP_FLAG_FENCE, IDXD_OP_FLAG_RCI, 0x40,
                                    0x10000, 0x20000, 0x40000, 0x100000};
    const uint32_t kept = draw(12) ? FLAGS : draw(2) ? IDXD_OP_FLAG_CRAV : 0;
    return kept | (draw(3) ? 0 : more[draw(sizeof more / sizeof *more)]);
}

static const uint8_t codes[] = {0, 3, 4, 5, 6, 7, 8, 8, 8, 9, 9, 0x10, 0x11, 0x12, 0x13, 0x14, 0x15, 0x20, 0x30};

/* A descriptor; of what an operation has of its own the fields that most need. */
static struct dsa_hw_desc drawn(struct dsa_completion_record *to)
{
    struct dsa_hw_desc d = {.opcode = codes[draw(sizeof codes)], .flags = flags(), .completion_addr = (uintptr_t)to};
    d.src_addr = place();
    d.dst_addr = place();
    d.xfer_size = (uint32_t)(draw(40) ? 8 * (1 + draw(600)) : draw(2) * 3);
    if (d.opcode == DSA_OPCODE_DUALCAST)
        d.dest2 = draw(8) ? d.dst_addr + PAGE * draw(4) : place();
    if (d.opcode == DSA_OPCODE_AP_DELTA || d.opcode == DSA_OPCODE_CR_DELTA)
        d.delta_rec_size = (uint32_t)(10 * draw(5) + (draw(8) == 0));
    if (d.opcode == DSA_OPCODE_CR_DELTA) {
        d.delta_addr = place();
        d.max_delta_size = (uint32_t)(draw(8) ? 80 + 10 * draw(400) : 70);
        d.expected_res_mask = (uint8_t)draw(8);
    }
    if (d.opcode == DSA_OPCODE_CRCGEN || d.opcode == DSA_OPCODE_COPY_CRC) {
        d.crc_seed = (uint32_t)draw(1000);
        d.seed_addr = place();
    }
    if (d.opcode == DSA_OPCODE_COMPARE || d.opcode == DSA_OPCODE_COMPVAL)
        d.expected_res = (uint8_t)draw(2);
    if (d.opcode >= DSA_OPCODE_DIF_CHECK && d.opcode <= DSA_OPCODE_DIF_UPDT)
        d.src_dif_flags = d.dest_dif_flag = d.op_specific[4] = (uint8_t)draw(4);
    if (draw(40) == 0)
        d.op_specific[16 + draw(8)] ^= 1; /* reserved of most */
    return d;
}

static uint64_t summed(void)
{
    uint64_t sum = 0xcbf29ce484222325;
    for (int i = 0; i < DATA; i++)
        sum = (sum ^ data[i]) * 0x100000001b3;
    return sum;
}

static void print(const struct dsa_completion_record *r)
{
    const uint8_t *bytes = (const uint8_t *)r;
    counts[bytes[0]]++;
    for (size_t i = 0; i < sizeof *r; i++)
        printf("%02x", bytes[i]);
    printf(" ");
}

int main(int argc, char **argv)
{
    const struct dsa_settings limits = {.greatest_batch = 3, .greatest_transfer = 4096};
    const int is_software = argc == 4 && strcmp(argv[1], "software") == 0;
    const int file = argc != 4 || is_software ? -1 : open(argv[1], O_RDWR);
    void *portal = file < 0 ? NULL : mmap(NULL, PAGE, PROT_WRITE, MAP_SHARED, file, 0);
    if (argc != 4 || (!is_software && (file < 0 || portal == MAP_FAILED)))
        return 2;
    if (mmap(data, DATA, PROT_READ | PROT_WRITE, MAP_PRIVATE | MAP_ANONYMOUS | MAP_FIXED_NOREPLACE, -1, 0) != data)
        return 2;
    srand((unsigned)atoi(argv[3]));
    for (int i = 0; i < DATA; i++)
        data[i] = (uint8_t)(draw(4) ? 0 : draw(3));
    for (int i = 0; i < atoi(argv[2]); i++) {
        const uint32_t count = draw(3) ? 0 : (uint32_t)(1 + draw(MEMBERS)); /* 4 is one too many */
        memset(&record, 0, sizeof record);
        memset(records, 0, sizeof records);
        for (uint32_t k = 0; k < count; k++)
            members[k] = drawn(&records[k]);
        entry = count ? (struct dsa_hw_desc){.opcode = DSA_OPCODE_BATCH, .flags = FLAGS, .desc_count = count,
                                             .desc_list_addr = (uintptr_t)members + (draw(30) ? 0 : 32),
                                             .completion_addr = (uintptr_t)&record}
                      : drawn(&record);
        printf("%d: operation %#x, ", i, entry.opcode);
        if (is_software)
            software_do((const uint8_t *)&entry, &limits);
        else
            __asm__ volatile("movdir64b (%1), %0" : : "r"(portal), "r"(&entry) : "memory");
        print(&record);
        for (uint32_t k = 0; k < count && k < MEMBERS; k++)
            print(&records[k]);
        printf("%016llx\n", (unsigned long long)summed());
    }
    for (int i = 0; i < 256; i++)
        if (counts[i])
            printf("status %#x: %d\n", (unsigned)i, counts[i]);
    return 0;
}
