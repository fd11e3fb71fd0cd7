/* Submits by several forms of both instructions, often enough that their code is rewritten, each time with other values
 * in all registers, the flags and the red zone, and compares these afterwards. Prints how many forms came out right and
 * how many are rewritten. Registers beside the general ones are filled by XRSTOR and read by XSAVE. */
#include <cpuid.h>
#include <stddef.h>

#include "client.h"

enum { FORMS = 7, TIMES = 6, AREA = 4096, RED = 16, DIRECTION = 0x400, ARITHMETIC = 0x8d5 };
enum { AX, CX, DX, BX, SP, BP, SI, DI };

/* What `cross_N` takes and leaves; the code below has these offsets. */
struct crossing {
    uint64_t given[16], got[16], red_given[RED], red_got[RED], flags_given, flags_got, stack;
    uint32_t low, high;
    _Alignas(64) descriptor d;
    _Alignas(64) uint8_t area_given[AREA], area_got[AREA];
} crossing;
_Static_assert(offsetof(struct crossing, flags_given) == 512 && offsetof(struct crossing, low) == 536 &&
                   offsetof(struct crossing, d) == 576 && offsetof(struct crossing, area_given) == 640,
               "the offsets of the code");

/* One function for each form; `site_N` is its instruction. */
#define CROSS(number, text)                                                                                           \
    __asm__(".pushsection .text\n.globl cross_" #number ", site_" #number "\ncross_" #number ":\n"                    \
            "pushfq; push %rbx; push %rbp; push %r12; push %r13; push %r14; push %r15; sub $1024, %rsp\n"             \
            "lea crossing+576(%rip), %rsi; lea 64(%rsp), %rdi; mov $64, %ecx; rep movsb\n"                            \
            "mov %rsp, crossing+528(%rip)\n"                                                                          \
            "mov crossing+536(%rip), %eax; mov crossing+540(%rip), %edx; xrstor64 crossing+640(%rip)\n"               \
            "push crossing+512(%rip); popfq\n"                                                                        \
            ".set i, 0\n.rept 16\nmov crossing+256+8*i(%rip), %rax; mov %rax, -128+8*i(%rsp)\n.set i, i+1\n.endr\n"   \
            ".set i, 0\n.irp r, rax,rcx,rdx,rbx,rbp,rbp,rsi,rdi,r8,r9,r10,r11,r12,r13,r14,r15\n"                      \
            "mov crossing+8*i(%rip), %\\r\n.set i, i+1\n.endr\n"                                                      \
            "site_" #number ": " text "\n"                                                                            \
            ".set i, 0\n.irp r, rax,rcx,rdx,rbx,rsp,rbp,rsi,rdi,r8,r9,r10,r11,r12,r13,r14,r15\n"                      \
            "mov %\\r, crossing+128+8*i(%rip)\n.set i, i+1\n.endr\n"                                                  \
            ".set i, 0\n.rept 16\nmov -128+8*i(%rsp), %rax; mov %rax, crossing+384+8*i(%rip)\n.set i, i+1\n.endr\n"   \
            "pushfq; pop crossing+520(%rip); cld\n"                                                                   \
            "mov crossing+536(%rip), %eax; mov crossing+540(%rip), %edx; xsave64 crossing+640+4096(%rip)\n"           \
            "add $1024, %rsp; pop %r15; pop %r14; pop %r13; pop %r12; pop %rbp; pop %rbx; popfq; ret\n"               \
            ".popsection\n");                                                                                         \
    extern void cross_##number(void);                                                                                 \
    extern const uint8_t site_##number[]

CROSS(0, "movdir64b (%rsi), %rdi");
CROSS(1, "enqcmd (%rsi), %rdi");
CROSS(2, "movdir64b crossing+576(%rip), %r15");
CROSS(3, "enqcmd crossing+576(%rip), %rax");
CROSS(4, "movdir64b -64(%rsp), %rbx");
CROSS(5, "enqcmd 64(%rsp), %rcx");
CROSS(6, "movdir64b %fs:8(%r12,%r13,4), %r14");

static const struct form { void (*cross)(void); const uint8_t *site; int is_enqueued, portal_in; } forms[FORMS] = {
    {cross_0, site_0, 0, DI}, {cross_1, site_1, 1, DI}, {cross_2, site_2, 0, 15}, {cross_3, site_3, 1, AX},
    {cross_4, site_4, 0, BX}, {cross_5, site_5, 1, CX}, {cross_6, site_6, 0, 14},
};

static void fill(void *to, size_t size)
{
    for (size_t i = 0; i < size; i++)
        ((uint8_t *)to)[i] = (uint8_t)rand();
}

/* The place of a part in the area of XSAVE, and its size; 0 if it is not in use. */
static unsigned part_at(unsigned part, unsigned *at)
{
    unsigned size = 0, c, d;
    if (crossing.low >> part & 1)
        __get_cpuid_count(0xd, part, &size, at, &c, &d);
    return size;
}

/* Other values in all vector and x87 registers: bytes 0 to 4 are the control, status and tag words, 24 is MXCSR. */
static void fill_area(void)
{
    uint8_t *area = crossing.area_given;
    const uint16_t control = 0x0f7f, status = 0, mxcsr = 0x7f80;
    memset(area, 0, AREA);
    memcpy(area, &control, 2);
    memcpy(area + 2, &status, 2);
    area[4] = 0xff;
    memcpy(area + 24, &mxcsr, 2);
    for (int i = 0; i < 8; i++)
        fill(area + 32 + 16 * i, 10);
    fill(area + 160, 256);
    for (unsigned part = 2, at, size; part < 8; part++)
        if ((size = part_at(part, &at)))
            fill(area + at, size);
    memcpy(area + 512, &crossing.low, 4);
}

static int same_area(void)
{
    const uint8_t *a = crossing.area_given, *b = crossing.area_got;
    int same = !memcmp(a, b, 5) && !memcmp(a + 24, b + 24, 4) && !memcmp(a + 32, b + 32, 384);
    for (unsigned part = 2, at, size; part < 8; part++)
        if ((size = part_at(part, &at)))
            same &= !memcmp(a + at, b + at, size);
    return same;
}

/* The descriptor where each form has it, or `cross_N` puts it, and the portal where this one has it. */
static void place(const struct form *f, void *portal, const descriptor *d)
{
    uint64_t base;
    __asm__("mov %%fs:0, %0" : "=r"(base));
    memcpy(&crossing.red_given[8], d, sizeof *d);
    crossing.given[SI] = (uintptr_t)&crossing.d;
    crossing.given[13] = 0x1111;
    crossing.given[12] = (uintptr_t)&crossing.d - base - 8 - 4 * 0x1111;
    crossing.given[f->portal_in] = (uintptr_t)portal;
    crossing.d = *d;
}

/* Whether one crossing is right: all is as before, but for flags that ENQCMD sets, and the move is done, or is refused
 * for a reserved flag, with a sentence. */
static int is_right(const struct form *f, int is_refused, void *portal, volatile completion *r, uint64_t *memory)
{
    descriptor d = move(memory, memory + 1, 8, r);
    if (is_refused)
        d.flags |= 0x40;
    memset((void *)r, 0, sizeof *r);
    memory[0] = (uint64_t)rand() << 32 | (uint64_t)rand();
    memory[1] = 0;
    fill(crossing.given, sizeof crossing.given);
    fill(crossing.red_given, sizeof crossing.red_given);
    fill_area();
    crossing.flags_given = 2 | DIRECTION | ((uint64_t)rand() & ARITHMETIC) | (f->is_enqueued ? ARITHMETIC : 0);
    place(f, portal, &d);
    f->cross();
    crossing.given[SP] = crossing.stack;
    const uint64_t flags = f->is_enqueued ? crossing.flags_given & ~(uint64_t)ARITHMETIC : crossing.flags_given;
    const int same = !memcmp(crossing.given, crossing.got, sizeof crossing.given) && same_area() &&
                     !memcmp(crossing.red_given, crossing.red_got, sizeof crossing.red_given) &&
                     ((crossing.flags_got ^ flags) & (ARITHMETIC | DIRECTION)) == 0;
    const uint8_t status = await(r);
    return same && (is_refused ? status == DSA_COMP_INVALID_FLAGS && memory[1] == 0
                               : status == DSA_COMP_SUCCESS && memory[1] == memory[0]);
}

int main(void)
{
    void *const portals[2] = {portal_of("/dev/dsa/wq0.0"), portal_of("/dev/dsa/wq0.1")};
    volatile completion *r = fresh(4096);
    uint64_t *memory = fresh(4096);
    int right = 0, rewritten = 0;
    __asm__("xgetbv" : "=a"(crossing.low), "=d"(crossing.high) : "c"(0));
    crossing.low &= 0xe7;
    crossing.high = 0;
    for (int i = 0; i < FORMS; i++) {
        int times = 0;
        for (int k = 0; k < TIMES; k++)
            times += is_right(&forms[i], k == TIMES - 1, portals[forms[i].is_enqueued], r, memory);
        if (times != TIMES)
            printf("form %d is right %d times of %d\n", i, times, TIMES);
        right += times == TIMES;
        rewritten += *forms[i].site == 0xe9;
    }
    printf("%d of %d forms right, %d rewritten, registers %#x\n", right, FORMS, rewritten, crossing.low);
    return 0;
}
