/* Stubs: code of ours near a site, to which the site jumps. A stub leaves the red zone alone and goes on to
 * stub_entry, which saves all registers on the program's stack and calls stub_submit. Back in the stub, `next` goes on
 * after the site. If the instruction faults, `trap` raises a signal instead, whose handler does it as if the site had
 * raised it. Only jumps lead in and out, so that shadow stacks stay right. */
#include <cpuid.h>
#include <errno.h>
#include <signal.h>
#include <stdatomic.h>
#include <string.h>
#include <sys/mman.h>
#include <sys/syscall.h>
#include <unistd.h>

#include "emulate.h"
#include "sites.h"

enum { PAGE = 4096, ISLANDS = 64, RED_ZONE = 128, STACK_POINTER = 4 };

/* The code of a stub as it lies in memory. */
struct stub {
    uint8_t skip[5];      /* lea -128(%rsp), %rsp */
    uint8_t push[6];      /* push `site` */
    uint8_t enter[6];     /* jmp *entry */
    uint8_t next[8];      /* lea 144(%rsp), %rsp */
    uint8_t jump;         /* jmp to what comes after the site */
    uint8_t distance[4];
    uint8_t trap[8];      /* lea 144(%rsp), %rsp */
    uint8_t undefined;
    uint8_t unused[9];
    struct site *site;
    void (*entry)(void);
};
_Static_assert(sizeof(struct stub) == 64 && offsetof(struct stub, site) == 48, "the distances in the code below");

/* What the entry leaves on the stack; `way` is where it goes on. */
struct entered { struct registers registers; const uint8_t *way; const struct site *site; };
_Static_assert(sizeof(struct entered) == 19 * 8, "stub_entry saves 17 registers after a copy of the site");

/* Pages of stubs, of which so many are used; a page is written down before it is counted. */
static struct islands { struct { struct stub *page; unsigned used; } at[ISLANDS]; atomic_uint count; } islands;

/* What is saved beside the general registers, and the room for it; stub_entry uses it by these offsets. */
struct saved { uint32_t low, high; uint64_t room; uint8_t is_compact; };
#define FOR_CODE_BELOW __attribute__((visibility("hidden"), used))
FOR_CODE_BELOW struct saved stub_saved;
_Static_assert(offsetof(struct saved, room) == 8 && offsetof(struct saved, is_compact) == 16, "as stub_entry has them");

FOR_CODE_BELOW void stub_submit(struct entered *e);

/* For those who unwind the stack from here (a debugger, or the C library when it cancels a thread): as if the site's
 * function had called. rbx has the address of `entered`, after which come the red zone and the function's stack. */
#define SITE_HAS_CALLED                                                                                                \
    ".cfi_def_cfa %rbx, 280\n"                                                                                         \
    ".cfi_offset %rbx, -256; .cfi_offset %rbp, -240; .cfi_offset %r12, -184; .cfi_offset %r13, -176\n"                 \
    ".cfi_offset %r14, -168; .cfi_offset %r15, -160\n"                                                                 \
    /* rip is a value: breg3 144, deref, dup, deref, swap, plus_uconst 16, deref_size 1, plus */                       \
    ".cfi_escape 0x16, 16, 12, 0x73, 0x90, 0x01, 0x06, 0x12, 0x06, 0x16, 0x23, 16, 0x94, 1, 0x22\n"
_Static_assert(offsetof(struct site, at) == 0 && offsetof(struct site, length) == 16, "as rip is found");

/// From a stub, with the site on the stack: saves what the program has, and restores it.
__attribute__((naked)) static void stub_entry(void)
{
    __asm__(".cfi_undefined %rip\n"
            "endbr64\n"
            "push (%rsp)\n"
            "pushfq; push %r15; push %r14; push %r13; push %r12; push %r11; push %r10; push %r9; push %r8\n"
            "push %rdi; push %rsi; push %rbp; push %rsp; push %rbx; push %rdx; push %rcx; push %rax\n"
            "cld\n"
            "mov %rsp, %rbx\n"
            ".cfi_remember_state\n" SITE_HAS_CALLED
            "sub stub_saved+8(%rip), %rsp\n"
            "and $-64, %rsp\n"
            "xor %eax, %eax\n" /* the header of the area, after 512 bytes, has to be zero */
            "mov %rax, 512(%rsp); mov %rax, 520(%rsp); mov %rax, 528(%rsp); mov %rax, 536(%rsp)\n"
            "mov %rax, 544(%rsp); mov %rax, 552(%rsp); mov %rax, 560(%rsp); mov %rax, 568(%rsp)\n"
            "mov stub_saved(%rip), %eax\n"
            "mov stub_saved+4(%rip), %edx\n"
            "cmpb $0, stub_saved+16(%rip)\n"
            "je 1f\n"
            "xsavec64 (%rsp)\n"
            "jmp 2f\n"
            "1: xsave64 (%rsp)\n"
            "2: mov %rbx, %rdi\n"
            "call stub_submit\n"
            "mov stub_saved(%rip), %eax\n"
            "mov stub_saved+4(%rip), %edx\n"
            "xrstor64 (%rsp)\n"
            "mov %rbx, %rsp\n"
            ".cfi_restore_state\n"
            "pop %rax; pop %rcx; pop %rdx; pop %rbx; lea 8(%rsp), %rsp; pop %rbp; pop %rsi; pop %rdi\n"
            "pop %r8; pop %r9; pop %r10; pop %r11; pop %r12; pop %r13; pop %r14; pop %r15; popfq\n"
            "jmp *(%rsp)\n");
}

/// Does the instruction. Signals are blocked meanwhile, as in our handler, so that none of the program's handlers runs
/// while this thread has a lock of ours.
void stub_submit(struct entered *e)
{
    const int kept = errno;
    const struct site *site = e->site;
    struct emulated done;
    const uint64_t before = signals_block();
    order_arrive();
    e->registers.general[STACK_POINTER] = (uintptr_t)(e + 1) + RED_ZONE;
    const enum outcome outcome = emulate(site->code, site->at, &e->registers, &done);
    order_leave();
    signals_restore(before); /* a cancelled thread may end here */
    e->way = outcome == SUBMITTED || outcome == DONE ? site->stub->next : site->stub->trap;
    errno = kept;
}

/// The room for these parts of the state, in either format: the first two have 576 bytes with the header.
static uint64_t room_of(uint64_t parts)
{
    uint64_t plain = 576, compact = 576;
    unsigned size, offset, c, d;
    for (unsigned i = 2; i < 63; i++) {
        if (!(parts >> i & 1) || !__get_cpuid_count(0xd, i, &size, &offset, &c, &d))
            continue;
        plain = offset + size > plain ? offset + size : plain;
        compact += (size + 63ul) & -64ul;
    }
    return plain > compact ? plain : compact;
}

/// Finds what compiled code may change: x87, SSE, AVX, AVX-512 and the registers of APX, where they are in use.
bool stub_begin(void)
{
    enum { USED_BY_SYSTEM = 1 << 27, IS_COMPACT = 1 << 1 }; /* of CPUID 1 and of 0xd, 1 */
    const uint64_t changed = 1 | 1 << 1 | 1 << 2 | 1 << 5 | 1 << 6 | 1 << 7 | 1 << 19;
    unsigned a, b, c, d, low, high;
    if (!__get_cpuid(1, &a, &b, &c, &d) || !(c & USED_BY_SYSTEM))
        return false;
    __asm__("xgetbv" : "=a"(low), "=d"(high) : "c"(0));
    const uint64_t parts = ((uint64_t)high << 32 | low) & changed;
    const bool is_compact = __get_cpuid_count(0xd, 1, &a, &b, &c, &d) && a & IS_COMPACT;
    stub_saved = (struct saved){(uint32_t)parts, (uint32_t)(parts >> 32), room_of(parts), is_compact};
    return true;
}

/// A page of stubs that code at this address can reach by a jump: below it if there is room, since heaps grow above.
static struct stub *new_page(uintptr_t at)
{
    enum { APART = 1 << 24, TIMES = 120 };
    for (int i = 1; i <= 2 * TIMES; i++) {
        const uintptr_t away = (uintptr_t)APART * (i <= TIMES ? i : 2 * TIMES + 1 - i);
        const uintptr_t wanted = (i <= TIMES ? at - away : at + away) & -(uintptr_t)PAGE;
        if (i <= TIMES && at <= away)
            continue;
        const long page = syscall(SYS_mmap, wanted, PAGE, PROT_READ | PROT_EXEC,
                                  MAP_PRIVATE | MAP_ANONYMOUS | MAP_FIXED_NOREPLACE, -1, 0);
        if (page == (long)wanted)
            return (struct stub *)page;
        if (page != -1) /* an old kernel does not know the flag */
            syscall(SYS_munmap, page, PAGE);
    }
    return NULL;
}

static bool is_near(const struct stub *stub, uintptr_t at)
{
    const int64_t distance = (int64_t)(at - (uintptr_t)stub);
    return distance == (int32_t)distance && distance + PAGE == (int32_t)(distance + PAGE) &&
           distance - PAGE == (int32_t)(distance - PAGE);
}

/// A free place for a stub, or NULL.
static struct stub *place_near(uintptr_t at)
{
    enum { STUBS = PAGE / sizeof(struct stub) };
    const unsigned count = islands.count;
    for (unsigned i = 0; i < count; i++)
        if (islands.at[i].used < STUBS && is_near(islands.at[i].page, at))
            return islands.at[i].page + islands.at[i].used++;
    struct stub *page = count < ISLANDS ? new_page(at) : NULL;
    if (!page)
        return NULL;
    islands.at[count].page = page;
    islands.at[count].used = 1;
    islands.count = count + 1;
    return page;
}

static void put_distance(uint8_t to[4], const uint8_t *from, uintptr_t target)
{
    const int32_t distance = (int32_t)(target - (uintptr_t)from);
    memcpy(to, &distance, sizeof distance);
}

/// Makes the stub of a site.
bool stub_make(struct site *s)
{
    struct stub code = {
        .skip = {0x48, 0x8d, 0x64, 0x24, 0x80},       .push = {0xff, 0x35, 37},
        .enter = {0xff, 0x25, 39},                    .next = {0x48, 0x8d, 0xa4, 0x24, 144},
        .jump = 0xe9,                                 .trap = {0x48, 0x8d, 0xa4, 0x24, 144},
        .undefined = UNDEFINED,                       .site = s, .entry = stub_entry,
    };
    struct stub *stub = place_near(s->at);
    if (!stub)
        return false;
    put_distance(code.distance, stub->trap, s->at + s->length);
    const int file = patch_open();
    const bool is_written = file >= 0 && patch_bytes(file, (uintptr_t)stub, &code, sizeof code);
    patch_close(file);
    if (!is_written)
        return false;
    s->jump[0] = 0xe9;
    put_distance(s->jump + 1, (const uint8_t *)s->at + JUMP, (uintptr_t)stub);
    s->stub = stub;
    return true;
}

/// The site of the stub that traps at an address, or NULL.
const struct site *stub_site(uintptr_t at)
{
    const unsigned count = islands.count;
    for (unsigned i = 0; i < count; i++) {
        const struct stub *page = islands.at[i].page;
        const uintptr_t offset = at - (uintptr_t)page;
        if (offset < PAGE && offset % sizeof *page == offsetof(struct stub, undefined))
            return page[offset / sizeof *page].site;
    }
    return NULL;
}
