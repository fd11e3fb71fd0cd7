/* Touching the program's memory for the device: a page that is missing ends the operation and not the program. */
#include <cpuid.h>
#include <string.h>
#include <ucontext.h>

#include "trace.h"

__thread struct guard guard;

enum { WRITE_ACCESS = 2 }; /* of the error code of a page fault */

/* Whether memory may have protection keys here. */
static bool has_keys;

/// Before CPUID faults.
void memory_begin(void)
{
    enum { FEATURES = 7, KEYS_ARE_ON = 1 << 4 };
    unsigned a, b, c, d;
    has_keys = __get_cpuid_count(FEATURES, 0, &a, &b, &c, &d) && c & KEYS_ARE_ON;
}

/// Permits all keys to this thread: they are none of the device's, and the kernel permits few to a handler.
uint32_t memory_permit(void)
{
    uint32_t before = 0;
    if (has_keys)
        __asm__ volatile(".byte 0x0f, 0x01, 0xee" : "=a"(before) : "c"(0) : "rdx"); /* rdpkru */
    memory_permit_as(0);
    return before;
}

void memory_permit_as(uint32_t keys)
{
    if (has_keys)
        __asm__ volatile(".byte 0x0f, 0x01, 0xef" : : "a"(keys), "c"(0), "d"(0) : "memory"); /* wrpkru */
}

/// Copies bytes, as trace.h says. The copy is a call of memcpy, so that sanitizers see it.
bool memory_copy(void *to, const void *from, size_t size, struct fault *fault)
{
    if (sigsetjmp(guard.escape, 0)) {
        if (fault)
            *fault = guard.fault;
        return false;
    }
    guard.is_set = 1;
    memcpy(to, from, size);
    guard.is_set = 0;
    return true;
}

/// Called by the handler of SIGSEGV and SIGBUS. The mask of signals stays as it is: ours blocks the same ones
/// everywhere.
void memory_escape(const siginfo_t *info, const void *context)
{
    if (!guard.is_set)
        return;
    const ucontext_t *u = context;
    guard.is_set = 0;
    memory_permit_as(0); /* which no return from this handler does */
    guard.fault.address = (uint64_t)info->si_addr;
    guard.fault.is_write = u->uc_mcontext.gregs[REG_ERR] & WRITE_ACCESS;
    siglongjmp(guard.escape, 1);
}
