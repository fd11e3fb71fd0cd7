/* What an instruction does that the CPU does not take, or that touches a portal, on the registers that a signal
 * (signals.c) or a stub (stub.c) has saved. */
#include <asm/prctl.h>
#include <sched.h>
#include <sys/syscall.h>
#include <unistd.h>

#include "emulate.h"
#include "trace.h"

enum { CARRY_AND_LIKE = 0x8d5, ZERO_FLAG = 0x40 };

static uint64_t base_of(enum segment segment)
{
    uint64_t base = 0;
    if (segment != NO_SEGMENT)
        syscall(SYS_arch_prctl, segment == SEGMENT_FS ? ARCH_GET_FS : ARCH_GET_GS, &base);
    return base;
}

/// MOVDIR64B or ENQCMD. To a portal it is a submission; elsewhere MOVDIR64B is a plain store of 64 bytes.
static enum outcome move_64(uint64_t at, struct registers *r, struct emulated *e)
{
    _Alignas(64) descriptor d;
    const bool is_enqueued = e->in.kind == ENQCMD;
    struct queue *queue = portals_at(e->to);
    if (e->to % sizeof d)
        return FAULTED;
    if (!memory_copy(&d, (const void *)e->in.address, sizeof d, &e->fault))
        return UNREADABLE;
    if (!queue && !is_enqueued && memory_copy((void *)e->to, &d, sizeof d, &e->fault))
        return DONE;
    if (!queue && !(queue = portals_adopt(e->to)))
        return is_enqueued ? NO_PORTAL : FAULTED;
    const struct submitter by = {.at = at, .next = at + e->in.length, .sp = r->general[4], .bp = r->general[5]};
    const enum accepted accepted = order_submit(queue, &d, is_enqueued, &by);
    if (is_enqueued)
        r->flags = (r->flags & ~(uint64_t)CARRY_AND_LIKE) | (accepted == FULL ? ZERO_FLAG : 0);
    return SUBMITTED;
}

/// Does the instruction of this code, as emulate.h says.
enum outcome emulate(const uint8_t *code, uint64_t at, struct registers *r, struct emulated *e)
{
    e->fault = (struct fault){0}; /* without an address: a general protection fault */
    if (!decode(code, at, r->general, &e->in))
        return NOT_OURS;
    e->to = e->in.is_narrow ? (uint32_t)r->general[e->in.reg] : r->general[e->in.reg];
    e->in.address += base_of(e->in.segment);
    if (e->in.kind == MOVDIR64B || e->in.kind == ENQCMD)
        return move_64(at, r, e);
    if (e->in.kind == MOVDIRI) {
        const size_t size = e->in.is_wide ? 8 : 4;
        return memory_copy((void *)e->in.address, &r->general[e->in.reg], size, &e->fault) ? DONE : FAULTED;
    }
    if (e->in.kind != UMONITOR) { /* a wait may end at any time; no carry: not by the system's limit */
        order_program_waits();
        sched_yield();
        r->flags &= ~(uint64_t)CARRY_AND_LIKE;
    }
    return DONE;
}
