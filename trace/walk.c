/* Walks a call stack by the unwinder of the compiler's library, which is linked into this one: a program may have
 * another one, or none. It goes through our own frames to the program's: through that of a signal, which it knows, and
 * through a stub, which stub.c describes to it. It allocates nothing, and with glibc from 2.35 on it takes no lock. */
#include "walk.h"

#include <unwind.h>

/* What one walk has come to. Our own frames are first, up to that of the instruction. */
struct walking { struct walk *to; const struct submitter *by; unsigned most, passed; bool is_inside; };

/// Whether a frame is that of the instruction: a signal interrupts it, and after a stub or a call it goes on.
static bool is_site(const struct walking *w, uintptr_t at) { return at == w->by->at || at == w->by->next; }

/// Takes one frame.
static _Unwind_Reason_Code take(struct _Unwind_Context *c, void *walking)
{
    enum { OURS = 64 };
    struct walking *w = walking;
    struct walk *to = w->to;
    int is_next = 0; /* it goes on with this instruction, as after a signal: no call was before it */
    const uintptr_t at = _Unwind_GetIPInfo(c, &is_next);
    const uintptr_t *place = (const uintptr_t *)_Unwind_GetCFA(c) - 1; /* the CFA is that of the frame it has called */
    if (!w->is_inside && !is_site(w, at))
        return ++w->passed < OURS ? _URC_NO_REASON : _URC_END_OF_STACK;
    if (at == 0 || to->count == w->most)
        return _URC_END_OF_STACK;
    to->is_plain &= !w->is_inside || *place == at; /* not so around a signal */
    w->is_inside = true;
    to->frames[to->count] = (struct frame){at + (to->count && is_next), place};
    to->count++;
    return _URC_NO_REASON;
}

/// Code that no table describes, such as what a compiler makes at run time, often has frame pointers. What is no code
/// the launcher leaves out.
static void walk_frame_pointers(struct walk *w, const struct submitter *s, unsigned most)
{
    enum { FARTHEST = 1 << 20 };
    const uintptr_t *frame = (const uintptr_t *)s->bp;
    uintptr_t low = s->sp;
    while (w->count < most && (uintptr_t)frame % sizeof *frame == 0 && (uintptr_t)frame - low < FARTHEST) {
        w->frames[w->count++] = (struct frame){frame[1], frame + 1};
        low = (uintptr_t)(frame + 1);
        frame = (const uintptr_t *)*frame;
    }
}

/// Walks the stack, as walk.h says.
void walk_stack(struct walk *w, const struct submitter *s, unsigned most)
{
    struct walking walking = {.to = w, .by = s, .most = most};
    w->count = 0;
    w->is_plain = true;
    if (sigsetjmp(guard.escape, 0) == 0) {
        guard.is_set = 1;
        _Unwind_Backtrace(take, &walking);
        w->count += w->count == 0;
        if (w->count == 1)
            walk_frame_pointers(w, s, most);
        guard.is_set = 0;
    } else
        w->is_plain = false;
    w->count += w->count == 0;
    const bool is_call = s->at == s->next; /* then its end is taken: what follows may be of another line */
    w->frames[0].at = s->at - is_call;
}

/// Whether the return addresses are where they were. The memory may be gone.
bool walk_is_same(const struct frame *frames, unsigned count)
{
    if (sigsetjmp(guard.escape, 0))
        return false;
    guard.is_set = 1;
    bool is_same = true;
    for (unsigned i = 1; i < count; i++)
        is_same &= *(const volatile uintptr_t *)frames[i].place == frames[i].at;
    guard.is_set = 0;
    return is_same;
}
