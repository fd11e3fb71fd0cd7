/* Submits before main, in a constructor: of a library (-DLIBRARY -shared), and of the program that is linked to it. The
 * library asks for a handler of SIGSEGV before it does, and with a word the program faults. */
#include "client.h"

#include <signal.h>

static inline void submit_three(const char *who)
{
    void *portal = portal_of("/dev/dsa/wq0.0");
    volatile completion *r = fresh(4096);
    uint8_t *memory = fresh(4096);
    for (int i = 0; i < 3; i++) {
        const descriptor d = move(memory, memory + 64, 64, r);
        r->status = 0;
        submit(portal, &d);
        await(r);
    }
    fprintf(stderr, "%s: status %#x\n", who, r->status);
}

int early_value(void);

#ifdef LIBRARY

static void caught(int number) { _exit(number); }

__attribute__((constructor)) static void begin(void)
{
    signal(SIGSEGV, caught);
    submit_three("the library");
}

int early_value(void) { return 0; }

#else

__attribute__((constructor)) static void begin(void) { submit_three("the program"); }

int main(int argc, char **argv)
{
    (void)argv;
    return argc > 1 ? *(volatile int *)8 : early_value();
}

#endif
