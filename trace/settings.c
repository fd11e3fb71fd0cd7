/* Settings to and from variables of the environment. */
#include "settings.h"

#include <stddef.h>
#include <stdio.h>
#include <stdlib.h>
#include <string.h>

const char *const order_names[4] = {"fifo", "members", "data", "all"};

static const struct number { const char *name; size_t at; } numbers[] = {
    {"DSA_TRACE_SEED", offsetof(struct settings, seed)},   {"DSA_TRACE_DELAY", offsetof(struct settings, delay)},
    {"DSA_TRACE_RETRY", offsetof(struct settings, retry)}, {"DSA_TRACE_FAULT", offsetof(struct settings, fault)},
    {"DSA_TRACE_WATCH", offsetof(struct settings, watch)}, {"DSA_TRACE_CPUID", offsetof(struct settings, cpuid)},
    {"DSA_TRACE_HOLD", offsetof(struct settings, hold)},   {"DSA_TRACE_DRAWN", offsetof(struct settings, drawn)},
    {"DSA_TRACE_SIGNALS", offsetof(struct settings, signals)},
    {"DSA_TRACE_STACKS", offsetof(struct settings, stacks)},
    {"DSA_TRACE_VERBOSE", offsetof(struct settings, verbose)},
};
enum { NUMBERS = sizeof numbers / sizeof *numbers };

/// The settings when no option is given.
struct settings settings_default(void)
{
    return (struct settings){.order = ORDER_DATA, .seed = 1, .delay = 100, .stacks = 16};
}

/// Sets the variables of the environment, for the program that is started next.
bool settings_export(const struct settings *s)
{
    char text[24];
    int fault = 0;
    for (size_t i = 0; i < NUMBERS; i++) {
        uint64_t value;
        memcpy(&value, (const char *)s + numbers[i].at, sizeof value);
        snprintf(text, sizeof text, "%llu", (unsigned long long)value);
        fault |= setenv(numbers[i].name, text, 1);
    }
    fault |= setenv("DSA_TRACE_ORDER", order_names[s->order], 1);
    fault |= setenv("DSA_TRACE_OUT", s->out, 1);
    fault |= setenv("DSA_TRACE_BOARD", s->board, 1);
    fault |= setenv("DSA_TRACE_ROOT", s->root, 1);
    return !fault;
}

/// Takes what the environment has; a variable that is not set leaves its setting as it is.
void settings_import(struct settings *s)
{
    for (size_t i = 0; i < NUMBERS; i++) {
        const char *text = getenv(numbers[i].name);
        const uint64_t value = text ? strtoull(text, NULL, 10) : 0;
        if (text)
            memcpy((char *)s + numbers[i].at, &value, sizeof value);
    }
    const char *name = getenv("DSA_TRACE_ORDER"), *out = getenv("DSA_TRACE_OUT"), *root = getenv("DSA_TRACE_ROOT");
    const char *board = getenv("DSA_TRACE_BOARD");
    for (int i = 0; name && i < 4; i++)
        if (strcmp(name, order_names[i]) == 0)
            s->order = (enum order)i;
    snprintf(s->out, sizeof s->out, "%s", out ? out : "");
    snprintf(s->board, sizeof s->board, "%s", board ? board : "");
    snprintf(s->root, sizeof s->root, "%s", root ? root : "");
}
