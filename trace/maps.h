/* What is mapped where. */
#ifndef DSA_TRACE_MAPS_H
#define DSA_TRACE_MAPS_H

#include <stdbool.h>
#include <stdint.h>

/* `line` is what /proc/self/maps has of it, with the path at its end, cut if that is long. */
struct mapping { uintptr_t low, high; bool is_code, is_private_code; char line[512]; };

/* The mapping that has an address; false if none has, or that can't be known. It takes no lock. */
bool maps_find(uintptr_t at, struct mapping *m);
/* Shows one mapping after another in *m, until `see` answers true; answers whether it did. It takes no lock. */
bool maps_each(struct mapping *m, bool (*see)(const struct mapping *m, void *context), void *context);

#endif
