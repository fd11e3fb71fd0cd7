/* Numbers that depend on a seed and on how many were drawn before. */
#ifndef DSA_TRACE_RANDOM_H
#define DSA_TRACE_RANDOM_H

#include <stdint.h>

struct random { uint64_t seed, drawn; };
uint64_t random_at(uint64_t seed, uint64_t place);
uint64_t random_next(struct random *r);

#endif
