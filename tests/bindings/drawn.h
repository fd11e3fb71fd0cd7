/* What random tests in C share: numbers that a seed draws, and numbers in the bytes of a descriptor. */
#ifndef DRAWN_H
#define DRAWN_H
#include <stdint.h>

static uint64_t seed;

static inline uint64_t below(uint64_t n)
{
    seed = seed * UINT64_C(6364136223846793005) + UINT64_C(1442695040888963407);
    return (seed >> 33) % n;
}

static inline void put(uint8_t *at, uint64_t value)
{
    for (int i = 0; i < 8; i++)
        at[i] = (uint8_t)(value >> (8 * i));
}

#endif
