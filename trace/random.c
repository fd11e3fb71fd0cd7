/* Random numbers by place: the same seed and the same place give the same number. */
#include "random.h"

static const uint64_t golden = 0x9e3779b97f4a7c15;

/// The number at a place (splitmix64).
uint64_t random_at(uint64_t seed, uint64_t place)
{
    uint64_t z = (seed * golden ^ place) + golden;
    for (int i = 0; i < 2; i++) {
        z = (z ^ z >> 30) * 0xbf58476d1ce4e5b9;
        z = (z ^ z >> 27) * 0x94d049bb133111eb;
        z ^= z >> 31;
    }
    return z;
}

/// The next number.
uint64_t random_next(struct random *r)
{
    return random_at(r->seed, r->drawn++);
}
