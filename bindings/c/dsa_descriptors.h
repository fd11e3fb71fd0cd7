/*
 * Descriptors of Intel's Data Streaming Accelerator for lists of dsa_planner.h: each function writes 64 bytes at `at`,
 * with a completion record that is requested at `record`, a multiple of 32. A list is several of them in a row.
 *
 *   uint8_t list[128];
 *   dsa_put_move(list, 0x1000, 0x2000, 64, 0x8000);
 *   dsa_put_move(list + 64, 0x2000, 0x4000, 64, 0x8020);
 *
 * Nothing is checked here: dsa_plan_list refuses what a list may not have, and says why.
 */
#ifndef DSA_DESCRIPTORS_H
#define DSA_DESCRIPTORS_H

#include <stdint.h>
#include <string.h>

#ifdef __cplusplus
extern "C" {
#endif

enum {
    DSA_BARRIER = 0x0001,        /* the operation begins after a barrier */
    DSA_BLOCK_ON_FAULT = 0x0002, /* the device waits for pages that are absent, if its queue allows that */
    DSA_CHECK_RESULT = 0x0080    /* a compare fails if its result is not the expected one */
};

static inline void dsa_put_number(uint8_t *at, uint64_t value, int bytes)
{
    for (int k = 0; k < bytes; k++)
        at[k] = (uint8_t)(value >> 8 * k);
}

/* An operation code; what is in bytes 16 to 23, 24 to 31 and 40 to 47 goes by it. */
static inline void dsa_put_descriptor(uint8_t *at, uint8_t code, uint64_t first, uint64_t second, uint64_t size,
                                      uint64_t own, uint64_t record)
{
    memset(at, 0, 64);
    at[4] = 0x0c; /* the address of a record is valid, and the record is requested */
    at[7] = code;
    dsa_put_number(at + 8, record, 8);
    dsa_put_number(at + 16, first, 8);
    dsa_put_number(at + 24, second, 8);
    dsa_put_number(at + 32, size < UINT64_C(1) << 32 ? size : 0, 4); /* 0 is refused */
    dsa_put_number(at + 40, own, 8);
}

static inline void dsa_put_move(uint8_t *at, uint64_t source, uint64_t target, uint64_t size, uint64_t record)
{
    dsa_put_descriptor(at, 0x03, source, target, size, 0, record);
}

/* The 8 bytes of the pattern, the lowest first, over and over. */
static inline void dsa_put_fill(uint8_t *at, uint64_t target, uint64_t size, uint64_t pattern, uint64_t record)
{
    dsa_put_descriptor(at, 0x04, pattern, target, size, 0, record);
}

/* The result is 0 if the two ranges are equal, else 1. */
static inline void dsa_put_compare(uint8_t *at, uint64_t first, uint64_t second, uint64_t size, uint64_t record)
{
    dsa_put_descriptor(at, 0x05, first, second, size, 0, record);
}

static inline void dsa_put_compare_pattern(uint8_t *at, uint64_t source, uint64_t size, uint64_t pattern,
                                           uint64_t record)
{
    dsa_put_descriptor(at, 0x06, source, pattern, size, 0, record);
}

/* The delta of delta_size bytes at `delta` is applied to size bytes at target. */
static inline void dsa_put_apply_delta(uint8_t *at, uint64_t delta, uint64_t delta_size, uint64_t target, uint64_t size,
                                       uint64_t record)
{
    dsa_put_descriptor(at, 0x08, delta, target, size, delta_size, record);
}

/* A move to two places, whose low 12 bits are equal. */
static inline void dsa_put_dualcast(uint8_t *at, uint64_t source, uint64_t first, uint64_t second, uint64_t size,
                                    uint64_t record)
{
    dsa_put_descriptor(at, 0x09, source, first, size, second, record);
}

/* The checksum (CRC-32C) of a range, the number in bytes 16 to 19 of the record, as one checksum of what `seed` is that
 * of and of the range; 0 for that of the range alone. */
static inline void dsa_put_crc(uint8_t *at, uint64_t source, uint64_t size, uint32_t seed, uint64_t record)
{
    dsa_put_descriptor(at, 0x10, source, 0, size, seed, record);
}

/* The same, and the range is moved to target, which may not meet it. */
static inline void dsa_put_copy_crc(uint8_t *at, uint64_t source, uint64_t target, uint64_t size, uint32_t seed,
                                    uint64_t record)
{
    dsa_put_descriptor(at, 0x11, source, target, size, seed, record);
}

/* Of a checksum: its seed is read from these four bytes when it is made. At `record + 16` of an earlier checksum, the
 * two make one checksum of both ranges. */
static inline void dsa_seed_from(uint8_t *at, uint64_t seed)
{
    at[6] |= 0x01;
    dsa_put_number(at + 40, 0, 8);
    dsa_put_number(at + 48, seed, 8);
}

/* Sets further flags, of the lower 16. */
static inline void dsa_set_flags(uint8_t *at, uint16_t flags)
{
    at[4] = (uint8_t)(at[4] | (flags & 0xff));
    at[5] = (uint8_t)(at[5] | flags >> 8);
}

/* Of a compare: it fails (status 2) unless the result is this one, 0 for equal or 1. */
static inline void dsa_expect(uint8_t *at, uint8_t result)
{
    dsa_set_flags(at, DSA_CHECK_RESULT);
    at[40] = result;
}

/* The PASID, of 20 bits, and the privilege; with shared virtual memory both stay 0. */
static inline void dsa_set_owner(uint8_t *at, uint32_t pasid, int is_privileged)
{
    const uint32_t within = pasid >> 20 ? UINT32_C(1) << 20 : pasid; /* else a reserved bit, which is refused */
    dsa_put_number(at, within | (is_privileged ? UINT32_C(1) << 31 : 0), 4);
}

#ifdef __cplusplus
}
#endif

#endif
