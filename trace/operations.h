/* What a device does with one descriptor, without a traced program: valid.c, device.c, crc.c and dif.c. The queue of
 * bindings/queue does lists in software by the same files. */
#ifndef DSA_TRACE_OPERATIONS_H
#define DSA_TRACE_OPERATIONS_H

#include <linux/idxd.h>
#include <stdbool.h>
#include <stddef.h>
#include <stdint.h>

typedef struct dsa_hw_desc descriptor;
typedef struct dsa_completion_record completion;
_Static_assert(sizeof(descriptor) == 64 && sizeof(completion) == 32, "the layout of linux/idxd.h");

enum { GREATEST_BATCH = 1024 };

/* The limits of a work queue, as its files name them. */
struct limits {
    bool may_block; /* block-on-fault is allowed */
    uint32_t greatest_batch;
    uint64_t greatest_transfer;
};

/* ---- valid.c: what the device refuses before it does anything ---- */
/* DSA_COMP_SUCCESS, or the status with which the descriptor ends; of flags *bad has those that are invalid. */
uint8_t valid_descriptor(const descriptor *d, const struct limits *limits, bool is_member, uint32_t *bad);
const char *valid_name(uint8_t status);
bool valid_is_misplaced(const descriptor *d);
/* Whether the device writes a record that says this: one that is not requested is written on failures alone. */
bool valid_has_record(const descriptor *d, uint8_t status);

/* ---- device.c, crc.c and dif.c: operations ---- */
/* An operation on its way. `size` is less than the descriptor's if it is to stop early. */
struct work { const descriptor *d; completion *r; uint32_t size; volatile uint32_t done; };
/* Does one operation, neither batch nor drain; answers the status, and fills the rest of the record, which was zero. */
uint8_t device_do(struct work *w);
/* Whether a move goes from its end, as one to a higher address within its own range. */
bool device_is_from_end(const descriptor *d);
uint32_t bits_reversed(uint32_t number);
uint32_t crc32c(uint32_t crc, const uint8_t *from, size_t size, bool is_plain);
uint16_t crc_t10(uint16_t crc, const uint8_t *from, size_t size);
/* Check, insert, strip or update; *done counts the source bytes that are done, also when a page is missing. */
uint8_t dif_run(const descriptor *d, completion *r, volatile uint32_t *done);

#endif
