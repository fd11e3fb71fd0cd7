/* It needs the device, its driver and a configured work queue, or dsa_trace in their place.
 *
 * What to do with portal and staging bytes on real hardware:
 *   1. map the work queue's portal, one page of the queue's device file;
 *   2. plan with settings.staging at memory that the device reads, and have the library write the staging bytes there;
 *   3. for each 64 bytes of portal: write them to the mapped page at once, by MOVDIR64B to a dedicated queue, by ENQCMD
 *      (which may answer "retry") to a shared one;
 *   4. wait for the completion record that their bytes 8..16 point to, by UMWAIT or a pause loop, and stop if its
 *      status is not 1: what follows relies on what failed.
 *
 * It assumes shared virtual addresses: the device reads the process's own addresses, so a pointer is a device address
 * and the PASID in descriptors is 0 (the queue supplies it).
 *
 *     submit /dev/dsa/wq0.0 dedicated|shared
 */
#ifndef _GNU_SOURCE
#define _GNU_SOURCE /* mmap's flags, if the compiler keeps to a standard */
#endif
#include <fcntl.h>
#include <immintrin.h>
#include <inttypes.h>
#include <stdio.h>
#include <stdlib.h>
#include <string.h>
#include <sys/mman.h>
#include <unistd.h>

#include "dsa_descriptors.h"
#include "dsa_planner.h"

enum { BYTES = 1 << 16 };

static void put_move(uint8_t *d, const void *src, void *dst, uint32_t size, void *record)
{
    dsa_put_move(d, (uintptr_t)src, (uintptr_t)dst, size, (uintptr_t)record);
    dsa_set_flags(d, DSA_BLOCK_ON_FAULT);
}

__attribute__((target("movdir64b"))) static void submit_dedicated(void *portal, const void *entry)
{
    _movdir64b(portal, entry);
}

__attribute__((target("enqcmd"))) static void submit_shared(void *portal, const void *entry)
{
    while (_enqcmd(portal, entry) != 0) /* the queue is full */
        _mm_pause();
}

/* Waits until the record has a status. The line of the record is watched first and looked at again then, so that a write
 * between the two is not missed; UMWAIT ends by itself after the operating system's limit. */
__attribute__((target("waitpkg"))) static uint8_t wait_sleeping(volatile uint8_t *record)
{
    while (record[0] == 0) {
        _umonitor((void *)record);
        if (record[0] == 0)
            _umwait(0, __rdtsc() + 100000);
    }
    return record[0];
}

static uint8_t wait_spinning(volatile uint8_t *record)
{
    while (record[0] == 0)
        _mm_pause();
    return record[0];
}

static int has_waitpkg(void)
{
    unsigned a = 7, b, c = 0, d;
    __asm__ volatile("cpuid" : "+a"(a), "=b"(b), "+c"(c), "=d"(d));
    return c >> 5 & 1;
}

/* Submits the entries one after another, each once the one before is done. */
static int run(void *page, int shared, const uint8_t *portal, uint64_t len)
{
    for (uint64_t at = 0; at < len; at += 64) {
        _Alignas(64) uint8_t entry[64];
        uint64_t record;
        memcpy(entry, portal + at, 64);
        memcpy(&record, entry + 8, 8);
        _mm_sfence(); /* the staging bytes are seen before the entry */
        if (shared)
            submit_shared(page, entry);
        else
            submit_dedicated(page, entry);
        volatile uint8_t *status = (volatile uint8_t *)(uintptr_t)record;
        uint8_t found = has_waitpkg() ? wait_sleeping(status) : wait_spinning(status);
        if (found != 1) {
            fprintf(stderr, "entry %" PRIu64 ": status %u\n", at / 64, found);
            return 1;
        }
    }
    return 0;
}

int main(int argc, char **argv)
{
    if (argc != 3) {
        fprintf(stderr, "usage: submit /dev/dsa/wqD.Q dedicated|shared\n");
        return 2;
    }
    int file = open(argv[1], O_RDWR);
    if (file < 0) {
        perror(argv[1]);
        return 1;
    }
    void *page = mmap(NULL, 4096, PROT_WRITE, MAP_SHARED | MAP_POPULATE, file, 0);
    if (page == MAP_FAILED) {
        perror(argv[1]);
        return 1;
    }
    /* a, b and c hold data; b is copied from a and c from b, so the second move waits for the first */
    uint8_t *a = aligned_alloc(4096, BYTES), *b = aligned_alloc(4096, BYTES), *c = aligned_alloc(4096, BYTES);
    uint8_t *records = aligned_alloc(64, 64), list[128], portal[128];
    /* the staging area is at a multiple of 64, and the device writes the batch's record there */
    uint8_t *staging = aligned_alloc(64, DSA_STAGING_AREA(2));
    if (!a || !b || !c || !records || !staging)
        return 1;
    memset(a, 0x5a, BYTES);
    memset(b, 0, BYTES);
    memset(c, 0, BYTES);
    memset(records, 0, 64);
    put_move(list, a, b, BYTES, records);
    put_move(list + 64, b, c, BYTES, records + 32);

    const struct dsa_settings settings = {
        .version = 1,
        .greatest_batch = 32,         /* GENCAP and the queue's configuration have both limits */
        .greatest_transfer = 1 << 21,
        .lone = 10, .batch = 14, .fence = 3, /* measure these for your machine */
        .staging = (uintptr_t)staging,
    };
    struct dsa_planned planned;
    struct dsa_refusal refusal;
    uint32_t code = dsa_plan_list(&settings, &settings.batch, 0, list, sizeof list, portal, sizeof portal, staging,
                                  DSA_STAGING_ROOM(2), &planned, &refusal);
    if (code != DSA_OK) {
        char text[DSA_REFUSAL_TEXT_ROOM];
        fprintf(stderr, "refused %" PRIu32 ": %.*s\n", code, (int)dsa_refusal_text(&refusal, text, sizeof text), text);
        return 1;
    }
    int failed = run(page, strcmp(argv[2], "shared") == 0, portal, planned.portal_len);
    if (!failed && memcmp(a, c, BYTES) == 0)
        printf("copied\n");
    munmap(page, 4096);
    close(file);
    return failed;
}
