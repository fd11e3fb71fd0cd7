/* Four threads record batches by the lines of docs/USING.md, which are in the file RECORDER. An entry has the number of its
 * thread as PASID, and a member its index as the address of its record: tests/bindings.py looks for mixed ones. */
#include <linux/idxd.h>
#include <pthread.h>
#include <stdint.h>
#include <stdio.h>
#include <stdlib.h>
#include <time.h>

enum { THREADS = 4, TURNS = 200, MEMBERS = 3 };

static FILE *recording;

/* Writes, and lets the other threads come between. */
static size_t fwrite_and_yield(const void *items, size_t size, size_t count, FILE *to)
{
    const size_t written = fwrite(items, size, count, to);
    nanosleep(&(struct timespec){0, 1000}, NULL);
    return written;
}
#define fwrite fwrite_and_yield

static void submitted(const struct dsa_hw_desc *desc)
{
#include RECORDER
}

static void *submit(void *thread)
{
    struct dsa_hw_desc members[MEMBERS] = {{0}}, batch = {0};
    batch.pasid = (uint32_t)(uintptr_t)thread;
    batch.opcode = DSA_OPCODE_BATCH;
    batch.desc_list_addr = (uintptr_t)members;
    batch.desc_count = MEMBERS;
    for (uint64_t k = 0; k < MEMBERS; k++) {
        members[k].pasid = batch.pasid;
        members[k].completion_addr = k;
    }
    for (int turn = 0; turn < TURNS; turn++)
        submitted(&batch);
    return NULL;
}

int main(int argc, char **argv)
{
    pthread_t threads[THREADS];
    recording = argc == 2 ? fopen(argv[1], "wb") : NULL;
    if (!recording)
        return EXIT_FAILURE;
    for (uintptr_t thread = 0; thread < THREADS; thread++)
        if (pthread_create(&threads[thread], NULL, submit, (void *)thread))
            return EXIT_FAILURE;
    for (int thread = 0; thread < THREADS; thread++)
        pthread_join(threads[thread], NULL);
    return fclose(recording) ? EXIT_FAILURE : EXIT_SUCCESS;
}
