/* Each allocation fails in turn: of opening, and of planning, also of what is left after a page fault. It has the
 * memory functions of the library, and is linked with calloc, mmap and madvise wrapped.
 *     memory QUEUE [FLAGS]     ends with 0 if each failure is said and leaves nothing open, and prints the sentences */
#include <dirent.h>
#include <errno.h>
#include <stdio.h>
#include <stdlib.h>
#include <string.h>
#include <sys/mman.h>

#include <dsa_queue.h>

enum { PAGE = 4096, OPERATIONS = 6, SIZE = 2 * PAGE };

static long before_failure = -1; /* calls that succeed before the one that fails; -1: all do */
static int wrong;
static char why[DSA_WHY_ROOM], last[DSA_WHY_ROOM];

static int fails(void) { return before_failure >= 0 && before_failure-- == 0; }

void *__real_calloc(size_t count, size_t size);
void *__wrap_calloc(size_t count, size_t size);
void *__wrap_calloc(size_t count, size_t size) { return fails() ? NULL : __real_calloc(count, size); }

void *__real_mmap(void *at, size_t size, int protection, int flags, int file, off_t offset);
void *__wrap_mmap(void *at, size_t size, int protection, int flags, int file, off_t offset);
void *__wrap_mmap(void *at, size_t size, int protection, int flags, int file, off_t offset)
{
    errno = ENOMEM;
    return fails() ? MAP_FAILED : __real_mmap(at, size, protection, flags, file, offset);
}

int __real_madvise(void *at, size_t size, int advice);
int __wrap_madvise(void *at, size_t size, int advice);
int __wrap_madvise(void *at, size_t size, int advice)
{
    errno = ENOMEM;
    return fails() ? -1 : __real_madvise(at, size, advice);
}

struct rattle_block rattle_alloc(size_t size, size_t align)
{
    void *at = fails() ? NULL : aligned_alloc(16, (size + 16) / 16 * 16);
    (void)align;
    return (struct rattle_block){at != NULL, at ? at : last};
}

struct rattle_block rattle_realloc(void *at, size_t old_size, size_t size, size_t align)
{
    struct rattle_block block = rattle_alloc(size, align);
    if (block.ok) {
        memcpy(block.at, at, old_size < size ? old_size : size);
        free(at);
    }
    return block;
}

void rattle_dealloc(void *at) { free(at); }

static void say(void)
{
    if (strcmp(why, last) != 0)
        printf("%s\n", strcpy(last, why));
}

static int entries(const char *folder)
{
    int count = 0;
    DIR *opened = opendir(folder);
    while (opened && readdir(opened))
        count++;
    if (opened)
        closedir(opened);
    return count;
}

/* Opens the queue with one call that fails after another, until none does. */
static struct dsa_queue *opened(const char *file, uint32_t flags)
{
    struct dsa_queue *queue = NULL;
    for (long n = 0; !queue && n < 50; n++) {
        const int files = entries("/proc/self/fd");
        before_failure = n;
        queue = dsa_queue_open(file, &(struct dsa_queue_options){.flags = flags}, why);
        wrong += !queue && (before_failure != -1 || entries("/proc/self/fd") != files || !why[0]);
        before_failure = -1;
        if (!queue)
            say();
    }
    return queue;
}

int main(int argc, char **argv)
{
    static uint8_t data[OPERATIONS + 1][SIZE];
    struct dsa_queue *queue = argc > 1 ? opened(argv[1], argc > 2 ? (uint32_t)atoi(argv[2]) : 0) : NULL;
    struct dsa_list *list = queue ? dsa_list_get(queue) : NULL;
    int counts[4] = {0};
    if (!list)
        return 2;
    int is_reached = 1; /* the call that fails */
    for (long n = 0; is_reached; n++) {
        memset(data, 0, sizeof data);
        memset(data[0], 7, SIZE);
        dsa_list_clear(list);
        for (int i = 0; i < OPERATIONS; i++)
            dsa_list_move(list, data[i], data[i + 1], SIZE);
        before_failure = n;
        const enum dsa_end end = dsa_list_run(list);
        counts[end]++;
        is_reached = before_failure == -1;
        wrong += end != DSA_LIST_DONE && !is_reached;
        before_failure = -1;
        dsa_list_why(list, why);
        wrong += end == DSA_LIST_REFUSED && data[1][0] != 0;
        say();
        dsa_list_clear(list);
        for (int i = 0; i < OPERATIONS; i++)
            dsa_list_move(list, data[i], data[i + 1], SIZE);
        wrong += dsa_list_run(list) != DSA_LIST_DONE || memcmp(data[0], data[OPERATIONS], SIZE) != 0;
    }
    dsa_queue_close(queue);
    printf("refused %d, failed %d, done %d, %d wrong\n", counts[DSA_LIST_REFUSED] > 0, counts[DSA_LIST_FAILED] > 0,
           counts[DSA_LIST_DONE] > 0, wrong);
    return wrong != 0;
}
