/* A kernel that keeps portals from the program, and takes descriptors by write(), which ends with the errors of the
 * command line: mmap of a file, and write of 64 bytes or none, are wrapped.
 *     kernel QUEUE [ERRNO ..]     a list once for each, prints the sentences, and how many entries were written
 * 0: the entry is taken. The errno -1: this kernel takes no descriptors by write(). */
#include <errno.h>
#include <stdio.h>
#include <stdlib.h>
#include <string.h>
#include <sys/mman.h>
#include <unistd.h>

#include <dsa_queue.h>

static int error, written; /* of the next write, and how many were taken */

void *__real_mmap(void *at, size_t size, int protection, int flags, int file, off_t offset);
void *__wrap_mmap(void *at, size_t size, int protection, int flags, int file, off_t offset);
void *__wrap_mmap(void *at, size_t size, int protection, int flags, int file, off_t offset)
{
    if (file < 0)
        return __real_mmap(at, size, protection, flags, file, offset);
    errno = EPERM;
    return MAP_FAILED;
}

ssize_t __real_write(int file, const void *from, size_t size);
ssize_t __wrap_write(int file, const void *from, size_t size);
ssize_t __wrap_write(int file, const void *from, size_t size)
{
    errno = error < 0 ? EINVAL : error;
    if (errno && (size || error < 0)) {
        error = error == EAGAIN || error == EBUSY || error == EINTR ? 0 : error; /* the next one is taken */
        return -1;
    }
    const ssize_t taken = __real_write(file, from, size);
    written += taken == 64;
    return taken;
}

int main(int argc, char **argv)
{
    static _Alignas(64) char from[4][64], to[4][64];
    char why[DSA_WHY_ROOM];
    error = argc > 2 && atoi(argv[2]) < 0 ? -1 : 0;
    struct dsa_queue *queue = argc > 1 ? dsa_queue_open(argv[1], NULL, why) : NULL;
    if (!queue)
        return printf("%s\n", argc > 1 ? why : "usage: kernel QUEUE [ERRNO ..]"), 2;
    struct dsa_list *list = dsa_list_get(queue);
    for (int i = 0; i < 4; i++)
        dsa_list_move(list, from[i], to[i], 64);
    for (int i = 2; i < argc; i++) {
        error = atoi(argv[i]);
        memset(from, i, sizeof from);
        const int is_taken = error == 0 || error == EAGAIN || error == EBUSY || error == EINTR;
        const int is_done = dsa_list_run(list) == DSA_LIST_DONE;
        if (is_done != is_taken || (memcmp(from, to, sizeof from) == 0) != is_taken)
            printf("errno %s: a wrong end\n", argv[i]);
        printf("%s\n", dsa_list_why(list, why));
    }
    printf("%d entries\n", written);
    dsa_queue_close(queue);
    return 0;
}
