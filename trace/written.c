/* What programs write to open files: descriptors to a queue's, as newer drivers take them (idxd_cdev_write of Linux),
 * and text to an attribute of the device. */
#include <errno.h>
#include <sys/syscall.h>
#include <sys/uio.h>
#include <unistd.h>

#include "trace.h"

/// Submits one entry, with signals blocked as in our handler: so none finds its thread with a lock of ours, and a fault
/// of the copy leaves them as they are. Answers 0, or the error. The driver takes no batch for a device of version 1.0,
/// whose members it can't check, and no record at an odd place.
static int submit_blocked(struct queue *q, const uint8_t *from, const struct submitter *by)
{
    descriptor d;
    int error = EFAULT;
    const uint64_t before = signals_block();
    order_arrive();
    if (memory_copy(&d, from, sizeof d, NULL))
        error = d.opcode == DSA_OPCODE_BATCH || d.completion_addr % sizeof(completion) ? EINVAL
                : order_submit(q, &d, q->is_shared, by) == ACCEPTED                      ? 0
                                                                                          : EAGAIN;
    order_leave();
    signals_restore(before);
    return error;
}

/// Submits what is written to a queue's file; what is no whole descriptor is left.
static ssize_t write_entries(struct queue *q, const uint8_t *from, size_t size, const struct submitter *by)
{
    size_t at = 0;
    int error = q && board_is_there() ? 0 : EACCES;
    for (; !error && at + sizeof(descriptor) <= size; at += error ? 0 : sizeof(descriptor))
        error = submit_blocked(q, from + at, by);
    if (error && q)
        errno = error;
    return error && !at ? -1 : (ssize_t)at;
}

/// An attribute has what was written last, and nothing after it.
static ssize_t write_attribute(int fd, const void *from, size_t size)
{
    (void)!syscall(SYS_ftruncate, fd, 0);
    const ssize_t written = syscall(SYS_pwrite64, fd, from, size, 0);
    if (written > 0)
        files_settle_now();
    return written;
}

/// Writes to a file of the device; false if it is none.
static bool write_to_device(int fd, const void *from, size_t size, ssize_t *written, const struct submitter *by)
{
    const struct opened file = fd > STDERR_FILENO && size ? files_opened(fd) : (struct opened){.kind = OF_OTHERS};
    if (file.kind == OF_QUEUE)
        *written = write_entries(file.queue, from, size, by);
    else if (file.kind == OF_ATTRIBUTE && size < LONGEST_ATTRIBUTE)
        *written = write_attribute(fd, from, size);
    else
        return false;
    return true;
}

/* Who has called one of the functions below, which all have a frame pointer by this. */
#define CALLER \
    &(struct submitter){(uintptr_t)__builtin_return_address(0), (uintptr_t)__builtin_return_address(0), \
                        (uintptr_t)__builtin_frame_address(0), *(uintptr_t *)__builtin_frame_address(0)}

REAL_OF(write);

/// Finds the C library's own function before a handler of signals may write.
void written_begin(void) { (void)REAL(write); }

/* Of other files the C library's own functions also end threads that are cancelled. */

ssize_t write(int fd, const void *from, size_t size)
{
    ssize_t written;
    return write_to_device(fd, from, size, &written, CALLER) ? written : REAL(write)(fd, from, size);
}

ssize_t pwrite(int fd, const void *from, size_t size, off_t at)
{
    REAL_OF(pwrite);
    ssize_t written;
    return write_to_device(fd, from, size, &written, CALLER) ? written : REAL(pwrite)(fd, from, size, at);
}

ssize_t pwrite64(int fd, const void *from, size_t size, off64_t at)
{
    REAL_OF(pwrite64);
    ssize_t written;
    return write_to_device(fd, from, size, &written, CALLER) ? written : REAL(pwrite64)(fd, from, size, at);
}

ssize_t writev(int fd, const struct iovec *parts, int count)
{
    REAL_OF(writev);
    ssize_t sum = 0, written = 0;
    if (count <= 0 || fd <= STDERR_FILENO || files_opened(fd).kind == OF_OTHERS)
        return REAL(writev)(fd, parts, count);
    for (int i = 0; i < count && written == (i ? (ssize_t)parts[i - 1].iov_len : 0); i++) {
        if (!write_to_device(fd, parts[i].iov_base, parts[i].iov_len, &written, CALLER))
            written = REAL(write)(fd, parts[i].iov_base, parts[i].iov_len);
        sum += written > 0 ? written : 0;
    }
    return written < 0 && !sum ? -1 : sum;
}
