/* Changing code that other threads may be executing. The file /proc/self/mem writes to code without making it writable
 * for anyone; the kernel's membarrier has all processors fetch code anew. */
#include <fcntl.h>
#include <linux/membarrier.h>
#include <sys/syscall.h>
#include <unistd.h>

#include "maps.h"
#include "sites.h"

static long barrier(int command) { return syscall(SYS_membarrier, command, 0, 0); }

/// Asks for the barriers. It is cheap only while there is one thread, or again.
bool patch_begin(void) { return barrier(MEMBARRIER_CMD_REGISTER_PRIVATE_EXPEDITED_SYNC_CORE) == 0; }

bool patch_sync(void) { return barrier(MEMBARRIER_CMD_PRIVATE_EXPEDITED_SYNC_CORE) == 0; }

/// Whether the range is code that no other process shares: a change of shared code would be seen by others, who have
/// no stub.
bool patch_is_private(uintptr_t at, size_t size)
{
    struct mapping m;
    return maps_find(at, &m) && at + size <= m.high && m.is_private_code;
}

/// The file to write by. A child of fork may have to ask for barriers of its own.
int patch_open(void)
{
    return patch_begin() ? (int)syscall(SYS_openat, AT_FDCWD, "/proc/self/mem", O_RDWR | O_CLOEXEC, 0) : -1;
}

/// Reads as much as is there.
void patch_read(int file, uintptr_t at, void *bytes, size_t size)
{
    (void)!syscall(SYS_pread64, file, bytes, size, at);
}

bool patch_bytes(int file, uintptr_t at, const void *bytes, size_t size)
{
    return syscall(SYS_pwrite64, file, bytes, size, at) == (long)size;
}

void patch_close(int file)
{
    if (file >= 0)
        syscall(SYS_close, file);
}
