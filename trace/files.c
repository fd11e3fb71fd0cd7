/* The device's files: where they are, what is written to them, and which queue a file is of. */
#include "files.h"

#include <errno.h>
#include <fcntl.h>
#include <signal.h>
#include <stdio.h>
#include <stdlib.h>
#include <string.h>
#include <sys/stat.h>
#include <sys/syscall.h>
#include <unistd.h>

#include "maps.h"
#include "trace.h"

static const char *const drivers[] = {"idxd", "user", "dmaengine"};

static int open_plain(const char *path, int flags) { return syscall(SYS_openat, AT_FDCWD, path, flags | O_CLOEXEC, 0); }

/// Reads a small file; answers how many bytes it has, and -1 if it can't be read.
static ssize_t read_plain(const char *path, char *to, size_t room)
{
    const int fd = open_plain(path, O_RDONLY);
    const ssize_t length = fd < 0 ? -1 : syscall(SYS_read, fd, to, room - 1);
    if (fd >= 0)
        syscall(SYS_close, fd);
    to[length > 0 ? length : 0] = 0;
    return length;
}

static void write_plain(const char *folder, const char *name, const char *text)
{
    char path[PATH_MAX];
    snprintf(path, sizeof path, "%s/%s", folder, name);
    const int fd = open_plain(path, O_WRONLY | O_TRUNC);
    if (fd < 0)
        return;
    (void)!syscall(SYS_write, fd, text, strlen(text));
    syscall(SYS_close, fd);
}

/// The path in the tree, if names are turned and this is one of the device's; else the path itself.
const char *files_turned(const char *path, char room[PATH_MAX])
{
    static const char *const places[] = {"/dev/dsa", "/sys/bus/dsa", "/sys/module/idxd"};
    if (!path || path[0] != '/')
        return path;
    for (size_t i = 0; i < sizeof places / sizeof *places; i++) {
        const size_t length = strlen(places[i]);
        if (strncmp(path, places[i], length) || (path[length] && path[length] != '/'))
            continue;
        library_begin();
        if (!settings.root[0])
            return path;
        snprintf(room, PATH_MAX, "%s%s", settings.root, path);
        return room;
    }
    return path;
}

/// The path as the program knows it, of one that may lie in the tree.
char *files_unturned(char *path)
{
    const size_t length = strlen(settings.root);
    if (path && length && strncmp(path, settings.root, length) == 0)
        memmove(path, path + length, strlen(path + length) + 1);
    return path;
}

/// The file by which programs reach a queue: it is there while the queue is bound.
static void make_node(const char *name, bool is_on)
{
    char path[PATH_MAX];
    snprintf(path, sizeof path, "%s/dev/dsa/%s", settings.root, name);
    if (!is_on)
        unlink(path);
    else if (syscall(SYS_mknod, path, S_IFREG | 0666, 0) && errno != EEXIST)
        say("%s: %s", path, strerror(errno));
}

/// A queue or a device, in this folder, is bound to the driver or unbound: its state, and the link to the driver.
static void set_state(const char *folder, const char *driver, bool is_device, bool is_on)
{
    char path[PATH_MAX], to[64];
    write_plain(folder, "state", is_on ? "enabled\n" : "disabled\n");
    snprintf(path, sizeof path, "%s/driver", folder);
    unlink(path);
    snprintf(to, sizeof to, "%s../../../../drivers/%s", is_device ? "" : "../", driver);
    if (is_on)
        (void)!symlink(to, path);
}

/// A name was written to a driver's bind or unbind. With a device its queues go off.
static void bind(const char *name, const char *driver, bool is_on)
{
    char path[PATH_MAX], folder[PATH_MAX / 2], queue[64];
    const bool is_device = strncmp(name, "dsa", 3) == 0;
    snprintf(path, sizeof path, "%s/sys/bus/dsa/devices/%s", settings.root, name);
    if (!files_real_path(path, folder, sizeof folder))
        return;
    set_state(folder, driver, is_device, is_on);
    if (!is_device && strcmp(driver, "user") == 0)
        make_node(name, is_on);
    for (int i = 0; is_device && !is_on && i < 8; i++) {
        snprintf(queue, sizeof queue, "wq%s.%d", name + 3, i);
        snprintf(path, sizeof path, "%s/%s", folder, queue);
        set_state(path, "user", false, false);
        make_node(queue, false);
    }
}

/// Applies what is in the bind and unbind files, and empties them.
void files_settle_now(void)
{
    char file[PATH_MAX], name[32];
    const int kept = errno;
    library_begin();
    for (size_t i = 0; i < 2 * sizeof drivers / sizeof *drivers; i++) {
        const char *driver = drivers[i / 2];
        const bool is_on = i % 2 == 0;
        snprintf(file, sizeof file, "%s/sys/bus/dsa/drivers/%s/%s", settings.root, driver, is_on ? "bind" : "unbind");
        if (read_plain(file, name, sizeof name) < 2)
            continue;
        name[strcspn(name, " \n")] = 0;
        (void)!truncate(file, 0);
        bind(name, driver, is_on);
    }
    errno = kept;
}

/// Before one of the device's files is opened: a program that writes to others by stdio does it in the C library, where
/// we do not see it.
void files_settle(const char *path)
{
    if (path && strstr(path, "/dsa"))
        files_settle_now();
}

/// A number of a queue's folder, or the other one if there is none.
static uint64_t attribute(const struct queue *q, const char *name, uint64_t otherwise)
{
    char path[PATH_MAX], text[32];
    snprintf(path, sizeof path, "%s/sys/bus/dsa/devices/wq%d.%d/%s", settings.root, q->device, q->id, name);
    return read_plain(path, text, sizeof text) > 0 ? strtoull(text, NULL, 0) : otherwise;
}

/// Whether programs may map portals of a device: the driver takes batches off op_cap of one for which they may not.
static bool may_map(int device)
{
    enum { BATCHES = 1 << 1 };
    char path[PATH_MAX], text[256];
    snprintf(path, sizeof path, "%s/sys/bus/dsa/devices/dsa%d/op_cap", settings.root, device);
    if (read_plain(path, text, sizeof text) < 1)
        return true;
    const char *last = strrchr(text, ',');
    return strtoull(last ? last + 1 : text, NULL, 16) & BATCHES;
}

/// Reads what a queue is; false if there is none. A number that is missing is that of the device.
static bool fill(struct queue *q)
{
    char path[PATH_MAX], mode[32];
    snprintf(path, sizeof path, "%s/sys/bus/dsa/devices/wq%d.%d/mode", settings.root, q->device, q->id);
    if (read_plain(path, mode, sizeof mode) < 1)
        return false;
    q->is_shared = mode[0] == 's';
    q->size = attribute(q, "size", 16);
    q->may_map = may_map(q->device);
    q->limits.may_block = attribute(q, "block_on_fault", 1);
    q->limits.greatest_transfer = attribute(q, "max_transfer_size", 1ull << 31);
    q->limits.greatest_batch = attribute(q, "max_batch_size", GREATEST_BATCH);
    if (q->limits.greatest_batch > GREATEST_BATCH)
        q->limits.greatest_batch = GREATEST_BATCH;
    return true;
}

/// Where an open file is, or false.
static bool path_of(int fd, char path[PATH_MAX])
{
    char link[40];
    snprintf(link, sizeof link, "/proc/self/fd/%d", fd);
    const ssize_t length = syscall(SYS_readlink, link, path, PATH_MAX - 1);
    path[length > 0 ? length : 0] = 0;
    return length > 0;
}

/// Whether an open file may be one of the device's: these are small plain files. Names of others are not looked up.
static bool may_be_of_device(int fd)
{
    struct stat s;
    return fd >= 0 && fstat(fd, &s) == 0 && S_ISREG(s.st_mode) && s.st_size < LONGEST_ATTRIBUTE;
}

/// The queue whose file has this path, or NULL; false if it is the file of none.
static bool queue_of(const char *path, struct queue **queue)
{
    int device, id;
    const char *name = strstr(path, "/dev/dsa/wq");
    if (!name || sscanf(name, "/dev/dsa/wq%d.%d", &device, &id) != 2)
        return false;
    library_begin();
    *queue = portals_queue(device, id, fill);
    if (!*queue)
        say("the files of wq%d.%d can't be read (%s), so nothing can be submitted to it", device, id, strerror(errno));
    return true;
}

struct queue *files_mapped(uintptr_t at)
{
    struct mapping m;
    struct queue *found = NULL;
    return maps_find(at, &m) && queue_of(m.line, &found) ? found : NULL;
}

/* What the driver does that is left out here (drivers/dma/idxd/cdev.c of Linux 6.1): idxd_cdev_open answers EBUSY for a
 * dedicated queue while any file of it is open, also if that is still mapped alone; idxd_cdev_mmap and idxd_cdev_write
 * answer EPERM in another process than the one that has opened the file, and idxd_cdev_mmap in one without
 * CAP_SYS_RAWIO if the device is not safe. As there (VM_DONTCOPY), a child of fork does not inherit a map. */

/// What an open file is. A map of a queue's file that is none of a portal would take what is submitted without a word,
/// so a queue that can't be read is none. The path is off the stack when this answers.
__attribute__((noinline)) struct opened files_opened(int fd)
{
    char path[PATH_MAX];
    const int kept = errno;
    struct opened found = {.kind = OF_OTHERS};
    if (may_be_of_device(fd) && path_of(fd, path)) {
        if (queue_of(path, &found.queue))
            found.kind = OF_QUEUE;
        else if (strstr(path, "/sys/bus/dsa/"))
            found.kind = OF_ATTRIBUTE;
    }
    if (found.kind != OF_QUEUE || found.queue)
        errno = kept;
    return found;
}
