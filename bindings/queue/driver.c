/* What the driver idxd says of a work queue in sysfs, its portal, and its limits. The files of sysfs are few and
 * documented; libaccel-config would read the same ones, and is for configuring. */
#include <dirent.h>
#include <errno.h>
#include <fcntl.h>
#include <stdio.h>
#include <stdlib.h>
#include <sys/mman.h>
#include <unistd.h>

#include "queue.h"

enum { TEXT = STATE_ROOM, OVERLAP_SUPPORT = 2 };
static const char folder[] = "/sys/bus/dsa/devices";

/// The name that sysfs has for a queue's file.
static const char *name_of(const char *file)
{
    const char *slash = strrchr(file, '/');
    return slash ? slash + 1 : file;
}

/// Reads the first line of a file of a queue or a device.
static bool attribute(const char *part, const char *name, char text[TEXT])
{
    char path[512];
    snprintf(path, sizeof path, "%s/%s/%s", folder, part, name);
    FILE *file = fopen(path, "re");
    const bool is_read = file && fgets(text, TEXT, file);
    if (file)
        fclose(file);
    if (is_read)
        text[strcspn(text, "\n")] = 0;
    return is_read;
}

static uint64_t number(const char *part, const char *name)
{
    char text[TEXT];
    return attribute(part, name, text) ? strtoull(text, NULL, 0) : 0;
}

/// The device of a queue: dsa0 of wq0.1. Other devices of the driver, as iax1, have queues of the same names.
static bool device_of(const char *queue, char device[TEXT])
{
    char text[TEXT];
    unsigned id;
    if (sscanf(queue, "wq%u.", &id) != 1)
        return false;
    snprintf(device, TEXT, "dsa%u", id);
    return attribute(device, "state", text);
}

/// Whether the driver says that user programs may submit to the queue by their own addresses.
static bool is_usable(const char *file, const char *queue, const char *device, char why[DSA_WHY_ROOM])
{
    char state[TEXT], type[TEXT];
    if (!attribute(queue, "state", state) || !attribute(queue, "type", type))
        return why_not(why, "%s: %s has no such queue; accel-config list shows those that there are", file, folder);
    if (strcmp(state, "enabled") != 0)
        return why_not(why, "%s: the queue is %s; accel-config enable-wq enables it", file, state);
    if (strcmp(type, "user") != 0)
        return why_not(why, "%s: the queue is of type %s; accel-config config-wq --type=user makes it one for programs",
                       file, type);
    if (number(device, "pasid_enabled") != 1)
        return why_not(why, "%s: the device can't use addresses of programs (%s/pasid_enabled is not 1); start Linux "
                       "with intel_iommu=on,sm_on", file, device);
    return true;
}

/// Maps the portal. If the kernel keeps it from the program, entries are written to the file instead. In Linux 6.1.192
/// (drivers/dma/idxd/cdev.c; 6.10 was the first) idxd_cdev_mmap answers EPERM for devices that are not
/// user_submission_safe, those of version 1.0, unless the program has CAP_SYS_RAWIO. idxd_cdev_write takes descriptors
/// one after another, 64 bytes each, and answers EINVAL to a batch for such a device, and to a completion address that
/// is no multiple of 32; EAGAIN if a shared queue is full; and EPERM in a child of fork. For a dedicated queue it
/// submits whether there is room or not.
static bool map_portal(struct port *port, char why[DSA_WHY_ROOM])
{
    const int opened = open(port->name, O_RDWR | O_CLOEXEC);
    if (opened < 0 && (errno == EACCES || errno == EPERM))
        return why_not(why, "%s: there is no right to open it; chgrp and chmod, or a rule of udev, give it",
                       port->name);
    if (opened < 0 && errno == EBUSY)
        return why_not(why, "%s: the queue is dedicated, and another program has it; use another queue", port->name);
    if (opened < 0)
        return why_not(why, "%s can't be opened: %s", port->name, strerror(errno));
    port->portal = mmap(NULL, PAGE, PROT_WRITE, MAP_SHARED | MAP_POPULATE, opened, 0);
    const int error = errno;
    if (port->portal == MAP_FAILED)
        port->portal = NULL;
    const bool is_kept = !port->portal && (error == EPERM || error == EACCES);
    port->file = is_kept && write(opened, "", 0) == 0 ? opened : -1;
    if (port->file < 0)
        close(opened);
    if (port->portal || port->file >= 0)
        return true;
    return why_not(why, is_kept ? "%s: the kernel lets only programs with CAP_SYS_RAWIO map this portal (%s), and "
                                  "takes no descriptors by write(); Linux 6.10 or later does"
                                : "%s: the portal can't be mapped: %s", port->name, strerror(error));
}

static void close_port(struct port *port, bool is_own)
{
    if (port->portal && is_own)
        munmap(port->portal, PAGE);
    if (port->file >= 0)
        close(port->file);
}

void driver_close(struct dsa_queue *queue, bool is_own)
{
    while (queue->ports)
        close_port(&queue->port[--queue->ports], is_own);
}

static uint64_t lesser(uint64_t one, uint64_t other) { return one < other ? one : other; }

/// Lowers the limits to those of one more work queue. No batch can be written to a file.
static void set_limits(struct dsa_queue *queue, const struct port *port, const char *name, const char *device)
{
    struct dsa_settings *settings = &queue->settings;
    const uint64_t batch = port->portal ? number(name, "max_batch_size") : 0;
    settings->greatest_batch = lesser(settings->greatest_batch, batch);
    settings->greatest_transfer = lesser(settings->greatest_transfer, number(name, "max_transfer_size") / 8 * 8);
    if (!(number(device, "gen_cap") & OVERLAP_SUPPORT))
        queue->may_overlap = false;
    if (number(name, "block_on_fault") != 1)
        queue->flags &= ~(uint32_t)DSA_QUEUE_BLOCK_ON_FAULT;
}

bool driver_open(struct dsa_queue *queue, const char *file, char why[DSA_WHY_ROOM])
{
    struct port *port = &queue->port[queue->ports];
    const char *name = name_of(file);
    char device[TEXT], mode[TEXT] = "";
    snprintf(port->name, sizeof port->name, "%s", file);
    if (!device_of(name, device))
        return why_not(why, "%s: %s has no such queue of DSA; accel-config list shows those that there are", file,
                       folder);
    if (!is_usable(file, name, device, why) || !map_portal(port, why))
        return false;
    port->is_shared = attribute(name, "mode", mode) && strcmp(mode, "shared") == 0;
    port->credits = (long)number(name, "size");
    if (!port->is_shared && port->credits < 1) {
        close_port(port, true);
        return why_not(why, "%s: the driver does not say how many entries the queue holds (%s/%s/size)", file, folder,
                       name);
    }
    set_limits(queue, port, name, device);
    queue->ports++;
    return true;
}

const char *driver_state(const struct port *port, char state[STATE_ROOM])
{
    return attribute(name_of(port->name), "state", state) ? state : "gone";
}

bool driver_is_absent(const char *file)
{
    const char *name = name_of(file);
    unsigned device, queue;
    int end = 0;
    return sscanf(name, "wq%u.%u%n", &device, &queue, &end) == 2 && !name[end] && access(file, F_OK) != 0;
}

static int is_device(const struct dirent *entry) { return strncmp(entry->d_name, "dsa", 3) == 0; }

bool driver_has_device(void)
{
    struct dirent **names = NULL;
    const int count = scandir(folder, &names, is_device, NULL);
    for (int i = 0; i < count; i++)
        free(names[i]);
    free(names);
    return count > 0;
}

static int is_queue(const struct dirent *entry) { return strncmp(entry->d_name, "wq", 2) == 0; }

/// The first queue that can be opened; else why the first of type user can't.
bool driver_open_first(struct dsa_queue *queue, char why[DSA_WHY_ROOM])
{
    struct dirent **names = NULL;
    bool is_open = false, is_said = false;
    const int count = scandir(folder, &names, is_queue, versionsort);
    for (int i = 0; i < count; i++) {
        char type[TEXT], state[TEXT], device[TEXT], file[300];
        const char *name = names[i]->d_name;
        snprintf(file, sizeof file, "/dev/dsa/%s", name);
        if (!is_open && device_of(name, device) && attribute(name, "type", type) && strcmp(type, "user") == 0 &&
            attribute(name, "state", state) && strcmp(state, "enabled") == 0) {
            char other[DSA_WHY_ROOM];
            is_open = driver_open(queue, file, is_said ? other : why);
            is_said = true;
        }
        free(names[i]);
    }
    free(names);
    if (count < 0)
        return why_not(why, "there is no device: the driver idxd has made no %s; dsa_trace has one in software",
                       folder);
    if (!is_said)
        return why_not(why, "no queue of type user is enabled in %s; accel-config load-config makes one", folder);
    return is_open;
}
