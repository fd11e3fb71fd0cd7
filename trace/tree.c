/* The device's files, as the driver idxd shows one device with four groups, four engines and the queues of the options:
 * /sys/bus/dsa, /dev/dsa and /sys/module/idxd. */
#include <errno.h>
#include <fcntl.h>
#include <stdarg.h>
#include <stdio.h>
#include <stdlib.h>
#include <string.h>
#include <sys/stat.h>
#include <unistd.h>

#include "launcher.h"

enum { GROUPS = 4, LARGEST_QUEUE = 128, LABEL = 64 };

struct wanted { char mode[16], label[LABEL]; int size; };
struct named { const char *name, *text; };

static const char devices[] = "sys/bus/dsa/.devices/pci0000:6a/0000:6a:01.0";

/* op_cap: the operations 0 to 9, 0x10 to 0x15 and 0x20. gen_cap: batches of 1,024, moves of 2 GiB, overlap, block on
 * fault. */
static const struct named of_device[] = {
    {"version", "0x100"}, {"cdev_major", "511"}, {"errors", "0x0 0x0 0x0 0x0"}, {"max_groups", "4"},
    {"max_engines", "4"}, {"max_work_queues", "8"}, {"max_work_queues_size", "128"}, {"max_batch_size", "1024"},
    {"max_transfer_size", "2147483648"}, {"max_read_buffers", "96"}, {"max_tokens", "96"}, {"read_buffer_limit", "0"},
    {"token_limit", "0"}, {"numa_node", "0"}, {"gen_cap", "0x40915f0107"}, {"configurable", "1"},
    {"op_cap", "00000000,00000000,00000000,00000000,00000000,00000000,00000001,003f03ff"},
    {"pasid_enabled", "1"}, {"ims_size", "2048"}, {"state", "enabled"}, {"clients", "0"}, {"cmd_status", "0x0"},
};
static const struct named of_group[] = {
    {"tokens_reserved", "0"}, {"read_buffers_reserved", "0"}, {"use_token_limit", "0"}, {"use_read_buffer_limit", "0"},
    {"tokens_allowed", "8"}, {"read_buffers_allowed", "8"}, {"traffic_class_a", "1"}, {"traffic_class_b", "1"},
};
static const struct named of_queue[] = {
    {"clients", "0"}, {"max_transfer_size", "2147483648"}, {"max_batch_size", "1024"}, {"ats_disable", "0"},
    {"occupancy", "0"},
};

__attribute__((format(printf, 3, 4))) static void put(const char *folder, const char *name, const char *format, ...)
{
    char path[PATH_MAX];
    va_list values;
    FILE *f = fopen(joined(path, folder, name), "w");
    if (!f)
        fail(path);
    va_start(values, format);
    vfprintf(f, format, values);
    va_end(values);
    fputc('\n', f);
    if (fclose(f))
        fail(path);
}

static void put_all(const char *folder, const struct named *files, size_t count)
{
    for (size_t i = 0; i < count; i++)
        put(folder, files[i].name, "%s", files[i].text);
}

/// The file of a queue. It is empty, so that a store to a map of it that the library does not know has a signal.
static void make_node(const char *folder, const char *name)
{
    char path[PATH_MAX];
    const int file = open(joined(path, folder, name), O_WRONLY | O_CREAT, 0666);
    if (file < 0 || fchmod(file, 0666) || close(file))
        fail(path);
}

static void put_link(const char *to, const char *folder, const char *name)
{
    char path[PATH_MAX];
    if (symlink(to, joined(path, folder, name)))
        fail(path);
}

/// The name of a part of the device among those of the bus.
static void put_on_bus(const char *tree, const char *under, const char *name)
{
    char to[PATH_MAX], bus[PATH_MAX];
    snprintf(to, sizeof to, "../%s/%s%s", devices + strlen("sys/bus/dsa/"), under, name);
    put_link(to, joined(bus, tree, "sys/bus/dsa/devices"), name);
}

/// The folder of one part of the device, and its name on the bus.
static void make_part(const char *tree, const char *device, const char *name, char folder[PATH_MAX])
{
    make_folders(joined(folder, device, name));
    put_on_bus(tree, "dsa0/", name);
}

static void make_group(const char *tree, const char *device, int i, int queues)
{
    char name[32], queue[32] = "", folder[PATH_MAX];
    snprintf(name, sizeof name, "engine0.%d", i);
    make_part(tree, device, name, folder);
    put(folder, "group_id", "%d", i);
    snprintf(name, sizeof name, "group0.%d", i);
    make_part(tree, device, name, folder);
    put(folder, "engines", "engine0.%d", i);
    if (i < queues)
        snprintf(queue, sizeof queue, "wq0.%d", i);
    put(folder, "work_queues", "%s", queue);
    put_all(folder, of_group, sizeof of_group / sizeof *of_group);
}

static bool read_queue(const char *text, struct wanted *w)
{
    char end;
    const int read = sscanf(text, "%15[a-z],%d,%63s%c", w->mode, &w->size, w->label, &end);
    const bool is_mode = read >= 1 && (!strcmp(w->mode, "dedicated") || !strcmp(w->mode, "shared"));
    return read == 3 && is_mode && w->size >= 1 && w->size <= LARGEST_QUEUE;
}

bool tree_is_queue(const char *text)
{
    struct wanted w;
    return read_queue(text, &w);
}

/// One queue; those without a text are there, and not configured.
static void make_queue(const char *tree, const char *device, int i, const char *text)
{
    struct wanted w = {.mode = "dedicated"};
    char name[32], folder[PATH_MAX], nodes[PATH_MAX];
    if (text)
        read_queue(text, &w);
    snprintf(name, sizeof name, "wq0.%d", i);
    make_part(tree, device, name, folder);
    put_all(folder, of_queue, sizeof of_queue / sizeof *of_queue);
    put(folder, "state", text ? "enabled" : "disabled");
    put(folder, "group_id", "%d", text ? i % GROUPS : -1);
    put(folder, "size", "%d", w.size);
    put(folder, "priority", text ? "10" : "0");
    put(folder, "mode", "%s", w.mode);
    put(folder, "threshold", "%d", w.mode[0] == 's' ? w.size : 0);
    put(folder, "type", text ? "user" : "none");
    put(folder, "name", "%s", w.label);
    put(folder, "driver_name", text ? "user" : "");
    put(folder, "cdev_minor", "%d", text ? i : -1);
    put(folder, "block_on_fault", text ? "1" : "0");
    if (!text)
        return;
    put_link("../../../../../drivers/user", folder, "driver");
    make_node(joined(nodes, tree, "dev/dsa"), name);
}

/// Makes all of it in the folder.
void tree_make(const char *tree, const char *const *queues, int count)
{
    static const char *const by_default[] = {"dedicated,16,dpdk_wq0.0", "shared,16,app1"};
    static const char *const drivers[] = {"idxd", "user", "dmaengine"};
    char path[PATH_MAX], device[PATH_MAX];
    if (count == 0) {
        queues = by_default;
        count = 2;
    }
    make_folders(joined(path, tree, "dev/dsa"));
    make_folders(joined(path, tree, "sys/module/idxd"));
    make_folders(joined(path, tree, "sys/bus/dsa/devices"));
    make_folders(joined(path, tree, devices));
    make_folders(joined(device, path, "dsa0"));
    for (int i = 0; i < 3; i++) {
        char folder[64];
        snprintf(folder, sizeof folder, "sys/bus/dsa/drivers/%s", drivers[i]);
        make_folders(joined(path, tree, folder));
        put(path, "bind", "%s", "");
        put(path, "unbind", "%s", "");
    }
    put_all(device, of_device, sizeof of_device / sizeof *of_device);
    put_on_bus(tree, "", "dsa0");
    put_link("../../../../drivers/idxd", device, "driver");
    for (int i = 0; i < GROUPS; i++)
        make_group(tree, device, i, count);
    for (int i = 0; i < MOST_QUEUES; i++)
        make_queue(tree, device, i, i < count ? queues[i] : NULL);
}
