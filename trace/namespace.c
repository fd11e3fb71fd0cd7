/* A namespace of mounts, in which the device's files are in their places and which ends with the last process in it. */
#include <dirent.h>
#include <errno.h>
#include <fcntl.h>
#include <sched.h>
#include <stdio.h>
#include <string.h>
#include <sys/mount.h>
#include <sys/stat.h>
#include <unistd.h>

#include "launcher.h"

static void write_map(const char *path, const char *text)
{
    const int file = open(path, O_WRONLY);
    if (file < 0 || write(file, text, strlen(text)) < 0)
        fail(path);
    close(file);
}

/// Enters a namespace of mounts; without the right to make one, as the owner of a namespace of users of its own. False
/// if neither is allowed.
bool namespace_enter(void)
{
    const unsigned user = geteuid(), group = getegid();
    char map[64];
    if (unshare(CLONE_NEWNS)) {
        if (user == 0 || unshare(CLONE_NEWUSER | CLONE_NEWNS)) /* root without rights could map no users */
            return false;
        write_map("/proc/self/setgroups", "deny");
        snprintf(map, sizeof map, "%u %u 1", user, user);
        write_map("/proc/self/uid_map", map);
        snprintf(map, sizeof map, "%u %u 1", group, group);
        write_map("/proc/self/gid_map", map);
    }
    return mount("none", "/", "none", MS_REC | MS_PRIVATE, NULL) == 0;
}

static void bind_to(const char *from, const char *to)
{
    if (mount(from, to, "none", MS_BIND | MS_REC, NULL))
        fail(to);
}

/// Puts one entry of a folder at the same name of another: a link as it is, all else by a mount.
static void carry_over(const char *old, const char *place, const char *name)
{
    char from[PATH_MAX], to[PATH_MAX], link[PATH_MAX];
    struct stat s;
    joined(from, old, name);
    joined(to, place, name);
    if (lstat(from, &s))
        return;
    if (S_ISLNK(s.st_mode)) {
        const ssize_t length = readlink(from, link, sizeof link - 1);
        link[length < 0 ? 0 : length] = 0;
        if (symlink(link, to))
            fail(to);
        return;
    }
    if (S_ISDIR(s.st_mode))
        mkdir(to, 0755);
    else
        close(open(to, O_CREAT | O_WRONLY, 0644));
    bind_to(from, to);
}

/// Puts a folder of the tree beside what is in `place`, a file system that takes no new folders: a tmpfs over it, on
/// which what was there is mounted again. A folder of this name that is there already is covered.
static void add_to(const char *tree, const char *place, const char *name)
{
    char old[PATH_MAX], from[PATH_MAX], to[PATH_MAX];
    struct stat s;
    snprintf(from, sizeof from, "%s%s/%s", tree, place, name);
    joined(to, place, name);
    if (stat(to, &s) == 0) {
        bind_to(from, to);
        return;
    }
    snprintf(old, sizeof old, "%s/old%s", tree, place);
    make_folders(old);
    if (mount(place, old, "none", MS_BIND | MS_REC, NULL) || mount("dsa_trace", place, "tmpfs", 0, "mode=755"))
        fail(place);
    DIR *list = opendir(old);
    if (!list)
        fail(old);
    for (struct dirent *e; (e = readdir(list));)
        if (strcmp(e->d_name, ".") && strcmp(e->d_name, ".."))
            carry_over(old, place, e->d_name);
    closedir(list);
    if (umount2(old, MNT_DETACH)) /* else the program would find all devices in its folder of temporary files */
        fail(old);
    mkdir(to, 0755);
    bind_to(from, to);
}

/// Puts the tree's files in their places.
void namespace_mount(const char *tree)
{
    add_to(tree, "/sys/bus", "dsa");
    add_to(tree, "/sys/module", "idxd");
    add_to(tree, "/dev", "dsa");
}
