/* Finds the device's files by functions of the C library that take a path or give one. */
#include <dirent.h>
#include <ftw.h>
#include <glob.h>
#include <stdio.h>
#include <stdlib.h>
#include <string.h>
#include <sys/stat.h>
#include <unistd.h>

static int see(const char *path, const struct stat *s, int kind, struct FTW *at)
{
    (void)s, (void)kind;
    if (strcmp(path + at->base, "wq0.1") == 0)
        printf("nftw %s at level %d\n", path, at->level);
    return 0;
}

int main(void)
{
    struct dirent **list;
    glob_t found = {.gl_offs = 1};
    char line[32] = "";
    printf("scandir %d\n", scandir("/dev/dsa", &list, NULL, alphasort));
    if (glob("/dev/dsa/wq*", GLOB_DOOFFS, NULL, &found) == 0)
        printf("glob %s %s\n", found.gl_pathv[1], found.gl_pathv[2]);
    printf("glob of nothing %d\n", glob("/dev/dsa/none*", 0, NULL, &found) == GLOB_NOMATCH);
    nftw("/sys/bus/dsa/devices", see, 8, FTW_PHYS);
    printf("canonical %s\n", canonicalize_file_name("/sys/bus/dsa/devices/wq0.0"));
    printf("access %d %d\n", euidaccess("/dev/dsa/wq0.0", W_OK), euidaccess("/dev/dsa/wq0.7", W_OK));
    if (freopen("/sys/bus/dsa/devices/wq0.1/mode", "r", stdin) && fgets(line, sizeof line, stdin))
        printf("freopen %s", line);
    return 0;
}
