/* Whether the library can be loaded into a program: the loader does it for dynamic programs of the C library of GNU,
 * and not for those that run with other rights than the user's. */
#include <cpuid.h>
#include <elf.h>
#include <errno.h>
#include <fcntl.h>
#include <signal.h>
#include <stdio.h>
#include <stdlib.h>
#include <string.h>
#include <sys/stat.h>
#include <sys/xattr.h>
#include <unistd.h>

#include "launcher.h"

static int refused(const char *path, const char *why, int status)
{
    fprintf(stderr, "dsa_trace: %s %s\n", path, why);
    return status;
}

/// Finds the program as execvp does; false, with errno, if there is none.
static bool find(const char *name, char path[PATH_MAX])
{
    const char *folders = getenv("PATH");
    if (strchr(name, '/')) {
        snprintf(path, PATH_MAX, "%s", name);
        return access(path, F_OK) == 0;
    }
    for (const char *at = folders ? folders : "/bin:/usr/bin"; *at;) {
        const size_t length = strcspn(at, ":");
        snprintf(path, PATH_MAX, "%.*s%s%s", (int)length, at, length ? "/" : "", name);
        if (access(path, X_OK) == 0)
            return true;
        at += length + (at[length] == ':');
    }
    errno = ENOENT;
    return false;
}

/// The name of the loader that a program asks for; false if it asks for none, which is a static program.
static bool loader_of(int file, const Elf64_Ehdr *head, char name[256])
{
    Elf64_Phdr part;
    for (int i = 0; i < head->e_phnum; i++) {
        if (pread(file, &part, sizeof part, head->e_phoff + (off_t)i * head->e_phentsize) != sizeof part)
            return false;
        if (part.p_type != PT_INTERP)
            continue;
        const ssize_t length = pread(file, name, 255, part.p_offset);
        name[length < 0 ? 0 : length] = 0;
        return true;
    }
    return false;
}

static int check_elf(const char *path, int file, const Elf64_Ehdr *head)
{
    char loader[256];
    if (head->e_ident[EI_CLASS] != ELFCLASS64 || head->e_machine != EM_X86_64)
        return refused(path, "is no program for x86-64 with 64 bits, so the library can't be loaded into it", NOT_RUN);
    if (!loader_of(file, head, loader))
        return refused(path, "is a static program: nothing can be loaded into it, so its instructions can't be caught; "
                             "link it dynamically", NOT_RUN);
    if (strstr(loader, "musl"))
        return refused(path, "uses another C library than that of GNU, for which the library is built", NOT_RUN);
    return 0;
}

/// Whether it runs with other rights than the user's: the loader then ignores LD_PRELOAD.
static bool has_rights(int file, const struct stat *s)
{
    const bool changes_user = s->st_mode & S_ISUID && s->st_uid != geteuid();
    const bool changes_group = s->st_mode & S_ISGID && s->st_gid != getegid();
    return changes_user || changes_group || fgetxattr(file, "security.capability", NULL, 0) > 0;
}

/// Looks at one file, and answers the status; of a script *next has its interpreter.
static int check_file(const char *path, char next[PATH_MAX])
{
    union { Elf64_Ehdr elf; char text[256]; } head = {.text = ""};
    struct stat s;
    next[0] = 0;
    const int file = open(path, O_RDONLY | O_CLOEXEC);
    if (file < 0 && errno == EACCES && access(path, X_OK) == 0)
        return 0; /* it can be run but not read: nothing is known of it */
    if (file < 0 || fstat(file, &s))
        return refused(path, strerror(errno), errno == ENOENT ? NOT_FOUND : NOT_RUN);
    int status = 0;
    const ssize_t length = pread(file, &head, sizeof head - 1, 0);
    if (!S_ISREG(s.st_mode))
        status = refused(path, "is no file that can be run", NOT_RUN);
    else if (access(path, X_OK))
        status = refused(path, "may not be run", NOT_RUN);
    else if (has_rights(file, &s))
        status = refused(path,
                         "runs with other rights than yours (set-uid, set-gid or capabilities), so the loader would "
                         "not load the library into it",
                         NOT_RUN);
    else if (length >= (ssize_t)sizeof head.elf && memcmp(head.text, ELFMAG, SELFMAG) == 0)
        status = check_elf(path, file, &head.elf);
    else if (length > 2 && memcmp(head.text, "#!", 2) == 0)
        sscanf(head.text + 2, " %255s", next);
    close(file);
    return status;
}

static bool has_movdir64b(void)
{
    enum { FEATURES = 7, MOVDIR64B = 1u << 28 };
    unsigned a, b, c = 0, d;
    return __get_cpuid_count(FEATURES, 0, &a, &b, &c, &d) && c & MOVDIR64B;
}

/// The name of the signal that ends a program at a submission that we don't do, if the status is of one: SIGILL, or on
/// a CPU that has the instruction SIGBUS, since the file of a queue is empty, or SIGSEGV.
static const char *fault_of(int status)
{
    if (status == 128 + SIGILL)
        return "SIGILL";
    if (!has_movdir64b())
        return NULL;
    return status == 128 + SIGBUS ? "SIGBUS" : status == 128 + SIGSEGV ? "SIGSEGV" : NULL;
}

/// Says what may have ended a program that has this status, if dsa_trace has a part in it.
void program_explain(int status)
{
    const char *fault = fault_of(status);
    if (fault)
        fprintf(stderr,
                "dsa_trace: ended by %s: by a fault of its own, since a program submits into which the library can't "
                "be loaded (static, or with other rights than yours), or since %s is blocked by a system call of its "
                "own\n",
                fault, fault);
    if (status == 128 + SIGSYS)
        fputs("dsa_trace: ended by SIGSYS: the program's filter of system calls (seccomp) does not permit those that a "
              "submission in software takes; run it without the filter\n", stderr);
}

/// Looks at the program, and of a script at what interprets it.
int program_check(const char *name)
{
    char path[PATH_MAX], next[PATH_MAX];
    if (!find(name, path))
        return refused(name, "is not found", NOT_FOUND);
    for (int depth = 0; depth < 4; depth++) {
        const int status = check_file(path, next);
        if (status || !next[0])
            return status;
        strcpy(path, next);
    }
    return 0;
}
