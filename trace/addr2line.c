/* The program addr2line, which knows functions, files and lines of addresses in a file of code: it is asked once for
 * many addresses. All programs of this kind take the same options and answer in one form. */
#include <errno.h>
#include <fcntl.h>
#include <stdlib.h>
#include <string.h>
#include <sys/wait.h>
#include <unistd.h>

#include "addr2line.h"
#include "launcher.h"

/* The first that is there is asked. The others find less: that of binutils 2.40 nothing of split DWARF, that of
 * elfutils 0.188 also no inlined functions if the compiler wrote no .debug_aranges (clang, gcc -flto). */
static const char *const programs[] = {"llvm-addr2line", "addr2line", "eu-addr2line"};

static char *search(const char *name)
{
    char path[PATH_MAX];
    const char *folders = getenv("PATH");
    if (strchr(name, '/'))
        return access(name, X_OK) == 0 ? strdup(name) : NULL;
    for (const char *at = folders ? folders : ""; *at; at += strcspn(at, ":"), at += *at == ':') {
        snprintf(path, sizeof path, "%.*s/%s", (int)strcspn(at, ":"), at, name);
        if (access(path, X_OK) == 0)
            return strdup(path);
    }
    return NULL;
}

/// The path of the program; NULL, after a sentence, if there is none.
char *addr2line_find(void)
{
    const char *named = getenv("DSA_TRACE_ADDR2LINE");
    char *found = named && *named ? search(named) : NULL;
    for (size_t i = 0; !(named && *named) && !found && i < sizeof programs / sizeof *programs; i++)
        found = search(programs[i]);
    if (!found && named && *named)
        fprintf(stderr, "dsa_trace: DSA_TRACE_ADDR2LINE names %s, which can't be run: places are addresses in files\n",
                named);
    else if (!found)
        fputs("dsa_trace: there is no addr2line (package binutils or llvm): places are addresses in files\n", stderr);
    return found;
}

/// Without the folder in which we run.
static const char *shorter(const char *path)
{
    static char here[PATH_MAX];
    if (!here[0] && !getcwd(here, sizeof here))
        here[0] = '/';
    const size_t length = strlen(here);
    return strncmp(path, here, length) == 0 && path[length] == '/' ? path + length + 1 : path;
}

/// Cuts `FILE:LINE:COLUMN (discriminator N)` after the line; answers whether there is one.
static bool cut_after_line(char *file)
{
    char *end = strstr(file, " (discriminator");
    if (end)
        *end = 0;
    char *last = strrchr(file, ':'), *before = NULL;
    if (last && last > file) {
        *last = 0;
        before = strrchr(file, ':');
        if (!before || !before[1] || before[1 + strspn(before + 1, "0123456789")])
            *last = ':'; /* it was no column */
    }
    last = strrchr(file, ':');
    return last && last[1] >= '1' && last[1] <= '9' && file[0] != '?';
}

/// Cuts what compilers add to a name: the end of a copy, and the hash that Rust's have.
void addr2line_cut(char *name)
{
    static const char *const ends[] = {".constprop.", ".isra.", ".part.", ".cold", ".lto_priv.", ".llvm.", " [clone"};
    for (size_t i = 0; i < sizeof ends / sizeof *ends; i++) {
        char *end = strstr(name, ends[i]);
        if (end && end > name)
            *end = 0;
    }
    enum { HASH = 16 };
    char *hash = strstr(name, "::h");
    for (char *next; hash && (next = strstr(hash + 1, "::h")); hash = next)
        ;
    if (hash && strspn(hash + 3, "0123456789abcdef") == HASH && hash[3 + HASH] == 0)
        *hash = 0;
}

/// Adds `FUNCTION at FILE:LINE`, of which either may be unknown.
static void add(struct symbol *s, char *line, bool is_of_binutils)
{
    char *file = strstr(line, " at ");
    if (s->count == MOST_INLINED || !file)
        return;
    *file = 0;
    file += strlen(" at ");
    const bool has_line = cut_after_line(file);
    /* of a file without symbols that of binutils names the exported function before the address */
    if (s->count == 0 && !has_line && (is_of_binutils || strncmp(line, "??", 2) == 0))
        return;
    if (s->count == 0 && (strcmp(line, "_movdir64b") == 0 || strncmp(line, "_enqcmd", strlen("_enqcmd")) == 0))
        return; /* the compiler's own function for the instruction */
    addr2line_cut(line);
    s->lines[s->count++] = (struct line){strdup(line), has_line ? strdup(shorter(file)) : NULL};
}

/// Reads the answers: before each is the address that was asked for.
static void read_answers(FILE *from, struct symbol *const *asked, size_t count, bool is_of_binutils)
{
    static const char by[] = " (inlined by) ";
    char *line = NULL;
    size_t room = 0, at = 0;
    for (ssize_t length; (length = getline(&line, &room, from)) > 0;) {
        line[length - (line[length - 1] == '\n')] = 0;
        char *colon = strncmp(line, "0x", 2) == 0 ? strstr(line, ": ") : NULL;
        if (colon && at < count)
            add(asked[at++], colon + 2, is_of_binutils);
        else if (at && strncmp(line, by, strlen(by)) == 0)
            add(asked[at - 1], line + strlen(by), is_of_binutils);
    }
    free(line);
}

/// In a child: the program, with its answers to a pipe.
static void become(char **words, int to)
{
    const int none = open("/dev/null", O_RDWR);
    dup2(none, STDIN_FILENO);
    dup2(to, STDOUT_FILENO);
    dup2(none, STDERR_FILENO);
    unsetenv("LD_PRELOAD"); /* that is for the test */
    execv(words[0], words);
    _exit(NOT_FOUND);
}

/// Asks for the lines of some symbols of one file.
void addr2line_ask(const char *program, const char *path, struct symbol *const *asked, size_t count)
{
    enum { FIRST = 8 };
    char *words[FIRST + MOST_ASKED + 1] = {(char *)program, "-a", "-f", "-i", "--pretty-print", "-C", "-e",
                                           (char *)path};
    const bool is_of_binutils = strcmp(strrchr(program, '/'), "/addr2line") == 0;
    int ends[2], status;
    for (size_t i = 0; i < count; i++)
        if (asprintf(&words[FIRST + i], "%#llx", (unsigned long long)asked[i]->at) < 0)
            fail("asking for symbols");
    if (pipe2(ends, O_CLOEXEC))
        fail("asking for symbols");
    fflush(NULL);
    const pid_t child = fork();
    if (child == 0)
        become(words, ends[1]);
    close(ends[1]);
    FILE *from = fdopen(ends[0], "r");
    if (child < 0 || !from)
        fail("asking for symbols");
    read_answers(from, asked, count, is_of_binutils);
    fclose(from);
    while (waitpid(child, &status, 0) < 0 && errno == EINTR)
        ;
    for (size_t i = 0; i < count; i++)
        free(words[FIRST + i]);
}
