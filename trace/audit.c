/* The program dsa_text: where it is, and what it says of one recording. */
#include <errno.h>
#include <fcntl.h>
#include <stdio.h>
#include <stdlib.h>
#include <string.h>
#include <sys/wait.h>
#include <unistd.h>

#include "launcher.h"

/// The first that can be run of a name beside this program, of the place where a clone builds it, and of those on the
/// path; NULL if none can.
static const char *find(const char *folder, char found[PATH_MAX])
{
    const char *folders = getenv("PATH");
    char above[PATH_MAX];
    if (access(joined(found, folder, "dsa_text"), X_OK) == 0)
        return found;
    if (access(joined(above, folder, "../../crates/dsa_text/out/dsa_text"), X_OK) == 0 && realpath(above, found))
        return found;
    for (const char *at = folders ? folders : ""; *at; at += strcspn(at, ":"), at += *at == ':') {
        snprintf(found, PATH_MAX, "%.*s/dsa_text", (int)strcspn(at, ":"), at);
        if (access(found, X_OK) == 0)
            return found;
    }
    return NULL;
}

/// DSA_TEXT names the program; else it is found, or a clone builds it.
const char *audit_find(bool *is_unproved)
{
    static char found[PATH_MAX];
    char self[PATH_MAX - 64];
    const char *named = getenv("DSA_TEXT");
    if (named && *named) {
        if (access(named, X_OK) == 0)
            return named;
        fprintf(stderr, "dsa_trace: DSA_TEXT names %s, which can't be run: %s\n", named, strerror(errno));
        return NULL;
    }
    const ssize_t length = readlink("/proc/self/exe", self, sizeof self - 1);
    if (length < 0)
        fail("/proc/self/exe");
    self[length] = 0;
    *strrchr(self, '/') = 0;
    if (find(self, found))
        return found;
    *is_unproved = unproved_build(self, found);
    if (*is_unproved)
        return found;
    fputs("dsa_trace: --audit needs the program dsa_text, which the package dsa-planner has: install that, or name the "
          "program by DSA_TEXT; a clone builds one without proofs if rt, the toolchain of the proofs, is on the path; "
          "without it wrong results show all the same, and --out DIR keeps recordings for an audit later\n",
          stderr);
    return NULL;
}

/// The name that a file in memory has in a child, which keeps it.
static const char *inherited(char room[32], FILE *file)
{
    fcntl(fileno(file), F_SETFD, 0);
    snprintf(room, 32, "/proc/self/fd/%d", fileno(file));
    return room;
}

/// In a child: becomes dsa_text, for one recording in this form, NULL for text; without a recording for an empty one.
/// What is preloaded is for the test: a sanitizer may not run in dsa_text, too.
static void become(const char *dsa_text, const struct audit_options *o, const char *form, const struct gathered *g)
{
    char events[32], recording[32], accepted[32];
    const char *const pairs[][2] = {{"--accept", o->accepted ? inherited(accepted, o->accepted) : o->accept},
                                    {"--deny", o->deny}, {"--await", o->await}, {"--greatest-batch", o->greatest_batch},
                                    {"--greatest-transfer", o->greatest_transfer},
                                    {"--lone", o->lone}, {"--batch", o->batch}, {"--batches", o->batches},
                                    {"--fence", o->fence}, {"--events", g ? inherited(events, g->events) : NULL}};
    const char *all[2 * sizeof pairs / sizeof *pairs + 6], **words = all;
    *words++ = "dsa_text";
    *words++ = "audit";
    for (size_t i = 0; i < sizeof pairs / sizeof *pairs; i++)
        if (pairs[i][1]) {
            *words++ = pairs[i][0];
            *words++ = pairs[i][1];
        }
    if (o->is_resident)
        *words++ = "--resident";
    if (form)
        *words++ = form;
    *words++ = g ? inherited(recording, g->recording) : "-";
    *words = NULL;
    unsetenv("LD_PRELOAD");
    execv(dsa_text, (char *const *)all);
}

/// What dsa_text says of a recording: 0, 1 if there are errors, 2 if it can't read it or takes no such options; more if
/// it could not say it.
int audit_text(const char *dsa_text, const struct audit_options *o, const char *form, const struct gathered *g,
               FILE *to)
{
    int status;
    fflush(NULL);
    const pid_t child = fork();
    if (child < 0)
        fail("a new process");
    if (child == 0) {
        const int nothing = open("/dev/null", O_RDONLY);
        if (dup2(nothing, STDIN_FILENO) >= 0 && dup2(fileno(to), STDOUT_FILENO) >= 0)
            become(dsa_text, o, form, g);
        fprintf(stderr, "dsa_trace: %s: %s\n", dsa_text, strerror(errno));
        _exit(2);
    }
    while (waitpid(child, &status, 0) < 0 && errno == EINTR)
        ;
    return WIFEXITED(status) ? WEXITSTATUS(status) : 128 + WTERMSIG(status);
}
