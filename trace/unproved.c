/* A dsa_text that is built without proofs, for the first audits in a clone: proofs take half an hour. The script
 * tests/gate/quick.py builds it, and keeps it until its sources change. */
#include <errno.h>
#include <fcntl.h>
#include <stdio.h>
#include <stdlib.h>
#include <string.h>
#include <sys/wait.h>
#include <unistd.h>

#include "launcher.h"

/// Whether a folder of the path has the toolchain's command.
static bool has_toolchain(void)
{
    const char *folders = getenv("PATH");
    char path[PATH_MAX];
    for (const char *at = folders ? folders : ""; *at; at += strcspn(at, ":"), at += *at == ':') {
        snprintf(path, sizeof path, "%.*s/rt", (int)strcspn(at, ":"), at);
        if (access(path, X_OK) == 0)
            return true;
    }
    return false;
}

/// Runs the script, which says on standard error how far it is.
static bool build(const char *script)
{
    int status = -1;
    const pid_t child = fork();
    if (child < 0)
        fail("a new process");
    if (child == 0) {
        const int nothing = open("/dev/null", O_RDONLY);
        if (dup2(nothing, STDIN_FILENO) >= 0 && dup2(STDERR_FILENO, STDOUT_FILENO) >= 0)
            execlp("python3", "python3", "-B", script, "dsa_text", (char *)NULL);
        fprintf(stderr, "dsa_trace: python3: %s\n", strerror(errno));
        _exit(FAILED);
    }
    while (waitpid(child, &status, 0) < 0 && errno == EINTR)
        ;
    return WIFEXITED(status) && WEXITSTATUS(status) == 0;
}

/// Builds dsa_text in the clone whose trace/out this folder is.
const char *unproved_build(const char *folder, char path[PATH_MAX])
{
    char above[PATH_MAX], clone[PATH_MAX], script[PATH_MAX];
    if (!realpath(joined(above, folder, "../.."), clone) || !has_toolchain() ||
        access(joined(script, clone, "tests/gate/quick.py"), R_OK))
        return NULL;
    fputs("dsa_trace: there is no dsa_text, so audits are by one that this clone builds without proofs, and slow\n",
          stderr);
    if (!build(script) || access(joined(path, clone, "crates/dsa_text/out/unproved/dsa_text"), X_OK))
        return NULL;
    return path;
}
