/* dsa_trace: runs a program that uses Intel DSA on a machine without it. README.md says how. */
#include <dirent.h>
#include <errno.h>
#include <signal.h>
#include <stdio.h>
#include <stdlib.h>
#include <string.h>
#include <sys/stat.h>
#include <unistd.h>

#include "launcher.h"
#include "shown.h"

/* Our own folder, for the end of this process, and not for that of a child. */
static struct own { pid_t process; char folder[PATH_MAX]; } own;

static void remove_own_folder(void)
{
    if (getpid() == own.process)
        run_remove(own.folder);
}

/// A folder of our own, where temporary files go. It is removed at the end, also after a failure.
static void make_own_folder(void)
{
    const char *where = getenv("TMPDIR");
    snprintf(own.folder, sizeof own.folder, "%s/dsa_trace.XXXXXX", where && *where == '/' ? where : "/tmp");
    if (!mkdtemp(own.folder))
        fail(own.folder);
    own.process = getpid();
    if (atexit(remove_own_folder) || chmod(own.folder, 0755))
        fail(own.folder);
}

/// Where one run records: in its own folder of --out, or in a temporary one for an audit; false if it records nothing.
static bool place_records(const struct options *o, uint64_t seed, const char *folder, char records[PATH_MAX])
{
    char name[32], path[PATH_MAX];
    if (!o->out && !o->audits)
        return false;
    snprintf(name, sizeof name, "seed-%llu", (unsigned long long)seed);
    make_folders(o->out ? joined(path, o->out, name) : joined(path, folder, "recorded"));
    if (!realpath(path, records))
        fail(path);
    if (strlen(records) >= sizeof o->settings.out) {
        errno = ENAMETOOLONG;
        fail(records);
    }
    index_empty(records);
    return true;
}

/// Says how a run has failed, and how to run it again.
static void say_failure(const struct options *o, const struct run *run, uint64_t number)
{
    fprintf(stderr, "dsa_trace: seed %llu, run %llu of %llu: the program ends with status %d; the same again:\n",
            (unsigned long long)run->seed, (unsigned long long)number, (unsigned long long)o->seeds, run->status);
    options_repeat(o, run->seed);
}

/// Runs the program with one seed after another, up to the first that fails, and audits each run. Answers its status.
static int run_all(const struct options *o, const char *folder, struct audits *a, struct junit *j)
{
    char records[PATH_MAX];
    int status = 0;
    for (uint64_t i = 0; i < o->seeds && status == 0 && a->status != FAILED; i++) {
        const uint64_t seed = o->settings.seed + i;
        struct run run = {.seed = seed, .records = place_records(o, seed, folder, records) ? records : NULL};
        if (o->out)
            report_note(o, seed, i == 0);
        run_once(o, folder, &run);
        status = run.status;
        if (status && o->seeds > 1)
            say_failure(o, &run, i + 1);
        const enum verdict verdict = o->audits ? audit_run(a, &run, o->seeds > 1) : CLEAN;
        if (!o->audits)
            seen_whole(&run);
        if (o->junit)
            junit_add(j, &run, verdict, a->last);
        seen_end(run.board);
    }
    if (status == 0 && o->seeds > 1 && a->status != FAILED)
        fprintf(stderr, "dsa_trace: %llu runs, all with status 0\n", (unsigned long long)o->seeds);
    return status;
}

int main(int argc, char **argv)
{
    struct options o;
    struct audits a = {0};
    struct junit j = {0};
    (void)argc;
    shown_begin();
    signal(SIGCHLD, SIG_DFL); /* where whoever runs us ignores it, no status could be waited for */
    options_read(argv, &o);
    const int refused = o.report ? 0 : program_check(o.program[0]);
    if (refused)
        return refused;
    if (access("/proc/self/fd", X_OK))
        fail("/proc, by which the library knows the files of a queue");
    make_own_folder();
    if (o.audits && !audits_begin(&a, &o))
        return FAILED;
    if (o.junit)
        junit_begin(&j, o.junit, o.report ? o.report : o.program[0], a.is_unproved);
    if (o.out)
        report_claim(o.out);
    background_begin();
    if (o.report && !report_runs(&o, &a, &j))
        return FAILED;
    const int status = o.report ? 0 : run_all(&o, own.folder, &a, &j);
    const int missing = o.audits ? audits_end(&a, &o, &j, status) : 0;
    if (missing && status && status != TIMED_OUT && o.seeds == 1)
        fprintf(stderr, "dsa_trace: the program itself ends with status %d\n", status);
    if (o.junit)
        junit_end(&j);
    return missing && status != TIMED_OUT ? missing : status;
}
