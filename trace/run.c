/* One run: a folder of its own, the device's files in it, the program in a process of its own, and nothing left after
 * it. */
#include <errno.h>
#include <ftw.h>
#include <signal.h>
#include <stdio.h>
#include <stdlib.h>
#include <string.h>
#include <sys/mount.h>
#include <sys/prctl.h>
#include <sys/stat.h>
#include <sys/time.h>
#include <sys/wait.h>
#include <time.h>
#include <unistd.h>

#include "launcher.h"

/* Seconds between the signal that asks a run to end, and the one that ends it. */
enum { GRACE = 5 };

/* The process of the program, for signals that are passed on to it. */
static volatile sig_atomic_t running;

static void pass_on(int number)
{
    if (running > 0)
        kill(running, number);
}

/* A signal that ends a call, so that it is seen how late it is. */
static void wake(int number) { (void)number; }

static double now(void)
{
    struct timespec t;
    clock_gettime(CLOCK_MONOTONIC, &t);
    return t.tv_sec + t.tv_nsec / 1e9;
}

/// Has a signal come from the end of the time that a run has, over and over; 0 seconds: none.
static void set_alarm(uint64_t seconds)
{
    const struct itimerval every = {.it_interval = {.tv_usec = seconds ? 100000 : 0}, .it_value = {.tv_sec = seconds}};
    struct sigaction a = {.sa_handler = wake};
    sigaction(SIGALRM, &a, NULL);
    setitimer(ITIMER_REAL, &every, NULL);
}

static int forget(const char *path, const struct stat *s, int kind, struct FTW *at)
{
    (void)s, (void)kind, (void)at;
    remove(path);
    return 0;
}

/// Removes a folder and what is in it, on its own file system.
void run_remove(const char *folder)
{
    nftw(folder, forget, 32, FTW_DEPTH | FTW_PHYS | FTW_MOUNT);
}

/// The library is beside this program, or in the folder lib beside that of programs.
static void library_path(char path[PATH_MAX])
{
    char self[PATH_MAX - 64];
    const ssize_t length = readlink("/proc/self/exe", self, sizeof self - 1);
    if (length < 0)
        fail("/proc/self/exe");
    self[length] = 0;
    *strrchr(self, '/') = 0;
    snprintf(path, PATH_MAX, "%s/libdsa_trace.so", self);
    if (access(path, R_OK) == 0)
        return;
    snprintf(path, PATH_MAX, "%s/../lib/dsa-planner/libdsa_trace.so", self);
    if (access(path, R_OK))
        fail(path);
}

/// Has the loader load our library, after those that are asked for already, such as a sanitizer's.
static void preload(void)
{
    char library[PATH_MAX], *all;
    const char *before = getenv("LD_PRELOAD");
    library_path(library);
    if (strpbrk(library, ": ")) {
        fprintf(stderr, "dsa_trace: %s: the loader takes no path with a blank or a colon (LD_PRELOAD)\n", library);
        exit(FAILED);
    }
    if (asprintf(&all, "%s%s%s", before ? before : "", before && *before ? ":" : "", library) < 0)
        fail("LD_PRELOAD");
    if (setenv("LD_PRELOAD", all, 1))
        fail("LD_PRELOAD");
    free(all);
}

/// The pace of a seed, unless --delay or --watch is given: of four in a row one does each submission at once, as a fast
/// device does, and one takes its time. So the order of a seed stays as repeatable as it is. Of a run that is recorded
/// all is drawn, since no audit sees that a wait is missing for what was done at once.
static void choose_pace(struct settings *s, bool is_recorded)
{
    enum { FAST = 0, SLOW = 3, SLOWER = 4, LONG = 10000 };
    s->drawn = is_recorded ? 0 : LONG;
    if (s->seed % 4 == FAST && s->order > ORDER_MEMBERS)
        s->order = ORDER_MEMBERS;
    if (s->seed % 4 == SLOW)
        s->delay *= SLOWER;
}

/// Copies a path to the settings.
static void set_path(char to[PATH_MAX / 2], const char *path)
{
    if (snprintf(to, PATH_MAX / 2, "%s", path) < PATH_MAX / 2)
        return;
    errno = ENAMETOOLONG;
    fail(path);
}

/// What is written for a program that reads it stays alone on standard output: the keys, or the one object.
static void keep_apart(const struct audit_options *o)
{
    if ((o->writes_keys || o->is_json) && dup2(STDERR_FILENO, STDOUT_FILENO) < 0)
        fail("standard error, to which the program's output goes with --json and --write-accept");
}

/// In the process of the program: puts the files in place and starts it.
static void become(const struct options *o, const char *folder, const char *board, const struct run *run)
{
    struct settings s = o->settings;
    char tree[PATH_MAX];
    bool is_inside = o->has_namespace;
    s.seed = run->seed;
    keep_apart(&o->audit);
    if (!o->has_pace)
        choose_pace(&s, run->records);
    make_folders(joined(tree, folder, "tree"));
    if (is_inside && !namespace_enter()) {
        fprintf(stderr, "dsa_trace: no namespace of mounts (%s), so file names are turned in the library, as with "
                "--no-namespace, which does not say so\n", strerror(errno));
        is_inside = false;
    }
    if (is_inside && mount("dsa_trace", tree, "tmpfs", 0, "mode=755"))
        fail(tree);
    tree_make(tree, o->queues, o->queue_count);
    if (is_inside)
        namespace_mount(tree);
    set_path(s.root, is_inside ? "" : tree);
    set_path(s.out, run->records ? run->records : "");
    set_path(s.board, board);
    if (!settings_export(&s))
        fail("the environment");
    preload();
    execvp(o->program[0], o->program);
    const int status = errno == ENOENT ? NOT_FOUND : NOT_RUN;
    fprintf(stderr, "dsa_trace: %s: %s\n", o->program[0], strerror(errno));
    _exit(status);
}

/// Ends a run that takes too long: all its processes are asked to, and after some seconds they have to.
static void end_late(const struct options *o, struct run *run, double started)
{
    const double over = o->timeout ? now() - started - o->timeout : -1;
    if (over < 0)
        return;
    if (!run->is_timed_out) {
        fprintf(stderr, "dsa_trace: seed %llu: the program runs for more than %llu s (--timeout), and is ended\n",
                (unsigned long long)run->seed, (unsigned long long)o->timeout);
        background_signal(SIGTERM);
    }
    run->is_timed_out = true;
    if (over >= GRACE)
        background_signal(SIGKILL);
}

/// The status of the program, which gets the signals that end us; those of the terminal it gets by itself.
static int wait_for(pid_t child, const struct options *o, struct run *run, double started)
{
    static const int passed[] = {SIGTERM, SIGHUP, SIGINT, SIGQUIT};
    struct sigaction old[4];
    int status;
    running = child;
    for (int i = 0; i < 4; i++) {
        struct sigaction a = {.sa_handler = i < 2 ? pass_on : SIG_IGN};
        sigaction(passed[i], &a, &old[i]);
    }
    if (o->timeout)
        set_alarm(o->timeout);
    for (pid_t ended = 0; ended != child;) { /* others come to us when their parents have ended */
        ended = waitpid(-1, &status, 0);
        if (ended < 0)
            end_late(o, run, started);
    }
    if (o->timeout)
        set_alarm(0);
    running = 0;
    for (int i = 0; i < 4; i++)
        sigaction(passed[i], &old[i], NULL);
    return WIFSIGNALED(status) ? 128 + WTERMSIG(status) : WEXITSTATUS(status);
}

/// Runs the program once.
void run_once(const struct options *o, const char *folder, struct run *run)
{
    char tree[PATH_MAX], board[PATH_MAX];
    const pid_t self = getpid();
    const double started = now();
    run->board = seen_begin(folder, board);
    fflush(NULL);
    const pid_t child = fork(); /* we stay outside of the namespace, and remove the folder at the end */
    if (child < 0)
        fail("a new process");
    if (child == 0) {
        prctl(PR_SET_PDEATHSIG, SIGKILL); /* if we are killed, so is the program, and its namespace goes with it */
        if (getppid() != self)
            _exit(FAILED);
        become(o, folder, board, run);
    }
    run->status = wait_for(child, o, run, started);
    if (run->is_timed_out)
        background_signal(SIGKILL);
    else
        program_explain(run->status);
    run->is_over = background_end(o->waits);
    run->seconds = now() - started;
    if (run->is_timed_out)
        run->status = TIMED_OUT;
    run_remove(joined(tree, folder, "tree"));
    if (run->records)
        tidy(run->records, run->board);
}
