/* --report: audits of runs that --out has kept, with other options perhaps. */
#include <dirent.h>
#include <errno.h>
#include <inttypes.h>
#include <stdlib.h>
#include <string.h>

#include "launcher.h"

static int is_of_seed(const struct dirent *e) { return strncmp(e->d_name, "seed-", strlen("seed-")) == 0; }

/// Audits the run of a seed.
static void report_run(const struct run *run, bool is_one_of_many, struct audits *a, struct junit *j)
{
    const enum verdict verdict = audit_run(a, run, is_one_of_many);
    if (j->to)
        junit_add(j, run, verdict, a->last);
}

static const char noted[] = "runs.txt";

void report_claim(const char *folder)
{
    char path[PATH_MAX], line[64];
    bool is_ours = true;
    FILE *from = fopen(joined(path, folder, noted), "r");
    while (from && is_ours && fgets(line, sizeof line, from))
        is_ours = strncmp(line, "seed-", strlen("seed-")) == 0;
    if (from)
        fclose(from);
    if (is_ours)
        return;
    fprintf(stderr, "dsa_trace: %s is not of dsa_trace, which writes the names of runs there: name another folder\n",
            path);
    exit(FAILED);
}

void report_note(const struct options *o, uint64_t seed, bool is_first)
{
    char path[PATH_MAX];
    FILE *to = fopen(joined(path, o->out, noted), is_first ? "w" : "a");
    if (!to || fprintf(to, "seed-%" PRIu64 "\n", seed) < 0 || fclose(to))
        fail(path);
}

/// Says how many of these runs the last command has not made.
static void say_earlier(const char *folder, struct dirent **list, int count)
{
    char path[PATH_MAX];
    struct keys last = {0};
    int earlier = 0, first = 0;
    FILE *from = fopen(joined(path, folder, noted), "r");
    if (!from)
        return;
    keys_read(&last, from);
    fclose(from);
    for (int i = count - 1; i >= 0; i--)
        if (!keys_has(&last, list[i]->d_name)) {
            earlier++;
            first = i;
        }
    keys_forget(&last);
    if (earlier)
        fprintf(stderr,
                "dsa_trace: %d of %d runs in %s %s of earlier commands, the first %s; %s names those of the last\n",
                earlier, count, folder, earlier > 1 ? "are" : "is", list[first]->d_name, noted);
}

/// Audits each run of the folder; false, after a sentence, if it has none.
bool report_runs(const struct options *o, struct audits *a, struct junit *j)
{
    struct dirent **list;
    char path[PATH_MAX];
    const int count = scandir(o->report, &list, is_of_seed, versionsort);
    if (count < 0) {
        fprintf(stderr, "dsa_trace: %s: %s; --report takes the folder that --out has named\n", o->report,
                strerror(errno));
        return false;
    }
    say_earlier(o->report, list, count);
    for (int i = 0; i < count; i++) {
        const char *name = list[i]->d_name;
        const struct run run = {.seed = strtoull(name + strlen("seed-"), NULL, 10), .is_over = true,
                                .records = joined(path, o->report, name)};
        report_run(&run, count > 1, a, j);
        free(list[i]);
    }
    free(list);
    if (!count)
        fprintf(stderr, "dsa_trace: %s has no runs: it is the folder of --out, with a folder seed-N for each\n",
                o->report);
    return count;
}
