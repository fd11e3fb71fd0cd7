/* --audit: dsa_text and what the library has noted, of all processes of all runs, in one report. */
#include <dirent.h>
#include <inttypes.h>
#include <stdlib.h>
#include <string.h>
#include <unistd.h>

#include "launcher.h"
#include "located.h"

/* One run: how many submissions its recordings have, and the keys of its errors. */
struct audited {
    struct audits *all;
    const char *records;
    FILE *report;
    uint64_t recorded;
    struct keys keys;
    bool is_new; /* it has just ended, and is not one that was kept */
};

/// Copies a file from its start to the end of another.
static void append(FILE *from, FILE *to)
{
    char part[4096];
    size_t length;
    rewind(from);
    while ((length = fread(part, 1, sizeof part, from)) > 0)
        fwrite(part, 1, length, to);
    if (ferror(from) || ferror(to))
        fail("the report of the audit");
}

/// Finds dsa_text, and has it judge the options before anything is run; false, after a sentence, if it can't.
bool audits_begin(struct audits *a, const struct options *o)
{
    *a = (struct audits){.options = o->audit, .shows_places = o->settings.stacks, .keeps = o->out};
    a->dsa_text = audit_find(&a->is_unproved);
    if (!a->dsa_text)
        return false;
    stale_begin(&a->stale, &o->audit);
    a->options.deny = a->stale.others;
    a->report = in_memory("the report of the audit");
    FILE *unused = in_memory("an empty report");
    const int status = audit_text(a->dsa_text, &a->options, NULL, NULL, unused);
    fclose(unused);
    if (status == 2)
        fprintf(stderr, "dsa_trace: %s does not audit with these options\n", a->dsa_text);
    else if (status > 1)
        fprintf(stderr, "dsa_trace: %s does not run here: it ends with status %d, before the program is begun\n",
                a->dsa_text, status);
    if (status > 1)
        return false;
    stale_read(&a->stale, &a->accepted);
    a->options.accepted = a->stale.plain;
    return true;
}

/// Adds the keys of the errors that dsa_text finds, with their places if these are known; answers whether there are
/// errors that --accept does not know.
static int judge(struct audited *a, const struct gathered *g, struct places *p, struct judgement *j)
{
    struct keys base = {0};
    int is_error = 1;
    FILE *keys = in_memory("the keys of the audit");
    if (audit_text(a->all->dsa_text, &a->all->options, "--write-accept", g, keys) == 0) {
        rewind(keys);
        keys_read(p->stack_count ? &base : &a->keys, keys);
    }
    if (p->stack_count)
        is_error = judged_process(a->all, g, p, &base, j, &a->keys);
    keys_forget(&base);
    fclose(keys);
    return is_error;
}

/// Writes what is found in one process as text: first our own findings. `answer` is that of dsa_text, or NULL.
static void write_text(const struct audited *a, const struct gathered *g, const struct findings *own, FILE *answer,
                       const struct judgement *j, struct places *places, bool is_unseen)
{
    FILE *ours = in_memory("the report of a process");
    if (fseek(a->report, 0, SEEK_END))
        fail("the report of the audit");
    const long from = ftell(a->report);
    findings_text(own, &a->all->accepted, places->stack_count, ours);
    if (places->stack_count)
        located_text(ours, j, places, g, a->report);
    else {
        append(ours, a->report);
        if (answer)
            append(answer, a->report);
    }
    fclose(ours);
    if (!is_unseen)
        looks_advise(a->report, from);
}

/// Writes it as JSON.
static void write_json(const struct audited *a, const char *base, const struct gathered *g, const struct findings *own,
                       FILE *answer, const struct judgement *j, struct places *places)
{
    FILE *to = a->report, *both = in_memory("the report of a process");
    fputs("{\"accepted\":", to);
    judged_json(j, to);
    fputs(",\"hidden\":", to);
    hidden_json(j, g, to);
    hidden_json(j, g, both);
    fputs(",\"noted\":", to);
    findings_json(own, &a->all->accepted, to);
    findings_json(own, &a->all->accepted, both);
    if (answer)
        append(answer, both);
    fputs(",\"places\":", to);
    located_json(both, places, g, to);
    fclose(both);
    fputs(",\"process\":", to);
    escape_json(to, base);
    fputs(",\"report\":", to);
    if (answer)
        append(answer, to);
    else
        fputs("null", to);
    fprintf(to, ",\"submissions\":%" PRIu64 "}", g->submissions);
}

/// What dsa_text answers to a recording, in words `each` finding or of those with one key the first, without the
/// accepted lines that this one does not use.
static FILE *answer_of(struct audits *all, const struct gathered *g, bool each, int *found, bool *is_unseen)
{
    const bool is_json = all->options.is_json;
    FILE *answer = in_memory("the answer of dsa_text");
    *found = audit_text(all->dsa_text, &all->options, is_json ? "--json" : each ? "--all" : NULL, g, answer);
    if (*found > 1)
        return answer;
    if (!is_json) {
        answer = looks_explain(stale_take(&all->stale, NULL, NULL, answer), g, is_unseen);
    } else if (all->options.accept) {
        FILE *words = in_memory("the answer of dsa_text");
        audit_text(all->dsa_text, &all->options, NULL, g, words);
        fclose(looks_explain(stale_take(&all->stale, NULL, NULL, words), g, is_unseen));
        answer = stale_cut(answer);
    }
    all->seen += g->submissions > 0 && !*is_unseen;
    return answer;
}

/// Says what of a process is not audited; answers whether all of it is.
static bool say_gaps(const struct audits *all, const char *base, const struct gathered *g, const struct judgement *j,
                     int found)
{
    if (g->why)
        fprintf(stderr, "dsa_trace: %s is audited up to its submission %" PRIu64 ", since %s\n", base, g->submissions,
                g->why);
    if (g->dropped)
        fprintf(stderr, "dsa_trace: %s: %" PRIu64 " more submission%s, dropped by a full queue, %s not audited\n", base,
                g->dropped, g->dropped > 1 ? "s" : "", g->dropped > 1 ? "are" : "is");
    if (found > 1)
        fprintf(stderr, "dsa_trace: %s does not audit %s\n", all->dsa_text, base);
    if (j->why)
        fprintf(stderr, "dsa_trace: %s: not all that its accepted errors hide was looked for: %s\n", base, j->why);
    return found <= 1 && !g->why && !g->dropped && !j->why;
}

/// The recording of one process, and what the library has noted.
static int audit_process(struct audited *a, const char *base)
{
    struct audits *all = a->all;
    int found;
    struct gathered g;
    struct findings own = {0};
    struct judgement j;
    gather(a->records, base, &g, &own);
    const bool is_noted = errors_noted(a->records, base, &g, &own);
    struct places places = {.symbols = &all->symbols};
    if (all->shows_places)
        places_read(&places, a->records, base, &all->symbols);
    bool is_unseen = false;
    FILE *answer = answer_of(all, &g, places.stack_count, &found, &is_unseen);
    if (places.stack_count)
        findings_place(&own, &places);
    findings_use(&own, &all->stale);
    const bool has_own = findings_errors(&own, &all->accepted, &a->keys);
    a->recorded += g.submissions;
    all->processes += g.submissions > 0;
    all->at_once += g.submissions > 0 && g.is_at_once;
    judged_begin(&j, answer);
    j.report_count = found <= 1;
    if (found == 1)
        found = judge(a, &g, &places, &j);
    if (all->options.is_json)
        write_json(a, base, &g, &own, found > 1 ? NULL : answer, &j, &places);
    else
        write_text(a, &g, &own, found > 1 ? NULL : answer, &j, &places, is_unseen);
    const bool is_whole = say_gaps(all, base, &g, &j, found);
    judged_forget(&j);
    if (all->keeps && places.stack_count)
        places_keep(&places, a->records, base);
    places_forget(&places);
    fclose(answer);
    findings_forget(&own);
    gather_end(&g);
    return !is_whole || !is_noted ? FAILED : found == 1 || has_own;
}

static int ends_in_events(const struct dirent *e)
{
    const char *end = strrchr(e->d_name, '.');
    return end && strcmp(end, ".events") == 0;
}

/// Leaves out of a list of files those that are of no recording of the run; answers how many are left.
static int keep_own(struct dirent **list, int count, const struct index *own)
{
    int kept = 0;
    for (int i = 0; i < count; i++)
        if (index_has(own, list[i]->d_name))
            list[kept++] = list[i];
        else
            free(list[i]);
    return kept;
}

/// All processes of a run, in a text each with its name if there are several.
static int audit_all(struct audited *a)
{
    struct dirent **list;
    int status = 0;
    const char *between = "";
    struct index own;
    int count = scandir(a->records, &list, ends_in_events, versionsort);
    if (count < 0)
        fail(a->records);
    index_read(&own, a->records);
    if (a->is_new) /* what else is there is not of this run */
        count = keep_own(list, count, &own);
    index_forget(&own);
    for (int i = 0; i < count; i++) {
        char *base = list[i]->d_name;
        *strrchr(base, '.') = 0;
        const bool is_alive = a->is_new && tidy_is_alive(base);
        if (is_alive)
            fprintf(stderr, "dsa_trace: %s is not audited, since its process still runs\n", base);
        else if (a->all->options.is_json)
            fputs(between, a->report);
        else if (count > 1)
            fprintf(a->report, "%s:\n", base);
        const int of_one = is_alive ? FAILED : audit_process(a, base);
        between = is_alive ? between : ",";
        status = of_one > status ? of_one : status;
        free(list[i]);
    }
    free(list);
    return index_is_whole(a->records) ? status : FAILED;
}

/// Whether all that the run submitted is recorded, and so audited.
static bool is_seen(const struct run *run, uint64_t recorded, uint64_t submitted)
{
    const bool is_whole = !run->board || seen_whole(run);
    if (is_whole && recorded < submitted)
        fprintf(stderr, "dsa_trace: of %" PRIu64 " submissions %" PRIu64 " are recorded\n", submitted, recorded);
    return is_whole && recorded >= submitted && run->is_over;
}

/// Counts a run, and keeps its report if it has an error that none before has.
static void keep(struct audits *a, uint64_t seed, const struct audited *it, int status, const char *between)
{
    const size_t before = a->keys.count;
    for (size_t i = 0; i < it->keys.count; i++)
        keys_place(&a->keys, it->keys.all[i]);
    const bool is_first = status && !a->faulty && !a->partial, is_keyless = status == 1 && !it->keys.count;
    const bool is_new = a->keys.count > before || (is_keyless && !a->has_keyless);
    const bool is_kept = status == FAILED || is_first || is_new;
    a->has_keyless |= is_keyless;
    a->runs++;
    a->faulty += status == 1;
    a->partial += status == FAILED;
    a->status = status > a->status ? status : a->status;
    if (is_first)
        a->seed = seed;
    if (a->options.is_json)
        fputs(a->runs > 1 ? "," : "", a->report);
    else if (is_kept && *between)
        fprintf(a->report, "%sseed %" PRIu64 ":\n", a->kept ? between : "", seed);
    if (a->options.is_json || is_kept)
        append(a->last, a->report);
    a->kept += is_kept;
}

/// Keeps the last report as the one that is shown if no run has errors, unless it has no submission, or only an earlier
/// one looked for missing waits.
static void show(struct audits *a, uint64_t seed, bool is_empty, bool seeks_waits)
{
    if (a->shown && (is_empty || (a->shows_waits && !seeks_waits)))
        return;
    if (a->shown)
        fclose(a->shown);
    a->shown = a->last;
    a->shown_seed = seed;
    a->shows_waits = seeks_waits;
}

/// How many processes looked for missing waits.
static unsigned long long seeking(const struct audits *a) { return a->processes - a->at_once; }

/// Audits a run. In a text the reports that are kept are headed by their seeds if `is_one_of_many`.
enum verdict audit_run(struct audits *a, const struct run *run, bool is_one_of_many)
{
    static const char *const names[] = {[CLEAN] = "clean", [ERRORS] = "errors", [PART] = "part", [EMPTY] = "empty"};
    const unsigned long long before = seeking(a);
    if (a->last != a->shown)
        fclose(a->last);
    a->last = in_memory("the report of a run");
    struct audited it = {.all = a, .records = run->records, .report = a->last, .is_new = run->board};
    if (a->options.is_json)
        fputs("{\"processes\":[", a->last);
    int status = audit_all(&it);
    const uint64_t submitted = run->board ? seen_submitted(run) : it.recorded;
    if (!is_seen(run, it.recorded, submitted))
        status = FAILED;
    if (status == FAILED)
        fputs("dsa_trace: the audit has seen a part of the run\n", stderr);
    const enum verdict verdict = status == FAILED ? PART : status ? ERRORS : submitted ? CLEAN : EMPTY;
    if (a->options.is_json)
        fprintf(a->last, "],\"seed\":%" PRIu64 ",\"status\":%d,\"verdict\":\"%s\"}", run->seed, run->status,
                names[verdict]);
    a->empty += submitted == 0 && status != FAILED;
    keep(a, run->seed, &it, status, is_one_of_many ? "\n" : "");
    show(a, run->seed, it.recorded == 0, seeking(a) > before);
    keys_forget(&it.keys);
    return verdict;
}

/// How many lines of --accept are keys of errors that were found.
static size_t accepted_count(const struct stale *s)
{
    size_t count = 0;
    for (size_t i = 0; i < s->count; i++)
        count += s->lines[i].is_used && *s->lines[i].text >= 'a' && *s->lines[i].text <= 'z';
    return count;
}

/// Of several runs: how many have errors or were seen in part, and of which the first report is.
static void say_which(const struct audits *a, const struct options *o, bool has_failed)
{
    if (!a->faulty && !a->partial) {
        const char *const but = accepted_count(&a->stale) ? " but those that are accepted" : "";
        fprintf(stderr, "dsa_trace: the audits of %llu runs find no errors%s", a->runs, but);
        if (!o->audit.is_json && !o->audit.writes_keys)
            fprintf(stderr, "; that of seed %" PRIu64 ":", a->shown_seed);
        fputc('\n', stderr);
        return;
    }
    fprintf(stderr, "dsa_trace: the audits of %llu of %llu runs find errors", a->faulty, a->runs);
    if (a->partial)
        fprintf(stderr, ", and those of %llu have seen a part", a->partial);
    const bool is_repeated = !has_failed && !o->report; /* else it is said already how to run one again */
    fprintf(stderr, "; %s %" PRIu64 ":\n", is_repeated ? "to repeat seed" : "the first is seed", a->seed);
    if (is_repeated)
        options_repeat(o, a->seed);
}

/// What a program that fails may lack although its audits find nothing.
static void say_what_else(const struct audits *a, const struct options *o)
{
    const size_t accepted = accepted_count(&a->stale);
    fputs("dsa_trace: the audits find no errors", stderr);
    if (accepted)
        fprintf(stderr, " but those that %zu line%s of %s know%s, and these may be why the program fails", accepted,
                accepted > 1 ? "s" : "", a->stale.file, accepted > 1 ? "" : "s");
    if (o->settings.fault)
        fputs("; some moves may have been stopped by --fault: the program has to look at the status of each record\n",
              stderr);
    else
        fputs("; if the program does not fail with --order fifo, it uses memory itself before a record says that the "
              "operation has ended, or a member publishes what others write, and needs a fence (in a list a barrier) "
              "before it\n",
              stderr);
}

/// Of runs in which nothing was submitted.
static void say_empty(const struct audits *a)
{
    if (a->runs > 1)
        fprintf(stderr, "dsa_trace: in %llu of %llu runs nothing was submitted\n", a->empty, a->runs);
    fputs("dsa_trace: nothing was submitted, so nothing was audited; a program that asks CPUID for MOVDIR64B, ENQCMD "
          "or UMWAIT, and else does without, needs --cpuid\n",
          stderr);
}

/// Whether no audit could see that a wait is missing.
static bool is_at_once(const struct audits *a) { return a->processes && a->at_once == a->processes; }

/// Prints what was asked for of all runs: the keys of errors, the reports that are kept, or the last, and the accepted
/// lines that fit nothing. Answers whether these are errors.
static bool print(const struct audits *a, bool has_failed)
{
    bool has_errors = false;
    const bool is_json = a->options.is_json;
    for (size_t i = 0; a->options.writes_keys && i < a->keys.count; i++)
        puts(a->keys.all[i]);
    if (is_json)
        fputs(is_at_once(a) ? "{\"at_once\":true,\"runs\":[" : "{\"runs\":[", stdout);
    if (a->is_unproved && !is_json && !a->options.writes_keys)
        printf("by a dsa_text that was built without proofs (%s):\n", a->dsa_text);
    if (!a->options.writes_keys)
        append(is_json || a->kept ? a->report : a->shown, stdout);
    fputs(is_json ? "]" : "", stdout);
    const bool is_all = !a->partial && !has_failed && a->empty < a->runs; /* what was not run or seen may use them */
    if (a->options.accept && !a->options.writes_keys && is_all) {
        fputs(is_json ? ",\"stale\":" : "", stdout);
        has_errors = stale_end(&a->stale, a->seen > 0, is_json, stdout);
    }
    fputs(is_json && a->is_unproved ? ",\"unproved\":true" : "", stdout);
    fputs(is_json ? "}\n" : "", stdout);
    if (fflush(stdout))
        fail("the report of the audit");
    return has_errors;
}

/// The accepted lines that fit nothing, as a test case that fails.
static void add_stale(const struct audits *a, struct junit *j)
{
    FILE *lines = in_memory("the accepted keys");
    stale_end(&a->stale, a->seen > 0, false, lines);
    junit_add_stale(j, lines);
    fclose(lines);
}

/// Prints the report, and answers the status of all audits.
int audits_end(struct audits *a, const struct options *o, struct junit *j, int program)
{
    const bool has_failed = program != 0;
    if (a->empty)
        say_empty(a);
    if (is_at_once(a))
        fputs("dsa_trace: each submission was done at once, so no missing wait was looked for; that is so with --order "
              "fifo or members, and without --delay and --watch under seeds 4, 8, ..\n",
              stderr);
    if (a->empty < a->runs && a->runs > 1)
        say_which(a, o, has_failed);
    const bool is_stale = print(a, has_failed);
    if (is_stale && j->to)
        add_stale(a, j);
    if (is_stale && !a->status)
        a->status = 1;
    if (has_failed && program != TIMED_OUT && !a->empty && !a->faulty && !a->partial)
        say_what_else(a, o);
    fclose(a->report);
    if (a->last != a->shown)
        fclose(a->last);
    fclose(a->shown);
    stale_forget(&a->stale);
    keys_forget(&a->accepted);
    keys_forget(&a->keys);
    symbols_forget(&a->symbols);
    if (a->status == 1 && o->audit.writes_keys)
        a->status = 0;
    return a->status || !a->empty || has_failed ? a->status : 1;
}
