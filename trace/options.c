/* The command line. */
#include <errno.h>
#include <stdio.h>
#include <stdlib.h>
#include <string.h>
#include <sys/stat.h>

#include "launcher.h"

static const char help[] =
    "Runs a program for Intel DSA without the device: records what it submits, and does it in software.\n"
    "\n"
    "Usage: dsa_trace [OPTIONS] [--] PROGRAM [ARGUMENTS]\n"
    "       dsa_trace --report DIR [OPTIONS]\n"
    "\n"
    "Options:\n"
    "      --audit          at the end, what the recordings lack: fences and waits, and what else is wrong; status 1\n"
    "                       if any run has errors or submits nothing, 125 if the audit has seen a part of it\n"
    "      --accept <FILE>  of an audit: errors of the kinds that this file has, a line each, are known and no errors\n"
    "      --write-accept   of an audit: write the kinds of the errors of all runs, for --accept; they leave status 0\n"
    "      --deny <KIND,..> of an audit: findings that are errors too: needless, guarding, signalling, unseen, and\n"
    "                       stale, lines of --accept that fit nothing\n"
    "      --await <WHAT>   of an audit: what the program looks at: writes, signals or batches [default: writes]\n"
    "      --resident       of an audit: all memory is resident, so no member page-faults\n"
    "      --lone <N>       of an audit: for its line of costs, the price of a lone descriptor [default: 10]\n"
    "      --batch <N>      that of a batch [default: 14]\n"
    "      --batches <N,..> those of batches by their size, from 2 members on, in place of --batch\n"
    "      --fence <N>      that of a fence in a batch [default: 3]\n"
    "      --greatest-batch <N>\n"
    "                       the most members of a batch that has a price [default: 32]\n"
    "      --greatest-transfer <N>\n"
    "                       taken too, so that what dsa_prices --options prints can be given here\n"
    "      --json           of an audit: write the reports of all runs as JSON; with this and --write-accept what the\n"
    "                       program prints goes to standard error\n"
    "      --report <DIR>   run no program: audit the runs that --out DIR has kept\n"
    "      --junit <FILE>   write the runs to a file as test cases for continuous integration\n"
    "      --timeout <SEC>  end each run after so many seconds, with status 124; 0: never [default: 0]\n"
    "      --out <DIR>      keep the recordings, those of each run in DIR/seed-N\n"
    "      --seed <N>       the order that this number draws [default: 1]\n"
    "      --seeds <N>      run the program N times, each with the next seed, up to the first that fails\n"
    "      --order <ORDER>  fifo, members (of a batch in any order), data (submissions too, but records in order)\n"
    "                       or all (records too) [default: data]\n"
    "      --delay <US>     microseconds that the program runs on before what is in flight is done [default: of four\n"
    "                       seeds in a row two take 100, one takes 400, and one does each submission at once]\n"
    "      --retry <N>      ENQCMD says retry once in N times; 0: only when the queue is full [default: 0]\n"
    "      --fault <N>      a move without block-on-fault stops where its source enters a new page, once in N times;\n"
    "                       0: never [default: 0]\n"
    "      --watch <MS>     hold what is in flight until its record is looked at, at most so many milliseconds\n"
    "      --no-watch       do not look which records the program looks at: each completion counts as seen\n"
    "      --queue <QUEUE>  dedicated,SIZE,NAME or shared,SIZE,NAME; once for each of wq0.0, wq0.1 and so on\n"
    "                       [default: dedicated,16,dpdk_wq0.0 and shared,16,app1]\n"
    "      --cpuid          let CPUID say that MOVDIR64B, ENQCMD and UMWAIT are there\n"
    "      --signals        change no code of the program's: each submission costs a signal, some microseconds\n"
    "      --stacks <N>     frames of the call stack that is recorded of each submission, at most 32; 0: none\n"
    "                       [default: 16]\n"
    "      --no-namespace   turn file names in the library, and mount nothing\n"
    "      --no-wait        do not wait for processes that the program leaves in the background\n"
    "      --verbose        a line of counts at the end of each process\n"
    "  -h, --help           print this\n"
    "  -V, --version        print the version\n"
    "\n"
    "Examples:\n"
    "  dsa_trace --audit --seeds 20 -- ./my_test\n"
    "  dsa_trace --seed 7 --out recorded -- ./my_test && dsa_text audit recorded/seed-7/my_test.*.dsa\n";

static void refuse(const char *why, const char *word) __attribute__((noreturn));

static void refuse(const char *why, const char *word)
{
    fprintf(stderr, "dsa_trace: %s%s%s (see dsa_trace --help)\n", word, *word ? ": " : "", why);
    exit(FAILED);
}

static void print_and_end(const char *text) __attribute__((noreturn));

static void print_and_end(const char *text)
{
    fputs(text, stdout);
    exit(0);
}

static uint64_t number_of(const char *option, const char *text)
{
    char *end;
    errno = 0;
    const unsigned long long number = strtoull(text, &end, 10);
    if (*text < '0' || *text > '9' || *end || errno)
        refuse("a whole number comes after this option", option);
    return number;
}

static enum order order_of(const char *text)
{
    for (int i = 0; i < 4; i++)
        if (strcmp(text, order_names[i]) == 0)
            return (enum order)i;
    refuse("an order is fifo, members, data or all", text);
}

static void add_queue(struct options *o, const char *text)
{
    if (o->queue_count == MOST_QUEUES)
        refuse("there are at most eight queues", text);
    if (!tree_is_queue(text))
        refuse("a queue is dedicated,SIZE,NAME or shared,SIZE,NAME with a size from 1 to 128", text);
    o->queues[o->queue_count++] = text;
}

/// The setting of a number of this option, or NULL.
static uint64_t *number_at(struct options *o, const char *name)
{
    struct { const char *name; uint64_t *at; } numbers[] = {
        {"--seed", &o->settings.seed},   {"--seeds", &o->seeds},          {"--delay", &o->settings.delay},
        {"--retry", &o->settings.retry}, {"--fault", &o->settings.fault}, {"--watch", &o->settings.hold},
        {"--timeout", &o->timeout},      {"--stacks", &o->settings.stacks},
    };
    for (size_t i = 0; i < sizeof numbers / sizeof *numbers; i++)
        if (strcmp(name, numbers[i].name) == 0)
            return numbers[i].at;
    return NULL;
}

/// The text that an option gives, or NULL; *is_of_audit says whether an audit alone takes it.
static const char **text_at(struct options *o, const char *name, bool *is_of_audit)
{
    struct audit_options *a = &o->audit;
    struct { const char *name; const char **at; bool is_of_audit; } texts[] = {
        {"--out", &o->out, false},     {"--junit", &o->junit, false},
        {"--report", &o->report, false}, {"--accept", &a->accept, true},
        {"--deny", &a->deny, true},    {"--await", &a->await, true},
        {"--lone", &a->lone, true},    {"--greatest-batch", &a->greatest_batch, true},
        {"--batch", &a->batch, true},  {"--batches", &a->batches, true},
        {"--fence", &a->fence, true},  {"--greatest-transfer", &a->greatest_transfer, true},
    };
    for (size_t i = 0; i < sizeof texts / sizeof *texts; i++)
        if (strcmp(name, texts[i].name) == 0) {
            *is_of_audit = texts[i].is_of_audit;
            return texts[i].at;
        }
    return NULL;
}

/// An option of an audit without a value; false if it is none.
static bool take_audit_flag(struct audit_options *o, const char *name)
{
    bool *const flag = !strcmp(name, "--resident") ? &o->is_resident : !strcmp(name, "--json") ? &o->is_json :
                       !strcmp(name, "--write-accept") ? &o->writes_keys : NULL;
    if (flag)
        *flag = o->is_there = true;
    return flag;
}

/// An option without a value; false if it is none.
static bool take_flag(struct options *o, const char *name)
{
    if (strcmp(name, "--audit") == 0)
        o->audits = true;
    else if (take_audit_flag(&o->audit, name))
        return true;
    else if (strcmp(name, "--cpuid") == 0)
        o->settings.cpuid = 1;
    else if (strcmp(name, "--no-namespace") == 0)
        o->has_namespace = false;
    else if (strcmp(name, "--no-wait") == 0)
        o->waits = false;
    else if (strcmp(name, "--no-watch") == 0)
        o->watches = false;
    else if (strcmp(name, "--signals") == 0)
        o->settings.signals = 1;
    else if (strcmp(name, "--verbose") == 0)
        o->settings.verbose = 1;
    else
        return false;
    return true;
}

/// An option with its value.
static void take_value(struct options *o, const char *name, const char *value)
{
    bool is_of_audit = false;
    uint64_t *number = number_at(o, name);
    const char **text = text_at(o, name, &is_of_audit);
    if (!number && !text && strcmp(name, "--order") && strcmp(name, "--queue"))
        refuse("there is no such option", name);
    if (!value || !*value || strcmp(value, "--") == 0)
        refuse("a value comes after this option", name);
    o->has_pace |= strcmp(name, "--delay") == 0 || strcmp(name, "--watch") == 0;
    o->audit.is_there |= is_of_audit;
    if (text && *text)
        refuse("this option is given twice", name);
    if (number)
        *number = number_of(name, value);
    else if (text)
        *text = value;
    else if (strcmp(name, "--order") == 0)
        o->settings.order = order_of(value);
    else
        add_queue(o, value);
}

/// Whether an option says how programs are run, so that --report has no use for it.
static bool is_of_run(const char *name)
{
    static const char *const of_runs[] = {"--seed", "--seeds", "--order", "--queue", "--delay", "--retry", "--fault",
                                          "--watch", "--no-watch", "--timeout", "--out", "--cpuid", "--no-namespace",
                                          "--no-wait", "--signals", "--verbose"};
    size_t i = 0;
    while (i < sizeof of_runs / sizeof *of_runs && strcmp(name, of_runs[i]))
        i++;
    return i < sizeof of_runs / sizeof *of_runs;
}

/// Whether two paths name one file.
static bool is_one_file(const char *path, const char *other)
{
    struct stat s, t;
    return path && other && !stat(path, &s) && !stat(other, &t) && S_ISREG(s.st_mode) && s.st_dev == t.st_dev &&
           s.st_ino == t.st_ino;
}

/// Reads the words of the command line after the program's own name.
void options_read(char **words, struct options *o)
{
    char name[32], of_run[sizeof name] = "";
    *o = (struct options){.settings = settings_default(), .seeds = 1, .has_namespace = true, .waits = true,
                          .watches = true, .words = words};
    char **word = words + 1;
    for (; *word && **word == '-' && strcmp(*word, "--"); word++) {
        const char *equals = strchr(*word, '=');
        snprintf(name, sizeof name, "%.*s", equals ? (int)(equals - *word) : (int)strlen(*word), *word);
        if (strcmp(name, "--help") == 0 || strcmp(name, "-h") == 0)
            print_and_end(help);
        if (strcmp(name, "--version") == 0 || strcmp(name, "-V") == 0)
            print_and_end("dsa_trace " VERSION "\n");
        if (is_of_run(name))
            memcpy(of_run, name, sizeof name);
        if (take_flag(o, name)) {
            if (equals)
                refuse("this option takes no value", name);
            continue;
        }
        const char *value = equals ? equals + 1 : word[1];
        take_value(o, name, value);
        word += !equals;
    }
    o->program = *word && strcmp(*word, "--") == 0 ? word + 1 : word;
    o->audits |= o->report != NULL;
    if (!*o->program && !o->report)
        refuse("the program to run is missing", "");
    if (*o->program && !**o->program)
        refuse("the program to run has no name", "''");
    if (*o->program && o->report)
        refuse("no program is run", "--report");
    if (*of_run && o->report)
        refuse("--report runs no program, so it has no use for this option", of_run);
    o->settings.watch = o->watches && (o->audits || o->settings.hold);
    if (o->settings.stacks > MOST_FRAMES)
        refuse("at most 32 frames are recorded", "--stacks");
    if (o->seeds == 0)
        refuse("at least one run is needed", "--seeds");
    if (o->audit.is_there && !o->audits)
        refuse("an audit alone takes --accept, --write-accept, --deny, --await, --resident, --json and prices",
               "--audit");
    if (o->audit.is_json && o->audit.writes_keys)
        refuse("--write-accept writes keys alone", "--json");
    if (is_one_file(o->junit, o->audit.accept))
        refuse("--junit would overwrite the file of --accept", o->junit);
}

/// A word as a shell reads it, and what comes before it.
static void print_word(const char *before, const char *word)
{
    static const char plain[] = "abcdefghijklmnopqrstuvwxyzABCDEFGHIJKLMNOPQRSTUVWXYZ0123456789_-+=./,:@%^";
    if (*word && word[strspn(word, plain)] == 0) {
        fprintf(stderr, "%s%s", before, word);
        return;
    }
    fprintf(stderr, "%s'", before);
    for (; *word; word++)
        fputs(*word == '\'' ? "'\\''" : (char[]){*word, 0}, stderr);
    fputc('\'', stderr);
}

/// The command line that runs the program once more with one seed; the test cases of all seeds are kept.
void options_repeat(const struct options *o, uint64_t seed)
{
    print_word("", o->words[0]);
    fprintf(stderr, " --seed %llu", (unsigned long long)seed);
    for (char **word = o->words + 1; word < o->program; word++) {
        if (strcmp(*word, "--seed") == 0 || strcmp(*word, "--seeds") == 0 || strcmp(*word, "--junit") == 0)
            word++;
        else if (strncmp(*word, "--seed", 6) && strncmp(*word, "--junit=", 8) && strcmp(*word, "--"))
            print_word(" ", *word);
    }
    fputs(" --", stderr);
    for (char **word = o->program; *word; word++)
        print_word(" ", *word);
    fputs("\n", stderr);
}
