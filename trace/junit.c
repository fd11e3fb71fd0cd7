/* --junit: a file in which a system for continuous integration reads how the runs ended, a test case for each. */
#include <errno.h>
#include <inttypes.h>
#include <string.h>

#include "launcher.h"

enum { ROOM = 96 };

static void put(FILE *to, const char *text)
{
    for (; *text; text++)
        escape_xml(to, *text);
}

/// Writes what the file has so far. The first reason for which that fails is kept: the runs go on.
static void write_out(struct junit *j)
{
    if (fflush(j->to) && !j->reason)
        j->reason = errno;
}

/// Begins the file, so that one that can't be written is said before the first run.
void junit_begin(struct junit *j, const char *path, const char *program, bool is_unproved)
{
    const char *slash = strrchr(program, '/');
    *j = (struct junit){.to = opened(path, "we"), .path = path, .program = slash ? slash + 1 : program};
    fputs("<?xml version=\"1.0\" encoding=\"UTF-8\"?>\n<testsuite name=\"dsa_trace\">\n", j->to);
    if (is_unproved)
        fputs("  <properties><property name=\"dsa_text\" value=\"built without proofs\"/></properties>\n", j->to);
}

/// What is wrong with a run, if anything is. `is_broken`: dsa_trace could not judge it.
static const char *fault_of(const struct run *run, enum verdict verdict, char room[ROOM], bool *is_broken)
{
    *is_broken = run->is_timed_out || verdict == PART;
    if (run->is_timed_out)
        return "the program was ended by --timeout";
    if (verdict == PART && run->status)
        snprintf(room, ROOM, "the program ends with status %d, and the audit has seen a part of the run", run->status);
    if (verdict == PART)
        return run->status ? room : "the audit has seen a part of the run";
    if (verdict == ERRORS)
        return "the audit finds errors";
    if (run->status)
        snprintf(room, ROOM, "the program ends with status %d", run->status);
    return run->status ? room : verdict == EMPTY ? "nothing was submitted" : NULL;
}

/// A run. The report of its audit is NULL if there is none.
void junit_add(struct junit *j, const struct run *run, enum verdict verdict, FILE *report)
{
    char room[ROOM];
    bool is_broken;
    const char *fault = fault_of(run, verdict, room, &is_broken), *kind = is_broken ? "error" : "failure";
    fputs("  <testcase classname=\"dsa_trace\" name=\"", j->to);
    put(j->to, j->program);
    fprintf(j->to, ", seed %" PRIu64 "\" time=\"%.3f\">", run->seed, run->seconds);
    if (fault) {
        fprintf(j->to, "\n    <%s message=\"%s\">", kind, fault);
        if (report)
            rewind(report);
        for (int c; report && (c = fgetc(report)) != EOF;)
            escape_xml(j->to, (char)c);
        fprintf(j->to, "</%s>\n  ", kind);
    }
    fputs("</testcase>\n", j->to);
    write_out(j);
}

/// Lines of the file of --accept that fit nothing and are errors, beside the runs, since they are of all of them.
void junit_add_stale(struct junit *j, FILE *lines)
{
    fputs("  <testcase classname=\"dsa_trace\" name=\"accepted errors\" time=\"0.000\">\n"
          "    <failure message=\"accepted errors fit nothing\">",
          j->to);
    rewind(lines);
    for (int c; (c = fgetc(lines)) != EOF;)
        escape_xml(j->to, (char)c);
    fputs("</failure>\n  </testcase>\n", j->to);
    write_out(j);
}

/// Ends the file, and dsa_trace if it could not be written.
void junit_end(struct junit *j)
{
    fputs("</testsuite>\n", j->to);
    write_out(j);
    if (fclose(j->to) && !j->reason)
        j->reason = errno;
    errno = j->reason;
    if (j->reason)
        fail(j->path);
}
