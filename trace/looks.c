/* Whether it was seen when the program looked at completion records. dsa_text names the events that say so, which a
 * user of dsa_trace does not see: a report has in place of its line what is missed without them, and what helps; and
 * after waits that are missing by such looks what to do if the program looks at data. */
#include <stdlib.h>
#include <string.h>

#include "launcher.h"

static const char sentence[] = "no event says when the program looked at a record";

static const char at_once[] =
    "in this process each submission was done at once, as under every fourth seed and with --order fifo or members, so "
    "no missing wait was looked for\n";

static const char unseen[] =
    "it was not seen when the program looked at its records, so each end counts as known at once: a missing wait is "
    "found only if the later submission came before that end; what helps is to run it with --audit or --watch where "
    "there are watchpoints, without --no-watch (which only programs need that poll data and not records), or with "
    "--delay 20000, so that ends come late\n";

static const char looked[] =
    "if the program polls data, or of several records the last, in place of each record, run it with --no-watch, which "
    "counts each end as known\n";

FILE *looks_explain(FILE *report, const struct gathered *g, bool *is_unseen)
{
    char *line = NULL;
    size_t room = 0;
    const char *const instead = g->is_at_once ? at_once : g->submissions ? unseen : "";
    FILE *to = in_memory("the answer of dsa_text");
    rewind(report);
    while (getline(&line, &room, report) >= 0) {
        const bool is_sentence = strncmp(line, sentence, sizeof sentence - 1) == 0;
        *is_unseen |= is_sentence;
        fputs(is_sentence ? instead : line, to);
    }
    free(line);
    if (ferror(report) || ferror(to))
        fail("the answer of dsa_text");
    fclose(report);
    return to;
}

/// Adds what helps if looks are not seen to a report that has a missing wait after this place.
void looks_advise(FILE *report, long from)
{
    char *line = NULL;
    size_t room = 0;
    bool has_missing = false;
    if (fflush(report) || fseek(report, from, SEEK_SET))
        fail("the report of the audit");
    while (getline(&line, &room, report) >= 0)
        has_missing |= strstr(line, ": error: missing wait, ") != NULL;
    free(line);
    if (fseek(report, 0, SEEK_END))
        fail("the report of the audit");
    if (has_missing)
        fputs(looked, report);
}
