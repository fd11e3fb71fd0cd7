/* Does the rows of a file by the library of the installed package: rows FILE. For each row it compares the answer with the
 * one in the file, and prints those that differ. Written in what C and C++ have in common. */
#include <inttypes.h>
#include <stdarg.h>
#include <stdio.h>
#include <stdlib.h>
#include <string.h>

#include <dsa_planner.h>

enum { PIECES = 512, TEXT = 1 << 20 };

static char line[TEXT], name[256], task[16], answer[TEXT];
static size_t answer_len;
static struct dsa_settings settings;
static uint64_t table[1024], prices[PIECES + 1], numbers[4 * PIECES];
static struct dsa_pair pairs[PIECES];
static uint8_t list[64 * PIECES], portal[64 * PIECES], staging[80 * PIECES], marks[PIECES];
static size_t table_len, list_len, portal_len, staging_len, marks_len, prices_len, pairs_len;
static uint64_t version;

static void die(const char *what)
{
    fprintf(stderr, "rows: %s in row %s\n", what, name);
    exit(EXIT_FAILURE);
}

static void say(const char *format, ...)
{
    va_list words;
    va_start(words, format);
    int written = vsnprintf(answer + answer_len, sizeof answer - answer_len, format, words);
    va_end(words);
    if (written < 0 || (size_t)written >= sizeof answer - answer_len)
        die("too long an answer");
    answer_len += (size_t)written;
}

static void say_bytes(const char *what, const uint8_t *bytes, size_t len)
{
    say(" %s ", what);
    for (size_t i = 0; i < len; i++)
        say("%02x", bytes[i]);
}

/* The bytes of a hexadecimal text. */
static size_t read_bytes(const char *text, uint8_t *bytes, size_t room)
{
    size_t len = strlen(text) / 2;
    if (len > room)
        die("too many bytes");
    for (size_t i = 0; i < len; i++) {
        unsigned byte = 0;
        if (sscanf(text + 2 * i, "%2x", &byte) != 1)
            die("no hexadecimal text");
        bytes[i] = (uint8_t)byte;
    }
    return len;
}

/* The numbers of a text, parted by blanks. */
static size_t read_numbers(const char *text, uint64_t *to, size_t room)
{
    size_t count = 0;
    char *end = NULL;
    for (uint64_t value = strtoull(text, &end, 10); end != text; value = strtoull(text, &end, 10)) {
        if (count == room)
            die("too many numbers");
        to[count++] = value;
        text = end;
    }
    return count;
}

static void say_refusal(const struct dsa_refusal *r)
{
    say("refused %" PRIu32 " %" PRIu32 " %" PRIu64 " %" PRIu64, r->number, r->inner, r->first, r->second);
}

static void plan(void)
{
    struct dsa_planned p;
    struct dsa_refusal r;
    if (dsa_plan_list_certified(&settings, table, table_len, list, list_len, portal, sizeof portal, staging,
                                sizeof staging, prices, PIECES + 1, pairs, PIECES, marks, PIECES, &p, &r) != DSA_OK) {
        say_refusal(&r);
        return;
    }
    if (dsa_count_pieces(&settings, table, table_len, list, list_len) != p.pieces)
        die("another count of pieces");
    say("cost %" PRIu64, p.cost);
    say_bytes("portal", portal, p.portal_len);
    say_bytes("staging", staging, p.staging_len);
    say_bytes("marks", marks, p.pieces);
    say(" prices");
    for (uint64_t i = 0; i <= p.pieces; i++)
        say(" %" PRIu64, prices[i]);
    say(" pairs");
    for (uint64_t i = 0; i < p.pieces; i++)
        say(" %" PRIu32 " %" PRIu32, pairs[i].first, pairs[i].second);
    struct dsa_planned again;
    memset(staging, 0xee, sizeof staging);
    if (dsa_plan_list(&settings, table, table_len, list, list_len, portal, sizeof portal, staging, sizeof staging,
                      &again, &r) != DSA_OK || memcmp(&again, &p, sizeof p) != 0)
        die("the two calls to plan differ");
}

static void do_row(void)
{
    struct dsa_refusal r;
    uint64_t cost = 0;
    uint32_t code = DSA_OK;
    answer_len = 0;
    if (strcmp(task, "plan") == 0) {
        plan();
        return;
    }
    if (strcmp(task, "check") == 0)
        code = dsa_check(&settings, table, table_len, portal, portal_len, staging, staging_len, version, prices,
                         prices_len, pairs, pairs_len, &cost, &r);
    else
        code = dsa_judge(&settings, table, table_len, list, list_len, marks, marks_len, &cost, &r);
    if (code == DSA_OK)
        say("cost %" PRIu64, cost);
    else
        say_refusal(&r);
}

/* Takes a line of a row in; answers whether it is the last. */
static int take(const char *key, const char *rest)
{
    if (strcmp(key, "row") == 0)
        snprintf(name, sizeof name, "%s", rest);
    else if (strcmp(key, "do") == 0)
        snprintf(task, sizeof task, "%s", rest);
    else if (strcmp(key, "settings") == 0) {
        if (read_numbers(rest, numbers, 7) != 7)
            die("other settings");
        memcpy(&settings, numbers, sizeof settings);
    } else if (strcmp(key, "table") == 0)
        table_len = read_numbers(rest, table, 1024);
    else if (strcmp(key, "list") == 0)
        list_len = read_bytes(rest, list, sizeof list);
    else if (strcmp(key, "portal") == 0)
        portal_len = read_bytes(rest, portal, sizeof portal);
    else if (strcmp(key, "staging") == 0)
        staging_len = read_bytes(rest, staging, sizeof staging);
    else if (strcmp(key, "marks") == 0)
        marks_len = read_bytes(rest, marks, sizeof marks);
    else if (strcmp(key, "version") == 0)
        version = strtoull(rest, NULL, 10);
    else if (strcmp(key, "prices") == 0)
        prices_len = read_numbers(rest, prices, PIECES + 1);
    else if (strcmp(key, "pairs") == 0) {
        pairs_len = read_numbers(rest, numbers, 2 * PIECES) / 2;
        for (size_t i = 0; i < pairs_len; i++) {
            pairs[i].first = (uint32_t)numbers[2 * i];
            pairs[i].second = (uint32_t)numbers[2 * i + 1];
        }
    } else if (strcmp(key, "answer") == 0)
        return 1;
    else
        die("an unknown line");
    return 0;
}

int main(int argc, char **argv)
{
    FILE *file = argc == 2 ? fopen(argv[1], "r") : NULL;
    unsigned rows = 0, wrong = 0;
    if (!file || dsa_planner_version() != DSA_PLANNER_VERSION)
        die("no file, or another version,");
    while (fgets(line, sizeof line, file)) {
        line[strcspn(line, "\n")] = 0;
        char *rest = strchr(line, ' ');
        if (line[0] == '#' || line[0] == 0)
            continue;
        if (!rest)
            die("a line of one word");
        *rest++ = 0;
        if (!take(line, rest))
            continue;
        do_row();
        rows++;
        if (strcmp(answer, rest) != 0 && ++wrong)
            printf("%s: %s, and not %s\n", name, answer, rest);
    }
    fclose(file);
    printf("%u rows, %u wrong\n", rows, wrong);
    return wrong != 0 || rows == 0;
}
