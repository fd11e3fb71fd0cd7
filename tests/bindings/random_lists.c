/* Writes random jobs for the program `dsa`, and the line that the library answers to each, into a folder:
 * random_lists FOLDER LISTS SEED. A refusal's line is written without names: the library has numbers alone. */
#include <inttypes.h>
#include <stdio.h>
#include <stdlib.h>
#include <string.h>

#include "dsa_planner.h"

enum { MOST = 12, PIECES = DSA_MOST_PIECES };

static uint64_t seed;
static uint64_t below(uint64_t n)
{
    seed = seed * UINT64_C(6364136223846793005) + UINT64_C(1442695040888963407);
    return (seed >> 33) % n;
}

static uint8_t list[64 * MOST], portal[64 * PIECES], staging[80 * PIECES], marks[PIECES];
static uint64_t prices[PIECES + 1];
static struct dsa_pair pairs[PIECES];
static struct dsa_settings s;
static uint64_t table[8]; /* prices by size, which count with version 2 */
static size_t table_len;

static uint64_t any_address(void) { return 0x1000 * (1 + below(9)) + 64 * below(3); }

static void put(uint8_t *at, uint64_t value, int bytes)
{
    for (int i = 0; i < bytes; i++)
        at[i] = (uint8_t)(value >> (8 * i));
}

/* One operation over few addresses, mostly well formed. */
static void any_operation(uint8_t *d, uint64_t index)
{
    static const uint8_t codes[] = {0x03, 0x03, 0x03, 0x04, 0x05, 0x06, 0x08, 0x09};
    static const uint32_t sizes[] = {8, 64, 64, 100, 512, 4096, 5000, 9000};
    uint8_t code = codes[below(8)];
    uint32_t size = sizes[below(8)];
    uint64_t dst = any_address();
    memset(d, 0, 64);
    put(d + 4, 0x0c, 3);
    d[7] = code;
    put(d + 8, below(8) ? 0x100000 + 0x4000 * index : any_address() & ~UINT64_C(31), 8);
    put(d + 16, any_address(), 8);
    put(d + 24, dst, 8);
    if (code == 0x08) {
        size = size / 8 * 8;
        put(d + 40, 10 * below(4), 4);
    }
    if (code == 0x09)
        put(d + 40, dst + 0x1000 * (1 + below(9)), 8);
    put(d + 32, size, 4);
    if (below(24) == 0)
        d[below(64)] ^= (uint8_t)(1 << below(8));
    d[4] &= 0xfe; /* jobs take no barriers */
}

static void any_settings(void)
{
    static const uint64_t transfers[] = {64, 512, 4096, 16384};
    s = (struct dsa_settings){
        1, 2 + below(5), transfers[below(4)], below(30), below(30), below(8), below(12) ? 0x10000000 : 0x2000,
    };
    if (below(40) == 0)
        s.greatest_batch = below(2) ? 1 : 1025;
    table_len = 0;
    if (below(3) == 0 && s.greatest_batch <= 6) {
        s.version = 2;
        table_len = s.greatest_batch - 1 + (below(30) == 0);
        for (size_t i = 0; i < table_len; i++)
            table[i] = below(30);
    }
}

static void hex(FILE *f, const uint8_t *bytes, size_t len)
{
    for (size_t i = 0; i < len; i++)
        fprintf(f, "%02x", bytes[i]);
}

static void plan_text(FILE *f, size_t n)
{
    fprintf(f, "[");
    for (size_t i = 0; i < n; i++) {
        if (i == 0 || marks[i] & DSA_BEGINS)
            fprintf(f, "%s[", i == 0 ? "" : "],");
        else
            fprintf(f, ",");
        fprintf(f, "%s", marks[i] & DSA_FENCED ? "true" : "false");
    }
    fprintf(f, "%s]", n == 0 ? "" : "]");
}

static void certificate_text(FILE *f, size_t n)
{
    fprintf(f, "{\"pairs\":[");
    for (size_t i = 0; i < n; i++) {
        fprintf(f, "%s", i == 0 ? "" : ",");
        if (pairs[i].first == DSA_NONE && pairs[i].second == DSA_NONE)
            fprintf(f, "null");
        else
            fprintf(f, "[%" PRIu32 ",%" PRIu32 "]", pairs[i].first, pairs[i].second);
    }
    fprintf(f, "],\"prices\":[");
    for (size_t i = 0; i <= n; i++)
        fprintf(f, "%s%" PRIu64, i == 0 ? "" : ",", prices[i]);
    fprintf(f, "],\"version\":%" PRIu64 "}", s.version);
}

static void settings_text(FILE *f)
{
    fprintf(f, "\"settings\":{\"version\":%" PRIu64 ",\"greatest_batch\":%" PRIu64 ",\"greatest_transfer\":%" PRIu64
               ",\"lone\":%" PRIu64 ",\"fence\":%" PRIu64 ",\"staging\":%" PRIu64 ",\"batch\":",
            s.version, s.greatest_batch, s.greatest_transfer, s.lone, s.fence, s.staging);
    if (s.version == 1)
        fprintf(f, "%" PRIu64 "}", s.batch);
    for (size_t i = 0; i < table_len; i++)
        fprintf(f, "%s%" PRIu64 "%s", i == 0 ? "[" : ",", table[i], i + 1 == table_len ? "]}" : "");
}

/* How many indices a refusal's line has. */
static int places(uint32_t number)
{
    switch (number) {
    case DSA_LENGTH: case DSA_TOO_MANY_PIECES: case DSA_COUNT: case DSA_PORTAL_LENGTH: case DSA_STAGING_LENGTH:
    case DSA_LENGTHS: case DSA_TOTAL: case DSA_VERSION: case DSA_SETTINGS:
        return 0;
    case DSA_UNFENCED: case DSA_PRICE:
        return 2;
    default:
        return 1;
    }
}

static void refusal_text(FILE *f, const struct dsa_refusal *r)
{
    fprintf(f, "refused %" PRIu32, r->number);
    if (r->number == DSA_PLAN)
        fprintf(f, " %" PRIu32, r->inner);
    int n = places(r->number == DSA_PLAN ? r->inner : r->number);
    if (n > 0)
        fprintf(f, " %" PRIu64, r->first);
    if (n > 1)
        fprintf(f, " %" PRIu64, r->second);
    if (r->number == DSA_ENTRY)
        fprintf(f, " %" PRIu32, r->inner);
    fprintf(f, "\n");
}

static FILE *file(const char *folder, uint64_t i, const char *ending)
{
    char name[4096];
    snprintf(name, sizeof name, "%s/%05" PRIu64 "-%s", folder, i, ending);
    FILE *f = fopen(name, "w");
    if (!f)
        exit(EXIT_FAILURE);
    return f;
}

static void cost_line(const char *folder, uint64_t i, const char *ending, uint32_t code, uint64_t cost, const struct dsa_refusal *r)
{
    FILE *line = file(folder, i, ending);
    if (code == 0)
        fprintf(line, "{\"cost\":%" PRIu64 "}\n", cost);
    else
        refusal_text(line, r);
    fclose(line);
}

static int plan(const char *folder, uint64_t i, size_t len, struct dsa_planned *p)
{
    struct dsa_refusal r;
    FILE *job = file(folder, i, "plan.job"), *line = file(folder, i, "plan.line");
    fprintf(job, "{\"do\":\"plan\",\"list\":\"");
    hex(job, list, len);
    fprintf(job, "\",");
    settings_text(job);
    fprintf(job, "}");
    uint32_t code = dsa_plan_list_certified(&s, table, table_len, list, len, portal, sizeof portal, staging, sizeof staging,
                                            prices, PIECES + 1, pairs, PIECES, marks, PIECES, p, &r);
    if (code == 0) {
        fprintf(line, "{\"certificate\":");
        certificate_text(line, p->pieces);
        fprintf(line, ",\"cost\":%" PRIu64 ",\"plan\":", p->cost);
        plan_text(line, p->pieces);
        fprintf(line, ",\"portal\":\"");
        hex(line, portal, p->portal_len);
        fprintf(line, "\",\"staging\":\"");
        hex(line, staging, p->staging_len);
        fprintf(line, "\"}\n");
        if (p->pieces != dsa_count_pieces(&s, table, table_len, list, len))
            exit(EXIT_FAILURE);
    } else
        refusal_text(line, &r);
    fclose(job);
    fclose(line);
    return code == 0;
}

/* The planned bytes and their certificate, mostly with one bit or one number changed. */
static void check(const char *folder, uint64_t i, const struct dsa_planned *p)
{
    size_t n = p->pieces;
    switch (below(5)) {
    case 0:
        if (p->portal_len > 0)
            portal[below(p->portal_len)] ^= (uint8_t)(1 << below(8));
        break;
    case 1:
        if (p->staging_len > 0)
            staging[below(p->staging_len)] ^= (uint8_t)(1 << below(8));
        break;
    case 2:
        prices[below(n + 1)] += 1;
        break;
    case 3:
        if (n > 0)
            pairs[below(n)] = (struct dsa_pair){(uint32_t)below(n), (uint32_t)below(n + 1)};
        break;
    default:
        break;
    }
    FILE *job = file(folder, i, "check.job");
    fprintf(job, "{\"do\":\"check\",\"portal\":\"");
    hex(job, portal, p->portal_len);
    fprintf(job, "\",\"staging\":\"");
    hex(job, staging, p->staging_len);
    fprintf(job, "\",\"certificate\":");
    certificate_text(job, n);
    fprintf(job, ",");
    settings_text(job);
    fprintf(job, "}");
    fclose(job);
    struct dsa_refusal r;
    uint64_t cost = 0;
    uint32_t code = dsa_check(&s, table, table_len, portal, p->portal_len, staging, p->staging_len, s.version, prices, n + 1, pairs, n,
                              &cost, &r);
    cost_line(folder, i, "check.line", code, cost, &r);
}

static void judge(const char *folder, uint64_t i, size_t len)
{
    size_t n = len / 64;
    for (size_t k = 0; k < n; k++)
        marks[k] = (uint8_t)(below(3) == 0 ? DSA_BEGINS : below(2) * DSA_FENCED);
    if (n > 0)
        marks[0] = below(20) ? DSA_BEGINS : DSA_BEGINS + DSA_FENCED;
    FILE *job = file(folder, i, "judge.job");
    fprintf(job, "{\"do\":\"judge\",\"list\":\"");
    hex(job, list, len);
    fprintf(job, "\",\"plan\":");
    plan_text(job, n);
    fprintf(job, ",");
    settings_text(job);
    fprintf(job, "}");
    fclose(job);
    struct dsa_refusal r;
    uint64_t cost = 0;
    uint32_t code = dsa_judge(&s, table, table_len, list, len, marks, n, &cost, &r);
    cost_line(folder, i, "judge.line", code, cost, &r);
}

int main(int argc, char **argv)
{
    if (argc != 4)
        return EXIT_FAILURE;
    uint64_t lists = strtoull(argv[2], NULL, 10);
    seed = strtoull(argv[3], NULL, 10);
    for (uint64_t i = 0; i < lists; i++) {
        struct dsa_planned p;
        uint64_t n = below(MOST + 1);
        any_settings();
        for (uint64_t k = 0; k < n; k++)
            any_operation(list + 64 * k, k);
        size_t len = 64 * n;
        if (n > 0 && below(40) == 0)
            len -= 1 + below(63);
        if (plan(argv[1], i, len, &p))
            check(argv[1], i, &p);
        judge(argv[1], i, len);
    }
    return EXIT_SUCCESS;
}
