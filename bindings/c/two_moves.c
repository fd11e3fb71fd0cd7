/* Plans two moves, the second of which reads what the first writes; prints the bytes that submit them, checks them,
 * judges other plans, and shows some refusals. */
#include <inttypes.h>
#include <stdio.h>
#include <stdlib.h>
#include <string.h>

#include "dsa_descriptors.h"
#include "dsa_planner.h"

static void print_bytes(const char *name, const uint8_t *bytes, size_t len)
{
    printf("%s\n", name);
    for (size_t i = 0; i < len; i++)
        printf("%02x%s", bytes[i], i % 32 == 31 ? "\n" : "");
}

static void print_refusal(const char *name, uint32_t code, const struct dsa_refusal *r)
{
    printf("%s: refused %" PRIu32, name, code);
    if (r->inner != 0)
        printf(" for %" PRIu32, r->inner);
    printf(", first %" PRIu64 ", second %" PRIu64 "\n", r->first, r->second);
    char text[DSA_REFUSAL_TEXT_ROOM];
    printf("  %.*s\n", (int)dsa_refusal_text(r, text, sizeof text), text);
}

/* Plans with the certificate and the marks, prints them, checks the bytes, and judges two plans. */
static void certify(const struct dsa_settings *s, const uint8_t *list, size_t len)
{
    uint8_t portal[64], staging[160], marks[2];
    uint64_t prices[3], cost = 0;
    struct dsa_pair pairs[2];
    struct dsa_planned p;
    struct dsa_refusal r;
    uint32_t code = dsa_plan_list_certified(s, &s->batch, 0, list, len, portal, sizeof portal, staging, sizeof staging,
                                            prices, 3, pairs, 2, marks, 2, &p, &r);
    if (code != DSA_OK)
        exit(EXIT_FAILURE);
    for (uint64_t i = 0; i < p.pieces; i++) {
        printf("piece %" PRIu64 ":%s%s, price %" PRIu64, i, marks[i] & DSA_BEGINS ? " begins a group" : "",
               marks[i] & DSA_FENCED ? " fenced" : "", prices[i + 1]);
        if (pairs[i].first == DSA_NONE)
            printf(", no pair\n");
        else
            printf(", pair %" PRIu32 " %" PRIu32 "\n", pairs[i].first, pairs[i].second);
    }
    code = dsa_check(s, &s->batch, 0, portal, p.portal_len, staging, p.staging_len, 1, prices, 3, pairs, 2, &cost, &r);
    printf("check: %" PRIu32 ", cost %" PRIu64 "\n", code, cost);
    staging[64 + 4] &= (uint8_t)~1u; /* the fence of the second */
    code = dsa_check(s, &s->batch, 0, portal, p.portal_len, staging, p.staging_len, 1, prices, 3, pairs, 2, &cost, &r);
    print_refusal("check without the fence", code, &r);

    const uint8_t alone[2] = {DSA_BEGINS, DSA_BEGINS}, unfenced[2] = {DSA_BEGINS, 0};
    code = dsa_judge(s, &s->batch, 0, list, len, alone, 2, &cost, &r);
    printf("judge one by one: %" PRIu32 ", cost %" PRIu64 "\n", code, cost);
    code = dsa_judge(s, &s->batch, 0, list, len, unfenced, 2, &cost, &r);
    print_refusal("judge without the fence", code, &r);
}

int main(void)
{
    const struct dsa_settings s = {
        .version = 1, .greatest_batch = 4, .greatest_transfer = 4096,
        .lone = 10, .batch = 14, .fence = 3, .staging = 0x10000,
    };
    uint8_t list[128];
    dsa_put_move(list, 0x1000, 0x2000, 64, 0x8000);
    dsa_put_move(list + 64, 0x2000, 0x4000, 64, 0x8020);

    uint64_t n = dsa_count_pieces(&s, &s.batch, 0, list, sizeof list);
    if (n == 0 || n > DSA_MOST_PIECES)
        return EXIT_FAILURE;
    uint8_t *portal = malloc(DSA_PORTAL_ROOM(n)), *staging = malloc(DSA_STAGING_ROOM(n));
    if (!portal || !staging)
        return EXIT_FAILURE;
    struct dsa_planned p;
    struct dsa_refusal r;
    uint32_t code = dsa_plan_list(&s, &s.batch, 0, list, sizeof list, portal, DSA_PORTAL_ROOM(n), staging,
                                  DSA_STAGING_ROOM(n), &p, &r);
    if (code != DSA_OK)
        return EXIT_FAILURE;
    printf("cost %" PRIu64 ", pieces %" PRIu64 "\n", p.cost, p.pieces);
    print_bytes("portal", portal, p.portal_len);
    print_bytes("staging", staging, p.staging_len);
    certify(&s, list, sizeof list);

    code = dsa_plan_list(&s, &s.batch, 0, list, sizeof list, portal, 63, staging, 0, &p, &r);
    print_refusal("no room", code, &r);
    list[64 + 38] = 1;
    code = dsa_plan_list(&s, &s.batch, 0, list, sizeof list, portal, 64, staging, 160, &p, &r);
    print_refusal("a reserved byte", code, &r);
    struct dsa_settings of_one = s;
    of_one.greatest_batch = 1;
    code = dsa_plan_list(&of_one, &s.batch, 0, list, sizeof list, portal, 64, staging, 160, &p, &r);
    print_refusal("batches of one", code, &r);
    free(portal);
    free(staging);
    return EXIT_SUCCESS;
}
