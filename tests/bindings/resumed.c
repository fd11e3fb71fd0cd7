/*
 * What dsa_resume answers of random lists of moves and fills, some of them split and some with barriers, and of lists
 * that have checksums, too, none of which is split; of random completion records and of pieces that are given up, in
 * both orders, beside the pieces that are split here; and each refusal, which leaves all but itself as it was. What is
 * left can be planned.
 *
 *     resumed COUNT SEED
 */
#include <inttypes.h>
#include <stdio.h>
#include <stdlib.h>
#include <string.h>

#include "dsa_descriptors.h"
#include "dsa_planner.h"

enum { OPERATIONS = 12, PIECES = 4 * OPERATIONS, GREATEST = 64, MOVE = 3, FILL = 4, CRC = 0x10, COPY_CRC = 0x11 };

static const struct dsa_settings settings = {
    .version = 1, .greatest_batch = 8, .greatest_transfer = GREATEST, .lone = 10, .batch = 14, .fence = 3,
    .staging = 1 << 30};
static const uint8_t statuses[] = {0, 0, 1, 1, 1, 2, 3, 4, 0x13, 0x83, 0x1a};
static uint8_t list[64 * OPERATIONS], pieces[PIECES][64], records[32 * PIECES], given_up[PIECES], wanted[64 * PIECES];
static uint64_t piece_count, seed;
/* the refusal that is wanted, or the front: the first piece after a barrier that holds; and what is left out */
static struct dsa_refusal wrong;
static uint64_t front;
static struct dsa_resumed said;

static uint64_t below(uint64_t limit)
{
    seed ^= seed << 13;
    seed ^= seed >> 7;
    seed ^= seed << 17;
    return seed % limit;
}

static void put(uint8_t *to, uint64_t value, int bytes)
{
    memcpy(to, &value, (size_t)bytes);
}

/* An operation of this size at its own addresses: a record, what it reads or writes first, and what it writes. */
static void spell(uint8_t *to, int code, uint64_t record, uint64_t first, uint64_t second, uint64_t size)
{
    memset(to, 0, 64);
    to[4] = 0x0c;
    to[7] = (uint8_t)code;
    put(to + 8, record, 8);
    put(to + 16, first, 8);
    put(to + 24, second, 8);
    put(to + 32, size, 4);
}

static uint64_t record_of(uint64_t i)
{
    return 0x8000 + 32 * PIECES * i;
}

/* A checksum, or a copy with one; its seed is given, or in the record of an earlier operation. */
static void make_checksum(uint8_t *to, uint64_t i, uint64_t from, uint64_t target, uint64_t size)
{
    const int code = below(2) ? CRC : COPY_CRC;
    spell(to, code, record_of(i), from, code == CRC ? 0 : target, size);
    if (i && below(2))
        dsa_seed_from(to, record_of(below(i)) + 16);
    else
        put(to + 40, below(UINT32_MAX), 4);
}

/* A list, and the pieces that it is split into; those of a list with checksums are its operations. */
static uint64_t make(void)
{
    const uint64_t count = below(OPERATIONS + 1), with_barriers = below(2), with_checksums = below(3) == 0;
    piece_count = 0;
    for (uint64_t i = 0; i < count; ++i) {
        const int code = below(3) ? MOVE : FILL;
        const uint64_t record = record_of(i), from = 0x100000 * (1 + below(4)), to = 0x1000000 + 0x1000 * i;
        const uint64_t size = 1 + below(with_checksums ? GREATEST : 4 * GREATEST);
        const int barrier = with_barriers && below(3) == 0, is_checksum = with_checksums && below(2);
        if (is_checksum)
            make_checksum(list + 64 * i, i, from, to, size);
        else
            spell(list + 64 * i, code, record, code == MOVE ? from : 0x1122334455667788, to, size);
        list[64 * i + 4] |= (uint8_t)barrier;
        if (is_checksum) {
            memcpy(pieces[piece_count++], list + 64 * i, 64);
            continue;
        }
        for (uint64_t at = 0, k = 0; at < size; at += GREATEST, ++k) {
            spell(pieces[piece_count], code, record + 32 * k, code == MOVE ? from + at : 0x1122334455667788, to + at,
                  size - at < GREATEST ? size - at : GREATEST);
            pieces[piece_count++][4] |= (uint8_t)(barrier && k == 0);
        }
    }
    return 64 * count;
}

static int is_barrier(uint64_t i)
{
    return pieces[i][4] & 1;
}

static int has_failed(uint64_t i)
{
    return records[32 * i] > 2;
}

/* Records and pieces that are given up; most of the records are such as barriers leave. */
static void stop(void)
{
    int open = 0, held = 0;
    memset(records, 0xa5, sizeof records);
    memset(given_up, 0, sizeof given_up);
    for (uint64_t i = 0; i < piece_count; ++i) {
        held = held || (open && is_barrier(i));
        records[32 * i] = held && below(50) ? 0 : below(2) ? 1 : statuses[below(sizeof statuses)];
        open = open || records[32 * i] != 1;
        given_up[i] = has_failed(i) ? below(3) == 0 ? (uint8_t)(1 + below(255)) : 0 : below(200) == 0;
    }
}

/* Whether piece i before piece j has not succeeded, and a barrier is after it and not after j. */
static int holds(uint64_t i, uint64_t j)
{
    int between = 0;
    for (uint64_t k = i + 1; k <= j; ++k)
        between = between || is_barrier(k);
    return between && records[32 * i] != 1;
}

/* What is wanted, from the definitions: each pair of pieces is looked at. */
static void judge(void)
{
    memset(&wrong, 0, sizeof wrong);
    memset(&said, 0, sizeof said);
    front = piece_count;
    for (uint64_t j = piece_count; j-- > 0;)
        for (uint64_t i = j; i-- > 0;)
            if (holds(i, j)) {
                front = j;
                if (records[32 * j] != 0)
                    wrong = (struct dsa_refusal){DSA_PASSED_BARRIER, 0, i, j};
            }
    for (uint64_t i = piece_count; i-- > 0;) {
        if (given_up[i] && !has_failed(i))
            wrong = (struct dsa_refusal){DSA_NOT_FAILED, 0, i, 0};
        if (i < front && front < piece_count && (records[32 * i] == 2 || given_up[i]))
            said = (struct dsa_resumed){0, piece_count - front, i};
    }
}

/* Adds the pieces before the front that wait, or that failed, or both, to the bytes that are wanted so far. */
static uint64_t add(uint64_t so_far, int waiting, int failed)
{
    for (uint64_t i = 0; i < front; ++i)
        if (records[32 * i] == 0 ? waiting : has_failed(i) && !given_up[i] && failed) {
            memcpy(wanted + so_far, pieces[i], 64);
            wanted[so_far + 4] &= 0xfe;
            so_far += 64;
        }
    return so_far;
}

/* Adds those after it, unless they are left out, with their barriers. */
static uint64_t add_after(uint64_t so_far)
{
    for (uint64_t i = front; i < piece_count && said.left_out == 0; ++i, so_far += 64)
        memcpy(wanted + so_far, pieces[i], 64);
    return so_far;
}

static void fail(const char *what, uint64_t at)
{
    printf("list %" PRIu64 ": %s\n", at, what);
    exit(EXIT_FAILURE);
}

static uint8_t rest[64 * PIECES + 64], untouched[64 * PIECES + 64];
static struct dsa_resumed answer;
static struct dsa_refusal refusal;

/* The call, with the outputs filled before; answers its code. */
static uint32_t resumed(const struct dsa_settings *s, uint64_t list_len, uint64_t records_len, uint32_t first,
                        uint64_t room)
{
    memset(rest, 0x5a, sizeof rest);
    memset(&refusal, 0x5a, sizeof refusal);
    answer = (struct dsa_resumed){77, 77, 77};
    return dsa_resume(s, &s->batch, 0, list, list_len, records, records_len, given_up, piece_count, first, rest, room,
                      &answer, &refusal);
}

/* The call refuses so, and has written nothing else. */
static void refuses(uint32_t code, struct dsa_refusal want, uint64_t at)
{
    if (code != want.number || memcmp(&refusal, &want, sizeof want) != 0)
        fail("another refusal", at);
    if (answer.rest_len != 77 || answer.left_out != 77 || answer.stopped_by != 77)
        fail("a refusal answers", at);
    if (memcmp(rest, untouched, sizeof rest) != 0)
        fail("a refusal writes", at);
}

/* The same for a number and the first place. */
static void refuses_at(uint32_t code, uint32_t number, uint64_t first, uint64_t at)
{
    refuses(code, (struct dsa_refusal){number, 0, first, 0}, at);
}

static void look(uint64_t list_len, uint32_t first, uint64_t at)
{
    const uint64_t len = add_after(first ? add(add(0, 0, 1), 1, 0) : add(0, 1, 1));
    struct dsa_refusal before;
    memset(&before, 0x5a, sizeof before);
    const uint32_t code = resumed(&settings, list_len, 32 * piece_count, first, below(2) ? len : sizeof rest);
    if (wrong.number) {
        refuses(code, wrong, at);
        return;
    }
    if (code != DSA_OK)
        fail("is refused", at);
    said.rest_len = len;
    if (memcmp(&answer, &said, sizeof said) != 0 || memcmp(rest, wanted, len) != 0)
        fail("something else is left", at);
    if (memcmp(rest + len, untouched, sizeof rest - len) != 0 || memcmp(&refusal, &before, sizeof before) != 0)
        fail("more is written", at);
    if (len)
        refuses_at(resumed(&settings, list_len, 32 * piece_count, first, len - 1), DSA_NO_ROOM_FOR_LIST, len, at);
    refuses_at(resumed(&settings, list_len, 32 * piece_count + 1, first, sizeof rest), DSA_RECORDS, 0, at);
    if (piece_count)
        refuses_at(resumed(&settings, list_len, 32 * piece_count - 32, first, 0), DSA_RECORDS, 0, at);
}

/* What is left can be planned, and what planning refuses is refused. */
static void plan(uint64_t list_len, uint64_t at)
{
    uint8_t portal[64 * PIECES + 1], staging[80 * PIECES + 1];
    struct dsa_planned planned;
    struct dsa_settings other = settings;
    if (resumed(&settings, list_len, 32 * piece_count, 0, sizeof rest) == DSA_OK
        && dsa_plan_list(&settings, &settings.batch, 0, rest, answer.rest_len, portal, sizeof portal, staging,
                         sizeof staging, &planned, &refusal) != DSA_OK)
        fail("what is left can't be planned", at);
    other.greatest_batch = 1;
    refuses_at(resumed(&other, list_len, 32 * piece_count, 0, sizeof rest), DSA_SETTINGS, 2, at);
    if (list_len == 0)
        return;
    refuses_at(resumed(&settings, list_len - 1, 0, 0, sizeof rest), DSA_LENGTH, 0, at);
    list[list_len - 64 + 4] |= 0x10;
    refuses_at(resumed(&settings, list_len, 0, 0, sizeof rest), DSA_FLAG_BITS, list_len / 64 - 1, at);
}

int main(int argc, char **argv)
{
    const uint64_t count = argc > 1 ? strtoull(argv[1], NULL, 10) : 100;
    seed = argc > 2 ? strtoull(argv[2], NULL, 10) : 1;
    memset(untouched, 0x5a, sizeof untouched);
    for (uint64_t at = 0; at < count; ++at) {
        const uint64_t list_len = make();
        stop();
        judge();
        look(list_len, 1 + (uint32_t)below(9), at);
        look(list_len, 0, at);
        plan(list_len, at);
    }
    printf("%" PRIu64 " lists resumed\n", count);
    return EXIT_SUCCESS;
}
