/* Submits planned lists by the code of bindings/c/submit.c.
 *
 *     planned CASES
 *
 * A line of CASES is a case: how often to try, and in hexadecimal, each with a byte more, the bytes for the portal and
 * for the staging area, the memory, the memory that is expected and the batch records that are. Of the memory each page
 * is present; the pages before and after it are absent. For each case a line is printed: 0 if each try left what is
 * expected, else the first that did not; the first byte that differs (of memory, then of the records), or -1; and how
 * many entries the last try has submitted. */
#define main example_main
#include "../../bindings/c/submit.c"
#undef main

enum { PAGE = 4096, SPACE = 1 << 16, ROOM = 1 << 18 };
static uint8_t *const memory = (uint8_t *)0x200000000, *const staging = (uint8_t *)(1ul << 40);

struct text { size_t len; uint8_t bytes[ROOM / 2]; };
struct list_case { int tries; struct text portal, staging, before, after, records; };

static void *or_end(void *at)
{
    if (!at || at == MAP_FAILED) {
        perror("planned");
        exit(1);
    }
    return at;
}

static uint8_t digit(char c) { return (uint8_t)(c <= '9' ? c - '0' : c - 'a' + 10); }

/* Reads bytes, but for the last one, which is there so that no bytes are a word, too. */
static void read_bytes(FILE *in, struct text *to)
{
    static char word[ROOM];
    if (fscanf(in, " %262143s", word) != 1)
        exit(2);
    to->len = strlen(word) / 2 - 1;
    for (size_t i = 0; i < to->len; i++)
        to->bytes[i] = (uint8_t)(digit(word[2 * i]) << 4 | digit(word[2 * i + 1]));
}

static int read_case(FILE *in, struct list_case *c)
{
    if (fscanf(in, " %d", &c->tries) != 1)
        return 0;
    read_bytes(in, &c->portal);
    read_bytes(in, &c->staging);
    read_bytes(in, &c->before);
    read_bytes(in, &c->after);
    read_bytes(in, &c->records);
    return 1;
}

/* One after another, each with its record cleared, since an earlier one may have written there, up to one that fails.
 * Answers how many. */
static int submit_all(void *page, const struct text *portal)
{
    int count = 0;
    for (size_t at = 0; at < portal->len; at += 64) {
        uint64_t record;
        memcpy(&record, portal->bytes + at + 8, 8);
        memset((void *)record, 0, 32);
        count++;
        if (run(page, 0, portal->bytes + at, 64))
            break;
    }
    return count;
}

/* Where what is left differs from what is expected, or -1. */
static long difference(const struct list_case *c)
{
    size_t record = 0;
    for (size_t i = 0; i < c->after.len; i++)
        if (memory[i] != c->after.bytes[i])
            return (long)i;
    for (size_t at = 0; at < c->portal.len; at += 64) {
        uint64_t place;
        if (c->portal.bytes[at + 7] != 1)
            continue;
        memcpy(&place, c->portal.bytes + at + 8, 8);
        if (memcmp((void *)place, c->records.bytes + record, 32))
            return (long)(c->after.len + record);
        record += 32;
    }
    return record == c->records.len ? -1 : (long)c->after.len;
}

static void try_case(void *page, const struct list_case *c)
{
    const size_t size = (c->before.len + PAGE - 1) / PAGE * PAGE;
    int try = 0, submitted = 0;
    long differs = -1;
    if (mprotect(memory, SPACE, PROT_NONE) || mprotect(memory, size, PROT_READ | PROT_WRITE))
        or_end(NULL);
    while (differs < 0 && try++ < c->tries) {
        memcpy(memory, c->before.bytes, c->before.len);
        memcpy(staging, c->staging.bytes, c->staging.len);
        submitted = submit_all(page, &c->portal);
        differs = difference(c);
    }
    printf("%d %ld %d\n", differs < 0 ? 0 : try, differs, submitted);
}

int main(int argc, char **argv)
{
    static struct list_case c;
    FILE *in = or_end(argc > 1 ? fopen(argv[1], "r") : NULL);
    const int queue = open("/dev/dsa/wq0.0", O_RDWR), how = MAP_PRIVATE | MAP_ANONYMOUS | MAP_FIXED_NOREPLACE;
    void *page = or_end(mmap(NULL, PAGE, PROT_WRITE, MAP_SHARED, queue, 0));
    or_end(mmap(memory - PAGE, PAGE + SPACE, PROT_NONE, how, -1, 0));
    or_end(mmap(staging, SPACE, PROT_READ | PROT_WRITE, how, -1, 0));
    while (read_case(in, &c))
        try_case(page, &c);
    fclose(in);
    return 0;
}
