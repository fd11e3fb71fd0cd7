/* Lists that are planned once and placed at other addresses: dsa_prepare plans a list over regions, which are what its
 * operations read and write, and dsa_fill writes what submits it at other ones. */
#include <stdlib.h>

#include "queue.h"

enum { OPERANDS = 3 };
static const uint64_t unset = UINT64_MAX;

/* A prepared list: its rows, its regions in the order of their addresses, and of each operand of each operation its
 * region, and its offset there. */
struct form {
    uint64_t rows, portal_len;
    uint32_t regions;
    struct dsa_region *region;
    struct dsa_prepared_row *row;
    uint64_t *base, *offset;
    uint32_t *in;
};

/// The most regions of a list: those of its operands, and its records.
static size_t most_regions(const struct dsa_queue *queue) { return 1 + OPERANDS * (size_t)queue->most; }

/// Takes memory for a form, in one block; NULL if there is none.
static struct form *make_form(const struct dsa_queue *queue)
{
    const size_t regions = most_regions(queue), rows = DSA_PREPARED_ROOM(regions, queue->most);
    struct form *form = malloc(sizeof *form + regions * sizeof *form->region + rows * sizeof *form->row +
                               regions * (sizeof *form->base + sizeof *form->offset + sizeof *form->in));
    if (!form)
        return NULL;
    form->region = (struct dsa_region *)(void *)(form + 1);
    form->row = (struct dsa_prepared_row *)(void *)(form->region + regions);
    form->base = (uint64_t *)(void *)(form->row + rows);
    form->offset = form->base + regions;
    form->in = (uint32_t *)(void *)(form->offset + regions);
    return form;
}

static int compare_regions(const void *one, const void *other)
{
    const uint64_t a = ((const struct dsa_region *)one)->first, b = ((const struct dsa_region *)other)->first;
    return (a > b) - (a < b);
}

/// Makes regions of what the list touches: ranges that overlap are one. Its plan has shown that no range wraps.
static void make_regions(const struct dsa_list *list, struct form *form)
{
    struct dsa_region *r = form->region;
    struct operand operands[OPERANDS];
    uint32_t count = 0, last = 0;
    r[count++] = (struct dsa_region){address_of(list->records), RECORD * (uint64_t)list->pieces};
    for (uint32_t i = 0; i < list->operations; i++)
        for (uint32_t k = operands_of(list->list + ENTRY * i, operands); k > 0; k--)
            r[count++] = (struct dsa_region){operands[k - 1].first, operands[k - 1].len};
    qsort(r, count, sizeof *r, compare_regions);
    for (uint32_t i = 1; i < count; i++) {
        const uint64_t gap = r[i].first - r[last].first;
        if (gap >= r[last].len)
            r[++last] = r[i];
        else if (gap + r[i].len > r[last].len)
            r[last].len = gap + r[i].len;
    }
    form->regions = last + 1;
}

/// The region in which an address lies.
static uint32_t region_at(const struct form *form, uint64_t address)
{
    uint32_t low = 0, high = form->regions;
    while (high - low > 1) {
        const uint32_t middle = low + (high - low) / 2;
        if (form->region[middle].first <= address)
            low = middle;
        else
            high = middle;
    }
    return low;
}

/// Notes where each operand lies. False for one without a byte, which lies nowhere.
static bool find_operands(const struct dsa_list *list, struct form *form)
{
    struct operand operands[OPERANDS];
    bool have_bytes = true;
    for (uint32_t i = 0; i < list->operations; i++)
        for (uint32_t k = operands_of(list->list + ENTRY * i, operands); k > 0; k--) {
            const uint32_t in = region_at(form, operands[k - 1].first);
            form->in[OPERANDS * i + k - 1] = in;
            form->offset[OPERANDS * i + k - 1] = operands[k - 1].first - form->region[in].first;
            have_bytes = have_bytes && operands[k - 1].len > 0;
        }
    return have_bytes;
}

static bool prepare_form(struct dsa_list *list)
{
    struct dsa_settings settings = list->queue->settings;
    struct dsa_prepared_info info;
    struct form *form = list->form;
    settings.staging = address_of(list->staging);
    if (dsa_prepare(&settings, &settings.batch, 0, list->list, ENTRY * (uint64_t)list->operations, form->region,
                    form->regions, form->row, DSA_PREPARED_ROOM(most_regions(list->queue), list->queue->most), &info,
                    &list->refusal))
        return false;
    form->rows = info.rows;
    form->portal_len = info.portal_len;
    return true;
}

static int refuse(struct dsa_list *list, enum reason why)
{
    list->end = DSA_LIST_REFUSED;
    list->reason = why;
    return -1;
}

int dsa_list_prepare(struct dsa_list *list)
{
    flight_settle(list);
    list_look(list);
    const enum reason why = run_begin(list);
    if (why)
        return refuse(list, why);
    refuse(list, NOT_RUN); /* no result is that of the plan */
    list->is_prepared = false;
    if (!list->form && !(list->form = make_form(list->queue)))
        return refuse(list, NO_MEMORY);
    make_regions(list, list->form);
    if (!find_operands(list, list->form))
        return 0; /* each run plans it */
    list->is_prepared = prepare_form(list);
    return list->is_prepared ? 0 : refuse(list, UNPLANNED);
}

/// The bases of the regions now. False if two operands of one region went to places that are not in step.
static bool find_bases(const struct dsa_list *list, const struct form *form)
{
    struct operand operands[OPERANDS];
    memset(form->base, 0xff, form->regions * sizeof *form->base);
    form->base[region_at(form, address_of(list->records))] = address_of(list->records);
    for (uint32_t i = 0; i < list->operations; i++)
        for (uint32_t k = operands_of(list->list + ENTRY * i, operands); k > 0; k--) {
            uint64_t *base = &form->base[form->in[OPERANDS * i + k - 1]];
            const uint64_t now = operands[k - 1].first - form->offset[OPERANDS * i + k - 1];
            if (now == unset || (*base != unset && *base != now))
                return false;
            *base = now;
        }
    return true;
}

/// Where regions that were apart meet now, dsa_fill refuses: then there are conflicts that the plan does not know.
bool prepared_fill(struct dsa_list *list)
{
    const struct dsa_queue *queue = list->queue;
    const struct form *form = list->form;
    struct dsa_refusal refusal;
    if (!list->is_prepared || !find_bases(list, form) ||
        dsa_fill(form->row, form->rows, form->base, form->regions, address_of(list->staging), list->portal,
                 DSA_PORTAL_ROOM(queue->most), list->staging, DSA_STAGING_AREA(queue->most), &refusal))
        return false;
    list->entries = (uint32_t)(form->portal_len / ENTRY);
    return true;
}

void prepared_free(struct dsa_list *list) { free(list->form); }
