/* A tracker that is told of no access, so that no list waits for another: compiled with the layer of bindings/queue and
 * -Ddsa_track_list=told_nothing, it is called in the place of the proved one. */
#include <dsa_planner.h>

uint32_t dsa_track_list(uint64_t *words, size_t words_len, const struct dsa_settings *settings, const uint64_t *table,
                        size_t table_len, const uint8_t *list, size_t list_len, uint64_t staging, uint64_t staging_len,
                        uint64_t also, uint32_t *slot, uint64_t *waits, struct dsa_refusal *refusal)
{
    static const struct dsa_span none;
    (void)settings, (void)table, (void)table_len, (void)list, (void)list_len, (void)staging, (void)staging_len;
    return dsa_track_spans(words, words_len, &none, 0, &none, 0, also, slot, waits, refusal);
}
