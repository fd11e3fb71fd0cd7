/* Reads refusals from standard input: number, inner, first, second and the room for the text. Writes for each what
 * dsa_refusal_text answers, and a byte more than the room has of the buffer, whose bytes were '~'. */
#include <inttypes.h>
#include <stdio.h>
#include <string.h>

#include "dsa_planner.h"

int main(void)
{
    char text[DSA_REFUSAL_TEXT_ROOM + 1];
    struct dsa_refusal r;
    size_t room;
    while (scanf("%" SCNu32 " %" SCNu32 " %" SCNu64 " %" SCNu64 " %zu", &r.number, &r.inner, &r.first, &r.second, &room) == 5) {
        memset(text, '~', sizeof text);
        uint64_t len = dsa_refusal_text(&r, text, room);
        printf("%" PRIu64 " %.*s\n", len, (int)(room + 1), text);
    }
    return 0;
}
