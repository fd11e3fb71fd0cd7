/* Frees a buffer to which a submission writes. */
#include "client.h"

int main(void)
{
    void *portal = portal_of("/dev/dsa/wq0.0");
    volatile completion *r = fresh(4096);
    char *from = calloc(64, 1), *to = malloc(64);
    const descriptor d = move(from, to, 64, r);
    free(to);
    submit(portal, &d);
    await(r);
    free(from);
    return 0;
}
