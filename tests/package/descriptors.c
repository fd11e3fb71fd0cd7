/* Prints descriptors as the functions of dsa_descriptors.h make them. */
#include <stdio.h>
#include <dsa_descriptors.h>

static void print(const char *name, const uint8_t *d)
{
    printf("%s", name);
    for (int k = 0; k < 48; k++)
        printf(k % 8 ? "%02x" : " %02x", d[k]);
    for (int k = 48; k < 64; k++)
        if (d[k])
            printf(" byte %d is %02x", k, d[k]);
    printf("\n");
}

int main(void)
{
    uint8_t d[64];
    memset(d, 0xa5, sizeof d);
    dsa_put_move(d, 0x1000, 0x2000, 4096, 0x8000);
    dsa_set_flags(d, DSA_BLOCK_ON_FAULT);
    print("move", d);
    dsa_put_fill(d, 0x2000, 64, 0x0102030405060708, 0x8020);
    dsa_set_owner(d, 5, 1);
    print("fill", d);
    dsa_put_compare(d, 0x1000, 0x2000, 64, 0x8040);
    dsa_expect(d, 1);
    print("compare", d);
    dsa_put_compare_pattern(d, 0x1000, 7, 0xff, 0x8060);
    dsa_expect(d, 0);
    print("compare pattern", d);
    dsa_put_apply_delta(d, 0x3000, 20, 0x2000, 64, 0x8080);
    print("apply delta", d);
    dsa_put_dualcast(d, 0x1000, 0x2000, 0x5000, 64, 0x80a0);
    print("dualcast", d);
    return 0;
}
