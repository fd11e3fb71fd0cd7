/* Decodes instructions at every 16th byte of a file, and prints what each is:
 *
 *     decode CODE ADDRESS       ADDRESS is where the code would run
 *
 * Register k has the value 0x1111111111111111 times (k + 1), of which the lower half is the one that a narrow address
 * has. After the longest instruction is a page that can't be read. */
#include <stdio.h>
#include <stdlib.h>
#include <string.h>
#include <sys/mman.h>

#include "decode.h"

enum { APART = 16, LONGEST = 15, PAGE = 4096 };

int main(int argc, char **argv)
{
    uint64_t registers[16];
    uint8_t read[APART];
    uint8_t *pages = mmap(NULL, 2 * PAGE, PROT_READ | PROT_WRITE, MAP_PRIVATE | MAP_ANONYMOUS, -1, 0);
    uint8_t *code = pages + PAGE - LONGEST;
    FILE *file = argc > 2 ? fopen(argv[1], "rb") : NULL;
    uint64_t at = argc > 2 ? strtoull(argv[2], NULL, 0) : 0;
    if (!file || pages == MAP_FAILED || mprotect(pages + PAGE, PAGE, PROT_NONE))
        return 1;
    for (int k = 0; k < 16; k++)
        registers[k] = 0x1111111111111111u * (k + 1);
    for (; fread(read, sizeof read, 1, file) == 1; at += APART) {
        struct instruction i;
        memcpy(code, read, LONGEST);
        if (decode(code, at, registers, &i))
            printf("%d %u %u %#llx %d %d %d\n", i.kind, i.length, i.reg, (unsigned long long)i.address, i.segment,
                   i.is_narrow, i.is_wide);
        else
            printf("none\n");
    }
    return 0;
}
