/* The two checksums of the device. */
#include "operations.h"

enum { T10_DIF = 0x8bb7 };
static const uint32_t castagnoli_reflected = 0x82f63b78;
static uint32_t table[256];

/// Makes the table of bytes before the program starts.
__attribute__((constructor)) static void make_table(void)
{
    for (uint32_t i = 0; i < 256; i++) {
        table[i] = i;
        for (int k = 0; k < 8; k++)
            table[i] = table[i] & 1 ? table[i] >> 1 ^ castagnoli_reflected : table[i] >> 1;
    }
}

/// The bits of a number in reverse.
uint32_t bits_reversed(uint32_t number)
{
    uint32_t reversed = 0;
    for (int i = 0; i < 32; i++, number >>= 1)
        reversed = reversed << 1 | (number & 1);
    return reversed;
}

/// CRC-32C of bytes after those of `crc`, without the inversion at both ends: the lowest bit of a byte comes first, or
/// the highest if it is plain. The bits of `crc` itself are in reverse.
uint32_t crc32c(uint32_t crc, const uint8_t *from, size_t size, bool is_plain)
{
    for (; size--; from++) {
        const uint32_t byte = is_plain ? bits_reversed(*from) >> 24 : *from;
        crc = table[(crc ^ byte) & 255] ^ crc >> 8;
    }
    return crc;
}

/// The checksum of a block of the T10 data integrity field, bits from the highest on.
uint16_t crc_t10(uint16_t crc, const uint8_t *from, size_t size)
{
    while (size--) {
        crc ^= (uint16_t)(*from++ << 8);
        for (int k = 0; k < 8; k++)
            crc = crc & 0x8000 ? (uint16_t)(crc << 1 ^ T10_DIF) : (uint16_t)(crc << 1);
    }
    return crc;
}
