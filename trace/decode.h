/* The instructions that software uses for the device, and their operands. */
#ifndef DSA_TRACE_DECODE_H
#define DSA_TRACE_DECODE_H

#include <stdbool.h>
#include <stdint.h>

enum kind { NO_INSTRUCTION, MOVDIR64B, ENQCMD, MOVDIRI, UMONITOR, UMWAIT, TPAUSE };
enum segment { NO_SEGMENT, SEGMENT_FS, SEGMENT_GS };

struct instruction {
    enum kind kind;
    unsigned length;      /* bytes of code */
    unsigned reg;         /* the register operand: 0 RAX, 1 RCX, 2 RDX, 3 RBX, 4 RSP, 5 RBP, 6 RSI, 7 RDI, 8 to 15 */
    uint64_t address;     /* of the memory operand, without the base of its segment */
    enum segment segment; /* whose base is added to the address */
    bool is_narrow;       /* addresses have 32 bits */
    bool is_wide;         /* MOVDIRI stores 8 bytes and not 4 */
};

/* Decodes the instruction at `code`, which runs at address `at` with these registers, numbered as `reg` is. Answers
 * false if it is none of these. It reads no more bytes than the instruction has, nor more than 15. */
bool decode(const uint8_t *code, uint64_t at, const uint64_t registers[16], struct instruction *out);

#endif
