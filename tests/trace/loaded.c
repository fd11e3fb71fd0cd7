/* A library whose function is one submission. */
#include <linux/idxd.h>

void put(void *portal, const struct dsa_hw_desc *d);

__asm__(".pushsection .text\n.globl put\n.type put, @function\nput: movdir64b (%rsi), %rdi\nret\n.popsection\n");
