/* The fields of a word of machine language, for the C interpreters of the benchmark. */
#ifndef FIELDS_H
#define FIELDS_H

#include <stdint.h>

/* Opcodes, from 0 to 15. */
enum { BR, ADD, LD, ST, JSR, AND, LDR, STR, RTI, NOT, LDI, STI, JMP, RESERVED, LEA, TRAP };

/* The low bits of a word as a signed field, extended to 16 bits. */
static inline uint16_t extended(uint16_t word, int bits) {
    int16_t high = word << (16 - bits);
    return high >> (16 - bits);
}

#endif
