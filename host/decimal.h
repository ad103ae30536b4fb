/* Integers of 128 bits. */
#ifndef DECIMAL_H
#define DECIMAL_H

#include <stdint.h>

/* Prints an integer in two's complement, given as two halves, in decimal. */
void print_integer(uint64_t upper, uint64_t lower);

#endif
