/* Whole numbers modulo 2^128: sums of products of numbers of 64 bits. */
#ifndef WIDE_H
#define WIDE_H

#include <stdint.h>

struct wide {
    uint64_t high, low;
};

struct wide wide_of(int64_t value);
struct wide wide_sum(struct wide a, struct wide b);
struct wide wide_product(int64_t a, int64_t b);

#endif
