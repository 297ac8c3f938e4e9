#include "wide.h"

struct wide wide_of(int64_t value)
{
    struct wide wide;
    wide.low = (uint64_t)value;
    wide.high = value < 0 ? UINT64_MAX : 0;
    return wide;
}

struct wide wide_sum(struct wide a, struct wide b)
{
    struct wide sum;
    sum.low = a.low + b.low;
    sum.high = a.high + b.high + (sum.low < a.low);
    return sum;
}

static uint64_t magnitude(int64_t value) { return value < 0 ? 0 - (uint64_t)value : (uint64_t)value; }

/* By halves of 32 bits, and then the sign. */
struct wide wide_product(int64_t a, int64_t b)
{
    uint64_t x = magnitude(a), y = magnitude(b), half = 0xffffffffu;
    uint64_t low = (x & half) * (y & half), cross = (x >> 32) * (y & half) + (low >> 32), other = (x & half) * (y >> 32) + (cross & half);
    struct wide product;
    product.low = other << 32 | (low & half);
    product.high = (x >> 32) * (y >> 32) + (cross >> 32) + (other >> 32);
    if ((a < 0) != (b < 0)) {
        product.low = 0 - product.low;
        product.high = ~product.high + (product.low == 0);
    }
    return product;
}
