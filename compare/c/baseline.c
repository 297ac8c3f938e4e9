#include "baseline.h"

#include <stdint.h>

/* Sums are kept unsigned, so that they wrap, in 32 bits or, for a C of 64 bits, in 64. */

/* A row of C takes up the rows of B, each times an element of A: the innermost
   loop goes along two rows. */
#define ANCHOR(name, element, result, work)                                   \
    static void name(size_t m, size_t k, size_t n, const element *restrict a, \
                     const element *restrict b, result *restrict c)           \
    {                                                                         \
        for (size_t i = 0; i < m; i++) {                                      \
            result *c_row = c + i * n;                                        \
            for (size_t j = 0; j < n; j++) {                                  \
                c_row[j] = 0;                                                 \
            }                                                                 \
            for (size_t l = 0; l < k; l++) {                                  \
                const element *b_row = b + l * n;                             \
                work times = (work)a[i * k + l];                              \
                for (size_t j = 0; j < n; j++) {                              \
                    work old = (work)c_row[j];                                \
                    c_row[j] = (result)(old + times * (work)b_row[j]);        \
                }                                                             \
            }                                                                 \
        }                                                                     \
    }

/* An element of C is a sum down a column of B. */
#define SLOW(name, element, result, work)                                     \
    static void name(size_t m, size_t k, size_t n, const element *a,          \
                     const element *b, result *c)                             \
    {                                                                         \
        for (size_t i = 0; i < m; i++) {                                      \
            for (size_t j = 0; j < n; j++) {                                  \
                work sum = 0;                                                 \
                for (size_t l = 0; l < k; l++) {                              \
                    sum += (work)a[i * k + l] * (work)b[l * n + j];           \
                }                                                             \
                c[i * n + j] = (result)sum;                                   \
            }                                                                 \
        }                                                                     \
    }

ANCHOR(anchor_8_to_8, int8_t, int8_t, uint32_t)
ANCHOR(anchor_8_to_16, int8_t, int16_t, uint32_t)
ANCHOR(anchor_8_to_32, int8_t, int32_t, uint32_t)
ANCHOR(anchor_16_to_16, int16_t, int16_t, uint32_t)
ANCHOR(anchor_16_to_32, int16_t, int32_t, uint32_t)
ANCHOR(anchor_32_to_32, int32_t, int32_t, uint32_t)
ANCHOR(anchor_16_to_64, int16_t, int64_t, uint64_t)
ANCHOR(anchor_32_to_64, int32_t, int64_t, uint64_t)
ANCHOR(anchor_64_to_64, int64_t, int64_t, uint64_t)

SLOW(slow_8_to_8, int8_t, int8_t, uint32_t)
SLOW(slow_8_to_16, int8_t, int16_t, uint32_t)
SLOW(slow_8_to_32, int8_t, int32_t, uint32_t)
SLOW(slow_16_to_16, int16_t, int16_t, uint32_t)
SLOW(slow_16_to_32, int16_t, int32_t, uint32_t)
SLOW(slow_32_to_32, int32_t, int32_t, uint32_t)
SLOW(slow_16_to_64, int16_t, int64_t, uint64_t)
SLOW(slow_32_to_64, int32_t, int64_t, uint64_t)
SLOW(slow_64_to_64, int64_t, int64_t, uint64_t)

void anchor_product(int width, int output, size_t m, size_t k, size_t n,
                    const void *a, const void *b, void *c)
{
    switch (100 * width + output) {
    case 808: anchor_8_to_8(m, k, n, a, b, c); break;
    case 816: anchor_8_to_16(m, k, n, a, b, c); break;
    case 832: anchor_8_to_32(m, k, n, a, b, c); break;
    case 1616: anchor_16_to_16(m, k, n, a, b, c); break;
    case 1632: anchor_16_to_32(m, k, n, a, b, c); break;
    case 3232: anchor_32_to_32(m, k, n, a, b, c); break;
    case 1664: anchor_16_to_64(m, k, n, a, b, c); break;
    case 3264: anchor_32_to_64(m, k, n, a, b, c); break;
    case 6464: anchor_64_to_64(m, k, n, a, b, c); break;
    }
}

void slow_product(int width, int output, size_t m, size_t k, size_t n,
                  const void *a, const void *b, void *c)
{
    switch (100 * width + output) {
    case 808: slow_8_to_8(m, k, n, a, b, c); break;
    case 816: slow_8_to_16(m, k, n, a, b, c); break;
    case 832: slow_8_to_32(m, k, n, a, b, c); break;
    case 1616: slow_16_to_16(m, k, n, a, b, c); break;
    case 1632: slow_16_to_32(m, k, n, a, b, c); break;
    case 3232: slow_32_to_32(m, k, n, a, b, c); break;
    case 1664: slow_16_to_64(m, k, n, a, b, c); break;
    case 3264: slow_32_to_64(m, k, n, a, b, c); break;
    case 6464: slow_64_to_64(m, k, n, a, b, c); break;
    }
}

void anchor_float_product(size_t m, size_t k, size_t n, const float *restrict a,
                          const float *restrict b, float *restrict c)
{
    for (size_t i = 0; i < m; i++) {
        float *c_row = c + i * n;
        for (size_t j = 0; j < n; j++) {
            c_row[j] = 0;
        }
        for (size_t l = 0; l < k; l++) {
            const float *b_row = b + l * n;
            float times = a[i * k + l];
            for (size_t j = 0; j < n; j++) {
                c_row[j] += times * b_row[j];
            }
        }
    }
}
