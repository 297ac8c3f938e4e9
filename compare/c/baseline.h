/* Products of dense matrices in plain C, to which the benchmark holds the
   library. Elements of A and B have `width` bits, those of C `output` bits. */

#include <stddef.h>

/* The anchor: as a careful C programmer writes it. */
void anchor_product(int width, int output, size_t m, size_t k, size_t n,
                    const void *a, const void *b, void *c);

/* Three loops in the slow order i, j, k. */
void slow_product(int width, int output, size_t m, size_t k, size_t n,
                  const void *a, const void *b, void *c);

/* The anchor's loops on floats: each element's terms come in rising k, and each product
   and each sum is rounded (gcc fuses none under -std=c99). */
void anchor_float_product(size_t m, size_t k, size_t n, const float *restrict a,
                          const float *restrict b, float *restrict c);
