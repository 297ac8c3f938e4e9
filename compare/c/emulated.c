/* Times plain C products, for the benchmark to run it under emulators.

       emulated SIZE FORMAT...

   prints a line for each format: nanoseconds of the anchor's product of SIZE in each size. A format is
   100 times the width of the elements of A and B, and the width of those of C, in bits; 0 is floats. */

#define _POSIX_C_SOURCE 199309L

#include "baseline.h"

#include <stdint.h>
#include <stdio.h>
#include <stdlib.h>
#include <time.h>

enum { MOST = 256 };

/* Each 8 bytes an element at the most. Random bytes; as floats, numbers near 1. */
static uint64_t a[MOST * MOST], b[MOST * MOST], c[MOST * MOST];

static void fill(uint64_t *matrix, int is_float)
{
    uint32_t seed = 1;
    uint32_t *halves = (uint32_t *)matrix;
    for (size_t i = 0; i < 2 * MOST * MOST; i++) {
        seed = 1664525 * seed + 1013904223;
        halves[i] = is_float ? 0x3f000000 + (seed >> 9) : seed ^ seed >> 16;
    }
}

static void multiply(int format, size_t size)
{
    if (format == 0) {
        anchor_float_product(size, size, size, (float *)a, (float *)b, (float *)c);
    } else {
        anchor_product(format / 100, format % 100, size, size, size, a, b, c);
    }
}

/* The processor's time that this process took, in nanoseconds: other work on
   the machine is not counted. */
static double now(void)
{
    struct timespec time;
    clock_gettime(CLOCK_PROCESS_CPUTIME_ID, &time);
    return 1e9 * (double)time.tv_sec + (double)time.tv_nsec;
}

/* Nanoseconds of a product: a batch of at least 40 ms. */
static double nanoseconds(int format, size_t size)
{
    for (long repeats = 1;; repeats *= 2) {
        double started = now();
        for (long i = 0; i < repeats; i++) {
            multiply(format, size);
        }
        double time = now() - started;
        if (time >= 40e6) {
            return time / (double)repeats;
        }
    }
}

int main(int count, char **words)
{
    size_t size = count < 2 ? 0 : (size_t)atoi(words[1]);
    if (size < 1 || size > MOST) {
        return 2;
    }
    for (int i = 2; i < count; i++) {
        int format = atoi(words[i]);
        fill(a, format == 0);
        fill(b, format == 0);
        printf("%.1f\n", nanoseconds(format, size));
    }
    return 0;
}
