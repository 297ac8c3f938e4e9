/* A host in C: multiplies sealed raw counts by calibration weights in a product run, shows how far it has come while
 * it runs, and shows what refused starts look like.
 *
 *     make lib
 *     cc -std=c99 -Wall -Wextra -pedantic -Iinclude examples/product.c target/staticlib/libbodlarina.a -o product && ./product
 *
 * or, where the library is installed,
 *
 *     cc examples/product.c $(pkg-config --cflags --libs bodlarina) -o product && ./product
 *
 * It writes examples/product.out.
 */
#include <inttypes.h>
#include <stdio.h>
#include <string.h>

#include "bodlarina.h"

enum { RLEN = 512, MLEN = 4096 };

/* Counts (300 by 200) and weights (200 by 250) of 8 bits, sums (300 by 250) of 32 bits, rows one after another. */
enum { M = 300, K = 200, N = 250 };
enum { COUNTS = 0, COUNTS_BYTES = M * K, WEIGHTS = COUNTS + COUNTS_BYTES, WEIGHTS_BYTES = K * N };
enum { SUMS = WEIGHTS + WEIGHTS_BYTES, SUMS_BYTES = M * N * 4, MEMORY_BYTES = SUMS + SUMS_BYTES };

/* Every byte that the machine works on belongs to the host. A product run has scalars of its own. */
static uint8_t machine[BODLARINA_MACHINE_BYTES];
static uint8_t registers[BODLARINA_REGISTER_BYTES(MLEN)];
static uint8_t marks[BODLARINA_REGISTER_BYTES(MLEN)];
static uint8_t memory[MEMORY_BYTES];
static uint8_t run[BODLARINA_RUN_BYTES];
static const struct bodlarina_bench bench = {
    machine, sizeof machine, registers, sizeof registers, marks, sizeof marks, NULL, 0, memory, sizeof memory, run, sizeof run,
    BODLARINA_SMALLER, 32, /* ELEN */
    NULL, 0, 0, /* no vector registers */
};

/* The signed number of 8 or 32 bits that a byte or four bytes hold, low byte first. */
static int64_t signed8(uint8_t x) { return x < 0x80 ? (int64_t)x : (int64_t)x - 0x100; }
static int64_t signed32(const uint8_t *x)
{
    int64_t low = x[0] | x[1] << 8 | x[2] << 16;
    return low + signed8(x[3]) * 0x1000000;
}

/* The counts times the weights, into sums at the address c. */
static struct bodlarina_plan plan(uint64_t c)
{
    struct bodlarina_plan p = {8, 4, M, K, N, {COUNTS, K}, {WEIGHTS, N}, {0, 4 * N}, BODLARINA_PRODUCT};
    p.c.address = c;
    return p;
}

static uint64_t start(uint64_t c)
{
    struct bodlarina_plan p = plan(c);
    return bodlarina_bench_run_start(&bench, &p);
}

/* A start that is refused, and that it changed nothing. */
static void refused_start(const char *text, uint64_t c)
{
    static uint8_t before[MEMORY_BYTES];
    uint8_t run_before[sizeof run];
    memcpy(before, memory, sizeof memory);
    memcpy(run_before, run, sizeof run);
    uint64_t result = start(c);
    int same = memcmp(before, memory, sizeof memory) == 0 && memcmp(run_before, run, sizeof run) == 0;
    printf("%s: %u, %s; %s\n", text, BODLARINA_ANSWER(result), bodlarina_answer_text(result),
           same ? "nothing changed" : "SOMETHING CHANGED");
}

/* Takes all turns, a few thousand at a time, and says how far the run has come. */
static uint64_t take_turns(void)
{
    uint64_t all = bodlarina_bench_run_steps(&bench), steps = 0, done;
    do {
        done = bodlarina_bench_run_turns(&bench, 2000);
        steps += done;
        printf("  %5" PRIu64 " of %" PRIu64 " steps, %3" PRIu64 " %%\n", steps, all, 100 * steps / all);
    } while (done == 2000);
    return steps;
}

/* How many sums differ from those of three plain loops. */
static unsigned differences(void)
{
    unsigned wrong = 0;
    for (int i = 0; i < M; i++)
        for (int j = 0; j < N; j++) {
            int64_t sum = 0;
            for (int l = 0; l < K; l++)
                sum += signed8(memory[COUNTS + i * K + l]) * signed8(memory[WEIGHTS + l * N + j]);
            wrong += signed32(memory + SUMS + 4 * (i * N + j)) != sum;
        }
    return wrong;
}

int main(void)
{
    for (unsigned i = 0; i < SUMS; i++)
        memory[i] = (uint8_t)(i * 37 + i / 251);

    /* The counts are sealed: no word of this machine can change them. */
    uint64_t result = bodlarina_bench_start(&bench, RLEN, MLEN, COUNTS, COUNTS_BYTES);
    printf("machine of MLEN %d, RLEN %d: %s\n", MLEN, RLEN, bodlarina_answer_text(result));

    refused_start("sums over the sealed counts", COUNTS);
    refused_start("sums over the weights", WEIGHTS + WEIGHTS_BYTES - 1);
    refused_start("sums one byte past the end of memory", SUMS + 1);

    result = start(SUMS);
    printf("%d by %d by %d: %s\n", M, K, N, bodlarina_answer_text(result));
    uint64_t steps = take_turns();
    printf("the run is %s\n", bodlarina_bench_run_is_over(&bench) ? "over" : "NOT OVER");
    result = bodlarina_bench_run_turn(&bench);
    printf("%" PRIu64 " steps, and one turn more: answer %u\n", steps, BODLARINA_ANSWER(result));
    printf("sums that differ from plain loops: %u\n", differences());

    /* The same in one call. */
    struct bodlarina_plan p = plan(SUMS);
    memset(memory + SUMS, 0, SUMS_BYTES);
    result = bodlarina_bench_run(&bench, &p, &steps);
    printf("in one call: %s, %" PRIu64 " steps\n", bodlarina_answer_text(result), steps);
    printf("sums that differ from plain loops: %u\n", differences());
    return 0;
}
