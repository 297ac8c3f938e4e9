/* A host in C: starts a machine, seals raw counts in memory, multiplies two tiles, and shows what refusals look like.
 *
 *     make lib
 *     cc -std=c99 -Wall -Wextra -pedantic -Iinclude examples/step.c target/staticlib/libbodlarina.a -o step && ./step
 *
 * or, where the library is installed,
 *
 *     cc examples/step.c $(pkg-config --cflags --libs bodlarina) -o step && ./step
 *
 * It writes examples/step.out.
 */
#include <inttypes.h>
#include <stdio.h>
#include <string.h>

#include "bodlarina_words.h"

enum { RLEN = 64, MLEN = 256, MEMORY_BYTES = 64 };

/* Where the matrices lie in memory. The counts are sealed: no word of this machine can change them. */
enum { COUNTS = 0, COUNTS_STRIDE = 4, COUNTS_BYTES = 12, WEIGHTS = 16, WEIGHTS_STRIDE = 2, SUMS = 32, SUMS_STRIDE = 8, SUMS_BYTES = 24 };

/* Every byte that the machine works on belongs to the host. */
static struct buffers {
    uint8_t machine[BODLARINA_MACHINE_BYTES];
    uint8_t registers[BODLARINA_REGISTER_BYTES(MLEN)];
    uint8_t marks[BODLARINA_REGISTER_BYTES(MLEN)];
    uint8_t scalars[BODLARINA_SCALAR_BYTES];
    uint8_t memory[MEMORY_BYTES];
} own;

static const struct bodlarina_bench bench = {
    own.machine, sizeof own.machine, own.registers, sizeof own.registers, own.marks, sizeof own.marks,
    own.scalars, sizeof own.scalars, own.memory, sizeof own.memory, NULL, 0, /* no product run */
    BODLARINA_SMALLER, 32, /* ELEN */
    NULL, 0, 0, /* no vector registers */
};

/* The address in x10 and the stride in x11, for the next load or store. */
static void point(uint64_t address, int64_t stride)
{
    bodlarina_bench_set_scalar(&bench, 10, address);
    bodlarina_bench_set_scalar(&bench, 11, (uint64_t)stride);
}

/* A signed 32-bit element of memory, low byte first. */
static int32_t element32(size_t at)
{
    uint32_t x = 0;
    for (unsigned i = 0; i < 4; i++)
        x |= (uint32_t)own.memory[at + i] << (8 * i);
    return x < 0x80000000u ? (int32_t)x : -(int32_t)(0xffffffffu - x) - 1;
}

/* What a result says. */
static void explain(uint64_t result)
{
    if (result != 0)
        printf("refused with %u, ", BODLARINA_ANSWER(result));
    printf("%s", bodlarina_answer_text(result));
    if (BODLARINA_ANSWER(result) == BODLARINA_UNWRITTEN)
        printf(": row %u, column %u", BODLARINA_ROW(result), BODLARINA_COLUMN(result));
    printf("\n");
}

/* Carries out a word, says what became of it, and looks after a refusal whether anything changed. */
static void step(const char *text, uint32_t word)
{
    struct buffers before = own;
    uint64_t result = bodlarina_bench_step(&bench, word);
    printf("  0x%08" PRIX32 "  %-26s", word, text);
    explain(result);
    if (result != 0)
        printf("              %s\n", memcmp(&before, &own, sizeof own) == 0 ? "(nothing changed)" : "(SOMETHING CHANGED)");
}

int main(void)
{
    /* A: counts of four channels at three detectors. B: what each channel weighs in two sums. */
    static const int8_t counts[3][4] = {{12, 40, 7, 0}, {3, 99, 15, 2}, {100, 1, 0, 64}};
    static const int8_t weights[4][2] = {{1, -1}, {2, 0}, {3, 5}, {-4, 10}};

    memcpy(own.memory + COUNTS, counts, sizeof counts);
    memcpy(own.memory + WEIGHTS, weights, sizeof weights);

    printf("start a machine of MLEN %d and RLEN %d, the %d bytes of the counts sealed: ", MLEN, RLEN, COUNTS_BYTES);
    explain(bodlarina_bench_start(&bench, RLEN, MLEN, COUNTS, COUNTS_BYTES));

    printf("sums = counts x weights\n");
    step("msettypei x0, e8, maccq", bodlarina_msettypei(0, BODLARINA_E8 | BODLARINA_MACCQ));
    step("msettilemi x0, 3", bodlarina_msettilemi(0, 3));
    step("msettileki x0, 4", bodlarina_msettileki(0, 4));
    step("msettileni x0, 2", bodlarina_msettileni(0, 2));
    point(COUNTS, COUNTS_STRIDE);
    step("mlae8.m tr0, (x10), x11", bodlarina_mlae8_m(0, 10, 11));
    point(WEIGHTS, WEIGHTS_STRIDE);
    step("mlbe8.m tr1, (x10), x11", bodlarina_mlbe8_m(1, 10, 11));
    step("mqemulc.mi acc0, acc0, 0", bodlarina_mqemulc_mi(0, 0, 0));
    step("mqma.mm acc0, tr0, tr1", bodlarina_mqma_mm(0, 0, 1));
    point(SUMS, SUMS_STRIDE);
    step("msce32.m acc0, (x10), x11", bodlarina_msce32_m(0, 10, 11));
    for (unsigned i = 0; i < 3; i++)
        printf("  %6" PRId32 " %6" PRId32 "\n", element32(SUMS + SUMS_STRIDE * i), element32(SUMS + SUMS_STRIDE * i + 4));

    printf("a fourth row of counts was never loaded\n");
    step("msettilemi x0, 4", bodlarina_msettilemi(0, 4));
    step("mqma.mm acc0, tr0, tr1", bodlarina_mqma_mm(0, 0, 1));

    printf("the sums stored over the counts\n");
    step("msettilemi x0, 3", bodlarina_msettilemi(0, 3));
    point(COUNTS, SUMS_STRIDE);
    step("msce32.m acc0, (x10), x11", bodlarina_msce32_m(0, 10, 11));

    printf("the %d bytes of the sums sealed as well: ", SUMS_BYTES);
    explain(bodlarina_bench_seal(&bench, SUMS, SUMS_BYTES));
    point(SUMS, SUMS_STRIDE);
    step("msce32.m acc0, (x10), x11", bodlarina_msce32_m(0, 10, 11));

    printf("words that are wrong, each in its own way\n");
    step("(0x48006077 mistyped)", 0x48006067u);
    step("mfaddc.mm acc0, acc1", 0x1200E077u);
    step("(no such code)", 0xFC006077u);
    step("mqma.mm acc2, tr0, tr1", bodlarina_mqma_mm(2, 0, 1));
    return 0;
}
