/* How fast words and scalar code run: ten words a turn (five settings, two loads, a clear, a multiply, a store), then plain stores. For Linux, and
 * with -DBARE for bare metal. Prints words a second, and milliseconds for 50 million turns of a loop with a store each; with -DSCALAR only that. */
#include <stdint.h>

#include "bodlarina_asm.h"

int8_t counts[16] = {12, 40, 7, 0, 3, 99, 15, 2, 100, 1, 0, 64, 5, 6, 7, 8};
static int8_t weights[8] = {1, -1, 2, 0, 3, 5, -4, 10};
static int32_t readings[8];

enum { TURNS = 30000, STORES = 50000000 };

#ifdef BARE
/* mtime counts tenths of a microsecond. */
static uint64_t now(void) { return *(volatile uint64_t *)0x200bff8 * 100; }

static void put_character(char character) { *(volatile char *)0x10000000 = character; }
#else
#include <stdio.h>
#include <time.h>

static uint64_t now(void)
{
    struct timespec time;
    clock_gettime(CLOCK_MONOTONIC, &time);
    return (uint64_t)time.tv_sec * 1000000000 + (uint64_t)time.tv_nsec;
}

static void put_character(char character) { putchar(character); }
#endif

static void put_number(uint64_t number)
{
    if (number >= 10)
        put_number(number / 10);
    put_character((char)('0' + number % 10));
}

static void turn(void)
{
    asm_msettypei(BODLARINA_E8 | BODLARINA_MACCQ);
    asm_msettilemi(4);
    asm_msettileki(4);
    asm_msettileni(2);
    asm_msettilem(4);
    asm_mlae8_m(tr0, counts, 4);
    asm_mlbe8_m(tr1, weights, 2);
    asm_mqemulc_mi(acc0, acc0, 0);
    asm_mqma_mm(acc0, tr0, tr1);
    asm_msce32_m(acc0, readings, 8);
}

int main(void)
{
    volatile unsigned stored = 1;
    uint64_t start;
    int i;
#ifndef SCALAR
    turn();
    start = now();
    for (i = 0; i < TURNS; i++)
        turn();
    put_number((uint64_t)TURNS * 10 * 1000000000 / (now() - start));
    put_character(' ');
#endif
    start = now();
    for (i = 0; i < STORES; i++)
        stored = stored * 3 + 1;
    put_number((now() - start) / 1000000);
    put_character('\n');
    return 0;
}
