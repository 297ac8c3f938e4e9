#include "visit.h"

#include "bodlarina_asm.h"

enum { LOOPS = 4, LOOPS_MOST = 16, COUNTS = 4, READINGS = 2, SENSOR_DRIFT = 2 };

int8_t counts[LOOPS_MOST][COUNTS]; /* raw, as they were entered */
int32_t readings[LOOPS][READINGS];

/* What each count weighs in the two readings. */
static const int8_t weights[COUNTS][READINGS] = {{1, -1}, {2, 0}, {3, 5}, {-4, 10}};

/* The registers of the sensors; here they hold the counts of one day. */
static const volatile int8_t sensors[LOOPS][COUNTS] = {{12, 40, 7, 0}, {3, 99, 15, 2}, {100, 1, 0, 64}, {25, 30, 0, 8}};

/* Not inlined, so that a seal can be put on what it has entered when it returns. */
__attribute__((noinline)) void enter_counts(void)
{
    for (unsigned loop = 0; loop < LOOPS; loop++)
        for (unsigned i = 0; i < COUNTS; i++)
            counts[loop][i] = sensors[loop][i];
}

static void take_off_drift(void)
{
    for (unsigned loop = 0; loop < LOOPS; loop++)
        for (unsigned i = 0; i < COUNTS; i++)
            counts[loop][i] -= SENSOR_DRIFT;
}

/* Loads the counts of so many loops into tr0 and multiplies those of all by the weights, to readings in rows of eight bytes. */
void measure(unsigned loaded, void *to)
{
    asm_msettypei(BODLARINA_E8 | BODLARINA_MACCQ);
    asm_msettileki(COUNTS);
    asm_msettileni(READINGS);
    asm_msettilem(loaded);
    asm_mlae8_m(tr0, counts, COUNTS);
    asm_mlbe8_m(tr1, weights, READINGS);
    asm_msettilem(LOOPS);
    asm_mqemulc_mi(acc0, acc0, 0);
    asm_mqma_mm(acc0, tr0, tr1);
    asm_msce32_m(acc0, to, sizeof readings[0]);
}

/* The digits of a number end at `end`; gives where they start. */
static char *digits(long number, char *end)
{
    unsigned long rest = number < 0 ? 0 - (unsigned long)number : (unsigned long)number;
    do
        *--end = (char)('0' + rest % 10);
    while ((rest /= 10) != 0);
    if (number < 0)
        *--end = '-';
    return end;
}

static void write_sheet(void (*put)(const char *text))
{
    char room[24] = {0};
    for (unsigned loop = 0; loop < LOOPS; loop++) {
        put("loop ");
        put(digits(loop + 1, room + 23));
        for (unsigned i = 0; i < READINGS; i++) {
            put(" ");
            put(digits(readings[loop][i], room + 23));
        }
        put("\n");
    }
}

void visit(enum slip slip, void (*put)(const char *text))
{
    enter_counts();
    if (slip == DRIFT)
        take_off_drift();
    measure(slip == MISSING ? LOOPS - 1 : LOOPS, slip == OVER ? (void *)counts[2] : readings);
    write_sheet(put);
}
