/* Cases of a bare-metal program with matrix words, one chosen by -DCASE=; tests/firmware-cases says what has to come of it. */
#include <stdint.h>

#include "bodlarina_asm.h"

#define PLAIN 0        /* words alone */
#define UNWRITTEN 1    /* a word that is refused */
#define OUTSIDE 2      /* a row outside RAM */
#define TIMER 3        /* an interrupt each 100 microseconds, until words were interrupted by ten */
#define TIMER_TABLE 4  /* the same with a vectored mtvec */
#define OWN_TRAP 5     /* an illegal instruction that is none of the unit's goes to the program's vector, and behind it words go on */
#define SET_TWICE 6    /* mtvec set at two places, read, and what was read set again */
#define SET_IN_LOOP 7  /* mtvec set again by the same instruction */
#define STORE 8        /* a scalar store over the counts */
#define UNIT_STORE 9   /* a store of the unit over the counts */
#define UNENDING 10

int8_t counts[16] __attribute__((aligned(16)));
#ifdef BIG /* more than a jump reaches over */
volatile char big[4 << 20];
#endif
static int32_t sums[16];
static volatile unsigned long ticks, illegal;

#define MTIME (*(volatile uint64_t *)0x200bff8)
#define MTIMECMP (*(volatile uint64_t *)0x2004000)

static void put(const char *text)
{
    while (*text != '\0')
        *(volatile uint8_t *)0x10000000 = (uint8_t)*text++;
}

static void set_tiles(void)
{
    asm_msettypei(BODLARINA_E8 | BODLARINA_MACCQ);
    asm_msettilemi(4);
    asm_msettileki(4);
    asm_msettileni(4);
}

__attribute__((noinline)) void enter_counts(void)
{
    int i;
    for (i = 0; i < 16; i++)
        counts[i] = (int8_t)(i + 1);
}

/* counts times itself: the first sum is 1 x 1 + 2 x 5 + 3 x 9 + 4 x 13 = 90. */
static int multiply(void)
{
    set_tiles();
    asm_mlae8_m(tr0, counts, 4);
    asm_mlbe8_m(tr1, counts, 4);
    asm_mqemulc_mi(acc0, acc0, 0);
    asm_mqma_mm(acc0, tr0, tr1);
    asm_msce32_m(acc0, sums, 16);
    return sums[0] == 90;
}

/* ---- traps ---- */

__attribute__((interrupt("machine"), aligned(4))) void on_timer(void)
{
    ticks++;
    MTIMECMP = MTIME + 1000;
}

/* Over an instruction of four bytes. */
__attribute__((interrupt("machine"), aligned(4))) void on_illegal(void)
{
    unsigned long pc;
    illegal++;
    __asm__ volatile("csrr %0, mepc\naddi %0, %0, 4\ncsrw mepc, %0" : "=&r"(pc));
}

/* Exceptions come to the first entry, the timer to entry 7. */
__asm__(".balign 256\n.option push\n.option norvc\ntable:\nj on_illegal\n.rept 6\nj fail\n.endr\nj on_timer\n.rept 8\nj fail\n.endr\n.option pop\n");
extern char table[];

__attribute__((noinline)) static void set_mtvec(uintptr_t vector) { __asm__ volatile("csrw mtvec, %0" : : "r"(vector)); }

static int count_ticks(uintptr_t vector)
{
    unsigned long sum = 0, mask = 128, words = 0;
    set_mtvec(vector);
    MTIMECMP = MTIME + 1000;
    __asm__ volatile("csrs mie, %0\ncsrsi mstatus, 8" : : "r"(mask));
    set_tiles();
    while (ticks < 10 || words < 20000) {
        sum += asm_msettilemi(4);
        words++;
    }
    __asm__ volatile("csrci mstatus, 8");
    return sum == 4 * words;
}

static int traps_go_on(void)
{
    __asm__ volatile(".word 0xffffffff");
    return multiply();
}

static int set_twice(void)
{
    uintptr_t read;
    set_mtvec((uintptr_t)on_timer);
    if (!multiply())
        return 0;
    __asm__ volatile("csrr %0, mtvec" : "=r"(read));
    __asm__ volatile("csrw mtvec, %0" : : "r"(on_illegal));
    if (!traps_go_on() || illegal != 1)
        return 0;
    __asm__ volatile("csrw mtvec, %0" : : "r"(read));
    return multiply();
}

static int run(void)
{
    enter_counts();
    switch (CASE) {
    case UNWRITTEN: set_tiles(); asm_mqma_mm(acc0, tr0, tr1); return 1;
    case OUTSIDE: set_tiles(); asm_mlae8_m(tr0, (void *)0x7ffffffc, 4); return 1;
    case TIMER: return count_ticks((uintptr_t)on_timer);
    case TIMER_TABLE: return count_ticks((uintptr_t)table + 1) && traps_go_on() && illegal == 1;
    case OWN_TRAP: set_mtvec((uintptr_t)on_illegal); return traps_go_on() && illegal == 1;
    case SET_TWICE: return set_twice();
    case SET_IN_LOOP: set_mtvec((uintptr_t)on_illegal); set_mtvec((uintptr_t)on_timer); return multiply();
    case STORE: counts[3] = 9; return 1;
    case UNENDING:
        while (illegal == 0)
            asm_msettilemi(4);
        return 1;
    case UNIT_STORE: set_tiles(); asm_mlae8_m(tr0, counts, 4); asm_msae8_m(tr0, counts, 4); return 1;
    }
    return multiply();
}

int main(void)
{
    int right = run();
    put(right ? "right\n" : "wrong\n");
    return right ? 7 : 8;
}
