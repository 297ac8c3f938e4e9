/* Sealed counts in a Linux program: seals NAME changes them in one way. */
#include <pthread.h>
#include <stdint.h>
#include <stdio.h>
#include <string.h>
#include <unistd.h>

#include "bodlarina_asm.h"

int8_t counts[16] __attribute__((aligned(16)));
static int8_t others[32];
static int8_t *volatile at_counts = counts; /* the compiler is not to see what is stored over */

/* Ends in a jump to another function. */
__attribute__((noinline)) int8_t *settle(int8_t *at)
{
    others[0]++;
    return at;
}

__attribute__((noinline)) int8_t *enter_counts(int first)
{
    int i;
    for (i = 0; i < 16; i++)
        counts[i] = (int8_t)(first + i);
    return settle(counts);
}

/* By a function pointer, and with a return of its own. */
__attribute__((noinline)) void enter_others(int first)
{
    int i;
    for (i = 0; i < 16; i++)
        others[i] = (int8_t)(first + i);
}

__attribute__((noinline)) void never(void) { counts[0] = 1; }

static void set_tiles(void)
{
    asm_msettypei(BODLARINA_E8);
    asm_msettilemi(4);
    asm_msettileki(4);
}

/* What the kernel writes, no instruction of the program does. */
static void read_over(void)
{
    int ends[2];
    if (pipe(ends) == 0 && write(ends[1], "abcd", 4) == 4 && read(ends[0], counts + 4, 4) == 4)
        close(ends[0]);
}

static void store_over(void)
{
    asm_mlae8_m(tr0, others, 4);
    asm_msae8_m(tr0, at_counts - 12, 4); /* four bytes of the last row */
}

/* A thread that starts after the sealing has a unit with the seal. */
static void *store_over_by_thread(void *unused)
{
    set_tiles();
    store_over();
    return unused;
}

static void run_thread(void)
{
    pthread_t thread;
    pthread_create(&thread, NULL, store_over_by_thread, NULL);
    pthread_join(thread, NULL);
}

int main(int count, char **words)
{
    const char *name = count > 1 ? words[1] : "";
    void (*volatile by_pointer)(int) = enter_others;
    set_tiles();
    by_pointer(count);
    enter_counts(count);
    if (strcmp(name, "store") == 0)
        *(volatile int16_t *)(at_counts - 1) = 5; /* two bytes, of which the second is sealed */
    if (strcmp(name, "beside") == 0)
        *(volatile int16_t *)(at_counts - 2) = 5;
    if (strcmp(name, "others") == 0)
        *(volatile int8_t *)others = 5;
    if (strcmp(name, "read") == 0 || strcmp(name, "read_end") == 0)
        read_over();
    if (strcmp(name, "read") == 0)
        asm_msettilemi(2);
    if (strcmp(name, "unit") == 0)
        store_over();
    if (strcmp(name, "thread") == 0)
        run_thread();
    if (strcmp(name, "load") == 0)
        asm_mlae8_m(tr0, counts, 4);
    if (strcmp(name, "never") == 0 && count > 2)
        never();
    puts("end");
    return 3;
}
