/* Cases of a Linux program with matrix words: cases NAME runs one, and tests/firmware-cases says what has to come of it. */
#define _GNU_SOURCE
#include <fcntl.h>
#include <pthread.h>
#include <setjmp.h>
#include <signal.h>
#include <stdint.h>
#include <stdio.h>
#include <stdlib.h>
#include <string.h>
#include <sys/mman.h>
#include <sys/wait.h>
#include <unistd.h>

#include "bodlarina_asm.h"

static int8_t counts[16];
static volatile sig_atomic_t got;

static void set_tiles(void)
{
    asm_msettypei(BODLARINA_E8 | BODLARINA_MACCQ);
    asm_msettilemi(4);
    asm_msettileki(4);
    asm_msettileni(4);
}

static void remember(int number) { got = number; }

static int8_t *new_pages(size_t pages, int protection)
{
    return mmap(NULL, 4096 * pages, protection, MAP_PRIVATE | MAP_ANONYMOUS, -1, 0);
}

/* ---- registers and memory ---- */

/* Compressed instructions on both sides, and rd x0, which stays 0. */
static int case_x0(void)
{
    long zero, size;
    __asm__ volatile(".option push\n.option rvc\nc.nop\n.insn r 0x77, 7, 0x10, x0, x4, x0\nc.nop\n"
                     ".insn r 0x77, 7, 0x10, %1, x3, x0\nc.nop\n.option pop\nadd %0, x0, x0" : "=r"(zero), "=r"(size));
    printf("%ld %ld\n", zero, size);
    return 7;
}

/* Addresses above 4 GiB, on the stack and far up. */
static int copies(int8_t *from, int8_t *to)
{
    int i;
    for (i = 0; i < 16; i++)
        from[i] = (int8_t)(3 * i - 20);
    asm_mlae8_m(tr0, from, 4);
    asm_msae8_m(tr0, to, 4);
    return memcmp(from, to, 16) == 0 && (uintptr_t)from >> 32 != 0;
}

static int case_stack(void)
{
    int8_t from[16], to[16];
    return copies(from, to) ? 0 : 1;
}

static int case_high(void)
{
    int8_t *page = mmap((void *)0x3f0000000000, 4096, PROT_READ | PROT_WRITE, MAP_PRIVATE | MAP_ANONYMOUS | MAP_FIXED_NOREPLACE, -1, 0);
    return page != MAP_FAILED && copies(page, page + 100) ? 0 : 1;
}

static int case_unmapped(void)
{
    asm_mlae8_m(tr0, (void *)0x123456000, 4);
    return 0;
}

/* The last two rows lie behind a page. */
static int case_half_mapped(void)
{
    int8_t *page = new_pages(2, PROT_READ | PROT_WRITE);
    munmap(page + 4096, 4096);
    asm_mlae8_m(tr0, page + 4096 - 8, 4);
    return 0;
}

static int case_read_only(void)
{
    asm_mlae8_m(tr0, counts, 4);
    asm_msae8_m(tr0, "a constant text of more than sixteen", 4);
    return 0;
}

/* Above 2^46 and at the end of all addresses. */
static int case_far(void)
{
    asm_mlae8_m(tr0, (void *)-8, 4);
    return 0;
}

/* A page with code that has run, and data. */
static int case_code_page(void)
{
    uint32_t *page = (uint32_t *)new_pages(1, PROT_READ | PROT_WRITE | PROT_EXEC);
    int i;
    page[0] = 0x00008067; /* ret */
    ((void (*)(void))page)();
    for (i = 0; i < 16; i++)
        counts[i] = (int8_t)(i + 1);
    asm_mlae8_m(tr0, counts, 4);
    asm_msae8_m(tr0, page + 16, 4);
    ((void (*)(void))page)();
    return memcmp(page + 16, counts, 16) != 0;
}

/* m 4, k 3, n 2; each form ends exactly at the end of a page, then `past` bytes behind it. Rows in memory lie 5 bytes apart. */
static int edge(int form, long past)
{
    static int8_t elements[64];
    int8_t *end = new_pages(2, PROT_READ | PROT_WRITE) + 4096;
    munmap(end, 4096);
    asm_msettileki(3);
    asm_msettileni(2);
    asm_mlae8_m(tr0, elements, 4);
    asm_mlbe8_m(tr1, elements, 4);
    asm_mlce8_m(acc0, elements, 4);
    switch (form) { /* so many bytes from the first to the last: 5 times the rows but one, and a row */
    case 0: asm_mlae8_m(tr0, end - 18 + past, 5); break;
    case 1: asm_mlbe8_m(tr1, end - 12 + past, 5); break;
    case 2: asm_mlce8_m(acc0, end - 17 + past, 5); break;
    case 3: asm_msae8_m(tr0, end - 18 + past, 5); break;
    case 4: asm_msbe8_m(tr1, end - 12 + past, 5); break;
    case 5: asm_msce8_m(acc0, end - 17 + past, 5); break;
    case 6: asm_mlate8_m(tr0, end - 14 + past, 5); break;
    case 7: asm_mlbte8_m(tr1, end - 8 + past, 5); break;
    case 8: asm_mlcte8_m(acc0, end - 9 + past, 5); break;
    case 9: asm_msate8_m(tr0, end - 14 + past, 5); break;
    case 10: asm_msbte8_m(tr1, end - 8 + past, 5); break;
    case 11: asm_mscte8_m(acc0, end - 9 + past, 5); break;
    case 12: asm_mlce32_m(acc0, end - 56 + past, 16); break;
    }
    return 0;
}

static int case_unwritten(void)
{
    asm_mqma_mm(acc0, tr0, tr1);
    return 0;
}

/* The words of direct.c: the image that is saved has to be the same. */
static int case_multiply(void)
{
    static int32_t sums[16];
    int i;
    for (i = 0; i < 16; i++)
        counts[i] = (int8_t)(i + 1);
    asm_mlae8_m(tr0, counts, 4);
    asm_mlbe8_m(tr1, counts, 4);
    asm_mqemulc_mi(acc0, acc0, 0);
    asm_mqma_mm(acc0, tr0, tr1);
    asm_msce32_m(acc0, sums, 16);
    return sums[0] == 1 * 1 + 2 * 5 + 3 * 9 + 4 * 13 ? 0 : 1;
}

/* ---- signals ---- */

static int case_signals(void)
{
    int first;
    signal(SIGUSR1, remember);
    signal(SIGALRM, remember);
    raise(SIGUSR1);
    first = got;
    ualarm(20000, 0);
    while (got != SIGALRM)
        asm_msettilemi(4);
    return first == SIGUSR1 ? 0 : 1;
}

/* A signal each 300 microseconds, until words were interrupted by one, and 20,000 words at least. */
static int case_alarms(void)
{
    struct sigaction action;
    unsigned long sum = 0, words = 0;
    memset(&action, 0, sizeof action);
    action.sa_handler = remember;
    action.sa_flags = SA_RESTART;
    sigaction(SIGALRM, &action, NULL);
    ualarm(300, 300);
    while (got == 0 || words < 20000) {
        sum += asm_msettilemi(4);
        words++;
    }
    ualarm(0, 0);
    return sum == 4 * words && got == SIGALRM ? 0 : 1;
}

static int case_segv(void)
{
    *(volatile int *)8 = 1;
    return 0;
}

static int case_ill(void)
{
    __asm__ volatile(".word 0");
    return 0;
}

static int case_abort(void)
{
    abort();
}

/* A word where sp points to nothing. */
static int case_no_stack(void)
{
    __asm__ volatile("mv t0, sp\nli sp, 4096\n.insn r 0x77, 7, 0x10, x0, x4, x0\nmv sp, t0" : : : "t0");
    return 0;
}

/* The same with words that are none of the unit's, nor of any machine: all zeros, all ones, a write to a csr that is only read. */
static int case_no_stack_zeros(void)
{
    __asm__ volatile("mv t0, sp\nli sp, 0\n.word 0\nmv sp, t0" : : : "t0");
    return 0;
}

static int case_no_stack_ones(void)
{
    __asm__ volatile("mv t0, sp\nli sp, 0\n.word 0xffffffff\nmv sp, t0" : : : "t0");
    return 0;
}

static int case_no_stack_unimp(void)
{
    __asm__ volatile("mv t0, sp\nli sp, 0\n.word 0xc0001073\nmv sp, t0" : : : "t0");
    return 0;
}

/* A handler of its own for SIGILL is not called for matrix words, and is for other words; what was set is read back. */
static void skip(int number, siginfo_t *info, void *context)
{
    (void)info;
    got = number;
    ((ucontext_t *)context)->uc_mcontext.__gregs[0] += 4;
}

static int case_own_handler(void)
{
    static const struct sigaction action = {.sa_sigaction = skip, .sa_flags = SA_SIGINFO}; /* a constant: it cannot be written */
    struct sigaction before, set;
    int i;
    if (sigaction(SIGILL, &action, &before) != 0 || before.sa_handler != SIG_DFL)
        return 1;
    if (asm_msettilemi(3) != 3 || got != 0)
        return 2;
    __asm__ volatile(".word 0xffffffff");
    for (i = 0; i < 2000; i++)
        __asm__ volatile(".word 0xc0001073");
    if (got != SIGILL || sigaction(SIGILL, &before, &set) != 0 || set.sa_sigaction != skip)
        return 3;
    return asm_msettilemi(2) == 2 ? 0 : 4;
}

/* As programs probe for an extension: a handler that jumps away. */
static sigjmp_buf away;

static void jump_away(int number) { siglongjmp(away, number); }

static int case_probe(void)
{
    volatile int there = 1;
    signal(SIGILL, jump_away);
    if (sigsetjmp(away, 1) == 0)
        __asm__ volatile(".word 0xffffffff");
    else
        there = 0;
    if (there || asm_msettilemi(3) != 3)
        return 1;
    signal(SIGILL, SIG_DFL);
    return asm_msettilemi(2) == 2 ? 0 : 1;
}

/* All signals blocked, by a constant mask too. */
static int case_blocked(void)
{
    static const uint64_t all = ~(uint64_t)0;
    sigset_t mask;
    sigfillset(&mask);
    sigprocmask(SIG_BLOCK, &mask, NULL);
    if (asm_msettilemi(3) != 3 || !sigismember(&mask, SIGILL))
        return 1;
    sigprocmask(SIG_SETMASK, (const sigset_t *)&all, NULL);
    return asm_msettilemi(2) == 2 ? 0 : 1;
}

static void word_inside(int number)
{
    (void)number;
    got = (int)asm_msettilemi(3);
}

static int case_in_handler(void)
{
    struct sigaction action;
    memset(&action, 0, sizeof action);
    action.sa_handler = word_inside;
    sigfillset(&action.sa_mask);
    sigaction(SIGUSR1, &action, NULL);
    raise(SIGUSR1);
    return got == 3 ? 0 : 1;
}

/* ---- threads and processes: each has a unit of its own ---- */

static void *settle(void *size)
{
    long sum = 0;
    int i;
    asm_msettypei(BODLARINA_E8);
    for (i = 0; i < 2000; i++)
        sum += (long)asm_msettilem((long)size);
    return (void *)sum;
}

static int case_threads(void)
{
    pthread_t threads[3];
    long i, sum = 0;
    void *one;
    for (i = 0; i < 3; i++)
        pthread_create(&threads[i], NULL, settle, (void *)(i + 1));
    for (i = 0; i < 3; i++) {
        pthread_join(threads[i], &one);
        sum += (long)one;
    }
    return sum == 2000 * (1 + 2 + 3) ? 0 : 1;
}

static void *load_zeros(void *unused)
{
    static int8_t zeros[16];
    set_tiles();
    asm_mlae8_m(tr0, zeros, 4);
    return unused;
}

static int keeps_tile(void)
{
    int8_t tile[16];
    asm_msae8_m(tr0, tile, 4);
    return memcmp(tile, counts, 16) == 0;
}

static void load_counts(void)
{
    int i;
    for (i = 0; i < 16; i++)
        counts[i] = (int8_t)(i + 1);
    asm_mlae8_m(tr0, counts, 4);
}

static int case_own_tiles(void)
{
    pthread_t thread;
    load_counts();
    pthread_create(&thread, NULL, load_zeros, NULL);
    pthread_join(thread, NULL);
    return keeps_tile() ? 0 : 1;
}

static int case_small_stack(void)
{
    pthread_attr_t small;
    pthread_t thread;
    void *sum = NULL;
    pthread_attr_init(&small);
    pthread_attr_setstacksize(&small, 16384);
    return pthread_create(&thread, &small, settle, (void *)3) != 0 || pthread_join(thread, &sum) != 0 || (long)sum != 6000;
}

static void *unwritten_inside(void *unused)
{
    set_tiles();
    asm_mqma_mm(acc0, tr0, tr1);
    return unused;
}

static int case_refused_thread(void)
{
    pthread_t thread;
    pthread_create(&thread, NULL, unwritten_inside, NULL);
    pthread_join(thread, NULL);
    return 0;
}

/* A thread that has written tr0, and then reads tr1; the first thread has written nothing. */
static void *refused_after_load(void *unused)
{
    load_zeros(NULL);
    asm_mqma_mm(acc0, tr0, tr1);
    return unused;
}

static int case_refused_after_load(void)
{
    pthread_t thread;
    pthread_create(&thread, NULL, refused_after_load, NULL);
    pthread_join(thread, NULL);
    return 0;
}

/* A child goes on with the tiles of its parent, and changes its own. */
static int case_fork(void)
{
    int status = 0;
    load_counts();
    if (fork() == 0) {
        int kept = keeps_tile();
        load_zeros(NULL);
        _exit(kept && !keeps_tile() ? (int)asm_msettilemi(3) : 1);
    }
    wait(&status);
    return WIFEXITED(status) && WEXITSTATUS(status) == 3 && keeps_tile() ? 0 : 1;
}

static int case_refused_child(void)
{
    if (fork() == 0)
        asm_mqma_mm(acc0, tr0, tr1);
    wait(NULL);
    return 0;
}

/* ---- what else a program sees ---- */

static int case_echo(void)
{
    char line[100];
    while (fgets(line, sizeof line, stdin) != NULL) {
        asm_msettilemi(4);
        fputs(line, stdout);
    }
    fprintf(stderr, "to standard error\n");
    return 42;
}

/* Descriptors that are opened have the numbers that they have without the tool: from 3 on. */
static int case_descriptors(void)
{
    int number = 3;
    while (number < 40 && open("/dev/null", O_RDONLY) == number)
        number++;
    return number;
}

static int case_loop(void)
{
    while (got == 0)
        asm_msettilemi(4);
    return 0;
}

static const struct {
    const char *name;
    int (*run)(void);
} cases[] = {
    {"x0", case_x0}, {"stack", case_stack}, {"high", case_high}, {"unmapped", case_unmapped}, {"half_mapped", case_half_mapped},
    {"read_only", case_read_only}, {"far", case_far}, {"code_page", case_code_page}, {"unwritten", case_unwritten},
    {"multiply", case_multiply},
    {"signals", case_signals}, {"alarms", case_alarms}, {"segv", case_segv}, {"ill", case_ill}, {"abort", case_abort}, {"no_stack", case_no_stack},
    {"no_stack_zeros", case_no_stack_zeros}, {"no_stack_ones", case_no_stack_ones}, {"no_stack_unimp", case_no_stack_unimp},
    {"own_handler", case_own_handler}, {"probe", case_probe}, {"blocked", case_blocked}, {"in_handler", case_in_handler},
    {"threads", case_threads}, {"own_tiles", case_own_tiles}, {"small_stack", case_small_stack}, {"refused_thread", case_refused_thread},
    {"refused_after_load", case_refused_after_load},
    {"fork", case_fork}, {"refused_child", case_refused_child}, {"echo", case_echo}, {"descriptors", case_descriptors}, {"loop", case_loop},
};

int main(int count, char **words)
{
    size_t i;
    set_tiles();
    if (count > 3 && strcmp(words[1], "edge") == 0)
        return edge(atoi(words[2]), atol(words[3]));
    for (i = 0; count > 1 && i < sizeof cases / sizeof cases[0]; i++)
        if (strcmp(words[1], cases[i].name) == 0)
            return cases[i].run();
    fprintf(stderr, "cases: no such case\n");
    return 2;
}
