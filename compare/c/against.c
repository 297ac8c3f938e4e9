/* The cases of compare/against, which includes this behind a tree's header and the macros START, STEP, RUN_START, RUN_TURNS and RUN_TURN, the
 * calls of that header. A line: a title, nanoseconds, and a sum over the bytes that are left, with tabs between; -1 where a call is refused. */
#include <stdio.h>
#include <stdlib.h>
#include <string.h>
#include <time.h>

static uint8_t machine[BODLARINA_MACHINE_BYTES], registers[131072], marks[131072], scalars[256], vectors[512], run[BODLARINA_RUN_BYTES];
static uint64_t seals[16]; /* one range that seals nothing, where the header takes ranges */
static uint8_t *memory;
static size_t memory_len, size, seal_numbers = 2;
static uint64_t elen = 32, group = 1;

static double now(void) {
    struct timespec t;
    clock_gettime(CLOCK_PROCESS_CPUTIME_ID, &t);
    return (double)t.tv_sec * 1e9 + (double)t.tv_nsec;
}

static unsigned long left(void) {
    unsigned long h = 5381;
    for (size_t i = 0; i < memory_len; i++)
        h = h * 33 + memory[i];
    for (size_t i = 0; i < size; i++)
        h = h * 33 + (marks[i] ? registers[i] : 0);
    for (size_t i = 0; i < sizeof vectors; i++)
        h = h * 33 + vectors[i];
    return h;
}

/* a machine just started, and a memory of so many bytes */
static int fresh(uint64_t rlen, uint64_t mlen, size_t bytes) {
    free(memory);
    memory = malloc(memory_len = bytes);
    if (memory == NULL)
        return 0;
    size = 2 * mlen;
    for (size_t i = 0; i < bytes; i++)
        memory[i] = (uint8_t)((uint32_t)i * 2654435761u >> 13);
    for (size_t i = 0; i < size; i++)
        registers[i] = (uint8_t)((uint32_t)i * 40503u >> 5);
    for (size_t i = 0; i < sizeof vectors; i++)
        vectors[i] = (uint8_t)((uint32_t)i * 97u);
    memset(scalars, 0, sizeof scalars);
    return (START & 0xffff) == 0;
}

/* one word again and again, all registers written and all sizes at their maxima, but for rows that no vector register holds */
static void step(const char *title, uint64_t rlen, uint64_t mlen, uint64_t mtype, uint32_t word) {
    size_t width = (size_t)1 << mtype % 8, rows = mlen / rlen, columns = rlen / 8 / width;
    if (group > 1 && columns > 16 / width)
        columns = 16 / width;
    uint64_t numbers[4] = {mtype, rows, rows < columns ? rows : columns, columns}, x[2] = {8, rlen / 2 + 8};
    double best = 1e30;
    if (!fresh(rlen, mlen, 65536)) {
        printf("%s\t-1\t0\n", title);
        return;
    }
    memset(marks, 1, size);
    memcpy(machine + 16, numbers, sizeof numbers);
    memcpy(scalars + 8, x, sizeof x);
    if ((STEP & 0xffff) != 0) {
        printf("%s\t-1\t0\n", title);
        return;
    }
    for (int round = 0; round < 5; round++) {
        double t = now();
        for (int i = 0; i < 4000; i++)
            STEP;
        t = (now() - t) / 4000;
        if (t < best)
            best = t;
    }
    printf("%s\t%.3f\t%lu\n", title, best, left());
}

/* a product of s in each size, by all turns in one call or by one turn a call */
static void product(const char *title, uint64_t rlen, uint64_t mlen, uint64_t kind, uint64_t sew, uint64_t factor, uint64_t s, int single) {
    uint64_t w = sew / 8, m = s, k = s, n = s, a = 0, b = s * s * w, c = 2 * s * s * w, turns = UINT64_MAX, done = 0;
    int64_t as = (int64_t)(s * w), bs = as, cs = (int64_t)(s * w * factor);
    double best = 1e30;
    for (int round = 0; round < 4; round++) {
        if (!fresh(rlen, mlen, 2 * s * s * w + s * s * w * factor) || (RUN_START & 0xffff) != 0) {
            printf("%s\t-1\t0\n", title);
            return;
        }
        double t = now();
        if (single)
            for (done = 0; RUN_TURN == 0;)
                done++;
        else
            done = RUN_TURNS;
        t = now() - t;
        if (t < best)
            best = t;
    }
    printf("%s\t%.4f\t%lu\n", title, best / (single ? (double)done : (double)(m * k * n)), left());
}

#define MULTIPLY(code) ((uint32_t)(code) << 26 | 1u << 20 | 6u << 12 | 119)
#define TRANSFER(code) ((uint32_t)(code) << 25 | 2u << 20 | 1u << 15 | 119)
#define MOVE_OUT(code) ((uint32_t)(code) << 26 | 5u << 12 | 8u << 7 | 119)
#define MOVE_IN(code) ((uint32_t)(code) << 26 | 1u << 25 | 8u << 15 | 5u << 12 | 119)

int main(void) {
    static const struct {
        const char *name;
        uint64_t rlen, mlen;
    } on[2] = {{"small", 64, 128}, {"large", 512, 4096}};
    static const struct {
        const char *name;
        uint64_t mtype;
        uint32_t word;
    } words[] = {
        {"msettypei", 0, 0x00007077u},
        {"msettilem", 0, 0x3000f077u},
        {"load A", 0, TRANSFER(2)},
        {"store C", 0, TRANSFER(1)},
        {"load A transposed", 0, TRANSFER(10)},
        {"mma 8", 0, MULTIPLY(0)},
        {"mqma 8 to 32", 8, MULTIPLY(2)},
        {"mma 16", 1, MULTIPLY(0)},
        {"mma 32", 2, MULTIPLY(0)},
        {"mfma 32", 2, MULTIPLY(0) | 1u << 25},
        {"maddc 8", 0, 4u << 26 | 6u << 12 | 119},
        {"memulc.mi 8", 0, 16u << 26 | 1u << 20 | 6u << 12 | 119},
    };
    for (int i = 0; i < 2; i++)
        for (size_t j = 0; j < sizeof words / sizeof words[0]; j++) {
            char title[80];
            snprintf(title, sizeof title, "%s, %s, ns", words[j].name, on[i].name);
            step(title, on[i].rlen, on[i].mlen, words[j].mtype, words[j].word);
        }
    /* a store beside eight sealed ranges: behind its rows, and between its first two; a tree without several ranges refuses it */
    for (int i = 0; i < 4; i++) {
        uint64_t rlen = on[i / 2].rlen, mlen = on[i / 2].mlen;
        char title[80];
        snprintf(title, sizeof title, "store C, 8 ranges %s, %s, ns", i % 2 ? "between rows" : "behind", on[i / 2].name);
#ifdef BODLARINA_SEALS_MOST
        for (int j = 0; j < 8; j++) {
            seals[2 * j] = i % 2 ? 8 + rlen / 8 + (uint64_t)j : 40000 + 100 * (uint64_t)j;
            seals[2 * j + 1] = i % 2 ? 1 : 50;
        }
        seal_numbers = 16;
        step(title, rlen, mlen, 0, TRANSFER(1));
        memset(seals, 0, sizeof seals);
        seal_numbers = 2;
#else
        (void)rlen, (void)mlen;
        printf("%s\t-1\t0\n", title);
#endif
    }
    /* groups of eight lines, on the smallest machine that has so many rows and columns, and on a large one */
    group = 8;
    for (int i = 0; i < 2; i++) {
        uint64_t rlen = i ? 512 : 64, mlen = i ? 4096 : 512;
        const char *of = i ? "large" : "512/64";
        char title[80];
        snprintf(title, sizeof title, "8 rows out, %s, ns", of);
        step(title, rlen, mlen, 0, MOVE_OUT(0));
        snprintf(title, sizeof title, "8 rows in, %s, ns", of);
        step(title, rlen, mlen, 0, MOVE_IN(0));
        snprintf(title, sizeof title, "8 columns out, %s, ns", of);
        step(title, rlen, mlen, 0, MOVE_OUT(4));
        snprintf(title, sizeof title, "8 columns in, %s, ns", of);
        step(title, rlen, mlen, 0, MOVE_IN(4));
    }
    group = 1;
    product("turns 8 to 32, 64 cubed, small, ns a MAC", 64, 128, 0, 8, 4, 64, 0);
    product("turns 16 to 16, 64 cubed, small, ns a MAC", 64, 128, 0, 16, 1, 64, 0);
    product("one turn a call, 32 cubed, small, ns a turn", 64, 128, 0, 8, 4, 32, 1);
    product("8 to 32, 256 cubed, large, ns a MAC", 512, 4096, 0, 8, 4, 256, 0);
    product("8 to 8, 256 cubed, large, ns a MAC", 512, 4096, 0, 8, 1, 256, 0);
    product("16 to 16, 256 cubed, large, ns a MAC", 512, 4096, 0, 16, 1, 256, 0);
    product("16 to 32, 256 cubed, large, ns a MAC", 512, 4096, 0, 16, 2, 256, 0);
    product("32 to 32, 256 cubed, large, ns a MAC", 512, 4096, 0, 32, 1, 256, 0);
    product("float, 128 cubed, large, ns a MAC", 512, 4096, 2, 32, 1, 128, 0);
    product("8 to 32, 256 cubed, 65536/512, ns a MAC", 512, 65536, 0, 8, 4, 256, 0);
    product("32 to 32, 256 cubed, 65536/4096, ns a MAC", 4096, 65536, 0, 32, 1, 256, 0);
    elen = 64;
    product("16 to 64, 256 cubed, large, ns a MAC", 512, 4096, 0, 16, 4, 256, 0);
    product("32 to 64, 256 cubed, large, ns a MAC", 512, 4096, 0, 32, 2, 256, 0);
    product("64 to 64, 256 cubed, large, ns a MAC", 512, 4096, 0, 64, 1, 256, 0);
    product("64 to 64, 256 cubed, 65536/512, ns a MAC", 512, 65536, 0, 64, 1, 256, 0);
    product("64 to 64, 256 cubed, 65536/4096, ns a MAC", 4096, 65536, 0, 64, 1, 256, 0);
    return 0;
}
