/* What the headers say beside the words: the version, the texts, the number of a run's steps, that slot 0 of the scalars is not
 * written, float runs, images, larger machines, moves, sealed ranges, salvage, lines of assembler text, and how much stack a call uses. Writes a
 * line for each, and ends with 'N passed, M failed'. */
#define _GNU_SOURCE
#include <inttypes.h>
#include <pthread.h>
#include <stdio.h>
#include <string.h>
#include <sys/mman.h>
#include <unistd.h>

#include "bodlarina_words.h"

enum { RLEN = 512, MLEN = 4096, MEMORY_BYTES = 1 << 20, STACK_BYTES = 1 << 20, MOST_STACK = 8192 };

static uint8_t machine[BODLARINA_MACHINE_BYTES], registers[BODLARINA_REGISTER_BYTES(MLEN)], marks[sizeof registers];
static uint8_t scalars[BODLARINA_SCALAR_BYTES], memory[MEMORY_BYTES], run[BODLARINA_RUN_BYTES];
static struct bodlarina_bench bench = {
    machine, sizeof machine, registers, sizeof registers, marks, sizeof marks,
    scalars, sizeof scalars, memory, sizeof memory, run, sizeof run, BODLARINA_SMALLER, 32, NULL, 0, 0,
};
static const uint64_t no_seals[1]; /* lent with a length of 0 */
static int passed, failed;

static void check(int right, const char *text)
{
    printf("%s: %s\n", right ? "passed" : "FAILED", text);
    *(right ? &passed : &failed) += 1;
}

static void version(void)
{
    char text[32];
    unsigned n = BODLARINA_VERSION_NUMBER;
    snprintf(text, sizeof text, "%u.%u.%u", n / 10000, n / 100 % 100, n % 100);
    check(strcmp(text, BODLARINA_VERSION) == 0, "the header's version, as text and as number");
    check(bodlarina_version() == n, "the library's version is the header's");
}

/* Every answer that the header names has a text of its own, and others have none. */
static void texts(void)
{
    const char *unknown = bodlarina_answer_text(0xffff);
    int right = 1;
    for (unsigned i = 0; i <= BODLARINA_BAD_LINE + 1; i++) {
        int named = i <= BODLARINA_BAD_LINE;
        right = right && (bodlarina_answer_text(i) != unknown) == named;
        for (unsigned j = 0; named && j < i; j++)
            right = right && strcmp(bodlarina_answer_text(i), bodlarina_answer_text(j)) != 0;
    }
    right = right && strcmp(bodlarina_answer_text(14), "the image or the line does not fit the room") == 0;
    right = right && strcmp(bodlarina_answer_text(15 | 70 << 16), "this is no image, or it is cut short") == 0;
    right = right && strcmp(bodlarina_answer_text(16), "a machine has at most eight sealed ranges") == 0;
    check(right, "a text for each answer");
}

static uint64_t blocks(uint64_t size, uint64_t most) { return (size + most - 1) / most; }

/* The number of steps is the formula's and that of the turns answered 0, and the same at every place of the run. */
static int steps_right(uint64_t sew, uint64_t factor, uint64_t m, uint64_t k, uint64_t n)
{
    struct bodlarina_plan plan = {sew, factor, m, k, n, {0, 400}, {150000, 400}, {300000, 400}, BODLARINA_PRODUCT};
    uint64_t rows = MLEN / RLEN, columns = RLEN / sew, terms = rows < columns ? rows : columns, turns = 0, whole = 0;
    uint64_t all = 1 + blocks(m, rows) * (1 + blocks(n, columns) * (3 + 4 * blocks(k, terms)));
    int right = bodlarina_bench_run_start(&bench, &plan) == 0;
    while (right && !bodlarina_bench_run_is_over(&bench)) {
        right = bodlarina_bench_run_steps(&bench) == all && bodlarina_bench_run_turn(&bench) == 0;
        turns++;
    }
    right = right && turns == all && bodlarina_bench_run_steps(&bench) == all;
    right = right && BODLARINA_ANSWER(bodlarina_bench_run_turn(&bench)) == BODLARINA_BAD_ARGUMENTS;
    return right && bodlarina_bench_run(&bench, &plan, &whole) == 0 && whole == all;
}

static void steps(void)
{
    static const uint64_t sizes[] = {0, 1, 7, 8, 9, 64, 65, 100};
    int right = 1;
    for (bench.rule = BODLARINA_SMALLER; bench.rule <= BODLARINA_HALVING; bench.rule++) {
        right = right && bodlarina_bench_start(&bench, RLEN, MLEN, 0, 0) == 0;
        for (unsigned i = 0; i < 8; i++)
            for (unsigned j = 0; j < 8; j++) {
                right = right && steps_right(8, 4, sizes[i], sizes[j], sizes[(i + j) % 8]);
                right = right && steps_right(32, 1, sizes[j], sizes[(i + 3) % 8], sizes[i]);
            }
    }
    bench.rule = BODLARINA_SMALLER;
    check(right, "the number of a run's steps, by either rule");
    right = bodlarina_run_steps(run, sizeof run - 1) == 0 && !bodlarina_run_is_over(run, sizeof run - 1);
    bodlarina_put64(run, 9); /* no such SEW */
    right = right && bodlarina_bench_run_steps(&bench) == 0 && !bodlarina_bench_run_is_over(&bench);
    check(right && bodlarina_bench_run_turns(&bench, 5) == 0, "a refused run block has no steps and is not over");
}

/* The size that is given of each that is asked, up to past twice the maximum. */
static int sizes_right(void)
{
    unsigned most = MLEN / RLEN;
    int right = bodlarina_bench_start(&bench, RLEN, MLEN, 0, 0) == 0;
    for (unsigned asked = 0; asked < 2 * most + 3; asked++) {
        unsigned smaller = asked < most ? asked : most;
        unsigned given = bench.rule == BODLARINA_HALVING && most < asked && asked < 2 * most ? (asked + 1) / 2 : smaller;
        right = right && bodlarina_bench_step(&bench, bodlarina_msettilemi(3, asked)) == 0 && bodlarina_bench_scalar(&bench, 3) == given;
    }
    return right;
}

static void rules(void)
{
    int right = 1;
    for (bench.rule = BODLARINA_SMALLER; bench.rule <= BODLARINA_HALVING; bench.rule++)
        right = right && sizes_right();
    check(right, "the sizes that each rule gives");
    right = bodlarina_bench_start(&bench, RLEN, MLEN, 0, 0) == BODLARINA_BAD_ARGUMENTS;
    bodlarina_put64(machine + BODLARINA_MACHINE_RULE_AT, 2);
    right = right && bodlarina_bench_step(&bench, bodlarina_msettypei(0, BODLARINA_E8)) == BODLARINA_BAD_ARGUMENTS;
    right = right && bodlarina_bench_image_size(&bench) == BODLARINA_BAD_ARGUMENTS;
    check(right, "an unknown rule: 8");
    bench.rule = BODLARINA_SMALLER;
}

/* Slot 0 lies at the end of a page that cannot be written, the other slots on the next page. */
static void slot0(void)
{
    size_t page = (size_t)sysconf(_SC_PAGESIZE);
    uint8_t *pages = mmap(NULL, 2 * page, PROT_READ | PROT_WRITE, MAP_PRIVATE | MAP_ANONYMOUS, -1, 0);
    struct bodlarina_bench other = bench;
    other.scalars = pages + page - 8;
    memset(pages, 0x5a, page);
    int right = mprotect(pages, page, PROT_READ) == 0 && bodlarina_bench_start(&other, RLEN, MLEN, 0, 0) == 0;
    right = right && bodlarina_bench_step(&other, bodlarina_msettypei(0, BODLARINA_E8)) == 0;
    right = right && bodlarina_bench_step(&other, bodlarina_msettilem(0, 0)) == 0;
    right = right && bodlarina_bench_step(&other, bodlarina_msettilem(3, 0)) == 0;
    right = right && bodlarina_bench_step(&other, bodlarina_mlae8_m(0, 3, 0)) == 0;
    right = right && bodlarina_bench_step(&other, 0) != 0;
    check(right && bodlarina_bench_scalar(&other, 3) == MLEN / RLEN, "slot 0 of the scalars is not written");
    munmap(pages, 2 * page);
}

/* ---- float runs ---- */

enum { FLOATS_M = 21, FLOATS_K = 35, FLOATS_N = 19, FLOATS_A = 0, FLOATS_B = 8192, FLOATS_C = 16384 };

static struct bodlarina_plan float_plan = {
    32, 1, FLOATS_M, FLOATS_K, FLOATS_N,
    {FLOATS_A, 4 * FLOATS_K}, {FLOATS_B, 4 * FLOATS_N}, {FLOATS_C, 4 * FLOATS_N}, BODLARINA_FLOAT,
};

static float float_at(size_t address, size_t element)
{
    float value;
    memcpy(&value, memory + address + 4 * element, sizeof value);
    return value;
}

/* The bits of the plain sum from +0 in rising order; volatile, so that each product and each sum is rounded by itself. */
static uint32_t plain_sum(size_t i, size_t j)
{
    volatile float sum = 0, product;
    float result;
    uint32_t bits;
    for (size_t k = 0; k < FLOATS_K; k++) {
        product = float_at(FLOATS_A, i * FLOATS_K + k) * float_at(FLOATS_B, k * FLOATS_N + j);
        sum = sum + product;
    }
    result = sum;
    memcpy(&bits, &result, sizeof bits);
    return result != result ? 0x7fc00000u : bits;
}

/* Elements of any bits with exponents in a range of `range` from `least` on: narrow ones that round at each step, small ones whose
 * products are subnormal, or all, with infinities and what is not a number. */
static int floats_right(const struct bodlarina_bench *on, uint32_t least, uint32_t range)
{
    uint64_t state = 0x9e3779b97f4a7c15u, steps;
    uint32_t bits;
    for (size_t at = 0; at < FLOATS_C; at += 4) {
        state = state * 6364136223846793005u + 1442695040888963407u;
        bits = (uint32_t)(state >> 32) & 0x807fffffu;
        bits |= (least + (uint32_t)(state >> 8 & 0xffff) % range) << 23;
        memcpy(memory + at, &bits, sizeof bits);
    }
    int right = bodlarina_bench_run(on, &float_plan, &steps) == 0;
    for (size_t i = 0; i < FLOATS_M; i++)
        for (size_t j = 0; j < FLOATS_N; j++) {
            memcpy(&bits, memory + FLOATS_C + 4 * (i * FLOATS_N + j), sizeof bits);
            right = right && bits == plain_sum(i, j);
        }
    return right;
}

static int float_start(uint64_t kind, uint64_t sew, uint64_t factor)
{
    struct bodlarina_plan plan = float_plan;
    plan.kind = kind;
    plan.sew = sew;
    plan.factor = factor;
    return BODLARINA_ANSWER(bodlarina_bench_run_start(&bench, &plan)) == BODLARINA_BAD_ARGUMENTS;
}

static void floats(void)
{
    int right = bodlarina_bench_start(&bench, RLEN, MLEN, 0, 0) == 0 && floats_right(&bench, 125, 4);
    check(right && floats_right(&bench, 56, 10) && floats_right(&bench, 0, 256), "a float run is the plain sum, bit for bit");
    check(float_start(BODLARINA_FLOAT, 16, 1) && float_start(BODLARINA_FLOAT, 16, 2) && float_start(BODLARINA_FLOAT, 8, 4)
          && float_start(3, 32, 1) && !float_start(BODLARINA_FLOAT, 32, 1), "a float run has SEW 32 and factor 1; there is no kind 3");
}

/* ---- images of a machine of RLEN 64 and MLEN 128 ---- */

enum { SMALL = 128, SMALL_BYTES = BODLARINA_REGISTER_BYTES(SMALL) };

/* mtype e16; sizes 2, 2 and 3; 300 bytes sealed from 5 on (300 is 44 + 128, then 2); tr0 has two bytes from 1 on, acc1 its last byte,
 * 255, behind a gap of 252 (124 + 128, then 1). */
static const uint8_t image[] = {1, 6, 7, 1, 2, 2, 3, 5, 172, 2, 2, 1, 2, 11, 0, 252, 1, 1, 255};
static uint8_t small_machine[BODLARINA_MACHINE_BYTES], small_registers[SMALL_BYTES], small_marks[SMALL_BYTES];
static struct bodlarina_bench small = {
    small_machine, sizeof small_machine, small_registers, SMALL_BYTES, small_marks, SMALL_BYTES,
    scalars, sizeof scalars, memory, sizeof memory, run, sizeof run, BODLARINA_SMALLER, 32, NULL, 0, 0,
};

/* Everything that a read may write, filled with 7. */
static void fill(void)
{
    memset(small_machine, 7, sizeof small_machine);
    memset(small_registers, 7, sizeof small_registers);
    memset(small_marks, 7, sizeof small_marks);
}

static int all(const uint8_t *bytes, size_t from, size_t to, uint8_t value)
{
    while (from < to && bytes[from] == value)
        from++;
    return from >= to;
}

static int untouched(void)
{
    return all(small_machine, 0, sizeof small_machine, 7) && all(small_registers, 0, SMALL_BYTES, 7) && all(small_marks, 0, SMALL_BYTES, 7);
}

static void image_read(void)
{
    static const uint64_t numbers[] = {64, 128, 1, 2, 2, 3, 5, 300, 0, 32};
    fill();
    int right = bodlarina_image_mlen(image, sizeof image) == SMALL && bodlarina_bench_image_read(&small, image, sizeof image) == 0;
    for (size_t i = 0; i < 10; i++)
        right = right && bodlarina_get64(small_machine + 8 * i) == numbers[i];
    check(right, "an image is read: the machine's numbers");
    right = small_registers[1] == 11 && small_registers[2] == 0 && small_registers[255] == 255;
    right = right && small_registers[0] == 7 && all(small_registers, 3, 255, 7);
    right = right && small_marks[0] == 0 && all(small_marks, 1, 3, 1) && all(small_marks, 3, 255, 0) && small_marks[255] == 1;
    check(right, "an image is read: marks and marked bytes, the other register bytes stay");
}

/* A byte of the image changed, or its end cut off: refused with 15 and this place. */
static int damaged(size_t length, size_t at, uint8_t value, uint64_t place)
{
    uint8_t bytes[sizeof image];
    memcpy(bytes, image, sizeof image);
    bytes[at] = value;
    fill();
    return bodlarina_bench_image_read(&small, bytes, length) == (place << 16 | BODLARINA_DAMAGED) && untouched();
}

static void image_damaged(void)
{
    size_t whole = sizeof image;
    int right = 1;
    for (size_t length = 0; length < whole; length++)
        right = right && damaged(length, 0, 1, length);
    check(right, "an image that is cut short: 15 and its length");
    right = damaged(whole, 0, 0, 0) && damaged(whole, 0, 5, 0) && damaged(whole, 0, 129, 0); /* version */
    right = right && damaged(whole, 0, 2, 1) && damaged(whole, 0, 3, 1) && damaged(whole, 0, 4, 1); /* no rule after version 2, 3 or 4 */
    right = right && damaged(whole, 1, 5, 1) && damaged(whole, 1, 10, 1);                   /* RLEN */
    right = right && damaged(whole, 2, 6, 2) && damaged(whole, 2, 13, 2);                   /* MLEN */
    right = right && damaged(whole, 3, 3, 3) && damaged(whole, 4, 3, 4);                    /* mtype, tile_m */
    right = right && damaged(whole, 9, 0, 9);                                               /* not the shortest form */
    right = right && damaged(whole, 10, 1, 15);                                             /* a run too many */
    right = right && damaged(whole, 12, 0, 12) && damaged(whole, 15, 0, 15);                /* no length, no gap */
    right = right && damaged(whole, 15, 253, 15) && damaged(whole, 16, 2, 16);              /* a gap past the registers */
    right = right && damaged(whole, 17, 2, 17);                                             /* a length past the registers */
    check(right, "a damaged image: 15 and the place, and nothing changes");
}

static void image_sizes(void)
{
    struct bodlarina_bench other = small;
    int right = 1;
    fill();
    other.registers_len--;
    right = right && bodlarina_bench_image_read(&other, image, sizeof image) == BODLARINA_BAD_ARGUMENTS && untouched();
    right = right && bodlarina_bench_image_read(&other, image, 3) == (3u << 16 | BODLARINA_DAMAGED) && untouched();
    other = small;
    other.machine_len--;
    right = right && bodlarina_bench_image_read(&other, image, sizeof image) == BODLARINA_BAD_ARGUMENTS && untouched();
    check(right, "an image for buffers of another size: 15 first, then 8");
}

static void image_written(void)
{
    uint8_t room[sizeof image + 3];
    memset(room, 9, sizeof room);
    int right = bodlarina_bench_image_read(&small, image, sizeof image) == 0;
    right = right && bodlarina_bench_image_size(&small) == (uint64_t)sizeof image << 16;
    right = right && bodlarina_bench_image_write(&small, room, sizeof image - 1) == BODLARINA_NO_ROOM && all(room, 0, sizeof room, 9);
    right = right && bodlarina_bench_image_write(&small, room, sizeof room) == (uint64_t)sizeof image << 16;
    check(right && memcmp(room, image, sizeof image) == 0 && all(room, sizeof image, sizeof room, 9), "an image is written as it was read");
    small_registers[3] ^= 255;
    memset(room, 9, sizeof room);
    right = bodlarina_bench_image_write(&small, room, sizeof image) == (uint64_t)sizeof image << 16;
    check(right && memcmp(room, image, sizeof image) == 0, "an unmarked byte is not in the image");
    small_marks[3] = 2;
    memset(room, 9, sizeof room);
    right = bodlarina_bench_image_size(&small) == BODLARINA_BAD_ARGUMENTS;
    right = right && bodlarina_bench_image_write(&small, room, 0) == BODLARINA_BAD_ARGUMENTS && all(room, 0, sizeof room, 9);
    check(right, "a machine at fault has no image: 8, also where there is no room");
}

/* Of a halving machine the image has version 2 and the rule, then what the other has behind version 1. */
static void image_halving(void)
{
    uint8_t halving[sizeof image + 1] = {2}, room[sizeof halving];
    memcpy(halving + 1, image, sizeof image);
    int right = bodlarina_image_mlen(halving, sizeof halving) == SMALL && bodlarina_bench_image_read(&small, halving, sizeof halving) == 0;
    right = right && bodlarina_get64(small_machine + BODLARINA_MACHINE_RULE_AT) == BODLARINA_HALVING;
    right = right && bodlarina_bench_image_write(&small, room, sizeof room) == (uint64_t)sizeof room << 16;
    check(right && memcmp(room, halving, sizeof halving) == 0, "the image of a halving machine is read and written");
}

static void images(void)
{
    image_read();
    image_damaged();
    image_sizes();
    image_written();
    image_halving();
}

/* ---- larger machines ---- */

/* Room for a machine of twice the largest MLEN, so that the start of one is refused for its length alone. */
static uint8_t large_machine[BODLARINA_MACHINE_BYTES], large_registers[BODLARINA_REGISTER_BYTES(2 * BODLARINA_MLEN_MOST)];
static uint8_t large_marks[sizeof large_registers];
static struct bodlarina_bench large = {
    large_machine, sizeof large_machine, large_registers, 0, large_marks, 0,
    scalars, sizeof scalars, memory, sizeof memory, run, sizeof run, BODLARINA_SMALLER, 64, NULL, 0, 0,
};

/* The result of a start without a sealed range, on buffers of the size that MLEN demands. */
static uint64_t large_start(uint64_t rlen, uint64_t mlen, uint64_t elen)
{
    large.registers_len = large.marks_len = BODLARINA_REGISTER_BYTES(mlen);
    return bodlarina_start(rlen, mlen, elen, large.rule, no_seals, 0, large_machine, sizeof large_machine, large_registers, large.registers_len,
                           large_marks, large.marks_len);
}

static int refused_start(uint64_t rlen, uint64_t mlen, uint64_t elen)
{
    memset(large_machine, 7, sizeof large_machine);
    memset(large_marks, 7, BODLARINA_REGISTER_BYTES(mlen));
    return large_start(rlen, mlen, elen) == BODLARINA_BAD_ARGUMENTS && all(large_machine, 0, sizeof large_machine, 7)
           && all(large_marks, 0, large.marks_len, 7);
}

static int accepted_start(uint64_t rlen, uint64_t mlen, uint64_t elen)
{
    return large_start(rlen, mlen, elen) == 0 && all(large_marks, 0, large.marks_len, 0)
           && bodlarina_get64(large_machine + BODLARINA_MACHINE_RLEN_AT) == rlen
           && bodlarina_get64(large_machine + BODLARINA_MACHINE_MLEN_AT) == mlen
           && bodlarina_get64(large_machine + BODLARINA_MACHINE_ELEN_AT) == elen;
}

/* In the struct an ELEN of 0 is 32; another one is as it stands. */
static int struct_elen(uint64_t elen, uint64_t result, uint64_t started)
{
    large.elen = elen;
    int right = bodlarina_bench_start(&large, 128, 256, 0, 0) == result;
    large.elen = 64;
    return right && bodlarina_get64(large_machine + BODLARINA_MACHINE_ELEN_AT) == started;
}

static void starts(void)
{
    static const uint64_t elens[] = {0, 8, 16, 31, 32, 33, 48, 63, 64, 65, 128, UINT64_MAX};
    int right = BODLARINA_RLEN_MOST == 4096 && BODLARINA_MLEN_MOST == 65536 && BODLARINA_ELEN_MOST == 64;
    for (uint64_t rlen = 32; rlen <= 8192; rlen *= 2)
        for (uint64_t mlen = 64; mlen <= 131072; mlen *= 2)
            for (size_t i = 0; i < sizeof elens / sizeof elens[0]; i++) {
                int lengths = rlen >= 64 && rlen <= 4096 && mlen >= 128 && mlen <= 65536 && rlen < mlen;
                int permitted = lengths && (elens[i] == 32 || elens[i] == 64) && elens[i] < rlen;
                right = right && (permitted ? accepted_start : refused_start)(rlen, mlen, elens[i]);
            }
    check(right && refused_start(96, 256, 32) && refused_start(128, 384, 32), "the lengths and the ELEN that a start takes");
    check(refused_start(64, 128, 64) && accepted_start(128, 256, 64), "ELEN 64 is refused at RLEN 64, and taken at 128");
    check(struct_elen(0, 0, 32) && struct_elen(64, 0, 64) && struct_elen(48, BODLARINA_BAD_ARGUMENTS, 64) && struct_elen(32, 0, 32),
          "in the struct an ELEN of 0 is 32");
}

static int does(uint32_t word) { return bodlarina_bench_step(&large, word) == 0; }
static int gets(uint32_t word, uint64_t answer) { return bodlarina_bench_step(&large, word) == answer; }

static int are_numbers(const uint8_t *block, const uint64_t *numbers, size_t count)
{
    int right = 1;
    for (size_t i = 0; i < count; i++)
        right = right && bodlarina_get64(block + 8 * i) == numbers[i];
    return right;
}

/* Each number of the blocks at its byte. */
static void block_numbers(void)
{
    static const uint64_t of_machine[25] = {128, 256, 9, 2, 1, 2, 1000, 24, BODLARINA_HALVING, 64, 1};
    static const uint64_t of_run[] = {
        16, 4, 3, 5, 7, 8, 10, 200, 14, 400, 56, 128, 256, 0, 0, 0, 0, BODLARINA_A_TRANSPOSED, BODLARINA_HALVING, 64,
    };
    static const struct bodlarina_plan plan = {16, 4, 3, 5, 7, {8, 10}, {200, 14}, {400, 56}, BODLARINA_A_TRANSPOSED};
    large.rule = BODLARINA_HALVING;
    int right = bodlarina_bench_start(&large, 128, 256, 1000, 24) == 0 && does(bodlarina_msettypei(0, BODLARINA_E16 | BODLARINA_MACCQ));
    large.rule = BODLARINA_SMALLER;
    right = right && does(bodlarina_msettilemi(0, 2)) && does(bodlarina_msettileki(0, 1)) && does(bodlarina_msettileni(0, 2));
    right = right && BODLARINA_MACHINE_BYTES == 200 && BODLARINA_MACHINE_ELEN_AT == 72 && are_numbers(large_machine, of_machine, 25);
    check(right, "the twenty-five numbers of a machine's block");
    right = BODLARINA_RUN_BYTES == 160 && bodlarina_bench_run_start(&large, &plan) == 0 && are_numbers(run, of_run, 20);
    check(right, "the twenty numbers of a run's block");
}

/* An ELEN that the other numbers of a block, or no numbers, go with. */
static void block_faults(void)
{
    int right = 1;
    for (uint64_t elen = 0; elen <= 128; elen += 16) {
        bodlarina_put64(run + BODLARINA_RUN_BYTES - 8, elen); /* four times 16 bits need 64 */
        right = right && (bodlarina_bench_run_steps(&large) != 0) == (elen == 64);
        right = right && (elen == 64 || bodlarina_bench_run_turn(&large) == BODLARINA_BAD_ARGUMENTS);
        bodlarina_put64(large_machine + BODLARINA_MACHINE_ELEN_AT, elen); /* mtype 9 arises with 64 alone */
        right = right && (bodlarina_bench_image_size(&large) == BODLARINA_BAD_ARGUMENTS) == (elen != 64);
        right = right && (elen == 64 || gets(bodlarina_msettypei(0, BODLARINA_E8), BODLARINA_BAD_ARGUMENTS));
    }
    check(right, "a block with another ELEN: 8");
}

/* A run that was started with ELEN 64, on a machine with 32: mtype becomes illegal, and the next word gets 2. */
static void other_elen(void)
{
    static const struct bodlarina_plan plan = {64, 1, 2, 2, 2, {0, 16}, {32, 16}, {64, 16}, BODLARINA_PRODUCT};
    int right = large_start(128, 256, 64) == 0 && bodlarina_bench_run_start(&large, &plan) == 0 && large_start(128, 256, 32) == 0;
    right = right && bodlarina_bench_run_turn(&large) == 0 && bodlarina_bench_run_turn(&large) == BODLARINA_ILLEGAL_TYPE;
    right = right && large_start(128, 256, 32) == 0 && bodlarina_bench_run_start(&large, &plan) == BODLARINA_BAD_ARGUMENTS;
    check(right, "a run with SEW 64 on a machine with ELEN 32");
}

/* ---- words on elements of 64 bits, on the smallest machine that has them: two rows of 128 bits ---- */

enum { WIDE_A = 0, WIDE_B = 64, WIDE_C = 128 };

/* mtype, all sizes 2, and in x10 to x13 the addresses of A, B and C and a stride. */
static int wide_start(uint64_t elen, uint32_t mtype, uint64_t stride)
{
    static const uint64_t addresses[] = {WIDE_A, WIDE_B, WIDE_C};
    for (unsigned i = 0; i < 3; i++)
        bodlarina_bench_set_scalar(&large, 10 + i, addresses[i]);
    bodlarina_bench_set_scalar(&large, 13, stride);
    return large_start(128, 256, elen) == 0 && does(bodlarina_msettypei(5, mtype)) && does(bodlarina_msettilemi(0, 2))
           && does(bodlarina_msettileki(0, 2)) && does(bodlarina_msettileni(0, 2));
}

/* Four numbers of `bytes` bytes in memory, low byte first. */
static void put_four(size_t address, size_t bytes, const int64_t numbers[4])
{
    for (size_t i = 0; i < 4 * bytes; i++)
        memory[address + i] = (uint8_t)((uint64_t)numbers[i / bytes] >> (8 * (i % bytes)) & 0xff);
}

/* The four numbers of 64 bits at C, times `factor`, modulo 2^64. */
static int is_c(uint64_t factor, int64_t first, int64_t second, int64_t third, int64_t fourth)
{
    const uint64_t numbers[] = {factor * (uint64_t)first, factor * (uint64_t)second, factor * (uint64_t)third, factor * (uint64_t)fourth};
    return are_numbers(memory + WIDE_C, numbers, 4);
}

/* (2^63 - 1) * 2 + 3 * 1 is 2^64 + 1; -(2^63 - 1) + 3 * 4 * 10^9; -5 * 2 + 1000000007; 5 + 1000000007 * 4 * 10^9. */
#define WIDE_SUMS 1, -9223372024854775807, 999999997, 4000000028000000005
#define WIDE_SUMS_TRANSPOSED 1, 999999997, -9223372024854775807, 4000000028000000005

static void wide_words(void)
{
    static const int64_t a[] = {INT64_MAX, 3, -5, 1000000007}, b[] = {2, -1, 1, 4000000000};
    put_four(WIDE_A, 8, a);
    put_four(WIDE_B, 8, b);
    int right = wide_start(64, BODLARINA_E64, 16) && bodlarina_bench_scalar(&large, 5) == BODLARINA_E64;
    right = right && does(bodlarina_mlae64_m(0, 10, 13)) && does(bodlarina_mlbe64_m(1, 11, 13)) && does(bodlarina_memulc_mi(0, 0, 0));
    right = right && does(bodlarina_mma_mm(0, 0, 1)) && does(bodlarina_msce64_m(0, 12, 13)) && is_c(1, WIDE_SUMS);
    check(right, "a product step on elements of 64 bits");
    right = does(bodlarina_mscte64_m(0, 12, 13)) && is_c(1, WIDE_SUMS_TRANSPOSED);
    right = right && does(bodlarina_mlcte64_m(1, 12, 13)) && does(bodlarina_msce64_m(1, 12, 13)) && is_c(1, WIDE_SUMS);
    check(right, "elements of 64 bits transposed");
    bodlarina_bench_set_scalar(&large, 14, (uint64_t)-3);
    right = does(bodlarina_memulc_mx(1, 0, 14)) && does(bodlarina_msce64_m(1, 12, 13)) && is_c((uint64_t)-3, WIDE_SUMS);
    right = right && does(bodlarina_maddc_mm(1, 0)) && does(bodlarina_msce64_m(1, 12, 13)) && is_c((uint64_t)-2, WIDE_SUMS);
    right = right && does(bodlarina_msubc_mm(1, 0)) && does(bodlarina_msubc_mm(1, 0)) && does(bodlarina_mrsubc_mm(1, 0));
    right = right && does(bodlarina_msce64_m(1, 12, 13)) && is_c(5, WIDE_SUMS);
    check(right, "element-wise words on elements of 64 bits");
}

/* 32 x 32 bits: 2^62 + 2^62 is 2^63, one more than 64 bits hold; 4 x 16 bits: 2^30 + 2^30 does not fit 32 bits. */
static void wider_sums(void)
{
    static const int64_t a32[] = {INT32_MIN, INT32_MIN, 7, -8}, b32[] = {INT32_MIN, 5, INT32_MIN, 6};
    static const int64_t a16[] = {INT16_MIN, INT16_MIN, 7, -8}, b16[] = {INT16_MIN, 5, INT16_MIN, 6};
    put_four(WIDE_A, 4, a32);
    put_four(WIDE_B, 4, b32);
    int right = wide_start(64, BODLARINA_E32, 8) && does(bodlarina_mlae32_m(0, 10, 13)) && does(bodlarina_mlbe32_m(1, 11, 13));
    bodlarina_bench_set_scalar(&large, 13, 16);
    right = right && does(bodlarina_mwemulc_mi(0, 0, 0)) && does(bodlarina_mwma_mm(0, 0, 1)) && does(bodlarina_msce64_m(0, 12, 13));
    check(right && is_c(1, INT64_MIN, -23622320128, 2147483648, -13), "64-bit sums of products of 32 bits");
    put_four(WIDE_A, 2, a16);
    put_four(WIDE_B, 2, b16);
    right = wide_start(64, BODLARINA_E16 | BODLARINA_MACCQ, 4) && does(bodlarina_mlae16_m(0, 10, 13));
    right = right && does(bodlarina_mlbe16_m(1, 11, 13));
    bodlarina_bench_set_scalar(&large, 13, 16);
    right = right && does(bodlarina_mqemulc_mi(0, 0, 0)) && does(bodlarina_mqma_mm(0, 0, 1)) && does(bodlarina_msce64_m(0, 12, 13));
    check(right && is_c(1, 2147483648, -360448, 32768, -13), "64-bit sums of products of 16 bits");
}

/* Whether mtype becomes the value, or illegal, with this ELEN. */
static int type_right(uint64_t elen, uint32_t mtype, int legal)
{
    int right = large_start(128, 256, elen) == 0 && does(bodlarina_msettypei(5, mtype));
    return right && bodlarina_bench_scalar(&large, 5) == (legal ? mtype : BODLARINA_MILL);
}

static void wide_refusals(void)
{
    int right = 1;
    for (uint32_t mtype = 0; mtype < 32; mtype++) {
        int old = mtype <= BODLARINA_E32 || mtype == (BODLARINA_E8 | BODLARINA_MACCQ);
        right = right && type_right(32, mtype, old);
        right = right && type_right(64, mtype, old || mtype == BODLARINA_E64 || mtype == (BODLARINA_E16 | BODLARINA_MACCQ));
    }
    check(right, "the types that are legal with ELEN 32 and with 64");
    right = wide_start(32, BODLARINA_E32, 16) && gets(bodlarina_mlae64_m(0, 10, 13), BODLARINA_BAD_WIDTH);
    right = right && gets(bodlarina_mlce64_m(0, 12, 13), BODLARINA_BAD_WIDTH) && gets(bodlarina_mwma_mm(0, 0, 1), BODLARINA_BAD_WIDTH);
    right = right && gets(bodlarina_mwemulc_mi(0, 0, 0), BODLARINA_BAD_WIDTH);
    right = right && wide_start(64, BODLARINA_E32, 16) && does(bodlarina_mlce64_m(0, 12, 13)) && does(bodlarina_mwemulc_mi(0, 0, 0));
    right = right && gets(bodlarina_mlae64_m(0, 10, 13), BODLARINA_BAD_WIDTH) && gets(bodlarina_mqma_mm(0, 0, 1), BODLARINA_BAD_WIDTH);
    right = right && wide_start(64, BODLARINA_E64, 16) && does(bodlarina_mlce64_m(0, 12, 13));
    right = right && gets(bodlarina_mfma_mm(0, 0, 1), BODLARINA_BAD_WIDTH) && gets(bodlarina_mwma_mm(0, 0, 1), BODLARINA_BAD_WIDTH);
    right = right && gets(bodlarina_mlce32_m(0, 12, 13), BODLARINA_BAD_WIDTH);
    check(right, "widths that ELEN or mtype does not allow: 3");
}

/* ---- product runs on larger machines ---- */

enum { RUN_M = 37, RUN_K = 150, RUN_N = 70, RUN_STRIDE = 1208, RUN_A = 0, RUN_B = 200000, RUN_C = 400000 };

/* The signed number of some bytes of memory, as a number modulo 2^64. */
static uint64_t element(size_t row_at, size_t column, size_t bytes)
{
    const uint8_t *at = memory + row_at + column * bytes;
    uint64_t value = at[bytes - 1] >= 0x80 ? UINT64_MAX : 0;
    for (size_t i = bytes; i > 0; i--)
        value = value << 8 | at[i - 1];
    return value;
}

/* Whether C is the product of A and B, reduced to its width: they agree in the low bits. */
static int product_right(uint64_t kind, size_t bytes, size_t c_bytes)
{
    int right = 1;
    for (size_t i = 0; i < RUN_M; i++)
        for (size_t j = 0; j < RUN_N; j++) {
            uint64_t sum = 0;
            for (size_t l = 0; l < RUN_K; l++) {
                size_t row = kind == BODLARINA_A_TRANSPOSED ? l : i, column = kind == BODLARINA_A_TRANSPOSED ? i : l;
                sum += element(RUN_A + row * RUN_STRIDE, column, bytes) * element(RUN_B + l * RUN_STRIDE, j, bytes);
            }
            right = right && (sum - element(RUN_C + i * RUN_STRIDE, j, c_bytes)) << (64 - 8 * c_bytes) == 0;
        }
    return right;
}

static int run_right(uint64_t kind, uint64_t sew, uint64_t factor)
{
    const struct bodlarina_plan plan = {
        sew, factor, RUN_M, RUN_K, RUN_N, {RUN_A, RUN_STRIDE}, {RUN_B, RUN_STRIDE}, {RUN_C, RUN_STRIDE}, kind,
    };
    uint64_t rows = large.registers_len / 2 / bodlarina_get64(large_machine), columns = bodlarina_get64(large_machine) / sew, steps = 0;
    uint64_t all_steps = 1 + blocks(RUN_M, rows) * (1 + blocks(RUN_N, columns) * (3 + 4 * blocks(RUN_K, rows < columns ? rows : columns)));
    int right = bodlarina_bench_run(&large, &plan, &steps) == 0 && steps == all_steps;
    return right && product_right(kind, (size_t)sew / 8, (size_t)(sew * factor) / 8);
}

/* Integer runs of each SEW and factor, with A as it is and transposed. */
static int runs_right(uint64_t rlen, uint64_t mlen, uint64_t elen)
{
    uint64_t state = rlen + mlen + elen;
    int right = large_start(rlen, mlen, elen) == 0;
    for (size_t at = 0; at < RUN_C; at++) {
        state = state * 6364136223846793005u + 1442695040888963407u;
        memory[at] = (uint8_t)(state >> 56);
    }
    for (uint64_t sew = 8; sew <= elen; sew *= 2)
        for (uint64_t factor = 1; factor <= 4 && factor * sew <= elen; factor *= 2)
            right = right && run_right(BODLARINA_PRODUCT, sew, factor) && run_right(BODLARINA_A_TRANSPOSED, sew, factor);
    return right;
}

static void large_runs(void)
{
    static const uint64_t lengths[][3] = {
        {128, 256, 64}, {1024, 2048, 32}, {64, 65536, 32}, {512, 65536, 64}, {1024, 65536, 64}, {4096, 65536, 64},
    };
    int right = 1, floats = 1;
    for (size_t i = 0; i < sizeof lengths / sizeof lengths[0]; i++) {
        large.rule = i % 2;
        right = right && runs_right(lengths[i][0], lengths[i][1], lengths[i][2]);
        floats = floats && large_start(lengths[i][0], lengths[i][1], lengths[i][2]) == 0;
        floats = floats && floats_right(&large, 125, 4) && floats_right(&large, 0, 256);
    }
    large.rule = BODLARINA_SMALLER;
    check(right, "product runs on larger machines");
    check(floats, "float runs on larger machines");
}

/* ---- images of version 3 ---- */

/* RLEN 128 and MLEN 256 with ELEN 64: mtype e64, sizes 2; the seal of the image above; tr0 has two bytes from 1 on, acc1 its last
 * byte, 255, behind a gap of 508 (124 + 128, then 3). */
static const uint8_t image_3[] = {3, 0, 6, 7, 8, 3, 2, 2, 2, 5, 172, 2, 2, 1, 2, 11, 0, 252, 3, 1, 255};

static uint64_t large_read(const uint8_t *bytes, size_t length)
{
    large.registers_len = large.marks_len = BODLARINA_REGISTER_BYTES(256);
    memset(large_machine, 7, sizeof large_machine);
    memset(large_registers, 7, large.registers_len);
    memset(large_marks, 7, large.marks_len);
    return bodlarina_bench_image_read(&large, bytes, length);
}

static int large_untouched(void)
{
    return all(large_machine, 0, sizeof large_machine, 7) && all(large_registers, 0, large.registers_len, 7)
           && all(large_marks, 0, large.marks_len, 7);
}

/* Read, and written as it was; of either rule. */
static void image_3_round(void)
{
    static const uint64_t numbers[] = {128, 256, 3, 2, 2, 2, 5, 300, 0, 64};
    uint8_t bytes[sizeof image_3], room[sizeof image_3];
    memcpy(bytes, image_3, sizeof bytes);
    int right = large_read(bytes, sizeof bytes) == 0 && are_numbers(large_machine, numbers, 10) && large_registers[1] == 11
                && large_registers[2] == 0 && large_registers[511] == 255 && large_registers[0] == 7 && all(large_registers, 3, 511, 7)
                && large_marks[0] == 0 && all(large_marks, 1, 3, 1) && all(large_marks, 3, 511, 0) && large_marks[511] == 1;
    check(right, "an image of version 3 is read");
    for (bytes[1] = 0; bytes[1] <= 1; bytes[1]++) {
        right = right && large_read(bytes, sizeof bytes) == 0 && bodlarina_get64(large_machine + BODLARINA_MACHINE_RULE_AT) == bytes[1];
        right = right && bodlarina_bench_image_size(&large) == (uint64_t)sizeof room << 16;
        right = right && bodlarina_bench_image_write(&large, room, sizeof room - 1) == BODLARINA_NO_ROOM;
        right = right && bodlarina_bench_image_write(&large, room, sizeof room) == (uint64_t)sizeof room << 16;
        right = right && memcmp(room, bytes, sizeof room) == 0;
    }
    check(right, "an image of version 3 is written as it was read, of either rule");
}

/* A byte of the image of version 3 changed, or its end cut off: refused with 15 and this place. */
static int damaged_3(size_t length, size_t at, uint8_t value, uint64_t place)
{
    uint8_t bytes[sizeof image_3];
    memcpy(bytes, image_3, sizeof image_3);
    bytes[at] = value;
    return large_read(bytes, length) == (place << 16 | BODLARINA_DAMAGED) && large_untouched();
}

static void image_3_damaged(void)
{
    size_t whole = sizeof image_3;
    int right = 1;
    for (size_t length = 0; length < whole; length++)
        right = right && damaged_3(length, 0, 3, length);
    check(right, "an image of version 3 that is cut short: 15 and its length");
    right = damaged_3(whole, 1, 2, 1) && damaged_3(whole, 1, 128, 1);                                 /* the rule */
    right = right && damaged_3(whole, 2, 4, 2) && damaged_3(whole, 2, 7, 2);                          /* ELEN */
    right = right && damaged_3(whole, 3, 6, 3) && damaged_3(whole, 3, 13, 3);                         /* RLEN */
    right = right && damaged_3(whole, 4, 7, 4) && damaged_3(whole, 4, 17, 4);                         /* MLEN */
    right = right && damaged_3(whole, 5, 4, 5) && damaged_3(whole, 5, 10, 5) && damaged_3(whole, 5, 11, 5); /* mtype */
    right = right && damaged_3(whole, 17, 253, 18) && damaged_3(whole, 18, 4, 18);                    /* a gap past the registers */
    check(right, "a damaged image of version 3: 15 and the place, and nothing changes");
}

/* The place of the fault in the first bytes of an image; their length, if an image can go on. */
static uint64_t place_of(const uint8_t *bytes, size_t length)
{
    uint64_t result = large_read(bytes, length);
    return BODLARINA_ANSWER(result) == BODLARINA_DAMAGED ? BODLARINA_PLACE(result) : UINT64_MAX;
}

/* Images of each machine have the lowest version; a higher one, or a lower, is refused where it is known. Version 4 goes with any. */
static void image_versions(void)
{
    static const struct {
        uint8_t bytes[5];
        size_t length;
        uint64_t place;
    } starts[] = {
        /* old machines in version 3, larger ones in version 1 and 2 */
        {{3, 0, 5, 6, 7}, 5, 4}, {{3, 1, 5, 6, 12}, 5, 4}, {{3, 0, 5, 9, 12}, 5, 4}, {{3, 0, 5, 7, 8}, 5, 4},
        {{1, 10, 11}, 3, 1}, {{1, 9, 13}, 3, 2}, {{2, 1, 10, 11}, 4, 2}, {{2, 1, 6, 13}, 4, 3},
        /* each in its own */
        {{3, 0, 5, 6, 13}, 5, 5}, {{3, 1, 5, 9, 16}, 5, 5}, {{3, 0, 5, 10, 11}, 5, 5}, {{3, 0, 6, 7, 8}, 5, 5}, {{3, 0, 6, 12, 13}, 5, 5},
        {{1, 9, 12}, 3, 3}, {{2, 1, 9, 12}, 4, 4},
        {{4, 0, 5, 6, 7}, 5, 5}, {{4, 1, 5, 9, 12}, 5, 5}, {{4, 1, 6, 12, 16}, 5, 5}, {{4, 0, 6, 6, 7}, 5, 3}, {{4, 2, 5, 6, 7}, 5, 1},
    };
    int right = 1;
    for (size_t i = 0; i < sizeof starts / sizeof starts[0]; i++) {
        uint64_t mlen = bodlarina_image_mlen(starts[i].bytes, starts[i].length);
        right = right && place_of(starts[i].bytes, starts[i].length) == starts[i].place;
        right = right && mlen == (starts[i].place < starts[i].length ? 0 : (uint64_t)1 << starts[i].bytes[starts[i].length - 1]);
    }
    check(right, "each machine in its lowest version, any other is refused with its place");
}

/* bodlarina_image_mlen is 0 exactly where the library sees a fault, or RLEN and MLEN are not there yet. The bytes end where a page ends. */
static int mlen_right(uint8_t *end, const uint8_t *bytes)
{
    int right = 1;
    size_t lengths = (bytes[0] < 3 ? bytes[0] : 3) + 2u; /* where RLEN and MLEN are there */
    for (size_t length = 0; length <= 6; length++) {
        uint8_t *image_start = end - length;
        memcpy(image_start, bytes, length);
        uint64_t mlen = bodlarina_image_mlen(image_start, length);
        int header = length >= lengths && place_of(bytes, lengths) == lengths;
        right = right && mlen == (header ? (uint64_t)1 << bytes[lengths - 1] : 0);
    }
    return right;
}

static void image_mlens(void)
{
    static const uint8_t values[] = {0, 1, 2, 4, 5, 6, 7, 9, 10, 12, 13, 16, 17, 133, 255};
    size_t page = (size_t)sysconf(_SC_PAGESIZE), count = sizeof values;
    uint8_t *pages = mmap(NULL, 2 * page, PROT_READ | PROT_WRITE, MAP_PRIVATE | MAP_ANONYMOUS, -1, 0);
    int right = mprotect(pages + page, page, PROT_NONE) == 0;
    for (unsigned version = 0; version < 7; version++)
        for (size_t i = 0; i < count * count * count * count; i++) {
            const uint8_t bytes[6] = {
                version < 6 ? (uint8_t)version : 255, values[i % count], values[i / count % count], values[i / count / count % count],
                values[i / count / count / count], 0,
            };
            right = right && mlen_right(pages + page, bytes);
        }
    munmap(pages, 2 * page);
    check(right, "bodlarina_image_mlen on every start of an image, cut anywhere");
    right = bodlarina_image_mlen(image, sizeof image) == 128 && bodlarina_image_mlen(image_3, sizeof image_3) == 256;
    check(right, "bodlarina_image_mlen of an image of version 1 and of version 3");
}

static uint8_t long_image[BODLARINA_IMAGE_BYTES_MOST(BODLARINA_MLEN_MOST)], long_again[sizeof long_image];

/* The longest image: every second byte is marked, and the first two. Five bytes of version and lengths, ten of an illegal mtype, four of
 * the sizes 1024, 8 and 8, one of the number of ranges and nineteen of each of eight, three of the number of runs; then a run of four bytes and
 * 65,535 runs of three. */
static void image_longest(void)
{
    uint64_t length = (uint64_t)(5 + 10 + 4 + 1 + 8 * 19 + 3 + 4 + 3 * 65535), seals[16];
    large.registers_len = large.marks_len = BODLARINA_REGISTER_BYTES(65536);
    large.rule = BODLARINA_HALVING;
    large.elen = 32;
    for (unsigned i = 0; i < 16; i++)
        seals[i] = i % 2 == 0 ? (uint64_t)1 << 63 : INT64_MAX;
    int right = bodlarina_bench_start_sealed(&large, 64, 65536, seals, 16) == 0;
    large.rule = BODLARINA_SMALLER;
    large.elen = 64;
    right = right && does(bodlarina_msettilem(1, 0)) && does(bodlarina_msettilek(1, 0)) && does(bodlarina_msettilen(1, 0));
    right = right && does(bodlarina_msettypei(0, 8191));
    for (size_t i = 0; i < large.marks_len; i++) {
        large_registers[i] = (uint8_t)(i * 7);
        large_marks[i] = i == 0 || i % 2 == 1;
    }
    right = right && bodlarina_bench_image_write(&large, long_image, sizeof long_image) == length << 16 && length <= sizeof long_image;
    right = right && bodlarina_image_mlen(long_image, (size_t)length) == 65536;
    memset(large_machine, 0, sizeof large_machine);
    memset(large_registers, 0, sizeof large_registers);
    memset(large_marks, 0, sizeof large_marks);
    right = right && bodlarina_bench_image_read(&large, long_image, (size_t)length) == 0;
    right = right && bodlarina_bench_image_write(&large, long_again, sizeof long_again) == length << 16;
    check(right && memcmp(long_image, long_again, (size_t)length) == 0, "the longest image is read and written");
}

static void larger(void)
{
    starts();
    block_numbers();
    block_faults();
    other_elen();
    wide_words();
    wider_sums();
    wide_refusals();
    large_runs();
    image_3_round();
    image_3_damaged();
    image_versions();
    image_mlens();
    image_longest();
}

/* ---- moves ---- */

enum { MOVED = 8, ACC_ROW = RLEN / 2, ACC_BYTES = MLEN / 2, ACC0_AT = MLEN };

static uint8_t vectors[BODLARINA_VECTOR_BYTES], vectors_before[sizeof vectors], registers_before[sizeof registers], marks_before[sizeof marks];

/* acc1 has 8 rows of 8 elements of 16 bits, as long as a vector register: element (i, j) is 256 i + j. Vector bytes are 0xa5. */
static int moving_start(uint64_t group)
{
    for (unsigned i = 0; i < MOVED; i++)
        for (unsigned j = 0; j < MOVED; j++) {
            memory[16 * i + 2 * j] = (uint8_t)j;
            memory[16 * i + 2 * j + 1] = (uint8_t)i;
        }
    memset(vectors, 0xa5, sizeof vectors);
    bench.vectors = vectors;
    bench.vectors_len = sizeof vectors;
    bench.group = group;
    int right = bodlarina_bench_start(&bench, RLEN, MLEN, 0, 0) == 0 && bodlarina_bench_step(&bench, bodlarina_msettypei(0, BODLARINA_E16)) == 0;
    right = right && bodlarina_bench_step(&bench, bodlarina_msettilemi(0, MOVED)) == 0 && bodlarina_bench_step(&bench, bodlarina_msettileni(0, MOVED)) == 0;
    bodlarina_bench_set_scalar(&bench, 10, 0);
    bodlarina_bench_set_scalar(&bench, 11, 16);
    return right && bodlarina_bench_step(&bench, bodlarina_mlce16_m(1, 10, 11)) == 0;
}

/* Vector registers from this one on hold rows, or columns, of acc1 from `first` on, and all other vector bytes are as they were. */
static int moved_out(unsigned from, unsigned group, unsigned first, int columns)
{
    int right = 1;
    for (unsigned v = 0; v < 32; v++)
        for (unsigned j = 0; j < MOVED; j++) {
            unsigned line = first + v - from, here = v >= from && v < from + group;
            uint8_t low = here ? (uint8_t)(columns ? line : j) : 0xa5, high = here ? (uint8_t)(columns ? j : line) : 0xa5;
            right = right && vectors[16 * v + 2 * j] == low && vectors[16 * v + 2 * j + 1] == high;
        }
    return right;
}

static void moves_out(void)
{
    int right = 1;
    for (unsigned group = 1; group <= 8; group *= 2)
        for (unsigned first = 0; first + group <= MOVED; first++)
            for (int columns = 0; columns <= 1; columns++) {
                unsigned vd = (first * group) % 32;
                right = right && moving_start(group);
                bodlarina_bench_set_scalar(&bench, 5, first);
                right = right && bodlarina_bench_step(&bench, columns ? bodlarina_mmvcc_v_m(vd, 1, 5) : bodlarina_mmvcr_v_m(vd, 1, 5)) == 0;
                right = right && moved_out(vd, group, first, columns);
            }
    check(right, "rows and columns move out to vector registers");
}

/* Columns 3 to 6 of acc0 become the vector registers 8 to 11 and are marked, and nothing else. */
static void moves_in(void)
{
    int right = moving_start(4);
    for (unsigned i = 0; i < sizeof vectors; i++)
        vectors[i] = (uint8_t)(7 * i);
    memcpy(vectors_before, vectors, sizeof vectors);
    memcpy(registers_before, registers, sizeof registers);
    bodlarina_bench_set_scalar(&bench, 5, 3);
    right = right && bodlarina_bench_step(&bench, bodlarina_mmvcc_m_v(0, 8, 5)) == 0 && memcmp(vectors, vectors_before, sizeof vectors) == 0;
    for (size_t at = 0; at < ACC_BYTES; at++) {
        size_t row = at / ACC_ROW, byte = at % ACC_ROW, column = byte / 2, here = column >= 3 && column <= 6;
        uint8_t value = here ? vectors[16 * (8 + column - 3) + 2 * row + byte % 2] : registers_before[ACC0_AT + at];
        right = right && registers[ACC0_AT + at] == value && marks[ACC0_AT + at] == here;
    }
    check(right && memcmp(registers, registers_before, ACC0_AT) == 0, "columns move in and are marked");
}

/* A word that is refused with this result, and no byte changes. */
static int move_refused(uint32_t word, uint64_t result)
{
    memcpy(vectors_before, vectors, sizeof vectors);
    memcpy(registers_before, registers, sizeof registers);
    memcpy(marks_before, marks, sizeof marks);
    return bodlarina_bench_step(&bench, word) == result && memcmp(vectors, vectors_before, sizeof vectors) == 0
           && memcmp(registers, registers_before, sizeof registers) == 0 && memcmp(marks, marks_before, sizeof marks) == 0;
}

static void moves_refused(void)
{
    static const uint64_t groups[] = {3, 5, 6, 7, 9, 16, UINT64_MAX};
    uint32_t setting = bodlarina_msettypei(0, BODLARINA_E16);
    int right = moving_start(4);
    right = right && move_refused(bodlarina_mmvcr_v_m(6, 1, 0), BODLARINA_WRONG_REGISTER);
    right = right && move_refused(bodlarina_mmvcc_m_v(2, 4, 0), BODLARINA_WRONG_REGISTER);
    bodlarina_bench_set_scalar(&bench, 5, 5);
    right = right && move_refused(bodlarina_mmvcr_v_m(4, 1, 5), BODLARINA_TILE_TOO_LARGE);
    bodlarina_bench_set_scalar(&bench, 5, UINT64_MAX - 1);
    right = right && move_refused(bodlarina_mmvcc_m_v(0, 4, 5), BODLARINA_TILE_TOO_LARGE);
    right = right && move_refused(bodlarina_mmvcr_v_m(4, 0, 0), BODLARINA_UNWRITTEN);
    right = right && bodlarina_bench_step(&bench, bodlarina_msettileni(0, MOVED + 1)) == 0;
    right = right && move_refused(bodlarina_mmvcr_m_v(0, 4, 0), BODLARINA_TILE_TOO_LARGE); /* a row of 144 bits */
    right = right && bodlarina_bench_step(&bench, bodlarina_mmvcc_m_v(0, 4, 0)) == 0;
    check(right, "moves that are refused: 12, 4 and 5, and nothing changes");
    right = moving_start(1);
    for (size_t i = 0; i < sizeof groups / sizeof groups[0]; i++) {
        bench.group = groups[i];
        right = right && move_refused(setting, BODLARINA_BAD_ARGUMENTS) && move_refused(bodlarina_mmvcr_v_m(0, 1, 0), BODLARINA_BAD_ARGUMENTS);
    }
    bench.group = 1;
    bench.vectors_len = sizeof vectors - 1;
    right = right && move_refused(setting, BODLARINA_BAD_ARGUMENTS);
    bench.vectors_len = 0;
    right = right && move_refused(setting, BODLARINA_BAD_ARGUMENTS) && move_refused(bodlarina_mmvcr_v_m(0, 1, 0), BODLARINA_BAD_ARGUMENTS);
    check(right, "another group size, or a vector file of another length: 8 for every word");
}

/* Left out, the vector file is missed by moves alone; a group of 0 counts as 1. */
static void no_vectors(void)
{
    int right = moving_start(0) && bodlarina_bench_step(&bench, bodlarina_mmvcr_v_m(3, 1, 0)) == 0 && moved_out(3, 1, 0, 0);
    bench.vectors = NULL;
    bench.vectors_len = 0;
    right = right && bodlarina_bench_step(&bench, bodlarina_msettilemi(0, 2)) == 0;
    right = right && move_refused(bodlarina_mmvcr_v_m(3, 1, 0), BODLARINA_BAD_ARGUMENTS);
    right = right && move_refused(bodlarina_mmvcc_m_v(1, 3, 0), BODLARINA_BAD_ARGUMENTS);
    right = right && move_refused(1u << 27 | bodlarina_mmvcr_v_m(3, 1, 0), BODLARINA_ILLEGAL_WORD);
    check(right, "a host without vector registers: moves get 8, other words go on");
}

/* Scalars of another length than theirs are neither read nor written. */
static void short_scalars(void)
{
    uint8_t eight[8] = {7, 7, 7, 7, 7, 7, 7, 7};
    struct bodlarina_bench other = bench;
    other.scalars = eight;
    other.scalars_len = sizeof eight;
    bodlarina_bench_set_scalar(&other, 31, 5);
    bodlarina_bench_set_scalar(&other, 0, 5);
    check(bodlarina_bench_scalar(&other, 31) == 0 && bodlarina_bench_scalar(&other, 0) == 0 && all(eight, 0, sizeof eight, 7),
          "scalars of another length are left alone");
}

static void moves(void)
{
    moves_out();
    moves_in();
    moves_refused();
    no_vectors();
    short_scalars();
}

/* ---- sealed ranges, on the machine of RLEN 64 and MLEN 128 ---- */

enum { RANGES_TRIED = 20, SEALED_AT = 100, SEALED_BYTES = 3, ONES_AT = 0 };

/* Ranges behind memory, every second of length 0; each has numbers of its own. */
static void far_ranges(uint64_t *seals, size_t count)
{
    for (size_t i = 0; i < count; i++) {
        seals[2 * i] = MEMORY_BYTES + i;
        seals[2 * i + 1] = i % 2;
    }
}

static uint64_t small_start(const uint64_t *seals, size_t numbers) { return bodlarina_bench_start_sealed(&small, 64, SMALL, seals, numbers); }

/* The block has these ranges in this order, and 0 wherever there is none. */
static int ranges_are(const uint64_t *seals, size_t count)
{
    int right = bodlarina_get64(small_machine + BODLARINA_MACHINE_SEALS_AT) == count;
    for (size_t i = 0; i < BODLARINA_SEALS_MOST; i++) {
        const uint8_t *slot = small_machine + BODLARINA_MACHINE_SEAL_AT(i);
        right = right && bodlarina_get64(slot) == (i < count ? seals[2 * i] : 0) && bodlarina_get64(slot + 8) == (i < count ? seals[2 * i + 1] : 0);
    }
    return right;
}

static int start_refused(const uint64_t *seals, size_t numbers, uint64_t answer)
{
    fill();
    return small_start(seals, numbers) == answer && untouched();
}

/* So many ranges, a bad end at each place, and a number too many. */
static int starts_right(size_t count)
{
    uint64_t seals[2 * RANGES_TRIED + 1] = {0};
    int right = 1;
    far_ranges(seals, count);
    fill();
    if (count <= BODLARINA_SEALS_MOST)
        right = small_start(seals, 2 * count) == 0 && ranges_are(seals, count) && all(small_marks, 0, SMALL_BYTES, 0);
    else
        right = start_refused(seals, 2 * count, BODLARINA_TOO_MANY_SEALS);
    right = right && start_refused(seals, 2 * count + 1, BODLARINA_BAD_ARGUMENTS);
    for (size_t bad = 0; bad < count; bad++) {
        far_ranges(seals, count);
        seals[2 * bad] = UINT64_MAX; /* with a length of 1 its end is 2^64 */
        seals[2 * bad + 1] = 1;
        right = right && start_refused(seals, 2 * count, BODLARINA_BAD_ARGUMENTS);
        seals[2 * bad + 1] = 0;
        right = right && small_start(seals, 2 * count) == (count <= BODLARINA_SEALS_MOST ? 0 : BODLARINA_TOO_MANY_SEALS);
    }
    return right;
}

static void sealed_starts(void)
{
    uint64_t seals[2 * RANGES_TRIED];
    int right = BODLARINA_SEALS_MOST == 8 && BODLARINA_MACHINE_SEAL_AT(0) == 48 && BODLARINA_MACHINE_SEALS_AT == 80
                && BODLARINA_MACHINE_SEAL_AT(1) == 88 && BODLARINA_MACHINE_SEAL_AT(7) == 184;
    for (size_t count = 0; count <= RANGES_TRIED; count++)
        right = right && starts_right(count);
    check(right, "starts with none to twenty ranges: 0 up to eight, 16 above; 8 first, for a bad end beyond the ninth and an odd count too");
    far_ranges(seals, 9);
    fill();
    right = bodlarina_bench_start_sealed(&small, 64, 2 * SMALL, seals, 18) == BODLARINA_BAD_ARGUMENTS && untouched();
    small.rule = 2;
    right = right && start_refused(seals, 18, BODLARINA_BAD_ARGUMENTS);
    small.rule = BODLARINA_SMALLER;
    check(right, "nine ranges and another fault of a start: 8");
}

static int small_state_is(const uint8_t *block, const uint8_t *bytes, const uint8_t *with_marks)
{
    return memcmp(small_machine, block, sizeof small_machine) == 0 && memcmp(small_registers, bytes, SMALL_BYTES) == 0
           && memcmp(small_marks, with_marks, SMALL_BYTES) == 0;
}

/* A further range: this answer; refused, no byte changes. */
static int seal_gets(const struct bodlarina_bench *on, uint64_t start, uint64_t length, uint64_t answer)
{
    uint8_t block[sizeof small_machine], bytes[SMALL_BYTES], with_marks[SMALL_BYTES];
    memcpy(block, small_machine, sizeof block);
    memcpy(bytes, small_registers, sizeof bytes);
    memcpy(with_marks, small_marks, sizeof with_marks);
    int right = bodlarina_bench_seal(on, start, length) == answer;
    if (answer == 0) /* the ranges are looked at by the caller */
        memcpy(block + BODLARINA_MACHINE_SEAL_START_AT, small_machine + BODLARINA_MACHINE_SEAL_START_AT, 16);
    if (answer == 0)
        memcpy(block + BODLARINA_MACHINE_SEALS_AT, small_machine + BODLARINA_MACHINE_SEALS_AT, sizeof block - BODLARINA_MACHINE_SEALS_AT);
    return right && small_state_is(block, bytes, with_marks);
}

static int bad_ends_get_8(void)
{
    return seal_gets(&small, UINT64_MAX, 1, BODLARINA_BAD_ARGUMENTS) && seal_gets(&small, 1, UINT64_MAX, BODLARINA_BAD_ARGUMENTS)
           && seal_gets(&small, UINT64_MAX, UINT64_MAX, BODLARINA_BAD_ARGUMENTS);
}

static void further_ranges(void)
{
    uint64_t seals[16];
    struct bodlarina_bench other = small;
    int right = 1;
    far_ranges(seals, 8);
    seals[4] = UINT64_MAX; /* of length 0 */
    for (size_t first = 0; first <= BODLARINA_SEALS_MOST; first++) {
        fill();
        right = right && small_start(seals, 2 * first) == 0;
        for (size_t i = first; i < BODLARINA_SEALS_MOST; i++) {
            right = right && bad_ends_get_8() && ranges_are(seals, i);
            right = right && seal_gets(&small, seals[2 * i], seals[2 * i + 1], 0) && ranges_are(seals, i + 1);
        }
        right = right && seal_gets(&small, 0, 0, BODLARINA_TOO_MANY_SEALS) && seal_gets(&small, 0, 5, BODLARINA_TOO_MANY_SEALS) && bad_ends_get_8();
    }
    check(right, "further ranges up to the eighth, then 16; a bad end gets 8 first; nothing else changes");
    small_marks[5] = 2;
    right = seal_gets(&small, 0, 0, BODLARINA_BAD_ARGUMENTS);
    small_marks[5] = 0;
    other.registers_len--;
    right = right && seal_gets(&other, 0, 0, BODLARINA_BAD_ARGUMENTS);
    other = small;
    other.marks_len--;
    right = right && seal_gets(&other, 0, 0, BODLARINA_BAD_ARGUMENTS);
    for (other = small; other.machine_len-- > 0;)
        right = right && seal_gets(&other, 0, 0, BODLARINA_BAD_ARGUMENTS);
    check(right && seal_gets(&small, 0, 0, BODLARINA_TOO_MANY_SEALS), "a further range on a state at fault: 8 before 16");
}

/* C = A x B on the small machine, two rows of C at a time; each block of C is two rows of two bytes, one after the other. */
static const struct bodlarina_plan sealed_plan = {8, 1, 4, 2, 2, {ONES_AT, 2}, {ONES_AT, 2}, {SEALED_AT - 4, 2}, BODLARINA_PRODUCT};

/* Every call that looks at the machine is refused with 8, and no byte changes. */
static int is_at_fault(void)
{
    uint8_t room[1024] = {0}, block[sizeof small_machine], bytes[SMALL_BYTES], with_marks[SMALL_BYTES], its_run[sizeof run];
    uint64_t steps;
    memcpy(block, small_machine, sizeof block);
    memcpy(bytes, small_registers, sizeof bytes);
    memcpy(with_marks, small_marks, sizeof with_marks);
    memcpy(its_run, run, sizeof its_run);
    int right = bodlarina_bench_step(&small, bodlarina_msettypei(0, BODLARINA_E16)) == BODLARINA_BAD_ARGUMENTS;
    right = right && bodlarina_bench_seal(&small, 0, 0) == BODLARINA_BAD_ARGUMENTS;
    right = right && bodlarina_bench_image_size(&small) == BODLARINA_BAD_ARGUMENTS;
    right = right && bodlarina_bench_image_write(&small, room, sizeof room) == BODLARINA_BAD_ARGUMENTS && all(room, 0, sizeof room, 0);
    right = right && bodlarina_bench_run_start(&small, &sealed_plan) == BODLARINA_BAD_ARGUMENTS;
    right = right && bodlarina_bench_run_turn(&small) == BODLARINA_BAD_ARGUMENTS && bodlarina_bench_run_turns(&small, 3) == 0;
    right = right && bodlarina_bench_run(&small, &sealed_plan, &steps) == BODLARINA_BAD_ARGUMENTS;
    return right && small_state_is(block, bytes, with_marks) && memcmp(run, its_run, sizeof run) == 0;
}

/* Blocks of a machine with so many ranges, damaged in each way. */
static int damage_right(size_t count)
{
    const uint64_t counts[] = {9, 10, 127, 255, 256 + count, 65536 + count, ((uint64_t)1 << 32) + count, UINT64_MAX};
    uint64_t seals[16];
    int right = 1;
    for (size_t i = 0; i < 16; i++)
        seals[i] = MEMORY_BYTES + i;
    right = small_start(seals, 2 * count) == 0 && bodlarina_bench_run_start(&small, &sealed_plan) == 0;
    for (size_t i = 0; i < sizeof counts / sizeof counts[0]; i++) {
        bodlarina_put64(small_machine + BODLARINA_MACHINE_SEALS_AT, counts[i]);
        right = right && is_at_fault();
    }
    for (size_t less = 0; less < count; less++) {
        bodlarina_put64(small_machine + BODLARINA_MACHINE_SEALS_AT, less);
        right = right && is_at_fault();
    }
    bodlarina_put64(small_machine + BODLARINA_MACHINE_SEALS_AT, count);
    for (size_t i = count; i < BODLARINA_SEALS_MOST; i++)
        for (size_t byte = 0; byte < 16; byte++) {
            small_machine[BODLARINA_MACHINE_SEAL_AT(i) + byte] = byte % 2 == 0 ? 1 : 128;
            right = right && is_at_fault();
            small_machine[BODLARINA_MACHINE_SEAL_AT(i) + byte] = 0;
        }
    for (size_t i = 0; i < count; i++) {
        bodlarina_put64(small_machine + BODLARINA_MACHINE_SEAL_AT(i), UINT64_MAX - seals[2 * i + 1] + 1);
        right = right && is_at_fault();
        bodlarina_put64(small_machine + BODLARINA_MACHINE_SEAL_AT(i), UINT64_MAX - seals[2 * i + 1]);
        right = right && bodlarina_bench_step(&small, bodlarina_msettypei(0, BODLARINA_E8)) == 0;
    }
    return right;
}

static void damaged_blocks(void)
{
    int right = 1;
    for (size_t count = 0; count <= BODLARINA_SEALS_MOST; count++)
        right = right && damage_right(count);
    check(right, "a block with another number of ranges, something in an unused slot or a bad end: 8 in every call");
}

/* A machine with so many ranges, of which one lies in memory; tr0 is two rows of two ones. */
static int one_in_memory(size_t count, size_t which)
{
    uint64_t seals[16];
    far_ranges(seals, count);
    seals[2 * which] = SEALED_AT;
    seals[2 * which + 1] = SEALED_BYTES;
    memset(memory, 0, 2 * SEALED_AT);
    memset(memory + ONES_AT, 1, 4);
    bodlarina_bench_set_scalar(&small, 10, ONES_AT);
    bodlarina_bench_set_scalar(&small, 11, 2);
    return small_start(seals, 2 * count) == 0 && bodlarina_bench_step(&small, bodlarina_msettilemi(0, 2)) == 0
           && bodlarina_bench_step(&small, bodlarina_msettileki(0, 2)) == 0 && bodlarina_bench_step(&small, bodlarina_mlae8_m(0, 10, 11)) == 0;
}

/* The store of tr0, two rows of two bytes so far apart: refused with 7 exactly if one of them has a sealed byte, and done otherwise. */
static int store_right(uint64_t address, uint64_t apart)
{
    int right = 1, sealed = 0;
    memset(memory + 4, 0, 2 * SEALED_AT - 4);
    for (uint64_t i = 0; i < 4; i++) {
        uint64_t at = address + i / 2 * apart + i % 2;
        sealed = sealed || (at >= SEALED_AT && at < SEALED_AT + SEALED_BYTES);
    }
    bodlarina_bench_set_scalar(&small, 10, address);
    bodlarina_bench_set_scalar(&small, 11, apart);
    right = bodlarina_bench_step(&small, bodlarina_msae8_m(0, 10, 11)) == (sealed ? BODLARINA_SEALED_BYTE : 0);
    for (uint64_t at = 4; at < 2 * SEALED_AT; at++) {
        int stored = at - address < 2 || at - address - apart < 2;
        right = right && memory[at] == (!sealed && stored);
    }
    return right;
}

/* The start of a run whose C is eight bytes from here on: refused with 9 exactly if one of them is sealed. */
static int run_start_right(uint64_t c)
{
    struct bodlarina_plan plan = sealed_plan;
    uint64_t steps, answer = c < SEALED_AT + SEALED_BYTES && c + 8 > SEALED_AT ? BODLARINA_OVERLAP : 0;
    plan.c.address = c;
    return bodlarina_bench_run_start(&small, &plan) == answer && bodlarina_bench_run(&small, &plan, &steps) == answer
           && all(memory, SEALED_AT, SEALED_AT + SEALED_BYTES, 0);
}

static void each_range(void)
{
    int stores = 1, starts = 1;
    for (size_t count = 1; count <= BODLARINA_SEALS_MOST; count++)
        for (size_t which = 0; which < count; which++)
            for (uint64_t address = SEALED_AT - 20; address < SEALED_AT + 10; address++) {
                stores = stores && one_in_memory(count, which) && store_right(address, 2) && store_right(address, 11);
                memset(memory + 4, 0, 2 * SEALED_AT - 4);
                starts = starts && run_start_right(address);
            }
    check(stores, "a store over each of eight ranges: 7, and nothing changes");
    check(starts, "the start of a run over each of eight ranges: 9");
}

/* A range over the second block of C, added after so many of the 17 turns: the last of them, which stores that block, is refused with 7. Each turn
 * before it is done, the run stays at its place, and nothing changes. */
static int added_right(uint64_t turns, int one_by_one)
{
    uint8_t block[sizeof small_machine], bytes[SMALL_BYTES], with_marks[SMALL_BYTES], its_run[sizeof run];
    uint64_t done = turns;
    memset(memory, 0, 2 * SEALED_AT);
    memset(memory + ONES_AT, 1, 8);
    int right = small_start(no_seals, 0) == 0 && bodlarina_bench_run_start(&small, &sealed_plan) == 0;
    right = right && bodlarina_bench_run_turns(&small, turns) == turns && bodlarina_bench_seal(&small, SEALED_AT, SEALED_BYTES) == 0;
    if (!one_by_one)
        done += bodlarina_bench_run_turns(&small, 100);
    while (right && one_by_one && done < 17 && bodlarina_bench_run_turn(&small) == 0)
        done++;
    memcpy(block, small_machine, sizeof block);
    memcpy(bytes, small_registers, sizeof bytes);
    memcpy(with_marks, small_marks, sizeof with_marks);
    memcpy(its_run, run, sizeof its_run);
    right = right && done == 16 && bodlarina_bench_run_turn(&small) == BODLARINA_SEALED_BYTE && bodlarina_bench_run_turns(&small, 1) == 0;
    right = right && small_state_is(block, bytes, with_marks) && memcmp(run, its_run, sizeof run) == 0 && !bodlarina_bench_run_is_over(&small);
    return right && all(memory, SEALED_AT - 4, SEALED_AT, 2) && all(memory, SEALED_AT, 2 * SEALED_AT, 0);
}

/* One beside C, and one over a block that is stored already, change nothing of the run. */
static int added_elsewhere(uint64_t turns, uint64_t start, uint64_t length)
{
    memset(memory, 0, 2 * SEALED_AT);
    memset(memory + ONES_AT, 1, 8);
    int right = small_start(no_seals, 0) == 0 && bodlarina_bench_run_start(&small, &sealed_plan) == 0;
    right = right && bodlarina_bench_run_turns(&small, turns) == turns && bodlarina_bench_seal(&small, start, length) == 0;
    right = right && bodlarina_bench_run_turns(&small, 100) == 17 - turns && bodlarina_bench_run_is_over(&small);
    return right && all(memory, SEALED_AT - 4, SEALED_AT + 4, 2) && all(memory, SEALED_AT + 4, 2 * SEALED_AT, 0);
}

static void added_to_runs(void)
{
    int right = 1;
    for (uint64_t turns = 0; turns <= 16; turns++) {
        right = right && added_right(turns, 0) && added_right(turns, 1) && added_elsewhere(turns, SEALED_AT + 4, 50);
        right = right && added_elsewhere(turns, SEALED_AT, 0) && (turns < 9 || added_elsewhere(turns, SEALED_AT - 4, 4));
    }
    check(right, "a range added between the turns of a run: later turns get 7, the place stays; others go on");
}

/* ---- images of version 4: the machine of the image above with other ranges ---- */

static const uint8_t image_none[] = {4, 0, 5, 6, 7, 1, 2, 2, 3, 0, 2, 1, 2, 11, 0, 252, 1, 1, 255};
static const uint8_t image_two[] = {4, 0, 5, 6, 7, 1, 2, 2, 3, 2, 5, 172, 2, 0, 0, 2, 1, 2, 11, 0, 252, 1, 1, 255};

/* The last three: 2^64 - 1 and 0, 128 and 127, 7 and 7; halving. */
static const uint8_t image_eight[] = {
    4, 1, 5, 6, 7, 1, 2, 2, 3, 8, 5, 172, 2, 0, 0, 1, 1, 1, 1, 3, 0, 255, 255, 255, 255, 255, 255, 255, 255, 255, 1, 0, 128, 1, 127, 7, 7,
    2, 1, 2, 11, 0, 252, 1, 1, 255,
};
static const uint64_t of_eight[] = {5, 300, 0, 0, 1, 1, 1, 1, 3, 0, UINT64_MAX, 0, 128, 127, 7, 7};

/* Read, and written as it was; cut short, it is refused with its length. */
static int ranges_round(const uint8_t *bytes, size_t length, const uint64_t *seals, size_t count)
{
    uint8_t room[sizeof image_eight + 1];
    memset(room, 9, sizeof room);
    fill();
    int right = bodlarina_image_mlen(bytes, length) == SMALL && bodlarina_bench_image_read(&small, bytes, length) == 0 && ranges_are(seals, count);
    right = right && bodlarina_get64(small_machine + BODLARINA_MACHINE_RULE_AT) == bytes[1];
    right = right && bodlarina_get64(small_machine + BODLARINA_MACHINE_TILE_N_AT) == 3 && small_registers[1] == 11 && small_marks[255] == 1;
    right = right && bodlarina_bench_image_size(&small) == (uint64_t)length << 16;
    right = right && bodlarina_bench_image_write(&small, room, length - 1) == BODLARINA_NO_ROOM && all(room, 0, sizeof room, 9);
    right = right && bodlarina_bench_image_write(&small, room, sizeof room) == (uint64_t)length << 16;
    right = right && memcmp(room, bytes, length) == 0 && all(room, length, sizeof room, 9);
    fill();
    for (size_t cut = 0; cut < length; cut++)
        right = right && bodlarina_bench_image_read(&small, bytes, cut) == ((uint64_t)cut << 16 | BODLARINA_DAMAGED);
    return right && untouched();
}

/* A byte of an image changed: refused with 15 and this place. */
static int ranges_damaged(const uint8_t *bytes, size_t length, size_t at, uint8_t value, uint64_t place)
{
    uint8_t changed[sizeof image_eight];
    memcpy(changed, bytes, length);
    changed[at] = value;
    fill();
    return bodlarina_bench_image_read(&small, changed, length) == (place << 16 | BODLARINA_DAMAGED) && untouched();
}

static void range_images(void)
{
    static const uint8_t counts[] = {1, 9, 10, 127, 128, 129, 130, 136, 255};
    int right = ranges_round(image_none, sizeof image_none, of_eight, 0) && ranges_round(image_two, sizeof image_two, of_eight, 2);
    check(right && ranges_round(image_eight, sizeof image_eight, of_eight, 8), "images with none, two and eight ranges, there and back; cut short");
    for (size_t i = 0; i < sizeof counts; i++) {
        right = right && ranges_damaged(image_none, sizeof image_none, 9, counts[i], 9);
        right = right && ranges_damaged(image_two, sizeof image_two, 9, counts[i], 9);
        right = right && ranges_damaged(image_eight, sizeof image_eight, 9, counts[i], 9);
    }
    check(right, "an image with one range in version 4, or with more than eight: 15 at their number");
    right = ranges_damaged(image_two, sizeof image_two, 9, 0, 12);               /* five runs and a gap of 300 */
    right = right && ranges_damaged(image_two, sizeof image_two, 9, 3, 19);      /* a run without a byte */
    right = right && ranges_damaged(image_eight, sizeof image_eight, 31, 1, 31); /* an end of 2^64 */
    right = right && ranges_damaged(image_eight, sizeof image_eight, 30, 2, 30); /* a start of 3 * 2^63 - 1 */
    check(right, "an image with a range too few, a range too many or a bad end: 15 and the place");
}

static void sealed_ranges(void)
{
    sealed_starts();
    further_ranges();
    damaged_blocks();
    each_range();
    added_to_runs();
    range_images();
}

/* ---- salvage ---- */

static uint8_t salvage_room[1024], salvage_report[BODLARINA_REPORT_BYTES + 8];

/* A salvage with so much room and report; all of both is filled with 9 before. */
static uint64_t salvage_into(const uint8_t *bytes, size_t length, size_t room_len, size_t report_len)
{
    memset(salvage_room, 9, sizeof salvage_room);
    memset(salvage_report, 9, sizeof salvage_report);
    return bodlarina_image_salvage(bytes, length, salvage_room, room_len, salvage_report, report_len);
}

/* Refused with this result, and no byte changed. */
static int salvage_gets(const uint8_t *bytes, size_t length, size_t room_len, size_t report_len, uint64_t result)
{
    return salvage_into(bytes, length, room_len, report_len) == result && all(salvage_room, 0, sizeof salvage_room, 9)
           && all(salvage_report, 0, sizeof salvage_report, 9);
}

static int salvage_15(const uint8_t *bytes, size_t length, uint64_t place)
{
    return salvage_gets(bytes, length, sizeof salvage_room, BODLARINA_REPORT_BYTES, place << 16 | BODLARINA_DAMAGED)
           && salvage_gets(bytes, length, 0, BODLARINA_REPORT_BYTES, place << 16 | BODLARINA_DAMAGED)
           && salvage_gets(bytes, length, 0, 0, BODLARINA_BAD_ARGUMENTS);
}

/* What a salvage must keep. */
struct kept {
    uint64_t runs, announced, place;
    size_t length; /* of the fresh image */
    uint8_t fresh[sizeof salvage_room];
};

/* Done with all room and with just enough, the bytes past it and past the report stay; with a byte less, 14 and the place. */
static int salvage_keeps(const uint8_t *bytes, size_t length, const struct kept *kept)
{
    const uint64_t report[] = {kept->runs, kept->announced, kept->place};
    size_t rooms[] = {sizeof salvage_room, kept->length};
    int right = 1;
    for (unsigned i = 0; i < 2; i++) {
        right = right && salvage_into(bytes, length, rooms[i], BODLARINA_REPORT_BYTES) == (uint64_t)kept->length << 16;
        right = right && memcmp(salvage_room, kept->fresh, kept->length) == 0 && all(salvage_room, kept->length, sizeof salvage_room, 9);
        right = right && are_numbers(salvage_report, report, 3) && all(salvage_report, BODLARINA_REPORT_BYTES, sizeof salvage_report, 9);
    }
    return right && salvage_gets(bytes, length, kept->length - 1, BODLARINA_REPORT_BYTES, kept->place << 16 | BODLARINA_NO_ROOM);
}

/* A number in groups of seven bits; how many bytes it takes. */
static size_t put_groups(uint8_t *bytes, uint64_t number)
{
    size_t count = 0;
    for (; number >= 128; number /= 128)
        bytes[count++] = (uint8_t)(128 + number % 128);
    bytes[count++] = (uint8_t)number;
    return count;
}

/* The bytes before the number of runs, another number, and the runs from a byte to another. */
static void make_fresh(struct kept *kept, const uint8_t *bytes, size_t count_at, size_t from, size_t to)
{
    memcpy(kept->fresh, bytes, count_at);
    kept->length = count_at + put_groups(kept->fresh + count_at, kept->runs);
    memcpy(kept->fresh + kept->length, bytes + from, to - from);
    kept->length += to - from;
}

/* Of the images above, which end with the number of their two runs and these, of four bytes each: so many kept, of so many announced. */
static int two_runs_keep(const uint8_t *bytes, size_t given, size_t length, uint64_t runs, uint64_t announced, uint64_t place)
{
    struct kept kept = {runs, announced, place, 0, {0}};
    make_fresh(&kept, bytes, length - 9, length - 8, length - 8 + 4 * (size_t)runs);
    return salvage_keeps(bytes, given, &kept);
}

/* Every cut: 15 in the header; behind it the runs that are whole. The place is that of a read. */
static int cuts_right(const uint8_t *bytes, size_t length)
{
    int right = 1;
    for (size_t cut = 0; cut <= length; cut++) {
        right = right && (cut == length || place_of(bytes, cut) == cut);
        if (cut < length - 8)
            right = right && salvage_15(bytes, cut, cut);
        else
            right = right && two_runs_keep(bytes, cut, length, cut < length - 4 ? 0 : cut < length ? 1 : 2, 2, cut);
    }
    return right;
}

static void salvage_cuts(void)
{
    uint8_t image_2[sizeof image + 1] = {2};
    memcpy(image_2 + 1, image, sizeof image);
    int right = cuts_right(image, sizeof image) && cuts_right(image_2, sizeof image_2) && cuts_right(image_3, sizeof image_3);
    right = right && cuts_right(image_none, sizeof image_none) && cuts_right(image_two, sizeof image_two);
    check(right && cuts_right(image_eight, sizeof image_eight), "salvage of every cut of an image of each version");
    right = salvage_into(image, sizeof image, sizeof salvage_room, BODLARINA_REPORT_BYTES) == (uint64_t)sizeof image << 16;
    check(right && memcmp(salvage_room, image, sizeof image) == 0, "salvage of a sound image: as it is");
}

/* A byte of the first image changed: these runs are kept, or, with none announced, the header is refused. */
static int salvage_changed(size_t at, uint8_t value, uint64_t runs, uint64_t announced, uint64_t place)
{
    uint8_t bytes[sizeof image];
    memcpy(bytes, image, sizeof image);
    bytes[at] = value;
    if (place_of(bytes, sizeof bytes) != (place < sizeof bytes ? place : UINT64_MAX))
        return 0;
    return announced == 0 ? salvage_15(bytes, sizeof bytes, place) : two_runs_keep(bytes, sizeof bytes, sizeof bytes, runs, announced, place);
}

static void salvage_damaged(void)
{
    int right = salvage_changed(0, 0, 0, 0, 0) && salvage_changed(0, 5, 0, 0, 0) && salvage_changed(0, 129, 0, 0, 0); /* version */
    right = right && salvage_changed(0, 2, 0, 0, 1) && salvage_changed(0, 4, 0, 0, 1) && salvage_changed(1, 5, 0, 0, 1);
    right = right && salvage_changed(2, 6, 0, 0, 2) && salvage_changed(3, 3, 0, 0, 3) && salvage_changed(4, 3, 0, 0, 4);
    right = right && salvage_changed(9, 0, 0, 0, 9) && salvage_changed(10, 129, 0, 0, 10); /* a longer form; 129 runs and more */
    check(right, "salvage of a damaged header: 15 and the place, before 14, and nothing changes");
    right = salvage_changed(10, 1, 1, 1, 15) && salvage_changed(10, 3, 1, 3, 15);                         /* a run too many, a run too few */
    right = right && salvage_changed(11, 133, 0, 2, 12);                                                  /* a gap of 261 */
    right = right && salvage_changed(12, 0, 0, 2, 12) && salvage_changed(15, 0, 1, 2, 15);                /* no length, no gap */
    right = right && salvage_changed(15, 253, 1, 2, 15) && salvage_changed(16, 2, 1, 2, 16);              /* a gap past the registers */
    right = right && salvage_changed(17, 2, 1, 2, 17) && salvage_changed(13, 12, 2, 2, sizeof image);     /* a length past them; a byte of a run */
    check(right, "salvage of damaged runs: those before the place");
}

static void salvage_longer(void)
{
    uint8_t longer[700];
    memset(longer, 1, sizeof longer);
    memcpy(longer, image, sizeof image);
    int right = 1;
    for (size_t length = sizeof image + 1; length <= sizeof longer; length++)
        right = right && two_runs_keep(longer, length, sizeof image, 2, 2, sizeof image);
    check(right, "salvage of an image with bytes too many: all of it, and its end");
}

static void salvage_reports(void)
{
    static const size_t lengths[] = {0, 1, 23, 25, 32};
    int right = 1;
    for (size_t i = 0; i < sizeof lengths / sizeof lengths[0]; i++)
        for (size_t cut = 0; cut <= sizeof image; cut++)
            right = right && salvage_gets(image, cut, sizeof salvage_room, lengths[i], BODLARINA_BAD_ARGUMENTS)
                    && salvage_gets(image, cut, 0, lengths[i], BODLARINA_BAD_ARGUMENTS);
    check(right, "a report's block of another length: 8 first, and nothing changes");
}

/* RLEN 64 and MLEN 256, 200 runs of a byte: their number takes two bytes, and that of the kept ones often one. */
static void salvage_many(void)
{
    uint8_t bytes[11 + 3 * 200] = {1, 6, 8, 0, 0, 0, 0, 0, 0, 200, 1};
    int right = 1;
    for (size_t i = 0; i < 200; i++) {
        bytes[11 + 3 * i] = bytes[12 + 3 * i] = 1;
        bytes[13 + 3 * i] = (uint8_t)(7 * i);
    }
    for (size_t cut = 0; cut <= sizeof bytes; cut++) {
        struct kept kept = {cut < 11 ? 0 : (cut - 11) / 3, 200, cut, 0, {0}};
        make_fresh(&kept, bytes, 9, 11, 11 + 3 * (size_t)kept.runs);
        right = right && (cut < 11 ? salvage_15(bytes, cut, cut) : salvage_keeps(bytes, cut, &kept));
    }
    check(right, "salvage of every cut of an image of 200 runs");
}

/* The longest image, which image_longest made: its number of runs stands at 172, its runs from 175 on, the first of four bytes. */
static int longest_right(size_t cut)
{
    uint64_t runs = 1 + (cut - 179) / 3, number_bytes = runs < 128 ? 1 : runs < 16384 ? 2 : 3;
    const uint64_t report[] = {runs, 65536, cut};
    uint8_t number[10];
    size_t length = (size_t)(172 + number_bytes + 4 + 3 * (runs - 1));
    memset(long_again, 9, sizeof long_again);
    uint64_t result = bodlarina_image_salvage(long_image, cut, long_again, sizeof long_again, salvage_report, BODLARINA_REPORT_BYTES);
    int right = result == (uint64_t)length << 16 && put_groups(number, runs) == number_bytes && memcmp(long_again, long_image, 172) == 0;
    right = right && memcmp(long_again + 172, number, (size_t)number_bytes) == 0;
    right = right && memcmp(long_again + 172 + number_bytes, long_image + 175, length - 172 - (size_t)number_bytes) == 0;
    return right && all(long_again, length, sizeof long_again, 9) && are_numbers(salvage_report, report, 3);
}

static void salvage_longest(void)
{
    size_t whole = 175 + 4 + 3 * 65535;
    int right = 1;
    for (size_t cut = 179; cut < 179 + 3 * 130; cut++)
        right = right && longest_right(cut);
    for (size_t cut = 179 + 3 * 16380; cut < 179 + 3 * 16390; cut++)
        right = right && longest_right(cut);
    for (size_t cut = 1000; cut < whole; cut += 4999)
        right = right && longest_right(cut);
    for (size_t cut = whole - 7; cut <= whole; cut++)
        right = right && longest_right(cut);
    check(right, "salvage of cuts of the longest image");
}

/* What is kept is read: the same numbers, the marks and bytes of the runs kept, and no others. */
static void salvage_read(void)
{
    static const uint64_t numbers[] = {64, 128, 1, 2, 2, 3, 5, 300, 0, 32, 1};
    uint64_t result = salvage_into(image, sizeof image - 1, sizeof salvage_room, BODLARINA_REPORT_BYTES);
    fill();
    int right = bodlarina_bench_image_read(&small, salvage_room, (size_t)BODLARINA_LENGTH(result)) == 0 && are_numbers(small_machine, numbers, 11);
    right = right && small_registers[1] == 11 && small_registers[2] == 0 && small_registers[0] == 7 && all(small_registers, 3, SMALL_BYTES, 7);
    right = right && small_marks[0] == 0 && all(small_marks, 1, 3, 1) && all(small_marks, 3, SMALL_BYTES, 0);
    check(right, "what a salvage kept is read: the machine without the run that was cut");
}

static void salvages(void)
{
    salvage_cuts();
    salvage_damaged();
    salvage_longer();
    salvage_reports();
    salvage_many();
    salvage_longest();
    salvage_read();
}

/* ---- stack: a call in a thread whose stack was painted ---- */

enum { STACK_STRIDE = 1208 };

static struct bodlarina_plan stack_plan = {
    8, 4, 150, 150, 150, {0, STACK_STRIDE}, {200000, STACK_STRIDE}, {400000, STACK_STRIDE}, BODLARINA_PRODUCT,
};
static uint64_t count, stack_result;
static uint32_t stack_word;
static size_t stack_most; /* of the deepest call so far */

static void no_call(void) {}
static void whole_run(void) { stack_result = bodlarina_bench_run(&large, &stack_plan, &count); }
static void run_start(void) { stack_result = bodlarina_bench_run_start(&large, &stack_plan); }
static void all_turns(void) { stack_result = bodlarina_bench_run_turns(&large, UINT64_MAX) == 0; }
static void one_step(void) { stack_result = bodlarina_bench_step(&large, stack_word); }
static void one_range(void) { stack_result = bodlarina_bench_seal(&large, MEMORY_BYTES + 8, 1); }
static void image_size(void) { stack_result = BODLARINA_ANSWER(bodlarina_bench_image_size(&large)); }
static size_t stack_image_length;

static void write_image(void)
{
    uint64_t result = bodlarina_bench_image_write(&large, long_image, sizeof long_image);
    stack_image_length = (size_t)BODLARINA_LENGTH(result);
    stack_result = BODLARINA_ANSWER(result);
}

static void read_image(void) { stack_result = bodlarina_bench_image_read(&large, long_image, stack_image_length); }

static void salvage_image(void)
{
    stack_result = BODLARINA_ANSWER(bodlarina_image_salvage(long_image, stack_image_length - 1, long_again, sizeof long_again, salvage_report,
                                                            BODLARINA_REPORT_BYTES));
}

static void *call(void *function)
{
    (*(void (**)(void))function)();
    return NULL;
}

static size_t stack_of(void (*function)(void))
{
    uint8_t *stack = mmap(NULL, STACK_BYTES, PROT_READ | PROT_WRITE, MAP_PRIVATE | MAP_ANONYMOUS, -1, 0);
    size_t clean = 0;
    pthread_attr_t attributes;
    pthread_t thread;
    memset(stack, 0xa5, STACK_BYTES);
    pthread_attr_init(&attributes);
    pthread_attr_setstack(&attributes, stack, STACK_BYTES);
    pthread_create(&thread, &attributes, call, &function);
    pthread_join(thread, NULL);
    while (stack[clean] == 0xa5)
        clean++;
    munmap(stack, STACK_BYTES);
    return STACK_BYTES - clean;
}

/* Measures a call, which has to be done. */
static int measure(void (*function)(void))
{
    size_t used = stack_of(function);
    stack_most = used > stack_most ? used : stack_most;
    return stack_result == 0;
}

static int measure_word(uint32_t word)
{
    stack_word = word;
    return measure(one_step);
}

/* The calls on a plan of this kind. */
static int measure_plan(uint64_t kind, uint64_t sew, uint64_t factor)
{
    stack_plan.kind = kind;
    stack_plan.sew = sew;
    stack_plan.factor = factor;
    return measure(whole_run) && measure(run_start) && measure(all_turns);
}

/* Loads and stores of A, B and C at SEW; those of C at the output's width too. The stride is in x11: as long as a row of an accumulator, or
 * as a column of elements of 64 bits. */
static int measure_transfers(unsigned width, unsigned c_width)
{
    static uint32_t (*const of_ab[][4])(uint32_t, uint32_t, uint32_t) = {
        {bodlarina_mlae8_m, bodlarina_mlae16_m, bodlarina_mlae32_m, bodlarina_mlae64_m},
        {bodlarina_mlbe8_m, bodlarina_mlbe16_m, bodlarina_mlbe32_m, bodlarina_mlbe64_m},
        {bodlarina_msae8_m, bodlarina_msae16_m, bodlarina_msae32_m, bodlarina_msae64_m},
        {bodlarina_msbe8_m, bodlarina_msbe16_m, bodlarina_msbe32_m, bodlarina_msbe64_m},
        {bodlarina_mlate8_m, bodlarina_mlate16_m, bodlarina_mlate32_m, bodlarina_mlate64_m},
        {bodlarina_mlbte8_m, bodlarina_mlbte16_m, bodlarina_mlbte32_m, bodlarina_mlbte64_m},
        {bodlarina_msate8_m, bodlarina_msate16_m, bodlarina_msate32_m, bodlarina_msate64_m},
        {bodlarina_msbte8_m, bodlarina_msbte16_m, bodlarina_msbte32_m, bodlarina_msbte64_m},
    };
    static uint32_t (*const of_c[][4])(uint32_t, uint32_t, uint32_t) = {
        {bodlarina_mlce8_m, bodlarina_mlce16_m, bodlarina_mlce32_m, bodlarina_mlce64_m},
        {bodlarina_msce8_m, bodlarina_msce16_m, bodlarina_msce32_m, bodlarina_msce64_m},
        {bodlarina_mlcte8_m, bodlarina_mlcte16_m, bodlarina_mlcte32_m, bodlarina_mlcte64_m},
        {bodlarina_mscte8_m, bodlarina_mscte16_m, bodlarina_mscte32_m, bodlarina_mscte64_m},
    };
    uint64_t rlen = bodlarina_get64(large_machine + BODLARINA_MACHINE_RLEN_AT), plain = rlen / 2, transposed = 4 * large.marks_len / rlen;
    int right = 1;
    for (unsigned i = 0; i < 8; i++) {
        bodlarina_bench_set_scalar(&large, 11, i < 4 ? plain : transposed);
        right = right && measure_word(of_ab[i][width](0, 0, 11));
    }
    for (unsigned i = 0; i < 4; i++) {
        bodlarina_bench_set_scalar(&large, 11, i < 2 ? plain : transposed);
        right = right && measure_word(of_c[i][width](0, 0, 11)) && measure_word(of_c[i][c_width](1, 0, 11));
    }
    return right;
}

/* Multiply and the element-wise words of the output's width: 1, 2 or 4 times SEW at 0, 1 or 2. */
static int measure_arithmetic(unsigned times)
{
    static uint32_t (*const with_two[][3])(uint32_t, uint32_t) = {
        {bodlarina_maddc_mm, bodlarina_mwaddc_mm, bodlarina_mqaddc_mm},
        {bodlarina_msubc_mm, bodlarina_mwsubc_mm, bodlarina_mqsubc_mm},
        {bodlarina_mrsubc_mm, bodlarina_mwrsubc_mm, bodlarina_mqrsubc_mm},
    };
    static uint32_t (*const with_three[][3])(uint32_t, uint32_t, uint32_t) = {
        {bodlarina_mma_mm, bodlarina_mwma_mm, bodlarina_mqma_mm},
        {bodlarina_memulc_mx, bodlarina_mwemulc_mx, bodlarina_mqemulc_mx},
    };
    static uint32_t (*const with_immediate[3])(uint32_t, uint32_t, int32_t) = {
        bodlarina_memulc_mi, bodlarina_mwemulc_mi, bodlarina_mqemulc_mi,
    };
    int right = measure_word(with_immediate[times](0, 0, 0)) && measure_word(with_immediate[times](1, 1, -7));
    for (unsigned i = 0; i < 2; i++)
        right = right && measure_word(with_three[i][times](0, 1, 1));
    for (unsigned i = 0; i < 3; i++)
        right = right && measure_word(with_two[i][times](0, 1)) && measure_word(with_two[i][times](1, 1));
    return right;
}

/* Moves of two rows and of two columns, each as long as a vector register where the machine has room for that. */
static int measure_moves(unsigned width)
{
    large.vectors = vectors;
    large.vectors_len = sizeof vectors;
    large.group = 2;
    int right = measure_word(bodlarina_msettilemi(0, 16u >> width)) && measure_word(bodlarina_msettileni(0, 16u >> width));
    right = right && measure_word(bodlarina_mmvcr_v_m(0, 1, 0)) && measure_word(bodlarina_mmvcr_m_v(1, 8, 0));
    right = right && measure_word(bodlarina_mmvcc_v_m(0, 1, 0)) && measure_word(bodlarina_mmvcc_m_v(1, 8, 0));
    return right && measure_word(bodlarina_msettilem(1, 0)) && measure_word(bodlarina_msettilen(1, 0));
}

/* Every family under one mtype with the largest tiles, all registers written. */
static int measure_type(unsigned width, unsigned times)
{
    uint32_t mtype = width | (times == 2 ? BODLARINA_MACCQ : 0);
    memset(large_marks, 1, large.marks_len);
    int right = measure_word(bodlarina_msettypei(0, mtype)) && measure_word(bodlarina_msettilem(1, 0));
    right = right && measure_word(bodlarina_msettilek(1, 0)) && measure_word(bodlarina_msettilen(1, 0));
    right = right && measure_transfers(width, width + times) && measure_arithmetic(times) && measure_moves(width);
    right = right && (mtype != BODLARINA_E32 || measure_word(bodlarina_mfma_mm(0, 0, 1)));
    right = right && measure(image_size) && measure(write_image) && measure(read_image) && measure(salvage_image);
    return right && measure_plan(BODLARINA_PRODUCT, (uint64_t)8 << width, (uint64_t)1 << times)
           && measure_plan(BODLARINA_A_TRANSPOSED, (uint64_t)8 << width, (uint64_t)1 << times);
}

/* With eight ranges behind memory. */
static int measure_machine(uint64_t rlen, uint64_t mlen, uint64_t elen)
{
    int right = large_start(rlen, mlen, elen) == 0;
    for (unsigned i = 0; i < BODLARINA_SEALS_MOST; i++)
        right = right && measure(one_range);
    for (unsigned width = 0; width < 4; width++)
        for (unsigned times = 0; times < 3; times++)
            right = right && ((uint64_t)8 << (width + times) > elen || measure_type(width, times));
    return right && measure_plan(BODLARINA_FLOAT, 32, 1);
}

/* ---- lines of assembler text */

static int line_is(uint32_t word, const char *line)
{
    uint8_t text[BODLARINA_TEXT_BYTES_MOST + 4], block[BODLARINA_WORD_BYTES];
    size_t length = strlen(line);
    memset(text, 9, sizeof text);
    int right = bodlarina_word_text(word, text, length - 1) == BODLARINA_NO_ROOM && all(text, 0, sizeof text, 9);
    right = right && bodlarina_word_text(word, text, length) == (uint64_t)length << 16;
    right = right && memcmp(text, line, length) == 0 && all(text, length, sizeof text, 9);
    right = right && bodlarina_text_word(text, length, block, sizeof block) == 0;
    return right && bodlarina_get64(block) == word;
}

static int no_line(const char *line, uint64_t column)
{
    uint8_t block[BODLARINA_WORD_BYTES + 1];
    memset(block, 9, sizeof block);
    const uint8_t *text = (const uint8_t *)line;
    int right = bodlarina_text_word(text, strlen(line), block, BODLARINA_WORD_BYTES) == (BODLARINA_BAD_LINE | column << 16);
    right = right && bodlarina_text_word(text, strlen(line), block, sizeof block) == BODLARINA_BAD_ARGUMENTS;
    return right && bodlarina_text_word(text, strlen(line), block, BODLARINA_WORD_BYTES - 1) == BODLARINA_BAD_ARGUMENTS && all(block, 0, sizeof block, 9);
}

/* What a step gives for the code of a word: 10, 11, 1, 12 or, for any other answer, 0. */
static uint64_t code_answer(uint32_t word)
{
    static uint8_t block[BODLARINA_MACHINE_BYTES], bytes[BODLARINA_REGISTER_BYTES(128)], written[sizeof bytes];
    static uint8_t values[BODLARINA_SCALAR_BYTES], memory[1], file[BODLARINA_VECTOR_BYTES];
    bodlarina_start(64, 128, 32, BODLARINA_SMALLER, no_seals, 0, block, sizeof block, bytes, sizeof bytes, written, sizeof written);
    uint64_t result = bodlarina_step(word, 1, block, sizeof block, bytes, sizeof bytes, written, sizeof written, values, sizeof values,
                                     memory, sizeof memory, file, sizeof file);
    return result == 1 || (10 <= result && result <= 12) ? result : 0;
}

/* A line exactly where a step does not refuse the code, and the word back. */
static int line_back(uint32_t word)
{
    uint8_t text[BODLARINA_TEXT_BYTES_MOST], block[BODLARINA_WORD_BYTES];
    memset(text, 9, sizeof text);
    uint64_t result = bodlarina_word_text(word, text, sizeof text);
    if (BODLARINA_ANSWER(result) != code_answer(word))
        return 0;
    if (BODLARINA_ANSWER(result) != BODLARINA_DONE)
        return result == BODLARINA_ANSWER(result) && all(text, 0, sizeof text, 9);
    return bodlarina_text_word(text, (size_t)BODLARINA_LENGTH(result), block, sizeof block) == 0 && bodlarina_get64(block) == word;
}

static void text_lines(void)
{
    int right = line_is(bodlarina_msettypei(5, 8), "msettypei x5, 8") && line_is(bodlarina_mlae8_m(0, 10, 11), "mlae8.m tr0, (x10), x11");
    right = right && line_is(bodlarina_memulc_mi(1, 0, -16), "memulc.mi acc1, acc0, -16");
    right = right && line_is(bodlarina_mmvcr_v_m(31, 0, 12), "mmvcr.v.m v31, acc0, x12");
    check(right, "the line of a word, where it just fits and where it does not, and back");
    right = no_line("", 1) && no_line("mqma", 5) && no_line("mgma.mm acc0, tr0, tr1", 2) && no_line("msettypei x05, 8", 13);
    right = right && no_line("memulc.mi acc0, acc0, -17", 25) && no_line("maddc.mm  acc0, acc1", 10) && no_line("maddc.mm acc0, acc1 ", 20);
    check(right, "no line: 17 and the column; a block of another length: 8; and nothing changes");
    right = 1;
    for (uint32_t i = 0; i < 200000; i++)
        right = right && line_back((i * 2654435761u & ~(uint32_t)127) | (i % 16 != 0 ? 119 : i / 16 % 128));
    for (uint32_t code = 0; code < 1024; code++) /* bits 31..25 and 14..12, with registers in and out of range */
        for (uint32_t i = 0; i < 64; i++)
            right = right && line_back((code >> 3 << 25) | (code & 7) << 12 | 119 | (i % 4) << 7 | (i / 4 % 4 * 3) << 15 | (i / 16 * 5) << 20);
    check(right, "words to lines and back, and the answers of steps");
}

static uint8_t listed[BODLARINA_TEXT_BYTES_MOST], listed_word[BODLARINA_WORD_BYTES];

static void list_word(void) { stack_result = BODLARINA_ANSWER(bodlarina_word_text(bodlarina_mqma_mm(0, 0, 1), listed, sizeof listed)); }

static void read_listed(void) { stack_result = bodlarina_text_word(listed, 22, listed_word, sizeof listed_word); }

static void stack(void)
{
    size_t none = stack_of(no_call);
    int right = measure_machine(512, 4096, 32) && measure_machine(4096, 65536, 64) && measure_machine(512, 65536, 64);
    right = right && measure(list_word) && measure(read_listed);
    check(right && measure_machine(64, 65536, 32), "calls of every family on the largest machines are done");
    printf("stack: %zu bytes\n", stack_most - none);
    check(stack_most > none && stack_most - none <= MOST_STACK, "the stack of the deepest call");
}

int main(void)
{
    version();
    texts();
    steps();
    rules();
    slot0();
    floats();
    images();
    larger();
    moves();
    sealed_ranges();
    salvages();
    text_lines();
    stack();
    printf("%d passed, %d failed\n", passed, failed);
    return failed != 0;
}
