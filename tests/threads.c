/* tests/threads.c: many threads at once, each on buffers of its own, calling every function of the header; and the same work again, one after
 * the other. Each has to find what it finds alone. What all of them read, an image and a list of sealed ranges, lies on pages that cannot be
 * written. Ends with 'N passed, M failed'. */
#define _GNU_SOURCE
#include <pthread.h>
#include <stdio.h>
#include <stdlib.h>
#include <string.h>
#include <sys/mman.h>

#include "bodlarina_words.h"

enum { THREADS = 64, ROUNDS = 12, WORDS = 400, RLEN = 128, MLEN = 1024, MEMORY_BYTES = 4096, IMAGE_BYTES = BODLARINA_IMAGE_BYTES_MOST(MLEN) };

/* What one thread has; they lie side by side, so that a byte too far is the next one's. */
struct work {
    uint8_t machine[BODLARINA_MACHINE_BYTES], registers[BODLARINA_REGISTER_BYTES(MLEN)], marks[BODLARINA_REGISTER_BYTES(MLEN)];
    uint8_t scalars[BODLARINA_SCALAR_BYTES], memory[MEMORY_BYTES], run[BODLARINA_RUN_BYTES], vectors[BODLARINA_VECTOR_BYTES];
    uint8_t handed[BODLARINA_HANDED_BYTES], image[IMAGE_BYTES], room[IMAGE_BYTES], report[BODLARINA_REPORT_BYTES];
    uint8_t text[BODLARINA_TEXT_BYTES_MOST], word[BODLARINA_WORD_BYTES];
    uint64_t random, digest;
    unsigned accepted; /* of its words */
};

/* What all read. */
struct lent {
    uint64_t seals[4];
    uint8_t image[IMAGE_BYTES];
    size_t image_length;
};

static struct work works[THREADS];
static struct lent *lent;
static pthread_barrier_t gate;

static uint64_t next(struct work *work)
{
    work->random ^= work->random << 13;
    work->random ^= work->random >> 7;
    work->random ^= work->random << 17;
    return work->random;
}

static void add(struct work *work, uint64_t result) { work->digest = (work->digest ^ result) * 0x100000001b3u + 1; }

static void add_bytes(struct work *work, const uint8_t *bytes, size_t length)
{
    size_t i;
    for (i = 0; i < length; i++)
        add(work, bytes[i]);
}

static struct bodlarina_bench bench_of(struct work *work)
{
    struct bodlarina_bench bench = {
        work->machine, sizeof work->machine, work->registers, sizeof work->registers, work->marks, sizeof work->marks,
        work->scalars, sizeof work->scalars, work->memory, sizeof work->memory, work->run, sizeof work->run,
        BODLARINA_SMALLER, 32, work->vectors, sizeof work->vectors, 2,
    };
    return bench;
}

static void add_all(struct work *work)
{
    add_bytes(work, work->machine, sizeof work->machine);
    add_bytes(work, work->registers, sizeof work->registers);
    add_bytes(work, work->marks, sizeof work->marks);
    add_bytes(work, work->scalars, sizeof work->scalars);
    add_bytes(work, work->memory, sizeof work->memory);
    add_bytes(work, work->vectors, sizeof work->vectors);
}

/* A plan with matrices of its own in memory. */
static struct bodlarina_plan plan_of(struct work *work)
{
    struct bodlarina_plan plan = {8, 4, 0, 0, 0, {0, 16}, {512, 16}, {1024, 64}, BODLARINA_PRODUCT};
    plan.m = 1 + next(work) % 16;
    plan.k = 1 + next(work) % 16;
    plan.n = 1 + next(work) % 16;
    return plan;
}

static void multiply(struct work *work)
{
    struct bodlarina_bench bench = bench_of(work);
    struct bodlarina_plan plan = plan_of(work);
    uint64_t steps = 0;
    add(work, bodlarina_bench_run(&bench, &plan, &steps));
    add(work, steps);
    plan = plan_of(work);
    add(work, bodlarina_bench_run_start(&bench, &plan));
    add(work, bodlarina_bench_run_steps(&bench));
    add(work, bodlarina_bench_run_turn(&bench));
    add(work, bodlarina_bench_run_turns(&bench, 3));
    add(work, bodlarina_bench_run_next(&bench, work->handed, sizeof work->handed));
    add_bytes(work, work->handed, sizeof work->handed);
    add(work, bodlarina_bench_run_turns(&bench, UINT64_MAX));
    add(work, (uint64_t)bodlarina_bench_run_is_over(&bench));
}

/* A word of each family, most of which a machine accepts, or one with random fields. Scalars 1 to 3 are small, 10 is an address and 11 a stride. */
static uint32_t random_word(struct work *work)
{
    uint32_t a = next(work) % 8, b = next(work) % 8, c = next(work) % 2;
    switch (next(work) % 16) {
    case 0: return bodlarina_msettypei(0, BODLARINA_E8);
    case 1: return bodlarina_msettilemi(0, 1 + a);
    case 2: return bodlarina_msettileki(0, 1 + a);
    case 3: return bodlarina_msettileni(0, 1 + a);
    case 4: return bodlarina_mlae8_m(a, 10, 11);
    case 5: return bodlarina_mlbe8_m(a, 10, 11);
    case 6: return bodlarina_mlce8_m(c, 10, 11);
    case 7: return bodlarina_msce8_m(c, 10, 11);
    case 8: return bodlarina_mlate8_m(a, 10, 11);
    case 9: return bodlarina_mma_mm(c, a, b);
    case 10: return bodlarina_maddc_mm(c, 1 - c);
    case 11: return bodlarina_memulc_mi(c, c, (int32_t)a - 4);
    case 12: return bodlarina_mmvcr_v_m(2 * a, c, 1);
    case 13: return bodlarina_mmvcc_m_v(c, 2 * a, 1);
    default: return ((uint32_t)next(work) & ~(uint32_t)127) | 119;
    }
}

/* Words, and their lines. */
static void take_words(struct work *work)
{
    struct bodlarina_bench bench = bench_of(work);
    uint64_t result;
    unsigned i;
    for (i = 0; i < WORDS; i++) {
        uint32_t word = random_word(work);
        bodlarina_bench_set_scalar(&bench, 1 + (unsigned)(next(work) % 3), next(work) % 3);
        bodlarina_bench_set_scalar(&bench, 10, next(work) % (MEMORY_BYTES / 2));
        bodlarina_bench_set_scalar(&bench, 11, 8 + next(work) % 32);
        result = bodlarina_bench_step(&bench, word);
        work->accepted += result == 0;
        add(work, result);
        result = bodlarina_word_text(word, work->text, sizeof work->text);
        add(work, result);
        if (BODLARINA_ANSWER(result) == 0)
            add(work, bodlarina_text_word(work->text, (size_t)BODLARINA_LENGTH(result), work->word, sizeof work->word));
        add_bytes(work, work->word, sizeof work->word);
    }
}

/* The image of the machine, what is salvaged of its front, and the machine of the image that all read. */
static void take_images(struct work *work)
{
    struct bodlarina_bench bench = bench_of(work);
    uint64_t result = bodlarina_bench_image_size(&bench);
    size_t length = (size_t)BODLARINA_LENGTH(result);
    add(work, result);
    add(work, bodlarina_bench_image_write(&bench, work->image, sizeof work->image));
    add_bytes(work, work->image, length);
    result = bodlarina_image_salvage(work->image, length * 3 / 4, work->room, sizeof work->room, work->report, sizeof work->report);
    add(work, result);
    add_bytes(work, work->room, (size_t)BODLARINA_LENGTH(result));
    add_bytes(work, work->report, sizeof work->report);
    add(work, bodlarina_image_salvage(lent->image, lent->image_length, work->room, sizeof work->room, work->report, sizeof work->report));
    add(work, bodlarina_bench_image_read(&bench, lent->image, lent->image_length));
}

static void *run_one(void *of)
{
    struct work *work = of;
    struct bodlarina_bench bench = bench_of(work);
    unsigned round;
    size_t i;
    for (round = 0; round < ROUNDS; round++) {
        for (i = 0; i < sizeof work->memory; i++)
            work->memory[i] = (uint8_t)next(work);
        add(work, bodlarina_version());
        add(work, bodlarina_bench_start_sealed(&bench, RLEN, MLEN, lent->seals, 4));
        multiply(work);
        take_words(work);
        add(work, bodlarina_bench_seal(&bench, next(work) % MEMORY_BYTES, 8));
        take_images(work);
        take_words(work);
        add_all(work);
    }
    return NULL;
}

static void *run_at_gate(void *of)
{
    pthread_barrier_wait(&gate);
    return run_one(of);
}

static void begin(void)
{
    size_t i;
    memset(works, 0, sizeof works);
    for (i = 0; i < THREADS; i++)
        works[i].random = 0x9e3779b97f4a7c15u * (i + 1);
}

/* An image of a machine with something in it, and two ranges behind the matrices. */
static int make_lent(void)
{
    static struct work maker;
    struct bodlarina_bench bench = bench_of(&maker);
    struct bodlarina_plan plan = {8, 4, 4, 4, 4, {0, 16}, {512, 16}, {1024, 64}, BODLARINA_PRODUCT};
    uint64_t result, steps;
    lent = mmap(NULL, sizeof *lent, PROT_READ | PROT_WRITE, MAP_PRIVATE | MAP_ANONYMOUS, -1, 0);
    if (lent == MAP_FAILED)
        return 0;
    lent->seals[0] = 3072;
    lent->seals[1] = 64;
    lent->seals[2] = 4000;
    lent->seals[3] = 96;
    if (bodlarina_bench_start_sealed(&bench, RLEN, MLEN, lent->seals, 4) != 0 || bodlarina_bench_run(&bench, &plan, &steps) != 0)
        return 0;
    result = bodlarina_bench_image_write(&bench, lent->image, sizeof lent->image);
    lent->image_length = (size_t)BODLARINA_LENGTH(result);
    return result != 0 && BODLARINA_ANSWER(result) == 0 && mprotect(lent, sizeof *lent, PROT_READ) == 0;
}

int main(void)
{
    static pthread_t threads[THREADS];
    static struct work together[THREADS];
    int passed = 0, failed = 0;
    size_t i;
    if (!make_lent() || pthread_barrier_init(&gate, NULL, THREADS) != 0)
        return 2;
    begin();
    for (i = 0; i < THREADS; i++)
        if (pthread_create(&threads[i], NULL, run_at_gate, &works[i]) != 0)
            return 2;
    for (i = 0; i < THREADS; i++)
        pthread_join(threads[i], NULL);
    memcpy(together, works, sizeof works);
    begin();
    for (i = 0; i < THREADS; i++)
        run_one(&works[i]);
    for (i = 0; i < THREADS; i++)
        if (memcmp(&together[i], &works[i], sizeof works[i]) == 0 && works[i].accepted > ROUNDS * WORDS / 2
            && (i == 0 || works[i].digest != works[0].digest)) {
            passed++;
        } else {
            failed++;
            printf("FAILED: thread %lu, %u words accepted\n", (unsigned long)i, works[i].accepted);
        }
    printf("%d passed, %d failed\n", passed, failed);
    return failed != 0;
}
