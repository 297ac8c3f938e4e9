#define _DEFAULT_SOURCE

#include "held.h"

#include <stdio.h>
#include <stdlib.h>
#include <string.h>
#include <sys/mman.h>

enum { PAGE = 4096, LENT_MOST = 6, STEPS_MOST = 2000, ELEMENTS_MOST = 4096 };

#define SECOND_NAME(function) second_##function
HELD_FUNCTIONS(SECOND_NAME);

/* A buffer as the caller lends it. */
struct lent {
    const char *name;
    uint8_t *bytes;
    size_t length;
    int constant;
};

/* Where the library works, between pages that may not be touched, and what is expected there. */
static uint8_t *pages[LENT_MOST];
static uint8_t expected_bytes[LENT_MOST][HELD_BYTES_MOST];

static void reserve(void)
{
    size_t i;
    for (i = 0; i < LENT_MOST && pages[i] == NULL; i++) {
        uint8_t *all = mmap(NULL, HELD_BYTES_MOST + 2 * PAGE, PROT_NONE, MAP_PRIVATE | MAP_ANONYMOUS, -1, 0);
        if (all == MAP_FAILED || mprotect(all + PAGE, HELD_BYTES_MOST, PROT_READ | PROT_WRITE) != 0) {
            perror("mmap");
            exit(2);
        }
        pages[i] = all + PAGE;
    }
}

static int fits(const struct lent *lent, size_t count)
{
    size_t i;
    for (i = 0; i < count; i++)
        if (lent[i].length > HELD_BYTES_MOST)
            return 0;
    reserve();
    return 1;
}

/* An empty buffer may stand nowhere. */
static void copy(uint8_t *to, const uint8_t *from, size_t length)
{
    if (length > 0)
        memcpy(to, from, length);
}

static void lend_own(const struct lent *lent, size_t count, uint8_t **at)
{
    size_t i;
    for (i = 0; i < count; i++)
        at[i] = lent[i].bytes;
}

static void lend_second(const struct lent *lent, size_t count, uint8_t **at)
{
    size_t i;
    for (i = 0; i < count; i++) {
        at[i] = expected_bytes[i];
        copy(at[i], lent[i].bytes, lent[i].length);
    }
}

/* Side 0: each buffer ends where a page begins that may not be touched; side 1: it begins where one ends. */
static void lend_guarded(const struct lent *lent, size_t count, uint8_t **at, int side)
{
    size_t i;
    for (i = 0; i < count; i++) {
        at[i] = side == 0 ? pages[i] + HELD_BYTES_MOST - lent[i].length : pages[i];
        copy(at[i], lent[i].bytes, lent[i].length);
    }
}

static void hold_bytes(const char *function, const char *buffer, const char *rule, const uint8_t *found, const uint8_t *expected, size_t length)
{
    size_t i = 0;
    if (length == 0 || memcmp(found, expected, length) == 0)
        return;
    while (found[i] == expected[i])
        i++;
    dprintf(2, "bodlarina_%s: %s: byte %zu of %zu of %s is %02x, not %02x\n", function, rule, i, length, buffer, found[i], expected[i]);
    abort();
}

static void hold(const char *function, const struct lent *lent, size_t count, uint8_t **at, uint64_t result, uint64_t expected, int refused)
{
    size_t i;
    if (result != expected) {
        dprintf(2, "bodlarina_%s: %#llx, second program %#llx\n", function, (unsigned long long)result, (unsigned long long)expected);
        abort();
    }
    for (i = 0; i < count; i++) {
        hold_bytes(function, lent[i].name, "not as the second program leaves it", at[i], expected_bytes[i], lent[i].length);
        if (refused || lent[i].constant)
            hold_bytes(function, lent[i].name, refused ? "a refusal changed it" : "it is const", at[i], lent[i].bytes, lent[i].length);
    }
}

static void take_over(const struct lent *lent, size_t count, uint8_t **at)
{
    size_t i;
    for (i = 0; i < count; i++)
        if (!lent[i].constant)
            copy(lent[i].bytes, at[i], lent[i].length);
}

/* What the library did where the second program takes too long: its other side must do the same. */
static void expect(const struct lent *lent, size_t count, uint8_t **at)
{
    size_t i;
    for (i = 0; i < count; i++)
        copy(expected_bytes[i], at[i], lent[i].length);
}

static int large_plan(uint64_t m, uint64_t k, uint64_t n)
{
    return m <= 1024 && k <= 1024 && n <= 1024 && m * k + k * n + m * n > ELEMENTS_MOST;
}

static int long_run(const uint8_t *run, size_t run_len) { return bodlarina_run_steps(run, run_len) > STEPS_MOST; }

#define LENT(name) {#name, name, name##_len, 0}
#define KEPT(name) {#name, (uint8_t *)(uintptr_t)(name), name##_len, 1}
#define AT(i) at[i], lent[i].length
#define PLAN kind, sew, factor, m, k, n, a, a_stride, b, b_stride, c, c_stride
#define ANSWERED (BODLARINA_ANSWER(result) != 0)

/* slow: whether the second program takes too long; refused: whether a result is a refusal; then the buffers. */
#define HELD(function, parameters, arguments, slow, refused, ...) \
    uint64_t held_##function parameters \
    { \
        struct lent lent[] = {__VA_ARGS__}; \
        size_t count = sizeof lent / sizeof lent[0]; \
        uint8_t *at[LENT_MOST]; \
        uint64_t expected = 0, result = 0; \
        int side, alone = slow; \
        if (!fits(lent, count)) { \
            lend_own(lent, count, at); \
            return bodlarina_##function arguments; \
        } \
        if (!alone) { \
            lend_second(lent, count, at); \
            expected = second_##function arguments; \
        } \
        for (side = 0; side < 2; side++) { \
            lend_guarded(lent, count, at, side); \
            result = bodlarina_##function arguments; \
            if (alone && side == 0) { \
                expected = result; \
                expect(lent, count, at); \
            } \
            hold(#function, lent, count, at, result, expected, refused); \
        } \
        take_over(lent, count, at); \
        return result; \
    }

HELD(start,
     (uint64_t rlen, uint64_t mlen, uint64_t elen, uint64_t rule, const uint64_t *seals, size_t seals_len, HELD_BUFFER(machine),
      HELD_CONST(registers), HELD_BUFFER(marks)),
     (rlen, mlen, elen, rule, (const uint64_t *)(void *)at[0], seals_len, AT(1), AT(2), AT(3)), 0, ANSWERED,
     {"seals", (uint8_t *)(uintptr_t)seals, 8 * seals_len, 1}, LENT(machine), KEPT(registers), LENT(marks))
HELD(seal, (uint64_t start, uint64_t length, HELD_BUFFER(machine), HELD_CONST(registers), HELD_CONST(marks)),
     (start, length, AT(0), AT(1), AT(2)), 0, ANSWERED, LENT(machine), KEPT(registers), KEPT(marks))
HELD(step, (uint32_t word, uint64_t group, HELD_STATE, HELD_BUFFER(scalars), HELD_BUFFER(memory), HELD_BUFFER(vectors)),
     (word, group, AT(0), AT(1), AT(2), AT(3), AT(4), AT(5)), 0, ANSWERED, LENT(machine), LENT(registers), LENT(marks), LENT(scalars),
     LENT(memory), LENT(vectors))
HELD(run_start, (HELD_PLAN, HELD_CONST_STATE, HELD_CONST(memory), HELD_BUFFER(run)), (PLAN, AT(0), AT(1), AT(2), AT(3), AT(4)),
     large_plan(m, k, n), ANSWERED, KEPT(machine), KEPT(registers), KEPT(marks), KEPT(memory), LENT(run))
HELD(run_next, (HELD_BUFFER(run), HELD_BUFFER(handed)), (AT(0), AT(1)), long_run(run, run_len), ANSWERED, LENT(run), LENT(handed))
HELD(run_steps, (HELD_CONST(run)), (AT(0)), 0, result == 0, KEPT(run))
HELD(run_turn, (HELD_BUFFER(run), HELD_STATE, HELD_BUFFER(memory)), (AT(0), AT(1), AT(2), AT(3), AT(4)), long_run(run, run_len), ANSWERED,
     LENT(run), LENT(machine), LENT(registers), LENT(marks), LENT(memory))
HELD(run_turns, (uint64_t turns, HELD_BUFFER(run), HELD_STATE, HELD_BUFFER(memory)), (turns, AT(0), AT(1), AT(2), AT(3), AT(4)),
     long_run(run, run_len), result == 0, LENT(run), LENT(machine), LENT(registers), LENT(marks), LENT(memory))
HELD(run, (HELD_PLAN, HELD_STATE, HELD_BUFFER(memory), HELD_BUFFER(steps)), (PLAN, AT(0), AT(1), AT(2), AT(3), AT(4)), large_plan(m, k, n),
     ANSWERED, LENT(machine), LENT(registers), LENT(marks), LENT(memory), LENT(steps))
HELD(image_size, (HELD_CONST_STATE), (AT(0), AT(1), AT(2)), 0, ANSWERED, KEPT(machine), KEPT(registers), KEPT(marks))
HELD(image_write, (HELD_CONST_STATE, HELD_BUFFER(image)), (AT(0), AT(1), AT(2), AT(3)), 0, ANSWERED, KEPT(machine), KEPT(registers),
     KEPT(marks), LENT(image))
HELD(image_read, (HELD_CONST(image), HELD_STATE), (AT(0), AT(1), AT(2), AT(3)), 0, ANSWERED, KEPT(image), LENT(machine), LENT(registers),
     LENT(marks))
HELD(image_salvage, (HELD_CONST(image), HELD_BUFFER(room), HELD_BUFFER(report)), (AT(0), AT(1), AT(2)), 0, ANSWERED, KEPT(image), LENT(room),
     LENT(report))
HELD(word_text, (uint32_t word, HELD_BUFFER(text)), (word, AT(0)), 0, ANSWERED, LENT(text))
HELD(text_word, (HELD_CONST(text), HELD_BUFFER(word)), (AT(0), AT(1)), 0, ANSWERED, KEPT(text), LENT(word))

void must(int holds, const char *rule)
{
    if (!holds) {
        dprintf(2, "it does not hold: %s\n", rule);
        abort();
    }
}
