/* Calls of the library held to the second program: held_NAME has the arguments of bodlarina_NAME and returns what that one returns. The library is
 * called twice, with buffers that end where a page begins that may not be touched, and with buffers that begin where one ends. Each time its
 * result and its buffers must be those of the second program (compare/src/second.rs), and a refusal must have changed no byte; else the program
 * says what differs, and aborts. */
#ifndef HELD_H
#define HELD_H

#include "bodlarina.h"

/* The longest buffer; a call with a longer one is the library's alone. */
#define HELD_BYTES_MOST 262144

#define HELD_PLAN \
    uint64_t kind, uint64_t sew, uint64_t factor, uint64_t m, uint64_t k, uint64_t n, uint64_t a, int64_t a_stride, uint64_t b, int64_t b_stride, \
        uint64_t c, int64_t c_stride
#define HELD_BUFFER(name) uint8_t *name, size_t name##_len
#define HELD_CONST(name) const uint8_t *name, size_t name##_len
#define HELD_STATE HELD_BUFFER(machine), HELD_BUFFER(registers), HELD_BUFFER(marks)
#define HELD_CONST_STATE HELD_CONST(machine), HELD_CONST(registers), HELD_CONST(marks)

/* The functions of the header, and those of the second program, under the names that `name` makes of theirs. */
#define HELD_FUNCTIONS(name) \
    uint64_t name(start)(uint64_t rlen, uint64_t mlen, uint64_t elen, uint64_t rule, const uint64_t *seals, size_t seals_len, HELD_BUFFER(machine), \
                         HELD_CONST(registers), HELD_BUFFER(marks)); \
    uint64_t name(seal)(uint64_t start, uint64_t length, HELD_BUFFER(machine), HELD_CONST(registers), HELD_CONST(marks)); \
    uint64_t name(step)(uint32_t word, uint64_t group, HELD_STATE, HELD_BUFFER(scalars), HELD_BUFFER(memory), HELD_BUFFER(vectors)); \
    uint64_t name(run_start)(HELD_PLAN, HELD_CONST_STATE, HELD_CONST(memory), HELD_BUFFER(run)); \
    uint64_t name(run_next)(HELD_BUFFER(run), HELD_BUFFER(handed)); \
    uint64_t name(run_steps)(HELD_CONST(run)); \
    uint64_t name(run_turn)(HELD_BUFFER(run), HELD_STATE, HELD_BUFFER(memory)); \
    uint64_t name(run_turns)(uint64_t turns, HELD_BUFFER(run), HELD_STATE, HELD_BUFFER(memory)); \
    uint64_t name(run)(HELD_PLAN, HELD_STATE, HELD_BUFFER(memory), HELD_BUFFER(steps)); \
    uint64_t name(image_size)(HELD_CONST_STATE); \
    uint64_t name(image_write)(HELD_CONST_STATE, HELD_BUFFER(image)); \
    uint64_t name(image_read)(HELD_CONST(image), HELD_STATE); \
    uint64_t name(image_salvage)(HELD_CONST(image), HELD_BUFFER(room), HELD_BUFFER(report)); \
    uint64_t name(word_text)(uint32_t word, HELD_BUFFER(text)); \
    uint64_t name(text_word)(HELD_CONST(text), HELD_BUFFER(word))

#define HELD_NAME(function) held_##function
HELD_FUNCTIONS(HELD_NAME);

/* Aborts with a sentence unless a rule holds. */
void must(int holds, const char *rule);

#endif
