/* Numbers from the bytes of an input, and a machine of them. */
#ifndef INPUT_H
#define INPUT_H

#include "held.h"

struct input {
    const uint8_t *bytes;
    size_t length;
};

/* The next byte; 0 past the end. */
unsigned next_byte(struct input *input);

/* A number of 16 or 32 bits, low byte first. */
unsigned next_16(struct input *input);
uint32_t next_32(struct input *input);

/* A number of 64 bits: a byte says of how many bytes it is made, 0 to 8, and whether it is negative. */
uint64_t next_64(struct input *input);

/* The buffers of a machine; the lengths are what is lent, right or wrong. */
struct desk {
    uint8_t machine[256], scalars[320], vectors[576], run[192], memory[16384];
    uint8_t registers[HELD_BYTES_MOST], marks[HELD_BYTES_MOST];
    size_t machine_len, registers_len, marks_len, scalars_len, vectors_len, memory_len, run_len;
    uint64_t group;
};

/* A machine that is started, or whose start is refused, with memory, and registers of any bytes. */
void desk_start(struct desk *desk, struct input *input);

/* Changes something on the desk: a scalar, a number of the machine's block, marks, bytes, the group or a length. */
void desk_change(struct desk *desk, struct input *input);

/* A word on the desk. */
uint64_t desk_step(struct desk *desk, uint32_t word);

#endif
