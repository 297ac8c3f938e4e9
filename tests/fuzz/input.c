#include "input.h"

#include <string.h>

unsigned next_byte(struct input *input)
{
    if (input->length == 0)
        return 0;
    input->length--;
    return *input->bytes++;
}

unsigned next_16(struct input *input)
{
    unsigned low = next_byte(input);
    return low | next_byte(input) << 8;
}

uint32_t next_32(struct input *input)
{
    uint32_t low = next_16(input);
    return low | (uint32_t)next_16(input) << 16;
}

uint64_t next_64(struct input *input)
{
    unsigned form = next_byte(input), bytes = form % 16 > 8 ? 8 : form % 16, i;
    uint64_t number = 0;
    for (i = 0; i < bytes; i++)
        number |= (uint64_t)next_byte(input) << (8 * i);
    return form & 16 ? ~number : number;
}

/* Bytes that differ from each other, by a seed. */
static void fill(uint8_t *bytes, size_t length, unsigned seed)
{
    uint32_t state = seed * 2654435761u + 1;
    size_t i;
    for (i = 0; i < length; i++) {
        state = state * 1664525u + 1013904223u;
        bytes[i] = (uint8_t)(state >> 24);
    }
}

void desk_start(struct desk *desk, struct input *input)
{
    unsigned lengths = next_16(input), flags = next_byte(input), seed = next_byte(input), i;
    uint64_t rlen = (uint64_t)64 << lengths % 8, mlen = (uint64_t)128 << lengths / 8 % 10, seals[20];
    size_t seals_len = flags / 16;
    desk->machine_len = BODLARINA_MACHINE_BYTES;
    desk->registers_len = desk->marks_len = BODLARINA_REGISTER_BYTES(mlen);
    desk->scalars_len = BODLARINA_SCALAR_BYTES;
    desk->vectors_len = BODLARINA_VECTOR_BYTES;
    desk->run_len = BODLARINA_RUN_BYTES;
    desk->memory_len = next_16(input) % sizeof desk->memory;
    desk->group = (uint64_t)1 << flags / 4 % 4;
    memset(desk->machine, 0, sizeof desk->machine);
    memset(desk->run, 0, sizeof desk->run);
    memset(desk->scalars, 0, sizeof desk->scalars);
    fill(desk->vectors, sizeof desk->vectors, seed);
    fill(desk->memory, desk->memory_len, seed);
    fill(desk->registers, desk->registers_len, seed);
    memset(desk->marks, 0xa5, desk->marks_len);
    for (i = 0; i < seals_len; i++)
        seals[i] = next_64(input);
    if (held_start(rlen, mlen, flags & 1 ? 64 : 32, flags / 2 % 2, seals, seals_len, desk->machine, desk->machine_len, desk->registers,
                   desk->registers_len, desk->marks, desk->marks_len)
        != 0)
        memset(desk->marks, 0, desk->marks_len);
}

/* Sets bytes of a buffer to one value, or to bytes of the input. */
static void change_bytes(uint8_t *buffer, size_t room, struct input *input, int marks)
{
    size_t from = next_16(input) * (marks ? 4 : 1), length = next_16(input), i;
    unsigned value = next_byte(input);
    for (i = from; i < room && i < from + length; i++)
        buffer[i] = (uint8_t)(marks ? value % 4 : value < 128 ? value : next_byte(input));
}

/* A length between 16 bytes less and as many more than it was. */
static void change_length(size_t *length, size_t room, unsigned by)
{
    size_t changed = *length + by % 32;
    if (changed >= 16 && changed - 16 <= room)
        *length = changed - 16;
    if (by / 32 == 7)
        *length = 0;
}

static void change_lengths(struct desk *desk, struct input *input)
{
    unsigned by = next_byte(input);
    switch (next_byte(input) % 8) {
    case 0: change_length(&desk->machine_len, sizeof desk->machine, by); break;
    case 1: change_length(&desk->registers_len, sizeof desk->registers, by); break;
    case 2: change_length(&desk->marks_len, sizeof desk->marks, by); break;
    case 3: change_length(&desk->scalars_len, sizeof desk->scalars, by); break;
    case 4: change_length(&desk->vectors_len, sizeof desk->vectors, by); break;
    case 5: change_length(&desk->run_len, sizeof desk->run, by); break;
    case 6: change_length(&desk->memory_len, sizeof desk->memory, by); break;
    case 7: desk->group = by; break;
    }
}

void desk_change(struct desk *desk, struct input *input)
{
    unsigned at;
    switch (next_byte(input) % 8) {
    case 0:
    case 1:
        at = next_byte(input) % 32;
        bodlarina_put64(desk->scalars + BODLARINA_SCALAR_AT(at), next_64(input));
        break;
    case 2:
        at = next_byte(input) % 25;
        bodlarina_put64(desk->machine + 8 * at, next_64(input));
        break;
    case 3: change_bytes(desk->marks, desk->marks_len, input, 1); break;
    case 4: change_bytes(desk->registers, desk->registers_len, input, 0); break;
    case 5: change_bytes(desk->memory, desk->memory_len, input, 0); break;
    case 6: change_bytes(desk->vectors, desk->vectors_len, input, 0); break;
    case 7: change_lengths(desk, input); break;
    }
}

uint64_t desk_step(struct desk *desk, uint32_t word)
{
    return held_step(word, desk->group, desk->machine, desk->machine_len, desk->registers, desk->registers_len, desk->marks, desk->marks_len,
                     desk->scalars, desk->scalars_len, desk->memory, desk->memory_len, desk->vectors, desk->vectors_len);
}
