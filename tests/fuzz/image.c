/* An input is two bytes and an image, sound or not. It is salvaged and read, and the machine that it makes has it as its image. The two
 * bytes choose the lengths of what is lent. */
#include "input.h"

#include <string.h>

int LLVMFuzzerTestOneInput(const uint8_t *data, size_t size);

static uint8_t machine[BODLARINA_MACHINE_BYTES + 8], registers[HELD_BYTES_MOST], marks[HELD_BYTES_MOST], room[HELD_BYTES_MOST],
    again[HELD_BYTES_MOST];

/* Mostly the right length; 0, one less or one more by the low bits of a number. */
static size_t length_by(unsigned form, size_t right)
{
    switch (form % 8) {
    case 1: return right == 0 ? 0 : right - 1;
    case 2: return right + 1;
    case 3: return right / 2;
    }
    return right;
}

/* A sound image: its machine is written again as it was. */
static void read_sound(const uint8_t *image, size_t length)
{
    size_t size = BODLARINA_REGISTER_BYTES(bodlarina_image_mlen(image, length));
    uint64_t result = held_image_read(image, length, machine, BODLARINA_MACHINE_BYTES, registers, size, marks, size);
    must(result == 0, "a sound image is read");
    must(held_image_size(machine, BODLARINA_MACHINE_BYTES, registers, size, marks, size) == (uint64_t)length << 16, "it has its own length again");
    result = held_image_write(machine, BODLARINA_MACHINE_BYTES, registers, size, marks, size, again, length);
    must(result == (uint64_t)length << 16 && memcmp(again, image, length) == 0, "it is written as it was read");
    if (length > 0)
        held_image_write(machine, BODLARINA_MACHINE_BYTES, registers, size, marks, size, again, length - 1);
}

int LLVMFuzzerTestOneInput(const uint8_t *data, size_t size)
{
    struct input input = {data, size};
    unsigned lent = next_byte(&input), rooms = next_byte(&input);
    uint8_t report[BODLARINA_REPORT_BYTES + 1];
    uint64_t result, read, mlen;
    size_t length = input.length, bytes;
    if (length > HELD_BYTES_MOST / 2)
        return 0;
    mlen = bodlarina_image_mlen(input.bytes, length);
    bytes = BODLARINA_REGISTER_BYTES(mlen == 0 ? 128 : mlen);
    memset(report, 0xa5, sizeof report);
    memset(machine, 0x3c, sizeof machine);
    memset(registers, 0x5a, bytes + 1);
    memset(marks, 0xa5, bytes + 1);
    read = held_image_read(input.bytes, length, machine, length_by(lent, BODLARINA_MACHINE_BYTES), registers, length_by(lent / 8, bytes), marks,
                           length_by(rooms, bytes));
    memset(room, 0xc3, length + 1);
    result = held_image_salvage(input.bytes, length, room, length_by(rooms / 8, length), report, length_by(lent / 64, BODLARINA_REPORT_BYTES));
    if (BODLARINA_ANSWER(read) == 0)
        read_sound(input.bytes, length);
    if (BODLARINA_ANSWER(result) == 0) {
        must(BODLARINA_LENGTH(result) <= length, "a salvage is no longer than its image");
        must(BODLARINA_ANSWER(read) == BODLARINA_DAMAGED || memcmp(room, input.bytes, length) == 0, "a sound image comes out as it is");
        read_sound(room, (size_t)BODLARINA_LENGTH(result));
    }
    return 0;
}
