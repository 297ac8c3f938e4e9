/* An input is a machine, then steps of any words, between which scalars, blocks, marks, bytes and lengths change, ranges are sealed, and the machine's
 * image is written. */
#include "input.h"

#include <string.h>

int LLVMFuzzerTestOneInput(const uint8_t *data, size_t size);

static struct desk desk;

static void seal(struct input *input)
{
    uint64_t start = next_64(input), length = next_64(input);
    held_seal(start, length, desk.machine, desk.machine_len, desk.registers, desk.registers_len, desk.marks, desk.marks_len);
}

/* To room of its length, or of one byte less or more. */
static void write_image(struct input *input)
{
    static uint8_t image[HELD_BYTES_MOST];
    uint64_t size = held_image_size(desk.machine, desk.machine_len, desk.registers, desk.registers_len, desk.marks, desk.marks_len);
    size_t room = (size_t)BODLARINA_LENGTH(size) + next_byte(input) % 3;
    room = room == 0 ? 0 : room - 1;
    memset(image, 0xa5, room);
    held_image_write(desk.machine, desk.machine_len, desk.registers, desk.registers_len, desk.marks, desk.marks_len, image, room);
}

int LLVMFuzzerTestOneInput(const uint8_t *data, size_t size)
{
    struct input input = {data, size};
    int left = 64;
    desk_start(&desk, &input);
    while (input.length > 0 && left-- > 0)
        switch (next_byte(&input) % 8) {
        case 0: seal(&input); break;
        case 1:
        case 2: desk_change(&desk, &input); break;
        case 7: write_image(&input); break;
        default: desk_step(&desk, next_32(&input)); break;
        }
    return 0;
}
