/* The words of the case PLAIN of bare_cases.c, driven through the library without any emulator: writes the machine's image to standard output. */
#include <stdio.h>

#include "bodlarina_words.h"

static uint8_t machine[BODLARINA_MACHINE_BYTES], registers[BODLARINA_REGISTER_BYTES(256)], marks[sizeof registers], scalars[BODLARINA_SCALAR_BYTES];
static uint8_t memory[128], image[BODLARINA_IMAGE_BYTES_MOST(256)];

int main(void)
{
    struct bodlarina_bench bench = {machine, sizeof machine, registers, sizeof registers, marks, sizeof marks, scalars, sizeof scalars,
                                    memory, sizeof memory, NULL, 0, BODLARINA_SMALLER, 32, NULL, 0, 1};
    const uint32_t words[] = {
        bodlarina_msettypei(5, BODLARINA_E8 | BODLARINA_MACCQ), bodlarina_msettilemi(5, 4), bodlarina_msettileki(5, 4),
        bodlarina_msettileni(5, 4), bodlarina_mlae8_m(0, 10, 11), bodlarina_mlbe8_m(1, 10, 11), bodlarina_mqemulc_mi(0, 0, 0),
        bodlarina_mqma_mm(0, 0, 1), bodlarina_msce32_m(0, 12, 13),
    };
    uint64_t result = bodlarina_bench_start_sealed(&bench, 64, 256, (const uint64_t[]){0}, 0);
    size_t i;
    for (i = 0; i < 16; i++)
        memory[i] = (uint8_t)(i + 1);
    bodlarina_bench_set_scalar(&bench, 11, 4);
    bodlarina_bench_set_scalar(&bench, 12, 64);
    bodlarina_bench_set_scalar(&bench, 13, 16);
    for (i = 0; i < sizeof words / sizeof words[0]; i++)
        result |= bodlarina_bench_step(&bench, words[i]);
    if (result != 0)
        return 1;
    result = bodlarina_bench_image_write(&bench, image, sizeof image);
    return BODLARINA_ANSWER(result) != 0 || fwrite(image, 1, (size_t)BODLARINA_LENGTH(result), stdout) != BODLARINA_LENGTH(result);
}
