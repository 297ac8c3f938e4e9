/* Every encoder of include/bodlarina_words.h on all values of its register fields and on the bounds of its immediates: one line for
 * each, with the mnemonic, the operands, the word, and what the library answers to it on a started machine. The line of assembler text
 * that the library has for the word begins with the mnemonic.
 *
 * tests/words makes `encoders.inc` out of the header: for each encoder a line
 *     ENCODER(mlae8_m, "mlae8.m", "md", "rs1", "rs2", (v[0], v[1], v[2]))
 */
#include <inttypes.h>
#include <stdio.h>
#include <stdlib.h>
#include <string.h>

#include "bodlarina_words.h"

struct encoder {
    const char *mnemonic;
    const char *operands[3];
    uint32_t (*encode)(const uint32_t *v);
};

#define ENCODER(name, mnemonic, a, b, c, arguments) \
    static uint32_t encode_##name(const uint32_t *v) { return bodlarina_##name arguments; }
#include "encoders.inc"
#undef ENCODER

static const struct encoder encoders[] = {
#define ENCODER(name, mnemonic, a, b, c, arguments) {mnemonic, {a, b, c}, encode_##name},
#include "encoders.inc"
#undef ENCODER
};

/* A machine as it is started: every tile is empty, so a word that is an instruction gets 0, 3, 12 or, if it is a move, 4. */
static uint32_t answer(uint32_t word)
{
    static uint8_t machine[BODLARINA_MACHINE_BYTES], registers[BODLARINA_REGISTER_BYTES(128)], marks[sizeof registers];
    static uint8_t scalars[BODLARINA_SCALAR_BYTES], memory[1], vectors[BODLARINA_VECTOR_BYTES];
    const struct bodlarina_bench bench = {machine, sizeof machine, registers, sizeof registers, marks, sizeof marks,
                                          scalars, sizeof scalars, memory, sizeof memory, NULL, 0, BODLARINA_SMALLER, 32, vectors, sizeof vectors, 1};
    bodlarina_bench_start(&bench, 64, 128, 0, 0);
    return BODLARINA_ANSWER(bodlarina_bench_step(&bench, word));
}

/* A word of an encoder has a line, or a register out of range; the line has the encoder's mnemonic, and is the word's. */
static void named(const struct encoder *e, uint32_t word)
{
    uint8_t text[BODLARINA_TEXT_BYTES_MOST], block[BODLARINA_WORD_BYTES];
    size_t length = strlen(e->mnemonic);
    uint64_t result = bodlarina_word_text(word, text, sizeof text);
    if (result == BODLARINA_WRONG_REGISTER)
        return;
    if (BODLARINA_ANSWER(result) == BODLARINA_DONE && memcmp(text, e->mnemonic, length) == 0 && text[length] == ' '
        && bodlarina_text_word(text, (size_t)BODLARINA_LENGTH(result), block, sizeof block) == 0 && bodlarina_get64(block) == word)
        return;
    fprintf(stderr, "%s: %08" PRIx32 " has another line\n", e->mnemonic, word);
    exit(1);
}

static void line(const struct encoder *e, const uint32_t *v)
{
    uint32_t word = e->encode(v);
    named(e, word);
    printf("%s", e->mnemonic);
    for (int i = 0; i < 3 && e->operands[i]; i++)
        printf(" %s=%" PRIu32, e->operands[i], v[i]);
    printf(" %" PRIu32 " %" PRIu32 "\n", word, answer(word));
}

/* The values of an operand: of 5 bits all, of 13 bits the bounds; and one that does not fit. 0 past the last. */
static int value(const char *operand, unsigned at, uint32_t *v)
{
    static const uint32_t bounds[] = {0, 1, 2, 3, 8, 10, 15, 16, 31, 32, 255, 256, 1023, 1024, 2048, 4095, 4096, 8190, 8191};
    int wide = operand && (strcmp(operand, "mtypei") == 0 || strcmp(operand, "mleni") == 0);
    unsigned count = !operand ? 1 : wide ? sizeof bounds / sizeof bounds[0] : 32;
    *v = at < count ? (wide ? bounds[at] : at) : 0xffffffffu;
    return operand ? at <= count : at < count;
}

int main(void)
{
    uint32_t v[3];
    for (unsigned n = 0; n < sizeof encoders / sizeof encoders[0]; n++)
        for (unsigned i = 0; value(encoders[n].operands[0], i, v); i++)
            for (unsigned j = 0; value(encoders[n].operands[1], j, v + 1); j++)
                for (unsigned k = 0; value(encoders[n].operands[2], k, v + 2); k++)
                    line(&encoders[n], v);
    return 0;
}
