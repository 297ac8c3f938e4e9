#include "instructions.h"

#include <inttypes.h>
#include <stdio.h>
#include <stdlib.h>
#include <string.h>

#include "bodlarina_words.h"

/* ---- lines, as the library has them ---- */

struct line {
    char text[BODLARINA_TEXT_BYTES_MOST + 16];
    size_t length;
};

/* Adds to a line; 0 if it is longer than any line then. */
static int add(struct line *line, const char *text, size_t length)
{
    if (length > sizeof line->text - line->length)
        return 0;
    memcpy(line->text + line->length, text, length);
    line->length += length;
    return 1;
}

/* Whether this is a line, and whose. */
static int is_line(const struct line *line, uint32_t *word)
{
    uint8_t block[BODLARINA_WORD_BYTES];
    if (bodlarina_text_word((const uint8_t *)line->text, line->length, block, sizeof block) != 0)
        return 0;
    *word = (uint32_t)bodlarina_get64(block);
    return 1;
}

/* Whether some line goes on with this text: it is a line, or is refused only because it is cut short. */
static int goes_on(struct line line, const char *text)
{
    uint8_t block[BODLARINA_WORD_BYTES];
    uint64_t result;
    if (!add(&line, text, strlen(text)))
        return 0;
    result = bodlarina_text_word((const uint8_t *)line.text, line.length, block, sizeof block);
    return BODLARINA_ANSWER(result) == BODLARINA_DONE || BODLARINA_LINE_COLUMN(result) > line.length;
}

/* The line of a word, with a zero byte at its end; 0 if it has none. */
static int line_of(uint32_t word, char text[BODLARINA_TEXT_BYTES_MOST + 1])
{
    uint64_t result = bodlarina_word_text(word, (uint8_t *)text, BODLARINA_TEXT_BYTES_MOST);
    if (BODLARINA_ANSWER(result) != BODLARINA_DONE)
        return 0;
    text[BODLARINA_LENGTH(result)] = '\0';
    return 1;
}

/* ---- what a line says ---- */

/* By what its mnemonic begins with: what is done with which tile, and how many times SEW the output is wide. A load or store has its
 * width in the mnemonic. */
static const struct {
    const char *mnemonic;
    enum action action;
    enum shape shape;
    unsigned width;
} kinds[] = {
    {"mset", SETS, NONE, 0},
    {"mla", LOADS, A, 0}, {"mlb", LOADS, B, 0}, {"mlc", LOADS, C, 0},
    {"msa", STORES, A, 0}, {"msb", STORES, B, 0}, {"msc", STORES, C, 0},
    {"mma.", MULTIPLIES, C, 1}, {"mwma.", MULTIPLIES, C, 2}, {"mqma.", MULTIPLIES, C, 4}, {"mfma.", MULTIPLIES_FLOATS, C, 1},
    {"maddc.", ADDS, C, 1}, {"mwaddc.", ADDS, C, 2}, {"mqaddc.", ADDS, C, 4},
    {"msubc.", SUBTRACTS, C, 1}, {"mwsubc.", SUBTRACTS, C, 2}, {"mqsubc.", SUBTRACTS, C, 4},
    {"mrsubc.", SUBTRACTS_REVERSED, C, 1}, {"mwrsubc.", SUBTRACTS_REVERSED, C, 2}, {"mqrsubc.", SUBTRACTS_REVERSED, C, 4},
    {"memulc.", SCALES, C, 1}, {"mwemulc.", SCALES, C, 2}, {"mqemulc.", SCALES, C, 4},
    {"mmvcr.v", MOVES_OUT, ROWS, 1}, {"mmvcr.m", MOVES_IN, ROWS, 1},
    {"mmvcc.v", MOVES_OUT, COLUMNS, 1}, {"mmvcc.m", MOVES_IN, COLUMNS, 1},
};

static int begins(const char *text, const char *with) { return strncmp(text, with, strlen(with)) == 0; }

static enum operand operand_of(const char *text)
{
    if (begins(text, "(x"))
        return BASE;
    if (begins(text, "x"))
        return SCALAR;
    if (begins(text, "tr"))
        return TILE;
    if (begins(text, "acc"))
        return ACCUMULATOR;
    return begins(text, "v") ? VECTOR : NUMBER;
}

int instruction_of(uint32_t word, struct instruction *instruction)
{
    static const char digits[] = "0123456789";
    char text[BODLARINA_TEXT_BYTES_MOST + 1];
    const char *operand;
    size_t i = 0;
    memset(instruction, 0, sizeof *instruction);
    if (!line_of(word, text))
        return 0;
    while (i < sizeof kinds / sizeof kinds[0] && !begins(text, kinds[i].mnemonic))
        i++;
    if (i == sizeof kinds / sizeof kinds[0])
        return 0;
    instruction->action = kinds[i].action;
    instruction->shape = kinds[i].shape;
    instruction->transposed = (kinds[i].action == LOADS || kinds[i].action == STORES) && text[3] == 't';
    instruction->width = kinds[i].width != 0 ? kinds[i].width : (unsigned)strtoul(text + strcspn(text, digits), NULL, 10);
    operand = strchr(text, ' ');
    for (i = 0; operand != NULL && i < OPERANDS_MOST; i++) {
        operand++;
        instruction->operands[i] = operand_of(operand);
        instruction->immediate = (int)strtol(operand, NULL, 10);
        instruction->numbers[i] = (unsigned)strtoul(operand + strcspn(operand, digits), NULL, 10);
        operand = strchr(operand, ' ');
    }
    return 1;
}

unsigned number_of(const struct instruction *instruction, enum operand operand)
{
    size_t i;
    for (i = 0; i < OPERANDS_MOST; i++)
        if (instruction->operands[i] == operand)
            return instruction->numbers[i];
    return 0;
}

/* ---- reading ---- */

int is_mnemonic(struct span mnemonic)
{
    struct line line;
    line.length = 0;
    return add(&line, mnemonic.text, mnemonic.length) && goes_on(line, " ");
}

/* The library says with which characters a mnemonic goes on; a blank stands behind a whole one. */
static void each_from(struct line line, void (*take)(void *to, const char *mnemonic), void *to)
{
    static const char characters[] = "abcdefghijklmnopqrstuvwxyz0123456789.";
    char next[2] = "";
    size_t i;
    if (goes_on(line, " ")) {
        struct line whole = line;
        if (add(&whole, "", 1))
            take(to, whole.text);
    }
    for (i = 0; i < sizeof characters - 1; i++) {
        struct line longer = line;
        next[0] = characters[i];
        if (goes_on(line, next) && add(&longer, next, 1))
            each_from(longer, take, to);
    }
}

void each_mnemonic(const char *begin, void (*take)(void *to, const char *mnemonic), void *to)
{
    struct line line;
    line.length = 0;
    if (strchr(begin, ' ') == NULL && add(&line, begin, strlen(begin)) && goes_on(line, ""))
        each_from(line, take, to);
}

/* The names of scalars that the draft's examples use beside x0 to x31: those of the RISC-V calling convention, in order. */
static const char *const scalar_names[32] = {
    "zero", "ra", "sp", "gp", "tp", "t0", "t1", "t2", "s0", "s1", "a0", "a1", "a2", "a3", "a4", "a5",
    "a6", "a7", "s2", "s3", "s4", "s5", "s6", "s7", "s8", "s9", "s10", "s11", "t3", "t4", "t5", "t6",
};

const char *scalar_name(unsigned slot) { return scalar_names[slot % 32]; }

static int add_number(struct line *line, const char *name, int number)
{
    char text[16];
    int length = snprintf(text, sizeof text, "%s%d", name, number);
    return add(line, text, (size_t)length);
}

/* A register: its name, or another name of a scalar. The line has to end with it, or to go on with `after`. */
static int take_register(struct reader *reader, struct line *line, const char *after, const char *what)
{
    struct span span = take_name(reader);
    uint32_t word;
    int slot, added = 0;
    for (slot = 0; slot < 32 && !span_is(span, scalar_names[slot]); slot++)
        ;
    added = slot < 32 ? add_number(line, "x", slot) : add(line, span.text, span.length);
    if (added && (is_line(line, &word) || goes_on(*line, after)))
        return 1;
    return refuse(reader, span.at, "expected %s", what);
}

static int take_base(struct reader *reader, struct line *line)
{
    return take_mark(reader, '(', "a scalar in brackets, (x0) to (x31)") && add(line, "(", 1)
           && take_register(reader, line, "), ", "a scalar, x0 to x31") && take_mark(reader, ')', "the closing bracket")
           && add(line, ")", 1);
}

/* e8, e16, e32 or e64, and accq after it if 4 times as wide an accumulator is asked for; or the number itself. */
static int take_type(struct reader *reader, uint64_t *value)
{
    static const char *const widths[] = {"e8", "e16", "e32", "e64"};
    struct span span = take_name(reader);
    for (*value = 0; *value < 4; ++*value)
        if (span_is(span, widths[*value]))
            break;
    if (*value == 4) {
        reader->at = span.at;
        return take_unsigned(reader, "e8, e16, e32, e64 or mtypei", 8191, value);
    }
    if (at_end(reader))
        return 1;
    if (!take_mark(reader, ',', "a comma and accq, or the end of the line"))
        return 0;
    span = take_name(reader);
    *value |= BODLARINA_MACCQ;
    return span_is(span, "accq") || refuse(reader, span.at, "expected accq");
}

static int take_immediate(struct reader *reader, struct line *line)
{
    int64_t immediate;
    return take_signed(reader, "an immediate", 5, &immediate) && add_number(line, "", (int)immediate);
}

static int take_setting(struct reader *reader, struct line *line)
{
    uint64_t value;
    int type = begins(line->text, "msettypei ");
    return (type ? take_type(reader, &value) : take_unsigned(reader, "a size", 8191, &value)) && add_number(line, "", (int)value);
}

/* Takes the operand that the line can go on with. */
static int take_operand(struct reader *reader, struct line *line)
{
    static const char after[] = ", ";
    if (goes_on(*line, "("))
        return take_base(reader, line);
    if (goes_on(*line, "x"))
        return take_register(reader, line, after, "a scalar, x0 to x31");
    if (goes_on(*line, "tr"))
        return take_register(reader, line, after, "a tile register, tr0 to tr7");
    if (goes_on(*line, "acc"))
        return take_register(reader, line, after, "an accumulator, acc0 or acc1");
    if (goes_on(*line, "v"))
        return take_register(reader, line, after, "a vector register, v0 to v31");
    return goes_on(*line, "-") ? take_immediate(reader, line) : take_setting(reader, line);
}

int take_instruction(struct reader *reader, struct span mnemonic, uint32_t *word)
{
    struct line line;
    memset(&line, 0, sizeof line);
    if (!add(&line, mnemonic.text, mnemonic.length) || !add(&line, " ", 1) || !take_operand(reader, &line))
        return 0;
    while (!is_line(&line, word))
        if (!take_mark(reader, ',', "a comma and the next operand") || !add(&line, ", ", 2) || !take_operand(reader, &line))
            return 0;
    return take_end(reader);
}

/* ---- writing ---- */

/* mtypei as e8 and its like. */
static void write_type(char *text, size_t room)
{
    uint32_t value = (uint32_t)strtoul(text, NULL, 10);
    if ((value & ~(BODLARINA_MACCQ | 3u)) == 0)
        snprintf(text, room, "e%u%s", 8u << (value & 3), (value & BODLARINA_MACCQ) != 0 ? ", accq" : "");
}

void write_instruction(uint32_t word, char text[INSTRUCTION_TEXT_BYTES])
{
    if (!line_of(word, text)) {
        snprintf(text, INSTRUCTION_TEXT_BYTES, "word 0x%08" PRIX32, word);
        return;
    }
    if (begins(text, "msettypei ")) {
        size_t at = (size_t)(strrchr(text, ' ') - text) + 1;
        write_type(text + at, INSTRUCTION_TEXT_BYTES - at);
    }
}
