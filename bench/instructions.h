/* Instructions as text and as words. The library turns the one into the other (bodlarina_word_text, bodlarina_text_word); a script may
 * write a line more freely, and has its exact line made first. */
#ifndef INSTRUCTIONS_H
#define INSTRUCTIONS_H

#include "reader.h"

/* What an operand of a line is. */
enum operand { NO_OPERAND, SCALAR, BASE, TILE, ACCUMULATOR, VECTOR, NUMBER };

enum action { SETS, LOADS, STORES, MULTIPLIES, MULTIPLIES_FLOATS, ADDS, SUBTRACTS, SUBTRACTS_REVERSED, SCALES, MOVES_OUT, MOVES_IN };

/* Which tile an instruction writes, stores or moves: A is m by k, B k by n, C m by n; of C a move takes rows or columns. */
enum shape { NONE, A, B, C, ROWS, COLUMNS };

#define OPERANDS_MOST 3

/* What the line of a word says. */
struct instruction {
    enum action action;
    enum shape shape;
    unsigned width; /* of a load or store in bits, else in SEW */
    int transposed; /* a load or store */
    enum operand operands[OPERANDS_MOST];
    unsigned numbers[OPERANDS_MOST]; /* of a register, its number */
    int immediate;                   /* the number of the last operand, if it is none of a register */
};

/* What the word's line says; 0 if it has none. */
int instruction_of(uint32_t word, struct instruction *instruction);

/* The number of the first operand of a kind; 0 if there is none. */
unsigned number_of(const struct instruction *instruction, enum operand operand);

/* Whether some line begins with this mnemonic. */
int is_mnemonic(struct span mnemonic);

/* Hands each mnemonic that begins with a text to `take`. */
void each_mnemonic(const char *begin, void (*take)(void *to, const char *mnemonic), void *to);

/* The name of a scalar in the calling convention. */
const char *scalar_name(unsigned slot);

/* Takes the operands behind a mnemonic, makes the exact line and gives its word. */
int take_instruction(struct reader *reader, struct span mnemonic, uint32_t *word);

/* The word as it is written in a script: an instruction, or "word" and its digits. */
#define INSTRUCTION_TEXT_BYTES 64
void write_instruction(uint32_t word, char text[INSTRUCTION_TEXT_BYTES]);

#endif
