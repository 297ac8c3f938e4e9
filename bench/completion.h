/* The words that may stand on a line of a script. */
#ifndef COMPLETION_H
#define COMPLETION_H

/* Hands each word that begins with `part` and may stand behind `before` on a line to `take`: commands and mnemonics at its start, behind a
 * command what its arguments name, behind a mnemonic registers. Whether the name of a file may stand there. */
int complete_word(const char *before, const char *part, void (*take)(void *to, const char *word), void *to);

#endif
