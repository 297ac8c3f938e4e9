/* Words to lines of assembler text and back in plain C, with a table of rows: to this the
   benchmark holds the library. Called once first: plain_start. */

#include <stddef.h>
#include <stdint.h>

void plain_start(void);

/* The line of a word to `text`, which has room for any: its length; or 0, and the answer. */
size_t plain_line(uint32_t word, char *text, unsigned *answer);

/* The word of a line: 0, or the column of answer 17. */
size_t plain_word(const char *text, size_t length, uint32_t *word);

/* Both programs, text to text: the length of what they write to `out`, which has room. */
size_t plain_list(const char *in, size_t length, char *out);
size_t plain_assemble(const char *in, size_t length, char *out);
