/* The text of a script: its lines, the words and numbers on a line, and refusals that name file, line and column. */
#ifndef READER_H
#define READER_H

#include <stddef.h>
#include <stdint.h>

/* A script of more bytes is refused. */
#define SCRIPT_BYTES_MOST 1048576

struct reader {
    const char *path; /* as it was given, for messages */
    char *text;
    size_t length;
    size_t line_start, line_end; /* line_end: where the comment or the line ends */
    size_t next_start;           /* of the next line */
    size_t at;                   /* the next character */
    unsigned long line;
};

/* A part of a line. */
struct span {
    const char *text;
    size_t length;
    size_t at;
};

/* Reads the whole file, or standard input if the path is NULL. 0 and a message if it can't be read or is too long. */
int reader_open(struct reader *reader, const char *path);

/* A script without a line yet, of this name; 0 if there is no room. */
int reader_begin(struct reader *reader, const char *name);
void reader_close(struct reader *reader);

/* Adds a line at the end; 0 if the script is too long then. And takes the lines from one that starts here on away: none of them is read. */
int add_line(struct reader *reader, const char *line);
void cut_lines(struct reader *reader, size_t start);

/* Goes back to before the first line. */
void reader_rewind(struct reader *reader);

/* Goes to the next line; 0 if there is none. */
int next_line(struct reader *reader);

/* Whether the line has nothing more but blanks and a comment. */
int at_end(struct reader *reader);

/* Where the next character that is no blank stands. */
size_t next_at(struct reader *reader);

/* The next characters up to a blank; of length 0 at the end of the line. */
struct span take_span(struct reader *reader);

/* The next letters, digits, dots and minus signs. */
struct span take_name(struct reader *reader);

int span_is(struct span span, const char *text);

/* Takes this character, or refuses the line: expected WHAT. */
int take_mark(struct reader *reader, char mark, const char *what);
int take_end(struct reader *reader);

/* Prints file, line, column and the sentence to standard error. Returns 0. */
int refuse(const struct reader *reader, size_t at, const char *format, ...) __attribute__((format(printf, 3, 4)));

/* A number, decimal or 0x and hexadecimal digits, a minus before it where it may be negative. Each refuses one out of range. */
int take_unsigned(struct reader *reader, const char *what, uint64_t most, uint64_t *value);
int take_signed(struct reader *reader, const char *what, unsigned bits, int64_t *value);
int take_either(struct reader *reader, const char *what, uint64_t *value); /* -2^63 to 2^64 - 1, in two's complement */

/* The value of a hexadecimal digit, or -1. */
int hex_digit(char c);

#endif
