#include "reader.h"

#include <inttypes.h>
#include <stdarg.h>
#include <stdio.h>
#include <stdlib.h>
#include <string.h>

#include "files.h"

/* ---- lines ---- */

int reader_open(struct reader *reader, const char *path)
{
    const char *fault;
    memset(reader, 0, sizeof *reader);
    reader->path = path == NULL ? "standard input" : path;
    reader->text = path == NULL ? read_file_of(stdin, SCRIPT_BYTES_MOST, &reader->length, &fault)
                                : read_file(path, SCRIPT_BYTES_MOST, &reader->length, &fault);
    if (reader->text == NULL)
        fprintf(stderr, "%s: the script %s\n", reader->path, fault);
    return reader->text != NULL;
}

int reader_begin(struct reader *reader, const char *name)
{
    memset(reader, 0, sizeof *reader);
    reader->path = name;
    reader->text = malloc(SCRIPT_BYTES_MOST);
    return reader->text != NULL;
}

void reader_close(struct reader *reader)
{
    free(reader->text);
    reader->text = NULL;
}

int add_line(struct reader *reader, const char *line)
{
    size_t length = strlen(line);
    if (length >= SCRIPT_BYTES_MOST - reader->length)
        return 0;
    memcpy(reader->text + reader->length, line, length);
    reader->text[reader->length + length] = '\n';
    reader->length += length + 1;
    return 1;
}

void cut_lines(struct reader *reader, size_t start)
{
    reader->length = start;
    reader_rewind(reader);
    while (next_line(reader))
        ;
}

void reader_rewind(struct reader *reader)
{
    reader->next_start = reader->line_start = reader->line_end = reader->at = 0;
    reader->line = 0;
}

int next_line(struct reader *reader)
{
    const char *feed, *comment;
    size_t rest = reader->length - reader->next_start;
    if (rest == 0)
        return 0;
    reader->line++;
    reader->line_start = reader->at = reader->next_start;
    feed = memchr(reader->text + reader->line_start, '\n', rest);
    reader->next_start = feed == NULL ? reader->length : (size_t)(feed - reader->text) + 1;
    reader->line_end = feed == NULL ? reader->length : (size_t)(feed - reader->text);
    comment = memchr(reader->text + reader->line_start, '#', reader->line_end - reader->line_start);
    if (comment != NULL)
        reader->line_end = (size_t)(comment - reader->text);
    return 1;
}

/* ---- parts of a line ---- */

static int is_blank(char c) { return c == ' ' || c == '\t' || c == '\r'; }

static int is_name(char c)
{
    return (c >= 'a' && c <= 'z') || (c >= 'A' && c <= 'Z') || (c >= '0' && c <= '9') || c == '.' || c == '-' || c == '_';
}

static int not_blank(char c) { return !is_blank(c); }

int at_end(struct reader *reader)
{
    while (reader->at < reader->line_end && is_blank(reader->text[reader->at]))
        reader->at++;
    return reader->at == reader->line_end;
}

size_t next_at(struct reader *reader)
{
    at_end(reader);
    return reader->at;
}

static struct span take_while(struct reader *reader, int (*belongs)(char))
{
    struct span span;
    span.at = next_at(reader);
    span.text = reader->text + span.at;
    while (reader->at < reader->line_end && belongs(reader->text[reader->at]))
        reader->at++;
    span.length = reader->at - span.at;
    return span;
}

struct span take_span(struct reader *reader) { return take_while(reader, not_blank); }
struct span take_name(struct reader *reader) { return take_while(reader, is_name); }

int span_is(struct span span, const char *text)
{
    return span.length == strlen(text) && memcmp(span.text, text, span.length) == 0;
}

int take_mark(struct reader *reader, char mark, const char *what)
{
    if (at_end(reader) || reader->text[reader->at] != mark)
        return refuse(reader, reader->at, "expected %s", what);
    reader->at++;
    return 1;
}

int take_end(struct reader *reader)
{
    return at_end(reader) || refuse(reader, reader->at, "the line should end here");
}

int refuse(const struct reader *reader, size_t at, const char *format, ...)
{
    va_list list;
    fflush(stdout);
    fprintf(stderr, "%s:%lu:%lu: ", reader->path, reader->line, (unsigned long)(at - reader->line_start + 1));
    va_start(list, format);
    vfprintf(stderr, format, list);
    va_end(list);
    fprintf(stderr, "\n");
    return 0;
}

/* ---- numbers ---- */

int hex_digit(char c)
{
    if (c >= '0' && c <= '9')
        return c - '0';
    if (c >= 'a' && c <= 'f')
        return c - 'a' + 10;
    return c >= 'A' && c <= 'F' ? c - 'A' + 10 : -1;
}

/* The digits of a base, at least one, with a value below 2^64. */
static int read_digits(const char *text, size_t length, unsigned base, uint64_t *value)
{
    size_t i;
    *value = 0;
    for (i = 0; i < length; i++) {
        int digit = hex_digit(text[i]);
        if (digit < 0 || (unsigned)digit >= base || *value > (UINT64_MAX - (unsigned)digit) / base)
            return 0;
        *value = *value * base + (unsigned)digit;
    }
    return length > 0;
}

/* Takes a number as its sign and magnitude. */
static int take_number(struct reader *reader, int *negative, uint64_t *magnitude, size_t *at)
{
    struct span span = take_name(reader);
    *at = span.at;
    *negative = span.length > 0 && span.text[0] == '-';
    span.text += *negative;
    span.length -= (size_t)*negative;
    if (span.length > 2 && span.text[0] == '0' && span.text[1] == 'x')
        return read_digits(span.text + 2, span.length - 2, 16, magnitude);
    return read_digits(span.text, span.length, 10, magnitude);
}

int take_unsigned(struct reader *reader, const char *what, uint64_t most, uint64_t *value)
{
    int negative;
    size_t at;
    if (take_number(reader, &negative, value, &at) && !negative && *value <= most)
        return 1;
    return refuse(reader, at, "expected %s, a number from 0 to %" PRIu64, what, most);
}

int take_signed(struct reader *reader, const char *what, unsigned bits, int64_t *value)
{
    int negative;
    uint64_t magnitude, half = (uint64_t)1 << (bits - 1);
    size_t at;
    if (!take_number(reader, &negative, &magnitude, &at) || magnitude > (negative ? half : half - 1))
        return refuse(reader, at, "expected %s, a number from -%" PRIu64 " to %" PRIu64, what, half, half - 1);
    *value = !negative ? (int64_t)magnitude : magnitude == 0 ? 0 : -(int64_t)(magnitude - 1) - 1;
    return 1;
}

int take_either(struct reader *reader, const char *what, uint64_t *value)
{
    int negative;
    size_t at;
    if (!take_number(reader, &negative, value, &at) || (negative && *value > (uint64_t)1 << 63))
        return refuse(reader, at, "expected %s, a number from -2^63 to 2^64 - 1", what);
    if (negative)
        *value = 0 - *value;
    return 1;
}
