/* JSON that may stand in a page. */
#ifndef JSON_H
#define JSON_H

#include <stddef.h>
#include <stdint.h>
#include <stdio.h>

/* A text in quotes: nothing in it ends the element of the page in which it stands, and what is no UTF-8 is written as U+FFFD. */
void json_text(FILE *file, const char *text, size_t length);

/* A member of an object behind others: a comma, the name and a colon; and those with a text or a number as its value. */
void json_name(FILE *file, const char *name);
void json_text_of(FILE *file, const char *name, const char *text);
void json_number_of(FILE *file, const char *name, uint64_t number);

/* Bytes as hexadecimal digits, in quotes. */
void json_bytes(FILE *file, const uint8_t *bytes, size_t length);

#endif
