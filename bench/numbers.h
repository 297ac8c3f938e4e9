/* Numbers as memory and registers hold them, and as a script writes them. */
#ifndef NUMBERS_H
#define NUMBERS_H

#include "reader.h"

/* A byte of 0 to 255; signed numbers; a binary32 number, whose value is its bits here. */
enum form { BYTE, INT8, INT16, INT32, INT64, FLOAT32 };

/* int8, int16, int32, int64 or float32; else BYTE, and nothing is taken. */
enum form take_form(struct reader *reader);

/* Its name; "byte" of BYTE. The form of signed numbers of so many bytes; BYTE if there is none. */
const char *form_name(enum form form);
enum form form_of_bytes(uint64_t bytes);

/* The bytes of a number, and the characters that it takes at most. */
unsigned form_bytes(enum form form);
int form_room(enum form form);

/* Takes a number, or refuses the line. A float is decimal, inf, -inf or nan, or 0x and the eight digits of its bits. */
int take_number_of(struct reader *reader, enum form form, int64_t *value);

/* A number, low byte first. */
int64_t number_at(const uint8_t *bytes, enum form form);
void put_number(uint8_t *bytes, enum form form, int64_t value);

/* The number as text; a float in the fewest digits from six on that are read as the same number. */
#define NUMBER_TEXT_BYTES 24
void write_number(enum form form, int64_t value, char text[NUMBER_TEXT_BYTES]);

#endif
