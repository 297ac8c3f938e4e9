#include "numbers.h"

#include <inttypes.h>
#include <math.h>
#include <stdio.h>
#include <stdlib.h>
#include <string.h>

/* What is stored for a result that is not a number. */
#define NAN_BITS 0x7fc00000u

static const struct {
    const char *name;
    unsigned bytes;
    int room;
} forms[] = {{"", 1, 3}, {"int8", 1, 4}, {"int16", 2, 6}, {"int32", 4, 11}, {"int64", 8, 20}, {"float32", 4, 15}};

enum form take_form(struct reader *reader)
{
    size_t before = reader->at;
    struct span span = take_span(reader);
    enum form form;
    for (form = FLOAT32; form > BYTE; form--)
        if (span_is(span, forms[form].name))
            return form;
    reader->at = before;
    return BYTE;
}

const char *form_name(enum form form) { return form == BYTE ? "byte" : forms[form].name; }

enum form form_of_bytes(uint64_t bytes) { return bytes == 1 ? INT8 : bytes == 2 ? INT16 : bytes == 4 ? INT32 : bytes == 8 ? INT64 : BYTE; }

unsigned form_bytes(enum form form) { return forms[form].bytes; }
int form_room(enum form form) { return forms[form].room; }

/* ---- floats ---- */

static uint32_t bits_of(float value)
{
    uint32_t bits;
    memcpy(&bits, &value, sizeof bits);
    return bits;
}

static float float_of(uint32_t bits)
{
    float value;
    memcpy(&value, &bits, sizeof value);
    return value;
}

/* 0x and eight digits. */
static int read_bits(struct span span, int64_t *value)
{
    size_t i;
    if (span.length != 10 || memcmp(span.text, "0x", 2) != 0)
        return 0;
    *value = 0;
    for (i = 2; i < span.length && hex_digit(span.text[i]) >= 0; i++)
        *value = *value * 16 + hex_digit(span.text[i]);
    return i == span.length;
}

/* Digits with a point, a sign and an exponent of ten, as strtof reads them. */
static int read_decimal(struct span span, float *value)
{
    char text[64], *end;
    if (span.length == 0 || span.length >= sizeof text)
        return 0;
    memcpy(text, span.text, span.length);
    text[span.length] = '\0';
    if (strspn(text, "0123456789.+-eE") != span.length)
        return 0;
    *value = strtof(text, &end);
    return *end == '\0';
}

static int take_float(struct reader *reader, int64_t *bits)
{
    struct span span = take_span(reader);
    float value = 0;
    if (read_bits(span, bits))
        return 1;
    if (span_is(span, "nan"))
        *bits = NAN_BITS;
    else if (span_is(span, "inf") || span_is(span, "-inf"))
        *bits = bits_of(span.text[0] == '-' ? -INFINITY : INFINITY);
    else if (!read_decimal(span, &value))
        return refuse(reader, span.at, "expected a float, as 1.5, -2e-3, inf, nan, or 0x and the eight digits of its bits");
    else
        *bits = bits_of(value);
    return !isinf(value) || refuse(reader, span.at, "no float is so large");
}

static void write_float(uint32_t bits, char text[NUMBER_TEXT_BYTES])
{
    int digits = 6;
    float value = float_of(bits);
    if (isnan(value)) {
        snprintf(text, NUMBER_TEXT_BYTES, bits == NAN_BITS ? "nan" : "0x%08" PRIx32, bits);
        return;
    }
    do
        snprintf(text, NUMBER_TEXT_BYTES, "%.*g", digits, (double)value);
    while (digits++ < 9 && bits_of(strtof(text, NULL)) != bits);
}

/* ---- all forms ---- */

int take_number_of(struct reader *reader, enum form form, int64_t *value)
{
    uint64_t byte;
    if (form == FLOAT32)
        return take_float(reader, value);
    if (form != BYTE)
        return take_signed(reader, "a value", 8 * form_bytes(form), value);
    if (!take_unsigned(reader, "a byte", 255, &byte))
        return 0;
    *value = (int64_t)byte;
    return 1;
}

int64_t number_at(const uint8_t *bytes, enum form form)
{
    unsigned last = form_bytes(form) - 1, i;
    int64_t value = bytes[last];
    if (form != BYTE && form != FLOAT32 && value >= 0x80)
        value -= 0x100;
    for (i = last; i > 0; i--)
        value = value * 0x100 + bytes[i - 1];
    return value;
}

void put_number(uint8_t *bytes, enum form form, int64_t value)
{
    unsigned i;
    for (i = 0; i < form_bytes(form); i++)
        bytes[i] = (uint8_t)((uint64_t)value >> (8 * i) & 0xff);
}

void write_number(enum form form, int64_t value, char text[NUMBER_TEXT_BYTES])
{
    if (form == FLOAT32)
        write_float((uint32_t)value, text);
    else
        snprintf(text, NUMBER_TEXT_BYTES, "%" PRId64, value);
}
