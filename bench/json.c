#include "json.h"

#include <inttypes.h>
#include <string.h>

/* The bytes of the character at the front of a text, from 1 to 4; 0 if no UTF-8 begins so. Overlong forms, surrogates and what is above
 * U+10FFFF are none. */
static size_t character(const unsigned char *text, size_t length)
{
    size_t bytes = text[0] < 0x80 ? 1 : text[0] < 0xc2 ? 0 : text[0] < 0xe0 ? 2 : text[0] < 0xf0 ? 3 : text[0] < 0xf5 ? 4 : 0, i;
    if (bytes > length)
        return 0;
    for (i = 1; i < bytes; i++)
        if ((text[i] & 0xc0) != 0x80)
            return 0;
    if ((text[0] == 0xe0 && text[1] < 0xa0) || (text[0] == 0xed && text[1] > 0x9f))
        return 0;
    return (text[0] == 0xf0 && text[1] < 0x90) || (text[0] == 0xf4 && text[1] > 0x8f) ? 0 : bytes;
}

void json_text(FILE *file, const char *text, size_t length)
{
    const unsigned char *next = (const unsigned char *)text;
    size_t i, bytes;
    fputc('"', file);
    for (i = 0; i < length; i += bytes == 0 ? 1 : bytes) {
        bytes = character(next + i, length - i);
        if (bytes == 0)
            fputs("\\ufffd", file);
        else if (next[i] < 0x20 || next[i] == 0x7f || strchr("\"\\<>&'", next[i]) != NULL)
            fprintf(file, "\\u%04x", next[i]);
        else
            fwrite(next + i, 1, bytes, file);
    }
    fputc('"', file);
}

void json_name(FILE *file, const char *name) { fprintf(file, ",\"%s\":", name); }

void json_text_of(FILE *file, const char *name, const char *text)
{
    json_name(file, name);
    json_text(file, text, strlen(text));
}

void json_number_of(FILE *file, const char *name, uint64_t number)
{
    json_name(file, name);
    fprintf(file, "%" PRIu64, number);
}

void json_bytes(FILE *file, const uint8_t *bytes, size_t length)
{
    size_t i;
    fputc('"', file);
    for (i = 0; i < length; i++)
        fprintf(file, "%02x", bytes[i]);
    fputc('"', file);
}
