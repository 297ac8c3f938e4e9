#include "listing.h"

#include <string.h>

/* A row: its operands stand in bits 11..7, 19..15 and 24..20. x is a scalar, b one in brackets,
   t a tile register, a an accumulator, v a vector register, s a signed number of five bits, i
   one of thirteen in 27..15. */
struct row {
    const char *name, *operands;
    uint32_t code; /* bits 31..25 and 14..12 */
};

#define OURS(high, middle) ((uint32_t)(high) << 25 | (uint32_t)(middle) << 12)
#define WIDTHS(name, operand, high)                                           \
    {name "8.m", operand "bx", OURS(high, 0)}, {name "16.m", operand "bx", OURS(high, 1)}, \
    {name "32.m", operand "bx", OURS(high, 2)}, {name "64.m", operand "bx", OURS(high, 3)}

static const struct row rows[] = {
    {"msettypei", "xi", OURS(0, 7)}, {"msettype", "xx", OURS(8, 7)},
    {"msettilemi", "xi", OURS(16, 7)}, {"msettilem", "xx", OURS(24, 7)},
    {"msettileki", "xi", OURS(32, 7)}, {"msettilek", "xx", OURS(40, 7)},
    {"msettileni", "xi", OURS(48, 7)}, {"msettilen", "xx", OURS(56, 7)},
    WIDTHS("mlae", "t", 2), WIDTHS("mlbe", "t", 4), WIDTHS("mlce", "a", 0),
    WIDTHS("mlate", "t", 10), WIDTHS("mlbte", "t", 12), WIDTHS("mlcte", "a", 8),
    WIDTHS("msae", "t", 3), WIDTHS("msbe", "t", 5), WIDTHS("msce", "a", 1),
    WIDTHS("msate", "t", 11), WIDTHS("msbte", "t", 13), WIDTHS("mscte", "a", 9),
    {"mma.mm", "att", OURS(0, 6)}, {"mfma.mm", "att", OURS(1, 6)},
    {"mwma.mm", "att", OURS(2, 6)}, {"mqma.mm", "att", OURS(4, 6)},
    {"maddc.mm", "aa", OURS(8, 6)}, {"mwaddc.mm", "aa", OURS(10, 6)}, {"mqaddc.mm", "aa", OURS(12, 6)},
    {"msubc.mm", "aa", OURS(14, 6)}, {"mwsubc.mm", "aa", OURS(16, 6)}, {"mqsubc.mm", "aa", OURS(18, 6)},
    {"mrsubc.mm", "aa", OURS(20, 6)}, {"mwrsubc.mm", "aa", OURS(22, 6)}, {"mqrsubc.mm", "aa", OURS(24, 6)},
    {"memulc.mx", "aax", OURS(26, 6)}, {"mwemulc.mx", "aax", OURS(28, 6)}, {"mqemulc.mx", "aax", OURS(30, 6)},
    {"memulc.mi", "aas", OURS(32, 6)}, {"mwemulc.mi", "aas", OURS(34, 6)}, {"mqemulc.mi", "aas", OURS(36, 6)},
    {"mmvcr.v.m", "vax", OURS(0, 5)}, {"mmvcr.m.v", "avx", OURS(1, 5)},
    {"mmvcc.v.m", "vax", OURS(8, 5)}, {"mmvcc.m.v", "avx", OURS(9, 5)},
};
enum { ROWS = sizeof rows / sizeof rows[0] };

/* Bits 31..25 of the rows that are left out, with 110 in 14..12; all but three have zeros in 24..20. */
static const unsigned char free_codes[] = {3, 27, 29};
static const unsigned char zero_codes[] = {9, 11, 15, 17, 21, 23, 49, 48, 53, 52, 55, 54, 57, 56, 59, 58, 61, 60, 63, 62};

static unsigned char by_code[1024];   /* one more than a row, or 0 */
static unsigned char left_out[1024];  /* 1: whatever stands in 24..20, 2: with zeros there */
static unsigned char by_name[1024];   /* one more than a row, or 0, by a hash of its name */
static unsigned char lengths[ROWS];   /* of the names */

static unsigned entry(uint32_t word) { return word >> 25 << 3 | (word >> 12 & 7); }

static unsigned hash(const char *name, size_t length)
{
    uint32_t h = 0;
    for (size_t i = 0; i < length; i++) {
        h = h * 31 + (unsigned char)name[i];
    }
    return h % 1021;
}

void plain_start(void)
{
    memset(by_code, 0, sizeof by_code);
    memset(by_name, 0, sizeof by_name);
    for (unsigned i = 0; i < ROWS; i++) {
        int wide = rows[i].operands[1] == 'i';
        for (unsigned data = 0; data < (wide ? 8u : 1u); data++) {
            by_code[entry(rows[i].code | data << 25)] = (unsigned char)(i + 1);
        }
        lengths[i] = (unsigned char)strlen(rows[i].name);
        unsigned at = hash(rows[i].name, lengths[i]);
        while (by_name[at] != 0) {
            at = (at + 1) % sizeof by_name;
        }
        by_name[at] = (unsigned char)(i + 1);
    }
    for (unsigned i = 0; i < sizeof free_codes; i++) {
        left_out[free_codes[i] << 3 | 6] = 1;
    }
    for (unsigned i = 0; i < sizeof zero_codes; i++) {
        left_out[zero_codes[i] << 3 | 6] = 2;
    }
}

static char *put_number(char *at, unsigned value)
{
    char digits[10];
    int count = 0;
    do {
        digits[count++] = (char)('0' + value % 10);
        value /= 10;
    } while (value != 0);
    while (count > 0) {
        *at++ = digits[--count];
    }
    return at;
}

static const unsigned char shifts[3] = {7, 15, 20};

size_t plain_line(uint32_t word, char *text, unsigned *answer)
{
    if ((word & 0x7f) != 0x77) {
        *answer = 10;
        return 0;
    }
    unsigned code = entry(word), found = by_code[code];
    const struct row *row = found == 0 ? NULL : &rows[found - 1];
    if (row == NULL || (row->operands[2] == 0 && row->operands[1] != 'i' && (word >> 20 & 31) != 0)) {
        int out = left_out[code] == 1 || (left_out[code] == 2 && (word >> 20 & 31) == 0);
        *answer = out ? 11 : 1;
        return 0;
    }
    memcpy(text, row->name, lengths[found - 1]);
    char *at = text + lengths[found - 1];
    *at++ = ' ';
    for (int i = 0; row->operands[i] != 0; i++) {
        unsigned value = word >> shifts[i] & 31;
        if (i > 0) {
            *at++ = ',';
            *at++ = ' ';
        }
        switch (row->operands[i]) {
        case 'x': *at++ = 'x'; break;
        case 'b': *at++ = '('; *at++ = 'x'; break;
        case 'v': *at++ = 'v'; break;
        case 'i': value = word >> 15 & 0x1fff; break;
        case 's':
            if (value >= 16) {
                *at++ = '-';
                value = 32 - value;
            }
            break;
        case 't':
            if (value > 7) {
                *answer = 12;
                return 0;
            }
            *at++ = 't';
            *at++ = 'r';
            break;
        default:
            if (value > 1) {
                *answer = 12;
                return 0;
            }
            *at++ = 'a';
            *at++ = 'c';
            *at++ = 'c';
        }
        at = put_number(at, value);
        if (row->operands[i] == 'b') {
            *at++ = ')';
        }
    }
    return (size_t)(at - text);
}

/* A text that is read, and how far. */
struct place {
    const char *text;
    size_t length, at;
};

static int take(struct place *place, const char *expected)
{
    for (; *expected != 0; expected++) {
        if (place->at == place->length || place->text[place->at] != *expected) {
            return 0;
        }
        place->at++;
    }
    return 1;
}

/* The longest number that goes on up to `most`. */
static int take_number(struct place *place, unsigned least, unsigned most, unsigned *value)
{
    size_t start = place->at;
    *value = 0;
    while (place->at < place->length && (place->at == start || *value != 0)) {
        unsigned digit = (unsigned char)place->text[place->at] - (unsigned)'0';
        if (digit > 9 || *value * 10 + digit > most || (place->at == start && digit < least)) {
            break;
        }
        *value = *value * 10 + digit;
        place->at++;
    }
    return place->at > start;
}

static int take_operand(struct place *place, char kind, unsigned *value)
{
    switch (kind) {
    case 'x': return take(place, "x") && take_number(place, 0, 31, value);
    case 'b': return take(place, "(x") && take_number(place, 0, 31, value) && take(place, ")");
    case 'v': return take(place, "v") && take_number(place, 0, 31, value);
    case 't': return take(place, "tr") && take_number(place, 0, 7, value);
    case 'a': return take(place, "acc") && take_number(place, 0, 1, value);
    case 'i': return take_number(place, 0, 8191, value);
    }
    if (place->at < place->length && place->text[place->at] == '-') {
        place->at++;
        int taken = take_number(place, 1, 16, value);
        *value = 32 - *value;
        return taken;
    }
    return take_number(place, 0, 15, value);
}

/* The column of a line with the name of no row. */
static size_t furthest(const char *text, size_t length)
{
    size_t most = 0;
    for (unsigned i = 0; i < ROWS; i++) {
        struct place place = {text, length, 0};
        if (take(&place, rows[i].name)) {
            take(&place, " ");
        }
        most = place.at > most ? place.at : most;
    }
    return most + 1;
}

size_t plain_word(const char *text, size_t length, uint32_t *word)
{
    const char *space = memchr(text, ' ', length < 16 ? length : 16);
    size_t name = space == NULL ? length : (size_t)(space - text);
    if (space == NULL || name > 12) {
        return furthest(text, length);
    }
    unsigned at = hash(text, name);
    while (by_name[at] != 0 && (lengths[by_name[at] - 1] != name || memcmp(rows[by_name[at] - 1].name, text, name) != 0)) {
        at = (at + 1) % sizeof by_name;
    }
    if (by_name[at] == 0) {
        return furthest(text, length);
    }
    const struct row *row = &rows[by_name[at] - 1];
    struct place place = {text, length, name + 1};
    uint32_t made = row->code | 0x77;
    for (int i = 0; row->operands[i] != 0; i++) {
        unsigned value;
        if ((i > 0 && !take(&place, ", ")) || !take_operand(&place, row->operands[i], &value)) {
            return place.at + 1;
        }
        made |= value << shifts[i];
    }
    if (place.at != length) {
        return place.at + 1;
    }
    *word = made;
    return 0;
}

static char *put_answer(char *at, unsigned answer, size_t column)
{
    memcpy(at, "answer ", 7);
    at = put_number(at + 7, answer);
    *at++ = ' ';
    return put_number(at, (unsigned)column);
}

/* The word of eight digits: 0, or the column. */
static size_t read_digits(const char *text, size_t length, uint32_t *word)
{
    *word = 0;
    for (size_t i = 0; i < length; i++) {
        char c = text[i];
        unsigned digit = c >= '0' && c <= '9' ? (unsigned)(c - '0') : c >= 'a' && c <= 'f' ? (unsigned)(c - 'a' + 10) : 16;
        if (i == 8 || digit == 16) {
            return i + 1;
        }
        *word = *word << 4 | digit;
    }
    return length < 8 ? length + 1 : 0;
}

static char *list_one(const char *text, size_t length, char *out)
{
    uint32_t word;
    unsigned answer;
    size_t column = read_digits(text, length, &word);
    if (column != 0) {
        return put_answer(out, 17, column);
    }
    size_t made = plain_line(word, out, &answer);
    return made != 0 ? out + made : put_answer(out, answer, 0);
}

static char *assemble_one(const char *text, size_t length, char *out)
{
    uint32_t word;
    size_t column = plain_word(text, length, &word);
    if (column != 0) {
        return put_answer(out, 17, column);
    }
    for (int shift = 28; shift >= 0; shift -= 4) {
        *out++ = "0123456789abcdef"[word >> shift & 15];
    }
    return out;
}

static size_t whole(const char *in, size_t length, char *out, char *(*one)(const char *, size_t, char *))
{
    char *at = out;
    if (length > 65536) {
        at = put_answer(at, 8, 0);
        *at++ = '\n';
        return (size_t)(at - out);
    }
    for (size_t start = 0; start < length;) {
        const char *feed = memchr(in + start, '\n', length - start);
        size_t end = feed == NULL ? length : (size_t)(feed - in);
        at = one(in + start, end - start, at);
        *at++ = '\n';
        start = end + 1;
    }
    return (size_t)(at - out);
}

size_t plain_list(const char *in, size_t length, char *out) { return whole(in, length, out, list_one); }
size_t plain_assemble(const char *in, size_t length, char *out) { return whole(in, length, out, assemble_one); }

#ifdef LISTING_PROGRAM
#include <stdio.h>

/* listing d|a: from standard input to standard output. */
int main(int count, char **words)
{
    static char in[65537], out[65536 * 16];
    size_t length = fread(in, 1, sizeof in, stdin);
    plain_start();
    length = (count == 2 && words[1][0] == 'a' ? plain_assemble : plain_list)(in, length, out);
    return fwrite(out, 1, length, stdout) != length;
}
#endif
