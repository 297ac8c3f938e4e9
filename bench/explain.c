#include "explain.h"

#include <inttypes.h>
#include <stdarg.h>
#include <stdio.h>
#include <stdlib.h>
#include <string.h>

/* A text that grows, and where the lines go. */
struct writing {
    char *text;
    size_t length, room;
    int no_room;
    explained *line;
    void *self;
};

static int has_room(struct writing *writing, size_t more)
{
    size_t room = 2 * (writing->length + more) + 256;
    char *text;
    if (writing->no_room || writing->length + more < writing->room)
        return !writing->no_room;
    text = realloc(writing->text, room);
    writing->no_room = text == NULL;
    if (text == NULL)
        return 0;
    writing->text = text;
    writing->room = room;
    return 1;
}

/* Adds to the text of the line. */
static void __attribute__((format(printf, 2, 3))) put(struct writing *writing, const char *format, ...)
{
    va_list list, again;
    int length;
    va_start(list, format);
    va_copy(again, list);
    length = vsnprintf(NULL, 0, format, list);
    va_end(list);
    if (length >= 0 && has_room(writing, (size_t)length)) {
        vsnprintf(writing->text + writing->length, writing->room - writing->length, format, again);
        writing->length += (size_t)length;
    }
    va_end(again);
}

static void end_line(struct writing *writing, unsigned depth, const struct origin *origin)
{
    if (!writing->no_room && writing->length != 0)
        writing->line(writing->self, depth, writing->text, origin);
    writing->length = 0;
}

/* ---- elements ---- */

static int multiplies_floats(const struct origin *origin) { return origin->flow.instruction.action == MULTIPLIES_FLOATS; }

/* The form of the numbers that a word makes. */
static enum form made_form(const struct origin *origin) { return multiplies_floats(origin) ? FLOAT32 : form_of_bytes(origin->place.bytes); }

/* The form in which an element is written here: that of what reads it, or else that of what wrote it. */
static enum form form_of(const struct origin *origin)
{
    while (origin->form == BYTE && origin->how == COPIED && origin->count > 0)
        origin = origin->sources[0];
    if (origin->form != BYTE)
        return origin->form;
    switch (origin->how) {
    case MULTIPLIED: case ADDED: case SCALED: case CLEARED: return made_form(origin);
    case ENTERED_BY_LINE:
        if (origin->event.form != BYTE && form_bytes(origin->event.form) == origin->place.bytes)
            return origin->event.form;
        break;
    default: break;
    }
    return form_of_bytes(origin->place.bytes);
}

static void put_number_of(struct writing *writing, const uint8_t *bytes, enum form form)
{
    char text[NUMBER_TEXT_BYTES];
    write_number(form, number_at(bytes, form), text);
    put(writing, "%s", text);
}

static int is_unwritten(const struct origin *origin)
{
    return origin->how == NOT_IN_IMAGE || (origin->how == NEVER_WRITTEN && origin->place.space == IN_REGISTER);
}

static int has_unwritten(const struct origin *origin)
{
    size_t i = 0;
    while (i < origin->count && !is_unwritten(origin->sources[i]))
        i++;
    return origin->how == IN_PARTS && i < origin->count;
}

/* The bytes as a number; those that are no number of any form as hexadecimal digits; -- if one was never written. */
static void put_value(struct writing *writing, const struct origin *origin)
{
    enum form form = form_of(origin);
    uint64_t i;
    if (has_unwritten(origin))
        put(writing, "--");
    else if (form_bytes(form) == origin->place.bytes)
        put_number_of(writing, origin->bytes, form);
    else
        for (i = 0; i < origin->place.bytes; i++)
            put(writing, "%s%02x", i == 0 ? "" : " ", origin->bytes[i]);
}

static void put_bytes(struct writing *writing, uint64_t from, uint64_t bytes)
{
    if (bytes == 1)
        put(writing, "byte %" PRIu64, from);
    else
        put(writing, "bytes %" PRIu64 " to %" PRIu64, from, from + bytes - 1);
}

/* memory at 56 (int32); tr0 row 3, column 0 (int8); v4 element 1 (int16). */
static void put_place(struct writing *writing, const struct origin *origin)
{
    const struct place *place = &origin->place;
    enum form form = form_of(origin);
    int whole = form_bytes(form) == place->bytes && place->at % place->bytes == 0;
    char name[8];
    if (place->space == IN_MEMORY) {
        put(writing, "memory at %" PRIu64, place->at);
    } else if (place->space == IN_VECTOR) {
        put(writing, whole ? "v%u element %" PRIu64 : "v%u from byte %" PRIu64 " on", place->reg, whole ? place->at / place->bytes : place->at);
    } else {
        register_name(place->reg, name);
        put(writing, whole ? "%s row %u, column %" PRIu64 : "%s row %u, from byte %" PRIu64 " on", name, place->row,
            whole ? place->at / place->bytes : place->at);
    }
    if (form_bytes(form) == place->bytes)
        put(writing, " (%s)", form_name(form));
    else
        put(writing, " (%" PRIu64 " bytes)", place->bytes);
}

/* ---- what wrote them ---- */

/* step 9, line 20: msce32.m acc0, (x16), x17 */
static void put_step(struct writing *writing, const struct origin *origin)
{
    char text[INSTRUCTION_TEXT_BYTES];
    write_instruction(origin->event.turn.word, text);
    put(writing, "step %lu, line %lu: %s", origin->event.step, origin->event.line, text);
}

/* The command of a line is its first word, and the file that it reads its last. */
static struct span first_word(struct span line)
{
    size_t end = 0;
    while (end < line.length && strchr(" \t\r", line.text[end]) == NULL)
        end++;
    line.length = end;
    return line;
}

static struct span last_word(struct span line)
{
    size_t from;
    while (line.length > 0 && strchr(" \t\r", line.text[line.length - 1]) != NULL)
        line.length--;
    from = line.length;
    while (from > 0 && strchr(" \t\r", line.text[from - 1]) == NULL)
        from--;
    line.text += from;
    line.length -= from;
    return line;
}

static void put_entered(struct writing *writing, const struct origin *origin)
{
    const struct event *event = &origin->event;
    struct span file = last_word(event->command);
    if (span_is(first_word(event->command), "load")) {
        put_bytes(writing, origin->place.at - event->entered.at, origin->place.bytes);
        put(writing, " of %.*s, loaded in line %lu", (int)file.length, file.text, event->line);
        return;
    }
    put(writing, "entered");
    if (event->form != BYTE) {
        put(writing, " as ");
        put_number_of(writing, origin->bytes, event->form);
    }
    put(writing, " in line %lu", event->line);
}

/* restored in line 52 from handover.img */
static void put_image(struct writing *writing, const struct origin *origin)
{
    struct span file = last_word(origin->event.command);
    int salvaged = span_is(first_word(origin->event.command), "salvage");
    put(writing, "%s in line %lu from %.*s", salvaged ? "salvaged" : "restored", origin->event.line, (int)file.length, file.text);
}

static const char *copied(const struct origin *origin)
{
    switch (origin->flow.instruction.action) {
    case LOADS: return "loaded";
    case STORES: return "stored";
    default: return "moved";
    }
}

/* ---- what words reckon ---- */

static void put_old(struct writing *writing, const struct origin *origin) { put_number_of(writing, origin->old_bytes, made_form(origin)); }
static void put_source(struct writing *writing, const struct origin *origin, size_t n)
{
    put_number_of(writing, origin->sources[n]->bytes, form_of(origin->sources[n]));
}

/* 0 + 12 x 1 + 40 x 2 + .. */
static void put_terms(struct writing *writing, const struct origin *origin)
{
    size_t n;
    put_old(writing, origin);
    for (n = 0; n + 1 < origin->count; n += 2) {
        put(writing, " + ");
        put_source(writing, origin, n);
        put(writing, " x ");
        put_source(writing, origin, n + 1);
    }
    put(writing, "%s", origin->terms_left_out != 0 ? " + .." : origin->count == 0 ? " + no terms" : "");
}

static void put_sum(struct writing *writing, const struct origin *origin)
{
    switch (origin->flow.instruction.action) {
    case MULTIPLIES: case MULTIPLIES_FLOATS: put_terms(writing, origin); return;
    case SUBTRACTS_REVERSED:
        put_source(writing, origin, 0);
        put(writing, " - ");
        put_old(writing, origin);
        return;
    default:
        put_old(writing, origin);
        put(writing, origin->flow.instruction.action == SUBTRACTS ? " - " : " + ");
        put_source(writing, origin, 0);
    }
}

static void put_result(struct writing *writing, const struct origin *origin)
{
    put(writing, " = ");
    put_number_of(writing, origin->bytes, made_form(origin));
    if (origin->reduced)
        put(writing, ", reduced to %" PRIu64 " bits", 8 * origin->place.bytes);
    if (multiplies_floats(origin))
        put(writing, ", each product and each sum rounded");
}

static void put_product(struct writing *writing, const struct origin *origin)
{
    put_source(writing, origin, 0);
    put(writing, " x %" PRId64, origin->flow.multiplier);
    put_result(writing, origin);
}

static int is_zero(const struct origin *origin)
{
    static const uint8_t zeros[ELEMENT_BYTES];
    return memcmp(origin->bytes, zeros, (size_t)origin->place.bytes) == 0;
}

/* ---- lines: below another one, an element as it was then ---- */

static void put_origin(struct writing *writing, const struct origin *origin, unsigned depth);

static void put_sources(struct writing *writing, const struct origin *origin, unsigned depth)
{
    size_t n;
    for (n = 0; n < origin->count; n++)
        put_origin(writing, origin->sources[n], depth);
    if (origin->terms_left_out == 0)
        return;
    put(writing, ".. %lu more terms", (unsigned long)origin->terms_left_out);
    end_line(writing, depth, origin);
}

static int is_sum(const struct origin *origin) { return origin->how == ADDED || origin->how == MULTIPLIED; }

/* A word that made an element, as a line of its own. */
static void put_word(struct writing *writing, const struct origin *origin, unsigned depth)
{
    put_step(writing, origin);
    put(writing, ": ");
    if (is_sum(origin)) {
        put_sum(writing, origin);
        put_result(writing, origin);
    } else if (origin->how == SCALED) {
        put_product(writing, origin);
    } else if (origin->how == CLEARED) {
        put(writing, "cleared");
    } else {
        put(writing, "%s ", copied(origin));
        put_value(writing, origin);
    }
    end_line(writing, depth, origin);
    put_sources(writing, origin, depth + 1);
}

static int is_word(const struct origin *origin)
{
    return is_sum(origin) || origin->how == SCALED || origin->how == CLEARED || origin->how == COPIED;
}

/* The words that made a sum, newest first. */
static void put_words(struct writing *writing, const struct origin *origin, unsigned depth)
{
    const struct origin *newest = origin;
    while (origin != NULL && is_word(origin)) {
        put_word(writing, origin, depth);
        if (!is_sum(origin))
            return;
        if (origin->words_left_out != 0) {
            put(writing, ".. %lu older word%s", (unsigned long)origin->words_left_out, origin->words_left_out == 1 ? "" : "s");
            end_line(writing, depth, newest);
            return;
        }
        origin = origin->old;
    }
    if (origin != NULL)
        put_origin(writing, origin, depth);
}

/* Behind the element and its value: how it came to be, if that is no word. */
static void put_how(struct writing *writing, const struct origin *origin)
{
    static const char *const starts[] = {"memory starts as zeros", "", "vector registers start as zeros"};
    switch (origin->how) {
    case NOT_SOUGHT: put(writing, ".."); break;
    case NEVER_WRITTEN: put(writing, "never entered: %s", starts[origin->place.space]); break;
    case ENTERED_BY_LINE: put_entered(writing, origin); break;
    case IN_IMAGE: put_image(writing, origin); break;
    case PART_OF:
        if (origin->count > 0) {
            put_bytes(writing, origin->place.at - origin->sources[0]->place.at, origin->place.bytes);
            put(writing, " of %" PRIu64 " that were written together", origin->sources[0]->place.bytes);
        }
        break;
    default: put(writing, "its bytes were not written together"); break;
    }
}

/* The same of a word. */
static void put_how_word(struct writing *writing, const struct origin *origin)
{
    if (is_sum(origin)) {
        put(writing, "a sum%s, its words newest first", is_zero(origin) ? " that came to 0" : "");
        return;
    }
    if (origin->how == SCALED)
        put_product(writing, origin);
    else
        put(writing, "%s", origin->how == CLEARED ? "cleared" : copied(origin));
    put(writing, " in ");
    put_step(writing, origin);
}

/* was never written; and which elements of the register were written last, if it was not the image's. */
static void put_unwritten(struct writing *writing, const struct origin *origin, unsigned depth)
{
    const struct tile *tile = &origin->near_tile;
    char text[INSTRUCTION_TEXT_BYTES], name[8];
    register_name(origin->place.reg, name);
    put(writing, " was never written");
    if (origin->how == NOT_IN_IMAGE) {
        put(writing, ": it was not in the machine ");
        put_image(writing, origin);
    } else if (origin->near.number == 0) {
        put(writing, ", nor any other element of %s", name);
    }
    end_line(writing, depth, origin);
    if (origin->near.number == 0)
        return;
    write_instruction(origin->near.turn.word, text);
    put(writing, "%s was last written in step %lu, line %lu: %s: rows %u to %u, columns %u to %u of %u bits", name, origin->near.step,
        origin->near.line, text, tile->row, tile->row + tile->rows - 1, tile->column, tile->column + tile->columns - 1, 8 * tile->width);
    end_line(writing, depth + 1, origin);
}

static void put_origin(struct writing *writing, const struct origin *origin, unsigned depth)
{
    put_place(writing, origin);
    if (is_unwritten(origin)) {
        put_unwritten(writing, origin, depth);
        return;
    }
    put(writing, depth == 0 ? " is " : " was ");
    put_value(writing, origin);
    put(writing, ": ");
    if (is_word(origin))
        put_how_word(writing, origin);
    else
        put_how(writing, origin);
    end_line(writing, depth, origin);
    if (is_sum(origin))
        put_words(writing, origin, depth + 1);
    else
        put_sources(writing, origin, depth + 1);
}

/* ---- what nobody entered ---- */

static int is_unentered(const struct origin *origin) { return origin->how == NEVER_WRITTEN && origin->place.space == IN_MEMORY; }

/* The first byte from an address on that belongs to one of the elements that nobody entered, and the end of those that follow it. */
static int next_unentered(const struct origin *root, uint64_t address, uint64_t *from, uint64_t *end)
{
    const struct origin *origin;
    int found = 0;
    for (origin = root; origin != NULL; origin = origin->next)
        if (is_unentered(origin) && origin->place.at >= address && (!found || origin->place.at < *from)) {
            *from = origin->place.at;
            *end = *from + origin->place.bytes;
            found = 1;
        }
    for (origin = root; found && origin != NULL; origin = origin->next)
        if (is_unentered(origin) && origin->place.at <= *end && origin->place.at + origin->place.bytes > *end) {
            *end = origin->place.at + origin->place.bytes;
            origin = root;
        }
    return found;
}

/* it rests on memory that was never entered: 12 to 15 */
static void put_unentered(struct writing *writing, const struct origin *root)
{
    uint64_t from = 0, end = 0;
    const char *mark = "it rests on memory that was never entered: ";
    while (next_unentered(root, end, &from, &end)) {
        put(writing, from + 1 == end ? "%s%" PRIu64 : "%s%" PRIu64 " to %" PRIu64, mark, from, end - 1);
        mark = ", ";
    }
    end_line(writing, 0, root);
}

int explain(const struct origin *root, explained *line, void *self)
{
    struct writing writing;
    memset(&writing, 0, sizeof writing);
    writing.line = line;
    writing.self = self;
    put_origin(&writing, root, 0);
    if (!is_unentered(root))
        put_unentered(&writing, root);
    free(writing.text);
    return !writing.no_room;
}
