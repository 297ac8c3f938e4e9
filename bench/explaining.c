/* The command explain. */
#include "commands.h"

#include <stdio.h>

#include "explain.h"
#include "looking.h"

static void print_line(void *self, unsigned depth, const char *text, const struct origin *origin)
{
    (void)self;
    (void)origin;
    printf("%*s%s\n", (int)(2 * depth), "", text);
}

/* The number that a byte was written with, if it still is there as a whole; else the byte. */
static struct origin *number_with(const struct session *session, const struct place *byte, int whole)
{
    struct origin *root = origin_of(session, byte, BYTE, whole), *number;
    if (root == NULL || root->how != PART_OF)
        return root;
    number = origin_of(session, &root->sources[0]->place, BYTE, whole);
    if (number != NULL && number->how == IN_PARTS) {
        origin_free(number);
        return root;
    }
    origin_free(root);
    return number; /* NULL if there is no room */
}

static int explain_place(struct session *session, const struct place *place, enum form form, int whole)
{
    struct origin *root = form == BYTE ? number_with(session, place, whole) : origin_of(session, place, form, whole);
    int done = root != NULL && explain(root, print_line, NULL);
    origin_free(root);
    return done || not_now(session, "there is no room for the explanation");
}

static int explain_memory(struct session *session, int whole)
{
    struct reader *reader = &session->reader;
    struct place place = {IN_MEMORY, 0, 0, 0, 0};
    size_t at = next_at(reader);
    enum form form;
    if (!take_any(reader, "all, tr0 to tr7, acc0, acc1, v0 to v31 or an address", &place.at) || !needs_memory(session))
        return 0;
    form = take_form(reader);
    place.bytes = form_bytes(form);
    return take_end(reader) && in_memory(session, at, place.at, 1, place.bytes) && explain_place(session, &place, form, whole);
}

static int explain_register(struct session *session, unsigned reg, int whole)
{
    struct reader *reader = &session->reader;
    struct place place = {IN_REGISTER, 0, 0, 0, 0};
    uint64_t row, column;
    size_t at;
    enum form form;
    char name[8];
    if (!needs_machine(session) || !take_unsigned(reader, "a row", register_rows(&session->device) - 1, &row))
        return 0;
    at = next_at(reader);
    if (!take_unsigned(reader, "a column", 0xffff, &column) || !take_shown_form(session, &form))
        return 0;
    place.reg = reg;
    place.row = (unsigned)row;
    place.bytes = form_bytes(form);
    place.at = column * place.bytes;
    register_name(reg, name);
    if (place.at + place.bytes > register_row_bytes(&session->device, reg))
        return refuse(reader, at, "a row of %s has %u elements of %u bits", name, register_row_bytes(&session->device, reg) / form_bytes(form),
                      8 * form_bytes(form));
    return explain_place(session, &place, form, whole);
}

static int explain_vector(struct session *session, unsigned v, int whole)
{
    struct reader *reader = &session->reader;
    struct place place = {IN_VECTOR, 0, 0, 0, 0};
    uint64_t element;
    size_t at = next_at(reader);
    enum form form;
    if (!needs_machine(session) || !take_unsigned(reader, "an element", VECTOR_BYTES - 1, &element) || !take_shown_form(session, &form))
        return 0;
    place.reg = v;
    place.bytes = form_bytes(form);
    place.at = element * place.bytes;
    return in_vector(session, at, (size_t)(place.at + place.bytes)) && explain_place(session, &place, form, whole);
}

/* explain [all] ADDRESS [int8|int16|int32|int64|float32], explain [all] tr0 ROW COLUMN [8|16|32|64|float32], explain [all] v0 ELEMENT [..] */
int run_explain(struct session *session)
{
    struct reader *reader = &session->reader;
    size_t before = reader->at;
    struct span span = take_span(reader);
    int whole = span_is(span, "all");
    unsigned reg, v;
    if (whole) {
        before = reader->at;
        span = take_span(reader);
    }
    reg = register_called(span);
    v = vector_called(span);
    if (reg < REGISTERS)
        return explain_register(session, reg, whole);
    if (v < VECTORS)
        return explain_vector(session, v, whole);
    reader->at = before;
    return explain_memory(session, whole);
}
