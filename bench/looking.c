/* Commands that look: expect and show. */
#include "commands.h"

#include <inttypes.h>
#include <stdio.h>
#include <string.h>

#include "looking.h"
#include "show.h"
#include "trace.h"

/* The most bytes or numbers that one `show memory` prints. */
#define SHOWN_MOST 65536

/* ---- expect ---- */

static void failed(struct session *session)
{
    session->failures++;
    printf("%s:%lu: NOT AS EXPECTED: ", session->reader.path, session->reader.line);
}

/* An answer as a script expects it; placed if it names row and column, or the place of 15. */
struct expected {
    uint64_t number, row, column, place;
    int placed;
};

static int take_expected(struct reader *reader, struct expected *expected)
{
    memset(expected, 0, sizeof *expected);
    if (!take_unsigned(reader, "memory, v or the number of an answer", 0xffff, &expected->number))
        return 0;
    expected->placed = !at_end(reader);
    if (!expected->placed)
        return 1;
    if (expected->number == BODLARINA_DAMAGED)
        return take_any(reader, "a place", &expected->place) && take_end(reader);
    return take_unsigned(reader, "a row", 0xffff, &expected->row) && take_unsigned(reader, "a column", 0xffff, &expected->column)
           && take_end(reader);
}

static int is_expected(const struct expected *expected, uint64_t result)
{
    if (expected->number != BODLARINA_ANSWER(result) || !expected->placed)
        return expected->number == BODLARINA_ANSWER(result);
    if (expected->number == BODLARINA_DAMAGED)
        return expected->place == BODLARINA_PLACE(result);
    return expected->row == BODLARINA_ROW(result) && expected->column == BODLARINA_COLUMN(result);
}

static int expect_answer(struct session *session)
{
    const struct device *device = &session->device;
    struct expected expected;
    if (!take_expected(&session->reader, &expected))
        return 0;
    session->refused = 0;
    if (device->answers == 0)
        return not_now(session, "nothing has answered yet");
    if (is_expected(&expected, device->result))
        return 1;
    failed(session);
    printf("%" PRIu64, expected.number);
    if (expected.placed && expected.number == BODLARINA_DAMAGED)
        printf(", place %" PRIu64, expected.place);
    else if (expected.placed)
        printf(", row %" PRIu64 ", column %" PRIu64, expected.row, expected.column);
    printf("; the answer is %u, %s", BODLARINA_ANSWER(device->result), bodlarina_answer_text(device->result));
    write_place(stdout, device);
    printf("\n");
    return 1;
}

/* A number that memory or a vector register holds at a byte, and the one that the script expects there. */
static void other_number(struct session *session, const char *where, uint64_t byte, enum form form, int64_t found, int64_t value)
{
    char holds[NUMBER_TEXT_BYTES], expected[NUMBER_TEXT_BYTES];
    write_number(form, found, holds);
    write_number(form, value, expected);
    failed(session);
    printf("%s at %" PRIu64 " is %s, not %s\n", where, byte, holds, expected);
}

/* expect memory [int8|int16|int32|int64|float32] ADDRESS numbers..; without a form, bytes of 0 to 255. */
static int expect_memory(struct session *session)
{
    struct reader *reader = &session->reader;
    enum form form = take_form(reader);
    uint64_t address;
    int64_t value, found;
    if (!needs_memory(session) || !take_any(reader, "int8, int16, int32, int64, float32 or an address", &address))
        return 0;
    do {
        size_t at = next_at(reader);
        if (!take_number_of(reader, form, &value) || !in_memory(session, at, address, 1, form_bytes(form)))
            return 0;
        found = number_at(session->device.memory + address, form);
        if (found != value)
            other_number(session, "memory", address, form, found, value);
        address += form_bytes(form);
    } while (!at_end(reader));
    return 1;
}

/* expect v N [int8|int16|int32|int64|float32] numbers..; without a form, bytes of 0 to 255. */
static int expect_vector(struct session *session)
{
    struct reader *reader = &session->reader;
    enum form form;
    uint64_t v;
    size_t used = 0;
    int64_t value, found;
    char name[8];
    if (!take_unsigned(reader, "the number of a vector register", 31, &v))
        return 0;
    snprintf(name, sizeof name, "v%u", (unsigned)v);
    form = take_form(reader);
    do {
        size_t at = next_at(reader);
        if (!take_number_of(reader, form, &value) || !in_vector(session, at, used + form_bytes(form)))
            return 0;
        found = number_at(session->device.vectors + BODLARINA_VECTOR_AT(v) + used, form);
        if (found != value)
            other_number(session, name, used, form, found, value);
        used += form_bytes(form);
    } while (!at_end(reader));
    return 1;
}

int run_expect(struct session *session)
{
    struct reader *reader = &session->reader;
    size_t before = reader->at;
    struct span span = take_span(reader);
    if (span_is(span, "memory"))
        return expect_memory(session);
    if (span_is(span, "v"))
        return expect_vector(session);
    reader->at = before;
    return expect_answer(session);
}

/* ---- show ---- */

static int show_range(struct session *session)
{
    struct reader *reader = &session->reader;
    enum form form = take_form(reader);
    uint64_t address, count;
    size_t at = next_at(reader);
    if (!needs_memory(session) || !take_any(reader, "int8, int16, int32, int64, float32 or an address", &address)
        || !take_unsigned(reader, "how many", SHOWN_MOST, &count) || !take_end(reader)
        || !in_memory(session, at, address, count, form_bytes(form)))
        return 0;
    show_memory(&session->device, (size_t)address, (size_t)count, form);
    return 1;
}

unsigned register_called(struct span span)
{
    unsigned reg;
    char name[8];
    for (reg = 0; reg < REGISTERS; reg++) {
        register_name(reg, name);
        if (span_is(span, name))
            break;
    }
    return reg;
}

unsigned vector_called(struct span span)
{
    unsigned v;
    char name[8];
    for (v = 0; v < VECTORS; v++) {
        snprintf(name, sizeof name, "v%u", v);
        if (span_is(span, name))
            break;
    }
    return v;
}

/* The form of elements of SEW bits; BYTE if mtype is illegal. */
static enum form form_of_sew(const struct device *device) { return form_of_bytes(device_sew(device)); }

/* The form that this width, or float32, stands for; BYTE if it is neither. */
static enum form form_called(struct span span)
{
    static const char *const names[] = {"", "8", "16", "32", "64", "float32"};
    enum form form = FLOAT32;
    while (form > BYTE && !span_is(span, names[form]))
        form--;
    return form;
}

int take_shown_form(struct session *session, enum form *form)
{
    struct reader *reader = &session->reader;
    *form = form_of_sew(&session->device);
    if (!at_end(reader)) {
        struct span span = take_span(reader);
        *form = form_called(span);
        if (*form == BYTE)
            return refuse(reader, span.at, "expected the width of an element, 8, 16, 32 or 64, or float32");
    }
    if (!take_end(reader))
        return 0;
    return *form != BYTE || not_now(session, "mtype is illegal, so elements have no width: give 8, 16, 32, 64 or float32");
}

static const struct {
    const char *name;
    void (*show)(const struct device *device);
} shown[] = {
    {"x", show_scalars}, {"mtype", show_mtype}, {"sizes", show_sizes}, {"marks", show_marks},
};

int run_show(struct session *session)
{
    struct reader *reader = &session->reader;
    struct span span = take_span(reader);
    enum form form;
    unsigned reg, v;
    size_t i;
    if (span_is(span, "memory"))
        return show_range(session);
    for (i = 0; i < sizeof shown / sizeof shown[0]; i++)
        if (span_is(span, shown[i].name)) {
            if (!take_end(reader) || !needs_machine(session))
                return 0;
            shown[i].show(&session->device);
            return 1;
        }
    reg = register_called(span);
    v = vector_called(span);
    if (reg == REGISTERS && v == VECTORS)
        return refuse(reader, span.at, "expected x, mtype, sizes, marks, memory, tr0 to tr7, acc0, acc1 or v0 to v31");
    if (!needs_machine(session) || !take_shown_form(session, &form))
        return 0;
    if (reg < REGISTERS)
        show_register(&session->device, reg, form);
    else
        show_vector(&session->device, v, form);
    return 1;
}
