/* Commands that enter bytes into memory and vector registers, sealed ranges, and the group size of moves. */
#include "commands.h"

#include <string.h>

#include "arguments.h"
#include "files.h"
#include "history.h"
#include "numbers.h"

int run_memory(struct session *session)
{
    struct reader *reader = &session->reader;
    uint64_t size;
    if (!take_unsigned(reader, "a size", MEMORY_BYTES_MOST, &size) || !take_end(reader))
        return 0;
    if (session->device.memory != NULL)
        return not_now(session, "memory has its size already");
    return device_memory(&session->device, (size_t)size) || not_now(session, "there is no room for so much memory");
}

/* Before the machine starts, a range that it is started with; after it, one that is added. */
int run_seal(struct session *session)
{
    struct reader *reader = &session->reader;
    struct device *device = &session->device;
    uint64_t start, length;
    if (!take_any(reader, "the start of the range", &start) || !take_any(reader, "its length", &length) || !take_end(reader))
        return 0;
    if (device->started) {
        device_seal(device, start, length);
        report_seal(session, start, length);
        return 1;
    }
    if (device->seals_len == 2 * SEALS_MOST)
        return not_now(session, "no machine has so many sealed ranges");
    device->seals[device->seals_len++] = start;
    device->seals[device->seals_len++] = length;
    return 1;
}

/* Whether nothing of the bytes from an address on is sealed on a started machine; else the line is refused with 7, and the script goes on. */
static int may_enter(struct session *session, uint64_t address, uint64_t bytes)
{
    struct device *device = &session->device;
    uint64_t sealed;
    if (!device->started || !first_sealed(device, address, bytes, &sealed))
        return 1;
    device_refuse_sealed(device);
    report_sealed(session, sealed);
    return 0;
}

/* Takes a number of the line into its bytes, at most eight. */
typedef int take(struct reader *reader, enum form form, uint8_t *bytes);

static int take_value(struct reader *reader, enum form form, uint8_t *bytes)
{
    int64_t value;
    if (!take_number_of(reader, form, &value))
        return 0;
    put_number(bytes, form, value);
    return 1;
}

/* Two hexadecimal digits. */
static int take_hex(struct reader *reader, enum form form, uint8_t *bytes)
{
    size_t at = next_at(reader);
    int empty = at_end(reader);
    int high = empty ? -1 : hex_digit(reader->text[at]);
    int low = empty || at + 1 == reader->line_end ? -1 : hex_digit(reader->text[at + 1]);
    (void)form;
    if (high < 0 || low < 0)
        return refuse(reader, at, "expected a byte, two hexadecimal digits");
    *bytes = (uint8_t)(16 * high + low);
    reader->at = at + 2;
    return 1;
}

/* The event of a line that enters numbers. */
static struct event entering(const struct session *session, enum space space, unsigned reg, uint64_t at, uint64_t bytes, enum form form)
{
    struct event event = next_event(session, ENTERED);
    event.entered.space = space;
    event.entered.reg = reg;
    event.entered.at = at;
    event.entered.bytes = bytes;
    event.form = form;
    return event;
}

/* An address, and numbers from it on: all are read before the first is entered. */
static int enter(struct session *session, enum form form, take *take_one)
{
    struct reader *reader = &session->reader;
    size_t width = form_bytes(form), first, at;
    uint64_t address, end;
    uint8_t bytes[8];
    struct event event;
    if (!needs_memory(session) || !take_any(reader, "an address", &address))
        return 0;
    first = reader->at;
    end = address;
    do {
        at = next_at(reader);
        if (!take_one(reader, form, bytes) || !in_memory(session, at, end, 1, width))
            return 0;
        end += width;
    } while (!at_end(reader));
    if (!may_enter(session, address, end - address))
        return 1;
    event = entering(session, IN_MEMORY, 0, address, end - address, form);
    before_event(session, &event);
    reader->at = first;
    for (; address < end && take_one(reader, form, bytes); address += width)
        memcpy(session->device.memory + address, bytes, width);
    after_event(session, &event);
    return 1;
}

/* Two hexadecimal digits a byte, with blanks between bytes or without. */
int run_bytes(struct session *session) { return enter(session, BYTE, take_hex); }

static int run_numbers(struct session *session, enum form form) { return enter(session, form, take_value); }

int run_int8(struct session *session) { return run_numbers(session, INT8); }
int run_int16(struct session *session) { return run_numbers(session, INT16); }
int run_int32(struct session *session) { return run_numbers(session, INT32); }
int run_int64(struct session *session) { return run_numbers(session, INT64); }
int run_float32(struct session *session) { return run_numbers(session, FLOAT32); }

/* group N: how many vector registers a move takes. */
int run_group(struct session *session)
{
    struct reader *reader = &session->reader;
    size_t at = next_at(reader);
    uint64_t group;
    if (!take_any(reader, "a group size", &group) || !take_end(reader))
        return 0;
    if (group != 1 && group != 2 && group != 4 && group != 8)
        return refuse(reader, at, "a group has 1, 2, 4 or 8 vector registers");
    session->device.group = group;
    return 1;
}

/* v N [int8|int16|int32|int64|float32] numbers..: from byte 0 of a vector register on; without a form, bytes of 0 to 255. */
int run_vector(struct session *session)
{
    struct reader *reader = &session->reader;
    enum form form;
    uint64_t v;
    uint8_t bytes[VECTOR_BYTES];
    size_t used = 0;
    int64_t value;
    struct event event;
    if (!take_unsigned(reader, "the number of a vector register", 31, &v))
        return 0;
    form = take_form(reader);
    do {
        size_t at = next_at(reader);
        if (!take_number_of(reader, form, &value) || !in_vector(session, at, used + form_bytes(form)))
            return 0;
        put_number(bytes + used, form, value);
        used += form_bytes(form);
    } while (!at_end(reader));
    event = entering(session, IN_VECTOR, (unsigned)v, 0, used, form);
    before_event(session, &event);
    memcpy(session->device.vectors + BODLARINA_VECTOR_AT(v), bytes, used);
    after_event(session, &event);
    return 1;
}

/* Reads a file into memory from an address on. */
static int load_file(struct session *session, size_t at, const char *path, size_t address)
{
    struct device *device = &session->device;
    const char *fault;
    size_t length;
    const char *bytes = file_of_line(session, read_file, path, device->memory_bytes - address, &length, &fault);
    struct event event;
    if (bytes == NULL)
        return refuse(&session->reader, at, "this file %s", fault);
    if (!may_enter(session, address, length))
        return 1;
    event = entering(session, IN_MEMORY, 0, address, length, BYTE);
    before_event(session, &event);
    memcpy(device->memory + address, bytes, length);
    after_event(session, &event);
    return 1;
}

int run_load(struct session *session)
{
    struct reader *reader = &session->reader;
    char path[PATH_BYTES];
    uint64_t address;
    size_t at = next_at(reader);
    if (!needs_memory(session) || !take_any(reader, "an address", &address) || !in_memory(session, at, address, 0, 1))
        return 0;
    return take_file(session, &at, path) && load_file(session, at, path, (size_t)address);
}
