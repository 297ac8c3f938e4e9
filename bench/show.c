#include "show.h"

#include <inttypes.h>
#include <stdio.h>

void show_scalars(const struct device *device)
{
    unsigned slot;
    for (slot = 1; slot < 32; slot++) {
        uint64_t value = device_scalar(device, slot);
        if (value >> 63 != 0)
            printf("x%u 0x%016" PRIx64 ", signed -%" PRIu64 "\n", slot, value, 0 - value);
        else if (value != 0)
            printf("x%u %" PRIu64 "\n", slot, value);
    }
    printf("every other scalar is 0\n");
}

void show_mtype(const struct device *device)
{
    uint64_t mtype = device_settings(device).mtype;
    if (mtype >> 63 != 0)
        printf("mtype 0x%016" PRIx64 ": illegal\n", mtype);
    else
        printf("mtype %" PRIu64 ": e%u%s\n", mtype, 8 * device_sew(device), (mtype >> 3 & 1) != 0 ? ", accq" : "");
}

void show_sizes(const struct device *device)
{
    struct settings size = device_settings(device), most = device_maxima(device);
    printf("m %" PRIu64 ", k %" PRIu64 ", n %" PRIu64, size.m, size.k, size.n);
    if (most.m != 0)
        printf("; at most %" PRIu64 ", %" PRIu64 ", %" PRIu64, most.m, most.k, most.n);
    printf("\n");
}

/* ---- registers ---- */

static void show_row(const struct device *device, unsigned reg, unsigned row, enum form form)
{
    unsigned column, width = form_bytes(form), columns = register_row_bytes(device, reg) / width;
    char text[NUMBER_TEXT_BYTES];
    printf("%5u:", row);
    for (column = 0; column < columns; column++) {
        write_number(form, number_at(device->registers + register_at(device, reg, row, column * width), form), text);
        printf(" %*s", form_room(form), element_written(device, reg, row, column, width) ? text : "--");
    }
    printf("\n");
}

void show_register(const struct device *device, unsigned reg, enum form form)
{
    unsigned column, row, width = form_bytes(form);
    char name[8];
    register_name(reg, name);
    printf("%s, elements of %u bits\n      ", name, 8 * width);
    for (column = 0; column < register_row_bytes(device, reg) / width; column++)
        printf(" %*u", form_room(form), column);
    printf("\n");
    for (row = 0; row < register_rows(device); row++)
        show_row(device, reg, row, form);
}

void show_vector(const struct device *device, unsigned v, enum form form)
{
    unsigned byte, width = form_bytes(form);
    char text[NUMBER_TEXT_BYTES];
    printf("v%u, elements of %u bits:", v, 8 * width);
    for (byte = 0; byte < VECTOR_BYTES; byte += width) {
        write_number(form, number_at(device->vectors + BODLARINA_VECTOR_AT(v) + byte, form), text);
        printf(" %s", text);
    }
    printf("\n");
}

/* ---- memory ---- */

/* Whether a byte of a number is sealed. */
static int touches_seal(const struct device *device, size_t address, unsigned width)
{
    unsigned i;
    for (i = 0; i < width; i++)
        if (in_seal(device, address + i))
            return 1;
    return 0;
}

/* A number with brackets around it if it is sealed; `more` if another follows on the line. */
static void show_number(const struct device *device, size_t address, enum form form, int more)
{
    int sealed = touches_seal(device, address, form_bytes(form));
    char text[NUMBER_TEXT_BYTES];
    printf(" %c", sealed ? '[' : ' ');
    write_number(form, number_at(device->memory + address, form), text);
    if (form == BYTE)
        printf("%02x", device->memory[address]);
    else
        printf("%*s", form_room(form), text);
    printf("%s", sealed ? "]" : more ? " " : "");
}

void show_memory(const struct device *device, size_t address, size_t count, enum form form)
{
    size_t i, bytes = form_bytes(form), a_line = form == BYTE ? 16 : bytes >= 4 ? 4 : 8;
    for (i = 0; i < count; i++) {
        int last = i % a_line == a_line - 1 || i == count - 1;
        if (i % a_line == 0)
            printf("%9lu:", (unsigned long)(address + i * bytes));
        show_number(device, address + i * bytes, form, !last);
        if (last)
            printf("\n");
    }
}

/* ---- marks ---- */

static char mark_of(const struct device *device, unsigned reg, unsigned row, unsigned byte)
{
    if (is_named(device, reg, row, byte))
        return '!';
    return device->marks[register_at(device, reg, row, byte)] != 0 ? '#' : '.';
}

/* Whether a register has a byte that is written or named. */
static int has_marks(const struct device *device, unsigned reg)
{
    unsigned row, byte;
    for (row = 0; row < register_rows(device); row++)
        for (byte = 0; byte < register_row_bytes(device, reg); byte++)
            if (mark_of(device, reg, row, byte) != '.')
                return 1;
    return 0;
}

static void show_mark_row(const struct device *device, unsigned reg, unsigned row)
{
    unsigned byte;
    printf("%5u: ", row);
    for (byte = 0; byte < register_row_bytes(device, reg); byte++)
        printf("%s%c", byte != 0 && byte % 8 == 0 ? " " : "", mark_of(device, reg, row, byte));
    printf("\n");
}

static int number_length(unsigned number) { return number < 10 ? 1 : number < 100 ? 2 : number < 1000 ? 3 : 4; }

static void show_register_marks(const struct device *device, unsigned reg)
{
    unsigned byte, row;
    char name[8];
    register_name(reg, name);
    if (!has_marks(device, reg)) {
        printf("%-4s   never written\n", name);
        return;
    }
    printf("%-4s   0", name);
    for (byte = 8; byte < register_row_bytes(device, reg); byte += 8)
        printf("%*u", 9 + number_length(byte) - number_length(byte - 8), byte);
    printf("\n");
    for (row = 0; row < register_rows(device); row++)
        show_mark_row(device, reg, row);
}

void show_marks(const struct device *device)
{
    unsigned reg;
    printf("marks, a byte each: # written, . never written, ! named by the last refusal with 5\n");
    for (reg = 0; reg < REGISTERS; reg++)
        show_register_marks(device, reg);
}
