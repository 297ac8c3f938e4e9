#include "trace.h"

#include <inttypes.h>
#include <stdio.h>

void write_place(FILE *file, const struct device *device)
{
    char name[8];
    if (BODLARINA_ANSWER(device->result) == BODLARINA_DAMAGED)
        fprintf(file, ": place %" PRIu64, BODLARINA_PLACE(device->result));
    if (BODLARINA_ANSWER(device->result) != BODLARINA_UNWRITTEN)
        return;
    fprintf(file, ": row %u, column %u", BODLARINA_ROW(device->result), BODLARINA_COLUMN(device->result));
    if (device->named.known) {
        register_name(device->named.reg, name);
        fprintf(file, " of %s", name);
    }
}

/* An mtype that is illegal is 2^63; no size is as large. */
static void write_setting(FILE *file, uint64_t value)
{
    if (value >> 63 != 0)
        fprintf(file, "illegal");
    else
        fprintf(file, "%" PRIu64, value);
}

static void write_change(FILE *file, const char *name, uint64_t before, uint64_t after)
{
    if (before == after)
        return;
    fprintf(file, "; %s ", name);
    write_setting(file, before);
    fprintf(file, " -> ");
    write_setting(file, after);
}

/* mtype, tile sizes and rd of a setting. */
static void write_settings(FILE *file, const struct device *device, const struct instruction *instruction, struct settings before)
{
    struct settings after = device_settings(device);
    unsigned rd = instruction->numbers[0];
    write_change(file, "mtype", before.mtype, after.mtype);
    write_change(file, "m", before.m, after.m);
    write_change(file, "k", before.k, after.k);
    write_change(file, "n", before.n, after.n);
    if (rd != 0)
        fprintf(file, "; x%u = %" PRIu64, rd, device_scalar(device, rd));
}

/* The register and the rows and columns of a tile. */
static void write_tile(FILE *file, struct tile tile)
{
    char name[8];
    register_name(tile.reg, name);
    if (tile.rows == 0 || tile.columns == 0)
        fprintf(file, "; %s, no element", name);
    else
        fprintf(file, "; %s rows %u to %u, columns %u to %u of %u bits", name, tile.row, tile.row + tile.rows - 1, tile.column,
               tile.column + tile.columns - 1, 8 * tile.width);
}

/* The slice of a move, and the vector registers that it goes to or comes from. */
static void write_move(FILE *file, const struct device *device, const struct instruction *instruction, const struct turn *turn)
{
    int out = instruction->action == MOVES_OUT;
    unsigned first = number_of(instruction, VECTOR);
    write_tile(file, word_slice(device, instruction, turn->stride));
    fprintf(file, " %s v%u", out ? "to" : "from", first);
    if (device_group(device) > 1)
        fprintf(file, " .. v%u", first + device_group(device) - 1);
}

static void write_stride(FILE *file, uint64_t stride)
{
    if (stride >> 63 == 0)
        fprintf(file, ", stride %" PRIu64, stride);
    else
        fprintf(file, ", stride -%" PRIu64, 0 - stride);
}

void write_changes(FILE *file, const struct device *device, const struct turn *turn, struct settings before)
{
    struct instruction instruction;
    if (!instruction_of(turn->word, &instruction))
        return;
    if (instruction.action == SETS) {
        write_settings(file, device, &instruction, before);
        return;
    }
    if (instruction.action == MOVES_OUT || instruction.action == MOVES_IN) {
        write_move(file, device, &instruction, turn);
        return;
    }
    write_tile(file, word_tile(device, &instruction));
    if (instruction.action == LOADS || instruction.action == STORES) {
        fprintf(file, " %s memory at %" PRIu64, instruction.action == LOADS ? "from" : "to", turn->address);
        write_stride(file, turn->stride);
    }
}

void trace_step(const struct device *device, const struct turn *turn, struct settings before)
{
    char text[INSTRUCTION_TEXT_BYTES];
    write_instruction(turn->word, text);
    printf("%5lu  %08" PRIX32 "  %-26s  %u %s", device->steps, turn->word, text, BODLARINA_ANSWER(device->result),
           bodlarina_answer_text(device->result));
    write_place(stdout, device);
    if (device->result == 0)
        write_changes(stdout, device, turn, before);
    printf("\n");
}
