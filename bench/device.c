#include "device.h"

#include <stdio.h>
#include <stdlib.h>
#include <string.h>

/* ---- calls of the library ---- */

/* The device's buffers, lent for one call. */
static struct bodlarina_bench lent(struct device *device)
{
    static uint8_t no_memory;
    struct bodlarina_bench bench;
    size_t bytes = device->mlen <= BODLARINA_MLEN_MOST ? BODLARINA_REGISTER_BYTES(device->mlen) : sizeof device->registers;
    memset(&bench, 0, sizeof bench);
    bench.machine = device->machine;
    bench.machine_len = sizeof device->machine;
    bench.registers = device->registers;
    bench.marks = device->marks;
    bench.registers_len = bench.marks_len = bytes;
    bench.scalars = device->scalars;
    bench.scalars_len = sizeof device->scalars;
    bench.memory = device->memory == NULL ? &no_memory : device->memory;
    bench.memory_len = device->memory_bytes;
    bench.run = device->run;
    bench.run_len = sizeof device->run;
    bench.rule = device->rule;
    bench.elen = device->elen;
    bench.vectors = device->vectors;
    bench.vectors_len = sizeof device->vectors;
    bench.group = device->group;
    return bench;
}

static uint64_t answer(struct device *device, uint64_t result)
{
    device->answers++;
    device->result = result;
    return result;
}

uint64_t device_start(struct device *device, uint64_t rlen, uint64_t mlen, uint64_t elen, uint64_t rule)
{
    struct bodlarina_bench bench;
    device->rlen = rlen;
    device->mlen = mlen;
    device->elen = elen;
    device->rule = rule;
    bench = lent(device);
    /* not by bodlarina_bench_start, which takes an ELEN of 0 for 32 */
    answer(device, bodlarina_start(rlen, mlen, elen, rule, device->seals, device->seals_len, bench.machine, bench.machine_len,
                                   bench.registers, bench.registers_len, bench.marks, bench.marks_len));
    device->started = device->result == 0;
    if (!device->started)
        device->seals_len = 0; /* they may be what was refused: another machine is given its own */
    return device->result;
}

static void remember_named(struct device *device, uint32_t word);

uint64_t device_step(struct device *device, uint32_t word)
{
    struct bodlarina_bench bench = lent(device);
    device->steps++;
    answer(device, bodlarina_bench_step(&bench, word));
    remember_named(device, word);
    return device->result;
}

uint64_t device_seal(struct device *device, uint64_t start, uint64_t length)
{
    struct bodlarina_bench bench = lent(device);
    return answer(device, bodlarina_bench_seal(&bench, start, length));
}

void device_refuse_sealed(struct device *device) { answer(device, BODLARINA_SEALED_BYTE); }

uint64_t device_run_start(struct device *device, const struct bodlarina_plan *plan)
{
    struct bodlarina_bench bench = lent(device);
    return answer(device, bodlarina_bench_run_start(&bench, plan));
}

/* A copy of the run is asked. */
void device_next(const struct device *device, struct turn *turn)
{
    uint8_t run[BODLARINA_RUN_BYTES], handed[BODLARINA_HANDED_BYTES] = {0};
    memcpy(run, device->run, sizeof run);
    bodlarina_run_next(run, sizeof run, handed, sizeof handed);
    turn->word = (uint32_t)bodlarina_get64(handed + BODLARINA_HANDED_WORD_AT);
    turn->address = bodlarina_get64(handed + BODLARINA_HANDED_ADDRESS_AT);
    turn->stride = bodlarina_get64(handed + BODLARINA_HANDED_STRIDE_AT);
}

uint64_t device_turn(struct device *device, const struct turn *turn)
{
    struct bodlarina_bench bench = lent(device);
    device->steps++;
    answer(device, bodlarina_bench_run_turn(&bench));
    remember_named(device, turn->word);
    return device->result;
}

uint64_t device_turns(struct device *device, uint64_t most)
{
    struct bodlarina_bench bench = lent(device);
    uint64_t done = bodlarina_bench_run_turns(&bench, most);
    device->steps += (unsigned long)done;
    return done;
}

uint64_t device_run_steps(struct device *device)
{
    struct bodlarina_bench bench = lent(device);
    return bodlarina_bench_run_steps(&bench);
}

uint8_t *device_image(struct device *device, size_t *length)
{
    struct bodlarina_bench bench = lent(device);
    uint8_t *image;
    *length = (size_t)BODLARINA_LENGTH(bodlarina_bench_image_size(&bench));
    image = malloc(*length + 1);
    if (image == NULL)
        return NULL;
    if (answer(device, BODLARINA_ANSWER(bodlarina_bench_image_write(&bench, image, *length))) == 0)
        return image;
    free(image);
    return NULL;
}

/* A machine's numbers beside its block. An element of the machine before is named no more. */
static void take_numbers(struct device *device)
{
    device->rlen = bodlarina_get64(device->machine + BODLARINA_MACHINE_RLEN_AT);
    device->mlen = bodlarina_get64(device->machine + BODLARINA_MACHINE_MLEN_AT);
    device->rule = bodlarina_get64(device->machine + BODLARINA_MACHINE_RULE_AT);
    device->elen = bodlarina_get64(device->machine + BODLARINA_MACHINE_ELEN_AT);
    device->named.known = 0;
    device->started = 1;
}

uint64_t device_restore(struct device *device, const uint8_t *image, size_t length)
{
    struct bodlarina_bench bench = lent(device);
    bench.registers_len = bench.marks_len = BODLARINA_REGISTER_BYTES(bodlarina_image_mlen(image, length));
    if (answer(device, bodlarina_bench_image_read(&bench, image, length)) == 0)
        take_numbers(device);
    return device->result;
}

uint64_t device_salvage(struct device *device, const uint8_t *image, size_t length, uint8_t report[BODLARINA_REPORT_BYTES])
{
    static uint8_t fresh[BODLARINA_IMAGE_BYTES_MOST(BODLARINA_MLEN_MOST)]; /* no image is longer */
    uint64_t result = bodlarina_image_salvage(image, length, fresh, sizeof fresh, report, BODLARINA_REPORT_BYTES);
    if (BODLARINA_ANSWER(result) != BODLARINA_DONE)
        return answer(device, result);
    return device_restore(device, fresh, (size_t)BODLARINA_LENGTH(result));
}

unsigned device_group(const struct device *device) { return device->group == 0 ? 1 : (unsigned)device->group; }

uint64_t device_scalar(const struct device *device, unsigned slot)
{
    return slot % 32 == 0 ? 0 : bodlarina_get64(device->scalars + BODLARINA_SCALAR_AT(slot % 32));
}

void device_set_scalar(struct device *device, unsigned slot, uint64_t value)
{
    struct bodlarina_bench bench = lent(device);
    bodlarina_bench_set_scalar(&bench, slot, value);
}

/* ---- memory ---- */

int device_memory(struct device *device, size_t bytes)
{
    device->memory = calloc(bytes + 1, 1);
    device->memory_bytes = device->memory == NULL ? 0 : bytes;
    return device->memory != NULL;
}

void device_free(struct device *device)
{
    free(device->memory);
    device->memory = NULL;
    device->memory_bytes = 0;
}

/* ---- sealed ranges: those of the machine's block, before a start those that the script gave ---- */

size_t device_seals(const struct device *device)
{
    return device->started ? (size_t)bodlarina_get64(device->machine + BODLARINA_MACHINE_SEALS_AT) : device->seals_len / 2;
}

void device_seal_at(const struct device *device, size_t i, uint64_t *start, uint64_t *length)
{
    if (device->started) {
        *start = bodlarina_get64(device->machine + BODLARINA_MACHINE_SEAL_AT(i));
        *length = bodlarina_get64(device->machine + BODLARINA_MACHINE_SEAL_AT(i) + 8);
    } else {
        *start = device->seals[2 * i];
        *length = device->seals[2 * i + 1];
    }
}

int in_seal(const struct device *device, uint64_t address)
{
    uint64_t start, length;
    size_t i;
    for (i = 0; i < device_seals(device); i++) {
        device_seal_at(device, i, &start, &length);
        if (address >= start && address - start < length)
            return 1;
    }
    return 0;
}

int first_sealed(const struct device *device, uint64_t address, uint64_t bytes, uint64_t *sealed)
{
    uint64_t start, length, first;
    int found = 0;
    size_t i;
    for (i = 0; i < device_seals(device); i++) {
        device_seal_at(device, i, &start, &length);
        first = start > address ? start : address;
        if (first - address < bytes && first - start < length && (!found || first < *sealed)) {
            *sealed = first;
            found = 1;
        }
    }
    return found;
}

/* ---- settings ---- */

struct settings device_settings(const struct device *device)
{
    struct settings settings;
    settings.mtype = bodlarina_get64(device->machine + BODLARINA_MACHINE_MTYPE_AT);
    settings.m = bodlarina_get64(device->machine + BODLARINA_MACHINE_TILE_M_AT);
    settings.k = bodlarina_get64(device->machine + BODLARINA_MACHINE_TILE_K_AT);
    settings.n = bodlarina_get64(device->machine + BODLARINA_MACHINE_TILE_N_AT);
    return settings;
}

unsigned device_sew(const struct device *device)
{
    uint64_t mtype = device_settings(device).mtype;
    return mtype >> 63 != 0 ? 0 : 1u << (mtype & 3);
}

struct settings device_maxima(const struct device *device)
{
    struct settings most = {0, 0, 0, 0};
    unsigned sew = device_sew(device);
    if (sew == 0)
        return most;
    most.m = device->mlen / device->rlen;
    most.n = device->rlen / (8 * sew);
    most.k = most.m < most.n ? most.m : most.n;
    return most;
}

/* ---- registers ---- */

unsigned register_rows(const struct device *device) { return (unsigned)(device->mlen / device->rlen); }

unsigned register_row_bytes(const struct device *device, unsigned reg)
{
    return (unsigned)(reg < ACCUMULATOR_0 ? device->rlen / 8 : device->rlen / 2);
}

size_t register_at(const struct device *device, unsigned reg, unsigned row, unsigned byte)
{
    size_t mlen = (size_t)device->mlen;
    size_t start = reg < ACCUMULATOR_0 ? reg * (mlen / 8) : mlen + (reg - ACCUMULATOR_0) * (mlen / 2);
    return start + (size_t)row * register_row_bytes(device, reg) + byte;
}

void register_name(unsigned reg, char text[8])
{
    if (reg < ACCUMULATOR_0)
        snprintf(text, 8, "tr%u", reg % 8);
    else
        snprintf(text, 8, "acc%u", (reg - ACCUMULATOR_0) % 2);
}

int element_written(const struct device *device, unsigned reg, unsigned row, unsigned column, unsigned width)
{
    const uint8_t *marks = device->marks + register_at(device, reg, row, column * width);
    unsigned i;
    for (i = 0; i < width; i++)
        if (marks[i] == 0)
            return 0;
    return 1;
}

/* ---- what a word reads and writes ---- */

static struct tile make_tile(const struct device *device, unsigned reg, enum shape shape, unsigned width)
{
    struct settings size = device_settings(device);
    struct tile tile;
    tile.reg = reg;
    tile.rows = (unsigned)(shape == B ? size.k : size.m);
    tile.columns = (unsigned)(shape == A ? size.k : size.n);
    tile.width = width;
    tile.row = tile.column = 0;
    return tile;
}

unsigned register_in(const struct instruction *instruction, size_t i)
{
    return instruction->numbers[i] + (instruction->operands[i] == ACCUMULATOR ? ACCUMULATOR_0 : 0);
}

struct tile word_tile(const struct device *device, const struct instruction *instruction)
{
    int transfer = instruction->action == LOADS || instruction->action == STORES;
    unsigned width = transfer ? instruction->width / 8 : instruction->width * device_sew(device);
    return make_tile(device, register_in(instruction, 0), instruction->shape, width);
}

struct tile word_slice(const struct device *device, const struct instruction *instruction, uint64_t first)
{
    struct tile tile = make_tile(device, register_in(instruction, instruction->action == MOVES_OUT), C, device_sew(device));
    if (instruction->shape == ROWS) {
        tile.row = (unsigned)first;
        tile.rows = device_group(device);
    } else {
        tile.column = (unsigned)first;
        tile.columns = device_group(device);
    }
    return tile;
}

unsigned word_sources(const struct device *device, const struct instruction *instruction, struct tile tiles[3])
{
    unsigned sew = device_sew(device), first = register_in(instruction, 1), second = register_in(instruction, 2);
    switch (instruction->action) {
    case SETS: case LOADS: case MOVES_IN: return 0;
    case STORES: tiles[0] = word_tile(device, instruction); return 1;
    case MULTIPLIES: case MULTIPLIES_FLOATS:
        tiles[0] = make_tile(device, first, A, sew);
        tiles[1] = make_tile(device, second, B, sew);
        tiles[2] = word_tile(device, instruction);
        return 3;
    case ADDS: case SUBTRACTS: case SUBTRACTS_REVERSED:
        tiles[0] = make_tile(device, first, C, sew);
        tiles[1] = word_tile(device, instruction);
        return 2;
    case SCALES: case MOVES_OUT: tiles[0] = make_tile(device, first, C, sew); return 1;
    }
    return 0;
}

/* A refusal 5 names row and column of the first source that has an unwritten element: this finds which one that is. */
static void remember_named(struct device *device, uint32_t word)
{
    struct instruction instruction;
    unsigned row = BODLARINA_ROW(device->result), column = BODLARINA_COLUMN(device->result), i, count;
    struct tile tiles[3];
    if (BODLARINA_ANSWER(device->result) != BODLARINA_UNWRITTEN)
        return;
    device->named.known = 0;
    if (!instruction_of(word, &instruction))
        return;
    count = word_sources(device, &instruction, tiles);
    for (i = 0; i < count && !device->named.known; i++)
        if (row < tiles[i].rows && column < tiles[i].columns
            && !element_written(device, tiles[i].reg, row, column, tiles[i].width)) {
            struct element named = {1, tiles[i].reg, row, column, tiles[i].width};
            device->named = named;
        }
}

int named_stands(const struct device *device)
{
    const struct element *named = &device->named;
    return named->known && !element_written(device, named->reg, named->row, named->column, named->width);
}

int is_named(const struct device *device, unsigned reg, unsigned row, unsigned byte)
{
    const struct element *named = &device->named;
    return named_stands(device) && reg == named->reg && row == named->row && byte / named->width == named->column;
}
