#include "flow.h"

#include <string.h>

/* ---- a word on its machine ---- */

/* The scalar's low SEW bits, signed, or the immediate. */
static int64_t multiplier_of(const struct flow *flow)
{
    uint8_t bytes[8];
    if (flow->instruction.operands[2] == NUMBER)
        return flow->instruction.immediate;
    bodlarina_put64(bytes, flow->turn.stride);
    return number_at(bytes, form_of_bytes(flow->sew));
}

int flow_of(const struct device *device, const struct event *event, struct flow *flow)
{
    const struct instruction *instruction = &flow->instruction;
    memset(flow, 0, sizeof *flow);
    flow->sew = device_sew(device);
    if (flow->sew == 0 || !instruction_of(event->turn.word, &flow->instruction) || instruction->action == SETS)
        return 0;
    flow->turn = event->turn;
    flow->space = instruction->action == STORES ? IN_MEMORY : instruction->action == MOVES_OUT ? IN_VECTOR : IN_REGISTER;
    if (instruction->action == MOVES_OUT || instruction->action == MOVES_IN)
        flow->tile = word_slice(device, instruction, event->turn.stride);
    else
        flow->tile = word_tile(device, instruction);
    flow->terms = (unsigned)event->settings.k;
    flow->multiplier = instruction->action == SCALES ? multiplier_of(flow) : 0;
    return 1;
}

static int multiplies(const struct flow *flow)
{
    return flow->instruction.action == MULTIPLIES || flow->instruction.action == MULTIPLIES_FLOATS;
}

int flow_adds(const struct flow *flow)
{
    enum action action = flow->instruction.action;
    return multiplies(flow) || action == ADDS || action == SUBTRACTS || action == SUBTRACTS_REVERSED;
}

/* ---- where an element lies ---- */

struct place register_place(unsigned reg, unsigned row, unsigned column, unsigned width)
{
    struct place place = {IN_REGISTER, 0, 0, 0, 0};
    place.reg = reg;
    place.row = row;
    place.at = (uint64_t)column * width;
    place.bytes = width;
    return place;
}

static struct place tile_place(const struct flow *flow, unsigned i, unsigned j)
{
    const struct tile *tile = &flow->tile;
    return register_place(tile->reg, tile->row + i, tile->column + j, tile->width);
}

/* The word has its place in memory, so nothing wraps but what a negative stride wraps twice. */
static struct place memory_place(const struct flow *flow, unsigned i, unsigned j)
{
    int transposed = flow->instruction.transposed;
    struct place place = {IN_MEMORY, 0, 0, 0, 0};
    place.at = flow->turn.address + (transposed ? j : i) * flow->turn.stride + (uint64_t)(transposed ? i : j) * flow->tile.width;
    place.bytes = flow->tile.width;
    return place;
}

/* A row or column of the slice is a vector register of the group. */
static struct place vector_place(const struct flow *flow, unsigned i, unsigned j)
{
    int rows = flow->instruction.shape == ROWS;
    struct place place = {IN_VECTOR, 0, 0, 0, 0};
    place.reg = number_of(&flow->instruction, VECTOR) + (rows ? i : j);
    place.at = (uint64_t)(rows ? j : i) * flow->tile.width;
    place.bytes = flow->tile.width;
    return place;
}

struct place flow_target(const struct flow *flow, unsigned i, unsigned j)
{
    switch (flow->instruction.action) {
    case STORES: return memory_place(flow, i, j);
    case MOVES_OUT: return vector_place(flow, i, j);
    default: return tile_place(flow, i, j);
    }
}

unsigned flow_sources(const struct flow *flow)
{
    if (multiplies(flow))
        return 2 * flow->terms;
    return flow->instruction.action != SCALES || flow->multiplier != 0;
}

struct place flow_source(const struct flow *flow, unsigned i, unsigned j, unsigned n)
{
    const struct instruction *instruction = &flow->instruction;
    unsigned term = n / 2;
    switch (instruction->action) {
    case LOADS: return memory_place(flow, i, j);
    case MOVES_IN: return vector_place(flow, i, j);
    case STORES: case MOVES_OUT: return tile_place(flow, i, j);
    case MULTIPLIES: case MULTIPLIES_FLOATS:
        if (n % 2 == 0)
            return register_place(register_in(instruction, 1), i, term, flow->sew);
        return register_place(register_in(instruction, 2), term, j, flow->sew);
    default: return register_place(register_in(instruction, 1), i, j, flow->sew);
    }
}

/* ---- whose byte it is ---- */

/* A byte that is so far behind the first of a tile's rows, each of so many bytes, lies in this row, so far from its start. */
static int in_rows(uint64_t distance, uint64_t stride, unsigned rows, uint64_t row_bytes, unsigned *row, uint64_t *byte)
{
    uint64_t number = rows <= 1 ? 0 : distance / stride;
    if (number >= rows)
        return 0;
    *row = (unsigned)number;
    *byte = distance - number * stride;
    return *byte < row_bytes;
}

/* The rows of a store share no byte, so one stride is at least a row, and a byte is in one row at most. */
static int writes_memory(const struct flow *flow, uint64_t at, unsigned *i, unsigned *j)
{
    const struct tile *tile = &flow->tile;
    int transposed = flow->instruction.transposed, down = flow->turn.stride >> 63 != 0;
    unsigned rows = transposed ? tile->columns : tile->rows, row;
    uint64_t row_bytes = (uint64_t)tile->width * (transposed ? tile->rows : tile->columns), byte;
    uint64_t stride = down ? 0 - flow->turn.stride : flow->turn.stride;
    uint64_t first = rows > 1 && down ? flow->turn.address - (rows - 1) * stride : flow->turn.address;
    if (rows == 0 || row_bytes == 0 || (rows > 1 && stride == 0) || at < first
        || !in_rows(at - first, stride, rows, row_bytes, &row, &byte))
        return 0;
    if (rows > 1 && down)
        row = rows - 1 - row;
    *i = transposed ? (unsigned)(byte / tile->width) : row;
    *j = transposed ? row : (unsigned)(byte / tile->width);
    return 1;
}

static int writes_vector(const struct flow *flow, const struct place *place, uint64_t at, unsigned *i, unsigned *j)
{
    const struct tile *tile = &flow->tile;
    int by_rows = flow->instruction.shape == ROWS;
    unsigned first = number_of(&flow->instruction, VECTOR), slice = place->reg - first, element = (unsigned)(at / tile->width);
    *i = by_rows ? slice : element;
    *j = by_rows ? element : slice;
    return place->reg >= first && *i < tile->rows && *j < tile->columns;
}

static int writes_register(const struct flow *flow, const struct place *place, uint64_t at, unsigned *i, unsigned *j)
{
    const struct tile *tile = &flow->tile;
    uint64_t column = at / tile->width;
    if (place->reg != tile->reg || place->row < tile->row || column < tile->column)
        return 0;
    *i = place->row - tile->row;
    *j = (unsigned)column - tile->column;
    return *i < tile->rows && *j < tile->columns;
}

int flow_writes(const struct flow *flow, const struct place *place, uint64_t byte, unsigned *i, unsigned *j)
{
    if (place->space != flow->space)
        return 0;
    switch (flow->space) {
    case IN_MEMORY: return writes_memory(flow, place->at + byte, i, j);
    case IN_VECTOR: return writes_vector(flow, place, place->at + byte, i, j);
    default: return writes_register(flow, place, place->at + byte, i, j);
    }
}

/* ---- bytes ---- */

static int in_register(const struct device *device, const struct place *place)
{
    return device->started && place->reg < REGISTERS && place->row < register_rows(device)
           && place->at + place->bytes <= register_row_bytes(device, place->reg);
}

const uint8_t *place_bytes(const struct device *device, const struct place *place)
{
    switch (place->space) {
    case IN_MEMORY:
        return device->memory != NULL && place->at <= device->memory_bytes && place->bytes <= device->memory_bytes - place->at
                   ? device->memory + place->at
                   : NULL;
    case IN_VECTOR:
        return place->reg < VECTORS && place->at + place->bytes <= VECTOR_BYTES ? device->vectors + BODLARINA_VECTOR_AT(place->reg) + place->at
                                                                                : NULL;
    default: return in_register(device, place) ? device->registers + register_at(device, place->reg, place->row, (unsigned)place->at) : NULL;
    }
}
