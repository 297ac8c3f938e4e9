#include "absence.h"

#include <stdlib.h>
#include <string.h>

int absence_open(struct absence *absence, size_t memory_bytes)
{
    memset(absence, 0, sizeof *absence);
    absence->written = calloc(memory_bytes + 1, 1);
    return absence->written != NULL && device_memory(&absence->rests, memory_bytes);
}

void absence_close(struct absence *absence)
{
    device_free(&absence->rests);
    free(absence->written);
    absence->written = NULL;
}

/* The places of registers are those of the machine; another one rests on nothing. */
static void take_sizes(struct absence *absence, const struct device *device)
{
    struct device *rests = &absence->rests;
    if (rests->started && rests->rlen == device->rlen && rests->mlen == device->mlen)
        return;
    rests->rlen = device->rlen;
    rests->mlen = device->mlen;
    rests->started = 1;
    memset(rests->registers, 0, sizeof rests->registers);
}

unsigned absence_at(const struct absence *absence, const struct place *place)
{
    const uint8_t *bits = place_bytes(&absence->rests, place);
    unsigned all = 0;
    size_t i;
    for (i = 0; bits != NULL && i < place->bytes; i++)
        all |= bits[i];
    return all;
}

static void put_bits(struct absence *absence, const struct place *place, unsigned bits)
{
    uint8_t *at = (uint8_t *)place_bytes(&absence->rests, place);
    if (at == NULL)
        return;
    memset(at, (int)bits, place->bytes);
    if (place->space == IN_MEMORY)
        memset(absence->written + place->at, 1, place->bytes);
}

void absence_line(struct absence *absence, const struct device *device, const struct event *event)
{
    if (device->started)
        take_sizes(absence, device);
    if (event->kind == ENTERED)
        put_bits(absence, &event->entered, 0);
    else
        memset(absence->rests.registers, 0, sizeof absence->rests.registers);
}

/* A byte that a load reads, if nothing wrote it and no load read it before: it is of this load. */
static void find_absent(struct absence *absence, const struct event *event, uint64_t at)
{
    uint8_t *bits = absence->rests.memory + at;
    struct absent *load = &absence->loads[absence->count == 0 ? 0 : absence->count - 1];
    if (absence->written[at] || *bits != 0)
        return;
    if (absence->count == 0 || (load->step != event->step && absence->count < ABSENT_MOST)) {
        struct absent fresh = {event->step, event->line, at, at, 0};
        load = &absence->loads[absence->count++];
        *load = fresh;
    }
    *bits = (uint8_t)(1u << (absence->count - 1));
    load->first = at < load->first ? at : load->first;
    load->last = at > load->last ? at : load->last;
    load->bytes++;
}

static void find_all_absent(struct absence *absence, const struct event *event, const struct flow *flow)
{
    unsigned i, j;
    uint64_t byte;
    for (i = 0; i < flow->tile.rows; i++)
        for (j = 0; j < flow->tile.columns; j++)
            for (byte = 0; byte < flow->tile.width; byte++)
                find_absent(absence, event, flow_source(flow, i, j, 0).at + byte);
}

/* On what an element rests that the word makes. */
static unsigned made_of(const struct absence *absence, const struct flow *flow, unsigned i, unsigned j)
{
    struct place place = flow_target(flow, i, j);
    unsigned bits = flow_adds(flow) ? absence_at(absence, &place) : 0, n;
    for (n = 0; n < flow_sources(flow); n++) {
        place = flow_source(flow, i, j, n);
        bits |= absence_at(absence, &place);
    }
    return bits;
}

void absence_step(struct absence *absence, const struct device *device, const struct event *event, const struct flow *flow)
{
    struct place place;
    unsigned i, j;
    take_sizes(absence, device);
    if (flow->instruction.action == LOADS)
        find_all_absent(absence, event, flow);
    if (absence->count == 0 && flow->space != IN_MEMORY)
        return; /* nothing rests on anything yet */
    for (i = 0; i < flow->tile.rows; i++)
        for (j = 0; j < flow->tile.columns; j++) {
            place = flow_target(flow, i, j);
            put_bits(absence, &place, made_of(absence, flow, i, j));
        }
}
