#include "track.h"

#include <stdlib.h>
#include <string.h>

int same_place(const struct place *a, const struct place *b)
{
    return a->space == b->space && a->reg == b->reg && a->row == b->row && a->at == b->at && a->bytes == b->bytes;
}

static void copy_bytes(const struct device *device, struct writer *writer)
{
    const uint8_t *from = place_bytes(device, &writer->element);
    if (from != NULL && writer->element.bytes <= ELEMENT_BYTES)
        memcpy(writer->bytes, from, (size_t)writer->element.bytes);
}

/* ---- writes of the place as one element ---- */

static void drop_writes(struct track *track)
{
    while (track->count > 0)
        free(track->writes[--track->count].sources);
}

void track_free(struct track *track)
{
    drop_writes(track);
    free(track->writes);
}

/* Keeps the write, and those before it if it adds to them. */
static void keep_write(struct track *track, int adds)
{
    struct write *more;
    if (!adds)
        drop_writes(track);
    if (track->count == track->room) {
        more = realloc(track->writes, (2 * track->room + 4) * sizeof *more);
        track->no_room |= more == NULL;
        if (more != NULL) {
            track->writes = more;
            track->room = 2 * track->room + 4;
        }
    }
    if (track->no_room)
        free(track->write.sources);
    else
        track->writes[track->count++] = track->write;
}

/* Takes over what the event wrote. */
static void take_over(struct track *track, const struct device *device, int adds)
{
    size_t byte;
    for (byte = 0; byte < track->place.bytes; byte++)
        if (track->now[byte].event != 0) {
            track->last[byte] = track->now[byte];
            copy_bytes(device, &track->last[byte]);
        }
    if (track->write.sources == NULL) {
        drop_writes(track);
        return;
    }
    memcpy(track->write.bytes, track->last[0].bytes, sizeof track->write.bytes);
    keep_write(track, adds);
}

/* A write of the place as one element, by this event and with room for so many sources. */
static int new_write(struct track *track, const struct event *event, enum how how, size_t sources)
{
    struct write *write = &track->write;
    memset(write, 0, sizeof *write);
    write->event = *event;
    write->how = how;
    write->count = sources;
    write->sources = calloc(sources + 1, sizeof *write->sources);
    track->no_room |= write->sources == NULL;
    return write->sources != NULL;
}

/* Whether the event writes the place as one element. */
static int is_whole(const struct track *track) { return track->now[0].event != 0 && same_place(&track->now[0].element, &track->place); }

/* ---- steps ---- */

static enum how how_of(const struct flow *flow)
{
    switch (flow->instruction.action) {
    case LOADS: case STORES: case MOVES_OUT: case MOVES_IN: return COPIED;
    case SCALES: return flow->multiplier == 0 ? CLEARED : SCALED;
    case MULTIPLIES: case MULTIPLIES_FLOATS: return MULTIPLIED;
    default: return ADDED;
    }
}

/* What the step reads for the element, before it is taken. */
static void read_sources(struct track *track, const struct device *device, const struct flow *flow, unsigned i, unsigned j)
{
    struct writer before;
    unsigned n;
    memset(&before, 0, sizeof before);
    track->write.flow = *flow;
    before.element = track->place;
    copy_bytes(device, &before);
    memcpy(track->write.old, before.bytes, (size_t)track->place.bytes);
    for (n = 0; n < track->write.count; n++) {
        track->write.sources[n].element = flow_source(flow, i, j, n);
        copy_bytes(device, &track->write.sources[n]);
    }
}

/* Whether the step writes elements of the register. */
static int is_near(const struct track *track, const struct flow *flow)
{
    return track->place.space == IN_REGISTER && flow->space == IN_REGISTER && flow->tile.reg == track->place.reg && flow->tile.rows != 0
           && flow->tile.columns != 0;
}

/* Whether the event writes a byte of the place. */
static int is_touched(const struct track *track)
{
    size_t byte = 0;
    while (byte < track->place.bytes && track->now[byte].event == 0)
        byte++;
    return byte < track->place.bytes;
}

int track_touched(struct track *track, const struct device *device, const struct event *event, const struct flow *flow)
{
    unsigned i = 0, j = 0;
    int touched = 0;
    size_t byte;
    for (byte = 0; byte < track->place.bytes; byte++) {
        memset(&track->now[byte], 0, sizeof track->now[byte]);
        if (!flow_writes(flow, &track->place, byte, &i, &j))
            continue;
        touched = 1;
        track->now[byte].event = event->number;
        track->now[byte].element = flow_target(flow, i, j);
    }
    track->write.sources = NULL;
    track->write.event = *event;
    track->write.flow = *flow;
    if (touched && is_whole(track) && new_write(track, event, how_of(flow), flow_sources(flow)))
        read_sources(track, device, flow, i, j);
    return touched || is_near(track, flow);
}

void track_step(struct track *track, const struct device *device)
{
    if (device->result != 0) {
        free(track->write.sources);
        return;
    }
    if (is_near(track, &track->write.flow)) {
        track->near = track->write.event;
        track->near_tile = track->write.flow.tile;
    }
    if (is_touched(track))
        take_over(track, device, flow_adds(&track->write.flow));
}

/* ---- lines ---- */

/* The number that a byte was entered with; of a line of bytes, or of a file, all of the place that it entered. */
static struct place entered_element(const struct event *event, const struct place *place, uint64_t byte)
{
    struct place element = event->entered;
    uint64_t end = event->entered.at + event->entered.bytes, width = form_bytes(event->form);
    if (event->form != BYTE) {
        element.at += (place->at + byte - element.at) / width * width;
        element.bytes = width;
        return element;
    }
    element.at = place->at > element.at ? place->at : element.at;
    end = place->at + place->bytes < end ? place->at + place->bytes : end;
    element.bytes = end - element.at;
    return element;
}

static void see_entered(struct track *track, const struct event *event)
{
    const struct place *place = &track->place, *entered = &event->entered;
    uint64_t byte;
    if (place->space != entered->space || place->reg != entered->reg)
        return;
    for (byte = 0; byte < place->bytes; byte++)
        if (place->at + byte >= entered->at && place->at + byte - entered->at < entered->bytes) {
            track->now[byte].event = event->number;
            track->now[byte].element = entered_element(event, place, byte);
            track->now[byte].kind = event->form == BYTE ? LOOSE_BYTES : NUMBER_BYTES;
        }
}

/* The machine of an image has each register byte written or not: bytes of one kind that stand together are one element. */
static void see_restored(struct track *track, const struct device *device, const struct event *event)
{
    const struct place *place = &track->place;
    const uint8_t *bytes = place->space == IN_REGISTER && device->result == 0 ? place_bytes(device, place) : NULL;
    const uint8_t *marks = bytes == NULL ? NULL : device->marks + (bytes - device->registers);
    size_t byte, from = 0, end;
    for (byte = 0; marks != NULL && byte < place->bytes; byte++) {
        if (marks[byte] != marks[from])
            from = byte;
        for (end = byte; end < place->bytes && marks[end] == marks[from]; end++)
            ;
        track->now[byte].event = event->number;
        track->now[byte].element = *place;
        track->now[byte].element.at += from;
        track->now[byte].element.bytes = end - from;
        track->now[byte].kind = marks[byte] != 0 ? LOOSE_BYTES : LOST_BYTES;
    }
}

void track_line(struct track *track, const struct device *device, const struct event *event)
{
    const struct place *place = &track->place;
    enum how how = ENTERED_BY_LINE;
    memset(track->now, 0, sizeof track->now);
    if (event->kind == ENTERED)
        see_entered(track, event);
    else
        see_restored(track, device, event);
    if (!is_touched(track))
        return;
    if (event->kind == RESTORED) {
        how = element_written(device, place->reg, place->row, (unsigned)place->at, 1) ? IN_IMAGE : NOT_IN_IMAGE;
        track->near.number = 0;
    }
    track->write.sources = NULL;
    if (is_whole(track))
        new_write(track, event, how, 0);
    take_over(track, device, 0);
}
