#include "origin.h"

#include <stdlib.h>
#include <string.h>

#include "wide.h"

/* How deep and how wide a tree is that is not asked for whole. */
enum { DEPTH_SHOWN = 6, TERMS_SHOWN = 4, WORDS_SHOWN = 4 };

/* Bounds of any tree: elements, and replays. */
enum { ORIGINS_MOST = 16384, REPLAYS_MOST = 256 };

struct tree {
    struct origin *root, *last;
    struct origin *unsought; /* the first whose origin was not sought yet */
    size_t count;
    int whole, no_room;
};

/* ---- elements ---- */

/* A further element of the tree; NULL if there is no room. */
static struct origin *add_origin(struct tree *tree, const struct writer *found, unsigned long before, unsigned depth, enum form form)
{
    struct origin *origin = calloc(1, sizeof *origin);
    if (origin == NULL) {
        tree->no_room = 1;
        return NULL;
    }
    origin->place = found->element;
    origin->before = before;
    memcpy(origin->bytes, found->bytes, (size_t)found->element.bytes);
    origin->depth = depth;
    origin->form = form;
    if (tree->last == NULL)
        tree->root = origin;
    else
        tree->last->next = origin;
    tree->last = origin;
    tree->count++;
    if (tree->unsought == NULL)
        tree->unsought = origin;
    return origin;
}

static struct origin *add_source(struct tree *tree, struct origin *origin, const struct writer *found, unsigned long before, enum form form)
{
    struct origin *source = add_origin(tree, found, before, origin->depth + 1, form);
    if (source != NULL)
        origin->sources[origin->count++] = source;
    return source;
}

static int room_for_sources(struct tree *tree, struct origin *origin, size_t count)
{
    origin->sources = calloc(count + 1, sizeof *origin->sources);
    tree->no_room |= origin->sources == NULL;
    return origin->sources != NULL;
}

/* ---- words ---- */

/* The form of the number that a word makes. */
static enum form made_form(const struct write *write)
{
    return write->flow.instruction.action == MULTIPLIES_FLOATS ? FLOAT32 : form_of_bytes(write->flow.tile.width);
}

/* The form in which a word reads its sources; what is only copied is of the form of the copy. */
static enum form source_form(const struct write *write, enum form form)
{
    if (write->how == COPIED)
        return form;
    return write->flow.instruction.action == MULTIPLIES_FLOATS ? FLOAT32 : form_of_bytes(write->flow.sew);
}

static int64_t source_number(const struct write *write, size_t n)
{
    return number_at(write->sources[n].bytes, form_of_bytes(write->flow.sew));
}

/* The exact result of a word on whole numbers. */
static struct wide exact(const struct write *write, enum form form)
{
    enum action action = write->flow.instruction.action;
    struct wide sum = wide_product(number_at(write->old, form), action == SUBTRACTS_REVERSED ? -1 : 1);
    size_t n;
    if (write->how == SCALED)
        return wide_product(source_number(write, 0), write->flow.multiplier);
    if (write->how == ADDED)
        return wide_sum(sum, wide_product(source_number(write, 0), action == SUBTRACTS ? -1 : 1));
    for (n = 0; n + 1 < write->count; n += 2)
        sum = wide_sum(sum, wide_product(source_number(write, n), source_number(write, n + 1)));
    return sum;
}

static int is_reduced(const struct write *write, enum form form)
{
    struct wide result, value = wide_of(number_at(write->bytes, form));
    if ((write->how != SCALED && write->how != ADDED && write->how != MULTIPLIED) || write->flow.instruction.action == MULTIPLIES_FLOATS)
        return 0;
    result = exact(write, form);
    return result.low != value.low || result.high != value.high;
}

/* The element is what this write made it. */
static void add_write(struct tree *tree, struct origin *origin, const struct write *write)
{
    size_t count = write->count, n;
    origin->how = write->how;
    origin->event = write->event;
    origin->flow = write->flow;
    origin->reduced = is_reduced(write, form_of_bytes(origin->place.bytes));
    memcpy(origin->old_bytes, write->old, sizeof origin->old_bytes);
    if (!tree->whole && write->how == MULTIPLIED && count > 2 * TERMS_SHOWN) {
        origin->terms_left_out = count / 2 - TERMS_SHOWN;
        count = 2 * TERMS_SHOWN;
    }
    if (!room_for_sources(tree, origin, count))
        return;
    for (n = 0; n < count && !tree->no_room; n++)
        add_source(tree, origin, &write->sources[n], write->event.number, source_form(write, origin->form));
}

/* Nothing wrote the element; what its register has was written by this word. */
static void add_unwritten(struct origin *origin, enum how how, const struct track *track)
{
    origin->how = how;
    origin->near = track->near;
    origin->near_tile = track->near_tile;
}

/* The words that made an element, newest first, and what it was before the first of them. */
static void add_writes(struct tree *tree, struct origin *origin, const struct track *track)
{
    struct writer old;
    size_t left = track->count;
    unsigned words = 0;
    old.element = track->place;
    do {
        const struct write *write = &track->writes[--left];
        add_write(tree, origin, write);
        if (write->how == NOT_IN_IMAGE)
            add_unwritten(origin, NOT_IN_IMAGE, track);
        if (write->how != ADDED && write->how != MULTIPLIED)
            return;
        if (!tree->whole && ++words >= WORDS_SHOWN && left > 0) {
            origin->words_left_out = left;
            return;
        }
        memcpy(old.bytes, write->old, sizeof old.bytes);
        origin->old = add_origin(tree, &old, write->event.number, origin->depth, made_form(write));
        origin = origin->old;
    } while (left > 0 && origin != NULL);
}

/* ---- bytes that were not written as one element ---- */

/* How many bytes from this one on were written together with it. */
static size_t written_together(const struct track *track, size_t byte)
{
    const struct writer *writer = &track->last[byte];
    size_t end = byte + 1;
    while (end < track->place.bytes && track->last[end].event == writer->event && track->last[end].kind == writer->kind
           && (writer->event == 0 || writer->kind != NUMBER_BYTES || same_place(&track->last[end].element, &writer->element)))
        end++;
    return end - byte;
}

/* The element is a part of one that was written. */
static void add_longer(struct tree *tree, struct origin *origin, const struct writer *writer)
{
    origin->how = PART_OF;
    if (room_for_sources(tree, origin, 1))
        add_source(tree, origin, writer, writer->event + 1, BYTE);
}

/* Some bytes of the element: all of an element that was written, some of one, or bytes that nothing wrote. */
static void add_part(struct tree *tree, struct origin *origin, const struct track *track, size_t byte, size_t bytes)
{
    const struct writer *writer = &track->last[byte];
    struct writer found;
    struct origin *part;
    int unwritten = writer->event == 0 || writer->kind == LOST_BYTES;
    found.element = origin->place;
    found.element.at += byte;
    found.element.bytes = bytes;
    memcpy(found.bytes, origin->bytes + byte, bytes);
    part = add_source(tree, origin, &found, unwritten ? origin->before : writer->event + 1, BYTE);
    if (part != NULL && writer->event == 0)
        add_unwritten(part, NEVER_WRITTEN, track);
    else if (part != NULL && writer->kind == NUMBER_BYTES && !same_place(&found.element, &writer->element))
        add_longer(tree, part, writer);
}

static void add_parts(struct tree *tree, struct origin *origin, const struct track *track)
{
    size_t byte, bytes = (size_t)track->place.bytes, together;
    origin->how = IN_PARTS;
    if (room_for_sources(tree, origin, bytes))
        for (byte = 0; byte < bytes && !tree->no_room; byte += together) {
            together = written_together(track, byte);
            add_part(tree, origin, track, byte, together);
        }
}

/* What was found of an element. */
static void add_found(struct tree *tree, struct origin *origin, const struct track *track)
{
    const struct writer *first = &track->last[0];
    tree->no_room |= track->no_room; /* then not all of its writes are there */
    if (tree->no_room || tree->count >= ORIGINS_MOST)
        return;
    if (written_together(track, 0) < track->place.bytes)
        add_parts(tree, origin, track);
    else if (first->event == 0)
        add_unwritten(origin, NEVER_WRITTEN, track);
    else if (same_place(&first->element, &track->place))
        add_writes(tree, origin, track);
    else
        add_longer(tree, origin, first);
}

/* ---- replays ---- */

/* An element whose origin is sought: what wrote its place before its event. */
struct search {
    struct origin *origin;
    struct track *track;
};

/* All that is sought in one replay. */
struct hunt {
    struct tree *tree;
    struct search *searches; /* in the order of their events */
    size_t count, found;
    struct track *tracks; /* of as many places */
    size_t places;
    struct track **touched; /* by the step that is being taken */
    size_t touches;
};

/* Takes over what is known before this event. */
static void find_before(struct hunt *hunt, unsigned long event)
{
    for (; hunt->found < hunt->count && hunt->searches[hunt->found].origin->before <= event; hunt->found++)
        add_found(hunt->tree, hunt->searches[hunt->found].origin, hunt->searches[hunt->found].track);
}

static void before_step(void *self, const struct session *session, const struct event *event)
{
    struct hunt *hunt = self;
    struct flow flow;
    size_t i;
    find_before(hunt, event->number);
    hunt->touches = 0;
    if (event->kind != STEPPED || !flow_of(&session->device, event, &flow))
        return;
    for (i = 0; i < hunt->places; i++)
        if (hunt->tracks[i].place.space == flow.space && track_touched(&hunt->tracks[i], &session->device, event, &flow))
            hunt->touched[hunt->touches++] = &hunt->tracks[i];
}

static void after_step(void *self, const struct session *session, const struct event *event)
{
    struct hunt *hunt = self;
    size_t i;
    for (i = 0; i < hunt->touches; i++)
        track_step(hunt->touched[i], &session->device);
    for (i = 0; event->kind != STEPPED && i < hunt->places; i++)
        track_line(&hunt->tracks[i], &session->device, event);
}

static int by_place(const void *a, const void *b)
{
    const struct place *first = &((const struct search *)a)->origin->place, *second = &((const struct search *)b)->origin->place;
    const uint64_t x[5] = {first->space, first->reg, first->row, first->at, first->bytes};
    const uint64_t y[5] = {second->space, second->reg, second->row, second->at, second->bytes};
    unsigned i = 0;
    while (i < 4 && x[i] == y[i])
        i++;
    return (x[i] > y[i]) - (x[i] < y[i]);
}

static int by_event(const void *a, const void *b)
{
    unsigned long first = ((const struct search *)a)->origin->before, second = ((const struct search *)b)->origin->before;
    return (first > second) - (first < second);
}

/* Whether the origin of an element is to be sought. */
static int is_sought(const struct tree *tree, const struct origin *origin)
{
    return origin->how == NOT_SOUGHT && (tree->whole || origin->depth <= DEPTH_SHOWN);
}

/* One track for each place, however many elements are sought there. */
static void lay_tracks(struct hunt *hunt)
{
    size_t i;
    qsort(hunt->searches, hunt->count, sizeof *hunt->searches, by_place);
    for (i = 0; i < hunt->count; i++) {
        if (i == 0 || by_place(&hunt->searches[i - 1], &hunt->searches[i]) != 0)
            hunt->tracks[hunt->places++].place = hunt->searches[i].origin->place;
        hunt->searches[i].track = &hunt->tracks[hunt->places - 1];
    }
    qsort(hunt->searches, hunt->count, sizeof *hunt->searches, by_event);
}

/* All elements whose origin is still to be sought; 0 if there is none, or no room. */
static int take_unsought(struct hunt *hunt, struct tree *tree)
{
    struct origin *origin;
    size_t all = 0;
    for (origin = tree->unsought; origin != NULL; origin = origin->next)
        all += (size_t)is_sought(tree, origin);
    hunt->searches = calloc(all + 1, sizeof *hunt->searches);
    hunt->tracks = calloc(all + 1, sizeof *hunt->tracks);
    hunt->touched = calloc(all + 1, sizeof *hunt->touched);
    tree->no_room |= hunt->searches == NULL || hunt->tracks == NULL || hunt->touched == NULL;
    for (origin = tree->unsought; origin != NULL && !tree->no_room; origin = origin->next)
        if (is_sought(tree, origin))
            hunt->searches[hunt->count++].origin = origin;
    tree->unsought = NULL;
    return hunt->count != 0;
}

static void free_hunt(struct hunt *hunt, struct tree *tree)
{
    size_t i;
    for (i = 0; i < hunt->places; i++) {
        tree->no_room |= hunt->tracks[i].no_room;
        track_free(&hunt->tracks[i]);
    }
    free(hunt->searches);
    free(hunt->tracks);
    free(hunt->touched);
}

/* One replay, for all elements whose origin is still to be sought. */
static void seek(struct tree *tree, const struct session *session, struct session *again)
{
    struct hunt hunt;
    struct observer observer = {NULL, before_step, after_step, NULL};
    unsigned long last;
    memset(&hunt, 0, sizeof hunt);
    hunt.tree = tree;
    observer.self = &hunt;
    if (take_unsought(&hunt, tree)) {
        lay_tracks(&hunt);
        last = hunt.searches[hunt.count - 1].origin->before;
        tree->no_room |= !replay(session, session->reader.line, last - 1, &observer, again);
        session_close(again);
        find_before(&hunt, last);
    }
    free_hunt(&hunt, tree);
}

struct origin *origin_of(const struct session *session, const struct place *place, enum form form, int whole)
{
    struct tree tree;
    struct session *again = malloc(sizeof *again);
    const uint8_t *bytes = place_bytes(&session->device, place);
    struct writer sought;
    unsigned replays = 0;
    memset(&tree, 0, sizeof tree);
    tree.whole = whole;
    sought.element = *place;
    if (again != NULL && bytes != NULL && place->bytes <= ELEMENT_BYTES) {
        memcpy(sought.bytes, bytes, (size_t)place->bytes);
        add_origin(&tree, &sought, session->events + 1, 0, form);
    }
    while (tree.unsought != NULL && !tree.no_room && replays++ < REPLAYS_MOST)
        seek(&tree, session, again);
    free(again);
    if (!tree.no_room)
        return tree.root;
    origin_free(tree.root);
    return NULL;
}

void origin_free(struct origin *root)
{
    while (root != NULL) {
        struct origin *next = root->next;
        free(root->sources);
        free(root);
        root = next;
    }
}
