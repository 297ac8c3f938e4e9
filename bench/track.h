/* What wrote the bytes at a place, kept while a script runs. */
#ifndef TRACK_H
#define TRACK_H

#include "flow.h"

/* No element has more bytes. */
#define ELEMENT_BYTES 8

/* How an element came to be. */
enum how {
    NOT_SOUGHT,      /* the tree is cut here */
    NEVER_WRITTEN,   /* no line entered it, and no word or image wrote it */
    ENTERED_BY_LINE, /* event: the line */
    IN_IMAGE,        /* event: the line that restored or salvaged the image, whose machine has it */
    NOT_IN_IMAGE,    /* the same, and its machine has it unwritten */
    COPIED,          /* loaded, stored or moved: one source */
    CLEARED,         /* multiplied by 0: no source */
    SCALED,          /* one source, times the multiplier */
    ADDED,           /* one source added to the old value, or subtracted */
    MULTIPLIED,      /* sources in pairs, whose products are added to the old value */
    PART_OF,         /* a part of a longer element: one source */
    IN_PARTS         /* its bytes were not written together: as many sources as there are parts */
};

/* An element and its bytes, and the last event that wrote it so; 0 if none did. */
struct writer {
    unsigned long event;
    struct place element;
    uint8_t bytes[ELEMENT_BYTES];
    enum { NUMBER_BYTES, LOOSE_BYTES, LOST_BYTES } kind; /* loose or lost bytes are no number: any of them that stand together are an element as well */
};

/* An event that wrote an element as a whole: the elements that it read, and its bytes after it and before it. */
struct write {
    struct event event;
    enum how how;
    struct flow flow;
    uint8_t bytes[ELEMENT_BYTES], old[ELEMENT_BYTES];
    struct writer *sources;
    size_t count;
};

struct track {
    struct place place;
    struct writer last[ELEMENT_BYTES]; /* of each byte */
    struct write *writes; /* the last that wrote the place as one element, and those that added to it since, newest last; none if what wrote it last
                             did not write it so */
    size_t count, room;
    int no_room;
    struct event near; /* of a register: the last word that wrote any of its elements, and which; its number is 0 if none did since the start or the image */
    struct tile near_tile;

    struct writer now[ELEMENT_BYTES]; /* what the event at hand writes */
    struct write write;               /* sources is NULL if it does not write the place as one element */
};

int same_place(const struct place *a, const struct place *b);

/* Whether a step, before it is taken, writes a byte of the place or of its register; then track_step takes it over, or drops it if the step was
 * refused. */
int track_touched(struct track *track, const struct device *device, const struct event *event, const struct flow *flow);
void track_step(struct track *track, const struct device *device);

/* A line that entered numbers, or an image, after it. */
void track_line(struct track *track, const struct device *device, const struct event *event);

void track_free(struct track *track);

#endif
