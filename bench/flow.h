/* What a word writes, element by element, and what it reads for each. */
#ifndef FLOW_H
#define FLOW_H

#include "history.h"

/* A word on its machine. An element is named by its row and column in the tile, counted from the tile's first. */
struct flow {
    struct instruction instruction;
    struct turn turn;
    enum space space;   /* in which it writes */
    struct tile tile;   /* the part of a register that it writes, stores or moves */
    unsigned sew;       /* in bytes */
    unsigned terms;     /* of a multiply */
    int64_t multiplier; /* of a word that scales */
};

/* The flow of a step, before the step is taken; 0 if it writes no element of a register, of memory or of a vector register. */
int flow_of(const struct device *device, const struct event *event, struct flow *flow);

/* Whether the word writes a byte: that of `place` which is so many bytes from its first; and the element that the byte is of. */
int flow_writes(const struct flow *flow, const struct place *place, uint64_t byte, unsigned *i, unsigned *j);

/* An element of a register, by its width in bytes. */
struct place register_place(unsigned reg, unsigned row, unsigned column, unsigned width);

/* Where an element is written. */
struct place flow_target(const struct flow *flow, unsigned i, unsigned j);

/* Whether the word adds to what the element was before. */
int flow_adds(const struct flow *flow);

/* How many elements are read for one, beside itself, and each of them: of a multiply A(i, 0), B(0, j), A(i, 1), .. */
unsigned flow_sources(const struct flow *flow);
struct place flow_source(const struct flow *flow, unsigned i, unsigned j, unsigned n);

/* Where the bytes of a place stand, NULL if the device does not have them. */
const uint8_t *place_bytes(const struct device *device, const struct place *place);

#endif
