/* Memory that a word loaded though nobody had entered it, and all that rests on it. */
#ifndef ABSENCE_H
#define ABSENCE_H

#include "flow.h"

/* So many loads are told apart; those behind them count as the last one. */
#define ABSENT_MOST 8

/* A load that was the first to read bytes which nothing had written. */
struct absent {
    unsigned long step, line;
    uint64_t first, last; /* of these bytes */
    uint64_t bytes;       /* how many they are */
};

struct absence {
    struct absent loads[ABSENT_MOST];
    size_t count;
    struct device rests; /* in the place of each byte: on which loads it rests, a bit each */
    uint8_t *written;    /* of each byte of memory: whether a line or a word wrote it */
};

/* Of a machine with so much memory; 0 if there is no room. */
int absence_open(struct absence *absence, size_t memory_bytes);
void absence_close(struct absence *absence);

/* A line that entered numbers or an image, or a word that was accepted and its flow, after it. */
void absence_line(struct absence *absence, const struct device *device, const struct event *event);
void absence_step(struct absence *absence, const struct device *device, const struct event *event, const struct flow *flow);

/* The loads on which one of the bytes at a place rests, a bit each. */
unsigned absence_at(const struct absence *absence, const struct place *place);

#endif
