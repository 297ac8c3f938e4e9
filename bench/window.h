/* The rows of memory that a page shows: those that something touched, and of large memories not all. */
#ifndef WINDOW_H
#define WINDOW_H

#include <stddef.h>
#include <stdint.h>

#define ROW_BYTES 8
#define ROWS_MOST 512

struct window {
    uint8_t *touched; /* of each row of memory: how */
    size_t rows, bytes;
    size_t shown[ROWS_MOST]; /* the rows that are shown, in order */
    size_t count;
    int cut; /* whether a row that was touched is not among them */
};

/* All rows of a memory, untouched; 0 if there is no room. */
int window_open(struct window *window, size_t bytes);
void window_close(struct window *window);

/* Bytes that were read or entered, or stored. */
void window_touch(struct window *window, uint64_t address, uint64_t bytes, int stored);

/* All rows of a small memory; else the touched ones, if there are too many half of them with what was stored first. 0 if there is no room. */
int window_choose(struct window *window);

/* Whether one of these bytes is shown. */
int window_meets(const struct window *window, uint64_t address, uint64_t bytes);

#endif
