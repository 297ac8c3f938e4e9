/* The moments of a run, for its page: each word, and each other line that changed something or was refused, with what it changed. */
#ifndef MOMENTS_H
#define MOMENTS_H

#include <stdio.h>

#include "absence.h"
#include "window.h"

/* A machine with a larger MLEN has none of its register bytes on the page, only which are written. */
#define BYTES_MLEN_MOST 4096

/* The readings of a run: numbers that a word stored and that the page shows. */
#define READINGS_MOST 256

struct moments {
    FILE *file;
    const struct window *window;
    const uint8_t *kept; /* of each step, by its number, whether it is a moment; NULL if each is */
    int no_room;         /* for a text of a moment */

    unsigned long count;    /* of moments */
    unsigned long left;     /* steps left out since the last moment */
    unsigned long left_all; /* and all of them */
    unsigned long refused;  /* refusals, of words and of other lines */
    struct place readings[READINGS_MOST];
    size_t readings_count;
    struct absence absence;
    unsigned widths[REGISTERS]; /* of the elements that were last written into a register; 0 if none were */

    /* what the page knows of the machine after the last moment */
    struct device known;
    uint8_t *memory; /* as many bytes as the window has; those that it does not show are not used */

    /* of the line and the event at hand */
    unsigned long steps, answers;
    struct flow flow;
    int flows; /* whether the word has one */
    struct event entered;
    int enters;
};

/* Before the first line; 0 if there is no room. */
int moments_open(struct moments *moments, FILE *file, const struct window *window, const uint8_t *kept);
void moments_close(struct moments *moments);

/* The bytes of an element as the page shows a register: as it was last written, or else as mtype has it. */
unsigned shown_width(const struct moments *moments, const struct device *device, unsigned reg);

/* For struct observer, of which they are the self. */
void moment_before(void *self, const struct session *session, const struct event *event);
void moment_after(void *self, const struct session *session, const struct event *event);
void moment_line(void *self, const struct session *session);

#endif
