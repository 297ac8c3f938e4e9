/* The command line of bodlarina-firmware. */
#ifndef OPTIONS_H
#define OPTIONS_H

#include "shared.h"

/* Exit statuses of the tool's own. */
enum { STATUS_REFUSED = 120, STATUS_SEALED = 121, STATUS_TROUBLE = 125 };

enum mode { BY_HEADER, BARE, USER };

/* A range to be sealed: an object of the program by its name, or an address and a length; at the start, or when a function has returned. */
struct seal_option {
    const char *text; /* as it was given */
    char *function, *symbol;
    struct range range; /* where there is no symbol */
};

struct options {
    uint64_t rlen, mlen, elen, rule, group;
    struct seal_option seals[SEALS_MOST];
    size_t seals_len;
    int trace;
    enum mode mode;
    const char *marks, *save, *qemu;
    unsigned port;  /* for a debugger; 0 if there is none */
    char **program; /* the firmware and its arguments */
};

/* 1 if there is a firmware to run; else 0 and the exit status, with all said. */
int read_options(int count, char **words, struct options *options, int *status);
void free_options(struct options *options);

#endif
