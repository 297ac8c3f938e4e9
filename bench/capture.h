/* What a line of the script prints on standard output. */
#ifndef CAPTURE_H
#define CAPTURE_H

#include <stddef.h>
#include <stdio.h>

struct capture {
    FILE *file;    /* where standard output goes meanwhile */
    int output;    /* standard output itself */
    int unwritten; /* whether something of it could not be printed then */
};

/* 0, and the reason in errno, if there is no such file. */
int capture_open(struct capture *capture);
void capture_close(struct capture *capture);

/* Between these standard output is kept, and then printed; the second gives what it was, which the caller frees, or NULL if it was not kept. */
void capture_begin(struct capture *capture);
char *capture_end(struct capture *capture, size_t *length);

#endif
