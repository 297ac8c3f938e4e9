/* The command line of bodlarina-bench. */
#ifndef OPTIONS_H
#define OPTIONS_H

#include "program.h"

extern const struct program bench_program;

struct options {
    int trace;
    const char *marks;  /* the path of the picture, or NULL */
    const char *report; /* of the page */
    const char *script; /* NULL: what is typed, or standard input */
};

/* 0 and a complaint if the words are no command line of the bench. */
int read_options(int count, char **words, struct options *options);

#endif
