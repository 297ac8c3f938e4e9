/* What a program says of itself and of its command line. */
#ifndef PROGRAM_H
#define PROGRAM_H

struct program {
    const char *name;
    const char *arguments; /* of its usage line */
    const char *help;      /* the lines below that */
};

/* Text on standard output; 0, and a line that this can't be with the text, if it can't. */
int say(const struct program *program, const char *text);

/* Whether a word is --help or --version; then that is said, and *said is what say gave. */
int asked(const struct program *program, const char *word, int *said);

/* Prints the program's name and a sentence to standard error. Returns 0. */
int complain(const struct program *program, const char *format, ...) __attribute__((format(printf, 2, 3)));

/* The same of the command line, with the usage below it. Returns 0. */
int misused(const struct program *program, const char *format, ...) __attribute__((format(printf, 2, 3)));

/* Whether the library that is linked is the one of the header; else a complaint. */
int library_fits(const struct program *program);

#endif
