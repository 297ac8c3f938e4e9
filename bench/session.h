/* A script and its machine, and what the commands share. */
#ifndef SESSION_H
#define SESSION_H

#include "device.h"

struct observer;
struct file_read;

struct session {
    struct reader reader;
    struct device device;
    size_t command_at; /* where the command of the line stands */
    int trace;
    int silent;                      /* in a replay: nothing is printed, and commands that only look or save are passed over */
    int remembers;                   /* keeps the files that it reads, for a replay */
    struct file_read *files;         /* newest first */
    const struct observer *observer; /* or NULL; see history.h */
    unsigned long events;            /* how many there were */
    unsigned long last_event;        /* a product run stops with it */
    unsigned long failures;   /* expectations that did not hold */
    unsigned long unexpected; /* refusals that no line behind them expects */
    int refused;              /* whether the last command but expectations was refused, and no line expects it yet */
};

/* The session of a script, or of standard input if the path is NULL, before its first line; 0 and a message if it can't be read. It remembers if a line asks for an explanation. */
int session_open(struct session *session, const char *path);

/* The session of a script without a line yet, to which lines are added; 0 if there is no room. It remembers. */
int session_begin(struct session *session, const char *name);
void session_close(struct session *session);

/* The longest path. */
#define PATH_BYTES 4096

/* Refuses the command because of what came before it. */
int not_now(const struct session *session, const char *sentence);
int needs_machine(const struct session *session);
int needs_memory(const struct session *session);

/* A number of 64 bits. */
int take_any(struct reader *reader, const char *what, uint64_t *value);

/* The name of a file, where it stands, and the end of the line. A path starts at the script's folder, unless it starts with a slash. */
int take_file(struct session *session, size_t *at, char path[PATH_BYTES]);

/* Whether `count` numbers of `width` bytes at an address lie in memory; else the line is refused. */
int in_memory(const struct session *session, size_t at, uint64_t address, uint64_t count, uint64_t width);

/* Whether a number that ends at this byte of a vector register lies in it; else the line is refused. */
int in_vector(const struct session *session, size_t at, size_t end);

/* Prints that what the line would enter was refused with 7, at this address. */
void report_sealed(const struct session *session, uint64_t address);

/* A refusal that no line expects counts, from the next command on that is no expectation, or from the end of the script on. */
void count_refusal(struct session *session);

/* Prints the last answer if it is a refusal. */
void report(const struct session *session, const char *what);

#endif
