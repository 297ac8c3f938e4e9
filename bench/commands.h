/* The commands of a script. Each carries out the rest of its line, and returns 0 if that is refused. */
#ifndef COMMANDS_H
#define COMMANDS_H

#include "session.h"

/* entering.c */
int run_memory(struct session *session);
int run_seal(struct session *session);
int run_bytes(struct session *session);
int run_int8(struct session *session);
int run_int16(struct session *session);
int run_int32(struct session *session);
int run_int64(struct session *session);
int run_float32(struct session *session);
int run_group(struct session *session);
int run_vector(struct session *session);
int run_load(struct session *session);

/* images.c */
int run_save(struct session *session);
int run_restore(struct session *session);
int run_salvage(struct session *session);

/* looking.c */
int run_expect(struct session *session);
int run_show(struct session *session);

/* explaining.c */
int run_explain(struct session *session);

/* The line at which the reader stands. */
int run_line(struct session *session);

/* A command: its name, what stands behind it, words in small letters as they are, and what it does. FORM is int8 or its like. */
struct command {
    const char *name;
    const char *arguments;
    const char *help;
    int (*run)(struct session *session);
    int changes; /* whether it may change the machine or its memory */
};

/* The commands of a script, one after the other; NULL behind the last one. */
const struct command *command_at(size_t i);

#endif
