/* What a script did to its machine: found by running the script again, which takes the same course each time. No copy is kept a step. */
#ifndef HISTORY_H
#define HISTORY_H

#include "numbers.h"
#include "session.h"

/* Bytes that the commands and words of a script write. */
enum space { IN_MEMORY, IN_REGISTER, IN_VECTOR };

/* A few of them: from an address on; from a byte of a register's row on; or from a byte of a vector register on. */
struct place {
    enum space space;
    unsigned reg; /* a register by number, or a vector register; 0 in memory */
    unsigned row; /* of a register, else 0 */
    uint64_t at;
    uint64_t bytes;
};

/* Something that writes bytes: a line that enters numbers, a word, or an image that is made the machine. */
enum event_kind { ENTERED, STEPPED, RESTORED };

struct event {
    enum event_kind kind;
    unsigned long number; /* counts from 1; a word that is refused counts too */
    unsigned long line;   /* of the script */
    struct span command;  /* the line from its command on, without its comment; a part of the script's text */

    struct place entered; /* of ENTERED: all that the line enters, and its numbers' form; BYTE of bytes and files */
    enum form form;

    unsigned long step;       /* of STEPPED: its number, as --trace writes it */
    struct turn turn;         /* its stride is the multiplier of a word that scales by a scalar */
    int in_run;               /* whether it is a turn of a product run */
    struct settings settings; /* as the word finds them */
    unsigned group;
};

/* What is called while a script runs; each function may be NULL. */
struct observer {
    void *self;
    void (*before)(void *self, const struct session *session, const struct event *event);
    void (*after)(void *self, const struct session *session, const struct event *event); /* the device has its answer */
    void (*line)(void *self, const struct session *session);                             /* after each command */
};

/* For commands: an event of the line at hand; what is called before it, and after it. */
struct event next_event(const struct session *session, enum event_kind kind);
struct event next_step(const struct session *session, const struct turn *turn);
void before_event(struct session *session, const struct event *event);
void after_event(struct session *session, const struct event *event);

/* The bytes of the file that the line at hand names, read by read_file or read_front; in a replay those that it read when it first ran. NULL
 * and a sentence in *fault if they can't be read. They stay until another file is read, or, if the session remembers, until it is closed. */
typedef char *reading(const char *path, size_t most, size_t *length, const char **fault);
const char *file_of_line(struct session *session, reading *read, const char *path, size_t most, size_t *length, const char **fault);

void forget_files(struct session *session);

/* Runs the script of a session again, from its start up to and with this line and this event, whichever comes first. Nothing is printed or
 * written to a file, and no file is read again, so the session has to remember. What `again` held before does not matter; it is closed by the
 * caller. 0 if there is no room. */
int replay(const struct session *session, unsigned long last_line, unsigned long last_event, const struct observer *observer,
           struct session *again);

#endif
