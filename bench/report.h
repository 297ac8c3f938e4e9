/* The page of a run: one file of HTML with all that is needed to go through it. */
#ifndef REPORT_H
#define REPORT_H

#include "capture.h"
#include "session.h"

/* What a line of the script printed, and what became of it. */
struct line_report {
    char *printed;
    size_t length;
    int refused, failed;
};

struct report {
    struct capture capture;
    struct line_report *lines;
    size_t room;
    int lost; /* whether a line printed what is not kept */
};

/* Before the first line of a session that remembers; 0 and a message if there is no room. */
int report_open(struct report *report);
void report_close(struct report *report);

/* Runs the line at which the reader stands, as run_line does; refuses it if there is no room. */
int report_line(struct report *report, struct session *session);

/* The page of all lines that were run; 0 and a message if it can't be written. */
int report_write(const struct report *report, const struct session *session, const char *path);

#endif
