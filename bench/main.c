/* bodlarina-bench: drives a machine from a script, or from what is typed. See man/bodlarina-bench.1. */
#define _POSIX_C_SOURCE 200112L

#include <errno.h>
#include <stdio.h>
#include <string.h>
#include <unistd.h>

#include "commands.h"
#include "files.h"
#include "options.h"
#include "picture.h"
#include "prompt.h"
#include "report.h"

enum { HELD, NOT_HELD, BAD_SCRIPT };

/* Whether all held, and how many refusals no line expects. */
static int end_script(struct session *session)
{
    unsigned long count;
    count_refusal(session);
    count = session->unexpected;
    fflush(stdout);
    if (count != 0)
        fprintf(stderr, "%s: %lu refusal%s not expected\n", session->reader.path, count, count == 1 ? " was" : "s were");
    return session->failures == 0 && count == 0 ? HELD : NOT_HELD;
}

/* What is asked for at the end: the picture and the page. */
static int write_files(const struct session *session, const struct report *report, const struct options *options)
{
    if (options->marks != NULL && !session->device.started) {
        fprintf(stderr, "%s: no machine is started, so there are no marks to draw\n", session->reader.path);
        return 0;
    }
    if (options->marks != NULL && !write_picture(&session->device, options->marks)) {
        fprintf(stderr, "%s: the picture cannot be written: %s\n", options->marks, strerror(errno));
        return 0;
    }
    return options->report == NULL || report_write(report, session, options->report);
}

/* Whether something could not be printed. */
static int output_failed(const struct report *report) { return ferror(stdout) || report->capture.unwritten; }

static int run_script(struct session *session, struct report *report, const struct options *options)
{
    int from_file = options->script != NULL && strcmp(options->script, "-") != 0;
    if (!session_open(session, from_file ? options->script : NULL))
        return BAD_SCRIPT;
    session->trace = options->trace;
    session->remembers |= options->report != NULL;
    while (!output_failed(report) && next_line(&session->reader))
        if (!(options->report == NULL ? run_line(session) : report_line(report, session)))
            return BAD_SCRIPT;
    if (output_failed(report))
        return BAD_SCRIPT;
    return write_files(session, report, options) ? end_script(session) : BAD_SCRIPT;
}

/* What is typed does not fail: its answers are seen. */
static int run_typed(struct session *session, struct report *report, const struct options *options)
{
    if (!session_begin(session, "prompt")) {
        complain(&bench_program, "there is no room for a script");
        return BAD_SCRIPT;
    }
    session->trace = options->trace;
    run_prompt(session, options->report == NULL ? NULL : report);
    return write_files(session, report, options) ? HELD : BAD_SCRIPT;
}

static int run(const struct options *options)
{
    static struct session session;
    static struct report report;
    int typed = options->script == NULL && isatty(STDIN_FILENO) == 1, status;
    if (options->report != NULL && !report_open(&report))
        return BAD_SCRIPT;
    status = typed ? run_typed(&session, &report, options) : run_script(&session, &report, options);
    session_close(&session);
    report_close(&report);
    if (fflush(stdout) == 0 && !output_failed(&report))
        return status;
    complain(&bench_program, "the output cannot be written");
    return BAD_SCRIPT;
}

int main(int count, char **words)
{
    struct options options;
    int said;
    hold_standard_files();
    if (count > 1 && asked(&bench_program, words[1], &said))
        return said ? HELD : BAD_SCRIPT;
    if (!read_options(count, words, &options) || !library_fits(&bench_program))
        return BAD_SCRIPT;
    return run(&options);
}
