#include "prompt.h"

#include <errno.h>
#include <limits.h>
#include <stdio.h>
#include <stdlib.h>
#include <string.h>

#include "completion.h"
#include "editing.h"
#include "files.h"
#include "history.h"

/* The accepted lines are the script of the session: what is typed is added to it, and taken away again if it is refused or a command of the
 * prompt. So a line has the number that it will have in the script that save-script writes. */

static int ended; /* by quit */

static int run_help(struct session *session)
{
    const struct command *command;
    size_t i;
    if (!take_end(&session->reader))
        return 0;
    for (i = 0; (command = typed_command_at(i)) != NULL; i++)
        printf("%s %-*s  %s\n", command->name, 34 - (int)strlen(command->name), command->arguments, command->help);
    printf("FORM is int8, int16, int32, int64 or float32; REGISTER is tr0 to tr7, acc0, acc1 or v0 to v31\n"
           "any other line is an instruction, as mlae8.m tr0, (x10), x11\n");
    return 1;
}

/* Where the last line with a command starts, the line that is read now left out; its own start if there is none. */
static size_t last_command(const struct reader *reader)
{
    struct reader earlier = *reader;
    size_t start = reader->line_start;
    reader_rewind(&earlier);
    while (next_line(&earlier) && earlier.line < reader->line)
        if (!at_end(&earlier))
            start = earlier.line_start;
    return start;
}

/* The session's machine becomes the one that its script gives, from nothing. */
static int run_again(struct session *session)
{
    static struct session again;
    if (!replay(session, ULONG_MAX, ULONG_MAX, NULL, &again))
        return 0;
    device_free(&session->device);
    session->device = again.device;
    session->events = again.events;
    return 1;
}

static int run_undo(struct session *session)
{
    struct reader *reader = &session->reader;
    size_t start = last_command(reader);
    if (!take_end(reader))
        return 0;
    if (start == reader->line_start)
        return not_now(session, "there is no command to go back from");
    printf("undone: %.*s\n", (int)strcspn(reader->text + start, "\n"), reader->text + start);
    cut_lines(reader, start);
    return run_again(session) || not_now(session, "there is no room to run the script again");
}

static int run_save_script(struct session *session)
{
    struct reader *reader = &session->reader;
    char path[PATH_BYTES];
    size_t at;
    if (!take_file(session, &at, path))
        return 0;
    if (!write_file(path, (const uint8_t *)reader->text, reader->line_start))
        return refuse(reader, at, "this file cannot be written: %s", strerror(errno));
    printf("save-script: %lu line%s\n", reader->line - 1, reader->line == 2 ? "" : "s");
    return 1;
}

static int run_quit(struct session *session)
{
    ended = take_end(&session->reader);
    return ended;
}

static const struct command prompt_commands[] = {
    {"help", "", "print these lines", run_help, 0},
    {"undo", "", "go back one command, by running those before it again", run_undo, 0},
    {"save-script", "FILE", "write the accepted lines as a script", run_save_script, 0},
    {"quit", "", "end", run_quit, 0},
};

const struct command *typed_command_at(size_t i)
{
    size_t own = 0;
    while (own < i && command_at(own) != NULL)
        own++;
    if (command_at(own) != NULL)
        return command_at(own);
    return i - own < sizeof prompt_commands / sizeof prompt_commands[0] ? &prompt_commands[i - own] : NULL;
}

/* The command of the prompt that the line names, taken; NULL if it is another line. */
static const struct command *take_prompt_command(struct session *session)
{
    struct reader *reader = &session->reader;
    size_t before = reader->at, i;
    struct span span = take_span(reader);
    for (i = 0; i < sizeof prompt_commands / sizeof prompt_commands[0]; i++)
        if (span_is(span, prompt_commands[i].name)) {
            session->command_at = span.at;
            return &prompt_commands[i];
        }
    reader->at = before;
    return NULL;
}

/* Carries out a line; what is no accepted line of a script leaves it. */
static void run_typed(struct session *session, struct report *report, const char *line)
{
    struct reader *reader = &session->reader;
    const struct command *own;
    size_t start = reader->length;
    if (!add_line(reader, line)) {
        fprintf(stderr, "%s: the script is too long\n", reader->path);
        return;
    }
    next_line(reader);
    own = take_prompt_command(session);
    if (own == NULL && (report == NULL ? run_line(session) : report_line(report, session)))
        return;
    if (own != NULL)
        own->run(session);
    if (start < reader->length)
        cut_lines(reader, start);
}

void run_prompt(struct session *session, struct report *report)
{
    char prompt[32], *line = NULL;
    editing_start(complete_word);
    printf("bodlarina-bench " BODLARINA_VERSION ": help lists the commands, quit ends\n");
    do {
        free(line);
        fflush(stdout);
        snprintf(prompt, sizeof prompt, "%lu> ", session->reader.line + 1);
        line = edit_line(prompt);
        if (line != NULL)
            run_typed(session, report, line);
    } while (line != NULL && !ended);
    if (line == NULL)
        printf("\n");
    free(line);
}
