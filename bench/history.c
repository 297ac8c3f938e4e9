#include "history.h"

#include <stdlib.h>
#include <string.h>

#include "commands.h"

/* ---- events ---- */

struct event next_event(const struct session *session, enum event_kind kind)
{
    const struct reader *reader = &session->reader;
    struct event event;
    memset(&event, 0, sizeof event);
    event.kind = kind;
    event.number = session->events + 1;
    event.line = reader->line;
    event.command.text = reader->text + session->command_at;
    event.command.at = session->command_at;
    event.command.length = reader->line_end - session->command_at;
    return event;
}

struct event next_step(const struct session *session, const struct turn *turn)
{
    struct event event = next_event(session, STEPPED);
    event.step = session->device.steps + 1;
    event.turn = *turn;
    event.settings = device_settings(&session->device);
    event.group = device_group(&session->device);
    return event;
}

void before_event(struct session *session, const struct event *event)
{
    const struct observer *observer = session->observer;
    if (observer != NULL && observer->before != NULL)
        observer->before(observer->self, session, event);
}

void after_event(struct session *session, const struct event *event)
{
    const struct observer *observer = session->observer;
    session->events++;
    if (observer != NULL && observer->after != NULL)
        observer->after(observer->self, session, event);
}

/* ---- files ---- */

/* A file that a line read. Lines that read the same bytes have one copy of them. */
struct file_read {
    unsigned long line;
    char *bytes;
    size_t length;
    int shared; /* whether another one frees the bytes */
    struct file_read *next;
};

void forget_files(struct session *session)
{
    while (session->files != NULL) {
        struct file_read *next = session->files->next;
        if (!session->files->shared)
            free(session->files->bytes);
        free(session->files);
        session->files = next;
    }
}

/* The bytes of a file that holds the same, if there is one. */
static void share_bytes(struct file_read *file)
{
    const struct file_read *other = file->next;
    while (other != NULL && (other->length != file->length || memcmp(other->bytes, file->bytes, file->length) != 0))
        other = other->next;
    if (other == NULL)
        return;
    free(file->bytes);
    file->bytes = other->bytes;
    file->shared = 1;
}

const char *file_of_line(struct session *session, reading *read, const char *path, size_t most, size_t *length, const char **fault)
{
    struct file_read *file = session->files;
    if (session->silent) {
        while (file->line != session->reader.line)
            file = file->next;
        *length = file->length;
        return file->bytes;
    }
    if (!session->remembers)
        forget_files(session);
    file = calloc(1, sizeof *file);
    *fault = "is not read: no room";
    if (file != NULL && (file->bytes = read(path, most, &file->length, fault)) != NULL) {
        file->line = session->reader.line;
        file->next = session->files;
        session->files = file;
        share_bytes(file);
        *length = file->length;
        return file->bytes;
    }
    free(file);
    return NULL;
}

/* ---- running again ---- */

int replay(const struct session *session, unsigned long last_line, unsigned long last_event, const struct observer *observer,
           struct session *again)
{
    memset(again, 0, sizeof *again);
    again->reader = session->reader;
    reader_rewind(&again->reader);
    again->silent = 1;
    again->files = session->files;
    again->observer = observer;
    again->last_event = last_event;
    while (again->reader.line < last_line && again->events < last_event && next_line(&again->reader))
        if (!run_line(again))
            return 0;
    return 1;
}
