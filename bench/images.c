/* Commands that hand the machine over: save, restore and salvage. */
#include "commands.h"

#include <errno.h>
#include <inttypes.h>
#include <stdio.h>
#include <stdlib.h>
#include <string.h>

#include "files.h"
#include "history.h"
#include "kept.h"

/* A file of more bytes is not restored; no image is so long. */
#define IMAGE_BYTES_MOST 1048576

/* Writes the image, and says how long it is. */
static int save_file(struct session *session, size_t at, const char *path)
{
    size_t length;
    uint8_t *image = device_image(&session->device, &length);
    int written, reason;
    if (image == NULL)
        return not_now(session, "no image of the machine can be made");
    written = write_file(path, image, length);
    reason = errno;
    free(image);
    if (!written)
        return refuse(&session->reader, at, "this file cannot be written: %s", strerror(reason));
    printf("%s:%lu: save: %lu bytes\n", session->reader.path, session->reader.line, (unsigned long)length);
    return 1;
}

int run_save(struct session *session)
{
    char path[PATH_BYTES];
    size_t at;
    return take_file(session, &at, path) && needs_machine(session) && save_file(session, at, path);
}

/* Prints which machine the one of an image is. */
static void write_machine(const struct session *session, const char *what)
{
    const struct device *device = &session->device;
    printf("%s:%lu: %s: RLEN %" PRIu64 ", MLEN %" PRIu64 "%s%s", session->reader.path, session->reader.line, what, device->rlen, device->mlen,
           device->elen == 64 ? ", ELEN 64" : "", device->rule == BODLARINA_HALVING ? ", halving" : "");
}

/* Reads an image, and says which machine it is of. */
static int restore_file(struct session *session, size_t at, const char *path)
{
    const char *fault;
    size_t length;
    const char *image = file_of_line(session, read_file, path, IMAGE_BYTES_MOST, &length, &fault);
    struct event event = next_event(session, RESTORED);
    if (image == NULL)
        return refuse(&session->reader, at, "this file %s", fault);
    before_event(session, &event);
    if (device_restore(&session->device, (const uint8_t *)image, length) == 0 && !session->silent) {
        write_machine(session, "restore");
        printf("\n");
    }
    after_event(session, &event);
    report(session, "restore");
    return 1;
}

int run_restore(struct session *session)
{
    char path[PATH_BYTES];
    size_t at;
    return take_file(session, &at, path) && restore_file(session, at, path);
}

/* Reads what is kept of an image, and says which machine it is of and what that is. */
static int salvage_file(struct session *session, size_t at, const char *path)
{
    uint8_t kept[BODLARINA_REPORT_BYTES];
    char text[KEPT_TEXT_BYTES];
    const char *fault;
    size_t length;
    const char *image = file_of_line(session, read_front, path, SALVAGED_BYTES_MOST, &length, &fault);
    struct event event = next_event(session, RESTORED);
    if (image == NULL)
        return refuse(&session->reader, at, "this file %s", fault);
    before_event(session, &event);
    if (device_salvage(&session->device, (const uint8_t *)image, length, kept) == 0 && !session->silent) {
        write_kept(kept, length, text);
        write_machine(session, "salvage");
        printf("; %s\n", text);
    }
    after_event(session, &event);
    report(session, "salvage");
    return 1;
}

int run_salvage(struct session *session)
{
    char path[PATH_BYTES];
    size_t at;
    return take_file(session, &at, path) && salvage_file(session, at, path);
}
