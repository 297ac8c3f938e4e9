#include "session.h"

#include <inttypes.h>
#include <limits.h>
#include <stdio.h>
#include <string.h>

#include "history.h"
#include "trace.h"

/* Whether a line of the script asks for an explanation. */
static int asks_why(struct reader reader)
{
    while (next_line(&reader))
        if (span_is(take_span(&reader), "explain"))
            return 1;
    return 0;
}

int session_open(struct session *session, const char *path)
{
    memset(session, 0, sizeof *session);
    session->last_event = ULONG_MAX;
    if (!reader_open(&session->reader, path))
        return 0;
    session->remembers = asks_why(session->reader);
    return 1;
}

int session_begin(struct session *session, const char *name)
{
    memset(session, 0, sizeof *session);
    session->last_event = ULONG_MAX;
    session->remembers = 1;
    return reader_begin(&session->reader, name);
}

void session_close(struct session *session)
{
    device_free(&session->device);
    if (session->silent) /* the rest belongs to the session that it repeats */
        return;
    forget_files(session);
    reader_close(&session->reader);
}

int not_now(const struct session *session, const char *sentence)
{
    return refuse(&session->reader, session->command_at, "%s", sentence);
}

int needs_machine(const struct session *session)
{
    return session->device.started || not_now(session, "no machine is started yet: machine RLEN MLEN");
}

int needs_memory(const struct session *session)
{
    return session->device.memory != NULL || not_now(session, "there is no memory yet: memory SIZE");
}

int take_any(struct reader *reader, const char *what, uint64_t *value) { return take_unsigned(reader, what, UINT64_MAX, value); }

int in_memory(const struct session *session, size_t at, uint64_t address, uint64_t count, uint64_t width)
{
    uint64_t bytes = session->device.memory_bytes;
    if (address <= bytes && count <= (bytes - address) / width)
        return 1;
    return refuse(&session->reader, at, "this lies outside the %" PRIu64 " bytes of memory", bytes);
}

int in_vector(const struct session *session, size_t at, size_t end)
{
    return end <= VECTOR_BYTES || refuse(&session->reader, at, "a vector register has %d bytes", VECTOR_BYTES);
}

/* The path of a file that a script names: beside the script, unless it starts with a slash. */
static int beside_script(const struct session *session, struct span name, char path[PATH_BYTES])
{
    const char *script = session->reader.path, *slash = strrchr(script, '/');
    size_t folder = slash == NULL || name.text[0] == '/' ? 0 : (size_t)(slash - script) + 1;
    if (memchr(name.text, '\0', name.length) != NULL || folder + name.length >= PATH_BYTES)
        return 0;
    memcpy(path, script, folder);
    memcpy(path + folder, name.text, name.length);
    path[folder + name.length] = '\0';
    return 1;
}

int take_file(struct session *session, size_t *at, char path[PATH_BYTES])
{
    struct span name = take_span(&session->reader);
    *at = name.at;
    if (name.length == 0 || !beside_script(session, name, path))
        return refuse(&session->reader, name.at, "expected the name of a file");
    return take_end(&session->reader);
}

void count_refusal(struct session *session)
{
    session->unexpected += (unsigned long)session->refused;
    session->refused = 0;
}

void report(const struct session *session, const char *what)
{
    const struct device *device = &session->device;
    if (device->result == 0 || session->silent)
        return;
    printf("%s:%lu: %s: refused with %u, %s", session->reader.path, session->reader.line, what, BODLARINA_ANSWER(device->result),
           bodlarina_answer_text(device->result));
    write_place(stdout, device);
    printf("\n");
}

void report_sealed(const struct session *session, uint64_t address)
{
    if (session->silent)
        return;
    printf("%s:%lu: refused with %u, this would write over a sealed byte: address %" PRIu64 "\n", session->reader.path, session->reader.line,
           BODLARINA_SEALED_BYTE, address);
}
