/* replay SCRIPT..: runs each script with an observer, then again by replay, as far as it comes: after each event the device must be the same,
 * byte for byte. Then, line by line, what a replay up to that line leaves must be what the first run had there. The last line counts. */
#include <limits.h>
#include <stdio.h>
#include <stdlib.h>
#include <string.h>

#include "commands.h"
#include "history.h"

enum { EVENTS_MOST = 100000, LINES_MOST = 10000 };

/* What a run left after each event and after each line, as a number. */
struct course {
    uint64_t events[EVENTS_MOST], lines[LINES_MOST];
    unsigned long count, last_line;
};

static struct course first, second;
static struct session session, again;

static uint64_t mix(uint64_t sum, const uint8_t *bytes, size_t length)
{
    size_t i;
    for (i = 0; i < length; i++)
        sum = (sum ^ bytes[i]) * 0x100000001b3u;
    return sum;
}

static uint64_t digest(const struct device *device)
{
    uint64_t sum = 0xcbf29ce484222325u ^ device->steps ^ device->rlen << 20 ^ device->mlen << 40 ^ device->group << 8;
    size_t bytes = device->started ? BODLARINA_REGISTER_BYTES(device->mlen) : 0;
    sum = mix(sum, device->machine, sizeof device->machine);
    sum = mix(sum, device->registers, bytes);
    sum = mix(sum, device->marks, bytes);
    sum = mix(sum, device->scalars, sizeof device->scalars);
    sum = mix(sum, device->vectors, sizeof device->vectors);
    return mix(sum, device->memory, device->memory_bytes);
}

static void after(void *self, const struct session *running, const struct event *event)
{
    struct course *course = self;
    if (course->count < EVENTS_MOST)
        course->events[course->count] = digest(&running->device) ^ event->number ^ event->line << 32;
    course->count++;
}

static void line(void *self, const struct session *running)
{
    struct course *course = self;
    course->last_line = running->reader.line;
    if (course->last_line < LINES_MOST)
        course->lines[course->last_line] = digest(&running->device);
}

static int check(const char *path)
{
    struct observer observer = {&first, NULL, after, line}, repeated = {&second, NULL, after, NULL};
    unsigned long i;
    int ok;
    memset(&first, 0, sizeof first);
    memset(&second, 0, sizeof second);
    if (!session_open(&session, path))
        return 0;
    session.remembers = 1;
    session.observer = &observer;
    while (next_line(&session.reader) && run_line(&session))
        ;
    ok = replay(&session, first.last_line, ULONG_MAX, &repeated, &again) && digest(&again.device) == digest(&session.device)
         && first.count == second.count && first.count == session.events
         && memcmp(first.events, second.events, sizeof first.events) == 0;
    session_close(&again);
    for (i = 1; ok && i <= first.last_line && i < LINES_MOST; i++) {
        ok = first.lines[i] == 0 || (replay(&session, i, ULONG_MAX, NULL, &again) && digest(&again.device) == first.lines[i]);
        session_close(&again);
    }
    session_close(&session);
    if (!ok)
        fprintf(stderr, "FAILED: %s run again\n", path);
    return ok;
}

int main(int count, char **words)
{
    unsigned long passed = 0, failed = 0;
    int i;
    for (i = 1; i < count; i++)
        if (check(words[i]))
            passed++;
        else
            failed++;
    fprintf(stderr, "%lu passed, %lu failed\n", passed, failed);
    return failed != 0;
}
