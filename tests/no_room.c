/* tests/no_room.c: allocations that fail. Preloaded as a shared object, or linked with --wrap for malloc, calloc and realloc and -DWRAPPED, it fails the
 * allocation that NO_ROOM_AT numbers, from 1, or with NO_ROOM_FROM all from that one on; how many there were goes to the file NO_ROOM_COUNT. */
#define _POSIX_C_SOURCE 200809L

#include <errno.h>
#include <fcntl.h>
#include <stddef.h>
#include <stdlib.h>
#include <unistd.h>

#ifdef WRAPPED
#define REAL(name) __real_##name
#define OURS(name) __wrap_##name
#else
#define REAL(name) __libc_##name
#define OURS(name) name
#endif

void *REAL(malloc)(size_t bytes);
void *REAL(calloc)(size_t count, size_t bytes);
void *REAL(realloc)(void *old, size_t bytes);
void *OURS(malloc)(size_t bytes);
void *OURS(calloc)(size_t count, size_t bytes);
void *OURS(realloc)(void *old, size_t bytes);

static unsigned long count;

static unsigned long number(const char *name)
{
    const char *text = getenv(name);
    return text == NULL ? 0 : strtoul(text, NULL, 10);
}

static int fails(void)
{
    unsigned long from = number("NO_ROOM_FROM");
    count++;
    if (count != number("NO_ROOM_AT") && (from == 0 || count < from))
        return 0;
    errno = ENOMEM;
    return 1;
}

void *OURS(malloc)(size_t bytes) { return fails() ? NULL : REAL(malloc)(bytes); }
void *OURS(calloc)(size_t all, size_t bytes) { return fails() ? NULL : REAL(calloc)(all, bytes); }
void *OURS(realloc)(void *old, size_t bytes) { return fails() ? NULL : REAL(realloc)(old, bytes); }

/* A program that this one starts has room. */
static void __attribute__((constructor)) stay_alone(void) { unsetenv("LD_PRELOAD"); }

static void __attribute__((destructor)) tell_count(void)
{
    const char *path = getenv("NO_ROOM_COUNT");
    int file = path == NULL ? -1 : open(path, O_WRONLY | O_CREAT | O_TRUNC, 0600);
    char digits[24];
    size_t at = sizeof digits;
    if (file < 0)
        return;
    digits[--at] = '\n';
    do
        digits[--at] = (char)('0' + count % 10);
    while ((count /= 10) != 0);
    if (write(file, digits + at, sizeof digits - at) < 0)
        _exit(2);
    close(file);
}
