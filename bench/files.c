#define _XOPEN_SOURCE 700

#include "files.h"

#include <errno.h>
#include <fcntl.h>
#include <signal.h>
#include <stdlib.h>
#include <string.h>
#include <sys/stat.h>
#include <unistd.h>

/* ---- reading ---- */

char *read_front_of(FILE *file, size_t most, size_t *length, const char **fault)
{
    char *buffer = malloc(most + 1);
    int reason;
    *fault = NULL;
    *length = 0;
    if (buffer == NULL) {
        *fault = "is not read: no room";
        return NULL;
    }
    *length = fread(buffer, 1, most, file);
    if (!ferror(file))
        return buffer;
    reason = errno;
    free(buffer);
    errno = reason;
    *fault = "cannot be read";
    return NULL;
}

char *read_front(const char *path, size_t most, size_t *length, const char **fault)
{
    FILE *file = fopen(path, "rb");
    char *buffer;
    int reason;
    if (file == NULL) {
        *fault = "cannot be opened";
        return NULL;
    }
    buffer = read_front_of(file, most, length, fault);
    reason = errno;
    fclose(file);
    errno = reason;
    return buffer;
}

/* The front of a file if that is all of it. */
static char *whole(char *front, size_t most, size_t length, const char **fault)
{
    if (front == NULL || length <= most)
        return front;
    free(front);
    *fault = "is too long";
    return NULL;
}

char *read_file(const char *path, size_t most, size_t *length, const char **fault)
{
    char *front = read_front(path, most + 1, length, fault);
    return whole(front, most, *length, fault);
}

char *read_file_of(FILE *file, size_t most, size_t *length, const char **fault)
{
    char *front = read_front_of(file, most + 1, length, fault);
    return whole(front, most, *length, fault);
}

/* ---- writing ---- */

int write_all(int file, const uint8_t *bytes, size_t length)
{
    while (length > 0) {
        ssize_t written = write(file, bytes, length);
        if (written < 0 && errno == EINTR)
            continue;
        if (written <= 0)
            return 0;
        bytes += written;
        length -= (size_t)written;
    }
    return 1;
}

/* A name for a new file in the folder of a path, to be completed by mkstemp. */
static char *name_beside(const char *path)
{
    static const char name[] = ".bodlarina-XXXXXX";
    const char *slash = strrchr(path, '/');
    size_t folder = slash == NULL ? 0 : (size_t)(slash - path) + 1;
    char *beside = malloc(folder + sizeof name);
    if (beside != NULL) {
        memcpy(beside, path, folder);
        memcpy(beside + folder, name, sizeof name);
    }
    return beside;
}

/* The mode that a new file gets. */
static mode_t new_mode(void)
{
    mode_t mask = umask(0);
    umask(mask);
    return 0666 & ~mask;
}

/* Whether a path, as /dev/stdout, leads to where standard output goes. */
static int is_output(const struct stat *there)
{
    struct stat output;
    return fstat(STDOUT_FILENO, &output) == 0 && output.st_dev == there->st_dev && output.st_ino == there->st_ino;
}

/* A new file that is to have the place of the target. */
static int open_beside(struct new_file *new, mode_t mode)
{
    char *beside = new->target == NULL ? NULL : name_beside(new->target);
    int file = beside == NULL ? -1 : mkstemp(beside);
    if (file < 0) {
        free(beside);
        return -1;
    }
    new->beside = beside;
    if (fchmod(file, mode) == 0)
        return file;
    close(file);
    return -1;
}

/* The descriptor that is written to: of a new file if there is none at the path, and no link that leads nowhere, or a plain file that may be written,
 * which is replaced where a link leads to; or of what is there. */
static int open_for(struct new_file *new, const char *path)
{
    struct stat there;
    if (stat(path, &there) != 0) {
        if (errno != ENOENT || lstat(path, &there) == 0)
            return -1;
        new->target = strdup(path);
        return open_beside(new, new_mode());
    }
    if (is_output(&there))
        return fflush(stdout) == 0 ? dup(STDOUT_FILENO) : -1;
    if (!S_ISREG(there.st_mode))
        return open(path, O_WRONLY);
    if (access(path, W_OK) != 0)
        return -1;
    new->target = realpath(path, NULL);
    return open_beside(new, there.st_mode & 0777);
}

/* Leaves nothing behind but the reason. */
static void forget(struct new_file *new)
{
    int reason = errno;
    if (new->beside != NULL)
        unlink(new->beside);
    free(new->beside);
    free(new->target);
    errno = reason;
}

int new_file_open(struct new_file *new, const char *path)
{
    int file, reason;
    memset(new, 0, sizeof *new);
    file = open_for(new, path);
    new->file = file < 0 ? NULL : fdopen(file, "wb");
    if (new->file != NULL)
        return 1;
    reason = errno;
    if (file >= 0)
        close(file);
    errno = reason;
    forget(new);
    return 0;
}

/* On the disk before it counts as written. */
int new_file_close(struct new_file *new, int whole)
{
    int done = whole && fflush(new->file) == 0 && !ferror(new->file) && (new->beside == NULL || fsync(fileno(new->file)) == 0);
    int reason = errno, closed = fclose(new->file) == 0;
    if (!done)
        errno = reason;
    done = done && closed && (new->beside == NULL || rename(new->beside, new->target) == 0);
    if (done) {
        free(new->beside);
        new->beside = NULL;
    }
    forget(new);
    return done;
}

int write_file(const char *path, const uint8_t *bytes, size_t length)
{
    struct new_file new;
    if (!new_file_open(&new, path))
        return 0;
    fwrite(bytes, 1, length, new.file);
    return new_file_close(&new, 1);
}

/* ---- standard input, output and error ---- */

/* The signals of a write that cannot be, and what they did at the start. */
static const int of_writes[] = {SIGPIPE, SIGXFSZ};
static struct sigaction handed[sizeof of_writes / sizeof of_writes[0]];

/* What is closed becomes a file that fails as that does: one that is only written as standard input, one that is only read as the others. */
void hold_standard_files(void)
{
    struct sigaction ignored;
    size_t i;
    int file;
    for (file = STDIN_FILENO; file <= STDERR_FILENO; file++)
        if (fcntl(file, F_GETFD) < 0)
            open("/dev/null", file == STDIN_FILENO ? O_WRONLY : O_RDONLY);
    memset(&ignored, 0, sizeof ignored);
    ignored.sa_handler = SIG_IGN;
    for (i = 0; i < sizeof of_writes / sizeof of_writes[0]; i++)
        sigaction(of_writes[i], &ignored, &handed[i]);
}

void hand_on_standard_files(void)
{
    size_t i;
    for (i = 0; i < sizeof of_writes / sizeof of_writes[0]; i++)
        sigaction(of_writes[i], &handed[i], NULL);
}
