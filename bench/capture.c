#define _POSIX_C_SOURCE 200809L

#include "capture.h"

#include <stdlib.h>
#include <unistd.h>

#include "files.h"

int capture_open(struct capture *capture)
{
    capture->output = -1;
    capture->unwritten = 0;
    capture->file = tmpfile();
    return capture->file != NULL;
}

void capture_close(struct capture *capture)
{
    if (capture->file != NULL)
        fclose(capture->file);
    capture->file = NULL;
}

void capture_begin(struct capture *capture)
{
    fflush(stdout);
    capture->output = dup(STDOUT_FILENO);
    if (capture->output >= 0 && dup2(fileno(capture->file), STDOUT_FILENO) < 0) {
        close(capture->output);
        capture->output = -1;
    }
}

/* All that the file holds; then it is empty. */
static char *take_all(int file, size_t *length)
{
    off_t end = lseek(file, 0, SEEK_END);
    char *text = end < 0 ? NULL : malloc((size_t)end + 1);
    *length = 0;
    while (text != NULL && *length < (size_t)end) {
        ssize_t some = pread(file, text + *length, (size_t)end - *length, (off_t)*length);
        if (some <= 0)
            break;
        *length += (size_t)some;
    }
    if (ftruncate(file, 0) == 0 && lseek(file, 0, SEEK_SET) == 0 && *length == (size_t)end)
        return text;
    free(text);
    return NULL;
}

char *capture_end(struct capture *capture, size_t *length)
{
    char *text;
    int kept;
    *length = 0;
    if (capture->output < 0)
        return NULL;
    kept = fflush(stdout) == 0 && !ferror(stdout);
    dup2(capture->output, STDOUT_FILENO);
    close(capture->output);
    text = take_all(fileno(capture->file), length);
    if (text == NULL || !write_all(STDOUT_FILENO, (const uint8_t *)text, *length))
        capture->unwritten = 1;
    if (kept)
        return text;
    free(text);
    return NULL;
}
