/* An input is a script of the bench, which is run with a trace, and again with a picture and a page. Every call of the library in it is held to the
 * second program (held_names.h). No file is touched: scripts read the images and data of bench/examples (EXAMPLES) and what they saved themselves. */
#define _DEFAULT_SOURCE

#include <dirent.h>
#include <errno.h>
#include <fcntl.h>
#include <stdlib.h>
#include <string.h>
#include <unistd.h>

#include "files.h"

/* bench/main.c, compiled with this name for main. */
int bench_main(int count, char **words);

int LLVMFuzzerInitialize(int *count, char ***words);
int LLVMFuzzerTestOneInput(const uint8_t *data, size_t size);

enum { FILES_MOST = 32, NAME_BYTES = 64, EXAMPLE_BYTES_MOST = 4096, MEMORY_DIGITS = 6 };

struct file {
    char name[NAME_BYTES];
    uint8_t *bytes;
    size_t length;
};

/* The script, those of the examples, and those that the script saved. */
static struct file files[FILES_MOST];
static size_t examples, all;

static struct file *file_of(const char *path)
{
    size_t i;
    for (i = all; i > 0; i--)
        if (strcmp(files[i - 1].name, path) == 0)
            return &files[i - 1];
    return NULL;
}

int write_file(const char *path, const uint8_t *bytes, size_t length)
{
    struct file *file = &files[all];
    if (all == FILES_MOST || strlen(path) >= NAME_BYTES || (file->bytes = malloc(length + 1)) == NULL) {
        errno = ENOSPC;
        return 0;
    }
    strcpy(file->name, path);
    memcpy(file->bytes, bytes, length);
    file->length = length;
    all++;
    return 1;
}

char *read_front(const char *path, size_t most, size_t *length, const char **fault)
{
    const struct file *file = file_of(path);
    char *bytes = file == NULL ? NULL : malloc(most + 1);
    *fault = NULL;
    *length = 0;
    if (bytes == NULL) {
        errno = ENOENT;
        *fault = "cannot be opened";
        return NULL;
    }
    *length = file->length < most ? file->length : most;
    memcpy(bytes, file->bytes, *length);
    return bytes;
}

char *read_file(const char *path, size_t most, size_t *length, const char **fault)
{
    char *bytes = read_front(path, most + 1, length, fault);
    if (bytes == NULL || *length <= most)
        return bytes;
    free(bytes);
    *fault = "is too long";
    return NULL;
}

char *read_front_of(FILE *file, size_t most, size_t *length, const char **fault)
{
    (void)file;
    return read_front("standard input", most, length, fault);
}

char *read_file_of(FILE *file, size_t most, size_t *length, const char **fault) { return read_front_of(file, most, length, fault); }

int write_all(int file, const uint8_t *bytes, size_t length)
{
    while (length > 0) {
        ssize_t written = write(file, bytes, length);
        if (written <= 0)
            return 0;
        bytes += written;
        length -= (size_t)written;
    }
    return 1;
}

/* Pictures and pages go nowhere. */
int new_file_open(struct new_file *new, const char *path)
{
    (void)path;
    new->beside = new->target = NULL;
    new->file = fopen("/dev/null", "w");
    return new->file != NULL;
}

int new_file_close(struct new_file *new, int whole) { return fclose(new->file) == 0 && whole; }

void hold_standard_files(void) {}
void hand_on_standard_files(void) {}

static void forget(size_t from)
{
    while (all > from)
        free(files[--all].bytes);
}

static void take_example(const char *name)
{
    static uint8_t bytes[EXAMPLE_BYTES_MOST];
    char path[4096];
    FILE *file;
    snprintf(path, sizeof path, "%s/%s", EXAMPLES, name);
    file = fopen(path, "rb");
    if (file != NULL) {
        write_file(name, bytes, fread(bytes, 1, sizeof bytes, file));
        fclose(file);
    }
}

int LLVMFuzzerInitialize(int *count, char ***words)
{
    DIR *folder = opendir(EXAMPLES);
    struct dirent *entry;
    int quiet = open("/dev/null", O_WRONLY);
    (void)count;
    (void)words;
    while (folder != NULL && (entry = readdir(folder)) != NULL)
        if (strstr(entry->d_name, ".img") != NULL || strstr(entry->d_name, ".dat") != NULL)
            take_example(entry->d_name);
    if (folder != NULL)
        closedir(folder);
    examples = all;
    dup2(quiet, STDOUT_FILENO); /* a fault is told by descriptor 2, which stays */
    stderr = fdopen(quiet, "w");
    return 0;
}

/* A script that asks for much memory is only slow. */
static int is_small(const uint8_t *data, size_t size)
{
    size_t i, digits = 0;
    for (i = 0; i < size; i++) {
        digits = (data[i] >= '0' && data[i] <= '9') || (digits > 0 && data[i] >= 'a' && data[i] <= 'f') ? digits + 1 : 0;
        if (digits == MEMORY_DIGITS && i >= 12 && memcmp(data + i - 12, "memory ", 7) == 0)
            return 0;
    }
    return 1;
}

static void run_with(char **words, const uint8_t *data, size_t size)
{
    int count = 0;
    while (words[count] != NULL)
        count++;
    if (write_file("script", data, size))
        bench_main(count, words);
    forget(examples);
}

int LLVMFuzzerTestOneInput(const uint8_t *data, size_t size)
{
    char *traced[] = {"bodlarina-bench", "--trace", "script", NULL};
    char *drawn[] = {"bodlarina-bench", "--marks", "/dev/null", "--report", "page.html", "script", NULL};
    if (!is_small(data, size))
        return 0;
    run_with(traced, data, size);
    run_with(drawn, data, size);
    return 0;
}
