/* Files, read and written whole. */
#ifndef FILES_H
#define FILES_H

#include <stddef.h>
#include <stdint.h>
#include <stdio.h>

/* The first `most` bytes of a file, or of an open one, and so all of one that is not longer; NULL, a sentence in *fault and the reason in
 * errno if that can't be. The caller frees them. */
char *read_front(const char *path, size_t most, size_t *length, const char **fault);
char *read_front_of(FILE *file, size_t most, size_t *length, const char **fault);

/* A file of at most `most` bytes, or an open one, read whole; NULL and a sentence in *fault if that can't be. The caller frees it. */
char *read_file(const char *path, size_t most, size_t *length, const char **fault);
char *read_file_of(FILE *file, size_t most, size_t *length, const char **fault);

/* A file that is written from its start: it then holds all of that, or is as it was. It is written beside the old one, and takes its name at the end. What
 * is no plain file, as a device, is written where it stands, and so is standard output, behind what was printed. */
struct new_file {
    FILE *file;
    char *beside, *target; /* its names, until it is whole and then; NULL if it has only one */
};

/* Each is 0, with the reason in errno, if that can't be; a file that is closed but not whole is as it was. */
int new_file_open(struct new_file *new, const char *path);
int new_file_close(struct new_file *new, int whole);

/* The same with bytes that are there already. */
int write_file(const char *path, const uint8_t *bytes, size_t length);

/* Writes to a file that is open. */
int write_all(int file, const uint8_t *bytes, size_t length);

/* For the start of a program: no file that it opens gets the number of standard input, output or error, also where these are closed, and a
 * write to a pipe whose reader has gone, or past the longest file that is allowed, fails, and ends nothing. The second function undoes that,
 * before another program takes over. */
void hold_standard_files(void);
void hand_on_standard_files(void);

#endif
