/* bodlarina-salvage: keeps what is whole of an image that was cut short or damaged. See man/bodlarina-salvage.1. */
#define _POSIX_C_SOURCE 200809L

#include <errno.h>
#include <inttypes.h>
#include <stdio.h>
#include <stdlib.h>
#include <string.h>
#include <unistd.h>

#include "bodlarina.h"
#include "files.h"
#include "kept.h"
#include "program.h"

enum { SALVAGED, REFUSED, NOT_DONE };

static const struct program program = {
    "bodlarina-salvage", "IN OUT",
    "Writes to OUT a fresh image of what is whole in IN, an image of a machine that was cut\n"
    "short or damaged, and prints how many runs are kept, how many were announced, and the byte\n"
    "of the fault. IN and OUT may be one file. - is standard input as IN and standard output as\n"
    "OUT; the line then goes to standard error. A file that is called - is ./-.\n"
    "Exit status: 0 done, 1 refused since no header of an image is whole, 2 files and usage.\n"
    "man bodlarina-salvage has more.\n",
};

static int is_dash(const char *path) { return strcmp(path, "-") == 0; }

/* A line about a file that cannot be read or written. */
static int not_done(const char *path, const char *fault)
{
    complain(&program, "%s %s: %s", path, fault, strerror(errno));
    return NOT_DONE;
}

/* A header that is not whole: the place is its end if it is only cut short. */
static int refused(const char *path, uint64_t result, size_t length)
{
    uint64_t place = BODLARINA_PLACE(result);
    const char *why = BODLARINA_ANSWER(result) != BODLARINA_DAMAGED ? bodlarina_answer_text(result)
                      : place == length ? "the header of an image is cut short there" : "no header of an image goes on there";
    complain(&program, "%s: refused with %u at byte %" PRIu64 ": %s; kept 0 of 0 runs", path, BODLARINA_ANSWER(result), place, why);
    return REFUSED;
}

/* Writes the fresh image, then says what is kept. */
static int deliver(const char *path, const uint8_t *fresh, size_t fresh_length, const uint8_t report[BODLARINA_REPORT_BYTES], size_t length)
{
    char text[KEPT_TEXT_BYTES + 1];
    write_kept(report, length, text);
    strcat(text, "\n");
    if (!is_dash(path) && !write_file(path, fresh, fresh_length))
        return not_done(path, "cannot be written");
    if (!is_dash(path))
        return say(&program, text) ? SALVAGED : NOT_DONE;
    if (!write_all(STDOUT_FILENO, fresh, fresh_length))
        return not_done("standard output", "cannot be written");
    return fputs(text, stderr) != EOF ? SALVAGED : NOT_DONE;
}

static int salvage(const char *in, const char *out)
{
    static uint8_t fresh[SALVAGED_BYTES_MOST];
    uint8_t report[BODLARINA_REPORT_BYTES];
    const char *fault, *name = is_dash(in) ? "standard input" : in;
    size_t length;
    uint64_t result;
    char *image = is_dash(in) ? read_front_of(stdin, SALVAGED_BYTES_MOST, &length, &fault) : read_front(in, SALVAGED_BYTES_MOST, &length, &fault);
    if (image == NULL)
        return not_done(name, fault);
    result = bodlarina_image_salvage((const uint8_t *)image, length, fresh, sizeof fresh, report, sizeof report);
    free(image);
    if (BODLARINA_ANSWER(result) != BODLARINA_DONE)
        return refused(name, result, length);
    return deliver(out, fresh, (size_t)BODLARINA_LENGTH(result), report, length);
}

/* Where IN stands, behind --; 0 and a complaint if the words are not two files. */
static int files_at(int count, char **words)
{
    int first = count > 1 && strcmp(words[1], "--") == 0 ? 2 : 1, i;
    for (i = first; first == 1 && i < count; i++)
        if (words[i][0] == '-' && !is_dash(words[i]))
            return misused(&program, "unknown option %s", words[i]);
    if (count > first + 2)
        return misused(&program, "%s is one file too many", words[first + 2]);
    if (count < first + 2)
        return misused(&program, count == first ? "IN and OUT are missing" : "OUT is missing");
    return first;
}

int main(int count, char **words)
{
    int at, said;
    hold_standard_files();
    if (count > 1 && asked(&program, words[1], &said))
        return said ? SALVAGED : NOT_DONE;
    at = files_at(count, words);
    if (at == 0 || !library_fits(&program))
        return NOT_DONE;
    return salvage(words[at], words[at + 1]);
}
