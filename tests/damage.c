/* damage PROGRAM COUNT OUT SCRIPT..: damages the scripts in COUNT ways, the same ones each time, writes each to the file OUT and runs
 * PROGRAM on it, with and without --trace, --marks and --report. It must exit with 0, 1 or 2: a signal, another status or ten seconds of work is
 * a crash, and that script is printed. No script names a file outside the folder of OUT: it may save one there. */
#define _POSIX_C_SOURCE 200809L

#include <fcntl.h>
#include <stdint.h>
#include <stdio.h>
#include <stdlib.h>
#include <string.h>
#include <sys/resource.h>
#include <sys/wait.h>
#include <unistd.h>

enum { SCRIPTS_MOST = 64, ROOM = 65536 };

struct text {
    char bytes[ROOM];
    size_t length;
};

static struct text scripts[SCRIPTS_MOST], damaged;
static uint64_t state = 0x9e3779b97f4a7c15u;

/* The next number below `bound` (xorshift). */
static size_t below(size_t bound)
{
    state ^= state << 13;
    state ^= state >> 7;
    state ^= state << 17;
    return bound == 0 ? 0 : (size_t)(state >> 11) % bound;
}

/* Puts `length` bytes in the place of those from `from` to `to`, if there is room. */
static void replace(size_t from, size_t to, const char *bytes, size_t length)
{
    static char copy[ROOM];
    if (damaged.length - (to - from) + length > ROOM || length > ROOM)
        return;
    memcpy(copy, bytes, length);
    memmove(damaged.bytes + from + length, damaged.bytes + to, damaged.length - to);
    memcpy(damaged.bytes + from, copy, length);
    damaged.length = damaged.length - (to - from) + length;
}

/* The line, or with ' ' the word, in which a random byte stands. */
static void pick(char separator, size_t *from, size_t *to)
{
    *from = *to = below(damaged.length);
    while (*from > 0 && damaged.bytes[*from - 1] != '\n' && damaged.bytes[*from - 1] != separator)
        --*from;
    while (*to < damaged.length && damaged.bytes[*to] != '\n' && damaged.bytes[*to] != separator)
        ++*to;
}

/* A random word that is a number, if one is soon found. */
static void pick_number(size_t *from, size_t *to)
{
    int tries = 16;
    do
        pick(' ', from, to);
    while (--tries > 0 && (*from == *to || damaged.bytes[*from] < '0' || damaged.bytes[*from] > '9'));
}

static const char *const numbers[] = {
    "0", "-1", "1", "2", "3", "4", "7", "8", "9", "15", "16", "31", "32", "60", "61", "62", "63", "64", "65", "255", "256", "512", "1023",
    "1024", "1025", "4096", "8191", "8192", "65535", "65536", "268435456", "4294967295", "9223372036854775807", "-9223372036854775808",
    "18446744073709551612", "18446744073709551615", "18446744073709551616", "0x", "0x3f", "0xffffffffffffffff", "-0x8",
};

static const char *const odd[] = {
    "-", "x0", "x31", "x32", "tr0", "tr7", "tr8", "acc0", "acc1", "(x10)", "(", ")", ",", "#", "e8", "e16, accq", "e64", "memory", "int32",
    "machine", "seal", "product", "expect", "show", "show marks", "show acc1 32", "show x", "word 0x48006077", "word FFFFFFFF",
    "mqma.mm acc0, tr0, tr1", "msettypei x5, 8191", "msettilen x0, x0", "load 0 .", "load 0 out", "save out", "restore out", "save s.img", "restore s.img", "restore damaged.img", "\n", "\r", "\t", "",
    "product 8 4 2 3 2 0 3 6 2 16 8", "product 32 1 2 2 2 0 8 16 8 32 8 float", "float", "float32", "float32 0 1e39", "nan", "-1e-45", "1.5.",
    "show acc1 float32", "show memory float32 0 4", "mfma.mm acc0, tr0, tr1", "msce32.m acc1, (x1), x2", "x 11 -8", "bytes 0 00", "machine 512 4096",
    "machine 4096 65536 64", "machine 64 65536", "int64", "int64 0 -9223372036854775808", "show acc1 64", "show memory int64 0 4", "halving",
    "restore today.img", "msce64.m acc1, (x1), x2", "mwma.mm acc0, tr0, tr1", "product 64 1 2 2 2 0 16 32 16 64 16", "msettypei x5, e64",
    "explain", "explain 0", "explain all 32 int32", "explain 56 int32", "explain acc0 0 0 32", "explain all acc1 1 1 64", "explain tr0 0 0",
    "explain v4 0 16", "all", "salvage out", "salvage s.img", "salvage damaged.img", "salvage cut.img", "salvage product.dat", "salvage .",
};

/* Any text in the place of the bytes from `from` to `to`. */
static void replace_text(size_t from, size_t to, const char *text) { replace(from, to, text, strlen(text)); }

static void damage_once(const struct text *other)
{
    const char *number = numbers[below(sizeof numbers / sizeof numbers[0])], *text = odd[below(sizeof odd / sizeof odd[0])];
    char byte = (char)below(256);
    size_t from, to, kind = below(12);
    if (kind < 5) {
        pick_number(&from, &to);
        replace_text(from, to, number);
        return;
    }
    pick(below(2) ? ' ' : '\n', &from, &to);
    switch (kind) {
    case 5: replace_text(from, to, text); break;
    case 6: replace_text(from, from, text); break;
    case 7: replace_text(from, to, ""); break;
    case 8: replace(from, from, damaged.bytes + from, to - from); break;
    case 9: replace(from, from + (from < damaged.length), &byte, 1); break;
    case 10: replace_text(below(damaged.length), damaged.length, ""); break;
    case 11: from = below(other->length); replace(to, to, other->bytes + from, below(other->length - from)); break;
    }
}

/* No path leads out of the folder. */
static void keep_inside(void)
{
    size_t i;
    for (i = 0; i < damaged.length; i++)
        if (damaged.bytes[i] == '/')
            damaged.bytes[i] = '|';
}

static void __attribute__((noreturn)) fail(const char *what)
{
    perror(what);
    exit(2);
}

/* A script without its comments, so that no damage is lost in them. */
static void read_text(struct text *text, const char *path)
{
    FILE *file = fopen(path, "rb");
    int byte, comment = 0;
    if (file == NULL)
        fail(path);
    while ((byte = getc(file)) != EOF && text->length < ROOM) {
        comment = byte != '\n' && (comment || byte == '#');
        if (!comment)
            text->bytes[text->length++] = (char)byte;
    }
    fclose(file);
}

static void write_text(const struct text *text, const char *path)
{
    FILE *file = fopen(path, "wb");
    if (file == NULL || fwrite(text->bytes, 1, text->length, file) != text->length || fclose(file) != 0)
        fail(path);
}

/* Runs the program, silent, for at most ten seconds of work; its status as waitpid gives it. */
static int run(const char *program, const char *script, int traced, int drawn)
{
    int status, quiet;
    char picture[4096], page[4096];
    struct rlimit limit = {10, 10};
    pid_t child = fork();
    if (child < 0)
        fail("fork");
    if (child == 0) {
        quiet = open("/dev/null", O_WRONLY);
        snprintf(picture, sizeof picture, "%s.svg", script);
        snprintf(page, sizeof page, "%s.html", script);
        setrlimit(RLIMIT_CPU, &limit);
        dup2(quiet, 1);
        dup2(quiet, 2);
        if (drawn)
            execl(program, program, "--trace", "--marks", picture, "--report", page, script, (char *)NULL);
        else
            execl(program, program, script, traced ? "--trace" : (char *)NULL, (char *)NULL);
        _exit(127);
    }
    if (waitpid(child, &status, 0) != child)
        fail("waitpid");
    return status;
}

int main(int count, char **words)
{
    unsigned long runs, i, statuses[3] = {0, 0, 0}, crashes = 0;
    int script, given = count - 4;
    if (given < 1 || given > SCRIPTS_MOST)
        return 2;
    runs = strtoul(words[2], NULL, 10);
    for (script = 0; script < given; script++)
        read_text(&scripts[script], words[4 + script]);
    for (i = 0; i < runs; i++) {
        size_t times = 1 + below(4);
        int status;
        damaged = scripts[i % (unsigned long)given];
        while (times-- > 0)
            damage_once(&scripts[below((size_t)given)]);
        keep_inside();
        write_text(&damaged, words[3]);
        status = run(words[1], words[3], i % 2 == 1, i % 8 == 0);
        if (WIFEXITED(status) && WEXITSTATUS(status) <= 2) {
            statuses[WEXITSTATUS(status)]++;
            continue;
        }
        crashes++;
        printf("CRASHED (%d) on\n%.*s\n", status, (int)damaged.length, damaged.bytes);
    }
    printf("%lu damaged scripts: %lu held, %lu did not, %lu refused, %lu crashed\n", runs, statuses[0], statuses[1], statuses[2], crashes);
    return crashes != 0;
}
