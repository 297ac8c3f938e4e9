#include "program.h"

#include <errno.h>
#include <stdarg.h>
#include <stdio.h>
#include <string.h>

#include "bodlarina.h"

static void __attribute__((format(printf, 2, 0))) write_complaint(const struct program *program, const char *format, va_list list)
{
    fprintf(stderr, "%s: ", program->name);
    vfprintf(stderr, format, list);
    fprintf(stderr, "\n");
}

int complain(const struct program *program, const char *format, ...)
{
    va_list list;
    va_start(list, format);
    write_complaint(program, format, list);
    va_end(list);
    return 0;
}

int misused(const struct program *program, const char *format, ...)
{
    va_list list;
    va_start(list, format);
    write_complaint(program, format, list);
    va_end(list);
    fprintf(stderr, "usage: %s %s\n", program->name, program->arguments);
    return 0;
}

int say(const struct program *program, const char *text)
{
    if (fputs(text, stdout) != EOF && fflush(stdout) == 0)
        return 1;
    complain(program, "standard output cannot be written: %s", strerror(errno));
    fputs(text, stderr);
    return 0;
}

int asked(const struct program *program, const char *word, int *said)
{
    char text[4096];
    if (strcmp(word, "--help") == 0)
        snprintf(text, sizeof text, "usage: %s %s\n%s", program->name, program->arguments, program->help);
    else if (strcmp(word, "--version") == 0)
        snprintf(text, sizeof text, "%s " BODLARINA_VERSION "\n", program->name);
    else
        return 0;
    *said = say(program, text);
    return 1;
}

int library_fits(const struct program *program)
{
    return bodlarina_version() == BODLARINA_VERSION_NUMBER
           || complain(program, "the library is not that of the header it was built with");
}
