#include "options.h"

#include <string.h>

const struct program bench_program = {
    "bodlarina-bench", "[--trace] [--marks FILE.svg] [--report FILE.html] [SCRIPT]",
    "Carries out the commands of SCRIPT on a simulated matrix unit, and prints each refusal, each\n"
    "expectation that does not hold, and what the script asks to be shown. Without SCRIPT the\n"
    "commands are typed one after the other, or come from standard input, as with - always.\n"
    "  --trace             a line for each instruction word\n"
    "  --marks FILE.svg    at the end, draw which register bytes are written\n"
    "  --report FILE.html  at the end, write a page to go through the run\n"
    "  --help              this text\n"
    "  --version           the version\n"
    "Exit status: 0 all held, 1 not all held, 2 a bad script, files and usage.\n"
    "man bodlarina-bench has every command.\n",
};

/* The file behind an option. */
static int take_path(int count, char **words, int *i, const char **path)
{
    const char *option = words[*i];
    if (*path != NULL)
        return misused(&bench_program, "%s is given twice", option);
    if (*i + 1 == count || words[*i + 1][0] == '-')
        return misused(&bench_program, "%s needs a file", option);
    *path = words[++*i];
    return 1;
}

static int take_option(int count, char **words, int *i, struct options *options)
{
    const char *word = words[*i];
    if (strcmp(word, "--marks") == 0)
        return take_path(count, words, i, &options->marks);
    if (strcmp(word, "--report") == 0)
        return take_path(count, words, i, &options->report);
    if (strcmp(word, "--trace") != 0)
        return misused(&bench_program, "unknown option %s", word);
    options->trace = 1;
    return 1;
}

static int take_script(const char *word, struct options *options)
{
    if (options->script != NULL)
        return misused(&bench_program, "%s is one script too many", word);
    options->script = word;
    return 1;
}

/* A dash alone is standard input. */
static int is_option(const char *word, int plain) { return !plain && word[0] == '-' && word[1] != '\0'; }

int read_options(int count, char **words, struct options *options)
{
    int i, plain = 0; /* plain: behind -- */
    memset(options, 0, sizeof *options);
    for (i = 1; i < count; i++)
        if (!plain && strcmp(words[i], "--") == 0)
            plain = 1;
        else if (!(is_option(words[i], plain) ? take_option(count, words, &i, options) : take_script(words[i], options)))
            return 0;
    return 1;
}
