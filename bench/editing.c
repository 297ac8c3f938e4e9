#define _POSIX_C_SOURCE 200809L

#include "editing.h"

#include <stdio.h>
#include <stdlib.h>
#include <string.h>

#if defined(LINES_BY_LIBEDIT) || defined(LINES_BY_READLINE)

#ifdef LINES_BY_LIBEDIT
#include <editline/readline.h>
#else
#include <readline/history.h>
#include <readline/readline.h>
#endif

static completer *complete_by;

/* The words that a part may become. */
static struct {
    char *words[256];
    size_t count, given;
} offered;

static void keep(void *to, const char *word)
{
    (void)to;
    if (offered.count < sizeof offered.words / sizeof offered.words[0] && (offered.words[offered.count] = strdup(word)) != NULL)
        offered.count++;
}

/* The next word; the library frees it. */
static char *next_word(const char *part, int again)
{
    (void)part;
    offered.given = again ? offered.given + 1 : 0;
    return offered.given < offered.count ? offered.words[offered.given] : NULL;
}

/* All words; without one the library looks for files, unless that is over. */
static char **all_words(const char *part, int start, int end)
{
    char *before = strndup(rl_line_buffer, (size_t)start);
    (void)end;
    offered.count = 0;
    rl_attempted_completion_over = before == NULL || !complete_by(before, part, keep, NULL);
    free(before);
    return offered.count == 0 ? NULL : rl_completion_matches(part, next_word);
}

void editing_start(completer *complete)
{
    static char separators[] = " \t,()";
    static char name[] = "bodlarina-bench";
    complete_by = complete;
    rl_readline_name = name;
    rl_completer_word_break_characters = separators;
    rl_attempted_completion_function = all_words;
    using_history();
}

char *edit_line(const char *prompt)
{
    char *line = readline(prompt);
    if (line != NULL && *line != '\0')
        add_history(line);
    return line;
}

#else

void editing_start(completer *complete) { (void)complete; }

char *edit_line(const char *prompt)
{
    char *line = NULL;
    size_t room = 0;
    ssize_t length;
    fputs(prompt, stdout);
    fflush(stdout);
    length = getline(&line, &room, stdin);
    if (length > 0 && line[length - 1] == '\n')
        line[length - 1] = '\0';
    if (length >= 0)
        return line;
    free(line);
    return NULL;
}

#endif
