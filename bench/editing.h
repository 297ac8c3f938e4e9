/* Lines that are typed at a terminal: with libedit (LINES_BY_LIBEDIT) or libreadline (LINES_BY_READLINE) they can be edited, called back and
 * completed; without either they are read as they come. */
#ifndef EDITING_H
#define EDITING_H

/* Hands each word that begins with `part` and may stand behind `before` on a line to `take`; whether the name of a file may stand there. */
typedef int completer(const char *before, const char *part, void (*take)(void *to, const char *word), void *to);

void editing_start(completer *complete);

/* The next line, without its line feed; NULL at the end of the input. The caller frees it. */
char *edit_line(const char *prompt);

#endif
