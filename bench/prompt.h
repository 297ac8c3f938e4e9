/* Commands that are typed one after the other. */
#ifndef PROMPT_H
#define PROMPT_H

#include "commands.h"
#include "report.h"

/* Reads and carries out commands until quit or the end of the input; a line that is refused is told and forgotten. A report, if there is one, has
 * them too. */
void run_prompt(struct session *session, struct report *report);

/* The commands that can be typed: those of a script, then those of the prompt alone; NULL behind the last one. */
const struct command *typed_command_at(size_t i);

#endif
