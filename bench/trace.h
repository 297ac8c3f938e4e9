/* What became of a word: the line of --trace, and the line of a refusal. */
#ifndef TRACE_H
#define TRACE_H

#include <stdio.h>

#include "device.h"

/* One line of --trace: number, word, instruction, answer, and what changed since `before`. */
void trace_step(const struct device *device, const struct turn *turn, struct settings before);

/* ": row 3, column 0 of tr0" after answer 5, ": place 12" after 15, else nothing. */
void write_place(FILE *file, const struct device *device);

/* What a word changed since `before`, each part behind "; ". */
void write_changes(FILE *file, const struct device *device, const struct turn *turn, struct settings before);

#endif
