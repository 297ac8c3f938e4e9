/* Origins in words: a fact a line, what it comes from indented below it. */
#ifndef EXPLAIN_H
#define EXPLAIN_H

#include "origin.h"

/* Is given each line: how deep it is indented, its text, and the element that it is about. */
typedef void explained(void *self, unsigned depth, const char *text, const struct origin *origin);

/* All lines of a tree; 0 if there is no room. The last line has the bytes of memory that the tree came to and that nobody entered, if
 * there are any. */
int explain(const struct origin *root, explained *line, void *self);

#endif
