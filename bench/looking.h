/* Parts of a line that names what is to be looked at. */
#ifndef LOOKING_H
#define LOOKING_H

#include "numbers.h"
#include "session.h"

/* The register of this name, or REGISTERS. */
unsigned register_called(struct span span);

/* The vector register of this name, or VECTORS. */
unsigned vector_called(struct span span);

/* The end of the line, or 8, 16, 32, 64 or float32 and the end; without one of them, signed numbers of SEW bits. */
int take_shown_form(struct session *session, enum form *form);

#endif
