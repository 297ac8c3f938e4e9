/* What the plugin tells, as text. */
#ifndef TOLD_H
#define TOLD_H

#include "emulator.h"
#include "places.h"

/* Prints the report that stands in what is shared; the exit status if the run ends with it, else -1. */
int write_report(struct emulator *emulator, struct places *places);

#endif
