/* Why a machine, a sealed range or a product run was refused: the number of the line that is at fault, and what is permitted. The library
 * decides that it is refused; where no number of the line is at fault, its own sentence stands. */
#ifndef ARGUMENTS_H
#define ARGUMENTS_H

#include "session.h"

/* Each prints the last answer if it is a refusal. `ranges` counts those that the machine was to be started with. */
void report_machine(const struct session *session, size_t ranges);
void report_seal(const struct session *session, uint64_t start, uint64_t length);
void report_product(const struct session *session, const struct bodlarina_plan *plan);

#endif
