/* What `show` prints. */
#ifndef SHOW_H
#define SHOW_H

#include "device.h"
#include "numbers.h"

void show_scalars(const struct device *device);
void show_mtype(const struct device *device);
void show_sizes(const struct device *device);

/* A register as elements of a form; an unwritten one as --. */
void show_register(const struct device *device, unsigned reg, enum form form);

/* A vector register as elements of a form. */
void show_vector(const struct device *device, unsigned v, enum form form);

/* `count` numbers of a form from an address on, sealed ones in brackets; bytes are hexadecimal. */
void show_memory(const struct device *device, size_t address, size_t count, enum form form);

/* The marks of the ten registers, a character a byte. */
void show_marks(const struct device *device);

#endif
