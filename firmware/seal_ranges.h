/* The ranges that the options seal. */
#ifndef SEAL_RANGES_H
#define SEAL_RANGES_H

#include "elf_file.h"
#include "options.h"

/* Writes the ranges into what is shared, for a program that lies `bias` above the addresses of its file; 0, with a sentence, if a symbol is not
 * there or the library refuses the machine or a range. */
int seal_ranges(const struct options *options, const struct elf_file *file, uint64_t bias, struct shared *shared);

#endif
