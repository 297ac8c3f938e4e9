/* Where an address stands in the source, and who called: by libdw, from the ELF file's debug information. */
#ifndef PLACES_H
#define PLACES_H

#include <elfutils/libdwfl.h>

#include "elf_file.h"

/* Reads the eight bytes at an address of the guest; 0 if they are not there. */
typedef int (*guest_reader)(void *of, uint64_t address, uint64_t *value);

struct places {
    Dwfl *dwfl;
    const struct elf_file *file;
    uint64_t bias;
    guest_reader read;
    void *of;
};

/* bias: how far above the addresses of its file the program lies. */
int places_open(struct places *places, const struct elf_file *file, uint64_t bias, guest_reader read, void *of);
void places_close(struct places *places);

/* Prints "measure at four.c:31", without debug information "measure+0x1c", without symbols the address. */
void write_where(const struct places *places, uint64_t pc);

/* Prints "0x105f8, measure at four.c:31" and the end of the line, then a line "  called from .." for each function that was inlined around it and,
 * where x is given (x0 to x31), each caller, up to main. */
void write_chain(struct places *places, uint64_t pc, const uint64_t *x);

#endif
