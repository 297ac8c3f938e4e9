/* The firmware's ELF file: its header and its symbols. */
#ifndef ELF_FILE_H
#define ELF_FILE_H

#include <gelf.h>

#include "shared.h"

struct elf_file {
    const char *path;
    int file;
    Elf *elf;
    GElf_Ehdr header;
};

/* Opens an ELF file for RISC-V of 64 bits; 0, with a sentence, if it is none. */
int elf_file_open(struct elf_file *file, const char *path);
void elf_file_close(struct elf_file *file);

/* Whether the header is that of a bare-metal program: linked at 0x80000000 or above, without an interpreter or a note of Linux. */
int elf_file_is_bare(const struct elf_file *file);

/* The first byte behind all that is loaded. */
uint64_t elf_file_end(const struct elf_file *file);

/* The bytes between its sections, as far as there are at least so many in one place; how many places. */
uint32_t elf_file_gaps(const struct elf_file *file, uint64_t least, struct range gaps[GAPS_MOST]);

/* The bytes of the object or function of this name; 0, with a sentence that names the option, if there is none, or more than one. */
int elf_file_symbol(const struct elf_file *file, const char *option, const char *name, int function, struct range *range);

/* The name of the object to which the byte at an address belongs; NULL if there is none. */
const char *elf_file_object_at(const struct elf_file *file, uint64_t address);

/* The name of the code at an address and how far behind its start that is: the function around it, else the last label before it; NULL if there
 * is none. */
const char *elf_file_code_at(const struct elf_file *file, uint64_t address, uint64_t *offset);

/* The addresses behind the calls of a function, by jal or auipc and jalr; how many. */
uint32_t elf_file_returns(const struct elf_file *file, uint64_t function, uint64_t returns[RETURNS_MOST]);

#endif
