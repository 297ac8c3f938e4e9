#define _GNU_SOURCE
#include "elf_file.h"

#include <errno.h>
#include <fcntl.h>
#include <inttypes.h>
#include <string.h>
#include <unistd.h>

#include "complain.h"

/* Where the RAM of the machine virt starts. */
#define RAM_START 0x80000000u

int elf_file_open(struct elf_file *file, const char *path)
{
    file->path = path;
    file->elf = NULL;
    file->file = open(path, O_RDONLY | O_CLOEXEC);
    if (file->file < 0)
        return complain("%s: %s", path, strerror(errno));
    elf_version(EV_CURRENT);
    file->elf = elf_begin(file->file, ELF_C_READ_MMAP, NULL);
    if (file->elf == NULL || gelf_getehdr(file->elf, &file->header) == NULL || gelf_getclass(file->elf) != ELFCLASS64
        || file->header.e_machine != EM_RISCV || (file->header.e_type != ET_EXEC && file->header.e_type != ET_DYN))
        return complain("%s: not a program for RISC-V of 64 bits (ELF)", path);
    return 1;
}

void elf_file_close(struct elf_file *file)
{
    if (file->elf != NULL)
        elf_end(file->elf);
    if (file->file >= 0)
        close(file->file);
}

/* ---- segments ---- */

/* Segment i; 0 if there are no more. */
static int segment_at(const struct elf_file *file, size_t i, GElf_Phdr *segment)
{
    size_t count;
    return elf_getphdrnum(file->elf, &count) == 0 && i < count && gelf_getphdr(file->elf, (int)i, segment) != NULL;
}

/* Whether a note says that the program is for Linux: the ABI tag of GNU, whose first number is 0. */
static int is_linux_note(const struct elf_file *file, const GElf_Phdr *segment)
{
    Elf_Data *data = elf_getdata_rawchunk(file->elf, (int64_t)segment->p_offset, segment->p_filesz, ELF_T_NHDR);
    size_t at = 0, next, name, body;
    GElf_Nhdr note;
    while (data != NULL && (next = gelf_getnote(data, at, &note, &name, &body)) > 0) {
        const char *bytes = data->d_buf;
        if (note.n_type == NT_GNU_ABI_TAG && note.n_namesz == 4 && memcmp(bytes + name, "GNU", 4) == 0 && note.n_descsz >= 4
            && memcmp(bytes + body, "\0\0\0\0", 4) == 0)
            return 1;
        at = next;
    }
    return 0;
}

int elf_file_is_bare(const struct elf_file *file)
{
    GElf_Phdr segment;
    size_t i;
    if (file->header.e_type != ET_EXEC)
        return 0;
    for (i = 0; segment_at(file, i, &segment); i++)
        if (segment.p_type == PT_INTERP || (segment.p_type == PT_NOTE && is_linux_note(file, &segment))
            || (segment.p_type == PT_LOAD && segment.p_memsz != 0 && segment.p_paddr < RAM_START))
            return 0;
    return i > 0;
}

uint64_t elf_file_end(const struct elf_file *file)
{
    GElf_Phdr segment;
    uint64_t end = 0;
    size_t i;
    for (i = 0; segment_at(file, i, &segment); i++)
        if (segment.p_type == PT_LOAD && segment.p_paddr + segment.p_memsz > end)
            end = segment.p_paddr + segment.p_memsz;
    return end;
}

/* ---- sections ---- */

/* The loaded section with the lowest start at or above an address; 0 if there is none. */
static int next_section(const struct elf_file *file, uint64_t address, struct range *next)
{
    Elf_Scn *section = NULL;
    GElf_Shdr header;
    int found = 0;
    while ((section = elf_nextscn(file->elf, section)) != NULL)
        if (gelf_getshdr(section, &header) != NULL && (header.sh_flags & SHF_ALLOC) != 0 && header.sh_size != 0 && header.sh_addr >= address
            && (!found || header.sh_addr < next->start)) {
            found = 1;
            next->start = header.sh_addr;
            next->length = header.sh_size;
        }
    return found;
}

uint32_t elf_file_gaps(const struct elf_file *file, uint64_t least, struct range gaps[GAPS_MOST])
{
    struct range section, next;
    uint32_t count = 0;
    if (!next_section(file, 0, &section))
        return 0;
    while (count < GAPS_MOST && next_section(file, section.start + section.length, &next)) {
        uint64_t end = section.start + section.length;
        if (next.start - end >= least) {
            gaps[count].start = end;
            gaps[count++].length = next.start - end;
        }
        section = next;
    }
    return count;
}

/* ---- symbols ---- */

/* The table of symbols, or of a stripped program that of the dynamic ones; NULL if there is none. */
static Elf_Data *symbols(const struct elf_file *file, GElf_Shdr *header)
{
    Elf_Scn *section = NULL;
    Elf_Data *found = NULL;
    GElf_Shdr one;
    while ((section = elf_nextscn(file->elf, section)) != NULL) {
        if (gelf_getshdr(section, &one) == NULL || (one.sh_type != SHT_SYMTAB && one.sh_type != SHT_DYNSYM))
            continue;
        if (found == NULL || one.sh_type == SHT_SYMTAB) {
            found = elf_getdata(section, NULL);
            *header = one;
        }
    }
    return found;
}

/* Whether a symbol is defined, of this name, and a function or an object as asked; a variable of each thread has no address of its own. */
static int is_symbol(const struct elf_file *file, const GElf_Shdr *table, const GElf_Sym *symbol, const char *name, int function)
{
    const char *its = elf_strptr(file->elf, table->sh_link, symbol->st_name);
    unsigned type = GELF_ST_TYPE(symbol->st_info);
    return its != NULL && strcmp(its, name) == 0 && symbol->st_shndx != SHN_UNDEF
           && (function ? type == STT_FUNC : type == STT_OBJECT || type == STT_NOTYPE);
}

int elf_file_symbol(const struct elf_file *file, const char *option, const char *name, int function, struct range *range)
{
    GElf_Shdr header;
    GElf_Sym symbol;
    Elf_Data *data = symbols(file, &header);
    const char *kind = function ? "function" : "object";
    int i, found = 0;
    for (i = 0; data != NULL && gelf_getsym(data, i, &symbol) != NULL; i++) {
        if (!is_symbol(file, &header, &symbol, name, function)
            || (found != 0 && range->start == symbol.st_value && range->length == symbol.st_size))
            continue;
        found++;
        range->start = symbol.st_value;
        range->length = symbol.st_size;
    }
    if (found == 0)
        return complain("%s: %s has no %s %s", option, file->path, kind, name);
    if (found > 1)
        return complain("%s: %s has %d %ss %s", option, file->path, found, kind, name);
    return range->length != 0 || complain("%s: %s has no size in %s", option, name, file->path);
}

const char *elf_file_object_at(const struct elf_file *file, uint64_t address)
{
    GElf_Shdr header;
    GElf_Sym symbol;
    Elf_Data *data = symbols(file, &header);
    int i;
    for (i = 0; data != NULL && gelf_getsym(data, i, &symbol) != NULL; i++)
        if (GELF_ST_TYPE(symbol.st_info) == STT_OBJECT && address - symbol.st_value < symbol.st_size)
            return elf_strptr(file->elf, header.sh_link, symbol.st_name);
    return NULL;
}

/* Whether a symbol names code; those that start with $ or .L only help tools. */
static int names_code(const struct elf_file *file, const GElf_Sym *symbol, const char *name)
{
    unsigned type = GELF_ST_TYPE(symbol->st_info);
    Elf_Scn *section = elf_getscn(file->elf, symbol->st_shndx);
    GElf_Shdr header;
    return (type == STT_FUNC || type == STT_NOTYPE) && symbol->st_shndx != SHN_UNDEF && section != NULL && name != NULL && name[0] != '\0'
           && name[0] != '$' && strncmp(name, ".L", 2) != 0 && gelf_getshdr(section, &header) != NULL && (header.sh_flags & SHF_EXECINSTR) != 0;
}

const char *elf_file_code_at(const struct elf_file *file, uint64_t address, uint64_t *offset)
{
    GElf_Shdr header;
    GElf_Sym symbol;
    Elf_Data *data = symbols(file, &header);
    const char *found = NULL;
    int i, around = 0;
    for (i = 0; data != NULL && gelf_getsym(data, i, &symbol) != NULL; i++) {
        const char *name = elf_strptr(file->elf, header.sh_link, symbol.st_name);
        uint64_t behind = address - symbol.st_value;
        int its_around = behind < symbol.st_size;
        if (address < symbol.st_value || (found != NULL && (its_around < around || (its_around == around && behind >= *offset)))
            || !names_code(file, &symbol, name))
            continue;
        found = name;
        around = its_around;
        *offset = behind;
    }
    return found;
}

/* ---- calls ---- */

/* The part of `word` from bit `low` on, of so many bits. */
static uint64_t field(uint32_t word, unsigned low, unsigned bits) { return word >> low & ((1u << bits) - 1); }

/* A number of so many bits in two's complement. */
static uint64_t signed_of(uint64_t value, unsigned bits) { return (value ^ (uint64_t)1 << (bits - 1)) - ((uint64_t)1 << (bits - 1)); }

/* Whether a jal ra, or an auipc ra and a jalr ra, at this address calls the function; how long the call is. */
static unsigned calls(const unsigned char *code, size_t left, uint64_t address, uint64_t function)
{
    uint32_t first, second;
    uint64_t target;
    memcpy(&first, code, 4);
    if ((first & 0xfff) == 0x0ef) { /* jal ra */
        target = field(first, 31, 1) << 20 | field(first, 12, 8) << 12 | field(first, 20, 1) << 11 | field(first, 21, 10) << 1;
        return address + signed_of(target, 21) == function ? 4 : 0;
    }
    if ((first & 0x7f) != 0x17 || left < 8) /* auipc */
        return 0;
    memcpy(&second, code + 4, 4);
    if ((second & 0x7fff) != 0x00e7 || field(second, 15, 5) != field(first, 7, 5)) /* jalr ra, from the same register */
        return 0;
    target = address + signed_of(first & 0xfffff000, 32) + signed_of(field(second, 20, 12), 12);
    return target == function ? 8 : 0;
}

uint32_t elf_file_returns(const struct elf_file *file, uint64_t function, uint64_t returns[RETURNS_MOST])
{
    GElf_Phdr segment;
    uint32_t count = 0;
    size_t i, at;
    for (i = 0; segment_at(file, i, &segment); i++) {
        Elf_Data *data;
        if (segment.p_type != PT_LOAD || (segment.p_flags & PF_X) == 0)
            continue;
        data = elf_getdata_rawchunk(file->elf, (int64_t)segment.p_offset, segment.p_filesz, ELF_T_BYTE);
        for (at = 0; data != NULL && at + 4 <= data->d_size && count < RETURNS_MOST; at += 2) {
            unsigned length = calls((const unsigned char *)data->d_buf + at, data->d_size - at, segment.p_vaddr + at, function);
            if (length != 0)
                returns[count++] = segment.p_vaddr + at + length;
        }
    }
    return count;
}
