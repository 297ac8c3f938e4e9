#define _GNU_SOURCE
#include "places.h"

#include <dwarf.h>
#include <inttypes.h>
#include <stdio.h>
#include <stdlib.h>
#include <string.h>

/* More callers than these are left out. */
#define CALLERS_MOST 64

int places_open(struct places *places, const struct elf_file *file, uint64_t bias, guest_reader read, void *of)
{
    static char *no_path;
    static const Dwfl_Callbacks callbacks = {
        .find_elf = dwfl_build_id_find_elf,
        .find_debuginfo = dwfl_standard_find_debuginfo,
        .section_address = dwfl_offline_section_address,
        .debuginfo_path = &no_path,
    };
    places->file = file;
    places->bias = bias;
    places->read = read;
    places->of = of;
    places->dwfl = dwfl_begin(&callbacks);
    if (places->dwfl == NULL)
        return 0;
    dwfl_report_begin(places->dwfl);
    if (dwfl_report_elf(places->dwfl, file->path, file->path, -1, bias, false) == NULL)
        return 0;
    return dwfl_report_end(places->dwfl, NULL, NULL) == 0;
}

void places_close(struct places *places)
{
    if (places->dwfl != NULL)
        dwfl_end(places->dwfl);
}

/* ---- one place ---- */

/* The scopes around an address, innermost first, and of an inlined one those into which it was inlined; file and line of the innermost one. */
struct scopes {
    const struct places *places;
    Dwarf_Die *unit, *dies;
    int count, line;
    const char *file;
    uint64_t pc;
};

static void open_scopes(const struct places *places, uint64_t pc, struct scopes *scopes)
{
    Dwarf_Addr bias = 0;
    Dwarf_Die *found = NULL;
    Dwfl_Line *line = NULL;
    Dwfl_Module *module = places->dwfl == NULL ? NULL : dwfl_addrmodule(places->dwfl, pc);
    memset(scopes, 0, sizeof *scopes);
    scopes->places = places;
    scopes->pc = pc;
    if (module == NULL)
        return;
    scopes->unit = dwfl_module_addrdie(module, pc, &bias);
    line = dwfl_module_getsrc(module, pc);
    if (line != NULL)
        scopes->file = dwfl_lineinfo(line, NULL, &scopes->line, NULL, NULL, NULL);
    if (scopes->unit != NULL && dwarf_getscopes(scopes->unit, pc - bias, &found) > 0)
        scopes->count = dwarf_getscopes_die(&found[0], &scopes->dies);
    free(found);
}

/* The file as the compiler was given it: without the folder in which it ran. */
static const char *given_name(const struct scopes *scopes)
{
    Dwarf_Attribute attribute;
    const char *folder = NULL;
    size_t length;
    if (scopes->unit != NULL && dwarf_attr(scopes->unit, DW_AT_comp_dir, &attribute) != NULL)
        folder = dwarf_formstring(&attribute);
    length = folder == NULL ? 0 : strlen(folder);
    return length != 0 && strncmp(scopes->file, folder, length) == 0 && scopes->file[length] == '/' ? scopes->file + length + 1 : scopes->file;
}

static void write_scope(const struct scopes *scopes, const char *function)
{
    const struct places *places = scopes->places;
    uint64_t offset = 0;
    if (function == NULL)
        function = elf_file_code_at(places->file, scopes->pc - places->bias, &offset);
    if (function == NULL)
        printf("0x%" PRIx64, scopes->pc);
    else if (scopes->file != NULL)
        printf("%s at %s:%d", function, given_name(scopes), scopes->line);
    else
        printf("%s+0x%" PRIx64, function, offset);
}

/* Goes from an inlined function to the place where it was inlined. */
static void go_outwards(struct scopes *scopes, Dwarf_Die *inlined)
{
    Dwarf_Files *files;
    Dwarf_Attribute attribute;
    Dwarf_Word value;
    if (dwarf_getsrcfiles(scopes->unit, &files, NULL) == 0 && dwarf_attr(inlined, DW_AT_call_file, &attribute) != NULL
        && dwarf_formudata(&attribute, &value) == 0)
        scopes->file = dwarf_filesrc(files, value, NULL, NULL);
    if (dwarf_attr(inlined, DW_AT_call_line, &attribute) != NULL && dwarf_formudata(&attribute, &value) == 0)
        scopes->line = (int)value;
}

/* The functions at an address, inlined ones first: with `all`, each on a line of its own; else the innermost. Whether the last is main. */
static int write_functions(const struct places *places, uint64_t pc, int all)
{
    struct scopes scopes;
    const char *name = NULL;
    int i;
    open_scopes(places, pc, &scopes);
    for (i = 0; i < scopes.count; i++) {
        int tag = dwarf_tag(&scopes.dies[i]);
        if (tag != DW_TAG_inlined_subroutine && tag != DW_TAG_subprogram)
            continue;
        name = dwarf_diename(&scopes.dies[i]);
        if (tag == DW_TAG_subprogram || !all)
            break;
        write_scope(&scopes, name);
        printf("\n  called from ");
        go_outwards(&scopes, &scopes.dies[i]);
        name = NULL;
    }
    write_scope(&scopes, name);
    free(scopes.dies);
    return name != NULL && strcmp(name, "main") == 0;
}

/* Whether there is more to say of an address than the number. */
static int is_known(const struct places *places, uint64_t pc)
{
    uint64_t offset;
    return places->dwfl != NULL && dwfl_addrmodule(places->dwfl, pc) != NULL && elf_file_code_at(places->file, pc - places->bias, &offset) != NULL;
}

void write_where(const struct places *places, uint64_t pc) { write_functions(places, pc, 0); }

/* ---- the chain of callers ---- */

struct chain {
    const struct places *places;
    const uint64_t *x;
    uint64_t pc;
    unsigned frames;
};

static pid_t next_thread(Dwfl *dwfl, void *chain, void **thread)
{
    (void)dwfl;
    if (*thread != NULL)
        return 0;
    *thread = chain;
    return 1;
}

static bool read_memory(Dwfl *dwfl, Dwarf_Addr address, Dwarf_Word *value, void *chain)
{
    const struct places *places = ((struct chain *)chain)->places;
    uint64_t read;
    (void)dwfl;
    if (!places->read(places->of, address, &read))
        return false;
    *value = read;
    return true;
}

static bool set_registers(Dwfl_Thread *thread, void *of)
{
    struct chain *chain = of;
    Dwarf_Word registers[32];
    size_t i;
    for (i = 0; i < 32; i++)
        registers[i] = chain->x[i];
    dwfl_thread_state_register_pc(thread, chain->pc);
    return dwfl_thread_state_registers(thread, 0, 32, registers);
}

/* A caller's pc is behind its call: the byte before it belongs to the call. */
static int write_frame(Dwfl_Frame *frame, void *of)
{
    struct chain *chain = of;
    Dwarf_Addr pc;
    bool activation;
    if (!dwfl_frame_pc(frame, &pc, &activation) || chain->frames == CALLERS_MOST)
        return DWARF_CB_ABORT;
    if (chain->frames++ == 0)
        return DWARF_CB_OK; /* written already */
    if (dwfl_addrmodule(chain->places->dwfl, pc) == NULL)
        return DWARF_CB_ABORT;
    printf("  called from ");
    if (write_functions(chain->places, activation ? pc : pc - 1, 1))
        chain->frames = CALLERS_MOST;
    printf("\n");
    return chain->frames == CALLERS_MOST ? DWARF_CB_ABORT : DWARF_CB_OK;
}

void write_chain(struct places *places, uint64_t pc, const uint64_t *x)
{
    static const Dwfl_Thread_Callbacks callbacks = {
        .next_thread = next_thread,
        .memory_read = read_memory,
        .set_initial_registers = set_registers,
    };
    struct chain chain;
    int is_main = 0;
    chain.places = places;
    chain.x = x;
    chain.pc = pc;
    chain.frames = 0;
    printf("0x%" PRIx64, pc);
    if (is_known(places, pc)) {
        printf(", ");
        is_main = write_functions(places, pc, 1);
    }
    printf("\n");
    if (x != NULL && !is_main && places->dwfl != NULL && dwfl_attach_state(places->dwfl, places->file->elf, 1, &callbacks, &chain))
        dwfl_getthread_frames(places->dwfl, 1, write_frame, &chain);
}
