/* The plugin inside QEMU, by its parts. */
#ifndef PLUGIN_H
#define PLUGIN_H

#include "qemu_interface.h"
#include "shared.h"

/* ---- plugin.c ---- */

extern struct shared *shared;

/* Ends the process with the tool's own trouble. */
void give_up(const char *sentence) __attribute__((noreturn));

/* At the first instruction that is translated when all is ready: seals, and starts the first unit. 0 until then. */
int begun(void);

/* The four bytes of an instruction, or its two. */
uint32_t instruction_bits(const struct qemu_plugin_insn *instruction);

/* ---- plugin_line.c: the line to the tool ---- */

void line_open(int line);

/* Tells what became of a word, a store or a sealed byte; comes back only if the tool lets the program go on. */
void line_tell(struct report *report, const struct device *device);

/* Tells trouble of which an address is all that is known. */
void line_tell_trouble(enum told told, uint64_t pc);

/* ---- plugin_unit.c: the units ---- */

/* Rows of guest memory that a load or store reaches. */
struct rows {
    uint64_t address, stride;
    size_t count, bytes;
    int store;
};

/* No tile that is not refused for its size has more bytes, nor more rows. */
#define TILE_BYTES_MOST (BODLARINA_MLEN_MOST / 2)
#define TILE_ROWS_MOST (BODLARINA_MLEN_MOST / 64)

/* Guest memory as each mode has it: where address 0 is, how many bytes are lent, whether rows may be read (and written, of a store), and
 * bytes copied from there, 0 if they are not all there. */
struct guest {
    uint8_t *memory;
    uint64_t bytes;
    int (*reach)(const struct rows *rows);
    int (*read)(uint64_t address, void *to, size_t bytes);
};
extern struct guest guest;

/* Starts the unit of the first thread, which this is in user mode. */
void unit_first(void);

/* The unit of this thread; the first one if it has none. */
const struct device *unit_device(void);

/* Carries out the word at pc with these scalars, x0 to x31, by the unit of this thread; what is refused never comes back. */
void unit_carry_out(uint64_t pc, uint32_t word, uint8_t scalars[BODLARINA_SCALAR_BYTES]);

/* Whether this is a matrix word, by its opcode. */
int is_matrix_word(uint32_t word);

/* ---- plugin_seals.c: sealed ranges ---- */

/* Seals the ranges of the start. */
void seals_start(void);

/* How many ranges are sealed by now, and each. */
size_t seals_count(void);
struct range seals_at(size_t i);

/* Whether a sealed byte is not what it was, and which. */
int seals_changed(uint64_t *address);

/* Looks after an instruction that was translated: a store, or one at which a function has returned. */
void seals_watch(struct qemu_plugin_insn *instruction);

/* ---- plugin_user.c, plugin_bare.c: the two modes ---- */

void user_install(qemu_plugin_id_t id);
void bare_install(qemu_plugin_id_t id, int ram);

#endif
