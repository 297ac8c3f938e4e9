/* The machine of a script with its buffers: every call of the library stands in device.c. */
#ifndef DEVICE_H
#define DEVICE_H

#include "bodlarina.h"
#include "instructions.h"

/* The most bytes of memory that a script may ask for. */
#define MEMORY_BYTES_MOST 268435456

/* The most ranges that a script may seal before the machine starts; a machine has fewer, and says so. */
#define SEALS_MOST 64

/* Registers by number: tr0 to tr7 are 0 to 7, acc0 and acc1 are 8 and 9. */
#define REGISTERS 10
#define ACCUMULATOR_0 8

/* Vector registers, and the bytes of one. */
#define VECTORS 32
#define VECTOR_BYTES 16

/* The part of a register that a word reads or writes: so many rows and columns from these on; width of an element in bytes. */
struct tile {
    unsigned reg;
    unsigned rows, columns, width;
    unsigned row, column;
};

/* An element that a refusal named, if any. */
struct element {
    int known;
    unsigned reg;
    unsigned row, column, width;
};

struct settings {
    uint64_t mtype, m, k, n;
};

struct device {
    uint8_t machine[BODLARINA_MACHINE_BYTES];
    uint8_t registers[BODLARINA_REGISTER_BYTES(BODLARINA_MLEN_MOST)];
    uint8_t marks[BODLARINA_REGISTER_BYTES(BODLARINA_MLEN_MOST)];
    uint8_t scalars[BODLARINA_SCALAR_BYTES];
    uint8_t run[BODLARINA_RUN_BYTES];
    uint8_t vectors[BODLARINA_VECTOR_BYTES];
    uint64_t group; /* of moves; 0 stands for 1 */
    uint8_t *memory; /* NULL until the script gives its size */
    size_t memory_bytes;
    uint64_t rlen, mlen, elen, rule;
    uint64_t seals[2 * SEALS_MOST]; /* start and length of each range that the machine is to be started with */
    size_t seals_len;               /* how many numbers these are */
    int started;
    unsigned long answers; /* how many starts, steps, sealed ranges, runs and images there were */
    uint64_t result;       /* of the last one */
    unsigned long steps;   /* words carried out or refused */
    struct element named;  /* by the last refusal 5 */
};

/* A word, with the address and the stride that it has if it is a load or store; of a move the stride's scalar is its first row or column. */
struct turn {
    uint32_t word;
    uint64_t address, stride;
};

/* memory of this size, zeros; 0 if there is no room. */
int device_memory(struct device *device, size_t bytes);
void device_free(struct device *device);

/* Each call leaves its result in the device and returns it. */
uint64_t device_start(struct device *device, uint64_t rlen, uint64_t mlen, uint64_t elen, uint64_t rule);
uint64_t device_step(struct device *device, uint32_t word);

/* Seals a further range of the machine. */
uint64_t device_seal(struct device *device, uint64_t start, uint64_t length);
uint64_t device_run_start(struct device *device, const struct bodlarina_plan *plan);

/* The word that the next turn of the run carries out; and that turn. */
void device_next(const struct device *device, struct turn *turn);
uint64_t device_turn(struct device *device, const struct turn *turn);

/* Up to `most` turns; how many were done. And all that the run has. */
uint64_t device_turns(struct device *device, uint64_t most);
uint64_t device_run_steps(struct device *device);

/* The machine's image, and its length; NULL if there is no room or the library refuses. The caller frees it. */
uint8_t *device_image(struct device *device, size_t *length);

/* The machine becomes the one whose image it is, whatever it was, and is then started. */
uint64_t device_restore(struct device *device, const uint8_t *image, size_t length);

/* The same with what a salvage keeps of an image that was cut or damaged, and its report; refused, the report stays. */
uint64_t device_salvage(struct device *device, const uint8_t *image, size_t length, uint8_t report[BODLARINA_REPORT_BYTES]);

/* How many vector registers a move takes. */
unsigned device_group(const struct device *device);

uint64_t device_scalar(const struct device *device, unsigned slot);
void device_set_scalar(struct device *device, unsigned slot, uint64_t value);

struct settings device_settings(const struct device *device);

/* SEW in bytes; 0 if mtype is illegal. */
unsigned device_sew(const struct device *device);

/* The maxima of m, k and n under mtype; all 0 if it is illegal. */
struct settings device_maxima(const struct device *device);

/* A register's rows, the bytes of a row, and where a byte of it stands. */
unsigned register_rows(const struct device *device);
unsigned register_row_bytes(const struct device *device, unsigned reg);
size_t register_at(const struct device *device, unsigned reg, unsigned row, unsigned byte);
void register_name(unsigned reg, char text[8]);

/* Whether each byte of an element is written. */
int element_written(const struct device *device, unsigned reg, unsigned row, unsigned column, unsigned width);

/* Whether a byte of a register belongs to the element that a refusal named and that is still unwritten. */
int is_named(const struct device *device, unsigned reg, unsigned row, unsigned byte);
int named_stands(const struct device *device);

/* The register that an operand names: accumulators follow the tile registers. */
unsigned register_in(const struct instruction *instruction, size_t i);

/* The tile that a word writes into a register or stores from one; rows and columns under the settings as they are. */
struct tile word_tile(const struct device *device, const struct instruction *instruction);

/* The part of an accumulator that a move takes, from this row or column on. */
struct tile word_slice(const struct device *device, const struct instruction *instruction, uint64_t first);

/* The tiles that a word reads, in the order ms1, ms2, md; how many. */
unsigned word_sources(const struct device *device, const struct instruction *instruction, struct tile tiles[3]);

/* The sealed ranges: how many, and start and length of each. */
size_t device_seals(const struct device *device);
void device_seal_at(const struct device *device, size_t i, uint64_t *start, uint64_t *length);

/* Whether a byte of memory is sealed. */
int in_seal(const struct device *device, uint64_t address);

/* The first sealed byte of those from an address on; 0 if none is. */
int first_sealed(const struct device *device, uint64_t address, uint64_t bytes, uint64_t *sealed);

/* Refuses with 7 what the script would enter over a sealed byte. */
void device_refuse_sealed(struct device *device);

#endif
