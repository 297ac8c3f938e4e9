/* Matrix instructions in firmware: one macro for each instruction that the library carries out, made of GNU C's inline assembler for
 * RISC-V of 64 bits. GCC and clang have it, with an assembler that knows .insn; the extension itself they need not know. It is for C and C++, with or without
 * an operating system. Nothing here calls the library: what the compiler emits is the word itself.
 *
 *     asm_msettypei(BODLARINA_E8 | BODLARINA_MACCQ);
 *     rows = asm_msettilem(asked);
 *     asm_mlae8_m(tr0, counts, 4);
 *     asm_mqma_mm(acc0, tr0, tr1);
 *
 * Names are the mnemonics with dots as underscores, after asm_; so they are those of the encoders in bodlarina_words.h with asm_ for bodlarina_.
 * Operands stand in the order of the assembler, without rd: that is the value of the macro.
 *
 *   rd                 the value, an unsigned long, of settings alone; it may be left unused. The compiler chooses the register, never x0
 *   rs1, rs2           any C expression, an address, a stride or a number; the compiler chooses the register, never x0
 *   md, ms1, ms2, ms3  the name of a register: tr0 to tr7, or acc0 or acc1 where the instruction has an accumulator. Another name, and one kind
 *                      for the other, is an error of the compiler
 *   vd, vs1            v0 to v31. The compiler is not told: in a function with moves it must not use vector registers itself
 *   mtypei, mleni      a constant expression from 0 to 8191
 *   imm                a constant expression from -16 to 15
 *
 * The compiler keeps these instructions in their order among each other. A load or store of a tile may read and write any memory, so C
 * variables are in memory before it and read again after it. Memory lies at the program's own addresses.
 */
#ifndef BODLARINA_ASM_H
#define BODLARINA_ASM_H

#include "bodlarina_words.h"

#if !defined(__riscv) || __riscv_xlen != 64
#error "bodlarina_asm.h is for firmware: compile it for RISC-V of 64 bits"
#endif

/* ---- fields ----------------------------------------------------------------------------------------------- */

/* The register number of a name, as the assembler writes a field of five bits: x0 to x31. The first step lets the name be a macro. */
#define BODLARINA_TILE_(name) BODLARINA_TILE_NAMED_(name)
#define BODLARINA_TILE_NAMED_(name) BODLARINA_TILE_##name
#define BODLARINA_TILE_tr0 "x0"
#define BODLARINA_TILE_tr1 "x1"
#define BODLARINA_TILE_tr2 "x2"
#define BODLARINA_TILE_tr3 "x3"
#define BODLARINA_TILE_tr4 "x4"
#define BODLARINA_TILE_tr5 "x5"
#define BODLARINA_TILE_tr6 "x6"
#define BODLARINA_TILE_tr7 "x7"

#define BODLARINA_ACCUMULATOR_(name) BODLARINA_ACCUMULATOR_NAMED_(name)
#define BODLARINA_ACCUMULATOR_NAMED_(name) BODLARINA_ACCUMULATOR_##name
#define BODLARINA_ACCUMULATOR_acc0 "x0"
#define BODLARINA_ACCUMULATOR_acc1 "x1"

#define BODLARINA_VECTOR_(name) BODLARINA_VECTOR_NAMED_(name)
#define BODLARINA_VECTOR_NAMED_(name) BODLARINA_VECTOR_##name
#define BODLARINA_VECTOR_v0 "x0"
#define BODLARINA_VECTOR_v1 "x1"
#define BODLARINA_VECTOR_v2 "x2"
#define BODLARINA_VECTOR_v3 "x3"
#define BODLARINA_VECTOR_v4 "x4"
#define BODLARINA_VECTOR_v5 "x5"
#define BODLARINA_VECTOR_v6 "x6"
#define BODLARINA_VECTOR_v7 "x7"
#define BODLARINA_VECTOR_v8 "x8"
#define BODLARINA_VECTOR_v9 "x9"
#define BODLARINA_VECTOR_v10 "x10"
#define BODLARINA_VECTOR_v11 "x11"
#define BODLARINA_VECTOR_v12 "x12"
#define BODLARINA_VECTOR_v13 "x13"
#define BODLARINA_VECTOR_v14 "x14"
#define BODLARINA_VECTOR_v15 "x15"
#define BODLARINA_VECTOR_v16 "x16"
#define BODLARINA_VECTOR_v17 "x17"
#define BODLARINA_VECTOR_v18 "x18"
#define BODLARINA_VECTOR_v19 "x19"
#define BODLARINA_VECTOR_v20 "x20"
#define BODLARINA_VECTOR_v21 "x21"
#define BODLARINA_VECTOR_v22 "x22"
#define BODLARINA_VECTOR_v23 "x23"
#define BODLARINA_VECTOR_v24 "x24"
#define BODLARINA_VECTOR_v25 "x25"
#define BODLARINA_VECTOR_v26 "x26"
#define BODLARINA_VECTOR_v27 "x27"
#define BODLARINA_VECTOR_v28 "x28"
#define BODLARINA_VECTOR_v29 "x29"
#define BODLARINA_VECTOR_v30 "x30"
#define BODLARINA_VECTOR_v31 "x31"

/* A word of the R format by its fields: bits 31..25, 24..20, 19..15, 14..12 and 11..7 as docs/INSTRUCTIONS.md has them; the assembler's order is another. */
#define BODLARINA_INSN_(high, rs2, rs1, middle, rd) ".insn r 0b1110111, 0b" #middle ", 0b" #high ", " rd ", " rs1 ", " rs2

/* The number, if it has no bit beside those of `most`; else an array of negative size, which the compiler refuses. */
#define BODLARINA_IN_RANGE_(number, most) ((number) + 0 * (long)sizeof(char[((number) & ~(long)(most)) == 0 ? 1 : -1]))

/* A setting by an immediate, which lies in bits 27..15: its three high bits in the field of the code, then five and five. */
#define BODLARINA_SET_IMMEDIATE_(code, immediate) \
    __extension__({ \
        unsigned long bodlarina_rd_; \
        __asm__ __volatile__(".insn r 0b1110111, 0b111, 0b" #code "000 + %1, %0, x%3, x%2" \
                             : "=r"(bodlarina_rd_) \
                             : "i"(BODLARINA_IN_RANGE_(immediate, 8191) >> 10), "i"((immediate) >> 5 & 31), "i"((immediate) & 31)); \
        bodlarina_rd_; \
    })

/* A setting by a scalar, or with x0 for it. */
#define BODLARINA_SET_(high, rs1) \
    __extension__({ \
        unsigned long bodlarina_rd_; \
        __asm__ __volatile__(BODLARINA_INSN_(high, "x0", "%1", 111, "%0") : "=r"(bodlarina_rd_) : "r"((unsigned long)(rs1))); \
        bodlarina_rd_; \
    })
#define BODLARINA_SET_MOST_(high) \
    __extension__({ \
        unsigned long bodlarina_rd_; \
        __asm__ __volatile__(BODLARINA_INSN_(high, "x0", "x0", 111, "%0") : "=r"(bodlarina_rd_)); \
        bodlarina_rd_; \
    })
#define BODLARINA_SET_FIT_(high) __asm__ __volatile__(BODLARINA_INSN_(high, "x0", "x0", 111, "x0"))

/* A load or store of a tile. */
#define BODLARINA_TRANSFER_ROWS_(high, rs2, rs1, middle, reg) \
    __asm__ __volatile__(BODLARINA_INSN_(high, "%1", "%0", middle, reg) : : "r"((unsigned long)(rs1)), "r"((long)(rs2)) : "memory")

/* Words with registers of the unit alone, with an immediate, and with a scalar. */
#define BODLARINA_REGISTERS_ALONE_(high, second, ms1, middle, md) __asm__ __volatile__(BODLARINA_INSN_(high, second, ms1, middle, md))
#define BODLARINA_WITH_IMMEDIATE_(high, imm, ms1, middle, md) \
    __asm__ __volatile__(BODLARINA_INSN_(high, "x%0", ms1, middle, md) : : "i"(BODLARINA_IN_RANGE_((imm) + 16, 31) ^ 16))
#define BODLARINA_WITH_SCALAR_(high, rs2, ms1, middle, md) \
    __asm__ __volatile__(BODLARINA_INSN_(high, "%0", ms1, middle, md) : : "r"((unsigned long)(rs2)))

/* ---- settings --------------------------------------------------------------------------------------------- */

/* mtype becomes the value, or BODLARINA_MILL if that is illegal; the macro's value is what mtype is then. */
#define asm_msettypei(mtypei) BODLARINA_SET_IMMEDIATE_(0000, mtypei)
#define asm_msettype(rs1) BODLARINA_SET_(0001000, rs1)

/* A tile size becomes what the machine's rule gives of the asked number; the macro's value is the size. */
#define asm_msettilemi(mleni) BODLARINA_SET_IMMEDIATE_(0010, mleni)
#define asm_msettilem(rs1) BODLARINA_SET_(0011000, rs1)
#define asm_msettileki(mleni) BODLARINA_SET_IMMEDIATE_(0100, mleni)
#define asm_msettilek(rs1) BODLARINA_SET_(0101000, rs1)
#define asm_msettileni(mleni) BODLARINA_SET_IMMEDIATE_(0110, mleni)
#define asm_msettilen(rs1) BODLARINA_SET_(0111000, rs1)

/* The same with x0 for rs1: the size becomes its maximum under mtype, which is the macro's value. */
#define asm_msettilem_most() BODLARINA_SET_MOST_(0011000)
#define asm_msettilek_most() BODLARINA_SET_MOST_(0101000)
#define asm_msettilen_most() BODLARINA_SET_MOST_(0111000)

/* With x0 for rs1 and rd: nothing is asked, and the size becomes the smaller of itself and its maximum. They have no value. */
#define asm_msettilem_fit() BODLARINA_SET_FIT_(0011000)
#define asm_msettilek_fit() BODLARINA_SET_FIT_(0101000)
#define asm_msettilen_fit() BODLARINA_SET_FIT_(0111000)

/* ---- loads and stores ------------------------------------------------------------------------------------- */

/* rs1 is the address of row 0, rs2 the stride in bytes, which may be negative. */

/* Load an A tile (m by k) into the tile register md. */
#define asm_mlae8_m(md, rs1, rs2) BODLARINA_TRANSFER_ROWS_(0000010, rs2, rs1, 000, BODLARINA_TILE_(md))
#define asm_mlae16_m(md, rs1, rs2) BODLARINA_TRANSFER_ROWS_(0000010, rs2, rs1, 001, BODLARINA_TILE_(md))
#define asm_mlae32_m(md, rs1, rs2) BODLARINA_TRANSFER_ROWS_(0000010, rs2, rs1, 010, BODLARINA_TILE_(md))
#define asm_mlae64_m(md, rs1, rs2) BODLARINA_TRANSFER_ROWS_(0000010, rs2, rs1, 011, BODLARINA_TILE_(md))

/* Load a B tile (k by n) into the tile register md. */
#define asm_mlbe8_m(md, rs1, rs2) BODLARINA_TRANSFER_ROWS_(0000100, rs2, rs1, 000, BODLARINA_TILE_(md))
#define asm_mlbe16_m(md, rs1, rs2) BODLARINA_TRANSFER_ROWS_(0000100, rs2, rs1, 001, BODLARINA_TILE_(md))
#define asm_mlbe32_m(md, rs1, rs2) BODLARINA_TRANSFER_ROWS_(0000100, rs2, rs1, 010, BODLARINA_TILE_(md))
#define asm_mlbe64_m(md, rs1, rs2) BODLARINA_TRANSFER_ROWS_(0000100, rs2, rs1, 011, BODLARINA_TILE_(md))

/* Load a C tile (m by n) into the accumulator md. */
#define asm_mlce8_m(md, rs1, rs2) BODLARINA_TRANSFER_ROWS_(0000000, rs2, rs1, 000, BODLARINA_ACCUMULATOR_(md))
#define asm_mlce16_m(md, rs1, rs2) BODLARINA_TRANSFER_ROWS_(0000000, rs2, rs1, 001, BODLARINA_ACCUMULATOR_(md))
#define asm_mlce32_m(md, rs1, rs2) BODLARINA_TRANSFER_ROWS_(0000000, rs2, rs1, 010, BODLARINA_ACCUMULATOR_(md))
#define asm_mlce64_m(md, rs1, rs2) BODLARINA_TRANSFER_ROWS_(0000000, rs2, rs1, 011, BODLARINA_ACCUMULATOR_(md))

/* Store an A tile (m by k) from the tile register ms3. */
#define asm_msae8_m(ms3, rs1, rs2) BODLARINA_TRANSFER_ROWS_(0000011, rs2, rs1, 000, BODLARINA_TILE_(ms3))
#define asm_msae16_m(ms3, rs1, rs2) BODLARINA_TRANSFER_ROWS_(0000011, rs2, rs1, 001, BODLARINA_TILE_(ms3))
#define asm_msae32_m(ms3, rs1, rs2) BODLARINA_TRANSFER_ROWS_(0000011, rs2, rs1, 010, BODLARINA_TILE_(ms3))
#define asm_msae64_m(ms3, rs1, rs2) BODLARINA_TRANSFER_ROWS_(0000011, rs2, rs1, 011, BODLARINA_TILE_(ms3))

/* Store a B tile (k by n) from the tile register ms3. */
#define asm_msbe8_m(ms3, rs1, rs2) BODLARINA_TRANSFER_ROWS_(0000101, rs2, rs1, 000, BODLARINA_TILE_(ms3))
#define asm_msbe16_m(ms3, rs1, rs2) BODLARINA_TRANSFER_ROWS_(0000101, rs2, rs1, 001, BODLARINA_TILE_(ms3))
#define asm_msbe32_m(ms3, rs1, rs2) BODLARINA_TRANSFER_ROWS_(0000101, rs2, rs1, 010, BODLARINA_TILE_(ms3))
#define asm_msbe64_m(ms3, rs1, rs2) BODLARINA_TRANSFER_ROWS_(0000101, rs2, rs1, 011, BODLARINA_TILE_(ms3))

/* Store a C tile (m by n) from the accumulator ms3. */
#define asm_msce8_m(ms3, rs1, rs2) BODLARINA_TRANSFER_ROWS_(0000001, rs2, rs1, 000, BODLARINA_ACCUMULATOR_(ms3))
#define asm_msce16_m(ms3, rs1, rs2) BODLARINA_TRANSFER_ROWS_(0000001, rs2, rs1, 001, BODLARINA_ACCUMULATOR_(ms3))
#define asm_msce32_m(ms3, rs1, rs2) BODLARINA_TRANSFER_ROWS_(0000001, rs2, rs1, 010, BODLARINA_ACCUMULATOR_(ms3))
#define asm_msce64_m(ms3, rs1, rs2) BODLARINA_TRANSFER_ROWS_(0000001, rs2, rs1, 011, BODLARINA_ACCUMULATOR_(ms3))

/* The transposed forms: row j in memory holds column j of the register. */

/* Load an A tile, in memory k by m, into the tile register md. */
#define asm_mlate8_m(md, rs1, rs2) BODLARINA_TRANSFER_ROWS_(0001010, rs2, rs1, 000, BODLARINA_TILE_(md))
#define asm_mlate16_m(md, rs1, rs2) BODLARINA_TRANSFER_ROWS_(0001010, rs2, rs1, 001, BODLARINA_TILE_(md))
#define asm_mlate32_m(md, rs1, rs2) BODLARINA_TRANSFER_ROWS_(0001010, rs2, rs1, 010, BODLARINA_TILE_(md))
#define asm_mlate64_m(md, rs1, rs2) BODLARINA_TRANSFER_ROWS_(0001010, rs2, rs1, 011, BODLARINA_TILE_(md))

/* Load a B tile, in memory n by k, into the tile register md. */
#define asm_mlbte8_m(md, rs1, rs2) BODLARINA_TRANSFER_ROWS_(0001100, rs2, rs1, 000, BODLARINA_TILE_(md))
#define asm_mlbte16_m(md, rs1, rs2) BODLARINA_TRANSFER_ROWS_(0001100, rs2, rs1, 001, BODLARINA_TILE_(md))
#define asm_mlbte32_m(md, rs1, rs2) BODLARINA_TRANSFER_ROWS_(0001100, rs2, rs1, 010, BODLARINA_TILE_(md))
#define asm_mlbte64_m(md, rs1, rs2) BODLARINA_TRANSFER_ROWS_(0001100, rs2, rs1, 011, BODLARINA_TILE_(md))

/* Load a C tile, in memory n by m, into the accumulator md. */
#define asm_mlcte8_m(md, rs1, rs2) BODLARINA_TRANSFER_ROWS_(0001000, rs2, rs1, 000, BODLARINA_ACCUMULATOR_(md))
#define asm_mlcte16_m(md, rs1, rs2) BODLARINA_TRANSFER_ROWS_(0001000, rs2, rs1, 001, BODLARINA_ACCUMULATOR_(md))
#define asm_mlcte32_m(md, rs1, rs2) BODLARINA_TRANSFER_ROWS_(0001000, rs2, rs1, 010, BODLARINA_ACCUMULATOR_(md))
#define asm_mlcte64_m(md, rs1, rs2) BODLARINA_TRANSFER_ROWS_(0001000, rs2, rs1, 011, BODLARINA_ACCUMULATOR_(md))

/* Store an A tile, in memory k by m, from the tile register ms3. */
#define asm_msate8_m(ms3, rs1, rs2) BODLARINA_TRANSFER_ROWS_(0001011, rs2, rs1, 000, BODLARINA_TILE_(ms3))
#define asm_msate16_m(ms3, rs1, rs2) BODLARINA_TRANSFER_ROWS_(0001011, rs2, rs1, 001, BODLARINA_TILE_(ms3))
#define asm_msate32_m(ms3, rs1, rs2) BODLARINA_TRANSFER_ROWS_(0001011, rs2, rs1, 010, BODLARINA_TILE_(ms3))
#define asm_msate64_m(ms3, rs1, rs2) BODLARINA_TRANSFER_ROWS_(0001011, rs2, rs1, 011, BODLARINA_TILE_(ms3))

/* Store a B tile, in memory n by k, from the tile register ms3. */
#define asm_msbte8_m(ms3, rs1, rs2) BODLARINA_TRANSFER_ROWS_(0001101, rs2, rs1, 000, BODLARINA_TILE_(ms3))
#define asm_msbte16_m(ms3, rs1, rs2) BODLARINA_TRANSFER_ROWS_(0001101, rs2, rs1, 001, BODLARINA_TILE_(ms3))
#define asm_msbte32_m(ms3, rs1, rs2) BODLARINA_TRANSFER_ROWS_(0001101, rs2, rs1, 010, BODLARINA_TILE_(ms3))
#define asm_msbte64_m(ms3, rs1, rs2) BODLARINA_TRANSFER_ROWS_(0001101, rs2, rs1, 011, BODLARINA_TILE_(ms3))

/* Store a C tile, in memory n by m, from the accumulator ms3. */
#define asm_mscte8_m(ms3, rs1, rs2) BODLARINA_TRANSFER_ROWS_(0001001, rs2, rs1, 000, BODLARINA_ACCUMULATOR_(ms3))
#define asm_mscte16_m(ms3, rs1, rs2) BODLARINA_TRANSFER_ROWS_(0001001, rs2, rs1, 001, BODLARINA_ACCUMULATOR_(ms3))
#define asm_mscte32_m(ms3, rs1, rs2) BODLARINA_TRANSFER_ROWS_(0001001, rs2, rs1, 010, BODLARINA_ACCUMULATOR_(ms3))
#define asm_mscte64_m(ms3, rs1, rs2) BODLARINA_TRANSFER_ROWS_(0001001, rs2, rs1, 011, BODLARINA_ACCUMULATOR_(ms3))

/* ---- moves ------------------------------------------------------------------------------------------------ */

/* Rows (mmvcr) or columns (mmvcc) of an accumulator from number rs2 on, to or from the group of vector registers from vd or vs1 on. */
#define asm_mmvcr_v_m(vd, ms1, rs2) BODLARINA_WITH_SCALAR_(0000000, rs2, BODLARINA_ACCUMULATOR_(ms1), 101, BODLARINA_VECTOR_(vd))
#define asm_mmvcr_m_v(md, vs1, rs2) BODLARINA_WITH_SCALAR_(0000001, rs2, BODLARINA_VECTOR_(vs1), 101, BODLARINA_ACCUMULATOR_(md))
#define asm_mmvcc_v_m(vd, ms1, rs2) BODLARINA_WITH_SCALAR_(0001000, rs2, BODLARINA_ACCUMULATOR_(ms1), 101, BODLARINA_VECTOR_(vd))
#define asm_mmvcc_m_v(md, vs1, rs2) BODLARINA_WITH_SCALAR_(0001001, rs2, BODLARINA_VECTOR_(vs1), 101, BODLARINA_ACCUMULATOR_(md))

/* ---- arithmetic ------------------------------------------------------------------------------------------- */

/* C += A x B: accumulator md, tile registers ms1 and ms2; mfma on binary32 numbers. md is read too: load or clear it first. */
#define asm_mma_mm(md, ms1, ms2) \
    BODLARINA_REGISTERS_ALONE_(0000000, BODLARINA_TILE_(ms2), BODLARINA_TILE_(ms1), 110, BODLARINA_ACCUMULATOR_(md))
#define asm_mfma_mm(md, ms1, ms2) \
    BODLARINA_REGISTERS_ALONE_(0000001, BODLARINA_TILE_(ms2), BODLARINA_TILE_(ms1), 110, BODLARINA_ACCUMULATOR_(md))
#define asm_mwma_mm(md, ms1, ms2) \
    BODLARINA_REGISTERS_ALONE_(0000010, BODLARINA_TILE_(ms2), BODLARINA_TILE_(ms1), 110, BODLARINA_ACCUMULATOR_(md))
#define asm_mqma_mm(md, ms1, ms2) \
    BODLARINA_REGISTERS_ALONE_(0000100, BODLARINA_TILE_(ms2), BODLARINA_TILE_(ms1), 110, BODLARINA_ACCUMULATOR_(md))

/* md += ms1, accumulators. */
#define asm_maddc_mm(md, ms1) BODLARINA_REGISTERS_ALONE_(0001000, "x0", BODLARINA_ACCUMULATOR_(ms1), 110, BODLARINA_ACCUMULATOR_(md))
#define asm_mwaddc_mm(md, ms1) BODLARINA_REGISTERS_ALONE_(0001010, "x0", BODLARINA_ACCUMULATOR_(ms1), 110, BODLARINA_ACCUMULATOR_(md))
#define asm_mqaddc_mm(md, ms1) BODLARINA_REGISTERS_ALONE_(0001100, "x0", BODLARINA_ACCUMULATOR_(ms1), 110, BODLARINA_ACCUMULATOR_(md))

/* md -= ms1. */
#define asm_msubc_mm(md, ms1) BODLARINA_REGISTERS_ALONE_(0001110, "x0", BODLARINA_ACCUMULATOR_(ms1), 110, BODLARINA_ACCUMULATOR_(md))
#define asm_mwsubc_mm(md, ms1) BODLARINA_REGISTERS_ALONE_(0010000, "x0", BODLARINA_ACCUMULATOR_(ms1), 110, BODLARINA_ACCUMULATOR_(md))
#define asm_mqsubc_mm(md, ms1) BODLARINA_REGISTERS_ALONE_(0010010, "x0", BODLARINA_ACCUMULATOR_(ms1), 110, BODLARINA_ACCUMULATOR_(md))

/* md = ms1 - md. */
#define asm_mrsubc_mm(md, ms1) BODLARINA_REGISTERS_ALONE_(0010100, "x0", BODLARINA_ACCUMULATOR_(ms1), 110, BODLARINA_ACCUMULATOR_(md))
#define asm_mwrsubc_mm(md, ms1) BODLARINA_REGISTERS_ALONE_(0010110, "x0", BODLARINA_ACCUMULATOR_(ms1), 110, BODLARINA_ACCUMULATOR_(md))
#define asm_mqrsubc_mm(md, ms1) BODLARINA_REGISTERS_ALONE_(0011000, "x0", BODLARINA_ACCUMULATOR_(ms1), 110, BODLARINA_ACCUMULATOR_(md))

/* md = ms1 times the low SEW bits of rs2, signed: accumulators. */
#define asm_memulc_mx(md, ms1, rs2) BODLARINA_WITH_SCALAR_(0011010, rs2, BODLARINA_ACCUMULATOR_(ms1), 110, BODLARINA_ACCUMULATOR_(md))
#define asm_mwemulc_mx(md, ms1, rs2) BODLARINA_WITH_SCALAR_(0011100, rs2, BODLARINA_ACCUMULATOR_(ms1), 110, BODLARINA_ACCUMULATOR_(md))
#define asm_mqemulc_mx(md, ms1, rs2) BODLARINA_WITH_SCALAR_(0011110, rs2, BODLARINA_ACCUMULATOR_(ms1), 110, BODLARINA_ACCUMULATOR_(md))

/* md = ms1 times imm. With 0 it clears md, whether ms1 was written or not. */
#define asm_memulc_mi(md, ms1, imm) BODLARINA_WITH_IMMEDIATE_(0100000, imm, BODLARINA_ACCUMULATOR_(ms1), 110, BODLARINA_ACCUMULATOR_(md))
#define asm_mwemulc_mi(md, ms1, imm) BODLARINA_WITH_IMMEDIATE_(0100010, imm, BODLARINA_ACCUMULATOR_(ms1), 110, BODLARINA_ACCUMULATOR_(md))
#define asm_mqemulc_mi(md, ms1, imm) BODLARINA_WITH_IMMEDIATE_(0100100, imm, BODLARINA_ACCUMULATOR_(ms1), 110, BODLARINA_ACCUMULATOR_(md))

#endif
