/* Bodlarina: a simulator of the integer part of the RISC-V Matrix Specification 0.2, of its float multiply mfma.mm on binary32, and of
 * its moves between accumulators and vector registers, for a host in C.
 *
 * A machine has eight tile registers tr0 to tr7 and two accumulators acc0 and acc1, a type (mtype) with the width of an element,
 * and tile sizes m, k and n. A WORD is one instruction of 32 bits (bodlarina_words.h encodes each). Each call gives an ANSWER: 0
 * is done, each other number one reason for a refusal. Each register byte has a MARK: written since the start, or not; reading an
 * element that was never written is refused. A SEAL is a range of memory that no store may change; a machine has none to eight. A TURN
 * is one step of a product run: a word is handed out and carried out.
 *
 * The library holds nothing. The host owns every buffer and lends it for one call; a call allocates nothing, keeps nothing and
 * calls nothing back. Each function of the library is proved to do what its definition says for EVERY argument, so a wrong length or a
 * damaged block is answered and never undefined; those that stand in the headers, marked BODLARINA_INLINE, are plain C over them, tested
 * and not proved. The host has to ensure only that
 *   - each pointer points to as many readable (and, unless const, writable) bytes as the length beside it says (seals to as many
 *     numbers), and is not NULL, not even at length 0: then give the address of any byte or number;
 *   - the buffers of one call do not overlap;
 *   - while mfma.mm or a float run is carried out, the processor works with floats as C starts it: it rounds to the nearest, ties to
 *     even, and flushes no subnormal number to zero (no fesetround, no -ffast-math at the link, DAZ and FTZ off in MXCSR).
 * No alignment is asked, but of seals that of its numbers. Calls on different buffers may run at once, in any number of threads; calls
 * that share a buffer, in turn.
 * The deepest call, bodlarina_run, was measured to use less than 5,200 bytes of stack (x86-64, the largest machines); tests/library.c
 * measures it again and fails above 8 KiB.
 *
 * Every function but bodlarina_run_turns, bodlarina_run_steps and bodlarina_version, which return a number, returns a result: the
 * answer, with row and column or with a length or place, in one number (below). A REFUSAL, a result whose answer is not 0, CHANGES
 * NO BYTE OF ANY BUFFER.
 *
 * At the end of this file stands struct bodlarina_bench, which holds the buffers, and a short form of each function on it.
 */
#ifndef BODLARINA_H
#define BODLARINA_H

#include <stddef.h>
#include <stdint.h>

#ifdef __cplusplus
extern "C" {
#endif

/* For the functions that stand in the headers. */
#if defined(__cplusplus) || (defined(__STDC_VERSION__) && __STDC_VERSION__ >= 199901L)
#define BODLARINA_INLINE static inline
#elif defined(__GNUC__)
#define BODLARINA_INLINE static __inline__
#else
#define BODLARINA_INLINE static
#endif

/* ---- Version ---------------------------------------------------------------------------------------------- */

/* The number is 10,000 times the major number, 100 times the minor one, and the patch number. While the major number is 0, the minor
 * one goes up when a block or a signature changes or a function comes: then compile the host again. */
#define BODLARINA_VERSION "0.8.0"
#define BODLARINA_VERSION_NUMBER 800

/* The number of the library that is linked. It is BODLARINA_VERSION_NUMBER, or header and library do not belong together. */
uint64_t bodlarina_version(void);

/* ---- Results ---------------------------------------------------------------------------------------------- */

/* Bits 15..0 of a result are the answer, bits 31..16 the row and bits 47..32 the column that answer 5 names.
 * Row and column are 0 with every other answer. So a call is done exactly when its result is 0; but a result of the functions on
 * images and on lines of text has in bits 63..16 the length of an image that was sized or written or of a line that was written, or the
 * place that answer 15, and of bodlarina_image_salvage 14 too, or the column that answer 17 names: there test BODLARINA_ANSWER(result).
 * bodlarina_answer_text, below, has a sentence for each. */
#define BODLARINA_ANSWER(result) ((unsigned)((result) & 0xffffu))
#define BODLARINA_ROW(result) ((unsigned)(((result) >> 16) & 0xffffu))
#define BODLARINA_COLUMN(result) ((unsigned)(((result) >> 32) & 0xffffu))
#define BODLARINA_LENGTH(result) ((result) >> 16)
#define BODLARINA_PLACE(result) ((result) >> 16)
#define BODLARINA_LINE_COLUMN(result) ((result) >> 16)

#define BODLARINA_DONE 0u            /* done */
#define BODLARINA_ILLEGAL_WORD 1u    /* no row of the draft's listing (section 4.5, of moves 6.1.7) has all its fixed bits in the word */
#define BODLARINA_ILLEGAL_TYPE 2u    /* mtype is illegal (bit 63, mill), and the word isn't msettype or msettypei */
#define BODLARINA_BAD_WIDTH 3u       /* an element width that mtype does not allow here, or one above ELEN */
#define BODLARINA_TILE_TOO_LARGE 4u  /* a tile size that the instruction uses is above its maximum under mtype; or the
                                        slice of a move goes past the tile, or has rows or columns of more than 128 bits */
#define BODLARINA_UNWRITTEN 5u       /* a register element to be read has a byte that was never written;
                                        row and column name the first one, sources in the order ms1, ms2, md */
#define BODLARINA_OUTSIDE_MEMORY 6u  /* a byte of an element lies outside memory */
#define BODLARINA_SEALED_BYTE 7u     /* a store would write a sealed byte */
#define BODLARINA_BAD_ARGUMENTS 8u   /* arguments: a block or buffer of the wrong length, or numbers that no machine,
                                        plan or run can have; a run that is asked past its last step */
#define BODLARINA_OVERLAP 9u         /* a byte of C lies in two of its rows, in a row of A or B, or in a seal */
#define BODLARINA_WRONG_OPCODE 10u   /* bits 6..0 of the word are not 1110111 */
#define BODLARINA_LEFT_OUT_WORD 11u  /* an instruction of the draft that is not carried out here: a float word other
                                        than mfma.mm or a conversion */
#define BODLARINA_WRONG_REGISTER 12u /* a register field out of range: a tile register is 0 to 7, an accumulator 0 or 1;
                                        or a vector group that starts at no multiple of its size */
#define BODLARINA_ROWS_OVERLAP 13u   /* a byte of a store lies in two of its rows in memory */
#define BODLARINA_NO_ROOM 14u        /* an image or a line of text does not fit the lent room */
#define BODLARINA_DAMAGED 15u        /* not an image; the place is that of the first byte at which no image can go on,
                                        the length if it is only cut short */
#define BODLARINA_TOO_MANY_SEALS 16u /* a ninth sealed range */
#define BODLARINA_BAD_LINE 17u       /* no line of assembler text; the column, from 1, is that of the first character at
                                        which no line can go on, one past the end if it is only cut short */

/* What an answer, or the answer in a result, says: one line of plain text. */
BODLARINA_INLINE const char *bodlarina_answer_text(uint64_t result)
{
    switch (BODLARINA_ANSWER(result)) {
    case BODLARINA_DONE: return "done";
    case BODLARINA_ILLEGAL_WORD: return "no instruction of the draft has these bits";
    case BODLARINA_ILLEGAL_TYPE: return "mtype is illegal, set it first";
    case BODLARINA_BAD_WIDTH: return "mtype does not allow this element width here";
    case BODLARINA_TILE_TOO_LARGE: return "a tile size is above its maximum under mtype, or a slice exceeds its tile or a vector register";
    case BODLARINA_UNWRITTEN: return "a register element to be read was never written";
    case BODLARINA_OUTSIDE_MEMORY: return "an element lies outside memory";
    case BODLARINA_SEALED_BYTE: return "a store would write a sealed byte";
    case BODLARINA_BAD_ARGUMENTS: return "the arguments or the state are at fault, or the run is over";
    case BODLARINA_OVERLAP: return "C overlaps A, B, a seal or itself";
    case BODLARINA_WRONG_OPCODE: return "the opcode is not 1110111";
    case BODLARINA_LEFT_OUT_WORD: return "an instruction of the draft that is not carried out here";
    case BODLARINA_WRONG_REGISTER: return "there is no such register, or a vector group starts at no multiple of its size";
    case BODLARINA_ROWS_OVERLAP: return "a byte of a store lies in two of its rows";
    case BODLARINA_NO_ROOM: return "the image or the line does not fit the room";
    case BODLARINA_DAMAGED: return "this is no image, or it is cut short";
    case BODLARINA_TOO_MANY_SEALS: return "a machine has at most eight sealed ranges";
    case BODLARINA_BAD_LINE: return "no line of assembler text goes on at this column";
    }
    return "no answer of this version";
}

/* ---- Buffers ---------------------------------------------------------------------------------------------- */

/* The number of 64 bits in the eight bytes at `bytes`, low byte first, and the same written. */
BODLARINA_INLINE uint64_t bodlarina_get64(const uint8_t *bytes)
{
    uint64_t value = 0;
    unsigned i;
    for (i = 0; i < 8; i++)
        value |= (uint64_t)bytes[i] << (8 * i);
    return value;
}

BODLARINA_INLINE void bodlarina_put64(uint8_t *bytes, uint64_t value)
{
    unsigned i;
    for (i = 0; i < 8; i++)
        bytes[i] = (uint8_t)(value >> (8 * i) & 0xffu);
}

/* machine: twenty-five numbers of 64 bits, each low byte first, at the bytes below. bodlarina_start writes them; the host may read, keep
 * and copy the block: bodlarina_get64(machine + BODLARINA_MACHINE_MTYPE_AT). */
#define BODLARINA_MACHINE_BYTES 200
#define BODLARINA_MACHINE_RLEN_AT 0 /* RLEN and MLEN in bits */
#define BODLARINA_MACHINE_MLEN_AT 8
#define BODLARINA_MACHINE_MTYPE_AT 16
#define BODLARINA_MACHINE_TILE_M_AT 24
#define BODLARINA_MACHINE_TILE_K_AT 32
#define BODLARINA_MACHINE_TILE_N_AT 40
#define BODLARINA_MACHINE_SEAL_START_AT 48 /* of the first sealed range */
#define BODLARINA_MACHINE_SEAL_LENGTH_AT 56
#define BODLARINA_MACHINE_RULE_AT 64
#define BODLARINA_MACHINE_ELEN_AT 72 /* in bits */
#define BODLARINA_MACHINE_SEALS_AT 80 /* how many sealed ranges there are */

/* Where the start of sealed range i stands in the block, and 8 bytes on its length: 0 is the first, 7 the last. What belongs to a range that is
 * not there is 0; a block with anything else there is answered with 8. */
#define BODLARINA_SEALS_MOST 8
#define BODLARINA_MACHINE_SEAL_AT(i) ((i) == 0 ? 48 : 72 + 16 * (size_t)(i))

/* The largest RLEN, MLEN and ELEN in bits. BODLARINA_REGISTER_BYTES(BODLARINA_MLEN_MOST) bytes hold the registers of any machine, and as many
 * its marks. */
#define BODLARINA_RLEN_MOST 4096
#define BODLARINA_MLEN_MOST 65536
#define BODLARINA_ELEN_MOST 64

/* registers and marks: BODLARINA_REGISTER_BYTES(MLEN) bytes each. The registers lie one after another,
 * row by row: tr0 .. tr7 of MLEN/8 bytes in rows of RLEN/8, then acc0 and acc1 of MLEN/2 bytes in rows of RLEN/2.
 * Element (i, j) of w bits starts at byte j * w/8 of row i, low byte first. The mark of a register byte stands at
 * the same place in marks: 1 written, 0 not; any other value is answered with 8. */
#define BODLARINA_REGISTER_BYTES(mlen) (2 * (size_t)(mlen))

/* scalars: x0 .. x31 of 64 bits, slot s at byte 8 * s, low byte first. Slot 0 is read as 0 whatever it holds and
 * is never written. A stride is a signed number in two's complement. */
#define BODLARINA_SCALAR_BYTES 256
#define BODLARINA_SCALAR_AT(slot) (8 * (size_t)(slot))

/* memory: any number of bytes; address 0 is the first. */

/* vectors: v0 .. v31 of 128 bits, register v at byte 16 * v, low byte first. They carry no marks, and are no part of the machine or its
 * image. group: how many of them, and how many rows or columns, a move takes, 1, 2, 4 or 8. */
#define BODLARINA_VECTOR_BYTES 512
#define BODLARINA_VECTOR_AT(v) (16 * (size_t)(v))

/* Whether a word is a move: mmvcr or mmvcc, out or in. */
#define BODLARINA_IS_MOVE(word) (((word) & 0xec00707fu) == 0x00005077u)

/* ---- A machine -------------------------------------------------------------------------------------------- */

/* rule: the size that a tile setting gives. With rs1 and rd both x0 nothing is asked, and the size becomes the smaller of
 * itself and the maximum by either rule. A product run goes by the rule of the machine that it is started on; it has as
 * many steps by either. */
#define BODLARINA_SMALLER 0u /* the smaller of the asked size and the maximum */
#define BODLARINA_HALVING 1u /* the same, but of a size strictly between the maximum and twice it half, rounded up */

/* Starts a machine: every mark becomes 0, mtype and the tile sizes become 0, the register bytes stay, and the
 * machine block is written. What marks and machine held before does not matter.
 *   rlen   a power of two from 64 to 4096
 *   mlen   a power of two from 128 to 65536, above rlen
 *   elen   the bits of the widest element: 32 or 64, below rlen. With 64, elements of 64 bits are legal in mtype, and maccq with
 *          those of 16 bits
 *   rule   what a tile setting gives of the size that it asks for: BODLARINA_SMALLER or BODLARINA_HALVING
 *   seals  none to eight ranges of memory that no store of this machine may change, the start and the length of each; seals_len counts
 *          the numbers, two a range. Ranges may overlap and reach past the end of memory; one of length 0 seals nothing and counts
 * Answers: 0; 8 for other lengths, another ELEN or rule, a buffer of the wrong size, an odd seals_len, or a range whose start + length is
 * above 2^64 - 1; then 16 for more than eight ranges. */
uint64_t bodlarina_start(uint64_t rlen, uint64_t mlen, uint64_t elen, uint64_t rule, const uint64_t *seals, size_t seals_len,
                         uint8_t *machine, size_t machine_len,
                         const uint8_t *registers, size_t registers_len,
                         uint8_t *marks, size_t marks_len);

/* Seals a further range, behind the others, from now on; none is ever taken off. What memory holds there stays, and any word may read it. A
 * product run may go on: a turn that would then write a sealed byte is refused with 7, and the run stays at its place.
 * Answers: 0; 8 for a state at fault as in bodlarina_step, or start + length above 2^64 - 1; then 16 for a ninth range. */
uint64_t bodlarina_seal(uint64_t start, uint64_t length,
                        uint8_t *machine, size_t machine_len,
                        const uint8_t *registers, size_t registers_len,
                        const uint8_t *marks, size_t marks_len);

/* Carries out one instruction word. rs1 and rs2 are read from scalars, rd is written there; mtype and the tile sizes stand in the machine
 * block, which a setting word writes. Moves read and write the vector file.
 * Answers: 0, or the first that applies in the order 8, then 10, 11, 1, 12 (the word itself), then 2 to 6, 13, 7.
 * 8 means that the state is at fault: lengths or an ELEN that are not permitted, a buffer of the wrong size, an mtype that
 * cannot arise with that ELEN, a tile size above its maximum at 8 bits, another rule than 0 and 1, more than eight sealed ranges, one
 * whose end is above 2^64 - 1 or anything but 0 where there is none, a mark other than 0 and 1, or another group size than 1, 2, 4 and 8.
 * With buffers of the right size and such a group size, a started machine that nothing but these functions has written never gets 8. */
uint64_t bodlarina_step(uint32_t word, uint64_t group,
                        uint8_t *machine, size_t machine_len,
                        uint8_t *registers, size_t registers_len,
                        uint8_t *marks, size_t marks_len,
                        uint8_t *scalars, size_t scalars_len,
                        uint8_t *memory, size_t memory_len,
                        uint8_t *vectors, size_t vectors_len);

/* ---- A product run ---------------------------------------------------------------------------------------- */

/* C = A x B in tiles, for matrices of any size up to 1,024: A is m by k, B is k by n, both of sew bits, signed; C is
 * m by n of factor * sew bits. C(i, j) becomes the sum of A(i, l) x B(l, j) over l, reduced to its width in two's
 * complement; with k = 0 it is 0. No byte of memory outside C's elements changes. Row i of a matrix lies at
 * its address + i * its stride (a signed number), element j of w bits at byte j * w/8 of its row, low byte first.
 *   sew      8, 16 or 32, and 64 where the machine's ELEN is 64
 *   factor   1, 2 or 4, with factor * sew at most ELEN
 *
 * In a float run (BODLARINA_FLOAT) the elements of A, B and C are binary32 numbers; sew is 32 and factor 1. C(i, j) is, bit for bit, the
 * plain sum from +0 in the order of l = 0, 1, ..: each product is rounded, then each sum, to the nearest, ties to even. A result that is
 * not a number is stored as 0x7FC00000. Where all elements are whole numbers, and all products and partial sums lie between -2^24 and
 * 2^24, each C(i, j) is exactly the sum.
 *
 * A start checks the plan and the machine, and changes neither machine nor memory. Then each turn hands out one
 * instruction word and carries it out, until all are done. The machine may have been used before, and may be used
 * between runs; between the turns of one run, leave machine, registers, marks and memory to the run. A further range may be sealed
 * (bodlarina_seal); a turn that would write a byte of it is refused with 7.
 *
 * Answers of a start, the first that applies:
 *   8   a state at fault as in bodlarina_step, another kind, other widths or factors, or a size above 1,024
 *   6   an element of A, B or C lies outside memory
 *   9   a byte of C lies in two of its rows, in a row of A or B, or in a seal
 * A matrix with no element has nothing to test. */

/* kind: what is multiplied, and how A lies in memory. */
#define BODLARINA_PRODUCT 0u      /* A, m by k, times B, k by n */
#define BODLARINA_A_TRANSPOSED 1u /* the same with A kept transposed: k rows of m elements, A(i, l) is element i of row l */
#define BODLARINA_FLOAT 2u        /* A, m by k, times B, k by n, of binary32 numbers */

/* run: twenty numbers of 64 bits, each low byte first, at bytes 0, 8, .., 152:
 *   sew, factor, m, k, n, then address and stride of A, of B and of C, RLEN, MLEN,
 *   the place: which word comes next (0 to 8 in the order of a run, 9 none), and the row and column of C and
 *   the term of the sums at which its block starts; the kind; the rule; and ELEN.
 * bodlarina_run_start writes them; the host may read, keep and copy the block. Numbers that no run can have are
 * answered with 8: lengths, an ELEN, a rule or a plan that a start answers with 8, or a place that no run comes to. Where the matrices
 * lie is judged by the start only; of a block that the host made itself each word is checked as it is carried out. */
#define BODLARINA_RUN_BYTES 160
#define BODLARINA_RUN_NEXT_AT 104 /* the byte at which the number of the next word stands */
#define BODLARINA_RUN_OVER 9      /* there is none: every step is done */

/* handed: a word, then scalars 10 and 11 (address and stride) as numbers of 64 bits, low byte first. */
#define BODLARINA_HANDED_BYTES 24
#define BODLARINA_HANDED_WORD_AT 0
#define BODLARINA_HANDED_ADDRESS_AT 8
#define BODLARINA_HANDED_STRIDE_AT 16

/* Starts a run: on 0 the run block is written; refused, it stays as it was, with whatever run it held.
 * Answers: those above; 8 too for a run block that is not BODLARINA_RUN_BYTES long. */
uint64_t bodlarina_run_start(uint64_t kind, uint64_t sew, uint64_t factor, uint64_t m, uint64_t k, uint64_t n,
                             uint64_t a, int64_t a_stride, uint64_t b, int64_t b_stride, uint64_t c, int64_t c_stride,
                             const uint8_t *machine, size_t machine_len,
                             const uint8_t *registers, size_t registers_len,
                             const uint8_t *marks, size_t marks_len,
                             const uint8_t *memory, size_t memory_len,
                             uint8_t *run, size_t run_len);

/* Hands out the next step and moves the run past it, for a host that carries it out with bodlarina_step: the word,
 * with scalars 10 and 11 as given and the others 0.
 * Answers: 0; 8 past the last step, for a run or handed block of the wrong length, and for a run block with numbers that no run can have. */
uint64_t bodlarina_run_next(uint8_t *run, size_t run_len, uint8_t *handed, size_t handed_len);

/* RETURNS HOW MANY STEPS THE RUN HAS IN ALL, not a result: 1 + M * (1 + N * (3 + 4 * K)), with M, K and N the numbers of blocks that m,
 * k and n are cut into. It is the same before the first step and after the last, so turns done of this number is how far a run has
 * come. 0 for a run block of the wrong length or with numbers that no run can have. */
uint64_t bodlarina_run_steps(const uint8_t *run, size_t run_len);

/* Whether a run has come to its end: 1 if each of its steps is done, 0 if there are more or the block is refused. */
BODLARINA_INLINE int bodlarina_run_is_over(const uint8_t *run, size_t run_len)
{
    return bodlarina_run_steps(run, run_len) != 0 && bodlarina_get64(run + BODLARINA_RUN_NEXT_AT) == BODLARINA_RUN_OVER;
}

/* One turn: hands out the next step and carries it out with scalars of the run's own. It writes the run and the machine block, and what the
 * word writes.
 * Answers: 0; 8 as bodlarina_run_next and bodlarina_step; and those of the word. A run that was started here, on
 * buffers that nothing else has written since, gets 0 for each of its steps and 8 after the last. On another machine
 * than that of its start, of another rule or ELEN for instance, each word is answered as by bodlarina_step, and C need not be
 * the product. */
uint64_t bodlarina_run_turn(uint8_t *run, size_t run_len,
                            uint8_t *machine, size_t machine_len,
                            uint8_t *registers, size_t registers_len,
                            uint8_t *marks, size_t marks_len,
                            uint8_t *memory, size_t memory_len);

/* Up to `turns` turns, stopping before the first that would be refused. RETURNS HOW MANY WERE DONE, not a result: 0 too where a block
 * is refused. If fewer than asked, bodlarina_run_is_over tells the end of the run, and if it is not over, bodlarina_run_turn says
 * why it stands. They leave what as many calls of bodlarina_run_turn leave, and look through the marks once, not once a turn: that
 * saves most of a short turn on a machine of large MLEN. */
uint64_t bodlarina_run_turns(uint64_t turns,
                             uint8_t *run, size_t run_len,
                             uint8_t *machine, size_t machine_len,
                             uint8_t *registers, size_t registers_len,
                             uint8_t *marks, size_t marks_len,
                             uint8_t *memory, size_t memory_len);

/* A whole run in one call: starts it and takes all its turns, which leave their last mtype and tile sizes in the machine block. Answers are
 * those of the start, and 8 for a steps block that is not BODLARINA_STEPS_BYTES long. On 0 C is the product, and the steps block has the
 * number of steps, low byte first. */
#define BODLARINA_STEPS_BYTES 8
uint64_t bodlarina_run(uint64_t kind, uint64_t sew, uint64_t factor, uint64_t m, uint64_t k, uint64_t n,
                       uint64_t a, int64_t a_stride, uint64_t b, int64_t b_stride, uint64_t c, int64_t c_stride,
                       uint8_t *machine, size_t machine_len,
                       uint8_t *registers, size_t registers_len,
                       uint8_t *marks, size_t marks_len,
                       uint8_t *memory, size_t memory_len,
                       uint8_t *steps, size_t steps_len);

/* ---- Images ----------------------------------------------------------------------------------------------- */

/* The image of a machine: its numbers and its marked register bytes, to hand it over. Two machines have the same image
 * exactly if they differ at most in unmarked register bytes. It is made of numbers in groups of seven bits, low group
 * first, the top bit set on all but the last group, in the shortest form: the version and what belongs to it, the exponents
 * of RLEN and MLEN, mtype, tile_m, tile_k, tile_n, start and length of each sealed range, the number of runs; then for each maximal run
 * of marked bytes, in the order of the registers, its gap from the end of the run before it (or from the start), its length,
 * and its bytes as they are. The version is the lowest that can hold the machine, and another one is refused:
 *   1                              one sealed range, RLEN up to 512, MLEN up to 4,096, ELEN 32 and rule 0
 *   2, the rule                    the same with rule 1
 *   3, the rule, ELEN's exponent   one sealed range, RLEN above 512, MLEN above 4,096 or ELEN 64, either rule
 *   4, the rule, ELEN's exponent   none or two to eight sealed ranges, any machine; their number stands before them */

/* No image of a machine of this MLEN is longer. */
#define BODLARINA_IMAGE_BYTES_MOST(mlen) (3 * (size_t)(mlen) + 256)

/* The length of a machine's image, in bits 63..16.
 * Answers: 0; 8 for a state at fault as in bodlarina_step. */
uint64_t bodlarina_image_size(const uint8_t *machine, size_t machine_len,
                              const uint8_t *registers, size_t registers_len,
                              const uint8_t *marks, size_t marks_len);

/* Writes a machine's image to the front of image, and leaves the bytes past it. Its length is in bits 63..16.
 * Answers: 0; 8 for a state at fault as in bodlarina_step; then 14 if the image is longer than image_len. */
uint64_t bodlarina_image_write(const uint8_t *machine, size_t machine_len,
                               const uint8_t *registers, size_t registers_len,
                               const uint8_t *marks, size_t marks_len,
                               uint8_t *image, size_t image_len);

/* Makes the machine whose image it is: writes the machine block, the marks and the marked register bytes, and leaves
 * the other register bytes. What machine and marks held before does not matter. image_len is the image's length, no more.
 * Answers: 0; 15 with the place in bits 63..16 if it is no image of a machine that is not at fault; then 8 if the machine
 * block, registers or marks are not of its machine's size. */
uint64_t bodlarina_image_read(const uint8_t *image, size_t image_len,
                              uint8_t *machine, size_t machine_len,
                              uint8_t *registers, size_t registers_len,
                              uint8_t *marks, size_t marks_len);

/* report: three numbers of 64 bits, low byte first, at the bytes below: the runs kept, the runs announced, and the place of the fault as
 * bodlarina_image_read names it, or image_len if there is none. */
#define BODLARINA_REPORT_BYTES 24
#define BODLARINA_REPORT_KEPT_AT 0
#define BODLARINA_REPORT_ANNOUNCED_AT 8
#define BODLARINA_REPORT_PLACE_AT 16

/* Salvages an image that was cut short or damaged: keeps its header, up to and with the number of runs, and every run whose last byte lies before
 * the place of the fault. Writes a fresh image of these, with their number, to the front of room, leaves the bytes past it, and writes the
 * report. Its length is in bits 63..16 and never above image_len, so as much room is enough. In its machine the bytes of other runs are unmarked.
 * An image without fault comes out as it is; of one that is only cut short, what is kept is as in the machine whose image it was.
 * Answers: 0; 8 if report_len is not BODLARINA_REPORT_BYTES; then 15 if the header is at fault or cut short; then 14 if the fresh image is longer
 * than room_len. With 15 and 14 the place of the fault, or image_len, is in bits 63..16; both counts are 0, and no report is written. */
uint64_t bodlarina_image_salvage(const uint8_t *image, size_t image_len,
                                 uint8_t *room, size_t room_len,
                                 uint8_t *report, size_t report_len);

/* MLEN of the machine whose image starts like this, which gives the lengths of registers and marks; 0 if no image does, or too few bytes
 * are there to tell. It may be as large as BODLARINA_MLEN_MOST: a host whose buffers are shorter than that compares it with what they
 * hold before it lends them. */
BODLARINA_INLINE uint64_t bodlarina_image_mlen(const uint8_t *image, size_t image_len)
{
    unsigned version = image_len == 0 ? 0u : image[0], at = version < 3 ? version : 3u, elen = 5, rlen, mlen; /* the last three: exponents */
    if (version < 1 || version > 4 || image_len < at + 2u) /* RLEN and MLEN stand behind what belongs to the version */
        return 0;
    if (version == 2 && image[1] != BODLARINA_HALVING)
        return 0;
    if (version >= 3) {
        elen = image[2];
        if (image[1] > BODLARINA_HALVING || elen < 5 || elen > 6)
            return 0;
    }
    rlen = image[at];
    mlen = image[at + 1];
    if (rlen <= elen || mlen <= rlen || rlen > (version >= 3 ? 12u : 9u) || mlen > (version >= 3 ? 16u : 12u))
        return 0;
    if (version == 3 && elen == 5 && rlen <= 9 && mlen <= 12) /* a machine that a lower version holds */
        return 0;
    return (uint64_t)1 << mlen;
}

/* ---- Lines of assembler text ------------------------------------------------------------------------------ */

/* Every word that some machine accepts has exactly one line: the draft's mnemonic, one space, and the operands with a comma and a space
 * between them, as in
 *     mlae8.m tr0, (x10), x11
 *     memulc.mi acc1, acc0, -16
 * registers as x0 to x31, tr0 to tr7, acc0 and acc1, v0 to v31; numbers in decimal, without leading zeros; the immediate of memulc.mi and
 * its kin from -16 to 15, those of settings from 0 to 8191. A line is accepted exactly if some word prints it, and reading it gives that
 * word back. No line feed belongs to it. */

/* No line is longer. */
#define BODLARINA_TEXT_BYTES_MOST 32

/* Writes the line of a word to the front of text, and leaves the bytes past it; no zero byte follows it. Its length is in bits 63..16.
 * Answers: 0; 10, 11, 1 or 12 for a word without a line, as bodlarina_step gives for it; then 14 if the line is longer than text_len. */
uint64_t bodlarina_word_text(uint32_t word, uint8_t *text, size_t text_len);

/* Writes the word of a line to the word block of 8 bytes, a number of 64 bits, low byte first: bodlarina_get64(word).
 * Answers: 0; 8 for a block of another length; then 17 with the column in bits 63..16 if it is no line. */
#define BODLARINA_WORD_BYTES 8
uint64_t bodlarina_text_word(const uint8_t *text, size_t text_len, uint8_t *word, size_t word_len);

/* ---- The same in short ------------------------------------------------------------------------------------ */

/* The buffers of a machine, the rule and the ELEN to start it with, and the group size of moves, set once. Lengths are in bytes. run is
 * for one product run at a time; a host without runs leaves it out, and one without moves the vectors. An elen of 0 counts as 32 and a
 * group of 0 as 1, so that a host which names none has a machine of 32 bits; bodlarina_start and bodlarina_step answer 0 with 8.
 *
 *     static uint8_t machine[BODLARINA_MACHINE_BYTES], registers[BODLARINA_REGISTER_BYTES(4096)], ..;
 *     struct bodlarina_bench bench = {machine, sizeof machine, registers, sizeof registers, ..};
 *     result = bodlarina_bench_start(&bench, 512, 4096, 0, 0);
 *     result = bodlarina_bench_step(&bench, bodlarina_msettypei(0, BODLARINA_E8));
 */
struct bodlarina_bench {
    uint8_t *machine;
    size_t machine_len;
    uint8_t *registers;
    size_t registers_len;
    uint8_t *marks;
    size_t marks_len;
    uint8_t *scalars;
    size_t scalars_len;
    uint8_t *memory;
    size_t memory_len;
    uint8_t *run;
    size_t run_len;
    uint64_t rule; /* BODLARINA_SMALLER, 0, unless it is set */
    uint64_t elen; /* 32, unless it is set: 0 counts as 32 */
    uint8_t *vectors; /* NULL, unless they are set: then moves get 8, and every other word is carried out */
    size_t vectors_len;
    uint64_t group; /* 1, unless it is set: 0 counts as 1 */
};

/* Where a matrix lies, and what is to be multiplied: the numbers of bodlarina_run_start. */
struct bodlarina_matrix {
    uint64_t address;
    int64_t stride;
};

struct bodlarina_plan {
    uint64_t sew, factor;
    uint64_t m, k, n;
    struct bodlarina_matrix a, b, c;
    uint64_t kind; /* BODLARINA_PRODUCT, 0, unless it is set */
};

/* With as many sealed ranges as seals has, two numbers each; below with one, which counts if its length is 0 too. */
BODLARINA_INLINE uint64_t bodlarina_bench_start_sealed(const struct bodlarina_bench *bench, uint64_t rlen, uint64_t mlen,
                                                       const uint64_t *seals, size_t seals_len)
{
    return bodlarina_start(rlen, mlen, bench->elen == 0 ? 32 : bench->elen, bench->rule, seals, seals_len, bench->machine,
                           bench->machine_len, bench->registers, bench->registers_len, bench->marks, bench->marks_len);
}

BODLARINA_INLINE uint64_t bodlarina_bench_start(const struct bodlarina_bench *bench, uint64_t rlen, uint64_t mlen,
                                                uint64_t seal_start, uint64_t seal_length)
{
    uint64_t seal[2];
    seal[0] = seal_start;
    seal[1] = seal_length;
    return bodlarina_bench_start_sealed(bench, rlen, mlen, seal, 2);
}

BODLARINA_INLINE uint64_t bodlarina_bench_seal(const struct bodlarina_bench *bench, uint64_t start, uint64_t length)
{
    return bodlarina_seal(start, length, bench->machine, bench->machine_len, bench->registers, bench->registers_len, bench->marks,
                          bench->marks_len);
}

BODLARINA_INLINE uint64_t bodlarina_bench_step(const struct bodlarina_bench *bench, uint32_t word)
{
    uint8_t none[BODLARINA_VECTOR_BYTES]; /* lent to words that do not touch it, where the host has no vector registers */
    uint64_t group = bench->group == 0 ? 1 : bench->group;
    uint8_t *vectors = bench->vectors;
    size_t vectors_len = bench->vectors_len;
    if (vectors == NULL) {
        vectors = none;
        vectors_len = BODLARINA_IS_MOVE(word) ? 0 : sizeof none;
    }
    return bodlarina_step(word, group, bench->machine, bench->machine_len, bench->registers, bench->registers_len, bench->marks,
                          bench->marks_len, bench->scalars, bench->scalars_len, bench->memory, bench->memory_len, vectors, vectors_len);
}

/* A scalar, x0 to x31, as a word reads it, and one set; x0 stays 0. Where scalars_len is not BODLARINA_SCALAR_BYTES each is 0, and none is set. */
BODLARINA_INLINE uint64_t bodlarina_bench_scalar(const struct bodlarina_bench *bench, unsigned slot)
{
    if (slot % 32 == 0 || bench->scalars_len != BODLARINA_SCALAR_BYTES)
        return 0;
    return bodlarina_get64(bench->scalars + BODLARINA_SCALAR_AT(slot % 32));
}

BODLARINA_INLINE void bodlarina_bench_set_scalar(const struct bodlarina_bench *bench, unsigned slot, uint64_t value)
{
    if (slot % 32 != 0 && bench->scalars_len == BODLARINA_SCALAR_BYTES)
        bodlarina_put64(bench->scalars + BODLARINA_SCALAR_AT(slot % 32), value);
}

BODLARINA_INLINE uint64_t bodlarina_bench_run_start(const struct bodlarina_bench *bench, const struct bodlarina_plan *plan)
{
    return bodlarina_run_start(plan->kind, plan->sew, plan->factor, plan->m, plan->k, plan->n, plan->a.address,
                               plan->a.stride, plan->b.address, plan->b.stride, plan->c.address, plan->c.stride, bench->machine,
                               bench->machine_len, bench->registers, bench->registers_len, bench->marks, bench->marks_len,
                               bench->memory, bench->memory_len, bench->run, bench->run_len);
}

BODLARINA_INLINE uint64_t bodlarina_bench_run_next(const struct bodlarina_bench *bench, uint8_t *handed, size_t handed_len)
{
    return bodlarina_run_next(bench->run, bench->run_len, handed, handed_len);
}

BODLARINA_INLINE uint64_t bodlarina_bench_run_steps(const struct bodlarina_bench *bench)
{
    return bodlarina_run_steps(bench->run, bench->run_len);
}

BODLARINA_INLINE int bodlarina_bench_run_is_over(const struct bodlarina_bench *bench)
{
    return bodlarina_run_is_over(bench->run, bench->run_len);
}

BODLARINA_INLINE uint64_t bodlarina_bench_run_turn(const struct bodlarina_bench *bench)
{
    return bodlarina_run_turn(bench->run, bench->run_len, bench->machine, bench->machine_len, bench->registers,
                              bench->registers_len, bench->marks, bench->marks_len, bench->memory, bench->memory_len);
}

BODLARINA_INLINE uint64_t bodlarina_bench_run_turns(const struct bodlarina_bench *bench, uint64_t turns)
{
    return bodlarina_run_turns(turns, bench->run, bench->run_len, bench->machine, bench->machine_len, bench->registers,
                               bench->registers_len, bench->marks, bench->marks_len, bench->memory, bench->memory_len);
}

/* A whole run in one call; on 0 its number of steps is in *steps, else *steps stays. */
BODLARINA_INLINE uint64_t bodlarina_bench_run(const struct bodlarina_bench *bench, const struct bodlarina_plan *plan,
                                              uint64_t *steps)
{
    uint8_t count[BODLARINA_STEPS_BYTES];
    uint64_t result = bodlarina_run(plan->kind, plan->sew, plan->factor, plan->m, plan->k, plan->n, plan->a.address,
                                    plan->a.stride, plan->b.address, plan->b.stride, plan->c.address, plan->c.stride, bench->machine,
                                    bench->machine_len, bench->registers, bench->registers_len, bench->marks,
                                    bench->marks_len, bench->memory, bench->memory_len, count, sizeof count);
    if (result == 0)
        *steps = bodlarina_get64(count);
    return result;
}

BODLARINA_INLINE uint64_t bodlarina_bench_image_size(const struct bodlarina_bench *bench)
{
    return bodlarina_image_size(bench->machine, bench->machine_len, bench->registers, bench->registers_len, bench->marks,
                                bench->marks_len);
}

BODLARINA_INLINE uint64_t bodlarina_bench_image_write(const struct bodlarina_bench *bench, uint8_t *image, size_t image_len)
{
    return bodlarina_image_write(bench->machine, bench->machine_len, bench->registers, bench->registers_len, bench->marks,
                                 bench->marks_len, image, image_len);
}

BODLARINA_INLINE uint64_t bodlarina_bench_image_read(const struct bodlarina_bench *bench, const uint8_t *image, size_t image_len)
{
    return bodlarina_image_read(image, image_len, bench->machine, bench->machine_len, bench->registers, bench->registers_len,
                                bench->marks, bench->marks_len);
}

#ifdef __cplusplus
}
#endif

#endif
