/* Bare metal: a word is an illegal instruction, and so a trap. The trap vector of vector.S is put before the program's own: by a detour from the
 * program's first instruction, and from the one behind each instruction that sets mtvec. It rings a bell, a store on which QEMU calls. */
#define _GNU_SOURCE
#include <string.h>
#include <sys/mman.h>
#include <unistd.h>

#include "guest_code.h"
#include "plugin.h"

/* A detour has a copy of the vector of its own: code that ran already cannot be changed from outside without QEMU running the old one. */
struct copy {
    uint64_t vector, frame;
    uint64_t from; /* the instruction in whose place the detour stands */
    int taken;     /* the program has come there */
};

#define COPIES_MOST 32

static struct copy copies[COPIES_MOST];
static size_t copies_len;

/* Free pages behind the program are looked for from so far above its start on, downwards: for the code of a copy, which jumps have to reach, and for
 * its frame. */
enum { PAGE = 0x1000, CODE_ABOVE = 0xd3000, FRAME_ABOVE = 0x5d3000 };

/* Numbers in the frame, behind x0 .. x31 and mtvec: the instruction that is to be put back, where and which. */
enum { PUT_AT = 264, PUT_WORD = 272 };

/* The matrix word that is about to trap, and how many detours are not taken yet. */
static uint64_t word_at;
static unsigned waiting;

/* ---- memory ---- */

static int in_ram(uint64_t address, uint64_t bytes)
{
    uint64_t offset = address - shared->ram.start;
    return address >= shared->ram.start && offset <= shared->ram.length && bytes <= shared->ram.length - offset;
}

static int bare_read(uint64_t address, void *to, size_t bytes)
{
    if (!in_ram(address, bytes))
        return 0;
    memcpy(to, guest.memory + address, bytes);
    return 1;
}

static int bare_reach(const struct rows *rows)
{
    uint64_t address = rows->address;
    size_t i;
    for (i = 0; i < rows->count; i++, address += rows->stride)
        if (!in_ram(address, rows->bytes))
            return 0;
    return 1;
}

static void put_word(uint64_t address, uint32_t word) { memcpy(guest.memory + address, &word, sizeof word); }

/* ---- copies of the vector ---- */

/* j from one address to another; 0 if that is out of its reach. */
static uint32_t jump(uint64_t from, uint64_t to)
{
    uint64_t offset = to - from;
    if (offset + 0x100000 >= 0x200000)
        return 0;
    return (uint32_t)((offset >> 20 & 1) << 31 | (offset >> 1 & 0x3ff) << 21 | (offset >> 11 & 1) << 20 | (offset >> 12 & 0xff) << 12 | 0x6f);
}

/* Whether bytes are zeros and of no copy. */
static int is_free(uint64_t address, uint64_t bytes)
{
    uint64_t i;
    for (i = 0; i < copies_len; i++)
        if (address - copies[i].frame < PAGE || address - copies[i].vector + bytes < VECTOR_CODE_BYTES + bytes)
            return 0;
    for (i = 0; i < bytes && guest.memory[address + i] == 0; i++)
        ;
    return i == bytes;
}

/* A page behind the program; 0 if there is none. */
static uint64_t find_page(uint64_t above)
{
    uint64_t address = shared->ram.start + above;
    for (; address >= shared->end; address -= PAGE)
        if (is_free(address, PAGE))
            return address;
    return 0;
}

/* Whether jumps from there reach all of a copy at an address, and back. */
static int in_reach(uint64_t from, uint64_t address) { return jump(from, address) != 0 && jump(from, address + VECTOR_CODE_BYTES) != 0; }

static uint64_t find_in_gap(struct range gap, uint64_t from)
{
    uint64_t address = (gap.start + 3) & ~(uint64_t)3;
    for (; address + VECTOR_CODE_BYTES <= gap.start + gap.length; address += 4)
        if (in_reach(from, address) && in_ram(address, VECTOR_CODE_BYTES) && is_free(address, VECTOR_CODE_BYTES))
            return address;
    return 0;
}

/* Room for the code of a copy: a page behind the program, or between its sections; 0 if there is none. */
static uint64_t find_room(uint64_t from)
{
    uint64_t address = find_page(CODE_ABOVE);
    uint32_t i;
    if (address != 0 && in_reach(from, address))
        return address;
    for (i = 0, address = 0; i < shared->gaps_len && address == 0; i++)
        address = find_in_gap(shared->gaps[i], from);
    return address;
}

/* auipc sp and addi sp at an address, which leave that of the frame in sp. */
static void put_frame(uint64_t at, uint64_t frame)
{
    uint64_t offset = frame - at;
    put_word(at, (uint32_t)((offset + 0x800) & 0xfffff000) | 0x117);
    put_word(at + 4, (uint32_t)(offset & 0xfff) << 20 | 0x10113);
}

static void put_copy(const struct copy *copy)
{
    uint64_t vector = copy->vector;
    memcpy(guest.memory + vector + VECTOR_TRAP_AT, vector_code, sizeof vector_code);
    put_word(vector, jump(0, VECTOR_TRAP_AT));
    put_frame(vector + VECTOR_TRAP_AT + 4, copy->frame);
    put_frame(vector + VECTOR_DETOUR_AT + 4, copy->frame);
    put_word(vector + VECTOR_BACK_AT, jump(vector + VECTOR_BACK_AT, copy->from));
    bodlarina_put64(guest.memory + copy->frame + PUT_AT, copy->from);
    memcpy(guest.memory + copy->frame + PUT_WORD, guest.memory + copy->from, sizeof(uint32_t));
}

static void put_detour(uint64_t from)
{
    struct copy *copy = &copies[copies_len];
    uint64_t vector = 0, frame = find_page(FRAME_ABOVE);
    if (in_ram(from, sizeof(uint32_t)) && copies_len < COPIES_MOST)
        vector = find_room(from);
    if (vector == 0 || frame == 0 || vector == frame) {
        line_tell_trouble(NO_PLACE, from);
        return;
    }
    copy->vector = vector;
    copy->frame = frame;
    copy->from = from;
    copies_len++;
    waiting++;
    put_copy(copy);
    put_word(from, jump(from, vector + VECTOR_DETOUR_AT));
}

/* The jumps of a copy to the program's own vector; 0 if that is out of reach. */
static int put_own(const struct copy *copy, uint64_t own)
{
    uint32_t word = jump(copy->vector + VECTOR_OWN_AT, own);
    unsigned i;
    put_word(copy->vector + VECTOR_OWN_AT, word);
    for (i = 1; i < 64; i++)
        put_word(copy->vector + 4 * i, jump(copy->vector, own));
    return word != 0 && jump(copy->vector, own) != 0;
}

/* ---- what happens in the program ---- */

/* The copy whose code an address belongs to. */
static struct copy *copy_at(uint64_t address)
{
    size_t i;
    for (i = 0; i < copies_len; i++)
        if (address - copies[i].vector < VECTOR_CODE_BYTES)
            return &copies[i];
    return NULL;
}

/* The program has set mtvec, or has not yet. What it set may be one of ours, which it has read before. */
static void at_detour(unsigned cpu, qemu_plugin_meminfo_t info, uint64_t address, void *of)
{
    struct copy *copy = of;
    uint64_t mtvec = bodlarina_get64(guest.memory + address);
    (void)cpu, (void)info;
    copy->taken = 1;
    waiting--;
    if (copy_at(mtvec) != NULL)
        return;
    if (mtvec != 0 && !put_own(copy, mtvec & ~(uint64_t)3))
        line_tell_trouble(NO_PLACE, copy->from);
    bodlarina_put64(guest.memory + address, copy->vector | (mtvec & 3));
}

/* A trap: the frame has x1 .. x31. */
static void at_bell(unsigned cpu, qemu_plugin_meminfo_t info, uint64_t address, void *data)
{
    uint8_t *frame = guest.memory + address;
    uint64_t pc = word_at;
    uint32_t word;
    (void)cpu, (void)info, (void)data;
    word_at = 0;
    if (pc == 0 || !bare_read(pc, &word, sizeof word))
        return;
    unit_carry_out(pc, word, frame);
    bodlarina_put64(frame, pc + 4);
}

/* About to set mtvec; the next instruction is the first of a block. */
static void at_mtvec(unsigned cpu, void *next)
{
    uint64_t from = (uint64_t)(uintptr_t)next;
    size_t i;
    (void)cpu;
    for (i = 0; i < copies_len; i++)
        if (!copies[i].taken && copies[i].from == from)
            return;
    put_detour(from);
}

/* A matrix word; its trap comes next. A detour that was not taken stood where code had run before. */
static void at_word(unsigned cpu, void *pc)
{
    (void)cpu;
    word_at = (uint64_t)(uintptr_t)pc;
    if (waiting != 0)
        line_tell_trouble(SET_AGAIN, word_at);
}

/* csrrw and its like on mtvec; with x0 or 0 csrrs and csrrc only read it. */
static int sets_mtvec(uint32_t bits)
{
    unsigned form = bits >> 12 & 3;
    return (bits & 0xfff0007f) == 0x30500073 && form != 0 && (form == 1 || (bits >> 15 & 31) != 0);
}

static void watch(struct qemu_plugin_insn *instruction)
{
    uint64_t address = qemu_plugin_insn_vaddr(instruction);
    uint32_t bits = instruction_bits(instruction);
    struct copy *copy = copy_at(address);
    if (copy != NULL) {
        if (address == copy->vector + VECTOR_BELL_AT)
            qemu_plugin_register_vcpu_mem_cb(instruction, at_bell, NO_REGISTERS, STORES_ONLY, NULL);
        if (address == copy->vector + VECTOR_DETOUR_BELL_AT)
            qemu_plugin_register_vcpu_mem_cb(instruction, at_detour, NO_REGISTERS, STORES_ONLY, copy);
        return;
    }
    if (sets_mtvec(bits))
        qemu_plugin_register_vcpu_insn_exec_cb(instruction, at_mtvec, NO_REGISTERS, (void *)(uintptr_t)(address + 4));
    if (is_matrix_word(bits))
        qemu_plugin_register_vcpu_insn_exec_cb(instruction, at_word, NO_REGISTERS, (void *)(uintptr_t)address);
    seals_watch(instruction);
}

/* Of the code that QEMU runs before the program, the first block comes when the program is loaded. */
static void translated(qemu_plugin_id_t id, struct qemu_plugin_tb *block)
{
    size_t i;
    (void)id;
    if (!begun())
        return;
    if (copies_len == 0)
        put_detour(shared->ram.start);
    for (i = 0; i < qemu_plugin_tb_n_insns(block); i++)
        watch(qemu_plugin_tb_get_insn(block, i));
}

void bare_install(qemu_plugin_id_t id, int ram)
{
    guest.bytes = shared->ram.start + shared->ram.length;
    guest.read = bare_read;
    guest.reach = bare_reach;
    guest.memory = mmap(NULL, guest.bytes, PROT_NONE, MAP_PRIVATE | MAP_ANONYMOUS | MAP_NORESERVE, -1, 0);
    if (guest.memory == MAP_FAILED
        || mmap(guest.memory + shared->ram.start, shared->ram.length, PROT_READ | PROT_WRITE, MAP_SHARED | MAP_FIXED, ram, 0) == MAP_FAILED)
        give_up("the machine's memory is not to be had in QEMU");
    qemu_plugin_register_vcpu_tb_trans_cb(id, translated);
}
