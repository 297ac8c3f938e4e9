/* User mode, a Linux program: a word is an illegal instruction, and so a SIGILL. The handler that the tool has put into the program (handler.S)
 * hands its ucontext over by a system call; the word is carried out here, and rd and pc are written into the ucontext. */
#define _GNU_SOURCE
#include <fcntl.h>
#include <limits.h>
#include <stdlib.h>
#include <string.h>
#include <sys/uio.h>
#include <unistd.h>

#include "plugin.h"

/* Numbers of system calls, and of SIGILL. */
enum { RT_SIGACTION = 134, RT_SIGPROCMASK = 135, CARRY_OUT = 0xb0d1 };
enum { SIGILL_NUMBER = 4, SIGILL_BIT = 8, SIG_UNBLOCK_HOW = 1 };

/* struct ucontext of riscv64: uc_link, and where pc and x1 .. x31 stand. */
enum { UC_LINK_AT = 8, UC_PC_AT = 176, UC_X1_AT = 184 };

/* struct sigaction of riscv64. */
struct signal_action {
    uint64_t handler, flags, mask;
};

static struct signal_action ours, programs; /* for SIGILL; the program's own is kept, and called for what is none of the unit's words */

/* What was changed in the arguments of a system call, to be put back behind it. */
static __thread struct {
    uint64_t mask_at, mask;
    uint64_t action_at, old_at;
    struct signal_action action;
    int sets;
} call;

/* ---- guest memory; a system call tells what is not mapped, where a plain access would be a fault of QEMU ---- */

static int user_read(uint64_t address, void *to, size_t bytes)
{
    struct iovec here = {to, bytes}, there = {guest.memory + address, bytes};
    return process_vm_readv(getpid(), &here, 1, &there, 1, 0) == (ssize_t)bytes;
}

/* Writes where the program itself may not, as on a constant; it is put back. */
static int force_write(uint64_t address, const void *from, size_t bytes)
{
    int memory = open("/proc/self/mem", O_WRONLY | O_CLOEXEC), done;
    if (memory < 0)
        return 0;
    done = pwrite(memory, from, bytes, (off_t)(uintptr_t)(guest.memory + address)) == (ssize_t)bytes;
    close(memory);
    return done;
}

/* QEMU takes the right to write from a page whose code it has translated, and gives it back at the fault of a plain store. That the program
 * may write there only QEMU knows. */
static int pages_writable(const struct rows *rows)
{
    size_t i;
    uint64_t page, row = rows->address;
    if (page_get_flags == NULL)
        return 0;
    for (i = 0; i < rows->count; i++, row += rows->stride)
        for (page = row & ~(uint64_t)4095; page < row + rows->bytes; page += 4096)
            if ((page_get_flags(page) & PAGE_WRITABLE_BY_GUEST) == 0)
                return 0;
    return 1;
}

/* Each row is read, and of a store written back as it was. */
static int user_reach(const struct rows *rows)
{
    static __thread uint8_t room[TILE_BYTES_MOST];
    static __thread struct iovec here[TILE_ROWS_MOST], there[TILE_ROWS_MOST];
    size_t i, all = rows->count * rows->bytes;
    for (i = 0; i < rows->count; i++) {
        here[i].iov_base = room + i * rows->bytes;
        there[i].iov_base = guest.memory + (rows->address + i * rows->stride);
        here[i].iov_len = there[i].iov_len = rows->bytes;
    }
    if (process_vm_readv(getpid(), here, rows->count, there, rows->count, 0) != (ssize_t)all)
        return 0;
    return !rows->store || process_vm_writev(getpid(), here, rows->count, there, rows->count, 0) == (ssize_t)all || pages_writable(rows);
}

/* ---- the word at which SIGILL was raised ---- */

/* An instruction that is about to raise SIGILL, and how often it has since the handler was last entered. */
static __thread struct {
    uint64_t pc;
    unsigned times;
} raised;

#define RAISED_MOST 1000

/* QEMU (7.2) tries an instruction whose signal finds no stack again and again. */
static void at_illegal(unsigned cpu, void *pc)
{
    (void)cpu;
    raised.times = raised.pc == (uint64_t)(uintptr_t)pc ? raised.times + 1 : 0;
    raised.pc = (uint64_t)(uintptr_t)pc;
    if (raised.times == RAISED_MOST)
        line_tell_trouble(NO_STACK, raised.pc);
}

/* An access to a csr of machine mode, as a program for bare metal has it, or a write to one that is only read, as unimp is. */
static int is_illegal_access(uint32_t bits)
{
    int writes = (bits >> 12 & 3) == 1 || (bits >> 15 & 31) != 0;
    return (bits & 0x7f) == 0x73 && (bits >> 12 & 3) != 0 && ((bits >> 28 & 3) == 3 || (bits >> 30 == 3 && writes));
}

/* What QEMU's disassembler has no name for; it (7.2) has none for vector instructions either, which QEMU may carry out. */
static int is_nameless(const struct qemu_plugin_insn *instruction)
{
    uint32_t opcode = instruction_bits(instruction) & 0x7f;
    char *text = opcode == 0x57 || opcode == 0x07 || opcode == 0x27 ? NULL : qemu_plugin_insn_disas(instruction);
    int nameless = text != NULL && strstr(text, "illegal") != NULL;
    free(text);
    return nameless;
}

/* An instruction that raises SIGILL is the last of its block. */
static int is_illegal(const struct qemu_plugin_insn *instruction, int last)
{
    uint32_t bits = instruction_bits(instruction);
    return is_matrix_word(bits) || is_illegal_access(bits) || (last && is_nameless(instruction));
}

static void carry_out(uint64_t ucontext)
{
    uint8_t *context = guest.memory + ucontext, scalars[BODLARINA_SCALAR_BYTES] = {0};
    uint64_t pc = bodlarina_get64(context + UC_PC_AT);
    uint32_t word;
    raised.pc = 0;
    memcpy(&word, guest.memory + pc, sizeof word);
    if (!is_matrix_word(word)) {
        bodlarina_put64(context + UC_LINK_AT, programs.handler > 1 ? programs.handler : 1);
        return;
    }
    memcpy(scalars + 8, context + UC_X1_AT, sizeof scalars - 8);
    unit_carry_out(pc, word, scalars);
    memcpy(context + UC_X1_AT, scalars + 8, sizeof scalars - 8);
    bodlarina_put64(context + UC_PC_AT, pc + 4);
}

/* ---- SIGILL stays the handler's: a program that handles or blocks it does so only for what is none of the unit's words ---- */

/* The tool's own two calls come first; then the descriptors that kept low numbers free for the program are closed. */
static void take_handler(uint64_t at)
{
    int i;
    if (!user_read(at, &ours, sizeof ours))
        give_up("the handler of SIGILL was not put into the program");
    for (i = 0; i < (int)sizeof shared->fillers; i++)
        if (shared->fillers[i] != 0)
            close(i);
}

static void before_sigaction(uint64_t action_at, uint64_t old_at)
{
    if (ours.handler == 0)
        take_handler(action_at);
    if ((action_at & ~(uint64_t)4095) == ours.handler) /* the tool's call, or the handler's */
        return;
    call.old_at = old_at;
    call.sets = action_at != 0 && user_read(action_at, &call.action, sizeof call.action);
    if (!call.sets)
        return;
    call.action_at = action_at;
    force_write(action_at, &ours, sizeof ours);
}

static void after_sigaction(int64_t result)
{
    struct signal_action old = programs;
    if (call.sets) {
        force_write(call.action_at, &call.action, sizeof call.action);
        if (result == 0)
            programs = call.action;
    }
    if (call.old_at != 0 && result == 0)
        force_write(call.old_at, &old, sizeof old);
    call.sets = 0;
    call.old_at = 0;
}

/* A blocked SIGILL would end the program at its next word. */
static void before_sigprocmask(uint64_t how, uint64_t mask_at, uint64_t old_at)
{
    uint64_t open_mask;
    if (mask_at == 0 || how == SIG_UNBLOCK_HOW || !user_read(mask_at, &call.mask, sizeof call.mask) || (call.mask & SIGILL_BIT) == 0)
        return;
    open_mask = call.mask & ~(uint64_t)SIGILL_BIT;
    if (force_write(mask_at, &open_mask, sizeof open_mask) && mask_at != old_at)
        call.mask_at = mask_at;
}

static void before_call(qemu_plugin_id_t id, unsigned cpu, int64_t number, uint64_t a0, uint64_t a1, uint64_t a2, uint64_t a3, uint64_t a4,
                        uint64_t a5, uint64_t a6, uint64_t a7)
{
    (void)id, (void)cpu, (void)a4, (void)a5, (void)a6, (void)a7;
    if (number == CARRY_OUT && a3 == ours.handler && ours.handler != 0)
        carry_out(a0);
    else if (number == RT_SIGACTION && a0 == SIGILL_NUMBER)
        before_sigaction(a1, a2);
    else if (number == RT_SIGPROCMASK)
        before_sigprocmask(a0, a1, a2);
}

static void after_call(qemu_plugin_id_t id, unsigned cpu, int64_t number, int64_t result)
{
    (void)id, (void)cpu;
    if (number == RT_SIGACTION)
        after_sigaction(result);
    if (number == RT_SIGPROCMASK && call.mask_at != 0) {
        force_write(call.mask_at, &call.mask, sizeof call.mask);
        call.mask_at = 0;
    }
}

static void translated(qemu_plugin_id_t id, struct qemu_plugin_tb *block)
{
    size_t i, count = qemu_plugin_tb_n_insns(block);
    (void)id;
    if (!begun())
        return;
    for (i = 0; i < count; i++) {
        struct qemu_plugin_insn *instruction = qemu_plugin_tb_get_insn(block, i);
        if (is_illegal(instruction, i + 1 == count))
            qemu_plugin_register_vcpu_insn_exec_cb(instruction, at_illegal, NO_REGISTERS, (void *)(uintptr_t)qemu_plugin_insn_vaddr(instruction));
        seals_watch(instruction);
    }
}

void user_install(qemu_plugin_id_t id)
{
    guest.memory = (uint8_t *)(uintptr_t)shared->base;
    guest.bytes = (uint64_t)1 << 46;
    guest.read = user_read;
    guest.reach = user_reach;
    qemu_plugin_register_vcpu_tb_trans_cb(id, translated);
    qemu_plugin_register_vcpu_syscall_cb(id, before_call);
    qemu_plugin_register_vcpu_syscall_ret_cb(id, after_call);
}
