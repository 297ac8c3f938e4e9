#define _GNU_SOURCE
#include <stdlib.h>
#include <string.h>

#include "plugin.h"

/* A sealed range, and what it held then; NULL where that could not be read yet. */
struct sealed {
    struct range range;
    uint8_t *kept;
};

static struct sealed sealed[BODLARINA_SEALS_MOST];
static size_t count;
static pthread_mutex_t adding = PTHREAD_MUTEX_INITIALIZER;

/* Functions of shared->afters that this thread has entered, a bit each. */
static __thread uint32_t entered;

size_t seals_count(void) { return __atomic_load_n(&count, __ATOMIC_ACQUIRE); }

struct range seals_at(size_t i) { return sealed[i].range; }

/* ---- sealing ---- */

static uint8_t *keep(struct range range)
{
    uint8_t *kept = malloc(range.length + 1);
    if (kept == NULL)
        give_up("no room for a copy of a sealed range");
    if (guest.read(range.start, kept, range.length))
        return kept;
    free(kept);
    return NULL;
}

static void seal(struct range range)
{
    size_t i = seals_count();
    if (i == BODLARINA_SEALS_MOST)
        give_up(bodlarina_answer_text(BODLARINA_TOO_MANY_SEALS));
    sealed[i].range = range;
    sealed[i].kept = keep(range);
    __atomic_store_n(&count, i + 1, __ATOMIC_RELEASE);
}

void seals_start(void)
{
    size_t i;
    for (i = 0; i < shared->seals_len; i++)
        seal(shared->seals[i]);
}

/* ---- comparing ---- */

/* The first byte of a range that differs from what was kept; 0 if none does, or the bytes are not there to read. */
static int differs(struct sealed *range, uint64_t *address)
{
    uint8_t now[4096];
    size_t at, i, bytes, length = range->range.length;
    if (range->kept == NULL) {
        range->kept = keep(range->range);
        return 0;
    }
    for (at = 0; at < length; at += bytes) {
        bytes = length - at < sizeof now ? length - at : sizeof now;
        if (!guest.read(range->range.start + at, now, bytes))
            return 0;
        if (memcmp(now, range->kept + at, bytes) == 0)
            continue;
        for (i = 0; now[i] == range->kept[at + i]; i++)
            ;
        *address = range->range.start + at + i;
        return 1;
    }
    return 0;
}

int seals_changed(uint64_t *address)
{
    size_t i;
    for (i = 0; i < seals_count(); i++)
        if (differs(&sealed[i], address))
            return 1;
    return 0;
}

/* ---- stores of the CPU ---- */

static void stored(unsigned cpu, qemu_plugin_meminfo_t info, uint64_t address, void *pc)
{
    uint64_t bytes = (uint64_t)1 << qemu_plugin_mem_size_shift(info);
    struct report report;
    size_t i;
    (void)cpu;
    for (i = 0; i < seals_count(); i++) {
        struct range range = sealed[i].range;
        uint64_t first = address > range.start ? address : range.start;
        if (first - address >= bytes || first - range.start >= range.length)
            continue;
        memset(&report, 0, sizeof report);
        report.told = STORED;
        report.pc = (uint64_t)(uintptr_t)pc;
        report.address = first;
        line_tell(&report, unit_device());
    }
}

/* ---- functions after which a range is sealed ---- */

static void returned(struct after *after)
{
    pthread_mutex_lock(&adding);
    if (!after->sealed) {
        seal(after->range);
        after->sealed = 1;
    }
    pthread_mutex_unlock(&adding);
}

static void at_entry(unsigned cpu, void *after)
{
    (void)cpu;
    entered |= 1u << ((struct after *)after - shared->afters);
}

static void at_return(unsigned cpu, void *after)
{
    (void)cpu;
    returned(after);
}

/* Behind a call, which the function may have left by a jump to another one. */
static void behind_call(unsigned cpu, void *after)
{
    (void)cpu;
    if ((entered >> ((struct after *)after - shared->afters) & 1) != 0)
        returned(after);
}

static int is_return(const struct qemu_plugin_insn *instruction)
{
    uint32_t bits = instruction_bits(instruction);
    return qemu_plugin_insn_size(instruction) == 2 ? bits == 0x8082 : bits == 0x00008067;
}

static void watch_function(struct after *after, struct qemu_plugin_insn *instruction, uint64_t address)
{
    uint32_t i;
    if (address == after->function.start)
        qemu_plugin_register_vcpu_insn_exec_cb(instruction, at_entry, NO_REGISTERS, after);
    if (address - after->function.start < after->function.length && is_return(instruction))
        qemu_plugin_register_vcpu_insn_exec_cb(instruction, at_return, NO_REGISTERS, after);
    for (i = 0; i < after->returns_len; i++)
        if (address == after->returns[i])
            qemu_plugin_register_vcpu_insn_exec_cb(instruction, behind_call, NO_REGISTERS, after);
}

void seals_watch(struct qemu_plugin_insn *instruction)
{
    uint64_t address = qemu_plugin_insn_vaddr(instruction);
    uint32_t i;
    if (shared->seals_len + shared->afters_len == 0)
        return;
    for (i = 0; i < shared->afters_len; i++)
        watch_function(&shared->afters[i], instruction, address);
    qemu_plugin_register_vcpu_mem_cb(instruction, stored, NO_REGISTERS, STORES_ONLY, (void *)(uintptr_t)address);
}
