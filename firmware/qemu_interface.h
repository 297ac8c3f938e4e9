/* The part of QEMU's interface for plugins (qemu-plugin.h, version 1) that is used here; no Debian package has that header. */
#ifndef QEMU_INTERFACE_H
#define QEMU_INTERFACE_H

#include <stddef.h>
#include <stdint.h>

#define QEMU_INTERFACE_VERSION 1

#define EXPORTED __attribute__((visibility("default")))

typedef uint64_t qemu_plugin_id_t;
typedef uint32_t qemu_plugin_meminfo_t;
struct qemu_info_t;
struct qemu_plugin_tb;
struct qemu_plugin_insn;

/* What a callback may do with registers: nothing. Which accesses it is for. */
enum { NO_REGISTERS = 0 };
enum { STORES_ONLY = 2 };

typedef void (*qemu_translated)(qemu_plugin_id_t, struct qemu_plugin_tb *);
typedef void (*qemu_executed)(unsigned cpu, void *data);
typedef void (*qemu_accessed)(unsigned cpu, qemu_plugin_meminfo_t, uint64_t address, void *data);
typedef void (*qemu_called)(qemu_plugin_id_t, unsigned cpu, int64_t number, uint64_t, uint64_t, uint64_t, uint64_t, uint64_t, uint64_t, uint64_t,
                            uint64_t);
typedef void (*qemu_returned)(qemu_plugin_id_t, unsigned cpu, int64_t number, int64_t result);

extern EXPORTED int qemu_plugin_version;
EXPORTED int qemu_plugin_install(qemu_plugin_id_t id, const struct qemu_info_t *info, int count, char **arguments);

void qemu_plugin_register_vcpu_tb_trans_cb(qemu_plugin_id_t, qemu_translated);
void qemu_plugin_register_vcpu_insn_exec_cb(struct qemu_plugin_insn *, qemu_executed, int flags, void *data);
void qemu_plugin_register_vcpu_mem_cb(struct qemu_plugin_insn *, qemu_accessed, int flags, int accesses, void *data);
void qemu_plugin_register_vcpu_syscall_cb(qemu_plugin_id_t, qemu_called);
void qemu_plugin_register_vcpu_syscall_ret_cb(qemu_plugin_id_t, qemu_returned);
void qemu_plugin_register_atexit_cb(qemu_plugin_id_t, void (*)(qemu_plugin_id_t, void *), void *data);
size_t qemu_plugin_tb_n_insns(const struct qemu_plugin_tb *);
struct qemu_plugin_insn *qemu_plugin_tb_get_insn(const struct qemu_plugin_tb *, size_t);
const void *qemu_plugin_insn_data(const struct qemu_plugin_insn *);
size_t qemu_plugin_insn_size(const struct qemu_plugin_insn *);
uint64_t qemu_plugin_insn_vaddr(const struct qemu_plugin_insn *);
char *qemu_plugin_insn_disas(const struct qemu_plugin_insn *); /* to be freed */
unsigned qemu_plugin_mem_size_shift(qemu_plugin_meminfo_t);

/* Not of that interface, so it may be missing: what QEMU knows of a page in user mode. */
int page_get_flags(uint64_t address) __attribute__((weak));
enum { PAGE_WRITABLE_BY_GUEST = 0x10 };

#endif
