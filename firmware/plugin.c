/* The plugin: what QEMU loads. Its arguments are two or three descriptors: memory=N, what it shares with the tool; line=N; ram=N, bare metal. */
#define _GNU_SOURCE
#include "plugin.h"

#include <stdio.h>
#include <stdlib.h>
#include <string.h>
#include <sys/mman.h>
#include <unistd.h>

EXPORTED int qemu_plugin_version = QEMU_INTERFACE_VERSION;

struct shared *shared;

void give_up(const char *sentence)
{
    fprintf(stderr, "bodlarina-firmware: %s\n", sentence);
    _exit(125);
}

int begun(void)
{
    static int is_begun;
    if (!is_begun && shared->ready) {
        is_begun = 1;
        seals_start();
        unit_first();
    }
    return is_begun;
}

uint32_t instruction_bits(const struct qemu_plugin_insn *instruction)
{
    uint32_t bits = 0;
    size_t size = qemu_plugin_insn_size(instruction);
    memcpy(&bits, qemu_plugin_insn_data(instruction), size < sizeof bits ? size : sizeof bits);
    return bits;
}

/* The number of the argument NAME=NUMBER, or -1. */
static int argument(int count, char **arguments, const char *name)
{
    size_t length = strlen(name);
    int i;
    for (i = 0; i < count; i++)
        if (strncmp(arguments[i], name, length) == 0 && arguments[i][length] == '=')
            return atoi(arguments[i] + length + 1);
    return -1;
}

/* A sealed byte that nobody has found changed until now. */
static void at_exit(qemu_plugin_id_t id, void *data)
{
    struct report report;
    (void)id;
    (void)data;
    memset(&report, 0, sizeof report);
    report.told = CHANGED_BY_END;
    if (seals_changed(&report.address))
        line_tell(&report, &shared->first);
}

EXPORTED int qemu_plugin_install(qemu_plugin_id_t id, const struct qemu_info_t *info, int count, char **arguments)
{
    int memory = argument(count, arguments, "memory");
    (void)info;
    shared = mmap(NULL, sizeof *shared, PROT_READ | PROT_WRITE, MAP_SHARED, memory, 0);
    if (shared == MAP_FAILED || shared->size != sizeof *shared || bodlarina_version() != BODLARINA_VERSION_NUMBER)
        give_up("the plugin is not of the version of bodlarina-firmware");
    close(memory);
    line_open(argument(count, arguments, "line"));
    if (shared->bare)
        bare_install(id, argument(count, arguments, "ram"));
    else
        user_install(id);
    qemu_plugin_register_atexit_cb(id, at_exit, NULL);
    shared->installed = 1;
    return 0;
}
