/* A bare-metal program on QEMU's machine virt; its serial port is standard input and output, its test device gives the exit status. */
#define _GNU_SOURCE
#include <unistd.h>

#include "complain.h"
#include "emulator.h"

int start_bare(struct emulator *emulator)
{
    unsigned long bytes = (unsigned long)emulator->shared->ram.length;
    if (emulator->options->program[1] != NULL)
        return complain("%s: a bare-metal program has no arguments", emulator->options->program[1]);
    if (emulator->file->header.e_entry != emulator->shared->ram.start)
        return complain("%s: the machine virt starts at 0x%llx, and the program at 0x%llx: link it with its start in front (a build id may stand there: "
                        "-Wl,--build-id=none)", emulator->options->program[0], (unsigned long long)emulator->shared->ram.start,
                        (unsigned long long)emulator->file->header.e_entry);
    emulator_word(emulator, "-machine");
    emulator_word(emulator, "virt,memory-backend=ram");
    emulator_word(emulator, "-object");
    emulator_word(emulator, "memory-backend-file,id=ram,size=%lu,mem-path=/proc/self/fd/%d,share=on", bytes, emulator->ram);
    emulator_word(emulator, "-m");
    emulator_word(emulator, "%luM", bytes >> 20);
    emulator_word(emulator, "-bios");
    emulator_word(emulator, "none");
    emulator_word(emulator, "-display");
    emulator_word(emulator, "none");
    emulator_word(emulator, "-monitor");
    emulator_word(emulator, "none");
    emulator_word(emulator, "-serial");
    emulator_word(emulator, "stdio");
    emulator_word(emulator, "-no-reboot");
    if (emulator->options->port != 0) {
        emulator_word(emulator, "-S");
        emulator_word(emulator, "-gdb");
        emulator_word(emulator, "tcp:127.0.0.1:%u", emulator->options->port);
    }
    emulator_word(emulator, "-kernel");
    emulator_word(emulator, "%s", emulator->options->program[0]);
    emulator->shared->ready = 1;
    if (emulator->options->port != 0)
        complain("waiting for a debugger: gdb-multiarch %s, then target remote :%u", emulator->options->program[0], emulator->options->port);
    return emulator_start(emulator);
}
