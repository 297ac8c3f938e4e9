/* QEMU as a process of its own, with the plugin in it. */
#ifndef EMULATOR_H
#define EMULATOR_H

#include <termios.h>

#include "elf_file.h"
#include "options.h"
#include "shared.h"

/* Words of QEMU's command line before the program and its arguments. */
#define EMULATOR_WORDS_MOST 32

struct emulator {
    const struct options *options;
    const struct elf_file *file;
    struct shared *shared;
    int memory;          /* what is shared, as a file */
    int line, its_line;  /* our end, and the plugin's */
    int ram;             /* bare metal: the machine's memory as a file, else -1 */
    uint8_t *ram_bytes;  /* mapped */
    uint64_t bias;       /* how far above the addresses of its file the program lies */
    pid_t process;
    int ended;           /* readable when the process has ended */
    struct termios terminal; /* as it was before QEMU had it as a serial port */
    int has_terminal;
    char *words[EMULATOR_WORDS_MOST];
    size_t words_len;
    int no_room; /* for one of them */
};

/* Finds QEMU and the plugin, and makes what is shared; 0, with a sentence, if that can't be. */
int emulator_prepare(struct emulator *emulator, const struct options *options, const struct elf_file *file, int bare);

/* Adds words to QEMU's command line. */
void emulator_word(struct emulator *emulator, const char *format, ...) __attribute__((format(printf, 2, 3)));

/* Starts QEMU with these words, the plugin, and the program (bare metal: with its file as the kernel). */
int emulator_start(struct emulator *emulator);

/* Whether QEMU, which has ended, had taken the plugin; 0, with a sentence, if not. */
int emulator_took_plugin(const struct emulator *emulator);

/* Ends QEMU, and waits for it. */
void emulator_kill(struct emulator *emulator);

/* The exit status of QEMU, which has ended: of a signal, and of ^C on bare metal, 128 and its number. */
int emulator_status(struct emulator *emulator);

/* Gives the terminal back as it was, and everything else. */
void emulator_close(struct emulator *emulator);

/* Reads guest memory. */
int emulator_read(void *emulator, uint64_t address, uint64_t *value);

/* user_mode.c, bare_mode.c: start the program; 0, with a sentence, if that can't be. */
int start_user(struct emulator *emulator);
int start_bare(struct emulator *emulator);

#endif
