/* bodlarina-firmware: runs a RISC-V program under QEMU, its matrix words carried out by the library. See man/bodlarina-firmware.1. */
#define _GNU_SOURCE
#include <errno.h>
#include <poll.h>
#include <signal.h>
#include <stdio.h>
#include <stdlib.h>
#include <string.h>
#include <unistd.h>

#include "complain.h"
#include "emulator.h"
#include "files.h"
#include "picture.h"
#include "seal_ranges.h"
#include "told.h"

/* One byte from the plugin: there is a report. The exit status if the run ends with it, else -1; *open becomes 0 when nobody can tell any more. */
static int take_report(struct emulator *emulator, struct places *places, int *open)
{
    char byte;
    int status;
    *open = read(emulator->line, &byte, 1) == 1;
    if (!*open)
        return -1;
    status = write_report(emulator, places);
    if (status < 0)
        return write_all(emulator->line, (const uint8_t *)&byte, 1) ? -1 : STATUS_TROUBLE;
    if (emulator->shared->report.process != emulator->process)
        kill(emulator->shared->report.process, SIGKILL); /* a process that the program has forked */
    return status;
}

/* Reports until one ends the run, or QEMU has ended. */
static int attend(struct emulator *emulator, struct places *places, int *is_told)
{
    struct pollfd waits[2];
    int status = -1, open = 1;
    memset(waits, 0, sizeof waits);
    waits[1].fd = emulator->ended;
    waits[0].events = waits[1].events = POLLIN;
    *is_told = 1;
    while (status < 0) {
        waits[0].fd = open ? emulator->line : -1;
        if (poll(waits, 2, -1) < 0) {
            if (errno == EINTR)
                continue;
            complain("QEMU cannot be waited for: %s", strerror(errno));
            return STATUS_TROUBLE;
        }
        if (waits[0].revents != 0)
            status = take_report(emulator, places, &open);
        else if (waits[1].revents != 0) {
            *is_told = 0;
            return emulator_status(emulator);
        }
    }
    return status;
}

/* The picture and the image of a unit. Its memory was QEMU's; drawn is that of the program's file. */
static int write_unit(const struct emulator *emulator, const struct device *unit)
{
    static struct device device;
    const struct options *options = emulator->options;
    uint8_t *image;
    size_t length;
    int written = 1;
    device = *unit;
    device.memory = NULL;
    device.memory_bytes = emulator->shared->end + emulator->bias;
    if (!device.started)
        return complain("the unit was not started, so there is nothing to write of it");
    if (options->marks != NULL && !write_picture(&device, options->marks))
        written = complain("%s: the picture cannot be written: %s", options->marks, strerror(errno));
    if (options->save == NULL)
        return written;
    image = device_image(&device, &length);
    if (image == NULL || !write_file(options->save, image, length))
        written = complain("%s: the image cannot be written: %s", options->save, image == NULL ? "no image can be made" : strerror(errno));
    free(image);
    return written;
}

static void say_unsealed(const struct emulator *emulator)
{
    const struct options *options = emulator->options;
    size_t i, after = 0;
    for (i = 0; i < options->seals_len; i++)
        if (options->seals[i].function != NULL && !emulator->shared->afters[after++].sealed)
            complain("%s never returned, so %s was not sealed", options->seals[i].function, options->seals[i].symbol);
}

/* What is asked for when the run has ended, told or not. */
static int end_run(struct emulator *emulator, int status, int is_told)
{
    const struct options *options = emulator->options;
    const struct device *unit = is_told ? &emulator->shared->device : &emulator->shared->first;
    if (!emulator_took_plugin(emulator))
        return STATUS_TROUBLE;
    if (!is_told)
        say_unsealed(emulator);
    if ((options->marks != NULL || options->save != NULL) && !write_unit(emulator, unit))
        return STATUS_TROUBLE;
    if (is_told || !ferror(stdout))
        return status;
    complain("the trace cannot be written");
    return STATUS_TROUBLE;
}

/* Standard output is the program's: what is printed from here on goes to standard error. */
static int run(struct emulator *emulator)
{
    struct places places;
    int status, is_told;
    if (!(emulator->shared->bare ? start_bare(emulator) : start_user(emulator)) || dup2(STDERR_FILENO, STDOUT_FILENO) < 0)
        return STATUS_TROUBLE;
    places_open(&places, emulator->file, emulator->bias, emulator_read, emulator);
    status = attend(emulator, &places, &is_told);
    emulator_kill(emulator);
    places_close(&places);
    return end_run(emulator, status, is_told);
}

static int run_program(const struct options *options, const struct elf_file *file)
{
    static struct emulator emulator;
    int status = STATUS_TROUBLE, bare = options->mode == BARE || (options->mode == BY_HEADER && elf_file_is_bare(file));
    if (options->port != 0 && !bare)
        complain("--gdb is for bare metal; a Linux program is debugged with bodlarina-gdb.py");
    else if (emulator_prepare(&emulator, options, file, bare) && seal_ranges(options, file, 0, emulator.shared))
        status = run(&emulator);
    emulator_close(&emulator);
    return status;
}

static int run_file(const struct options *options)
{
    struct elf_file file;
    int status = elf_file_open(&file, options->program[0]) ? run_program(options, &file) : STATUS_TROUBLE;
    elf_file_close(&file);
    return status;
}

/* Libraries read the program's file, which is mapped: where it is cut short meanwhile, the rest is a fault, and without room they fault, abort or
 * end the tool themselves. That is told too. QEMU ends with the tool. */
static void __attribute__((noreturn)) tell_fault(int number)
{
    static const char sentence[] = "\nbodlarina-firmware: the program's file cannot be read on: it was changed meanwhile, or there is no room\n";
    (void)number;
    write_all(STDERR_FILENO, (const uint8_t *)sentence, sizeof sentence - 1);
    _exit(STATUS_TROUBLE);
}

static int is_ended;

static void tell_early_end(void)
{
    if (is_ended)
        return;
    fflush(stdout);
    tell_fault(0);
}

int main(int count, char **words)
{
    struct options options;
    int status;
    hold_standard_files();
    signal(SIGBUS, tell_fault);
    signal(SIGSEGV, tell_fault);
    signal(SIGABRT, tell_fault);
    atexit(tell_early_end);
    if (bodlarina_version() != BODLARINA_VERSION_NUMBER) {
        complain("the library is not that of the header it was built with");
        is_ended = 1;
        return STATUS_TROUBLE;
    }
    if (read_options(count, words, &options, &status))
        status = run_file(&options);
    free_options(&options);
    is_ended = 1;
    return status;
}
