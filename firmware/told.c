#include "told.h"

#include <inttypes.h>
#include <stdio.h>

#include "trace.h"

static void write_word(const struct report *report)
{
    char text[INSTRUCTION_TEXT_BYTES];
    write_instruction(report->word, text);
    printf("%s (%08" PRIx32 ")", text, report->word);
}

static void write_trace(const struct emulator *emulator, const struct places *places)
{
    const struct shared *shared = emulator->shared;
    struct instruction instruction;
    struct turn turn;
    instruction_of(shared->report.word, &instruction);
    turn.word = shared->report.word;
    turn.address = shared->report.x[number_of(&instruction, BASE)];
    turn.stride = shared->report.x[number_of(&instruction, SCALAR)];
    write_where(places, shared->report.pc);
    printf(": ");
    trace_step(&shared->device, &turn, shared->report.before);
}

static int write_refusal(const struct emulator *emulator, struct places *places)
{
    const struct shared *shared = emulator->shared;
    if (shared->trace)
        write_trace(emulator, places);
    printf("bodlarina-firmware: ");
    write_word(&shared->report);
    printf(": refused with %u, %s", BODLARINA_ANSWER(shared->device.result), bodlarina_answer_text(shared->device.result));
    write_place(stdout, &shared->device);
    printf("\n  at ");
    write_chain(places, shared->report.pc, shared->report.x);
    return STATUS_REFUSED;
}

/* "0x8049b of counts" */
static void write_sealed(const struct emulator *emulator)
{
    uint64_t address = emulator->shared->report.address;
    const char *object = elf_file_object_at(emulator->file, address - emulator->bias);
    printf("0x%" PRIx64, address);
    if (object != NULL)
        printf(" of %s", object);
}

static int write_stored(const struct emulator *emulator, struct places *places)
{
    printf("bodlarina-firmware: a scalar store writes the sealed byte ");
    write_sealed(emulator);
    printf("\n  at ");
    write_chain(places, emulator->shared->report.pc, NULL);
    return STATUS_SEALED;
}

static int write_changed(const struct emulator *emulator, struct places *places)
{
    const struct shared *shared = emulator->shared;
    printf("bodlarina-firmware: the sealed byte ");
    write_sealed(emulator);
    printf(" was changed by %s, before ", shared->bare ? "a device of the machine" : "the kernel for the program");
    if (shared->report.told == CHANGED_BY_END) {
        printf("the end\n");
        return STATUS_SEALED;
    }
    printf("the word at ");
    write_chain(places, shared->report.pc, shared->report.x);
    return STATUS_SEALED;
}

static int write_trouble(const struct emulator *emulator, struct places *places, const char *sentence)
{
    printf("bodlarina-firmware: %s\n  at ", sentence);
    write_chain(places, emulator->shared->report.pc, NULL);
    return STATUS_TROUBLE;
}

int write_report(struct emulator *emulator, struct places *places)
{
    int status = -1;
    switch (emulator->shared->report.told) {
    case CARRIED_OUT: write_trace(emulator, places); break;
    case REFUSED: status = write_refusal(emulator, places); break;
    case STORED: status = write_stored(emulator, places); break;
    case CHANGED: case CHANGED_BY_END: status = write_changed(emulator, places); break;
    case NO_PLACE:
        status = write_trouble(emulator, places, "no room for the trap vector of the matrix words within 1 MiB of this code, behind the program "
                                                        "or between its sections");
        break;
    case NO_STACK:
        status = write_trouble(emulator, places, "the signal of an instruction that QEMU does not know finds no room on the stack");
        break;
    case SET_AGAIN:
        status = write_trouble(emulator, places, "mtvec was set again by code that had run before, and matrix words trap there now");
        break;
    }
    fflush(stdout);
    return status;
}
