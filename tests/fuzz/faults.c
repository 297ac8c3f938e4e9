/* Libraries with one fault each, made of the library: the number in the environment's FAULT chooses it. Linked with --wrap for each function below;
 * a harness has to find each out on its corpus (tests/fuzz/run). */
#include "bodlarina.h"

#include <stdlib.h>

#define HOST machine, machine_len, registers, registers_len, marks, marks_len
#define HOST_PARAMETERS \
    uint8_t *machine, size_t machine_len, uint8_t *registers, size_t registers_len, uint8_t *marks, size_t marks_len
#define STEP_PARAMETERS \
    uint32_t word, uint64_t group, HOST_PARAMETERS, uint8_t *scalars, size_t scalars_len, uint8_t *memory, size_t memory_len, uint8_t *vectors, \
        size_t vectors_len
#define TURN_PARAMETERS uint8_t *run, size_t run_len, HOST_PARAMETERS, uint8_t *memory, size_t memory_len
#define READ_PARAMETERS const uint8_t *image, size_t image_len, HOST_PARAMETERS
#define SALVAGE_PARAMETERS const uint8_t *image, size_t image_len, uint8_t *room, size_t room_len, uint8_t *report, size_t report_len
#define LIST_PARAMETERS uint32_t word, uint8_t *text, size_t text_len
#define LINE_PARAMETERS const uint8_t *text, size_t text_len, uint8_t *word, size_t word_len

#define WRAPPED(name, parameters) \
    uint64_t __real_bodlarina_##name(parameters); \
    uint64_t __wrap_bodlarina_##name(parameters)

static volatile uint8_t touched;

static int fault(int number)
{
    const char *chosen = getenv("FAULT");
    return chosen != NULL && atoi(chosen) == number;
}

/* Reads the byte past a buffer, or the one before it. */
static void touch(const uint8_t *byte) { touched = *(const volatile uint8_t *)byte; }

WRAPPED(step, STEP_PARAMETERS)
{
    uint64_t result = __real_bodlarina_step(word, group, HOST, scalars, scalars_len, memory, memory_len, vectors, vectors_len);
    if (fault(1) && result != 0 && scalars_len > 0)
        scalars[0] ^= 1; /* a refusal changes a byte that nothing reads */
    if (fault(2))
        touch(memory + memory_len);
    if (fault(3))
        touch(registers - 1);
    if (fault(4) && result == 0)
        vectors[511] ^= 1;
    if (fault(5) && BODLARINA_ANSWER(result) == BODLARINA_ROWS_OVERLAP)
        result = BODLARINA_SEALED_BYTE;
    if (fault(6) && BODLARINA_ANSWER(result) == BODLARINA_UNWRITTEN)
        result += 0x10000;
    return result;
}

WRAPPED(run_turn, TURN_PARAMETERS)
{
    uint64_t result = __real_bodlarina_run_turn(run, run_len, HOST, memory, memory_len);
    if (fault(7) && result == 0)
        run[159] ^= 1;
    if (fault(8) && result != 0 && memory_len > 0)
        memory[0] ^= 1;
    if (fault(9))
        touch(run + run_len);
    return result;
}

WRAPPED(image_read, READ_PARAMETERS)
{
    uint64_t result = __real_bodlarina_image_read(image, image_len, HOST);
    if (fault(10) && BODLARINA_ANSWER(result) == BODLARINA_DAMAGED)
        result += 0x10000;
    if (fault(11))
        touch(image + image_len);
    if (fault(12) && result != 0 && registers_len > 0)
        registers[registers_len - 1] ^= 1;
    return result;
}

WRAPPED(image_salvage, SALVAGE_PARAMETERS)
{
    uint64_t result = __real_bodlarina_image_salvage(image, image_len, room, room_len, report, report_len);
    if (fault(13) && BODLARINA_ANSWER(result) == 0 && BODLARINA_LENGTH(result) < room_len)
        room[BODLARINA_LENGTH(result)] ^= 1; /* a byte past the fresh image */
    if (fault(14) && BODLARINA_ANSWER(result) == 0)
        report[0]++;
    return result;
}

WRAPPED(word_text, LIST_PARAMETERS)
{
    uint64_t result = __real_bodlarina_word_text(word, text, text_len);
    if (fault(15) && BODLARINA_ANSWER(result) == 0 && BODLARINA_LENGTH(result) < text_len)
        text[BODLARINA_LENGTH(result)] = '\0';
    return result;
}

WRAPPED(text_word, LINE_PARAMETERS)
{
    uint64_t result = __real_bodlarina_text_word(text, text_len, word, word_len);
    if (fault(16) && BODLARINA_ANSWER(result) == BODLARINA_BAD_LINE)
        result += 0x10000;
    if (fault(17) && text_len > 0)
        touch(text - 1);
    return result;
}
