#define _POSIX_C_SOURCE 200112L

#include "commands.h"

#include <inttypes.h>
#include <stdio.h>
#include <string.h>
#include <unistd.h>

#include "arguments.h"
#include "history.h"
#include "trace.h"

/* ---- the machine and its scalars ---- */

/* ELEN, if a number stands here, else 32. */
static int take_elen(struct reader *reader, uint64_t *elen)
{
    char next = at_end(reader) ? '\0' : reader->text[reader->at];
    *elen = 32;
    return !(next == '-' || (next >= '0' && next <= '9')) || take_any(reader, "ELEN", elen);
}

/* The end of the line, or the word halving and the end. */
static int take_rule(struct reader *reader, uint64_t *rule)
{
    struct span span;
    *rule = at_end(reader) ? BODLARINA_SMALLER : BODLARINA_HALVING;
    if (*rule == BODLARINA_SMALLER)
        return 1;
    span = take_span(reader);
    if (!span_is(span, "halving"))
        return refuse(reader, span.at, "the line should end here, or with halving; ELEN is a number before it");
    return take_end(reader);
}

static int run_machine(struct session *session)
{
    struct reader *reader = &session->reader;
    uint64_t rlen, mlen, elen, rule;
    size_t ranges = session->device.seals_len / 2;
    if (!take_any(reader, "RLEN", &rlen) || !take_any(reader, "MLEN", &mlen) || !take_elen(reader, &elen) || !take_rule(reader, &rule))
        return 0;
    if (session->device.started)
        return not_now(session, "the machine is started already");
    device_start(&session->device, rlen, mlen, elen, rule);
    report_machine(session, ranges);
    return 1;
}

static int run_scalar(struct session *session)
{
    struct reader *reader = &session->reader;
    size_t at = next_at(reader);
    uint64_t slot, value;
    if (!take_unsigned(reader, "the number of a scalar", 31, &slot) || !take_either(reader, "a value", &value) || !take_end(reader))
        return 0;
    if (slot == 0)
        return refuse(reader, at, "x0 is always 0");
    device_set_scalar(&session->device, (unsigned)slot, value);
    return 1;
}

/* ---- steps ---- */

/* Carries out a word and says what became of it. */
static int step_word(struct session *session, uint32_t word)
{
    struct device *device = &session->device;
    struct instruction instruction;
    struct turn turn;
    struct event event;
    char text[INSTRUCTION_TEXT_BYTES];
    instruction_of(word, &instruction);
    turn.word = word;
    turn.address = device_scalar(device, number_of(&instruction, BASE));
    turn.stride = device_scalar(device, number_of(&instruction, SCALAR));
    event = next_step(session, &turn);
    before_event(session, &event);
    device_step(device, word);
    after_event(session, &event);
    write_instruction(word, text);
    if (session->trace)
        trace_step(device, &turn, event.settings);
    else
        report(session, text);
    return 1;
}

static int run_word(struct session *session)
{
    struct reader *reader = &session->reader;
    struct span span = take_span(reader);
    uint32_t word = 0;
    size_t i, skip = span.length == 10 && memcmp(span.text, "0x", 2) == 0 ? 2 : 0;
    for (i = skip; i < span.length && hex_digit(span.text[i]) >= 0; i++)
        word = word << 4 | (uint32_t)hex_digit(span.text[i]);
    if (i != span.length || span.length != 8 + skip)
        return refuse(reader, span.at, "expected a word, eight hexadecimal digits");
    return take_end(reader) && needs_machine(session) && step_word(session, word);
}

/* ---- product runs ---- */

static int take_matrix(struct reader *reader, struct bodlarina_matrix *matrix)
{
    return take_any(reader, "an address", &matrix->address) && take_signed(reader, "a stride", 64, &matrix->stride);
}

/* The end of the line, or the word transposed or float, and the end. */
static int take_kind(struct reader *reader, uint64_t *kind)
{
    struct span span;
    *kind = BODLARINA_PRODUCT;
    if (at_end(reader))
        return 1;
    span = take_span(reader);
    *kind = span_is(span, "transposed") ? BODLARINA_A_TRANSPOSED : BODLARINA_FLOAT;
    if (*kind == BODLARINA_FLOAT && !span_is(span, "float"))
        return refuse(reader, span.at, "the line should end here, or with transposed or float");
    return take_end(reader);
}

static int take_plan(struct reader *reader, struct bodlarina_plan *plan)
{
    memset(plan, 0, sizeof *plan);
    return take_any(reader, "SEW", &plan->sew) && take_any(reader, "the factor", &plan->factor) && take_any(reader, "m", &plan->m)
           && take_any(reader, "k", &plan->k) && take_any(reader, "n", &plan->n) && take_matrix(reader, &plan->a)
           && take_matrix(reader, &plan->b) && take_matrix(reader, &plan->c) && take_kind(reader, &plan->kind);
}

/* Takes the turn that comes next, and traces it. */
static uint64_t single_turn(struct session *session)
{
    struct device *device = &session->device;
    struct turn turn;
    struct event event;
    device_next(device, &turn);
    event = next_step(session, &turn);
    event.in_run = 1;
    before_event(session, &event);
    device_turn(device, &turn);
    after_event(session, &event);
    if (session->trace)
        trace_step(device, &turn, event.settings);
    return device->result;
}

/* Takes the turns one by one, to trace or to observe each, as long as the trace can be written; how many were done. */
static uint64_t single_turns(struct session *session, uint64_t all)
{
    uint64_t done = 0;
    while (done < all && session->events < session->last_event && !(session->trace && ferror(stdout)) && single_turn(session) == 0)
        done++;
    return done;
}

/* Takes the turns some thousands at a time, and says on a terminal how far the run has come. */
static uint64_t counted_turns(struct session *session, uint64_t all)
{
    uint64_t total = 0, done;
    int terminal = !session->silent && isatty(STDERR_FILENO) == 1;
    do {
        done = device_turns(&session->device, 4096);
        total += done;
        session->events += (unsigned long)done;
        if (terminal)
            fprintf(stderr, "\rproduct: %" PRIu64 " of %" PRIu64 " steps, %" PRIu64 " %%", total, all, all == 0 ? 100 : 100 * total / all);
    } while (done == 4096);
    if (terminal)
        fprintf(stderr, "\r%60s\r", "");
    if (total < all)
        single_turn(session); /* says why */
    return total;
}

static int run_product(struct session *session)
{
    struct device *device = &session->device;
    struct bodlarina_plan plan;
    uint64_t all, done;
    if (!take_plan(&session->reader, &plan) || !needs_machine(session))
        return 0;
    if (device_run_start(device, &plan) == 0) {
        all = device_run_steps(device);
        done = session->trace || session->observer != NULL ? single_turns(session, all) : counted_turns(session, all);
        if (done == all && !session->silent)
            printf("%s:%lu: product: %" PRIu64 " steps\n", session->reader.path, session->reader.line, done);
    }
    report_product(session, &plan);
    return 1;
}

/* ---- a line ---- */

static const struct command commands[] = {
    {"machine", "RLEN MLEN [ELEN] [halving]", "start the machine", run_machine, 1},
    {"memory", "SIZE", "so many bytes of memory, all 0", run_memory, 1},
    {"seal", "START LENGTH", "seal a range of memory: nothing may write it", run_seal, 1},
    {"bytes", "ADDRESS HEX..", "enter bytes, two hexadecimal digits each", run_bytes, 1},
    {"int8", "ADDRESS NUMBER..", "enter numbers of 8 bits", run_int8, 1},
    {"int16", "ADDRESS NUMBER..", "enter numbers of 16 bits", run_int16, 1},
    {"int32", "ADDRESS NUMBER..", "enter numbers of 32 bits", run_int32, 1},
    {"int64", "ADDRESS NUMBER..", "enter numbers of 64 bits", run_int64, 1},
    {"float32", "ADDRESS FLOAT..", "enter floats of 32 bits", run_float32, 1},
    {"load", "ADDRESS FILE", "enter the bytes of a file", run_load, 1},
    {"x", "N VALUE", "set scalar xN", run_scalar, 1},
    {"v", "N [FORM] NUMBER..", "enter numbers into vector register vN", run_vector, 1},
    {"group", "N", "how many vector registers a move takes: 1, 2, 4 or 8", run_group, 1},
    {"word", "HEX", "carry out an instruction word, eight hexadecimal digits", run_word, 1},
    {"product", "SEW F M K N A STRIDE B STRIDE C STRIDE [transposed|float]", "multiply matrices: C = A x B", run_product, 1},
    {"save", "FILE", "write the machine's image", run_save, 0},
    {"restore", "FILE", "make the machine of an image", run_restore, 1},
    {"salvage", "FILE", "make the machine of what is whole in an image", run_salvage, 1},
    {"expect", "ANSWER [ROW COLUMN] | memory [FORM] ADDRESS NUMBER.. | v N [FORM] NUMBER..", "hold an answer or bytes to these", run_expect, 0},
    {"show", "x | mtype | sizes | marks | memory [FORM] ADDRESS COUNT | REGISTER [8|16|32|64|float32]", "print it", run_show, 0},
    {"explain", "[all] ADDRESS [FORM] | [all] REGISTER [ROW] COLUMN [8|16|32|64|float32]", "say where a number comes from", run_explain, 0},
};

const struct command *command_at(size_t i) { return i < sizeof commands / sizeof commands[0] ? &commands[i] : NULL; }

/* The command, or the instruction, whose name was taken. */
static int run_command(struct session *session, struct span span)
{
    struct reader *reader = &session->reader;
    const struct command *command;
    uint32_t word;
    size_t i;
    for (i = 0; (command = command_at(i)) != NULL; i++)
        if (span_is(span, command->name))
            return (session->silent && !command->changes) || command->run(session);
    if (!is_mnemonic(span))
        return refuse(reader, span.at, "this is no command, and no instruction of the unit");
    return take_instruction(reader, span, &word) && needs_machine(session) && step_word(session, word);
}

int run_line(struct session *session)
{
    struct device *device = &session->device;
    unsigned long answers = device->answers;
    struct span span;
    if (at_end(&session->reader))
        return 1;
    span = take_span(&session->reader);
    session->command_at = span.at;
    if (!span_is(span, "expect"))
        count_refusal(session);
    if (!run_command(session, span))
        return 0;
    if (device->answers != answers)
        session->refused = device->result != 0;
    if (session->observer != NULL && session->observer->line != NULL)
        session->observer->line(session->observer->self, session);
    return 1;
}
