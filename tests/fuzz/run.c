/* An input is a machine and a plan: a run is started and goes on by turns, one or many, by words that are handed out, between which its block, the
 * machine and its bytes change; and the whole run in one call. */
#include "input.h"

#include <string.h>

int LLVMFuzzerTestOneInput(const uint8_t *data, size_t size);

static struct desk desk;

#define STATE desk.machine, desk.machine_len, desk.registers, desk.registers_len, desk.marks, desk.marks_len
#define MEMORY desk.memory, desk.memory_len
#define RUN desk.run, desk.run_len
#define NUMBERS plan->kind, plan->sew, plan->factor, plan->m, plan->k, plan->n, plan->a.address, plan->a.stride, plan->b.address, plan->b.stride, \
        plan->c.address, plan->c.stride

/* Mostly a size that is soon done. */
static uint64_t next_size(struct input *input)
{
    unsigned size = next_byte(input);
    return size < 240 ? size % 32 : next_64(input);
}

static struct bodlarina_matrix next_matrix(struct input *input)
{
    struct bodlarina_matrix matrix;
    matrix.address = next_64(input);
    matrix.stride = (int64_t)next_64(input);
    return matrix;
}

static struct bodlarina_plan next_plan(struct input *input)
{
    struct bodlarina_plan plan;
    unsigned form = next_byte(input);
    plan.kind = form % 4;
    plan.sew = form >= 252 ? next_64(input) : (uint64_t)8 << form / 4 % 4;
    plan.factor = form >= 252 ? next_64(input) : (uint64_t)1 << form / 16 % 3;
    plan.m = next_size(input);
    plan.k = next_size(input);
    plan.n = next_size(input);
    plan.a = next_matrix(input);
    plan.b = next_matrix(input);
    plan.c = next_matrix(input);
    return plan;
}

static void start(const struct bodlarina_plan *plan) { held_run_start(NUMBERS, STATE, MEMORY, RUN); }

static void whole(const struct bodlarina_plan *plan, struct input *input)
{
    uint8_t steps[16];
    unsigned length = next_byte(input);
    memset(steps, 0xa5, sizeof steps);
    if (plan->m * plan->k * plan->n > 65536 && plan->m <= 1024 && plan->k <= 1024 && plan->n <= 1024)
        return;
    held_run(NUMBERS, STATE, MEMORY, steps, length < 16 ? length : BODLARINA_STEPS_BYTES);
}

/* The next word is handed out, and may be carried out as a step. */
static void next(struct input *input)
{
    uint8_t handed[32];
    unsigned length = next_byte(input);
    memset(handed, 0xa5, sizeof handed);
    if (held_run_next(RUN, handed, length < 32 ? length : BODLARINA_HANDED_BYTES) != 0 || length % 2 == 0)
        return;
    bodlarina_put64(desk.scalars + BODLARINA_SCALAR_AT(10), bodlarina_get64(handed + BODLARINA_HANDED_ADDRESS_AT));
    bodlarina_put64(desk.scalars + BODLARINA_SCALAR_AT(11), bodlarina_get64(handed + BODLARINA_HANDED_STRIDE_AT));
    desk_step(&desk, (uint32_t)bodlarina_get64(handed + BODLARINA_HANDED_WORD_AT));
}

static void turns(struct input *input)
{
    uint64_t asked = next_byte(input);
    held_run_turns(asked == 255 ? UINT64_MAX : asked, RUN, STATE, MEMORY);
}

/* Another number in the run's block. */
static void forge(struct input *input)
{
    unsigned at = next_byte(input) % 20;
    bodlarina_put64(desk.run + 8 * at, next_64(input));
}

int LLVMFuzzerTestOneInput(const uint8_t *data, size_t size)
{
    struct input input = {data, size};
    struct bodlarina_plan plan;
    uint64_t from, length;
    int left = 64;
    desk_start(&desk, &input);
    plan = next_plan(&input);
    start(&plan);
    while (input.length > 0 && left-- > 0) {
        held_run_steps(RUN);
        switch (next_byte(&input) % 10) {
        case 0: plan = next_plan(&input); break;
        case 1: start(&plan); break;
        case 2: whole(&plan, &input); break;
        case 3: next(&input); break;
        case 4: turns(&input); break;
        case 5: forge(&input); break;
        case 6:
            from = next_64(&input);
            length = next_64(&input);
            held_seal(from, length, STATE);
            break;
        case 7: desk_change(&desk, &input); break;
        default: held_run_turn(RUN, STATE, MEMORY); break;
        }
    }
    return 0;
}
