#include "seal_ranges.h"

#include <stdio.h>

#include "complain.h"

/* A range of more bytes cannot be sealed: a copy of it is kept and compared. */
#define SEALED_BYTES_MOST (16u << 20)

/* A machine started, and each range sealed, to see that the library accepts them. */
static int accepted(const struct options *options, const struct range *ranges)
{
    static struct device trial;
    size_t i;
    if (device_start(&trial, options->rlen, options->mlen, options->elen, options->rule) != 0)
        return complain("--machine: refused with %u, %s", BODLARINA_ANSWER(trial.result), bodlarina_answer_text(trial.result));
    for (i = 0; i < options->seals_len; i++)
        if (device_seal(&trial, ranges[i].start, ranges[i].length) != 0)
            return complain("%s: refused with %u, %s", options->seals[i].text, BODLARINA_ANSWER(trial.result),
                            bodlarina_answer_text(trial.result));
    return 1;
}

static int find_range(const struct elf_file *file, const struct seal_option *seal, uint64_t bias, struct range *range)
{
    *range = seal->range;
    if (seal->symbol != NULL && !elf_file_symbol(file, seal->function == NULL ? "--seal" : "--seal-after", seal->symbol, 0, range))
        return 0;
    if (seal->symbol != NULL)
        range->start += bias;
    return range->length <= SEALED_BYTES_MOST || complain("%s: more than %u bytes cannot be sealed", seal->text, SEALED_BYTES_MOST);
}

static int find_function(const struct elf_file *file, const char *function, uint64_t bias, struct after *after)
{
    uint32_t i;
    if (!elf_file_symbol(file, "--seal-after", function, 1, &after->function))
        return 0;
    after->returns_len = elf_file_returns(file, after->function.start, after->returns);
    after->function.start += bias;
    for (i = 0; i < after->returns_len; i++)
        after->returns[i] += bias;
    return 1;
}

int seal_ranges(const struct options *options, const struct elf_file *file, uint64_t bias, struct shared *shared)
{
    struct range ranges[SEALS_MOST];
    size_t i;
    for (i = 0; i < options->seals_len; i++)
        if (!find_range(file, &options->seals[i], bias, &ranges[i]))
            return 0;
    if (!accepted(options, ranges))
        return 0;
    shared->seals_len = shared->afters_len = 0;
    for (i = 0; i < options->seals_len; i++) {
        struct after *after = &shared->afters[shared->afters_len];
        if (options->seals[i].function == NULL) {
            shared->seals[shared->seals_len++] = ranges[i];
        } else {
            if (!find_function(file, options->seals[i].function, bias, after))
                return 0;
            after->range = ranges[i];
            shared->afters_len++;
        }
    }
    return 1;
}
