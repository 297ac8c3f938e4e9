#define _GNU_SOURCE
#include <stdlib.h>
#include <string.h>

#include "plugin.h"

/* What a word does with memory, found once: the words of a loop come again and again. */
struct known {
    uint32_t word;
    int transfers, transposed;
    struct instruction instruction;
};

#define KNOWN_MOST 256

struct unit {
    struct device *device;
    struct known known[KNOWN_MOST];
};

struct guest guest;

static struct unit first;                    /* of the first thread */
static __thread struct unit *mine;           /* of this one */
static pthread_key_t ended;                  /* frees it when the thread ends */
static struct device *copy_of_first;         /* for a process that is about to be forked */

int is_matrix_word(uint32_t word) { return (word & 0x7f) == 0x77; }

/* ---- units of threads and processes ---- */

static void unit_free(void *unit)
{
    if (unit == &first)
        return;
    free(((struct unit *)unit)->device);
    free(unit);
}

static void unit_start(struct unit *unit)
{
    struct device *device = unit->device;
    struct range range;
    size_t i;
    device->seals_len = 2 * seals_count();
    for (i = 0; i < device->seals_len / 2; i++) {
        range = seals_at(i);
        device->seals[2 * i] = range.start;
        device->seals[2 * i + 1] = range.length;
    }
    device->group = shared->group;
    device->memory = guest.memory;
    device->memory_bytes = guest.bytes;
    if (device_start(device, shared->rlen, shared->mlen, shared->elen, shared->rule) != 0)
        give_up("the unit of a thread cannot be started");
}

static struct unit *unit_of_thread(void)
{
    if (mine != NULL)
        return mine;
    mine = calloc(1, sizeof *mine);
    if (mine != NULL)
        mine->device = calloc(1, sizeof *mine->device);
    if (mine == NULL || mine->device == NULL)
        give_up("no room for the unit of a thread");
    pthread_setspecific(ended, mine);
    unit_start(mine);
    return mine;
}

/* The first thread's unit lies where the tool sees it; a forked process goes on with a copy of its own. */
static void before_fork(void)
{
    copy_of_first = malloc(sizeof *copy_of_first);
    if (copy_of_first != NULL)
        *copy_of_first = *first.device;
}

static void after_fork(void)
{
    free(copy_of_first);
    copy_of_first = NULL;
}

static void in_fork(void)
{
    if (copy_of_first == NULL)
        give_up("no room for the unit of a process");
    first.device = copy_of_first;
    copy_of_first = NULL;
}

const struct device *unit_device(void) { return mine == NULL ? first.device : mine->device; }

void unit_first(void)
{
    first.device = &shared->first;
    mine = shared->bare ? NULL : &first;
    if (pthread_key_create(&ended, unit_free) != 0 || pthread_atfork(before_fork, after_fork, in_fork) != 0)
        give_up("the plugin cannot be set up");
    unit_start(&first);
}

/* ---- a word ---- */

static const struct known *known_of(struct unit *unit, uint32_t word)
{
    struct known *known = &unit->known[(word >> 7 ^ word >> 15 ^ word >> 24) % KNOWN_MOST];
    char text[INSTRUCTION_TEXT_BYTES];
    if (known->word == word)
        return known;
    known->word = word;
    known->transfers = instruction_of(word, &known->instruction)
                       && (known->instruction.action == LOADS || known->instruction.action == STORES);
    write_instruction(word, text);
    known->transposed = text[3] == 't'; /* mlate8.m and its like */
    return known;
}

/* The rows of memory that a load or store reaches; 0 if there is none. */
static int rows_of(struct unit *unit, uint32_t word, struct rows *rows)
{
    const struct known *known = known_of(unit, word);
    struct tile tile;
    if (!known->transfers)
        return 0;
    tile = word_tile(unit->device, &known->instruction);
    rows->count = known->transposed ? tile.columns : tile.rows;
    rows->bytes = (size_t)(known->transposed ? tile.rows : tile.columns) * tile.width;
    rows->address = device_scalar(unit->device, number_of(&known->instruction, BASE));
    rows->stride = device_scalar(unit->device, number_of(&known->instruction, SCALAR));
    rows->store = known->instruction.action == STORES;
    return rows->count != 0 && rows->bytes != 0;
}

/* Whether each row lies in the memory that is lent, and may be reached there. A tile of more bytes is refused for its size. */
static int rows_reached(const struct rows *rows)
{
    uint64_t address = rows->address;
    size_t i;
    if (rows->count > TILE_ROWS_MOST || rows->bytes > TILE_BYTES_MOST / rows->count)
        return 0;
    for (i = 0; i < rows->count; i++, address += rows->stride)
        if (address > guest.bytes || rows->bytes > guest.bytes - address)
            return 0;
    return guest.reach(rows);
}

/* Ranges that were sealed since the last word. */
static void seal_further(struct device *device)
{
    size_t i;
    for (i = device_seals(device); i < seals_count(); i++) {
        struct range range = seals_at(i);
        if (device_seal(device, range.start, range.length) != 0)
            give_up(bodlarina_answer_text(device->result));
    }
}

/* Where rows cannot be reached no memory is lent: the library says whether it matters, with 6 or with what comes before it. */
static uint64_t step(struct unit *unit, uint32_t word)
{
    struct rows rows;
    uint64_t result;
    unit->device->memory_bytes = !rows_of(unit, word, &rows) || rows_reached(&rows) ? guest.bytes : 0;
    result = device_step(unit->device, word);
    unit->device->memory_bytes = guest.bytes;
    return result;
}

static void tell(enum told told, struct report *report, const struct device *device, const uint8_t *scalars)
{
    unsigned i;
    report->told = (uint32_t)told;
    report->x[0] = 0;
    for (i = 1; i < 32; i++)
        report->x[i] = bodlarina_get64(scalars + BODLARINA_SCALAR_AT(i));
    line_tell(report, device);
}

void unit_carry_out(uint64_t pc, uint32_t word, uint8_t scalars[BODLARINA_SCALAR_BYTES])
{
    struct unit *unit = shared->bare ? &first : unit_of_thread();
    struct device *device = unit->device;
    struct report report;
    report.pc = pc;
    report.word = word;
    report.before = device_settings(device);
    memcpy(device->scalars, scalars, BODLARINA_SCALAR_BYTES);
    if (seals_changed(&report.address))
        tell(CHANGED, &report, device, scalars);
    seal_further(device);
    if (step(unit, word) != 0)
        tell(REFUSED, &report, device, scalars);
    else if (shared->trace)
        tell(CARRIED_OUT, &report, device, scalars);
    memcpy(scalars, device->scalars, BODLARINA_SCALAR_BYTES);
}
