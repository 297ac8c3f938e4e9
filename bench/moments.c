#define _POSIX_C_SOURCE 200809L

#include "moments.h"

#include <inttypes.h>
#include <stdlib.h>
#include <string.h>

#include "json.h"
#include "trace.h"

int moments_open(struct moments *moments, FILE *file, const struct window *window, const uint8_t *kept)
{
    memset(moments, 0, sizeof *moments);
    moments->file = file;
    moments->window = window;
    moments->kept = kept;
    moments->memory = calloc(window->bytes + 1, 1);
    return moments->memory != NULL && absence_open(&moments->absence, window->bytes);
}

void moments_close(struct moments *moments)
{
    absence_close(&moments->absence);
    free(moments->memory);
    moments->memory = NULL;
}

unsigned shown_width(const struct moments *moments, const struct device *device, unsigned reg)
{
    unsigned sew = device_sew(device);
    int quad = (device_settings(device).mtype >> 3 & 1) != 0;
    if (moments->widths[reg] != 0 || sew == 0)
        return moments->widths[reg] != 0 ? moments->widths[reg] : 1;
    return reg >= ACCUMULATOR_0 && quad ? 4 * sew : sew;
}

/* ---- lists of a moment ---- */

/* The comma or the name before the next of a list; and its end, if there was one. */
static void next_of(FILE *file, const char *name, size_t *count)
{
    if ((*count)++ == 0) {
        json_name(file, name);
        fputc('[', file);
    } else {
        fputc(',', file);
    }
}

static void end_of(FILE *file, size_t count)
{
    if (count != 0)
        fputc(']', file);
}

/* ---- registers ---- */

/* Whether a register byte is newly written or another one; or no longer written. */
static int written_now(const struct device *known, const struct device *device, size_t i)
{
    return device->marks[i] != 0 && (known->marks[i] == 0 || known->registers[i] != device->registers[i]);
}

static int lost_now(const struct device *known, const struct device *device, size_t i) { return device->marks[i] == 0 && known->marks[i] != 0; }

typedef int differs(const struct device *known, const struct device *device, size_t i);

/* The stretches of such register bytes: where each starts, and its bytes or, for large machines and where they are lost, how many they are. */
static void write_stretches(FILE *file, const char *name, const struct device *known, const struct device *device, differs *is, int bytes)
{
    size_t i, end, count = 0, all = BODLARINA_REGISTER_BYTES(device->mlen);
    for (i = 0; i < all; i = end + 1) {
        for (end = i; end < all && is(known, device, end); end++)
            ;
        if (end == i)
            continue;
        next_of(file, name, &count);
        fprintf(file, "[%lu,", (unsigned long)i);
        if (bytes)
            json_bytes(file, device->registers + i, end - i);
        else
            fprintf(file, "%lu", (unsigned long)(end - i));
        fputc(']', file);
    }
    end_of(file, count);
}

/* ---- the machine ---- */

/* A machine that is started, or another one than before; the page then begins with none of its bytes written. */
static void write_machine(struct moments *moments, const struct device *device)
{
    FILE *file = moments->file;
    struct device *known = &moments->known;
    if (known->started && known->rlen == device->rlen && known->mlen == device->mlen && known->elen == device->elen && known->rule == device->rule)
        return;
    json_name(file, "machine");
    fprintf(file, "{\"rlen\":%" PRIu64 ",\"mlen\":%" PRIu64 ",\"elen\":%" PRIu64 ",\"halving\":%s}", device->rlen, device->mlen, device->elen,
            device->rule == BODLARINA_HALVING ? "true" : "false");
    memset(known->marks, 0, sizeof known->marks);
    memset(moments->widths, 0, sizeof moments->widths);
}

static void write_type(FILE *file, uint64_t mtype)
{
    if (mtype >> 63 != 0)
        fprintf(file, "null");
    else
        fprintf(file, "\"e%u%s\"", 8u << (mtype & 3), (mtype >> 3 & 1) != 0 ? ", accq" : "");
}

static void write_settings(FILE *file, const struct device *known, const struct device *device)
{
    struct settings before = device_settings(known), now = device_settings(device);
    if (known->started && before.mtype == now.mtype && before.m == now.m && before.k == now.k && before.n == now.n)
        return;
    json_name(file, "settings");
    fprintf(file, "{\"type\":");
    write_type(file, now.mtype);
    fprintf(file, ",\"m\":%" PRIu64 ",\"k\":%" PRIu64 ",\"n\":%" PRIu64 "}", now.m, now.k, now.n);
}

static int same_seals(const struct device *known, const struct device *device)
{
    uint64_t start, length, start_now, length_now;
    size_t i;
    if (device_seals(known) != device_seals(device))
        return 0;
    for (i = 0; i < device_seals(device); i++) {
        device_seal_at(known, i, &start, &length);
        device_seal_at(device, i, &start_now, &length_now);
        if (start != start_now || length != length_now)
            return 0;
    }
    return 1;
}

static void write_seals(FILE *file, const struct device *known, const struct device *device)
{
    uint64_t start, length;
    size_t i;
    if (same_seals(known, device))
        return;
    json_name(file, "seals");
    for (i = 0; i < device_seals(device); i++) {
        device_seal_at(device, i, &start, &length);
        fprintf(file, "%s[%" PRIu64 ",%" PRIu64 "]", i == 0 ? "[" : ",", start, length);
    }
    fputs(i == 0 ? "[]" : "]", file);
}

/* Scalars as texts, since a page has no numbers of 64 bits. */
static void write_scalars(FILE *file, const struct device *known, const struct device *device)
{
    unsigned slot, count = 0;
    for (slot = 1; slot < 32; slot++)
        if (device_scalar(known, slot) != device_scalar(device, slot)) {
            if (count++ == 0)
                json_name(file, "scalars");
            fprintf(file, "%s\"x%u\":\"%" PRId64 "\"", count == 1 ? "{" : ",", slot, (int64_t)device_scalar(device, slot));
        }
    if (count != 0)
        fputc('}', file);
}

/* ---- memory ---- */

static void write_memory(struct moments *moments, const struct device *device)
{
    FILE *file = moments->file;
    size_t i, at, length, count = 0;
    for (i = 0; device->memory != NULL && i < moments->window->count; i++) {
        at = moments->window->shown[i] * ROW_BYTES;
        length = device->memory_bytes - at < ROW_BYTES ? device->memory_bytes - at : ROW_BYTES;
        if (memcmp(moments->memory + at, device->memory + at, length) == 0)
            continue;
        memcpy(moments->memory + at, device->memory + at, length);
        next_of(file, "memory", &count);
        fprintf(file, "[%lu,", (unsigned long)at);
        json_bytes(file, device->memory + at, length);
        fputc(']', file);
    }
    end_of(file, count);
}

/* Numbers in memory, as far as they are shown: address, bytes, bytes of a number, and form. */
static void write_range(struct moments *moments, const char *name, struct place place, unsigned width, enum form form, size_t *count)
{
    if (!window_meets(moments->window, place.at, place.bytes))
        return;
    next_of(moments->file, name, count);
    fprintf(moments->file, "[%" PRIu64 ",%" PRIu64 ",%u,%d]", place.at, place.bytes, width, (int)form);
}

/* The numbers of a line, a row of memory at a time, so that long files do not make the page long. */
static void write_entered(struct moments *moments)
{
    struct place all = moments->entered.entered, part = all;
    unsigned width = form_bytes(moments->entered.form);
    uint64_t step = width > ROW_BYTES ? width : ROW_BYTES;
    size_t count = 0;
    if (!moments->enters || all.space != IN_MEMORY)
        return;
    if (all.bytes <= (uint64_t)ROWS_MOST * ROW_BYTES)
        step = all.bytes;
    for (; part.at < all.at + all.bytes; part.at += step) {
        part.bytes = all.at + all.bytes - part.at < step ? all.at + all.bytes - part.at : step;
        write_range(moments, "wrote", part, width, moments->entered.form, &count);
    }
    end_of(moments->file, count);
}

/* ---- words ---- */

static void write_one_tile(FILE *file, struct tile tile)
{
    fprintf(file, "{\"reg\":%u,\"row\":%u,\"rows\":%u,\"column\":%u,\"columns\":%u,\"width\":%u}", tile.reg, tile.row, tile.rows, tile.column,
            tile.columns, tile.width);
}

static void write_sources(FILE *file, const struct device *device, const struct instruction *instruction, uint64_t first)
{
    struct tile tiles[3];
    unsigned i, count = word_sources(device, instruction, tiles);
    if (instruction->action == MOVES_OUT)
        tiles[0] = word_slice(device, instruction, first);
    json_name(file, "sources");
    for (i = 0; i < count; i++) {
        fputc(i == 0 ? '[' : ',', file);
        write_one_tile(file, tiles[i]);
    }
    fputs(count == 0 ? "[]" : "]", file);
}

/* The elements of a word that lie in memory, neighbours together. */
static void write_elements(struct moments *moments, const char *name, struct place (*element)(const struct flow *flow, unsigned i, unsigned j))
{
    const struct flow *flow = &moments->flow;
    struct place whole, next;
    enum form form = form_of_bytes(flow->tile.width);
    unsigned i, j;
    size_t count = 0;
    for (i = 0; i < flow->tile.rows; i++) {
        whole.bytes = 0;
        for (j = 0; j < flow->tile.columns; j++) {
            next = element(flow, i, j);
            if (whole.bytes != 0 && next.at == whole.at + whole.bytes) {
                whole.bytes += next.bytes;
                continue;
            }
            if (whole.bytes != 0)
                write_range(moments, name, whole, flow->tile.width, form, &count);
            whole = next;
        }
        if (whole.bytes != 0)
            write_range(moments, name, whole, flow->tile.width, form, &count);
    }
    end_of(moments->file, count);
}

static struct place first_source(const struct flow *flow, unsigned i, unsigned j) { return flow_source(flow, i, j, 0); }

static void keep_reading(struct moments *moments, struct place place)
{
    size_t i;
    for (i = 0; i < moments->readings_count; i++)
        if (moments->readings[i].at == place.at && moments->readings[i].bytes == place.bytes)
            return;
    if (moments->readings_count < READINGS_MOST && window_meets(moments->window, place.at, place.bytes))
        moments->readings[moments->readings_count++] = place;
}

/* What an accepted word read from memory, or stored there. */
static void write_transfer(struct moments *moments)
{
    const struct flow *flow = &moments->flow;
    unsigned i, j;
    if (flow->instruction.action == LOADS)
        write_elements(moments, "reads", first_source);
    if (flow->space != IN_MEMORY)
        return;
    write_elements(moments, "wrote", flow_target);
    for (i = 0; i < flow->tile.rows; i++)
        for (j = 0; j < flow->tile.columns; j++)
            keep_reading(moments, flow_target(flow, i, j));
}

/* The registers that a word reads and writes, and where a load or store begins in memory, with which stride, and whether it is transposed. */
static void write_operands(struct moments *moments, const struct device *device, const struct event *event)
{
    FILE *file = moments->file;
    struct instruction instruction;
    if (!instruction_of(event->turn.word, &instruction) || instruction.action == SETS)
        return;
    write_sources(file, device, &instruction, event->turn.stride);
    if (instruction.action == LOADS || instruction.action == STORES) {
        json_name(file, instruction.action == LOADS ? "load" : "store");
        fprintf(file, "[%" PRIu64 ",%" PRId64 ",%d]", event->turn.address, (int64_t)event->turn.stride, instruction.transposed);
    }
    if (instruction.action == MULTIPLIES || instruction.action == MULTIPLIES_FLOATS)
        fputs(",\"multiplies\":true", file);
    if (!moments->flows || moments->flow.space != IN_REGISTER)
        return;
    json_name(file, "target");
    write_one_tile(file, moments->flow.tile);
    if (device->result == 0 && moments->flow.tile.rows != 0 && moments->flow.tile.columns != 0)
        moments->widths[moments->flow.tile.reg] = moments->flow.tile.width;
}

/* A text that another function writes, without the characters at its front. */
static void write_made(struct moments *moments, const char *name, char *text, size_t front)
{
    moments->no_room |= text == NULL;
    if (text != NULL && strlen(text) > front)
        json_text_of(moments->file, name, text + front);
    free(text);
}

static char *changes_text(const struct device *device, const struct event *event)
{
    char *text = NULL;
    size_t length;
    FILE *file = open_memstream(&text, &length);
    if (file == NULL)
        return NULL;
    write_changes(file, device, &event->turn, event->settings);
    fclose(file);
    return text;
}

static char *answer_text(const struct device *device)
{
    char *text = NULL;
    size_t length;
    FILE *file = open_memstream(&text, &length);
    if (file == NULL)
        return NULL;
    fputs(bodlarina_answer_text(device->result), file);
    write_place(file, device);
    fclose(file);
    return text;
}

static void write_answer(struct moments *moments, const struct device *device)
{
    json_number_of(moments->file, "answer", BODLARINA_ANSWER(device->result));
    write_made(moments, "sentence", answer_text(device), 0);
}

/* ---- moments ---- */

static void begin_moment(struct moments *moments, unsigned long line)
{
    fprintf(moments->file, "%s{\"line\":%lu", moments->count++ == 0 ? "\n" : ",\n", line);
    if (moments->left != 0)
        json_number_of(moments->file, "left", moments->left);
    moments->left = 0;
}

/* What is different from what the page knows; then it knows it. */
static void end_moment(struct moments *moments, const struct device *device)
{
    FILE *file = moments->file;
    if (device->started) {
        write_machine(moments, device);
        write_settings(file, &moments->known, device);
        write_stretches(file, "lost", &moments->known, device, lost_now, 0);
        write_stretches(file, "registers", &moments->known, device, written_now, device->mlen <= BYTES_MLEN_MOST);
    }
    write_seals(file, &moments->known, device);
    write_scalars(file, &moments->known, device);
    write_memory(moments, device);
    fputc('}', file);
    moments->known = *device;
}

void moment_before(void *self, const struct session *session, const struct event *event)
{
    struct moments *moments = self;
    moments->flows = event->kind == STEPPED && flow_of(&session->device, event, &moments->flow);
}

static void write_step(struct moments *moments, const struct device *device, const struct event *event)
{
    FILE *file = moments->file;
    char text[INSTRUCTION_TEXT_BYTES], word[16];
    write_instruction(event->turn.word, text);
    snprintf(word, sizeof word, "%08" PRIX32, event->turn.word);
    begin_moment(moments, event->line);
    json_number_of(file, "step", event->step);
    json_text_of(file, "word", word);
    json_text_of(file, "text", text);
    write_answer(moments, device);
    if (device->result == 0)
        write_made(moments, "changed", changes_text(device, event), strlen("; "));
    write_operands(moments, device, event);
    if (device->result == 0 && moments->flows)
        write_transfer(moments);
    end_moment(moments, device);
}

void moment_after(void *self, const struct session *session, const struct event *event)
{
    struct moments *moments = self;
    if (event->kind == ENTERED) {
        moments->entered = *event;
        moments->enters = 1;
    }
    if (event->kind != STEPPED) {
        absence_line(&moments->absence, &session->device, event);
        return;
    }
    if (session->device.result == 0 && moments->flows)
        absence_step(&moments->absence, &session->device, event, &moments->flow);
    moments->steps++;
    moments->refused += session->device.result != 0;
    if (moments->kept == NULL || moments->kept[event->step]) {
        write_step(moments, &session->device, event);
        return;
    }
    moments->left++;
    moments->left_all++;
}

/* Whether a line without a word left the machine other than the page knows it. */
static int changed(const struct moments *moments, const struct device *device)
{
    const struct device *known = &moments->known;
    return moments->enters || known->started != device->started || memcmp(known->machine, device->machine, sizeof device->machine) != 0
           || memcmp(known->scalars, device->scalars, sizeof device->scalars) != 0 || memcmp(known->marks, device->marks, sizeof device->marks) != 0
           || known->memory_bytes != device->memory_bytes || !same_seals(known, device);
}

void moment_line(void *self, const struct session *session)
{
    struct moments *moments = self;
    const struct device *device = &session->device;
    const struct reader *reader = &session->reader;
    int refused = moments->steps == 0 && device->answers != moments->answers && device->result != 0;
    if (moments->steps == 0 && (refused || changed(moments, device))) {
        moments->refused += (unsigned long)refused;
        begin_moment(moments, reader->line);
        json_name(moments->file, "text");
        json_text(moments->file, reader->text + session->command_at, reader->line_end - session->command_at);
        if (refused)
            write_answer(moments, device);
        write_entered(moments);
        end_moment(moments, device);
    }
    moments->steps = 0;
    moments->enters = 0;
    moments->answers = device->answers;
}
