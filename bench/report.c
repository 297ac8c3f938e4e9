#define _POSIX_C_SOURCE 200809L

#include "report.h"

#include <errno.h>
#include <inttypes.h>
#include <limits.h>
#include <stdlib.h>
#include <string.h>

#include "commands.h"
#include "explain.h"
#include "files.h"
#include "json.h"
#include "moments.h"
#include "options.h"
#include "page.h"

/* With more steps, those are kept that touched what is shown. */
#define STEPS_MOST 4000

/* ---- while the script runs ---- */

int report_open(struct report *report)
{
    memset(report, 0, sizeof *report);
    return capture_open(&report->capture) || complain(&bench_program, "there is no room for a report: %s", strerror(errno));
}

void report_close(struct report *report)
{
    size_t i;
    for (i = 0; i < report->room; i++)
        free(report->lines[i].printed);
    free(report->lines);
    report->lines = NULL;
    report->room = 0;
    capture_close(&report->capture);
}

/* The report of a line by its number; NULL if there is no room. */
static struct line_report *line_at(struct report *report, unsigned long line)
{
    struct line_report *lines;
    size_t room = 2 * (size_t)line + 64;
    if (line >= report->room) {
        lines = realloc(report->lines, room * sizeof *lines);
        if (lines == NULL)
            return NULL;
        memset(lines + report->room, 0, (room - report->room) * sizeof *lines);
        report->lines = lines;
        report->room = room;
    }
    return &report->lines[line];
}

int report_line(struct report *report, struct session *session)
{
    unsigned long answers = session->device.answers, failures = session->failures;
    struct line_report *line = line_at(report, session->reader.line);
    int accepted;
    if (line == NULL)
        return refuse(&session->reader, session->reader.at, "there is no room for what is reported of this line");
    capture_begin(&report->capture);
    accepted = run_line(session);
    free(line->printed); /* of a line that was taken back */
    line->printed = capture_end(&report->capture, &line->length);
    report->lost |= line->printed == NULL;
    line->refused = session->device.answers != answers && session->device.result != 0;
    line->failed = session->failures != failures;
    return accepted;
}

/* ---- what is shown ---- */

/* What a word does with memory, for the rows that are shown and the steps that are kept. */
struct survey {
    struct window *window;
    struct flow flow;
    int flows;
    uint8_t *kept;       /* of each step */
    unsigned long since; /* the first step that has no store behind it */
    unsigned long count; /* of steps that are kept */
};

static void survey_before(void *self, const struct session *session, const struct event *event)
{
    struct survey *survey = self;
    survey->flows = event->kind == STEPPED && flow_of(&session->device, event, &survey->flow);
}

static int is_store(const struct survey *survey) { return survey->flows && survey->flow.space == IN_MEMORY; }

static void touch_elements(struct survey *survey, int stored)
{
    const struct flow *flow = &survey->flow;
    struct place place;
    unsigned i, j;
    for (i = 0; i < flow->tile.rows; i++)
        for (j = 0; j < flow->tile.columns; j++) {
            place = stored ? flow_target(flow, i, j) : flow_source(flow, i, j, 0);
            window_touch(survey->window, place.at, place.bytes, stored);
        }
}

static void survey_after(void *self, const struct session *session, const struct event *event)
{
    struct survey *survey = self;
    if (event->kind == ENTERED && event->entered.space == IN_MEMORY)
        window_touch(survey->window, event->entered.at, event->entered.bytes, 0);
    if (session->device.result == 0 && survey->flows && (is_store(survey) || survey->flow.instruction.action == LOADS))
        touch_elements(survey, is_store(survey));
}

/* Whether a store touches what is shown. */
static int stores_shown(const struct survey *survey)
{
    const struct flow *flow = &survey->flow;
    struct place place;
    unsigned i, j;
    for (i = 0; is_store(survey) && i < flow->tile.rows; i++)
        for (j = 0; j < flow->tile.columns; j++) {
            place = flow_target(flow, i, j);
            if (window_meets(survey->window, place.at, place.bytes))
                return 1;
        }
    return 0;
}

/* Of a product run a store that touches what is shown is kept with the steps since the store before it, and so is a refusal. */
static void choose_after(void *self, const struct session *session, const struct event *event)
{
    struct survey *survey = self;
    int wanted = session->device.result != 0 || (survey->count < STEPS_MOST && stores_shown(survey));
    if (event->kind != STEPPED)
        return;
    if (!event->in_run)
        survey->since = event->step;
    if (!event->in_run || wanted)
        for (; survey->since <= event->step; survey->since++, survey->count++)
            survey->kept[survey->since] = 1;
    if (is_store(survey))
        survey->since = event->step + 1;
}

/* Runs the script again for an observer. */
static int observe(const struct session *session, void *self, void (*before)(void *, const struct session *, const struct event *),
                   void (*after)(void *, const struct session *, const struct event *), void (*line)(void *, const struct session *))
{
    static struct session again;
    struct observer observer;
    int done;
    observer.self = self;
    observer.before = before;
    observer.after = after;
    observer.line = line;
    done = replay(session, session->reader.line, ULONG_MAX, &observer, &again);
    session_close(&again);
    return done;
}

/* Which rows of memory are shown; and in *kept which steps, where there are too many for all, which the caller frees. */
static int choose(const struct session *session, struct window *window, uint8_t **kept)
{
    static struct survey survey;
    memset(&survey, 0, sizeof survey);
    survey.window = window;
    *kept = NULL;
    if (!observe(session, &survey, survey_before, survey_after, NULL))
        return 0;
    if (!window_choose(window))
        return 0;
    if (session->device.steps <= STEPS_MOST)
        return 1;
    survey.kept = *kept = calloc(session->device.steps + 2, 1);
    survey.since = 1;
    return *kept != NULL && observe(session, &survey, survey_before, choose_after, NULL);
}

/* ---- the run as JSON ---- */

static void write_lines(FILE *file, const struct report *report, const struct session *session)
{
    struct reader reader = session->reader;
    json_name(file, "lines");
    fputc('[', file);
    reader_rewind(&reader);
    while (reader.line < session->reader.line && next_line(&reader)) {
        const struct line_report *line = reader.line < report->room ? &report->lines[reader.line] : NULL;
        size_t end = reader.next_start, start = reader.line_start;
        while (end > start && (reader.text[end - 1] == '\n' || reader.text[end - 1] == '\r'))
            end--;
        fprintf(file, "%s{\"text\":", reader.line == 1 ? "\n" : ",\n");
        json_text(file, reader.text + start, end - start);
        if (line != NULL && line->length != 0 && line->printed != NULL) {
            json_name(file, "printed");
            json_text(file, line->printed, line->length);
        }
        fprintf(file, "%s%s}", line != NULL && line->refused ? ",\"refused\":true" : "", line != NULL && line->failed ? ",\"failed\":true" : "");
    }
    fputc(']', file);
}

static void write_window(FILE *file, const struct window *window)
{
    size_t i, first = 0, count = 0;
    json_number_of(file, "memory", window->bytes);
    json_name(file, "shown");
    fputc('[', file);
    for (i = 0; i < window->count; i++) {
        if (i + 1 < window->count && window->shown[i + 1] == window->shown[i] + 1)
            continue;
        fprintf(file, "%s[%lu,%lu]", count++ == 0 ? "" : ",", (unsigned long)(window->shown[first] * ROW_BYTES),
                (unsigned long)((i + 1 - first) * ROW_BYTES));
        first = i + 1;
    }
    fprintf(file, "],\"cut\":%s", window->cut ? "true" : "false");
}

/* ---- explanations ---- */

struct explanations {
    FILE *file;
    const struct session *session;
    size_t count, most; /* of places */
    size_t lines;       /* of the place at hand */
    int no_room;
};

static void write_explained(void *self, unsigned depth, const char *text, const struct origin *origin)
{
    struct explanations *all = self;
    (void)origin;
    fprintf(all->file, "%s[%u,", all->lines++ == 0 ? "" : ",", depth);
    json_text(all->file, text, strlen(text));
    fputc(']', all->file);
}

/* The explanation of a place, whose first byte is so far behind the first of all registers, or at this address. */
static void write_explanation(struct explanations *all, const struct place *place, size_t at)
{
    struct origin *root;
    if (all->count == all->most || all->no_room)
        return;
    root = origin_of(all->session, place, BYTE, 0);
    all->no_room = root == NULL;
    if (root == NULL)
        return;
    fprintf(all->file, "%s{\"space\":\"%s\",\"at\":%lu,\"bytes\":%u,\"lines\":[", all->count++ == 0 ? "\n" : ",\n",
            place->space == IN_MEMORY ? "memory" : "register", (unsigned long)at, (unsigned)place->bytes);
    all->lines = 0;
    all->no_room = !explain(root, write_explained, all);
    fputs("]}", all->file);
    origin_free(root);
}

/* The elements of a register that are written, or those that are not. */
static void explain_register(struct explanations *all, unsigned reg, unsigned width, int written)
{
    const struct device *device = &all->session->device;
    unsigned row, column;
    for (row = 0; row < register_rows(device); row++)
        for (column = 0; column < register_row_bytes(device, reg) / width; column++)
            if (element_written(device, reg, row, column, width) == written) {
                struct place place = register_place(reg, row, column, width);
                write_explanation(all, &place, register_at(device, reg, row, column * width));
            }
}

/* Accumulators, then tile registers. */
static void explain_registers(struct explanations *all, const struct moments *moments, int written)
{
    const struct device *device = &all->session->device;
    unsigned i, reg;
    for (i = 0; i < REGISTERS && device->started && device->mlen <= BYTES_MLEN_MOST; i++) {
        reg = (i + ACCUMULATOR_0) % REGISTERS;
        if (written || moments->widths[reg] != 0)
            explain_register(all, reg, shown_width(moments, device, reg), written);
    }
}

/* Readings, then elements that are written, then those beside them that are not; of long runs few, since each is found by running the script again.
 * 0 if there is no room. */
static int write_explanations(FILE *file, const struct session *session, const struct moments *moments)
{
    struct explanations all = {file, session, 0, 512, 0, 0};
    size_t i;
    if (session->events > STEPS_MOST)
        all.most = 16;
    json_name(file, "explained");
    fputc('[', file);
    for (i = 0; i < moments->readings_count; i++)
        write_explanation(&all, &moments->readings[i], (size_t)moments->readings[i].at);
    explain_registers(&all, moments, 1);
    explain_registers(&all, moments, 0);
    fputc(']', file);
    return !all.no_room;
}

/* ---- what rests on memory that nobody entered ---- */

/* The readings that rest on a load, by their addresses and bytes. */
static void write_resting_readings(FILE *file, const struct moments *moments, unsigned bit)
{
    size_t i, count = 0;
    json_name(file, "readings");
    fputc('[', file);
    for (i = 0; i < moments->readings_count; i++)
        if ((absence_at(&moments->absence, &moments->readings[i]) & bit) != 0)
            fprintf(file, "%s[%" PRIu64 ",%" PRIu64 "]", count++ == 0 ? "" : ",", moments->readings[i].at, moments->readings[i].bytes);
    fputc(']', file);
}

/* The elements of an accumulator that rest on a load, by row, column and bytes. */
static void write_resting_elements(FILE *file, const struct moments *moments, const struct device *device, unsigned reg, unsigned bit, size_t *count)
{
    unsigned row, column, width = shown_width(moments, device, reg);
    for (row = 0; row < register_rows(device); row++)
        for (column = 0; column < register_row_bytes(device, reg) / width; column++) {
            struct place place = register_place(reg, row, column, width);
            if ((absence_at(&moments->absence, &place) & bit) != 0)
                fprintf(file, "%s[%u,%u,%u,%u]", (*count)++ == 0 ? "" : ",", reg, row, column, width);
        }
}

static void write_absences(FILE *file, const struct session *session, const struct moments *moments)
{
    const struct device *device = &session->device;
    size_t i, count;
    unsigned reg;
    json_name(file, "absent");
    fputc('[', file);
    for (i = 0; i < moments->absence.count; i++) {
        const struct absent *load = &moments->absence.loads[i];
        fprintf(file, "%s{\"step\":%lu,\"line\":%lu,\"first\":%" PRIu64 ",\"last\":%" PRIu64 ",\"bytes\":%" PRIu64, i == 0 ? "\n" : ",\n", load->step,
                load->line, load->first, load->last, load->bytes);
        write_resting_readings(file, moments, 1u << i);
        json_name(file, "elements");
        fputc('[', file);
        for (reg = ACCUMULATOR_0, count = 0; reg < REGISTERS && device->mlen <= BYTES_MLEN_MOST; reg++)
            write_resting_elements(file, moments, device, reg, 1u << i, &count);
        fputs("]}", file);
    }
    fputc(']', file);
}

/* ---- the page ---- */

/* All of the run; 0 if there is no room. */
static int write_run(FILE *file, const struct report *report, const struct session *session, const struct window *window, const uint8_t *kept)
{
    static struct moments moments;
    const char *slash = strrchr(session->reader.path, '/');
    int done;
    if (!moments_open(&moments, file, window, kept)) {
        moments_close(&moments);
        return 0;
    }
    fprintf(file, "{\"program\":\"bodlarina-bench %s\"", BODLARINA_VERSION);
    json_text_of(file, "script", slash == NULL ? session->reader.path : slash + 1);
    write_lines(file, report, session);
    write_window(file, window);
    json_name(file, "moments");
    fputc('[', file);
    done = observe(session, &moments, moment_before, moment_after, moment_line);
    fputc(']', file);
    json_number_of(file, "steps", session->device.steps);
    json_number_of(file, "left", moments.left_all);
    json_number_of(file, "refused", moments.refused);
    json_number_of(file, "failed", session->failures);
    write_absences(file, session, &moments);
    done = write_explanations(file, session, &moments) && done && !moments.no_room;
    fputc('}', file);
    moments_close(&moments);
    return done;
}

/* The page with the run in the place of its marker; 0, and ENOMEM in errno, if there is no room. */
static int write_page(FILE *file, const struct report *report, const struct session *session)
{
    const char *marker = strstr(page, PAGE_MARKER), *rest = marker + strlen(PAGE_MARKER);
    struct window window;
    uint8_t *kept = NULL;
    int done = window_open(&window, session->device.memory_bytes);
    if (done) {
        fwrite(page, 1, (size_t)(marker - page), file);
        done = choose(session, &window, &kept) && write_run(file, report, session, &window, kept);
        fwrite(rest, 1, (size_t)(page_end - rest), file);
        window_close(&window);
    }
    free(kept);
    if (!done)
        errno = ENOMEM;
    return done;
}

int report_write(const struct report *report, const struct session *session, const char *path)
{
    struct new_file file;
    if (report->lost) {
        fprintf(stderr, "%s: the report is not written: not all that was printed is kept for it\n", path);
        return 0;
    }
    if (new_file_open(&file, path) && new_file_close(&file, write_page(file.file, report, session)))
        return 1;
    fprintf(stderr, "%s: the report cannot be written: %s\n", path, strerror(errno));
    return 0;
}
