#include "arguments.h"

#include <inttypes.h>
#include <stdarg.h>
#include <stdio.h>

/* The most rows and columns of a product run. */
#define SIZE_MOST 1024

/* Where a word of the line stands: 0 is the command, 1 the number behind it. */
static size_t argument_at(const struct session *session, unsigned index)
{
    struct reader reader = session->reader;
    struct span span;
    reader.at = session->command_at;
    do
        span = take_span(&reader);
    while (index-- > 0);
    return span.at;
}

/* Prints the refusal with a sentence about this word of the line. Returns 1. */
static int __attribute__((format(printf, 4, 5))) blame(const struct session *session, const char *what, unsigned index, const char *format, ...)
{
    const struct reader *reader = &session->reader;
    va_list list;
    printf("%s:%lu:%lu: %s: refused with %u, ", reader->path, reader->line,
           (unsigned long)(argument_at(session, index) - reader->line_start + 1), what, BODLARINA_ANSWER(session->device.result));
    va_start(list, format);
    vprintf(format, list);
    va_end(list);
    printf("\n");
    return 1;
}

/* ---- machine and seal ---- */

static int is_power(uint64_t value, uint64_t least, uint64_t most) { return value >= least && value <= most && (value & (value - 1)) == 0; }

/* The first of the ranges that ends above 2^64 - 1. */
static int blame_range(const struct session *session, size_t ranges)
{
    const uint64_t *range = session->device.seals;
    size_t i;
    for (i = 0; i < ranges; i++, range += 2)
        if (range[1] > UINT64_MAX - range[0])
            return blame(session, "machine", 0,
                         "sealed range %lu starts at %" PRIu64 ", and its LENGTH is %" PRIu64 "; at most %" PRIu64 " is permitted",
                         (unsigned long)(i + 1), range[0], range[1], UINT64_MAX - range[0]);
    return 0;
}

static int blame_length(const struct session *session)
{
    const struct device *device = &session->device;
    if (!is_power(device->rlen, 64, BODLARINA_RLEN_MOST))
        return blame(session, "machine", 1, "RLEN is %" PRIu64 "; a power of two from 64 to %d is permitted", device->rlen, BODLARINA_RLEN_MOST);
    if (!is_power(device->mlen, 128, BODLARINA_MLEN_MOST) || device->mlen <= device->rlen)
        return blame(session, "machine", 2, "MLEN is %" PRIu64 "; a power of two from 128 to %d, above RLEN, is permitted", device->mlen,
                     BODLARINA_MLEN_MOST);
    if (device->elen != 32 && (device->elen != BODLARINA_ELEN_MOST || device->rlen == 64))
        return blame(session, "machine", 3, "ELEN is %" PRIu64 "; 32 is permitted, and 64 where RLEN is above 64", device->elen);
    return 0;
}

void report_machine(const struct session *session, size_t ranges)
{
    if (session->device.result != BODLARINA_BAD_ARGUMENTS || session->silent || (!blame_length(session) && !blame_range(session, ranges)))
        report(session, "machine");
}

void report_seal(const struct session *session, uint64_t start, uint64_t length)
{
    if (session->device.result == BODLARINA_BAD_ARGUMENTS && !session->silent && length > UINT64_MAX - start)
        blame(session, "seal", 2, "LENGTH is %" PRIu64 "; from %" PRIu64 " on at most %" PRIu64 " is permitted", length, start,
              UINT64_MAX - start);
    else
        report(session, "seal");
}

/* ---- the widths and sizes of a product run ---- */

static int is_width(const struct session *session, uint64_t sew) { return sew >= 8 && sew <= session->device.elen && is_power(sew, 8, 64); }

static int blame_width(const struct session *session, const struct bodlarina_plan *plan)
{
    uint64_t elen = session->device.elen;
    if (plan->kind == BODLARINA_FLOAT && plan->sew != 32)
        return blame(session, "product", 1, "SEW is %" PRIu64 "; 32 is permitted with float", plan->sew);
    if (!is_width(session, plan->sew))
        return blame(session, "product", 1, "SEW is %" PRIu64 "; 8, 16%s is permitted", plan->sew, elen == 64 ? ", 32 or 64" : " or 32");
    if (plan->kind == BODLARINA_FLOAT && plan->factor != 1)
        return blame(session, "product", 2, "F is %" PRIu64 "; 1 is permitted with float", plan->factor);
    if (!is_power(plan->factor, 1, 4) || plan->factor * plan->sew > elen)
        return blame(session, "product", 2, "F is %" PRIu64 "; %s is permitted with SEW %" PRIu64 " and ELEN %" PRIu64, plan->factor,
                     elen / plan->sew >= 4 ? "1, 2 or 4" : elen / plan->sew == 2 ? "1 or 2" : "1", plan->sew, elen);
    return 0;
}

static int blame_size(const struct session *session, const struct bodlarina_plan *plan)
{
    static const char names[] = "MKN";
    uint64_t sizes[3];
    unsigned i;
    sizes[0] = plan->m;
    sizes[1] = plan->k;
    sizes[2] = plan->n;
    for (i = 0; i < 3; i++)
        if (sizes[i] > SIZE_MOST)
            return blame(session, "product", 3 + i, "%c is %" PRIu64 "; at most %d is permitted", names[i], sizes[i], SIZE_MOST);
    return 0;
}

/* ---- where the matrices lie ---- */

/* A matrix as it lies in memory; its name, and which word of the line its address is. */
struct matrix {
    char name;
    unsigned index;
    struct bodlarina_matrix where;
    uint64_t rows, row_bytes;
};

static void take_matrices(const struct bodlarina_plan *plan, struct matrix matrices[3])
{
    int transposed = plan->kind == BODLARINA_A_TRANSPOSED;
    uint64_t width = plan->sew / 8;
    struct matrix a = {'A', 6, plan->a, transposed ? plan->k : plan->m, width * (transposed ? plan->m : plan->k)};
    struct matrix b = {'B', 8, plan->b, plan->k, width * plan->n};
    struct matrix c = {'C', 10, plan->c, plan->m, plan->factor * width * plan->n};
    matrices[0] = a;
    matrices[1] = b;
    matrices[2] = c;
}

/* Whether a row lies in memory, and where it starts. */
static int row_lies(const struct session *session, const struct matrix *matrix, uint64_t row, uint64_t *start)
{
    uint64_t bytes = session->device.memory_bytes, stride = (uint64_t)matrix->where.stride;
    int down = matrix->where.stride < 0;
    uint64_t most = down ? matrix->where.address : bytes;
    if (down)
        stride = 0 - stride;
    if (row != 0 && stride > most / row)
        return 0;
    *start = down ? matrix->where.address - row * stride : matrix->where.address + row * stride;
    return *start >= (down ? 0 : matrix->where.address) && *start <= bytes && matrix->row_bytes <= bytes - *start;
}

static int blame_place(const struct session *session, const struct bodlarina_plan *plan)
{
    struct matrix matrices[3];
    uint64_t row, start;
    unsigned i;
    take_matrices(plan, matrices);
    for (i = 0; i < 3; i++)
        for (row = 0; matrices[i].row_bytes != 0 && row < matrices[i].rows; row++)
            if (!row_lies(session, &matrices[i], row, &start))
                return blame(session, "product", matrices[i].index, "row %" PRIu64 " of %c lies outside the %lu bytes of memory", row,
                             matrices[i].name, (unsigned long)session->device.memory_bytes);
    return 0;
}

/* Whether a row of C shares a byte with a row of this matrix; of C itself with a later row. */
static int blame_overlap(const struct session *session, const struct matrix *c, const struct matrix *other)
{
    uint64_t row, second, start, other_start;
    if (other->row_bytes == 0)
        return 0;
    for (row = 0; row < c->rows && row_lies(session, c, row, &start); row++)
        for (second = c == other ? row + 1 : 0; second < other->rows && row_lies(session, other, second, &other_start); second++)
            if (start < other_start + other->row_bytes && other_start < start + c->row_bytes)
                return c == other
                           ? blame(session, "product", c->index, "rows %" PRIu64 " and %" PRIu64 " of C share a byte", row, second)
                           : blame(session, "product", c->index, "row %" PRIu64 " of C and row %" PRIu64 " of %c share a byte", row, second,
                                   other->name);
    return 0;
}

static int blame_sealed(const struct session *session, const struct matrix *c)
{
    uint64_t row, start, sealed;
    for (row = 0; row < c->rows && row_lies(session, c, row, &start); row++)
        if (first_sealed(&session->device, start, c->row_bytes, &sealed))
            return blame(session, "product", c->index, "row %" PRIu64 " of C has a sealed byte: address %" PRIu64, row, sealed);
    return 0;
}

static int blame_c(const struct session *session, const struct bodlarina_plan *plan)
{
    struct matrix matrices[3];
    const struct matrix *c = &matrices[2];
    take_matrices(plan, matrices);
    return blame_overlap(session, c, c) || blame_overlap(session, c, &matrices[0]) || blame_overlap(session, c, &matrices[1])
           || blame_sealed(session, c);
}

void report_product(const struct session *session, const struct bodlarina_plan *plan)
{
    uint64_t result = session->device.result;
    int blamed = session->silent;
    if (blamed)
        return;
    if (result == BODLARINA_BAD_ARGUMENTS)
        blamed = blame_width(session, plan) || blame_size(session, plan);
    else if (result == BODLARINA_OUTSIDE_MEMORY)
        blamed = blame_place(session, plan);
    else if (result == BODLARINA_OVERLAP)
        blamed = blame_c(session, plan);
    if (!blamed)
        report(session, "product");
}
