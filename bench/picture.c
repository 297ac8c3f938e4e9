#include "picture.h"

#include <inttypes.h>
#include <stdio.h>

#include "files.h"

/* Lengths of the drawing. A cell is a byte; a register has room for its name, the numbers of its columns and those of its rows. */
enum { CELL = 14, CROSS = 8, LEFT = 26, HEAD = 34, GAP = 20, MARGIN = 16, LEGEND = 76, LINE_REGISTERS = 4, WIDTH_LEAST = 640 };

/* Below the registers: memory, and the addresses of so many sealed ranges a line. */
enum { MEMORY = 48, LINE_RANGES = 4 };

/* With more than CELLS_MOST bytes in a row of a tile register cells are less wide, with more rows less high, down to CELL_LEAST. Where MLEN is
 * above GRID_MLEN_MOST, neighbours of one kind are not drawn one by one but as one area. */
enum { CELLS_MOST = 64, CELL_LEAST = 2, GRID_MLEN_MOST = 4096 };

struct scale {
    unsigned width, height; /* of a cell */
    int areas;
};

static unsigned cell_length(unsigned cells)
{
    unsigned length = cells <= CELLS_MOST ? CELL : CELL * CELLS_MOST / cells;
    return length < CELL_LEAST ? CELL_LEAST : length;
}

static struct scale scale_of(const struct device *device)
{
    struct scale scale;
    scale.width = cell_length(register_row_bytes(device, 0));
    scale.height = cell_length(register_rows(device));
    scale.areas = device->mlen > GRID_MLEN_MOST;
    return scale;
}

/* A cell is drawn as one of these. */
enum kind { UNWRITTEN, WRITTEN, NAMED, KINDS };

static const char *const fills[KINDS] = {"#ffffff", "#4477aa", "#ee7733"};

static enum kind kind_of(const struct device *device, unsigned reg, unsigned row, unsigned byte)
{
    if (is_named(device, reg, row, byte))
        return NAMED;
    return device->marks[register_at(device, reg, row, byte)] != 0 ? WRITTEN : UNWRITTEN;
}

/* The part of a path that draws one cell or area, and for a named one a cross over its middle. */
static void draw_cell(FILE *file, unsigned x, unsigned y, unsigned width, unsigned height, int cross)
{
    unsigned left = x + width / 2 - CROSS / 2, top = y + height / 2 - CROSS / 2;
    fprintf(file, "M%u %uh%uv%uh-%uz", x, y, width, height, width);
    if (cross)
        fprintf(file, "M%u %ul%d %dM%u %ul-%d %d", left, top, CROSS, CROSS, left + CROSS, top, CROSS, CROSS);
}

/* The first row after this one that is not like it, and the first byte in a row after this one that is not of its kind. */
static unsigned next_row(const struct device *device, unsigned reg, unsigned row)
{
    unsigned next, byte;
    for (next = row + 1; next < register_rows(device); next++)
        for (byte = 0; byte < register_row_bytes(device, reg); byte++)
            if (kind_of(device, reg, next, byte) != kind_of(device, reg, row, byte))
                return next;
    return next;
}

static unsigned next_byte(const struct device *device, unsigned reg, unsigned row, unsigned byte)
{
    unsigned next = byte + 1;
    while (next < register_row_bytes(device, reg) && kind_of(device, reg, row, next) == kind_of(device, reg, row, byte))
        next++;
    return next;
}

/* All cells or areas of one kind as one path. */
static void draw_kind(FILE *file, const struct device *device, unsigned reg, unsigned x, unsigned y, enum kind kind)
{
    struct scale scale = scale_of(device);
    unsigned row, byte, row_after, byte_after, drawn = 0;
    for (row = 0; row < register_rows(device); row = row_after) {
        row_after = scale.areas ? next_row(device, reg, row) : row + 1;
        for (byte = 0; byte < register_row_bytes(device, reg); byte = byte_after) {
            byte_after = scale.areas ? next_byte(device, reg, row, byte) : byte + 1;
            if (kind_of(device, reg, row, byte) != kind)
                continue;
            if (drawn++ == 0)
                fprintf(file, "<path fill=\"%s\" stroke=\"%s\" d=\"", fills[kind], kind == NAMED ? "#000000" : "#999999");
            draw_cell(file, x + byte * scale.width, y + row * scale.height, (byte_after - byte) * scale.width,
                      (row_after - row) * scale.height, kind == NAMED);
        }
    }
    if (drawn != 0)
        fprintf(file, "\"/>\n");
}

static void draw_text(FILE *file, unsigned x, unsigned y, const char *anchor, unsigned number)
{
    fprintf(file, "<text x=\"%u\" y=\"%u\" text-anchor=\"%s\">%u</text>\n", x, y, anchor, number);
}

/* `every` or twice it, and so on: the first at which numbers beside cells of this length are so far apart. */
static unsigned numbered(unsigned every, unsigned length, unsigned apart)
{
    while (every * length < apart)
        every *= 2;
    return every;
}

/* A register with its name and the numbers of rows and of bytes in a row, its first cell at (x, y). */
static void draw_register(FILE *file, const struct device *device, unsigned reg, unsigned x, unsigned y)
{
    struct scale scale = scale_of(device);
    unsigned i, bytes = register_row_bytes(device, reg), every = bytes <= 16 ? 1 : numbered(4, scale.width, 2 * CELL);
    char name[8];
    enum kind kind;
    register_name(reg, name);
    fprintf(file, "<text x=\"%u\" y=\"%u\" font-weight=\"bold\" font-size=\"13\">%s</text>\n", x, y - 19, name);
    for (i = 0; i < bytes; i += every)
        draw_text(file, x + i * scale.width + scale.width / 2, y - 4, "middle", i);
    every = numbered(1, scale.height, CELL);
    for (i = 0; i < register_rows(device); i += every)
        draw_text(file, x - 4, y + i * scale.height + scale.height / 2 + 4, "end", i);
    for (kind = UNWRITTEN; kind < KINDS; kind++)
        draw_kind(file, device, reg, x, y, kind);
}

static void draw_legend(FILE *file, const struct device *device)
{
    static const char *const texts[KINDS] = {"never written", "written", "named by a refusal with 5"};
    const struct element *named = &device->named;
    unsigned kind, x = MARGIN;
    char name[8];
    fprintf(file, "<text x=\"%d\" y=\"%d\" font-size=\"13\">Marks, %s: RLEN %" PRIu64 ", MLEN %" PRIu64 "%s</text>\n", MARGIN, MARGIN + 10,
            scale_of(device).areas ? "areas of bytes" : "a cell a byte", device->rlen, device->mlen, device->elen == 64 ? ", ELEN 64" : "");
    for (kind = 0; kind < KINDS; kind++, x += 120) {
        fprintf(file, "<path fill=\"%s\" stroke=\"%s\" d=\"", fills[kind], kind == NAMED ? "#000000" : "#999999");
        draw_cell(file, x, MARGIN + 20, CELL, CELL, kind == NAMED);
        fprintf(file, "\"/>\n<text x=\"%u\" y=\"%d\">%s</text>\n", x + CELL + 5, MARGIN + 31, texts[kind]);
    }
    if (!named_stands(device))
        return;
    register_name(named->reg, name);
    fprintf(file, "<text x=\"%d\" y=\"%d\">Refused with 5: row %u, column %u of %s, elements of %u bits</text>\n", MARGIN, MARGIN + 52,
            named->row, named->column, name, 8 * named->width);
}

/* A tile register with the room around it. */
static unsigned box_width(const struct device *device) { return LEFT + register_row_bytes(device, 0) * scale_of(device).width + GAP; }
static unsigned box_height(const struct device *device) { return HEAD + register_rows(device) * scale_of(device).height + GAP; }

/* Tile registers four a line, then each accumulator on a line of its own, which is as wide as four. */
static void draw_registers(FILE *file, const struct device *device)
{
    unsigned reg, line, place;
    for (reg = 0; reg < REGISTERS; reg++) {
        line = reg < ACCUMULATOR_0 ? reg / LINE_REGISTERS : ACCUMULATOR_0 / LINE_REGISTERS + reg - ACCUMULATOR_0;
        place = reg < ACCUMULATOR_0 ? reg % LINE_REGISTERS : 0;
        draw_register(file, device, reg, MARGIN + place * box_width(device) + LEFT, LEGEND + line * box_height(device) + HEAD);
    }
}

/* The part of a sealed range that lies in memory: its first and last byte; 0 if there is none. */
static int sealed_part(const struct device *device, size_t i, uint64_t *first, uint64_t *last)
{
    uint64_t length;
    device_seal_at(device, i, first, &length);
    if (length == 0 || *first >= device->memory_bytes)
        return 0;
    *last = *first + (length - 1) < device->memory_bytes ? *first + (length - 1) : device->memory_bytes - 1;
    return 1;
}

/* How many sealed ranges have a part in memory. */
static unsigned sealed_parts(const struct device *device)
{
    uint64_t first, last;
    unsigned count = 0;
    size_t i;
    for (i = 0; i < device_seals(device); i++)
        count += sealed_part(device, i, &first, &last) ? 1 : 0;
    return count;
}

/* Memory as one bar, its sealed ranges on it and their first and last addresses below. */
static void draw_memory(FILE *file, const struct device *device, unsigned width, unsigned y)
{
    unsigned length = width - 2 * MARGIN, drawn = 0;
    double unit = (double)length / (double)device->memory_bytes;
    uint64_t first, last;
    size_t i;
    fprintf(file, "<text x=\"%d\" y=\"%u\" font-weight=\"bold\" font-size=\"13\">memory, %lu bytes; sealed:</text>\n", MARGIN, y,
            (unsigned long)device->memory_bytes);
    fprintf(file, "<rect x=\"%d\" y=\"%u\" width=\"%u\" height=\"%d\" fill=\"#ffffff\" stroke=\"#999999\"/>\n", MARGIN, y + 6, length, CELL);
    for (i = 0; i < device_seals(device); i++)
        if (sealed_part(device, i, &first, &last)) {
            fprintf(file, "<rect x=\"%.2f\" y=\"%u\" width=\"%.2f\" height=\"%d\" fill=\"#ccbb44\" stroke=\"#999999\"/>\n",
                    MARGIN + unit * (double)first, y + 6, unit * (double)(last - first + 1), CELL);
            fprintf(file, "<text x=\"%u\" y=\"%u\">%" PRIu64 " to %" PRIu64 "</text>\n", MARGIN + drawn % LINE_RANGES * length / LINE_RANGES,
                    y + 34 + drawn / LINE_RANGES * CELL, first, last);
            drawn++;
        }
}

static void draw(FILE *file, const struct device *device)
{
    unsigned width = 2 * MARGIN + LINE_REGISTERS * box_width(device), registers = LEGEND + 4 * box_height(device);
    unsigned sealed = sealed_parts(device), height = registers + (sealed == 0 ? 0 : MEMORY + (sealed - 1) / LINE_RANGES * CELL);
    if (width < WIDTH_LEAST)
        width = WIDTH_LEAST;
    fprintf(file, "<svg xmlns=\"http://www.w3.org/2000/svg\" width=\"%u\" height=\"%u\" viewBox=\"0 0 %u %u\" "
                  "font-family=\"sans-serif\" font-size=\"9\">\n<title>Marks of the registers</title>\n"
                  "<rect width=\"%u\" height=\"%u\" fill=\"#ffffff\"/>\n", width, height, width, height, width, height);
    draw_legend(file, device);
    draw_registers(file, device);
    if (sealed != 0)
        draw_memory(file, device, width, registers + 6);
    fprintf(file, "</svg>\n");
}

int write_picture(const struct device *device, const char *path)
{
    struct new_file picture;
    if (!new_file_open(&picture, path))
        return 0;
    draw(picture.file, device);
    return new_file_close(&picture, 1);
}
