/* A host in C: takes over a machine from an image that a bench saved, shows what it holds, goes on with it, hands it on, and keeps what is whole
 * of an image that was cut short.
 *
 *     make lib
 *     cc -std=c99 -Wall -Wextra -pedantic -Iinclude examples/image.c target/staticlib/libbodlarina.a -o image
 *     ./image bench/examples/handover.img
 *
 * or, where the library is installed,
 *
 *     cc examples/image.c $(pkg-config --cflags --libs bodlarina) -o image && ./image bench/examples/handover.img
 *
 * It writes examples/image.out. bench/examples/handover.bench is the script that saved the image.
 */
#include <inttypes.h>
#include <stdio.h>
#include <string.h>

#include "bodlarina_words.h"

/* No image is as long as ROOM. */
enum { ROOM = BODLARINA_IMAGE_BYTES_MOST(BODLARINA_MLEN_MOST) + 1, READINGS = 24, READINGS_STRIDE = 8, MEMORY_BYTES = 48 };

/* Room for the registers of any machine; the image says how much of it is lent. */
static uint8_t machine[BODLARINA_MACHINE_BYTES], registers[BODLARINA_REGISTER_BYTES(BODLARINA_MLEN_MOST)], marks[sizeof registers];
static uint8_t scalars[BODLARINA_SCALAR_BYTES], memory[MEMORY_BYTES], image[ROOM], again[ROOM];

static struct bodlarina_bench bench = {
    machine, sizeof machine, registers, 0, marks, 0, scalars, sizeof scalars, memory, sizeof memory, NULL, 0, /* no product run */
    BODLARINA_SMALLER, 32, /* the image gives the rule and ELEN */
    NULL, 0, 0, /* no vector registers */
};

/* The whole file; its length, or 0 if it can't be read. */
static size_t read_image(const char *path)
{
    FILE *file = fopen(path, "rb");
    size_t length = 0;
    if (file != NULL) {
        length = fread(image, 1, sizeof image, file);
        fclose(file);
    }
    return length;
}

/* What a result says. */
static void explain(const char *what, uint64_t result)
{
    printf("%s: ", what);
    if (BODLARINA_ANSWER(result) != 0)
        printf("refused with %u, ", BODLARINA_ANSWER(result));
    printf("%s", bodlarina_answer_text(result));
    if (BODLARINA_ANSWER(result) == BODLARINA_DAMAGED)
        printf(", place %" PRIu64, BODLARINA_PLACE(result));
    printf("\n");
}

/* Reads an image into buffers of its machine's size; 0 if it is refused. */
static int take_over(const char *what, const uint8_t *bytes, size_t length)
{
    uint64_t result;
    bench.registers_len = bench.marks_len = BODLARINA_REGISTER_BYTES(bodlarina_image_mlen(bytes, length));
    result = bodlarina_bench_image_read(&bench, bytes, length);
    explain(what, result);
    return result == 0;
}

static void show_numbers(void)
{
    static const char *const names[] = {"RLEN", "MLEN", "mtype", "tile_m", "tile_k", "tile_n"};
    for (unsigned i = 0; i < 6; i++)
        printf("  %-11s %4" PRIu64 "\n", names[i], bodlarina_get64(machine + 8 * i));
    for (unsigned i = 0; i < bodlarina_get64(machine + BODLARINA_MACHINE_SEALS_AT); i++)
        printf("  %-11s %4" PRIu64 ", %" PRIu64 " bytes\n", "sealed from", bodlarina_get64(machine + BODLARINA_MACHINE_SEAL_AT(i)),
               bodlarina_get64(machine + BODLARINA_MACHINE_SEAL_AT(i) + 8));
}

/* The bytes of tr0 that are written. */
static void show_tr0(void)
{
    size_t row_bytes = (size_t)bodlarina_get64(machine + BODLARINA_MACHINE_RLEN_AT) / 8;
    size_t bytes = (size_t)bodlarina_get64(machine + BODLARINA_MACHINE_MLEN_AT) / 8;
    for (size_t i = 0; i < bytes; i++) {
        if (marks[i] != 0)
            printf(" %4u", registers[i]);
        else
            printf("   --");
        if (i % row_bytes == row_bytes - 1)
            printf("\n");
    }
}

/* Writes the image again and compares it with the one that was read. */
static void hand_on(size_t length)
{
    uint64_t size = BODLARINA_LENGTH(bodlarina_bench_image_size(&bench)), result;
    explain("write it into one byte less", bodlarina_bench_image_write(&bench, again, (size_t)size - 1));
    result = bodlarina_bench_image_write(&bench, again, sizeof again);
    explain("write it", result);
    printf("  %" PRIu64 " bytes, %s\n", BODLARINA_LENGTH(result),
           BODLARINA_LENGTH(result) == length && memcmp(image, again, length) == 0 ? "those that were read" : "NOT THOSE THAT WERE READ");
}

/* A signed 32-bit element of memory, low byte first. */
static int32_t element32(size_t at)
{
    uint32_t x = 0;
    for (unsigned i = 0; i < 4; i++)
        x |= (uint32_t)memory[at + i] << (8 * i);
    return x < 0x80000000u ? (int32_t)x : -(int32_t)(0xffffffffu - x) - 1;
}

static void store_readings(const char *what, uint64_t address)
{
    bodlarina_bench_set_scalar(&bench, 10, address);
    bodlarina_bench_set_scalar(&bench, 11, READINGS_STRIDE);
    explain(what, bodlarina_bench_step(&bench, bodlarina_msce32_m(0, 10, 11)));
}

/* Keeps what is whole of an image that was cut short, and takes that machine over; the readings that are lost are not stored. */
static void salvage(size_t length)
{
    uint8_t report[BODLARINA_REPORT_BYTES];
    uint64_t result = bodlarina_image_salvage(image, length, again, sizeof again, report, sizeof report);
    explain("salvage it", result);
    if (BODLARINA_ANSWER(result) != BODLARINA_DONE)
        return;
    printf("  kept %" PRIu64 " of %" PRIu64 " runs, cut at byte %" PRIu64 "\n", bodlarina_get64(report + BODLARINA_REPORT_KEPT_AT),
           bodlarina_get64(report + BODLARINA_REPORT_ANNOUNCED_AT), bodlarina_get64(report + BODLARINA_REPORT_PLACE_AT));
    if (take_over("read what is kept", again, (size_t)BODLARINA_LENGTH(result)))
        store_readings("store the readings", READINGS);
}

int main(int count, char **words)
{
    size_t length = count == 2 ? read_image(words[1]) : 0;
    if (length == 0) {
        fprintf(stderr, "usage: image FILE, an image that a bench saved\n");
        return 1;
    }
    if (!take_over("read the image", image, length))
        return 1;
    show_numbers();
    printf("tr0, the counts\n");
    show_tr0();
    hand_on(length);

    store_readings("store the readings behind the seal", READINGS);
    for (unsigned i = 0; i < 3; i++)
        printf("  %6" PRId32 " %6" PRId32 "\n", element32(READINGS + READINGS_STRIDE * i), element32(READINGS + READINGS_STRIDE * i + 4));
    store_readings("store them over the counts", 0);

    take_over("read it without its last byte", image, length - 1);
    salvage(length - 1);
    image[1] = 5; /* the exponent of RLEN */
    take_over("read it with an RLEN of 32", image, length);
    return 0;
}
