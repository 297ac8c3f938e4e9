/* main [--edges FILE] [--new] FILE..: runs a harness on each file, as libFuzzer does, where neither that nor AFL++ is installed. If the library was
 * compiled with counters (tests/fuzz/library), it says how many of its edges were taken, and with --edges also with those of earlier calls, which
 * are kept in that file; with --new it prints each file that takes an edge which none before it takes. */
#define _DEFAULT_SOURCE

#include <stddef.h>
#include <stdint.h>
#include <stdio.h>
#include <stdlib.h>
#include <string.h>

int LLVMFuzzerTestOneInput(const uint8_t *data, size_t size);
int LLVMFuzzerInitialize(int *count, char ***words) __attribute__((weak));
void __sanitizer_cov_8bit_counters_init(uint8_t *first, uint8_t *end);
void __sanitizer_cov_pcs_init(const uintptr_t *first, const uintptr_t *end);

enum { INPUT_MOST = 1048576, EDGES_MOST = 65536, PARTS_MOST = 64 };

/* The counters of each object file that has some, and which of them were ever above 0, one after the other. */
static struct {
    uint8_t *first, *end;
} parts[PARTS_MOST];
static size_t part_count;
static uint8_t taken[EDGES_MOST];

void __sanitizer_cov_8bit_counters_init(uint8_t *first, uint8_t *end)
{
    if (part_count < PARTS_MOST && first != end && (part_count == 0 || parts[part_count - 1].first != first)) {
        parts[part_count].first = first;
        parts[part_count++].end = end;
    }
}

void __sanitizer_cov_pcs_init(const uintptr_t *first, const uintptr_t *end)
{
    (void)first;
    (void)end;
}

static size_t edge_count(void)
{
    size_t i, all = 0;
    for (i = 0; i < part_count; i++)
        all += (size_t)(parts[i].end - parts[i].first);
    return all < EDGES_MOST ? all : EDGES_MOST;
}

/* Takes the counters over; how many edges were not taken before. */
static size_t count_new(void)
{
    size_t i, at = 0, count = 0;
    uint8_t *counter;
    for (i = 0; i < part_count; i++)
        for (counter = parts[i].first; counter < parts[i].end && at < EDGES_MOST; counter++, at++) {
            count += *counter != 0 && !taken[at];
            taken[at] |= *counter != 0;
            *counter = 0;
        }
    return count;
}

static size_t count_taken(void)
{
    size_t i, count = 0;
    for (i = 0; i < EDGES_MOST; i++)
        count += taken[i];
    return count;
}

/* Adds those of the file, and writes all to it. */
static int keep_edges(const char *path)
{
    static uint8_t before[EDGES_MOST];
    FILE *file = fopen(path, "rb");
    size_t i, length = 0;
    if (file != NULL) {
        length = fread(before, 1, sizeof before, file);
        fclose(file);
    }
    for (i = 0; i < length; i++)
        taken[i] |= before[i];
    file = fopen(path, "wb");
    return file != NULL && fwrite(taken, 1, edge_count(), file) == edge_count() && fclose(file) == 0;
}

/* An input in a block of its own length. */
static int run_file(const char *path)
{
    static uint8_t bytes[INPUT_MOST];
    FILE *file = fopen(path, "rb");
    uint8_t *input;
    size_t length;
    if (file == NULL) {
        dprintf(2, "%s cannot be opened\n", path);
        return 0;
    }
    length = fread(bytes, 1, sizeof bytes, file);
    fclose(file);
    input = malloc(length + (length == 0));
    if (input == NULL)
        return 0;
    memcpy(input, bytes, length);
    LLVMFuzzerTestOneInput(input, length);
    free(input);
    return 1;
}

int main(int count, char **words)
{
    const char *edges = NULL;
    int i = 1, print = 0, done = 1;
    if (LLVMFuzzerInitialize)
        LLVMFuzzerInitialize(&count, &words);
    if (i + 1 < count && strcmp(words[i], "--edges") == 0) {
        edges = words[i + 1];
        i += 2;
    }
    if (i < count && strcmp(words[i], "--new") == 0) {
        print = 1;
        i++;
    }
    for (; i < count; i++) {
        done &= run_file(words[i]);
        if (count_new() > 0 && print)
            dprintf(2, "%s\n", words[i]);
    }
    if (part_count > 0 && !print)
        dprintf(2, "%zu of %zu edges of the library", count_taken(), edge_count());
    if (edges != NULL) {
        done &= keep_edges(edges);
        dprintf(2, ", %zu with those of the harnesses before", count_taken());
    }
    if (part_count > 0 && !print)
        dprintf(2, "\n");
    return !done;
}
