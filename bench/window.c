#include "window.h"

#include <stdlib.h>
#include <string.h>

enum { UNTOUCHED, TOUCHED, STORED };

int window_open(struct window *window, size_t bytes)
{
    memset(window, 0, sizeof *window);
    window->bytes = bytes;
    window->rows = (bytes + ROW_BYTES - 1) / ROW_BYTES;
    window->touched = calloc(window->rows + 1, 1);
    return window->touched != NULL;
}

void window_close(struct window *window)
{
    free(window->touched);
    window->touched = NULL;
}

void window_touch(struct window *window, uint64_t address, uint64_t bytes, int stored)
{
    uint64_t row;
    if (bytes == 0 || address >= window->bytes || bytes > window->bytes - address)
        return;
    for (row = address / ROW_BYTES; row <= (address + bytes - 1) / ROW_BYTES; row++)
        if (stored || window->touched[row] == UNTOUCHED)
            window->touched[row] = stored ? STORED : TOUCHED;
}

/* Marks the first rows of a kind as shown, until so many are. */
static size_t show_first(const struct window *window, uint8_t *shows, uint8_t kind, size_t count, size_t most)
{
    size_t row;
    for (row = 0; row < window->rows && count < most; row++)
        if (window->touched[row] >= kind && !shows[row]) {
            shows[row] = 1;
            count++;
        }
    return count;
}

int window_choose(struct window *window)
{
    uint8_t kind = window->rows <= ROWS_MOST ? UNTOUCHED : TOUCHED;
    uint8_t *shows = calloc(window->rows + 1, 1);
    size_t row, count;
    if (shows == NULL)
        return 0;
    count = show_first(window, shows, STORED, 0, ROWS_MOST / 2);
    show_first(window, shows, kind, count, ROWS_MOST);
    for (row = 0; row < window->rows; row++)
        if (shows[row])
            window->shown[window->count++] = row;
        else if (window->touched[row] != UNTOUCHED)
            window->cut = 1;
    free(shows);
    return 1;
}

int window_meets(const struct window *window, uint64_t address, uint64_t bytes)
{
    size_t low = 0, high = window->count;
    while (low < high) { /* the first row that ends behind the address */
        size_t middle = low + (high - low) / 2;
        if ((window->shown[middle] + 1) * ROW_BYTES <= address)
            low = middle + 1;
        else
            high = middle;
    }
    return bytes != 0 && low < window->count && window->shown[low] * ROW_BYTES < address + bytes;
}
