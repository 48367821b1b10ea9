/* Compares what the library reports about functions of boards/main.toml with their registers. Programs include this file. */
#ifndef FUNCTIONS_H
#define FUNCTIONS_H

#include "testing.h"

enum { FUNCTIONS = 4 };

static const char *const paths[FUNCTIONS] = {"1.0", "2.0", "2.0/0.0", "2.0/1.0"};

/* Reads a function's registers at the BDF that was reported. Each program defines this itself. */
static uint64_t header(const struct pciguest_function *row, uint64_t offset, uint32_t width);

/* Compares regions, except their sizes, with base address registers. A placed region's base isn't 0; a bridge has none. */
static void compare_bars(const struct pciguest_function *row, bool are_placed)
{
    for (uint32_t n = 0; n < PCIGUEST_BARS; n++) {
        const struct pciguest_bar *bar = &row->regions[n];
        uint64_t low = row->is_bridge ? 0 : header(row, 0x10 + 4 * n, 4);
        uint64_t is_io = low & 1, is_64_bit = !is_io && (low & 6) == 4;
        uint64_t high = is_64_bit ? header(row, 0x14 + 4 * n, 4) : 0;

        if (bar->size == 0) {
            IS(low | bar->first | bar->space | bar->prefetchable | bar->is_64_bit, 0);
            continue;
        }
        IS(bar->space, is_io ? PCIGUEST_IO : PCIGUEST_MEMORY);
        IS(bar->first, high << 32 | (low & (is_io ? ~3ull : ~15ull)));
        IS(bar->prefetchable, is_io ? 0 : low >> 3 & 1);
        IS(bar->is_64_bit, is_64_bit);
        IS(bar->size & (bar->size - 1), 0);
        IS(bar->first % bar->size, 0);
        IS(are_placed && low == 0, 0);
        if (is_64_bit)
            IS(row->regions[++n].size, 0);
    }
}

/* A window by its base and limit, each of which has bits that count units. An endpoint has none, whatever stands there. */
static void compare_window(const struct pciguest_function *row, int n, uint64_t base, uint64_t limit, uint64_t unit)
{
    uint64_t first = base * unit, last = limit * unit + unit - 1;
    bool is_there = row->is_bridge && first <= last;

    IS(row->windows[n].is_there, is_there);
    IS(row->windows[n].first, is_there ? first : 0);
    IS(row->windows[n].last, is_there ? last : 0);
}

/* The bridge of the board has windows for I/O of 16 bits, for memory, and for prefetchable memory of 64 bits. */
static void compare_windows(const struct pciguest_function *row)
{
    uint64_t high = header(row, 0x28, 4) << 12, top = header(row, 0x2c, 4) << 12;

    compare_window(row, 0, header(row, 0x1c, 1) >> 4, header(row, 0x1d, 1) >> 4, 0x1000);
    compare_window(row, 1, header(row, 0x20, 2) >> 4, header(row, 0x22, 2) >> 4, 0x100000);
    compare_window(row, 2, high | header(row, 0x24, 2) >> 4, top | header(row, 0x26, 2) >> 4, 0x100000);
}

#endif
