/* Firmware that sets a board up: it numbers the buses, sizes and places all regions, and enables the windows of
 * bridges and then the functions. Its accesses are those of pciguest_ops.h. To build and test it:
 *
 *     cc -Ilibrary -o enumerator examples/firmware/enumerator.c
 *     python3 -m pciguest.firmware_test -- ./enumerator */
#include <stdbool.h>
#include "pciguest_ops.h"

enum space { IO, MEM, PREF, SPACES };

static const uint64_t unit[SPACES] = { 0x1000, 0x100000, 0x100000 };

/* A region or a window that must be placed on a bus. A window has another bus behind it. */
struct item {
    enum space space;
    uint64_t size, alignment;
    uint32_t function, offset;
    bool is_wide;
    struct bus *behind;
};

/* A bus, and how many address bits the prefetchable windows of all bridges above it decode. */
struct bus {
    unsigned number, prefetchable_bits, count;
    struct item items[32 * 8 * 6];
};

static uint64_t first[SPACES], last[SPACES];
static bool is_there[SPACES];
static struct bus buses[256];
static unsigned last_number;

static void scan(struct bus *bus);

static struct item *add(struct bus *bus, enum space space, uint64_t size, uint32_t function, uint32_t offset)
{
    struct item *item = &bus->items[bus->count++];

    *item = (struct item){ .space = space, .size = size, .alignment = size, .function = function, .offset = offset };
    return item;
}

/* Returns what a register reads back after all ones were written. Then restores its value. */
static uint32_t probe(uint32_t function, uint32_t offset, int width)
{
    uint32_t old = pg_config_read(function, offset, width), ones;

    pg_config_write(function, offset, width, 0xFFFFFFFF >> (32 - 8 * width));
    ones = pg_config_read(function, offset, width);
    pg_config_write(function, offset, width, old);
    return ones;
}

/* Prefetchable memory gets separate addresses if all bridges above can forward them. */
static enum space memory_space(const struct bus *bus, bool is_prefetchable, bool is_wide)
{
    bool is_high = first[PREF] >> 32 != 0;

    if (!is_prefetchable || !is_there[PREF])
        return MEM;
    return bus->prefetchable_bits >= (is_high ? 64 : 32) && (is_wide || !is_high) ? PREF : MEM;
}

static void size_regions(struct bus *bus, uint32_t function)
{
    for (uint32_t offset = 0x10; offset < 0x28; offset += 4) {
        uint32_t low = probe(function, offset, 4);
        bool is_io = low & 1, is_wide = !is_io && (low & 6) == 4;
        uint64_t mask = low & (is_io ? ~UINT32_C(3) : ~UINT32_C(15));

        if (is_wide)
            mask |= (uint64_t)probe(function, offset + 4, 4) << 32;
        else if (mask != 0)
            mask |= UINT64_C(0xFFFFFFFF00000000);
        if (mask != 0)
            add(bus, is_io ? IO : memory_space(bus, low & 8, is_wide), ~mask + 1, function, offset)->is_wide = is_wide;
        offset += is_wide ? 4 : 0;
    }
}

/* Finds everything behind a bridge, and what each of its windows must forward. */
static void scan_bridge(struct bus *bus, uint32_t bridge)
{
    uint32_t io = probe(bridge, 0x1C, 2) & 0xF0F0, prefetchable = probe(bridge, 0x24, 4); /* Secondary Status is at 1Eh */
    unsigned bits = prefetchable == 0 ? 0 : prefetchable & 0xF ? 64 : 32;
    struct bus *behind = &buses[++last_number];

    behind->number = last_number;
    behind->prefetchable_bits = bits < bus->prefetchable_bits ? bits : bus->prefetchable_bits;
    pg_config_write(bridge, 0x18, 4, 0xFF0000 | behind->number << 8 | bus->number);
    scan(behind);
    pg_config_write(bridge, 0x1A, 1, last_number);
    add(bus, MEM, 0, bridge, 0x20)->behind = behind;
    if (io != 0)
        add(bus, IO, 0, bridge, 0x1C)->behind = behind;
    if (bits != 0)
        add(bus, PREF, 0, bridge, 0x24)->behind = behind;
}

static bool is_bridge(uint32_t function)
{
    return (pg_config_read(function, 0x0E, 1) & 0x7F) == 1;
}

static void each_function(struct bus *bus, void (*visit)(struct bus *, uint32_t))
{
    for (unsigned device = 0; device < 32; device++) {
        unsigned functions = pg_config_read(PG_BDF(bus->number, device, 0), 0x0E, 1) & 0x80 ? 8 : 1;
        for (unsigned n = 0; n < functions; n++) {
            uint32_t function = PG_BDF(bus->number, device, n);
            if (pg_config_read(function, 0x00, 2) == 0xFFFF) {
                if (n == 0)
                    break; /* no device */
                continue; /* a gap */
            }
            visit(bus, function);
        }
    }
}

/* Earlier firmware may have left functions enabled, and bridges with bus numbers that are about to be assigned again. */
static void quiet(struct bus *bus, uint32_t function)
{
    (void)bus;
    pg_config_write(function, 0x04, 2, 0);
    if (is_bridge(function))
        pg_config_write(function, 0x18, 4, 0);
}

static void examine(struct bus *bus, uint32_t function)
{
    if (is_bridge(function))
        scan_bridge(bus, function);
    else
        size_regions(bus, function);
}

static void scan(struct bus *bus)
{
    each_function(bus, quiet);
    each_function(bus, examine);
}

/* Places the items of a space relative to the first address of their bus, largest alignment first. Returns the end. */
static uint64_t pack(struct bus *bus, enum space space, uint64_t *alignment, void (*put)(struct item *, uint64_t),
                     uint64_t base)
{
    uint64_t end = 0;

    *alignment = 1;
    for (int bit = 63; bit >= 0; bit--) {
        for (unsigned n = 0; n < bus->count; n++) {
            struct item *item = &bus->items[n];
            if (item->space != space || item->alignment != UINT64_C(1) << bit || item->size == 0)
                continue;
            end = (end + item->alignment - 1) / item->alignment * item->alignment;
            if (*alignment < item->alignment)
                *alignment = item->alignment;
            if (put != NULL)
                put(item, base + end);
            end += item->size;
        }
    }
    return end;
}

/* Sizes the windows, from the last bus up: as large as everything behind them, in whole units. */
static void measure(struct bus *bus, enum space space)
{
    for (unsigned n = 0; n < bus->count; n++) {
        struct item *item = &bus->items[n];
        if (item->behind == NULL || item->space != space)
            continue;
        measure(item->behind, space);
        item->size = pack(item->behind, space, &item->alignment, NULL, 0);
        item->size = (item->size + unit[space] - 1) / unit[space] * unit[space];
        if (item->alignment < unit[space])
            item->alignment = unit[space];
    }
}

static void write_window(const struct item *window, uint64_t base, uint64_t limit)
{
    if (window->space == IO) {
        pg_config_write(window->function, 0x1C, 2, (base >> 8 & 0xF0) | (limit & 0xF000));
        pg_config_write(window->function, 0x30, 4, (uint32_t)(base >> 16 & 0xFFFF) | (uint32_t)(limit & 0xFFFF0000));
        return;
    }
    pg_config_write(window->function, window->offset, 4, (base >> 16 & 0xFFF0) | (limit & 0xFFF00000));
    if (window->space == PREF) {
        pg_config_write(window->function, 0x28, 4, (uint32_t)(base >> 32));
        pg_config_write(window->function, 0x2C, 4, (uint32_t)(limit >> 32));
    }
}

static void put(struct item *item, uint64_t at)
{
    uint64_t alignment;

    if (item->behind != NULL) {
        write_window(item, at, at + item->size - 1);
        pack(item->behind, item->space, &alignment, put, at);
        return;
    }
    pg_config_write(item->function, item->offset, 4, (uint32_t)at);
    if (item->is_wide)
        pg_config_write(item->function, item->offset + 4, 4, (uint32_t)(at >> 32));
}

/* Disables the windows of a bus's bridges that have nothing behind them. */
static void shut_windows(struct bus *bus)
{
    for (unsigned n = 0; n < bus->count; n++) {
        struct item *item = &bus->items[n];
        if (item->behind != NULL && item->size == 0)
            write_window(item, 0xFFFFF000, 0);
    }
}

/* Enables each function's spaces, after everything was placed. In bridges, it also sets Bus Master, so that they forward DMA. */
static void open_all(struct bus *bus)
{
    shut_windows(bus);
    for (unsigned n = 0; n < bus->count; n++) {
        struct item *item = &bus->items[n];
        uint32_t command = pg_config_read(item->function, 0x04, 2);

        if (item->behind != NULL && item->space == MEM)
            open_all(item->behind);
        pg_config_write(item->function, 0x04, 2, command | (item->behind ? 7 : item->space == IO ? 1 : 2));
    }
}

int main(void)
{
    static const char *const names[SPACES] = { "io", "mem", "pref" };
    struct bus *root = &buses[0];

    for (int space = 0; space < SPACES; space++)
        is_there[space] = pg_aperture(names[space], &first[space], &last[space]);
    root->prefetchable_bits = 64;
    scan(root);
    for (int space = 0; space < SPACES; space++) {
        uint64_t alignment, end;
        measure(root, (enum space)space);
        end = pack(root, (enum space)space, &alignment, NULL, 0);
        first[space] = (first[space] + alignment - 1) / alignment * alignment;
        if (end != 0 && (!is_there[space] || first[space] + end - 1 > last[space])) {
            fprintf(stderr, "%s: no room for 0x%" PRIx64 " bytes\n", names[space], end);
            return 1;
        }
        pack(root, (enum space)space, &alignment, put, first[space]);
    }
    open_all(root);
    return 0;
}
