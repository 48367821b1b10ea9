/* Firmware that works like coreboot: it scans the buses, reads what each function needs, computes the windows of
 * bridges from the last bus up, allocates addresses from bus 0 down, and then enables the functions. If there is no
 * room for a resource, the resource stays disabled, a message is written to standard error, everything else is set
 * up, and the status is 1. The accesses are those of libpayload, through ports CF8h and CFCh. To build and test it:
 *
 *     cc -Ilibrary -o allocator examples/firmware/allocator.c
 *     python3 -m pciguest.firmware_test -- ./allocator
 *
 * A board leaves some choices to firmware, and this firmware makes other choices than enumerator.c: where in an
 * aperture a resource is placed, and in which order; whether alignment gaps are used; how much larger a window is
 * than what is behind it; and whether functions that fit are set up if others don't fit. It also makes its own
 * choices for whether prefetchable regions are placed in prefetchable windows, whether Command enables spaces that a
 * function doesn't use, and all registers that don't affect routing: Interrupt Line, Cache Line Size, Latency Timer
 * and the other bits of Command. */
#include <stdbool.h>
#include "pciguest_ops.h"

enum space { IO, MEM, PREF, SPACES };

struct bus;

/* A resource that needs addresses: a region, or a bridge's window for the bus behind it. */
struct resource {
    enum space space;
    uint32_t device, offset;
    uint64_t size, alignment, base;
    bool is_wide, is_placed;
    struct bus *behind;
};

/* A function that was found, with its resources: up to six regions or three windows. */
struct function {
    uint32_t device;
    bool is_bridge;
    struct bus *behind;
    struct resource resources[6];
    unsigned count;
};

/* A bus, and how many address bits the prefetchable windows of all bridges above it decode. */
struct bus {
    unsigned number, prefetchable_bits, count;
    struct function *functions[32 * 8];
};

/* Free ranges of addresses, in order. */
struct ranges {
    unsigned count;
    struct { uint64_t first, last; } free[32 * 8 * 6 + 1];
};

static const char *const names[SPACES] = { "io", "mem", "pref" };
static const uint64_t unit[SPACES] = { 0x1000, 0x100000, 0x100000 };
static uint64_t first[SPACES], last[SPACES];
static bool is_there[SPACES];
static struct function functions[1024];
static struct bus buses[256];
static unsigned function_count, last_number, left_out;

static void scan(struct bus *bus);

/* libpayload's number for a function */
static uint32_t device_of(unsigned bus, unsigned device, unsigned function)
{
    return UINT32_C(0x80000000) | PG_BDF(bus, device, function) << 8;
}

static struct resource *add(struct function *function, enum space space, uint32_t offset)
{
    struct resource *resource = &function->resources[function->count++];

    *resource = (struct resource){ .space = space, .device = function->device, .offset = offset };
    return resource;
}

/* ---- scan and sizes */

static uint32_t ones_of(uint32_t device, uint16_t offset)
{
    uint32_t old = pg_read_config32(device, offset), ones;

    pg_write_config32(device, offset, 0xFFFFFFFF);
    ones = pg_read_config32(device, offset);
    pg_write_config32(device, offset, old);
    return ones;
}

/* Prefetchable memory gets separate addresses if all bridges above can forward them. */
static bool can_prefetch(const struct bus *bus, uint32_t type)
{
    bool is_high = first[PREF] >> 32 != 0;

    if (!is_there[PREF] || !(type & 8))
        return false;
    return is_high ? (type & 4) && bus->prefetchable_bits == 64 : bus->prefetchable_bits >= 32;
}

static void read_regions(const struct bus *bus, struct function *function)
{
    for (unsigned n = 0; n < 6; n++) {
        uint16_t offset = (uint16_t)(0x10 + 4 * n);
        uint32_t low = ones_of(function->device, offset);
        bool is_wide = (low & 7) == 4;
        uint64_t mask = low & (low & 1 ? ~UINT32_C(3) : ~UINT32_C(15));
        struct resource *region;

        if (is_wide)
            mask |= (uint64_t)ones_of(function->device, offset + 4) << 32;
        else if (mask)
            mask |= UINT64_C(0xFFFFFFFF) << 32;
        n += is_wide;
        if (!mask)
            continue;
        region = add(function, low & 1 ? IO : can_prefetch(bus, low) ? PREF : MEM, offset);
        region->size = region->alignment = ~mask + 1;
        region->is_wide = is_wide;
    }
}

/* Returns whether a bridge has an I/O window. The upper half of the same 4 bytes is Secondary Status, so 2 bytes are accessed. */
static bool has_ports(uint32_t bridge)
{
    uint16_t old = pg_read_config16(bridge, 0x1C), ones;

    pg_write_config16(bridge, 0x1C, 0xFFFF);
    ones = pg_read_config16(bridge, 0x1C);
    pg_write_config16(bridge, 0x1C, old);
    return (ones & 0xF0F0) != 0;
}

/* Numbers the buses behind a bridge, and finds out which windows it has. */
static void scan_bridge(const struct bus *bus, struct function *bridge)
{
    uint32_t prefetchable = ones_of(bridge->device, 0x24);
    unsigned bits = !prefetchable ? 0 : prefetchable & 1 ? 64 : 32;
    bool has_io = has_ports(bridge->device);
    struct bus *behind = bridge->behind = &buses[++last_number];

    *behind = (struct bus){ .number = last_number, .prefetchable_bits = bits };
    if (behind->prefetchable_bits > bus->prefetchable_bits)
        behind->prefetchable_bits = bus->prefetchable_bits;
    pg_write_config8(bridge->device, 0x18, (uint8_t)bus->number);
    pg_write_config8(bridge->device, 0x19, (uint8_t)behind->number);
    pg_write_config8(bridge->device, 0x1A, 0xFF);
    scan(behind);
    pg_write_config8(bridge->device, 0x1A, (uint8_t)last_number);
    add(bridge, MEM, 0x20)->behind = behind;
    if (has_io)
        add(bridge, IO, 0x1C)->behind = behind;
    if (bits)
        add(bridge, PREF, 0x24)->behind = behind;
}

/* Earlier firmware may have left functions enabled, and bridges with bus numbers that are about to be assigned again. */
static void found(struct bus *bus, uint32_t device)
{
    struct function *function = &functions[function_count++];

    *function = (struct function){ .device = device, .is_bridge = (pg_read_config8(device, 0x0E) & 0x7F) == 1 };
    bus->functions[bus->count++] = function;
    pg_write_config16(device, 0x04, (uint16_t)(pg_read_config16(device, 0x04) & ~3));
    if (function->is_bridge)
        pg_write_config32(device, 0x18, 0);
}

static void scan(struct bus *bus)
{
    for (unsigned n = 0; n < 32 * 8; n++) {
        uint32_t device = device_of(bus->number, n / 8, n % 8);

        if (pg_read_config16(device, 0x00) != 0xFFFF)
            found(bus, device);
        else if (n % 8 == 0)
            n += 7; /* no device */
        if (n % 8 == 0 && !(pg_read_config8(device, 0x0E) & 0x80))
            n += 7;
    }
    for (unsigned n = 0; n < bus->count; n++) {
        if (bus->functions[n]->is_bridge)
            scan_bridge(bus, bus->functions[n]);
        else
            read_regions(bus, bus->functions[n]);
    }
}

/* ---- addresses */

/* Allocates the lowest free addresses that suit a resource. */
static bool take(struct ranges *ranges, struct resource *resource)
{
    for (unsigned n = 0; n < ranges->count; n++) {
        uint64_t from = ranges->free[n].first, to = ranges->free[n].last;
        uint64_t base = (from + resource->alignment - 1) & ~(resource->alignment - 1);

        if (base > to || to - base < resource->size - 1)
            continue;
        resource->base = base;
        ranges->free[n].first = base + resource->size;
        if (base > from) { /* the gap remains free */
            memmove(&ranges->free[n + 1], &ranges->free[n], (ranges->count++ - n) * sizeof ranges->free[0]);
            ranges->free[n].first = from;
            ranges->free[n].last = base - 1;
        }
        return true;
    }
    return false;
}

/* The next resource of a bus in a space: largest alignment first, then in the order in which they were found. */
static struct resource *next_of(struct bus *bus, enum space space, const struct resource *before)
{
    struct resource *best = NULL;

    for (unsigned n = 0; n < bus->count * 6; n++) {
        struct resource *each = &bus->functions[n / 6]->resources[n % 6];
        if (n % 6 >= bus->functions[n / 6]->count || each->space != space || each->size == 0)
            continue;
        if (before && (each->alignment > before->alignment || (each->alignment == before->alignment && each <= before)))
            continue;
        if (!best || each->alignment > best->alignment)
            best = each;
    }
    return best;
}

static void compute(struct bus *bus, enum space space);

/* The size and alignment of a window: those of everything behind it, in whole units. */
static void compute_window(struct resource *window)
{
    static struct ranges ranges;
    uint64_t end = 0;

    compute(window->behind, window->space);
    ranges.count = 1;
    ranges.free[0].first = 0;
    ranges.free[0].last = UINT64_MAX >> 1;
    window->alignment = unit[window->space];
    for (struct resource *each = NULL; (each = next_of(window->behind, window->space, each)) != NULL;) {
        take(&ranges, each);
        end = each->base + each->size > end ? each->base + each->size : end;
        if (each->alignment > window->alignment)
            window->alignment = each->alignment;
    }
    window->size = (end + unit[window->space] - 1) / unit[window->space] * unit[window->space];
}

static void compute(struct bus *bus, enum space space)
{
    for (unsigned n = 0; n < bus->count * 6; n++) {
        struct function *function = bus->functions[n / 6];
        if (function->behind && n % 6 < function->count && function->resources[n % 6].space == space)
            compute_window(&function->resources[n % 6]);
    }
}

static void write_window(const struct resource *window, uint64_t base, uint64_t limit)
{
    if (window->space == IO) {
        pg_write_config8(window->device, 0x1C, (uint8_t)(base >> 8 & 0xF0));
        pg_write_config8(window->device, 0x1D, (uint8_t)(limit >> 8 & 0xF0));
        pg_write_config16(window->device, 0x30, (uint16_t)(base >> 16));
        pg_write_config16(window->device, 0x32, (uint16_t)(limit >> 16));
        return;
    }
    pg_write_config16(window->device, (uint16_t)window->offset, (uint16_t)(base >> 16 & 0xFFF0));
    pg_write_config16(window->device, (uint16_t)window->offset + 2, (uint16_t)(limit >> 16 & 0xFFF0));
    if (window->space == PREF) {
        pg_write_config32(window->device, 0x28, (uint32_t)(base >> 32));
        pg_write_config32(window->device, 0x2C, (uint32_t)(limit >> 32));
    }
}

static void write_base(const struct resource *region)
{
    pg_write_config32(region->device, (uint16_t)region->offset, (uint32_t)region->base);
    if (region->is_wide)
        pg_write_config32(region->device, (uint16_t)region->offset + 4, (uint32_t)(region->base >> 32));
}

/* Assigns addresses to everything on a bus and behind its bridges. */
static void allocate(struct bus *bus, enum space space, uint64_t from, uint64_t to)
{
    struct ranges ranges = { 1, { { from, to } } };

    for (struct resource *each = NULL; (each = next_of(bus, space, each)) != NULL;) {
        each->is_placed = take(&ranges, each);
        if (!each->is_placed) {
            left_out++;
            fprintf(stderr, "%s: no room for 0x%" PRIx64 " bytes of %06" PRIx32 "\n", names[space], each->size,
                    each->device >> 8 & 0xFFFFFF);
        } else if (each->behind) {
            write_window(each, each->base, each->base + each->size - 1);
            allocate(each->behind, space, each->base, each->base + each->size - 1);
        } else {
            write_base(each);
        }
    }
}

/* ---- Command */

static void enable(struct bus *bus);

/* Enables a space if all regions in it have been placed. A window that wasn't placed is disabled first. */
static void enable_function(struct function *function)
{
    uint16_t opened = function->behind ? 7 : 0, missing = 0;

    for (unsigned n = 0; n < function->count; n++) {
        struct resource *each = &function->resources[n];
        uint16_t bit = each->space == IO ? 1 : 2;
        if (each->behind && !each->is_placed)
            write_window(each, 0xFFFFF000, 0);
        opened |= each->is_placed ? bit : 0;
        missing |= each->is_placed || each->behind ? 0 : bit;
    }
    if (function->behind)
        enable(function->behind);
    pg_write_config16(function->device, 0x04, (uint16_t)(pg_read_config16(function->device, 0x04) | (opened & ~missing)));
}

static void enable(struct bus *bus)
{
    for (unsigned n = 0; n < bus->count; n++)
        enable_function(bus->functions[n]);
}

int main(void)
{
    for (int space = 0; space < SPACES; space++)
        is_there[space] = pg_aperture(names[space], &first[space], &last[space]);
    buses[0].prefetchable_bits = 64;
    scan(&buses[0]);
    for (int space = 0; space < SPACES; space++) {
        compute(&buses[0], (enum space)space);
        if (is_there[space])
            allocate(&buses[0], (enum space)space, first[space], last[space]);
    }
    enable(&buses[0]);
    return left_out != 0;
}
