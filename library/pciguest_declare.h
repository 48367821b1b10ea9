/* Writes the `endpoint` table of a board file from a device's registers, so that a device model in C declares them once, by
 * names and widths, and no pattern in hexadecimal has to be written by hand. It needs only this header and the C library.
 *
 *     enum { STATUS, COUNT, BELL };
 *     static const struct pg_register registers[] = {
 *         [STATUS] = {.name = "STATUS", .offset = 0x00, .width = 1, .w1c = 0x01},
 *         [COUNT] = {.name = "COUNT", .offset = 0x04, .width = 4},
 *         [BELL] = {.name = "BELL", .offset = 0x08, .width = 4, .rw = 0xffffffff},
 *     };
 *     static const struct pg_device doorbell = {.vendor_id = 0x1234, .device_id = 0x0d0b, .class_code = 0xff0000,
 *         .bars = {{"mem32", 0x1000}}, .registers = registers, .register_count = 3};
 *     size_t length = pg_endpoint(&doorbell, "1.0", text, sizeof text);
 */
#ifndef PCIGUEST_DECLARE_H
#define PCIGUEST_DECLARE_H

#include <inttypes.h>
#include <stdarg.h>
#include <stdbool.h>
#include <stddef.h>
#include <stdint.h>
#include <stdio.h>

enum { PG_CONFIG = 6, PG_BARS = 6, PG_REGION_END = 4096 };

/* A register of 1 to 8 bytes. Its driver's writes set the bits of `rw`, and clear those of `w1c` by writing ones. */
struct pg_register {
    const char *name; /* for a comment in the table */
    uint32_t part;    /* a base address register, 0 to 5, or PG_CONFIG */
    uint32_t offset;  /* in the region (below 1000h), or in configuration space (40h to FFh) */
    uint32_t width;
    uint64_t reset, rw, w1c;
};

/* A structure of the capability list. Registers of configuration space that are within it are its registers. */
struct pg_structure {
    uint8_t id, offset;
    uint32_t length; /* in bytes, with the two of the header */
};

struct pg_bar {
    const char *kind; /* as in board files, or NULL if no region begins at this register */
    uint64_t size;
};

struct pg_device {
    uint16_t vendor_id, device_id, subsystem_vendor_id, subsystem_id;
    uint32_t class_code;
    uint8_t revision_id, interrupt_pin;
    struct pg_bar bars[PG_BARS];
    const struct pg_structure *structures; /* in the order of the list */
    size_t structure_count;
    const struct pg_register *registers;
    size_t register_count;
};

/* The text so far: `length` counts what doesn't fit too. */
struct pg_text {
    char *text;
    size_t room, length;
};

static inline void pg_put(struct pg_text *out, const char *format, ...)
{
    bool has_room = out->length < out->room;
    va_list words;
    int length;

    va_start(words, format);
    length = vsnprintf(has_room ? out->text + out->length : NULL, has_room ? out->room - out->length : 0, format, words);
    va_end(words);
    out->length += length > 0 ? (size_t)length : 0;
}

/* Whether some bytes of a part have one of a register. */
static inline bool pg_meets(const struct pg_register *it, uint32_t part, uint32_t offset, uint32_t width)
{
    return it->part == part && it->offset < offset + width && offset < it->offset + it->width;
}

/* One of the three patterns at a byte: 0 is `reset`, 1 is `rw`, and 2 is `w1c`. */
static inline unsigned pg_byte(const struct pg_device *device, uint32_t part, uint32_t offset, int pattern)
{
    for (size_t i = 0; i < device->register_count; i++) {
        const struct pg_register *it = &device->registers[i];
        uint64_t bits = pattern == 0 ? it->reset : pattern == 1 ? it->rw : it->w1c;

        if (pg_meets(it, part, offset, 1))
            return (unsigned)(bits >> 8 * (offset - it->offset)) & 0xff;
    }
    return 0;
}

/* The length of a block of bytes, and its patterns, without those that are 0. */
static inline void pg_block(struct pg_text *out, const struct pg_device *device, uint32_t part, uint32_t first, uint32_t length)
{
    static const char *const names[3] = {"reset", "rw", "w1c"};

    if (length)
        pg_put(out, ", block = %" PRIu32, length);
    for (int pattern = 0; pattern < 3; pattern++) {
        unsigned any = 0;

        for (uint32_t i = 0; i < length; i++)
            any |= pg_byte(device, part, first + i, pattern);
        if (!any)
            continue;
        pg_put(out, ", %s = \"", names[pattern]);
        for (uint32_t i = 0; i < length; i++)
            pg_put(out, "%02x", pg_byte(device, part, first + i, pattern));
        pg_put(out, "\"");
    }
}

/* Whether a register is where one can be, has bits that it can have, and meets none of those before it. */
static inline bool pg_is_sound(const struct pg_device *device, size_t index)
{
    const struct pg_register *it = &device->registers[index];
    bool is_config = it->part == PG_CONFIG, has_region = it->part < PG_BARS && device->bars[it->part].kind;
    uint64_t first = is_config ? 0x40 : 0, end = is_config ? 0x100 : has_region ? device->bars[it->part].size : 0;
    uint64_t bits = it->reset | it->rw | it->w1c;

    end = end < PG_REGION_END ? end : (uint64_t)PG_REGION_END;
    for (size_t i = 0; i < index; i++)
        if (pg_meets(&device->registers[i], it->part, it->offset, it->width))
            return false;
    return it->width >= 1 && it->width <= 8 && it->offset >= first && it->width <= end && it->offset <= end - it->width &&
           !(it->rw & it->w1c) && (it->width == 8 || bits >> 8 * it->width == 0);
}

static inline bool pg_is_in_a_structure(const struct pg_device *device, const struct pg_register *it)
{
    for (size_t i = 0; i < device->structure_count; i++)
        if (pg_meets(it, PG_CONFIG, device->structures[i].offset, device->structures[i].length))
            return true;
    return false;
}

static inline void pg_put_bars(struct pg_text *out, const struct pg_device *device)
{
    pg_put(out, "bar = [\n");
    for (uint32_t bar = 0; bar < PG_BARS; bar++) {
        uint32_t length = 0;

        if (!device->bars[bar].kind)
            continue;
        for (size_t i = 0; i < device->register_count; i++) {
            const struct pg_register *it = &device->registers[i];

            if (it->part == bar)
                pg_put(out, "  # %s: %" PRIu32 " at %02" PRIX32 "h of bar %" PRIu32 "\n", it->name, it->width, it->offset, bar);
            if (it->part == bar && it->offset + it->width > length)
                length = it->offset + it->width;
        }
        pg_put(out, "  { index = %" PRIu32 ", kind = \"%s\", size = 0x%" PRIx64, bar, device->bars[bar].kind,
               device->bars[bar].size);
        pg_block(out, device, bar, 0, length);
        pg_put(out, " },\n");
    }
    pg_put(out, "]\n");
}

/* Writes the table of a device at a path, as text of a board file with a terminating 0. Returns the length of the text without
 * the 0, which doesn't fit if it isn't less than `room`; or 0 if a register has no place, or bits that it can't have. */
static inline size_t pg_endpoint(const struct pg_device *device, const char *at, char *text, size_t room)
{
    struct pg_text out = {text, room, 0};

    for (size_t i = 0; i < device->register_count; i++)
        if (!pg_is_sound(device, i))
            return 0;
    pg_put(&out, "[[endpoint]]\nat = \"%s\"\nvendor = 0x%04x\ndevice = 0x%04x\nclass = 0x%06" PRIx32 "\nrevision = 0x%02x\n", at,
           (unsigned)device->vendor_id, (unsigned)device->device_id, device->class_code, (unsigned)device->revision_id);
    pg_put(&out, "subvendor = 0x%04x\nsubsystem = 0x%04x\npin = %u\n", (unsigned)device->subsystem_vendor_id,
           (unsigned)device->subsystem_id, (unsigned)device->interrupt_pin);
    pg_put_bars(&out, device);
    pg_put(&out, "config = [\n");
    for (size_t i = 0; i < device->register_count; i++) {
        const struct pg_register *it = &device->registers[i];

        if (it->part != PG_CONFIG || pg_is_in_a_structure(device, it))
            continue;
        pg_put(&out, "  # %s\n  { off = 0x%" PRIx32, it->name, it->offset);
        pg_block(&out, device, PG_CONFIG, it->offset, it->width);
        pg_put(&out, " },\n");
    }
    pg_put(&out, "]\ncapability = [\n");
    for (size_t i = 0; i < device->structure_count; i++) {
        const struct pg_structure *it = &device->structures[i];

        pg_put(&out, "  { id = 0x%02x, off = 0x%02x", (unsigned)it->id, (unsigned)it->offset);
        pg_block(&out, device, PG_CONFIG, it->offset + 2u, it->length - 2);
        pg_put(&out, " },\n");
    }
    pg_put(&out, "]\n");
    return out.length;
}

#endif
