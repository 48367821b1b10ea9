/* Images, and events between them, for the programs that save and load. */
#ifndef IMAGES_H
#define IMAGES_H

#include "testing.h"

enum { ROOM = 1 << 15 };

#define ALL SIZE_MAX /* the whole machine, in place of a guest */

struct image {
    uint8_t bytes[ROOM];
    size_t size;
};

/* An event of a guest or of its device at random. */
static inline void any_event(struct pciguest *machine, size_t guest, uint64_t slot)
{
    uint32_t value = (uint32_t)below(UINT32_MAX), part = (uint32_t)below(7);

    switch (below(7)) {
    case 0:
        (void)pciguest_write(machine, guest, PCIGUEST_IO, 0, 0xcf8, 4, value);
        break;
    case 1:
        (void)pciguest_raise(machine, guest, slot, part, below(0x100), (uint8_t)value);
        break;
    case 2:
        (void)pciguest_device_write_wide(machine, guest, slot, part, below(2) ? 6 : below(0x60), 2, value);
        break;
    default:
        (void)pciguest_write(machine, guest, PCIGUEST_CONFIG, slot, 4 * below(0x18), 4, value);
    }
}

/* Saves a guest or the machine to some bytes. */
static inline uint32_t save_to(struct pciguest *machine, size_t guest, uint8_t *bytes, size_t room, size_t *needed)
{
    return guest == ALL ? pciguest_save_all(machine, bytes, room, needed)
                        : pciguest_save(machine, guest, bytes, room, needed);
}

static inline uint32_t load_from(struct pciguest *machine, size_t guest, const uint8_t *bytes, size_t size)
{
    return guest == ALL ? pciguest_load_all(machine, bytes, size) : pciguest_load(machine, guest, bytes, size);
}

static inline size_t size_of(struct pciguest *machine, size_t guest)
{
    size_t size = 0;

    if (guest == ALL)
        IS(pciguest_image_size_all(machine, &size), 0);
    else
        IS(pciguest_save(machine, guest, NULL, 0, &size), 902);
    return size;
}

static inline bool is_untouched(const struct image *image, size_t at)
{
    const uint8_t *rest = image->bytes + at;

    return at == ROOM || (*rest == 0x5a && memcmp(rest, rest + 1, ROOM - at - 1) == 0);
}

/* Saves a guest or the machine, after a try with one byte too few; what is behind the image stays. */
static inline void save(struct pciguest *machine, size_t guest, struct image *image)
{
    size_t needed = 0, again = 0;

    memset(image->bytes, 0x5a, ROOM);
    image->size = size_of(machine, guest);
    IS(image->size > 0 && image->size <= ROOM, 1);
    IS(save_to(machine, guest, image->bytes, image->size - 1, &needed), 902);
    IS(needed, image->size);
    IS(is_untouched(image, 0), 1);
    IS(save_to(machine, guest, image->bytes, below(2) ? image->size : ROOM, &again), 0);
    IS(again, image->size);
    IS(is_untouched(image, image->size), 1);
}

static inline bool are_same(const struct image *one, const struct image *other)
{
    return one->size == other->size && memcmp(one->bytes, other->bytes, one->size) == 0;
}

/* Loads an image, or is refused by the number that is given. The guest's or the machine's image is then this one, or it is as it
 * was. */
static inline uint32_t load_or_keep(struct pciguest *machine, size_t guest, const struct image *image)
{
    static struct image before, after;
    uint32_t number;

    save(machine, guest, &before);
    number = load_from(machine, guest, image->bytes, image->size);
    save(machine, guest, &after);
    IS(are_same(&after, number ? &before : image), 1);
    return number;
}

#endif
