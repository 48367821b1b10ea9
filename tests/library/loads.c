/* Images that were changed at random are loaded into two guests, between random events of theirs. Each is refused by 905 or
 * 906, and nothing changes, or it is loaded, and the guest is then saved as these bytes; the other guest stays as it is.
 * Images of the whole machine are so too, and refused by 907 besides. Both are refused by 908 where their version is
 * another. Images are saved to and loaded from the very end of memory that may be touched, so that one byte too far ends the
 * program.
 *
 *     loads BOARD COUNT SEED
 *
 * BOARD has two guests. The machine is loaded once for ten guests. The last two lines tell how many guests and machines were
 * loaded, and how many images were refused. */
#define _DEFAULT_SOURCE
#include "images.h"

#include <sys/mman.h>
#include <unistd.h>

enum { GUESTS = 2, MORE = 64 };

/* Memory with nothing behind it. */
struct room {
    uint8_t *end;
    size_t size;
};

static struct room room_of(size_t size)
{
    size_t page = (size_t)sysconf(_SC_PAGESIZE), whole = (size + page - 1) / page * page;
    uint8_t *at = mmap(NULL, whole + page, PROT_READ | PROT_WRITE, MAP_PRIVATE | MAP_ANONYMOUS, -1, 0);

    if (at == MAP_FAILED || mprotect(at + whole, page, PROT_NONE) != 0) {
        perror("loads");
        exit(2);
    }
    return (struct room){at + whole, size};
}

/* ---- what is saved */

/* Saves a guest or the machine to the end of a room, and gives the image's first byte. */
static uint8_t *save_at_end(struct pciguest *machine, size_t guest, const struct room *room)
{
    size_t size = size_of(machine, guest), needed = 0;

    IS(size <= room->size, 1);
    IS(save_to(machine, guest, room->end - size, size, &needed), 0);
    IS(needed, size);
    return room->end - size;
}

/* ---- what is changed */

/* Changes bytes of an image that ends where its room ends, and gives its new beginning. */
static uint8_t *change(uint8_t *image, const struct room *room)
{
    size_t size = (size_t)(room->end - image), at = below(size), more = 1 + below(MORE);

    switch (below(8)) {
    case 0:
        image[at] ^= (uint8_t)(1 << below(8));
        return image;
    case 1:
        image[at] = (uint8_t)below(256);
        return image;
    case 2:
        image[below(12)] = (uint8_t)below(256);
        return image;
    case 3: /* cut at its end */
        memmove(image + at, image, size - at);
        return image + at;
    case 4: /* something behind it */
        memmove(image - more, image, size);
        for (size_t i = 0; i < more; i++)
            room->end[(ptrdiff_t)i - (ptrdiff_t)more] = (uint8_t)below(256);
        return image - more;
    case 5: /* a byte left out */
        memmove(image + 1, image, at);
        return image + 1;
    case 6: /* many bytes */
        for (size_t left = 1 + below(20); left > 0; left--)
            image[below(size)] = (uint8_t)below(256);
        return image;
    default: /* any byte, near the end, where a region's cells are */
        image[size - 1 - below(size < 16 ? size : 16)] = (uint8_t)below(256);
        return image;
    }
}

/* ---- events and loads */

/* An event of a guest or of its device, or at times a move. */
static void event(struct pciguest *machine)
{
    size_t guest = below(GUESTS);
    uint64_t slot = below(3);

    if (below(6))
        any_event(machine, guest, slot);
    else
        (void)(below(40) ? pciguest_reset(machine, guest, slot) : pciguest_move(machine, guest, slot, below(GUESTS), below(3)));
}

/* How many images were loaded, and refused by 905, 906, 907 and 908. */
struct counts {
    uint64_t of[5];
};

static void add(struct counts *counts, uint32_t number, uint32_t last)
{
    IS(number == 0 || number == PCIGUEST_IMAGE_VERSION || (number >= PCIGUEST_BAD_IMAGE && number <= last), 1);
    counts->of[number ? (number - PCIGUEST_BAD_IMAGE + 1) % 5 : 0]++;
}

/* A load of a guest, by one of these rooms each for what it held, for the image, and for what the other guest holds. */
static void load(struct pciguest *machine, const struct room rooms[3], struct counts *counts)
{
    size_t guest = below(GUESTS), other = 1 - guest, size = size_of(machine, guest), length;
    uint8_t *held = save_at_end(machine, guest, &rooms[0]), *beside = save_at_end(machine, other, &rooms[2]);
    uint8_t *image = save_at_end(machine, below(8) ? guest : other, &rooms[1]);
    uint64_t count = 0, grown = 0;
    uint32_t number;

    if (below(10))
        image = change(image, &rooms[1]);
    length = (size_t)(rooms[1].end - image);
    IS(pciguest_changed(machine, guest, &count), 0);
    number = pciguest_load(machine, guest, image, length);
    IS(pciguest_changed(machine, guest, &grown), 0);
    IS(grown, count + (number == 0));
    if (number == 0) {
        IS(length, size);
        memcpy(held, image, length < size ? length : size);
    }
    IS(memcmp(save_at_end(machine, guest, &rooms[1]), held, size), 0);
    IS(memcmp(save_at_end(machine, other, &rooms[1]), beside, size_of(machine, other)), 0);
    add(counts, number, PCIGUEST_OTHER_FUNCTIONS);
}

/* The same of the machine, whose functions may have come to other slots since it was saved. */
static void load_all(struct pciguest *machine, const struct room rooms[3], struct counts *counts)
{
    uint8_t *image = save_at_end(machine, ALL, &rooms[1]), *held, *after;
    uint32_t number;

    for (uint64_t left = below(4); left > 0; left--)
        event(machine);
    held = save_at_end(machine, ALL, &rooms[0]);
    if (below(10))
        image = change(image, &rooms[1]);
    number = pciguest_load_all(machine, image, (size_t)(rooms[1].end - image));
    after = save_at_end(machine, ALL, &rooms[2]);
    if (number == 0)
        held = image;
    IS(rooms[2].end - after, (number == 0 ? rooms[1].end : rooms[0].end) - held);
    IS(memcmp(after, held, (size_t)(rooms[2].end - after)), 0);
    add(counts, number, PCIGUEST_OTHER_BOARD);
}

static void tell(const char *what, const struct counts *counts)
{
    printf("%s: %" PRIu64 " loaded, refused by 905: %" PRIu64 ", by 906: %" PRIu64 ", by 907: %" PRIu64 ", by 908: %" PRIu64 "\n", what,
           counts->of[0], counts->of[1], counts->of[2], counts->of[3], counts->of[4]);
}

int main(int argc, char **argv)
{
    struct pciguest machine = PCIGUEST_INIT;
    struct room rooms[3];
    struct counts guests = {0}, machines = {0};
    size_t most;

    begin(argc, argv, 3);
    IS(pciguest_new(&machine, file, length), 0);
    most = size_of(&machine, ALL) + MORE;
    for (size_t i = 0; i < 3; i++)
        rooms[i] = room_of(most);
    for (uint64_t left = times; left > 0 && !wrong; left--) {
        event(&machine);
        load(&machine, rooms, &guests);
    }
    for (uint64_t left = times / 10; left > 0 && !wrong; left--)
        load_all(&machine, rooms, &machines);
    pciguest_free(&machine);
    tell("guests", &guests);
    tell("machines", &machines);
    return wrong != 0;
}
