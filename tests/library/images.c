/* Random events of two guests, over two machines of one board. Guests are put to reset, and images are loaded: into a guest of the
 * other machine, which then answers alike, and after a byte was changed, when they are refused or saved again as they are. What
 * the bytes of an image tell is compared by tests/fuzz/images.py.
 *
 *     images BOARD COUNT SEED
 */
#include "images.h"

enum { GUESTS = 2, SLOTS = 32 };

/* ---- events */

/* An event of a guest or of its device at random, or at times a reset or a move. */
static void event(struct pciguest *machine)
{
    size_t guest = below(GUESTS);
    uint64_t slot = below(3);

    if (below(8))
        any_event(machine, guest, slot);
    else
        (void)(below(20) ? pciguest_reset(machine, guest, slot) : pciguest_move(machine, guest, slot, below(GUESTS), below(3)));
}

/* A guest at reset is as one of which each function was reset, with nothing in its address latch; it was counted once, and
 * the other guest is as it was. */
static void restart(struct pciguest *machine, size_t guest)
{
    static struct image other, now, again;
    uint64_t before = 0, after = 0;

    save(machine, 1 - guest, &other);
    IS(pciguest_changed(machine, guest, &before), 0);
    IS(pciguest_reset_guest(machine, guest), 0);
    IS(pciguest_changed(machine, guest, &after), 0);
    IS(after, before + 1);
    save(machine, guest, &now);
    for (uint64_t slot = 0; slot < SLOTS; slot++)
        (void)pciguest_reset(machine, guest, slot);
    IS(pciguest_write(machine, guest, PCIGUEST_IO, 0, 0xcf8, 4, 0), 0);
    save(machine, guest, &again);
    IS(are_same(&now, &again), 1);
    save(machine, 1 - guest, &again);
    IS(are_same(&other, &again), 1);
}

/* ---- loads */

/* Loads an image, or is refused by this number. A guest that is loaded is counted once; the other guest is as it was. */
static uint32_t load(struct pciguest *machine, size_t guest, const struct image *image)
{
    static struct image other, again;
    uint64_t before = 0, after = 0;
    uint32_t number;

    save(machine, 1 - guest, &other);
    IS(pciguest_changed(machine, guest, &before), 0);
    number = load_or_keep(machine, guest, image);
    IS(number == 0 || number == 905 || number == 906 || number == 908, 1);
    IS(pciguest_changed(machine, guest, &after), 0);
    IS(after, before + (number == 0));
    save(machine, 1 - guest, &again);
    IS(are_same(&other, &again), 1);
    return number;
}

/* Whether two guests have the same functions in the same slots. */
static bool have_same_functions(struct pciguest *machine, struct pciguest *other, size_t guest)
{
    bool are = true;

    for (uint64_t slot = 0; slot < SLOTS; slot++) {
        struct pciguest_function one = {.path_length = 0}, two = {.path_length = 0};

        (void)pciguest_slot(machine, guest, slot, &one);
        (void)pciguest_slot(other, guest, slot, &two);
        are = are && memcmp(one.path, two.path, sizeof one.path) == 0;
    }
    return are;
}

/* Two guests read alike at random places: in configuration space, by the latch, and in a region. */
static void read_alike(struct pciguest *machine, struct pciguest *other, size_t guest)
{
    for (int left = 20; left > 0; left--) {
        struct pciguest_region at = {0}, region = {0};
        uint64_t slot = below(3), place = 4 * below(64);
        uint32_t bar = (uint32_t)below(PCIGUEST_BARS), space = PCIGUEST_CONFIG, one = 0, two = 0;

        IS(pciguest_region(machine, guest, slot, bar, &at), pciguest_region(other, guest, slot, bar, &region));
        IS(at.first == region.first && at.is_open == region.is_open, 1);
        if (below(4) == 0) {
            space = PCIGUEST_IO;
            place = 0xcfc;
        } else if (at.size != 0 && below(2)) {
            space = at.space;
            place = at.first + place % at.size;
        }
        IS(pciguest_read(machine, guest, space, slot, place, 4, &one),
           pciguest_read(other, guest, space, slot, place, 4, &two));
        IS(one, two);
    }
}

/* A guest's image comes to the guest of the same name in the other machine. */
static void carry(struct pciguest *from, struct pciguest *to, size_t guest)
{
    static struct image image;
    bool fits = have_same_functions(from, to, guest);

    save(from, guest, &image);
    IS(load(to, guest, &image), fits ? 0 : 906);
    if (fits)
        read_alike(from, to, guest);
}

/* An image that a guest has, with a bit changed, or a byte more or less, which is none. */
static void spoil(struct pciguest *machine, size_t guest)
{
    static struct image image;
    uint64_t how = below(4);

    save(machine, guest, &image);
    if (how > 1) {
        image.bytes[below(image.size)] ^= (uint8_t)(1 << below(8));
        (void)load(machine, guest, &image);
        return;
    }
    image.size = how ? image.size + 1 : below(image.size);
    IS(load(machine, guest, &image), 905);
}

int main(int argc, char **argv)
{
    struct pciguest machines[2] = {PCIGUEST_INIT, PCIGUEST_INIT};

    begin(argc, argv, 3);
    for (int n = 0; n < 2; n++)
        IS(pciguest_new(&machines[n], file, length), 0);
    for (uint64_t left = times; left > 0 && !wrong; left--) {
        struct pciguest *machine = &machines[below(2)];
        size_t guest = below(GUESTS);

        event(machine);
        if (below(50) == 0)
            restart(machine, guest);
        if (below(10) == 0)
            carry(machine, machine == machines ? machines + 1 : machines, guest);
        if (below(10) == 0)
            spoil(machine, guest);
    }
    for (int n = 0; n < 2; n++)
        pciguest_free(&machines[n]);
    return wrong != 0;
}
