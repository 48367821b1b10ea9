/* Random events of guests over two machines of one board, moves, takings and gifts among them. The image of either is loaded
 * into the other, which is then as the one that was saved: who has which function, what each guest holds, and what the host
 * reads. An image that was changed is refused, and nothing changes, or saved again as it is. At last images meet other
 * boards, other guests, and the board of the file as firmware set it up.
 *
 *     machines BOARD COUNT SEED
 *
 * BOARD is boards/server.toml, and the last line tells how many images that were changed were loaded and refused. */
#include "images.h"

enum { GUESTS = 3, SLOTS = 4 };

static uint64_t told[5]; /* of 0 and of 905 to 908 */

/* The guests' own counts, all together: each grows with a load. */
static void counts(struct pciguest *machine, uint64_t count[GUESTS])
{
    for (size_t guest = 0; guest < GUESTS; guest++)
        IS(pciguest_changed(machine, guest, &count[guest]), 0);
}

/* Loads bytes, or is refused by the number that is given; each guest that is loaded is counted. */
static uint32_t load_all(struct pciguest *machine, const struct image *image)
{
    uint64_t count[GUESTS] = {0}, grown[GUESTS] = {0};
    uint32_t number;

    counts(machine, count);
    number = load_or_keep(machine, ALL, image);
    counts(machine, grown);
    for (size_t guest = 0; guest < GUESTS; guest++)
        IS(grown[guest] > count[guest], number == 0);
    return number;
}

/* ---- events */

/* An event of a guest or of its device at random, or a function that leaves its slot. */
static void event(struct pciguest *machine)
{
    size_t guest = below(GUESTS);
    uint64_t slot = below(SLOTS);
    struct pciguest_function row = {.path_length = 0};

    switch (below(8)) {
    case 0:
        (void)(below(4) ? pciguest_move(machine, guest, slot, below(GUESTS), below(SLOTS)) : pciguest_take(machine, guest, slot));
        break;
    case 1: /* to a guest, if nobody has it */
        IS(pciguest_function(machine, below(7), &row), 0);
        (void)pciguest_give(machine, (const char *)row.path, row.path_length, guest, slot);
        break;
    default:
        any_event(machine, guest, slot);
    }
}

/* ---- loads */

static void host_reads_alike(struct pciguest *machine, struct pciguest *other, const struct pciguest_function *row)
{
    uint32_t one = 0, two = 1;

    for (uint64_t offset = 0; offset < 0x100; offset += 4) {
        IS(pciguest_host_read(machine, PCIGUEST_CONFIG, (uint8_t)row->bus, (uint8_t)row->device, (uint8_t)row->function,
                              offset, 4, &one), 0);
        IS(pciguest_host_read(other, PCIGUEST_CONFIG, (uint8_t)row->bus, (uint8_t)row->device, (uint8_t)row->function,
                              offset, 4, &two), 0);
        IS(one, two);
    }
    for (size_t bar = 0; bar < PCIGUEST_BARS; bar++) {
        const struct pciguest_bar *region = &row->regions[bar];

        for (uint64_t offset = 0; offset < region->size && offset < 0x100; offset += 4) {
            IS(pciguest_host_read(machine, region->space, 0, 0, 0, region->first + offset, 4, &one), 0);
            IS(pciguest_host_read(other, region->space, 0, 0, 0, region->first + offset, 4, &two), 0);
            IS(one, two);
        }
    }
}

/* Two machines have the same functions in the same slots, hold the same, and show the host the same. */
static void are_alike(struct pciguest *machine, struct pciguest *other)
{
    static struct image one, two;
    struct pciguest_function row, same;

    for (size_t guest = 0; guest < GUESTS; guest++) {
        save(machine, guest, &one);
        save(other, guest, &two);
        IS(are_same(&one, &two), 1);
    }
    for (size_t i = 0; pciguest_function(machine, i, &row) == 0; i++) {
        IS(pciguest_function(other, i, &same), 0);
        IS(row.is_given == same.is_given && row.guest == same.guest && row.slot == same.slot, 1);
        host_reads_alike(machine, other, &row);
    }
}

static void carry(struct pciguest *from, struct pciguest *to)
{
    static struct image image, guest;

    save(from, ALL, &image);
    save(from, below(GUESTS), &guest);
    IS(load_all(to, &guest), 905);
    IS(pciguest_load(to, below(GUESTS), image.bytes, image.size), 905);
    IS(load_all(to, &image), 0);
    are_alike(from, to);
}

/* An image with a bit changed, or a byte more or less, which is none. */
static void spoil(struct pciguest *machine)
{
    static struct image image;
    uint64_t how = below(4);
    uint32_t number;

    save(machine, ALL, &image);
    if (how > 1) {
        image.bytes[below(image.size)] ^= (uint8_t)(1 << below(8));
        number = load_all(machine, &image);
        IS(number == 0 || (number >= 905 && number <= 908), 1);
        told[number ? number - 904 : 0]++;
        return;
    }
    image.size = how ? image.size + 1 : below(image.size);
    IS(load_all(machine, &image), 905);
}

/* ---- other boards */

/* The machine of the file with the last letter of a text in it changed refuses an image. */
static void meets(const char *text, const struct image *image)
{
    static uint8_t changed[sizeof file];
    struct pciguest other = PCIGUEST_INIT;
    char *at;

    memcpy(changed, file, length);
    changed[length] = 0;
    at = strstr((char *)changed, text);
    if (!at)
        exit(2);
    at[strlen(text) - 1] ^= 1;
    IS(pciguest_new(&other, changed, length), 0);
    IS(load_all(&other, image), 907);
    pciguest_free(&other);
}

/* Writes into the register of a board what the board of a machine has there. */
static void copy(struct pciguest *machine, struct pciguest_board *board, const struct pciguest_function *at,
                 uint64_t offset, uint32_t width)
{
    uint8_t bus = (uint8_t)at->bus, device = (uint8_t)at->device, function = (uint8_t)at->function;
    uint32_t value = 0;

    IS(pciguest_host_read(machine, PCIGUEST_CONFIG, bus, device, function, offset, width, &value), 0);
    IS(pciguest_board_write(board, PCIGUEST_CONFIG, bus, device, function, offset, width, value), 0);
}

/* Sets up the board of the file by hand as that of a machine is, with one register otherwise, and gives it to guests. */
static void drive(struct pciguest *machine, struct pciguest *driven, const struct pciguest_function *at, uint64_t offset,
                  uint32_t value)
{
    struct pciguest_board board = PCIGUEST_BOARD_INIT;
    struct pciguest_function row;

    IS(pciguest_board_new(&board, file, length), 0);
    for (size_t i = 0; pciguest_function(machine, i, &row) == 0; i++) {
        for (uint64_t register_at = row.is_bridge ? 0x18 : 0x10; register_at < 0x34; register_at += 4)
            copy(machine, &board, &row, register_at, 4);
        copy(machine, &board, &row, 4, 2);
    }
    if (at)
        IS(pciguest_board_write(&board, PCIGUEST_CONFIG, (uint8_t)at->bus, (uint8_t)at->device, (uint8_t)at->function, offset,
                                offset == 4 ? 2 : 4, value), 0);
    IS(pciguest_board_guests(&board, driven), 0);
    pciguest_board_free(&board);
}

/* Firmware that writes what the library's own set-up writes leaves an equal board, and other firmware another one. */
static void firmware(void)
{
    static struct image image;
    struct pciguest machine = PCIGUEST_INIT, driven = PCIGUEST_INIT;
    struct pciguest_function row;
    size_t index = 0;

    IS(pciguest_new(&machine, file, length), 0);
    save(&machine, ALL, &image);
    drive(&machine, &driven, NULL, 0, 0);
    IS(load_all(&driven, &image), 0);
    pciguest_free(&driven);
    do /* a function that the host keeps */
        IS(pciguest_function(&machine, index++, &row), 0);
    while (row.is_bridge || row.is_given || row.regions[0].size == 0);
    drive(&machine, &driven, &row, 4, 0);
    IS(load_all(&driven, &image), 907);
    pciguest_free(&driven);
    IS(pciguest_slot(&machine, 2, 2, &row), 0);
    drive(&machine, &driven, &row, 0x10, (uint32_t)row.regions[0].first + 0x8000);
    IS(load_all(&driven, &image), 907);
    pciguest_free(&driven);
    pciguest_free(&machine);
}

/* Images that belong elsewhere. */
static void elsewhere(struct pciguest *machine)
{
    static struct image image;

    save(machine, ALL, &image);
    meets("device = 0x0002", &image);
    meets("pin = 1", &image);
    meets("name = \"w", &image);
    meets("mem = [0xc", &image); /* where regions stand then */
    firmware();
}

int main(int argc, char **argv)
{
    struct pciguest machines[2] = {PCIGUEST_INIT, PCIGUEST_INIT};

    begin(argc, argv, 3);
    for (int n = 0; n < 2; n++)
        IS(pciguest_new(&machines[n], file, length), 0);
    for (uint64_t left = times; left > 0 && !wrong; left--) {
        size_t n = below(2);

        event(&machines[n]);
        if (below(10) == 0)
            carry(&machines[n], &machines[1 - n]);
        if (below(10) == 0)
            spoil(&machines[n]);
    }
    elsewhere(&machines[0]);
    for (int n = 0; n < 2; n++)
        pciguest_free(&machines[n]);
    printf("%" PRIu64 " loaded, %" PRIu64 ", %" PRIu64 ", %" PRIu64 " and %" PRIu64 " refused by 905 to 908\n", told[0], told[1],
           told[2], told[3], told[4]);
    return wrong != 0;
}
