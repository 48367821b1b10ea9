/* Random events of two guests. After each, where every region stands is compared with the base address registers and
 * the Command that its guest reads there, what addresses hit with the first such region that is open, each guest's
 * count of changes with what the event touched, where that count stays, each answer and each Command with the one before, and
 * which regions are told to have moved with the answers that differ from those of the last time that this was asked.
 *
 *     queries BOARD COUNT SEED
 *
 * BOARD is boards/main.toml.
 */
#include "testing.h"

enum { GUESTS = 2, SLOTS = 32, REGISTERS = 6 };

struct answer {
    uint32_t number;
    struct pciguest_region region;
};

static struct answer answers[GUESTS][SLOTS][REGISTERS];
static struct pciguest_place places[GUESTS][PCIGUEST_PLACES];
static uint64_t counts[GUESTS];
static uint32_t commands[GUESTS][SLOTS];

/* A region as its guest sees it by reads of configuration space alone, but for its size. */
static void compare(struct pciguest *machine, size_t guest, uint64_t slot, uint32_t bar,
                    const struct pciguest_region *region)
{
    uint32_t low = config(machine, guest, slot, 0x10 + 4 * bar, 4), command = config(machine, guest, slot, 4, 2);
    uint64_t high = (low & 7) == 4 ? config(machine, guest, slot, 0x14 + 4 * bar, 4) : 0;

    IS(region->space, low & 1 ? PCIGUEST_IO : PCIGUEST_MEMORY);
    IS(region->first, high << 32 | (low & (low & 1 ? ~3u : ~15u)));
    IS(region->prefetchable, !(low & 1) && low & 8);
    IS(region->is_open, command >> (low & 1 ? 0 : 1) & 1);
    IS(region->size & (region->size - 1), 0);
    IS(region->first % region->size, 0);
}

/* Asks for all regions of a guest; `same` says that each answer is to be the one before. */
static void ask(struct pciguest *machine, size_t guest, bool same)
{
    for (uint64_t slot = 0; slot < SLOTS; slot++) {
        uint32_t command = config(machine, guest, slot, 4, 2);

        if (same)
            IS(command, commands[guest][slot]);
        commands[guest][slot] = command;
        for (uint32_t bar = 0; bar < REGISTERS; bar++) {
            struct answer *kept = &answers[guest][slot][bar], now = {0};

            now.number = pciguest_region(machine, guest, slot, bar, &now.region);
            if (now.number == 0)
                compare(machine, guest, slot, bar, &now.region);
            else
                IS(now.number, config(machine, guest, slot, 0, 4) == UINT32_MAX ? 601 : 303);
            if (same)
                IS(memcmp(&now, kept, sizeof now), 0);
            *kept = now;
        }
    }
}

/* The counts, and then all regions; `touched` says which guests' counts are to have grown by one. */
static void ask_all(struct pciguest *machine, const bool *touched)
{
    for (size_t guest = 0; guest < GUESTS; guest++) {
        uint64_t now = 0;

        IS(pciguest_changed(machine, guest, &now), 0);
        IS(now, counts[guest] + touched[guest]);
        counts[guest] = now;
        ask(machine, guest, !touched[guest]);
    }
}

/* Which regions of a guest are told to have moved, by where they stand and where they were told to stand before; now and then
 * of some slots alone. */
static void ask_moved(struct pciguest *machine, size_t guest)
{
    static struct pciguest_place before[PCIGUEST_PLACES];
    size_t room = below(8) ? PCIGUEST_PLACES : below(PCIGUEST_PLACES), count = SIZE_MAX, wanted = 0;
    static const struct pciguest_region none;

    memcpy(before, places[guest], sizeof before);
    IS(pciguest_moved(machine, guest, places[guest], room, &count), 0);
    for (size_t n = 0; n < room; n++) {
        const struct answer *told = &answers[guest][n / REGISTERS][n % REGISTERS];
        const struct pciguest_region *now = told->number ? &none : &told->region, *row = &places[guest][n].now;
        const struct pciguest_region *was = &before[n].now, *row_before = &places[guest][n].before;
        bool has_moved = now->first != was->first || now->size != was->size || now->space != was->space
                         || now->prefetchable != was->prefetchable || now->is_open != was->is_open;

        IS(row->first == now->first && row->size == now->size && row->space == now->space, 1);
        IS(row->prefetchable == now->prefetchable && row->is_open == now->is_open, 1);
        IS(row_before->first == was->first && row_before->size == was->size && row_before->space == was->space, 1);
        IS(row_before->prefetchable == was->prefetchable && row_before->is_open == was->is_open, 1);
        IS(places[guest][n].has_moved, has_moved);
        IS(places[guest][n].reserved, 0);
        wanted += has_moved;
    }
    IS(memcmp(places[guest] + room, before + room, (PCIGUEST_PLACES - room) * sizeof *before), 0);
    IS(count, wanted);
}

/* What an address hits, by the regions that were told. */
static void locate(struct pciguest *machine, size_t guest, uint32_t space, uint64_t place)
{
    struct pciguest_hit hit = {0}, wanted = {0};

    for (uint64_t slot = 0; slot < SLOTS && !wanted.found; slot++)
        for (uint32_t bar = 0; bar < REGISTERS && !wanted.found; bar++) {
            const struct answer *told = &answers[guest][slot][bar];

            if (!told->number && told->region.is_open && told->region.space == space && place >= told->region.first
                && place - told->region.first < told->region.size)
                wanted = (struct pciguest_hit){slot, place - told->region.first, bar, 1};
        }
    IS(pciguest_locate(machine, guest, space, 0, place, &hit), 0);
    IS(hit.found, wanted.found);
    IS(hit.slot, wanted.slot);
    IS(hit.part, wanted.part);
    IS(hit.offset, wanted.offset);
}

/* Moves at random; a move that is done touches both guests. */
static void move(struct pciguest *machine, size_t from, uint64_t slot, bool *touched)
{
    size_t to = below(GUESTS);

    if (pciguest_move(machine, from, slot, to, below(3)) == 0)
        touched[from] = touched[to] = true;
}

/* Writes to a register at random; one of Command or of a base address register touches the guest, where its slot has a
 * function. */
static void write_register(struct pciguest *machine, size_t guest, uint64_t slot, bool *touched)
{
    static const uint8_t offsets[] = {0x04, 0x10, 0x14, 0x18, 0x00, 0x0c, 0x28, 0x3c};
    uint64_t offset = offsets[below(sizeof offsets)];
    uint32_t value = offset == 4 ? 3 : (uint32_t)below(4) << 20;

    if (config(machine, guest, slot, 0, 4) != UINT32_MAX)
        touched[guest] = offset == 4 || (offset >= 0x10 && offset < 0x28);
    if (below(2)) {
        IS(pciguest_write(machine, guest, PCIGUEST_CONFIG, slot, offset, 4, value), 0);
        return;
    }
    IS(pciguest_write(machine, guest, PCIGUEST_IO, 0, 0xcf8, 4, (uint32_t)(0x80000000 | slot << 11 | offset)), 0);
    IS(pciguest_write(machine, guest, PCIGUEST_IO, 0, 0xcfc, 4, value), 0);
}

/* An event at random, and which guests it touches so that a region may stand elsewhere. */
static void event(struct pciguest *machine, bool *touched)
{
    size_t guest = below(GUESTS);
    uint64_t slot = below(3);
    uint32_t value;

    switch (below(8)) {
    case 0:
        move(machine, guest, slot, touched);
        return;
    case 1:
        touched[guest] = pciguest_reset(machine, guest, slot) == 0;
        return;
    case 2:
        (void)pciguest_raise(machine, guest, slot, below(2) ? PCIGUEST_PART_CONFIG : 1, below(0x40), 0xff);
        return;
    case 3:
        (void)pciguest_device_write_wide(machine, guest, slot, below(2) ? PCIGUEST_PART_CONFIG : 1, below(0x100), 1,
                                         below(256));
        return;
    case 4:
        (void)pciguest_write(machine, guest, PCIGUEST_MEMORY, 0, below(4) << 20, 4, (uint32_t)below(1 << 20));
        return;
    case 5:
        (void)pciguest_read(machine, guest, PCIGUEST_CONFIG, slot, below(0x40), 1 << below(3), &value);
        return;
    default:
        write_register(machine, guest, slot, touched);
    }
}

int main(int argc, char **argv)
{
    struct pciguest machine = PCIGUEST_INIT;

    begin(argc, argv, 3);
    IS(pciguest_new(&machine, file, length), 0);
    for (size_t guest = 0; guest < GUESTS; guest++)
        ask(&machine, guest, false);
    for (uint64_t left = times; left > 0; left--) {
        bool touched[GUESTS] = {false};

        event(&machine, touched);
        ask_all(&machine, touched);
        ask_moved(&machine, below(GUESTS));
        locate(&machine, below(GUESTS), PCIGUEST_MEMORY, (below(4) << 20) + below(0x100));
        locate(&machine, below(GUESTS), PCIGUEST_IO, below(0x40));
    }
    pciguest_free(&machine);
    return wrong != 0;
}
