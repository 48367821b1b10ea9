/* Random accesses of a guest to its regions over two machines of one board: of one by slot, register and offset, of the other
 * byte by byte at the address where the region stands, while Command opens it. Both must answer alike, and save alike; and
 * where all regions of a space stand at one address, each is reached.
 *
 *     regions BOARD COUNT SEED
 */
#include "images.h"

enum { SLOTS = 32, REGISTERS = 6 };

static struct pciguest by_region = PCIGUEST_INIT, by_address = PCIGUEST_INIT;

static void write_both(uint64_t slot, uint64_t offset, uint32_t width, uint32_t value)
{
    IS(pciguest_write(&by_region, 0, PCIGUEST_CONFIG, slot, offset, width, value), 0);
    IS(pciguest_write(&by_address, 0, PCIGUEST_CONFIG, slot, offset, width, value), 0);
}

/* Lets each region of the guest stand by itself, or all at one address. */
static void place(bool is_apart)
{
    uint32_t first = 0x1000000;

    for (uint64_t slot = 0; slot < SLOTS; slot++)
        for (uint32_t bar = 0; bar < REGISTERS; bar++) {
            struct pciguest_region region = {0};

            if (pciguest_region(&by_region, 0, slot, bar, &region))
                continue;
            write_both(slot, 0x10 + 4 * bar, 4, first);
            first += is_apart ? 0x1000000 : 0;
        }
}

/* What an access of a region is to answer: of one that is open, that of its bytes one by one at their addresses. */
static uint32_t wanted_of(uint64_t slot, uint32_t bar, uint64_t offset, uint32_t width, bool is_write, uint64_t *value)
{
    struct pciguest_region region = {0};
    uint32_t number = pciguest_region(&by_address, 0, slot, bar, &region), byte = 0;
    uint64_t all = 0;

    if (width < 1 || width > 8)
        return 302;
    if (offset > UINT64_MAX - width)
        return 303;
    if (number || offset >= region.size || width > region.size - offset)
        return number ? number : 303;
    for (uint32_t done = 0; done < width; done++) {
        uint64_t at = region.first + offset + done;

        if (region.is_open && is_write)
            IS(pciguest_write(&by_address, 0, region.space, 0, at, 1, (uint8_t)(*value >> 8 * done)), 0);
        byte = 0xff;
        if (region.is_open && !is_write)
            IS(pciguest_read(&by_address, 0, region.space, 0, at, 1, &byte), 0);
        all |= (uint64_t)byte << 8 * done;
    }
    if (!is_write)
        *value = all;
    return 0;
}

/* Mostly at an edge of a region, or where cells stand. */
static uint64_t any_offset(void)
{
    static const uint64_t edges[] = {0, 8, 16, 32, 256, 4096, 0x10000};

    if (below(40) == 0)
        return UINT64_MAX - below(12);
    return edges[below(COUNT_OF(edges))] + below(16) - (below(2) ? 8 : 0);
}

static void access_one(void)
{
    uint64_t slot = below(20) ? below(3) : 32, offset = any_offset(), value = below(UINT64_MAX), other = value;
    uint32_t bar = (uint32_t)below(REGISTERS), width = (uint32_t)below(10), number;
    bool is_write = below(2);

    number = is_write ? pciguest_region_write(&by_region, 0, slot, bar, offset, width, value)
                      : pciguest_region_read(&by_region, 0, slot, bar, offset, width, &value);
    IS(number, wanted_of(slot, bar, offset, width, is_write, &other));
    IS(value, other);
}

/* Each region at one address keeps what is written to it: what the guest can change of its first byte. */
static void reach_each(void)
{
    uint64_t kept[SLOTS][REGISTERS] = {{0}}, now;

    place(false);
    for (uint32_t pass = 0; pass < 2; pass++)
        for (uint64_t slot = 0; slot < SLOTS; slot++)
            for (uint32_t bar = 0; bar < REGISTERS; bar++) {
                struct pciguest_region region = {0};

                if (pciguest_region(&by_region, 0, slot, bar, &region))
                    continue;
                write_both(slot, 4, 2, 3);
                if (pass == 0)
                    IS(pciguest_region_write(&by_region, 0, slot, bar, 0, 4, 0x5a5a5a5a ^ slot << 8 ^ bar), 0);
                IS(pciguest_region_read(&by_region, 0, slot, bar, 0, 4, &now), 0);
                if (pass == 1)
                    IS(now, kept[slot][bar]);
                kept[slot][bar] = now;
                IS(pciguest_device_read_wide(&by_region, 0, slot, bar, 0, 4, &now), 0);
                IS(now, kept[slot][bar]);
            }
}

int main(int argc, char **argv)
{
    static struct image one, two;

    begin(argc, argv, 3);
    IS(pciguest_new(&by_region, file, length), 0);
    IS(pciguest_new(&by_address, file, length), 0);
    place(true);
    for (uint64_t left = times; left && !wrong; left--) {
        access_one();
        if (below(16) == 0)
            write_both(below(3), 4, 2, (uint32_t)below(8));
    }
    save(&by_region, 0, &one);
    save(&by_address, 0, &two);
    IS(are_same(&one, &two), 1);
    reach_each();
    pciguest_free(&by_region);
    pciguest_free(&by_address);
    return wrong != 0;
}
