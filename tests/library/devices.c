/* Random accesses of devices, of 0 to 9 bytes at any offset, over two machines of one board: one is asked by the wide
 * calls, the other byte by byte. Both must answer alike; a write of which one byte is refused must write none.
 *
 *     devices BOARD COUNT SEED
 */
#include "testing.h"

struct place {
    uint64_t slot, offset;
    uint32_t part, width;
};

/* Mostly at an edge of what the device has: Status, 40h to FFh, and regions of 32 bytes and of 4096. */
static uint64_t any_offset(void)
{
    static const uint64_t edges[] = {0, 6, 8, 32, 0x40, 0x100, 4096};

    if (below(40) == 0)
        return UINT64_MAX - below(12);
    return below(4) ? edges[below(COUNT_OF(edges))] + below(16) - 8 : below(0x120);
}

/* What a read is to answer, byte by byte of another machine. */
static uint32_t read_bytes(struct pciguest *machine, struct place at, uint64_t *value)
{
    uint64_t all = 0;

    if (at.width < 1 || at.width > 8)
        return 302;
    if (at.offset > UINT64_MAX - at.width)
        return 303;
    for (uint32_t done = 0; done < at.width; done++) {
        uint32_t byte = 0, number = pciguest_raw_device_read(machine, 0, at.slot, at.part, at.offset + done, &byte);

        if (number)
            return number;
        all |= (uint64_t)byte << 8 * done;
    }
    *value = all;
    return 0;
}

static uint32_t write_bytes(struct pciguest *machine, struct place at, uint64_t value)
{
    uint64_t before = 0;
    uint32_t number = read_bytes(machine, at, &before);

    for (uint32_t done = 0; number == 0 && done < at.width; done++)
        number = pciguest_raw_device_write(machine, 0, at.slot, at.part, at.offset + done, (uint8_t)(value >> 8 * done));
    return number;
}

static void ask(struct pciguest *wide, struct pciguest *bytes)
{
    struct place at = {below(20) ? below(3) : 32, any_offset(), (uint32_t)below(7), (uint32_t)below(10)};
    uint64_t value = below(UINT64_MAX), other = value;
    bool is_write = below(2);
    uint32_t number = is_write ? pciguest_device_write_wide(wide, 0, at.slot, at.part, at.offset, at.width, value)
                               : pciguest_device_read_wide(wide, 0, at.slot, at.part, at.offset, at.width, &value);

    IS(number, is_write ? write_bytes(bytes, at, other) : read_bytes(bytes, at, &other));
    IS(value, other);
    if (wrong)
        fprintf(stderr, "%s of slot %" PRIu64 " part %" PRIu32 " offset 0x%" PRIx64 " width %" PRIu32 "\n",
                is_write ? "write" : "read", at.slot, at.part, at.offset, at.width);
}

/* All bytes that the devices of both machines have are the same. */
static void compare(struct pciguest *wide, struct pciguest *bytes)
{
    for (uint64_t slot = 0; slot < 3; slot++)
        for (uint32_t part = 0; part < 7; part++)
            for (uint64_t offset = 0; offset < 4200; offset++) {
                uint32_t one = 0, other = 0;

                IS(pciguest_raw_device_read(wide, 0, slot, part, offset, &one),
                   pciguest_raw_device_read(bytes, 0, slot, part, offset, &other));
                IS(one, other);
            }
}

int main(int argc, char **argv)
{
    struct pciguest wide = PCIGUEST_INIT, bytes = PCIGUEST_INIT;

    begin(argc, argv, 3);
    IS(pciguest_new(&wide, file, length), 0);
    IS(pciguest_new(&bytes, file, length), 0);
    for (uint64_t left = times; left && !wrong; left--)
        ask(&wide, &bytes);
    compare(&wide, &bytes);
    pciguest_free(&wide);
    pciguest_free(&bytes);
    return wrong != 0;
}
