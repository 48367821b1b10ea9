/* Random accesses of 0 to 9 bytes, at any place, over two machines of one board: one is asked by the wide calls, the
 * other by lawful accesses that are chosen here, each as the largest block of 1, 2 or 4 bytes that begins where the one
 * before ended. Both must answer alike.
 *
 *     wide BOARD COUNT SEED
 */
#include "testing.h"

static const uint64_t ends[] = {[PCIGUEST_CONFIG] = 0x100, [PCIGUEST_IO] = 0x100000000, [PCIGUEST_MEMORY] = 0};

static uint64_t any_place(uint32_t space)
{
    if (below(8) == 0)
        return ends[space] - below(12);
    switch (space) {
    case PCIGUEST_CONFIG: return below(64);
    case PCIGUEST_IO: return below(4) ? (below(2) ? 0x1000 : 0x10000) + below(64) : 0xcf4 + below(16);
    default: return 0xc0000000 + (below(4) << 20) + below(80);
    }
}

/* What a wide access is to answer, by lawful accesses of another machine. */
static uint32_t expected(struct pciguest *machine, uint32_t space, uint64_t slot, uint64_t place, uint32_t width,
                         bool is_write, uint64_t *value)
{
    uint64_t room = ends[space] - place, read = 0; /* memory ends at 2^64 */

    if (width == 0 || width > 8)
        return 302;
    if ((place >= ends[space] && space != PCIGUEST_MEMORY) || (room != 0 && width > room))
        return 303;
    for (uint32_t at = 0, size, number; at < width; at += size) {
        uint32_t part = (uint32_t)(*value >> 8 * at);

        for (size = 4; size > width - at || (place + at) & (size - 1);)
            size /= 2;
        number = is_write ? pciguest_write(machine, 0, space, slot, place + at, size, part)
                          : pciguest_read(machine, 0, space, slot, place + at, size, &part);
        if (number)
            return number;
        for (uint32_t byte = 0; byte < size; byte++)
            read |= (uint64_t)(part >> 8 * byte & 0xff) << 8 * (at + byte);
    }
    *value = is_write ? *value : read;
    return 0;
}

static void ask(struct pciguest *wide, struct pciguest *lawful)
{
    uint32_t space = (uint32_t)below(3), width = (uint32_t)below(10), number;
    uint64_t slot = below(20) ? below(3) : 32, place = any_place(space);
    uint64_t value = below(4) ? below(UINT64_MAX) : below(8), other = value;
    bool is_write = below(2);

    number = is_write ? pciguest_write_wide(wide, 0, space, slot, place, width, value)
                      : pciguest_read_wide(wide, 0, space, slot, place, width, &value);
    IS(number, expected(lawful, space, slot, place, width, is_write, &other));
    IS(value, other);
    if (wrong)
        fprintf(stderr, "%s of space %" PRIu32 " slot %" PRIu64 " place 0x%" PRIx64 " width %" PRIu32 "\n",
                is_write ? "write" : "read", space, slot, place, width);
}

/* Writes a dword of configuration space on both machines. */
static void write_both(struct pciguest *wide, struct pciguest *lawful, uint64_t slot, uint64_t offset, uint32_t value)
{
    IS(pciguest_write(wide, 0, PCIGUEST_CONFIG, slot, offset, 4, value), 0);
    IS(pciguest_write(lawful, 0, PCIGUEST_CONFIG, slot, offset, 4, value), 0);
}

int main(int argc, char **argv)
{
    struct pciguest wide = PCIGUEST_INIT, lawful = PCIGUEST_INIT;
    uint64_t value = 5;

    begin(argc, argv, 3);
    IS(pciguest_read_wide(&wide, 0, PCIGUEST_CONFIG, 0, 0, 8, &value), PCIGUEST_NO_MACHINE);
    IS(value, 5);
    IS(pciguest_new(&wide, file, length), 0);
    IS(pciguest_new(&lawful, file, length), 0);
    IS(pciguest_write_wide(&wide, 0, 3, 0, 0, 8, 0), PCIGUEST_ARGUMENT);
    IS(pciguest_read_wide(&wide, 0, PCIGUEST_CONFIG, 0, 0, 8, &value), 0);
    /* Command, so that regions answer too */
    for (uint64_t slot = 0; slot < 3; slot++)
        write_both(&wide, &lawful, slot, 4, 3);
    /* a region at ports above FFFFh, where narrow accesses reach it too */
    write_both(&wide, &lawful, 0, 0x10, 0x10000);
    IS(pciguest_read_wide(&wide, 0, PCIGUEST_IO, 0, 0xfffe, 4, &value), 0);
    IS(value, 0xffff);
    IS(pciguest_read_wide(&wide, 0, PCIGUEST_IO, 0, 0xfffffffc, 5, &value), PCIGUEST_OUT_OF_RANGE);
    for (uint64_t left = times; left && !wrong; left--)
        ask(&wide, &lawful);
    pciguest_free(&wide);
    pciguest_free(&lawful);
    return wrong != 0;
}
