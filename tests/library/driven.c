/* Random writes of firmware. After each, what is told of every function of the board is compared with what firmware reads
 * of it by the number that is told, where that is said to reach it; and where it isn't, with nobody, or another function.
 *
 *     driven BOARD COUNT SEED
 *
 * BOARD is boards/main.toml.
 */
#include "functions.h"

enum { BRIDGE = 1 };

static struct pciguest_board board = PCIGUEST_BOARD_INIT;

/* What firmware reads. */
static uint64_t header(const struct pciguest_function *row, uint64_t offset, uint32_t width)
{
    uint32_t value = 0;

    IS(pciguest_board_read(&board, PCIGUEST_CONFIG, (uint8_t)row->bus, (uint8_t)row->device, (uint8_t)row->function,
                           offset, width, &value), 0);
    return value;
}

static void compare(size_t index)
{
    struct pciguest_board_function told;
    const struct pciguest_function *row = &told.function;
    uint32_t ids;

    memset(&told, 0, sizeof told);
    IS(pciguest_board_function(&board, index, &told), 0);
    IS(row->path_length, strlen(paths[index]));
    IS(memcmp(row->path, paths[index], row->path_length), 0);
    IS(row->is_bridge, index == BRIDGE);
    IS(row->is_given | row->guest | row->slot, 0);
    IS(row->vendor_id, 0x1234);
    IS(row->device_id, index + 1);
    ids = (uint32_t)header(row, 0, 4);
    IS(ids == (row->device_id << 16 | row->vendor_id), told.is_found);
    if (!told.is_found)
        return;
    IS(told.opens_io, header(row, 4, 2) & 1);
    IS(told.opens_memory, header(row, 4, 2) >> 1 & 1);
    compare_windows(row);
    compare_bars(row, false);
}

/* Writes a register at random: mostly numbers of the bridge, Command, base address registers and windows. */
static void write_register(void)
{
    static const uint8_t offsets[] = {0x04, 0x10, 0x14, 0x18, 0x18, 0x18, 0x1c, 0x20, 0x24, 0x28, 0x2c, 0x00};
    uint64_t offset = offsets[below(sizeof offsets)];
    uint8_t bus = (uint8_t)below(2), device = (uint8_t)below(3);
    uint32_t value = offset == 0x18 ? (uint32_t)(0x00010100 + below(3) * 0x0100) : (uint32_t)below(UINT32_MAX);

    IS(pciguest_board_write(&board, PCIGUEST_CONFIG, bus, device, 0, offset, 4, value), 0);
}

/* CONFIG_ADDRESS stays, where all else asks by number. */
static void asking_keeps_config_address(void)
{
    struct pciguest_board_function told;
    uint32_t value = 0;

    IS(pciguest_board_write(&board, PCIGUEST_IO, 0, 0, 0, 0xcf8, 4, 0x80001000), 0);
    for (size_t index = 0; index < FUNCTIONS; index++)
        IS(pciguest_board_function(&board, index, &told), 0);
    IS(pciguest_board_read(&board, PCIGUEST_IO, 0, 0, 0, 0xcf8, 4, &value), 0);
    IS(value, 0x80001000);
}

int main(int argc, char **argv)
{
    size_t count = 0;

    begin(argc, argv, 3);
    IS(pciguest_board_new(&board, file, length), 0);
    IS(pciguest_board_count(&board, &count), 0);
    IS(count, FUNCTIONS);
    asking_keeps_config_address();
    for (uint64_t left = times; left > 0; left--) {
        for (size_t index = 0; index < FUNCTIONS; index++)
            compare(index);
        write_register();
    }
    pciguest_board_free(&board);
    return wrong != 0;
}
