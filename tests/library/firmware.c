/* Firmware of ten accesses, by calls: it numbers the bridge of boards/main.toml, places one region behind
 * it by hand, and reads the region's first bytes.
 *
 *     firmware BOARD
 */
#include "testing.h"

static struct pciguest_board board = PCIGUEST_BOARD_INIT;

/* A write of configuration space of device 2 of bus 0, which is the bridge, or of device 1 behind it. */
static void set(uint8_t bus, uint64_t offset, uint32_t width, uint32_t value)
{
    pciguest_board_write(&board, PCIGUEST_CONFIG, bus, bus == 0 ? 2 : 1, 0, offset, width, value);
}

static uint32_t get(uint32_t space, uint8_t bus, uint8_t device, uint64_t place)
{
    uint32_t value = 0;

    pciguest_board_read(&board, space, bus, device, 0, place, 4, &value);
    return value;
}

int main(int argc, char **argv)
{
    uint32_t size;

    begin(argc, argv, 1);
    IS(pciguest_board_new(&board, file, length), 0);
    printf("nothing is behind the bridge yet: %08x\n", get(PCIGUEST_CONFIG, 1, 1, 0));
    set(0, 0x18, 4, 0x00010100); /* the bridge's buses: 0 above, 1 behind it */
    printf("it is found: %08x\n", get(PCIGUEST_CONFIG, 1, 1, 0));
    set(1, 0x10, 4, 0xffffffff); /* how long is its region? */
    size = -(get(PCIGUEST_CONFIG, 1, 1, 0x10) & ~15u);
    set(1, 0x10, 4, 0xc0000000); /* where it is to stand, in 64 bits */
    set(1, 0x14, 4, 0);
    set(0, 0x24, 4, 0xc0f0c000); /* the bridge forwards c0000000h to c0ffffffh */
    set(0, 0x28, 4, 0);
    set(0, 0x2c, 4, 0);
    set(0, 4, 2, 2); /* memory on, in both */
    set(1, 4, 2, 2);
    printf("its %#x bytes begin with %08x\n", size, get(PCIGUEST_MEMORY, 0, 0, 0xc0000000));
    pciguest_board_free(&board);
    return 0;
}
