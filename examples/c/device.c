/* A hypervisor's accesses and a device model, with pciguest.
 *
 * When a guest accesses a port, configuration space or memory that belongs to a device, its processor stops, and the
 * hypervisor must emulate the access. Here, `serve` does this, and `act` is the device. Instead of a processor, there
 * is a table of accesses: firmware finds the device through ports CF8h and CFCh, sizes its region and places it; then
 * a driver rings the device, reads the result, and clears it.
 *
 *     device BOARD      examples/device.toml, whose guest `a` has this device
 *
 * The device has one memory region:
 *
 *     00h  STATUS    1 byte, bit 0: the device was rung. Writing a one clears the bit
 *     04h  COUNT     4 bytes: how often the device was rung. The driver can only read it
 *     08h  DOORBELL  4 bytes: a write rings the device, and the value is kept
 *
 * The board file says which bits the driver can change. The device can change all of them. */
#include "pciguest.h"

#include <inttypes.h>
#include <stdio.h>

enum { STATUS = 0x00, COUNT = 0x04, DOORBELL = 0x08, SERVED = 1 };

/* A trapped access of 1 to 8 bytes at any address. */
struct trap {
    bool is_write;
    enum pciguest_space space;
    uint64_t place;
    uint32_t width;
    uint64_t value;
};

/* Returns whether an access reaches anything on the board, and stores what it reaches. If it reaches nothing, it is
 * meant for the hypervisor's own UART or RAM, or for nothing at all. A 4-byte access to CF8h is always for the
 * board's CONFIG_ADDRESS. */
static bool find(struct pciguest *machine, size_t guest, struct trap trap, struct pciguest_hit *hit)
{
    bool is_selection = trap.space == PCIGUEST_IO && trap.place == 0xcf8 && trap.width == 4;

    return pciguest_locate(machine, guest, trap.space, 0, trap.place, hit) == 0 && (hit->found || is_selection);
}

/* Makes one access, and returns the value that is read or written. Accesses to memory regions are made by slot,
 * register and offset, which `find` stored. Accesses to ports are made by address, and so are those that extend past
 * a region's end, where another region may begin. A bus can't refuse anything, so if nothing responds, a write is
 * lost. */
static uint64_t serve(struct pciguest *machine, size_t guest, struct trap trap, const struct pciguest_hit *hit)
{
    uint64_t value = trap.is_write ? trap.value : UINT64_MAX;
    uint32_t number = PCIGUEST_OUT_OF_RANGE;

    if (trap.space == PCIGUEST_MEMORY && trap.is_write)
        number = pciguest_region_write(machine, guest, hit->slot, hit->part, hit->offset, trap.width, value);
    else if (trap.space == PCIGUEST_MEMORY)
        number = pciguest_region_read(machine, guest, hit->slot, hit->part, hit->offset, trap.width, &value);
    if (number != PCIGUEST_OUT_OF_RANGE)
        return value;
    if (trap.is_write)
        (void)pciguest_write_wide(machine, guest, trap.space, 0, trap.place, trap.width, value);
    else
        (void)pciguest_read_wide(machine, guest, trap.space, 0, trap.place, trap.width, &value);
    return value;
}

/* The device is rung: it counts the ring, sets the bit of STATUS, and drives its pin unless the driver has disabled
 * interrupts. */
static void ring(struct pciguest *machine, size_t guest, const struct pciguest_hit *hit)
{
    struct pciguest_function function = {0};
    uint64_t rings = 0;

    (void)pciguest_device_read_wide(machine, guest, hit->slot, hit->part, COUNT, 4, &rings);
    (void)pciguest_device_write_wide(machine, guest, hit->slot, hit->part, COUNT, 4, rings + 1);
    (void)pciguest_raise(machine, guest, hit->slot, hit->part, STATUS, SERVED);
    (void)pciguest_slot(machine, guest, hit->slot, &function);
    printf("ring, INT%c# %s\n", "-ABCD"[function.interrupt.pin], function.interrupt.is_disabled ? "off" : "on");
}

/* Prints which addresses must be trapped from now on. */
static void tell_traps(struct pciguest *machine, size_t guest)
{
    static struct pciguest_place places[PCIGUEST_PLACES];
    size_t count = 0;

    (void)pciguest_moved(machine, guest, places, PCIGUEST_PLACES, &count);
    for (const struct pciguest_place *it = places; count && it < places + PCIGUEST_PLACES; it++)
        if (it->has_moved && it->now.is_open)
            printf("trap %s 0x%" PRIx64 " to 0x%" PRIx64 "\n", it->now.space == PCIGUEST_IO ? "port" : "memory",
                   it->now.first, it->now.first + it->now.size - 1);
}

/* Acts after a write. If it reached configuration space, regions may have moved. If it reached the doorbell, the
 * device acts. The access may also begin before the doorbell and extend into it. */
static void act(struct pciguest *machine, size_t guest, struct trap trap, const struct pciguest_hit *hit)
{
    if (!trap.is_write || !hit->found)
        return;
    if (hit->part == PCIGUEST_PART_CONFIG)
        tell_traps(machine, guest);
    else if (hit->offset < DOORBELL + 4 && hit->offset + trap.width > DOORBELL)
        ring(machine, guest, hit);
}

/* The value of CONFIG_ADDRESS that selects a register of a device on bus 0. */
#define REGISTER(device, offset) (0x80000000u | (device) << 11 | (offset))

static const struct trap accesses[] = {
    {true, PCIGUEST_IO, 0xcf8, 4, REGISTER(0, 0x00)}, /* firmware: what is device 0? */
    {false, PCIGUEST_IO, 0xcfc, 4, 0},
    {true, PCIGUEST_IO, 0xcf8, 4, REGISTER(7, 0x00)}, /* and device 7? */
    {false, PCIGUEST_IO, 0xcfc, 4, 0},
    {true, PCIGUEST_IO, 0xcf8, 4, REGISTER(0, 0x10)}, /* the size of its region */
    {true, PCIGUEST_IO, 0xcfc, 4, 0xffffffff},
    {false, PCIGUEST_IO, 0xcfc, 4, 0},
    {true, PCIGUEST_IO, 0xcfc, 4, 0xe0000000}, /* its address */
    {true, PCIGUEST_IO, 0xcf8, 4, REGISTER(0, 0x04)},
    {true, PCIGUEST_IO, 0xcfc, 2, 0x0002}, /* memory on */
    {true, PCIGUEST_MEMORY, 0xe0000008, 4, 0x12345678}, /* the driver rings */
    {false, PCIGUEST_MEMORY, 0xe0000000, 1, 0},
    {false, PCIGUEST_MEMORY, 0xe0000008, 4, 0},
    {true, PCIGUEST_MEMORY, 0xe000000a, 1, 0xff}, /* and again, by one byte of it */
    {false, PCIGUEST_MEMORY, 0xe0000000, 8, 0}, /* STATUS and COUNT at once */
    {true, PCIGUEST_MEMORY, 0xe0000000, 1, SERVED}, /* the driver clears STATUS; COUNT stays */
    {true, PCIGUEST_MEMORY, 0xe0000004, 4, 1},
    {true, PCIGUEST_IO, 0xcf8, 4, REGISTER(0, 0x04)},
    {true, PCIGUEST_IO, 0xcfc, 2, 0x0402}, /* no more interrupts; the region's address isn't printed again */
    {true, PCIGUEST_MEMORY, 0xe0000006, 8, 0}, /* unaligned, and across the doorbell */
    {false, PCIGUEST_MEMORY, 0xe0000000, 8, 0},
    {false, PCIGUEST_MEMORY, 0xe0000ffc, 8, 0}, /* past the region's end */
    {false, PCIGUEST_MEMORY, 0xd0000000, 4, 0}, /* nothing responds */
};

static void run(struct pciguest *machine, size_t guest)
{
    static const char *const names[] = {"config", "port", "memory"};

    for (size_t i = 0; i < sizeof accesses / sizeof *accesses; i++) {
        struct trap trap = accesses[i];
        struct pciguest_hit hit = {0};

        printf("%s %s 0x%" PRIx64 " %" PRIu32 ": ", trap.is_write ? "write" : "read ", names[trap.space], trap.place,
               trap.width);
        if (!find(machine, guest, trap, &hit)) {
            printf("nobody here\n");
            continue;
        }
        printf("0x%0*" PRIx64 "\n", (int)trap.width * 2, serve(machine, guest, trap, &hit));
        act(machine, guest, trap, &hit);
    }
}

int main(int argc, char **argv)
{
    static uint8_t board[65536];
    struct pciguest machine = PCIGUEST_INIT;
    FILE *file = argc == 2 ? fopen(argv[1], "rb") : NULL;
    size_t guest = 0;
    uint32_t fault;

    if (!file) {
        fprintf(stderr, "device BOARD\n");
        return 2;
    }
    fault = pciguest_new(&machine, board, fread(board, 1, sizeof board, file));
    fclose(file);
    if (!fault)
        fault = pciguest_guest(&machine, "a", 1, &guest);
    if (!fault)
        run(&machine, guest);
    else
        fprintf(stderr, "device: %s (%" PRIu32 ")\n", pciguest_strerror(fault), fault);
    pciguest_free(&machine);
    return fault != 0;
}
