/* Tests the driver in sum.c: this program is the device, and it breaks some things on purpose.
 *
 *     test BOARD        board.toml */
#define PCIGUEST_DRIVER
#include <linux/pci.h>

#include "sum.h"

enum { START = 0x00, STATUS = 0x04, ADDRESS = 0x08, LENGTH = 0x10, SUM = 0x14, DONE = 1, FAILED = 2, PENDING = 0x10 };

static int sent, is_broken;

static u64 device_read(u64 slot, u32 part, u64 offset, u32 width)
{
    u64 value = 0;

    (void)pciguest_device_read_wide(pg_bus.machine, pg_bus.guest, slot, part, offset, width, &value);
    return value;
}

static void device_write(u64 slot, u32 part, u64 offset, u32 width, u64 value)
{
    (void)pciguest_device_write_wide(pg_bus.machine, pg_bus.guest, slot, part, offset, width, value);
}

/* Adds up the bytes that START asks for, and requests an interrupt. */
static void start(u64 slot)
{
    u64 length = device_read(slot, 0, LENGTH, 4);
    const u8 *bytes = pg_dma(slot, device_read(slot, 0, ADDRESS, 8), length);
    u32 sum = 0;

    for (u64 n = 0; bytes && n < length; n++)
        sum += bytes[n];
    device_write(slot, 0, SUM, 4, sum);
    device_write(slot, 0, STATUS, 4, bytes && !is_broken ? DONE : FAILED);
    device_write(slot, 1, PENDING, 8, 1);
}

/* Sends a pending message, if it may be sent now. (The bit is cleared first, because the interrupt handler makes accesses, too.) */
static void send_pending(u64 slot)
{
    if (!device_read(slot, 1, PENDING, 8))
        return;
    device_write(slot, 1, PENDING, 8, 0);
    if (pg_send(slot, 0))
        sent++;
    else
        device_write(slot, 1, PENDING, 8, 1);
}

static void accessed(const struct pciguest_hit *hit, u32 width, bool is_write)
{
    (void)width;
    if (is_write && hit->part == 0 && hit->offset == START)
        start(hit->slot);
    if (is_write)
        send_pending(hit->slot);
}

static void show(const char *what, struct pci_dev *dev)
{
    u32 sum = 0;
    int number = sum_bytes(dev, "\1\2\3\4", 4, &sum);

    printf("%s: returned %d, sum %u, messages sent %d\n", what, number, sum, sent);
}

int main(int argc, char **argv)
{
    static char board[65536];
    FILE *file = argc == 2 ? fopen(argv[1], "r") : NULL;
    size_t length = file ? fread(board, 1, sizeof board, file) : 0;
    struct pciguest machine = PCIGUEST_INIT;
    struct pci_dev *dev = &pg_bus.devices[0];

    if (!file || pciguest_new(&machine, board, length) != 0 || pg_probe(&machine, 0, accessed) != 1)
        return 1;
    show("a sum", dev);
    is_broken = 1;
    show("the device fails", dev);
    is_broken = 0;
    pci_clear_master(dev);
    show("Bus Master is clear", dev);
    pci_set_master(dev);
    printf("it is set again: messages sent %d\n", sent);
    show("a sum again", dev);
    pci_write_config_word(dev, PCI_COMMAND, 0x4);
    show("memory is disabled", dev);
    pg_driver->remove(dev);
    pciguest_free(&machine);
    return fclose(file);
}
