/* A guest's image, as its machine takes it back. Whoever has had the file may have changed it. */
#include "machine.h"

#include <string.h>

/* The words that keep_list keeps: bit 4 of Status with the pointer, and then 40h to FFh. */
enum { LIST_WORDS = 25, MSIX = 0x11 };

/* Keeps what the board file declares of a function's capability list, and its driver can't change: all but MSI-X Enable and
 * Function Mask. */
static void keep_list(struct machine *machine, uint64_t slot, uint64_t kept[LIST_WORDS])
{
    uint64_t at = 0;

    kept[0] = (machine_cells(machine, slot, PCIGUEST_PART_CONFIG, 0x06, 1) & 0x10) << 8 |
              machine_cells(machine, slot, PCIGUEST_PART_CONFIG, 0x34, 1);
    for (unsigned i = 1; i < LIST_WORDS; i++)
        kept[i] = machine_cells(machine, slot, PCIGUEST_PART_CONFIG, 0x38 + 8 * i, 8);
    expect(machine, pciguest_find_capability(&machine->board->guests, machine->guest, slot, 0, MSIX, &at), "a list");
    if (at)
        kept[(at - 0x38) / 8] &= ~(0xc0ull << 8 * ((at + 3) % 8));
}

/* Whether the device of a slot can go on with the registers that an image left there. */
static bool is_sound(struct machine *machine, uint64_t slot, const uint64_t declared[LIST_WORDS])
{
    uint64_t found[LIST_WORDS];

    if (machine->devices[slot] == SERIAL_PORT)
        return uart_is_sound(&machine->ports[slot]);
    if (machine->devices[slot] != VIRTIO)
        return true;
    keep_list(machine, slot, found);
    return memcmp(found, declared, sizeof found) == 0 && virtio_is_sound(&machine->virtio[slot]);
}

/* Loads an image, which a stranger may have made: the library takes each that the guest's registers can hold, and the devices
 * have to check what they believe of theirs. One that isn't sound leaves the guest at reset. */
const char *machine_restore(struct machine *machine, const void *image, size_t length)
{
    uint64_t declared[SLOTS][LIST_WORDS] = {{0}};
    uint32_t fault;
    bool is_good = true;

    expect(machine, pciguest_reset_guest(&machine->board->guests, machine->guest), "a reset");
    for (uint64_t slot = 0; slot < SLOTS; slot++)
        if (machine->devices[slot] == VIRTIO)
            keep_list(machine, slot, declared[slot]);
    fault = pciguest_load(&machine->board->guests, machine->guest, image, length);
    for (uint64_t slot = 0; slot < SLOTS && !fault; slot++)
        is_good &= is_sound(machine, slot, declared[slot]);
    if (!fault && is_good && !machine->has_failed)
        return NULL;
    machine->has_failed = false; /* at reset, it hasn't */
    expect(machine, pciguest_reset_guest(&machine->board->guests, machine->guest), "a reset");
    machine_find_devices(machine);
    return fault ? pciguest_strerror(fault) : "a device's registers in the image contradict each other";
}
