/* A machine's PCI: which of its accesses go to the board, what its devices then do, and their
 * interrupts. All functions are called under the board's lock. */
#include "machine.h"

#include <stdio.h>
#include <stdlib.h>
#include <string.h>
#include <sys/ioctl.h>
#include <time.h>

enum { INTERRUPT_LINE = 0x3c, CONFIG_ADDRESS = 0xcf8, BELL_STATUS = 0, BELL_COUNT = 4,
       BELL_RING = 8, WIRES = 4, NETWORK_CARD = 0x1041 };

/* The interrupt lines to which the pins on the machine's bus are connected. */
static const unsigned lines[WIRES] = {5, 9, 10, 11};

/* Ends a machine because of an error number from which it can't recover. The other machines continue. */
void expect(struct machine *machine, uint32_t number, const char *what)
{
    if (number && !machine->has_failed)
        fprintf(stderr, "kvm: %s: %s: %s (%u)\n", machine->name, what, pciguest_strerror(number), number);
    machine->has_failed |= number != 0;
}

uint64_t machine_cells(struct machine *machine, uint64_t slot, uint32_t part, uint64_t offset, uint32_t width)
{
    uint64_t value = 0;

    expect(machine,
           pciguest_device_read_wide(&machine->board->guests, machine->guest, slot, part, offset,
                                     width, &value),
           "a device's cells");
    return value;
}

void machine_set_cells(struct machine *machine, uint64_t slot, uint32_t part, uint64_t offset,
                       uint32_t width, uint64_t value)
{
    expect(machine,
           pciguest_device_write_wide(&machine->board->guests, machine->guest, slot, part, offset,
                                      width, value),
           "a device's cells");
}

/* Attaches the virtio device of a function, if there is one: a disk if it has a file, or a network
 * card. */
static bool find_virtio(struct machine *machine, uint64_t slot, const struct pciguest_function *function)
{
    struct virtio device = {.machine = machine, .slot = slot, .resets = machine->virtio[slot].resets};

    if (function->vendor_id != 0x1af4)
        return false;
    for (struct disk *disk = machine->board->disks; disk < machine->board->disks + DISKS; disk++)
        if (disk->path && strcmp(disk->path, (const char *)function->path) == 0) {
            device.kind = &virtio_blk;
            device.features = disk_features(disk);
            device.behind = disk;
        }
    if (function->device_id == NETWORK_CARD) {
        device.kind = &virtio_net;
        device.features = card_features;
    }
    machine->virtio[slot] = device;
    if (device.kind == &virtio_net)
        cable_plug(&machine->board->cable, &machine->virtio[slot]);
    return device.kind != NULL;
}

/* Finds the device behind the function in a slot. */
static void find_device(struct machine *machine, uint64_t slot)
{
    struct pciguest_function function;

    machine->devices[slot] = NO_DEVICE;
    machine->virtio[slot].kind = NULL;
    if (pciguest_slot(&machine->board->guests, machine->guest, slot, &function) != 0)
        return; /* the slot is empty */
    if (function.class_code >> 8 == 0x0700)
        machine->devices[slot] = SERIAL_PORT;
    else if (function.vendor_id == 0x1234 && function.device_id == 0x0d0b)
        machine->devices[slot] = BELL;
    else if (find_virtio(machine, slot, &function))
        machine->devices[slot] = VIRTIO;
    machine->ports[slot] = (struct uart){.machine = machine, .slot = slot};
    if (machine->devices[slot] == VIRTIO)
        virtio_reset(&machine->virtio[slot]);
}

void machine_find_devices(struct machine *machine)
{
    for (uint64_t slot = 0; slot < SLOTS; slot++)
        find_device(machine, slot);
}

/* Finds the guest of the machine's name, and the devices behind its functions. */
void machine_find_guest(struct machine *machine)
{
    expect(machine,
           pciguest_guest(&machine->board->guests, machine->name, strlen(machine->name),
                          &machine->guest),
           machine->name);
    machine_find_devices(machine);
}

/* Returns the interrupt line of a function's pin, or 0 if it has no pin. For a guest, a function is
 * the device with its slot's number on bus 0, without a bridge above it, so its pin isn't swizzled.
 * As on a PC, the four lines are used in rotation. */
static unsigned line_of(struct machine *machine, uint64_t slot, struct pciguest_function *function)
{
    expect(machine, pciguest_slot(&machine->board->guests, machine->guest, slot, function), "a function");
    return function->interrupt.pin ? lines[(function->interrupt.pin - 1 + slot) % WIRES] : 0;
}

/* Drives the line of a function's pin, which others may share, if its device requests an interrupt
 * and its driver allows it. */
static void drive_line(struct machine *machine, uint64_t slot)
{
    struct pciguest_function function;
    unsigned line = line_of(machine, slot, &function);
    uint32_t bit = 1u << slot;
    bool is_driven = machine->asking & bit && !function.interrupt.is_disabled;

    if (line == 0 || is_driven == !!(machine->driving[line] & bit))
        return;
    machine->driving[line] ^= bit;
    machine_line(machine, line, machine->driving[line] != 0);
}

void machine_interrupt(struct machine *machine, uint64_t slot, bool is_asking)
{
    machine->asking = (machine->asking & ~(1u << slot)) | (uint32_t)is_asking << slot;
    drive_line(machine, slot);
}

/* Writes the interrupt line of a function's pin to Interrupt Line, for its driver. */
static void write_line(struct machine *machine, uint64_t slot)
{
    struct pciguest_function function;

    if (machine->devices[slot])
        expect(machine,
               pciguest_write(&machine->board->guests, machine->guest, PCIGUEST_CONFIG, slot,
                              INTERRUPT_LINE, 1, line_of(machine, slot, &function)),
               "Interrupt Line");
}

/* Does what the firmware of a PC does, except for regions, which Linux places itself: it writes
 * Interrupt Line, and makes these lines level-triggered. */
void machine_wire(struct machine *machine)
{
    struct kvm_irqchip chips[2] = {{.chip_id = KVM_IRQCHIP_PIC_MASTER}, {.chip_id = KVM_IRQCHIP_PIC_SLAVE}};

    for (unsigned i = 0; i < 2; i++)
        needed(ioctl(machine->file, KVM_GET_IRQCHIP, &chips[i]), "KVM_GET_IRQCHIP");
    for (unsigned wire = 0; wire < WIRES; wire++)
        chips[lines[wire] / 8].chip.pic.elcr |= 1u << lines[wire] % 8;
    for (unsigned i = 0; i < 2; i++)
        needed(ioctl(machine->file, KVM_SET_IRQCHIP, &chips[i]), "KVM_SET_IRQCHIP");
    for (uint64_t slot = 0; slot < SLOTS; slot++)
        write_line(machine, slot);
}

/* Finds out which regions are enabled, and where, if the library's count says that this may have
 * changed. */
static void follow_regions(struct machine *machine)
{
    uint64_t changed = machine->changed;
    size_t count = 0;

    expect(machine, pciguest_changed(&machine->board->guests, machine->guest, &changed), "a count");
    if (changed == machine->changed)
        return;
    machine->changed = changed;
    expect(machine,
           pciguest_moved(&machine->board->guests, machine->guest, machine->places, PCIGUEST_PLACES, &count), "regions");
    machine->open_count = 0;
    for (unsigned i = 0; i < PCIGUEST_PLACES; i++)
        if (machine->places[i].now.is_open)
            machine->open[machine->open_count++] = (uint8_t)i;
}

/* Whether an access reaches a port of configuration space, with any of its bytes. */
static bool is_of_configuration(const struct access *access)
{
    return access->space == PCIGUEST_IO && access->place < CONFIG_ADDRESS + 8 &&
           access->place + access->width > CONFIG_ADDRESS;
}

/* Returns whether an access goes to the board, and stores the byte that it reaches: in the ports of
 * configuration space, the register that CONFIG_ADDRESS selects; otherwise, a byte of an enabled
 * region. */
static bool find(struct machine *machine, const struct access *access, struct pciguest_hit *hit)
{
    if (is_of_configuration(access))
        return pciguest_locate(&machine->board->guests, machine->guest, PCIGUEST_IO, 0, access->place, hit) == 0;
    for (unsigned i = 0; i < machine->open_count && !hit->found; i++) {
        unsigned row = machine->open[i];
        const struct pciguest_region *region = &machine->places[row].now;

        if (region->space == access->space && access->place - region->first < region->size)
            *hit = (struct pciguest_hit){row / PCIGUEST_BARS, access->place - region->first, row % PCIGUEST_BARS, 1};
    }
    return hit->found;
}

/* The doorbell counts the ring, and sets the bit that its driver clears. */
static void ring(struct machine *machine, const struct pciguest_hit *hit)
{
    struct pciguest *guests = &machine->board->guests;
    uint64_t count = 0;

    count = machine_cells(machine, hit->slot, hit->part, BELL_COUNT, 4);
    machine_set_cells(machine, hit->slot, hit->part, BELL_COUNT, 4, count + 1);
    expect(machine, pciguest_raise(guests, machine->guest, hit->slot, hit->part, BELL_STATUS, 1), "a bell");
}

/* Lets a function's device act after an access that reached it. If the access was to configuration
 * space, the driver may have moved a region or written Command. */
static void act(struct machine *machine, const struct access *access, const struct pciguest_hit *hit)
{
    enum device device = machine->devices[hit->slot];
    uint64_t end = hit->offset + access->width;

    if (hit->part == PCIGUEST_PART_CONFIG) {
        if (access->is_write) {
            follow_regions(machine);
            drive_line(machine, hit->slot);
            if (device == VIRTIO)
                virtio_settle(&machine->virtio[hit->slot]);
        }
    } else if (device == SERIAL_PORT) {
        for (uint64_t offset = hit->offset; offset < end; offset++)
            uart_touched(&machine->ports[hit->slot], (unsigned)offset, access->is_write);
    } else if (device == VIRTIO) {
        virtio_touched(&machine->virtio[hit->slot], hit->part, hit->offset, access->width, access->is_write);
    } else if (device == BELL && access->is_write && hit->offset < BELL_RING + 4 && end > BELL_RING) {
        ring(machine, hit);
    }
}

uint64_t now(void)
{
    struct timespec time;

    clock_gettime(CLOCK_MONOTONIC, &time);
    return (uint64_t)time.tv_sec * 1000000000 + (uint64_t)time.tv_nsec;
}

/* Makes an access. An access to a region is made by slot, register and offset. An access to
 * configuration space through the ports is made by address, and so is one that extends past the
 * region's end, where another may begin. */
static void make(struct machine *machine, struct access *access, const struct pciguest_hit *hit)
{
    struct pciguest *guests = &machine->board->guests;
    bool is_region = hit->found && hit->part != PCIGUEST_PART_CONFIG;
    uint32_t number = PCIGUEST_OUT_OF_RANGE;

    if (is_region && access->is_write)
        number = pciguest_region_write(guests, machine->guest, hit->slot, hit->part, hit->offset, access->width, access->value);
    else if (is_region)
        number = pciguest_region_read(guests, machine->guest, hit->slot, hit->part, hit->offset, access->width, &access->value);
    if (number != PCIGUEST_OUT_OF_RANGE)
        return;
    if (access->is_write)
        (void)pciguest_write_wide(guests, machine->guest, access->space, 0, access->place, access->width, access->value);
    else
        (void)pciguest_read_wide(guests, machine->guest, access->space, 0, access->place, access->width, &access->value);
}

/* Makes an access, as decided by what its first byte reaches. */
static bool serve(struct machine *machine, struct access *access)
{
    struct pciguest_hit hit = {0};

    if (!find(machine, access, &hit))
        return false;
    make(machine, access, &hit);
    if (hit.found)
        act(machine, access, &hit);
    return true;
}

/* An access that reaches the ports of configuration space goes there as the bus sees it: in cycles of its own, each of which
 * may hit something else. An `out` of 4 bytes at CFBh writes to CFCh too. */
static void serve_configuration(struct machine *machine, struct access *access)
{
    uint64_t all = 0;

    for (uint32_t done = 0, size; done < access->width; done += size) {
        struct access part = *access;

        size = pciguest_piece(access->place + done, access->width - done);
        part.place += done;
        part.width = size;
        part.value = access->is_write ? access->value >> 8 * done : UINT64_MAX;
        (void)serve(machine, &part);
        all |= (part.value & (UINT64_MAX >> (64 - 8 * size))) << 8 * done;
    }
    if (!access->is_write)
        access->value = all;
}

/* Makes an access if it goes to the board. If nothing responds there, a read returns all ones, and
 * a write is lost. */
bool machine_board_access(struct machine *machine, struct access *access)
{
    uint64_t began = now();

    machine->away = 0;
    if (is_of_configuration(access))
        serve_configuration(machine, access);
    else if (!serve(machine, access))
        return false;
    machine->board_exits++;
    machine->board_nanoseconds += now() - began - machine->away;
    return true;
}

void machine_settle(struct machine *machine)
{
    uart_settle(&machine->console);
    for (uint64_t slot = 0; slot < SLOTS; slot++) {
        if (machine->devices[slot] == SERIAL_PORT)
            uart_settle(&machine->ports[slot]);
        else if (machine->devices[slot] == VIRTIO)
            virtio_settle(&machine->virtio[slot]);
    }
    follow_regions(machine);
}

/* Moves a function, with the device behind it, to a slot of another machine, once the device has
 * ended the piece that it transfers. The function is reset, so the device is too. */
uint32_t machine_move(struct machine *from, uint64_t slot, struct machine *to, uint64_t target)
{
    struct pciguest *guests = &from->board->guests;
    struct pciguest_function function;
    uint32_t fault;

    if (pciguest_slot(guests, from->guest, slot, &function) == 0 &&
        pciguest_slot(guests, to->guest, target, &function) == PCIGUEST_EMPTY_SLOT)
        from->virtio[slot].is_leaving = true;
    while (slot < SLOTS && from->virtio[slot].is_leaving && from->virtio[slot].is_busy)
        board_pause(from->board);
    if (slot < SLOTS && from->devices[slot])
        machine_interrupt(from, slot, false);
    fault = pciguest_move(guests, from->guest, slot, to->guest, target);
    if (!fault) {
        find_device(from, slot);
        find_device(to, target);
        write_line(to, target);
    }
    machine_settle(from);
    machine_settle(to);
    return fault;
}
