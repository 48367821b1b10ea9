/* Whether a device may access its guest's memory (pciguest_bus_master), the messages of MSI-X
 * and MSI vectors (pciguest_msix_message, pciguest_msi_message) in each state of the bits that
 * decide and out of range, and whether a function asserts its pin (pciguest_set_interrupt).
 *
 *     messages BOARD
 *
 * BOARD is tests/library/messages.toml. The exit status is 1 if a result is wrong. */
#include "testing.h"

enum { COMMAND = 4, CONTROL = 0x60 + 2, TABLE = 0x60 + 4 };
enum { MASTER = 4, ENABLE = 0x8000, FUNCTION_MASK = 0x4000, VECTORS = 4 };

static struct pciguest_message message_of(struct pciguest *machine, uint64_t slot, uint32_t vector)
{
    struct pciguest_message message = {7, 7, 7, 7, 7};

    IS(pciguest_msix_message(machine, 0, slot, vector, &message), 0);
    return message;
}

static void are(struct pciguest_message found, struct pciguest_message wanted)
{
    IS(found.address, wanted.address);
    IS(found.data, wanted.data);
    IS(found.is_enabled, wanted.is_enabled);
    IS(found.is_masked, wanted.is_masked);
    IS(found.can_be_sent, wanted.can_be_sent);
}

static bool is_master(struct pciguest *machine, size_t guest, uint64_t slot)
{
    bool is_set = false;

    IS(pciguest_bus_master(machine, guest, slot, &is_set), 0);
    return is_set;
}

static void set_config(struct pciguest *machine, uint64_t offset, uint32_t width, uint32_t value)
{
    IS(pciguest_write(machine, 0, PCIGUEST_CONFIG, 0, offset, width, value), 0);
}

/* Writes 4 bytes of the table as the driver does, whether or not Command enables the region. */
static void set_table(struct pciguest *machine, uint32_t vector, uint64_t offset, uint32_t value)
{
    set_config(machine, COMMAND, 2, config(machine, 0, 0, COMMAND, 2) | 2);
    IS(pciguest_region_write(machine, 0, 0, 2, 0x800 + 16 * vector + offset, 4, value), 0);
}

/* Sets a register of configuration space as the device does. */
static void set(struct pciguest *machine, uint64_t offset, uint32_t width, uint64_t value)
{
    IS(pciguest_device_write_wide(machine, 0, 0, PCIGUEST_PART_CONFIG, offset, width, value), 0);
}

static void bus_masters(struct pciguest *machine)
{
    bool is_set = true;

    IS(is_master(machine, 0, 0), false);
    set_config(machine, COMMAND, 2, 0x547 & ~MASTER);
    IS(is_master(machine, 0, 0), false);
    set_config(machine, COMMAND, 1, MASTER);
    IS(is_master(machine, 0, 0), true);
    IS(is_master(machine, 0, 1), false);
    IS(pciguest_move(machine, 0, 0, 1, 5), 0);
    IS(is_master(machine, 1, 5), false);
    IS(pciguest_bus_master(machine, 0, 0, &is_set), 601);
    IS(pciguest_move(machine, 1, 5, 0, 0), 0);
    IS(pciguest_bus_master(machine, 0, 5, &is_set), 601);
    IS(pciguest_bus_master(machine, 0, 32, &is_set), 303);
    IS(pciguest_bus_master(machine, 0, UINT64_MAX, &is_set), 303);
    IS(pciguest_bus_master(machine, 2, 0, &is_set), 902);
    IS(pciguest_bus_master(machine, 0, 0, NULL), 902);
    IS(pciguest_bus_master(NULL, 0, 0, &is_set), 902);
    IS(is_set, true);
}

/* A message can be sent in one of the 16 states of the bits that decide. */
static void all_states(struct pciguest *machine)
{
    for (uint32_t bits = 0; bits < 16; bits++) {
        bool enabled = bits & 1, function = bits & 2, vector = bits & 4, master = bits & 8;
        struct pciguest_message wanted = {0x1fee01000, 0x4321, enabled, function || vector,
                                          enabled && !function && !vector && master};

        set_table(machine, 2, 12, vector);
        set_config(machine, CONTROL, 2, (enabled ? ENABLE : 0) | (function ? FUNCTION_MASK : 0));
        set_config(machine, COMMAND, 2, master ? MASTER : 0);
        are(message_of(machine, 0, 2), wanted);
    }
}

static void messages(struct pciguest *machine)
{
    are(message_of(machine, 0, 0), (struct pciguest_message){0, 0, 0, 1, 0});
    for (uint32_t vector = 0; vector < VECTORS; vector++) {
        set_table(machine, vector, 0, 0xfee01003 + 0x1000 * (vector - 2)); /* the low bits stay 0 */
        set_table(machine, vector, 4, vector - 1);
        set_table(machine, vector, 8, 0x4321 + vector - 2);
        set_table(machine, vector, 12, 0xffffffff);
    }
    all_states(machine);
    are(message_of(machine, 0, 3), (struct pciguest_message){0x2fee02000, 0x4322, 1, 1, 0});
    are(message_of(machine, 1, 0), (struct pciguest_message){0, 0, 0, 0, 0});
    are(message_of(machine, 2, 2000), (struct pciguest_message){0, 0, 0, 0, 0});
}

static void refused(struct pciguest *machine)
{
    /* no region begins there, and the last two aren't registers, although part 6 is something */
    static const uint8_t registers[] = {1, 3, 4, 5, 6, 7};
    struct pciguest_message message = {7, 7, 7, 7, 7};

    IS(pciguest_msix_message(machine, 0, 0, VECTORS, &message), 303);
    IS(pciguest_msix_message(machine, 0, 0, UINT32_MAX, &message), 303);
    for (size_t i = 0; i < COUNT_OF(registers); i++) {
        set(machine, TABLE, 1, registers[i]);
        IS(pciguest_msix_message(machine, 0, 0, 0, &message), 303);
    }
    set(machine, TABLE, 4, 0xfe0); /* the region ends after vector 1 */
    are(message_of(machine, 0, 1), (struct pciguest_message){0, 0, 1, 0, 1});
    IS(pciguest_msix_message(machine, 0, 0, 2, &message), 303);
    set(machine, TABLE, 4, 0xfffffff8);
    IS(pciguest_msix_message(machine, 0, 0, 0, &message), 303);
    set(machine, TABLE, 4, 0);
    are(message_of(machine, 0, 0),
        (struct pciguest_message){0x5a5a5a5a5a5a5a5a, 0x5a5a5a5a, 1, 0, 1});
    set(machine, 0x34, 1, 0xfc); /* a structure that extends past configuration space */
    set(machine, 0xfc, 1, 0x11);
    IS(pciguest_msix_message(machine, 0, 0, 0, &message), 303);
    set(machine, 0x34, 1, 0); /* no structure */
    are(message_of(machine, 0, 0), (struct pciguest_message){0, 0, 0, 0, 0});
    IS(pciguest_msix_message(machine, 0, 5, 0, &message), 601);
    IS(pciguest_msix_message(machine, 0, 32, 0, &message), 303);
    IS(pciguest_msix_message(machine, 2, 0, 0, &message), 902);
    IS(pciguest_msix_message(machine, 0, 0, 0, NULL), 902);
    IS(pciguest_msix_message(NULL, 0, 0, 0, &message), 902);
    are(message, (struct pciguest_message){7, 7, 7, 7, 7});
}

enum { MSI = 0x50, BOTH = 3, PLAIN = 4, DISABLE = 0x400, INTERRUPT = 8 };

static void set_in(struct pciguest *machine, uint64_t slot, uint64_t offset, uint32_t width, uint32_t value)
{
    IS(pciguest_write(machine, 0, PCIGUEST_CONFIG, slot, offset, width, value), 0);
}

static struct pciguest_message msi_of(struct pciguest *machine, uint64_t slot, uint32_t vector)
{
    struct pciguest_message message = {7, 7, 7, 7, 7};

    IS(pciguest_msi_message(machine, 0, slot, vector, &message), 0);
    return message;
}

/* The low bits of the data are the vector's, as many as the driver allocated. */
static void msi_messages(struct pciguest *machine)
{
    struct pciguest_message none = {0, 0, 0, 0, 0};

    are(msi_of(machine, 0, 7), none); /* MSI-X alone */
    are(msi_of(machine, 2, 0), none); /* no list */
    are(msi_of(machine, BOTH, 0), none);
    set_in(machine, BOTH, MSI + 4, 4, 0xfee01003);
    set_in(machine, BOTH, MSI + 8, 4, 0x1);
    set_in(machine, BOTH, MSI + 12, 2, 0x4327);
    set_in(machine, PLAIN, MSI + 4, 4, 0xfee02000);
    set_in(machine, PLAIN, MSI + 8, 2, 0x4327);
    for (uint32_t bits = 0; bits < 32; bits++) {
        bool enabled = bits & 1, masked = bits & 2, master = bits & 4;
        uint32_t exponent = bits >> 3, count = 1u << exponent; /* Multiple Message Enable: 1 to 8 vectors */
        struct pciguest_message wanted = {0x1fee01000, (0x4327 & ~(count - 1)) + count - 1, enabled, masked,
                                          enabled && !masked && master};

        set_in(machine, BOTH, MSI + 2, 2, exponent << 4 | enabled);
        set_in(machine, PLAIN, MSI + 2, 2, exponent << 4 | enabled);
        IS(pciguest_device_write_wide(machine, 0, BOTH, PCIGUEST_PART_CONFIG, MSI + 16, 4, masked ? 1u << (count - 1) : 0), 0);
        set_in(machine, BOTH, COMMAND, 2, master ? MASTER : 0);
        set_in(machine, PLAIN, COMMAND, 2, master ? MASTER : 0);
        are(msi_of(machine, BOTH, count - 1), wanted);
        wanted.address = 0xfee02000;
        wanted.is_masked = 0;
        wanted.can_be_sent = enabled && master;
        are(msi_of(machine, PLAIN, count - 1), wanted);
        IS(pciguest_msi_message(machine, 0, BOTH, count, &wanted), 303);
    }
}

static void msi_refused(struct pciguest *machine)
{
    struct pciguest_message message = {7, 7, 7, 7, 7};

    set_in(machine, PLAIN, MSI + 2, 1, 0x71); /* a reserved number of vectors */
    IS(pciguest_msi_message(machine, 0, PLAIN, 31, &message), 0);
    message = (struct pciguest_message){7, 7, 7, 7, 7};
    IS(pciguest_msi_message(machine, 0, PLAIN, 32, &message), 303);
    IS(pciguest_msi_message(machine, 0, PLAIN, UINT32_MAX, &message), 303);
    IS(pciguest_device_write_wide(machine, 0, PLAIN, PCIGUEST_PART_CONFIG, 0x34, 1, 0xf8), 0);
    IS(pciguest_device_write_wide(machine, 0, PLAIN, PCIGUEST_PART_CONFIG, 0xf8, 1, 5), 0);
    IS(pciguest_msi_message(machine, 0, PLAIN, 0, &message), 303); /* it extends past FFh */
    IS(pciguest_msi_message(machine, 0, 5, 0, &message), 601);
    IS(pciguest_msi_message(machine, 0, 32, 0, &message), 303);
    IS(pciguest_msi_message(machine, 2, 0, 0, &message), 902);
    IS(pciguest_msi_message(machine, 0, 0, 0, NULL), 902);
    IS(pciguest_msi_message(NULL, 0, 0, 0, &message), 902);
    are(message, (struct pciguest_message){7, 7, 7, 7, 7});
    IS(pciguest_reset(machine, 0, PLAIN), 0);
}

static bool asserts(struct pciguest *machine, size_t guest, uint64_t slot, bool is_requested)
{
    bool is_asserted = !is_requested;

    IS(pciguest_set_interrupt(machine, guest, slot, is_requested, &is_asserted), 0);
    IS(config(machine, guest, slot, 6, 2), 0x10 | (is_requested ? INTERRUPT : 0));
    return is_asserted;
}

/* The pin is asserted in one of the 16 states of the bits that decide. */
static void interrupts(struct pciguest *machine)
{
    bool is_asserted = true;

    for (uint32_t bits = 0; bits < 16; bits++) {
        bool requested = bits & 1, disabled = bits & 2, msi = bits & 4, msix = bits & 8;

        set_in(machine, BOTH, COMMAND, 2, disabled ? DISABLE : 0);
        set_in(machine, BOTH, MSI + 2, 1, msi);
        set_in(machine, BOTH, 0x72, 2, msix ? ENABLE : 0);
        IS(asserts(machine, 0, BOTH, requested), bits == 1);
    }
    IS(asserts(machine, 0, PLAIN, true), true);
    IS(asserts(machine, 0, 1, true), false); /* no pin */
    set_in(machine, PLAIN, 6, 2, 0xffff); /* the driver only reads the bit */
    IS(config(machine, 0, PLAIN, 6, 2), 0x10 | INTERRUPT);
    IS(pciguest_move(machine, 0, PLAIN, 1, 9), 0);
    IS(config(machine, 1, 9, 6, 2), 0x10);
    IS(asserts(machine, 1, 9, true), true);
    IS(pciguest_set_interrupt(machine, 0, 5, true, &is_asserted), 601);
    IS(pciguest_set_interrupt(machine, 0, 32, true, &is_asserted), 303);
    IS(pciguest_set_interrupt(machine, 2, 0, true, &is_asserted), 902);
    IS(pciguest_set_interrupt(machine, 0, 0, true, NULL), 902);
    IS(pciguest_set_interrupt(NULL, 0, 0, true, &is_asserted), 902);
    IS(is_asserted, true);
}

/* The image of a guest has the bit. */
static void interrupts_are_saved(struct pciguest *machine)
{
    static uint8_t image[65536];
    size_t size = 0;

    IS(pciguest_save(machine, 1, image, sizeof image, &size), 0);
    IS(pciguest_reset(machine, 1, 9), 0);
    IS(pciguest_load(machine, 1, image, size), 0);
    IS(config(machine, 1, 9, 6, 2), 0x10 | INTERRUPT);
}

int main(int argc, char **argv)
{
    struct pciguest machine = PCIGUEST_INIT;

    begin(argc, argv, 1);
    IS(pciguest_new(&machine, file, length), 0);
    bus_masters(&machine);
    messages(&machine);
    set_config(&machine, CONTROL, 2, ENABLE);
    set_config(&machine, COMMAND, 2, MASTER);
    refused(&machine);
    msi_messages(&machine);
    msi_refused(&machine);
    interrupts(&machine);
    interrupts_are_saved(&machine);
    pciguest_free(&machine);
    return wrong != 0;
}
