/* The table that pciguest_declare.h writes is the same endpoint as the one that is written by hand.
 *
 *     declare BOARD
 *
 * BOARD is examples/device.toml. The exit status is 1 if something is wrong. */
#include "pciguest_declare.h"
#include "testing.h"

static const struct pg_register registers[] = {
    {.name = "STATUS", .part = 0, .offset = 0x00, .width = 1, .w1c = 0x01},
    {.name = "COUNT", .part = 0, .offset = 0x04, .width = 4},
    {.name = "BELL", .part = 0, .offset = 0x08, .width = 4, .rw = 0xffffffff}};
static const struct pg_device doorbell = {.vendor_id = 0x1234, .device_id = 0x0d0b, .class_code = 0xff0000, .interrupt_pin = 1,
                                          .bars = {{"mem32", 0x1000}}, .registers = registers, .register_count = 3};

/* MSI-X and a structure of the vendor's, with a register of the device's own between them. */
static const struct pg_register others[] = {
    {.name = "ENTRY", .part = 1, .offset = 0, .width = 8, .rw = 0xfffffffffffffffc},
    {.name = "VECTOR", .part = 1, .offset = 8, .width = 8, .reset = 1ull << 32, .rw = 0x1ffffffff},
    {.name = "OWN", .part = PG_CONFIG, .offset = 0x60, .width = 2, .rw = 0xff},
    {.name = "CONTROL", .part = PG_CONFIG, .offset = 0x42, .width = 2, .rw = 0xc000},
    {.name = "TABLE", .part = PG_CONFIG, .offset = 0x44, .width = 4, .reset = 1},
    {.name = "PENDING", .part = PG_CONFIG, .offset = 0x48, .width = 4, .reset = 0x801},
    {.name = "LENGTH", .part = PG_CONFIG, .offset = 0x72, .width = 1, .reset = 8}};
static const struct pg_structure list[] = {{0x11, 0x40, 12}, {0x09, 0x70, 8}};
static const struct pg_device listed = {.vendor_id = 0x1234, .device_id = 0x0d0c, .class_code = 0xff0000,
                                        .bars = {[1] = {"mem32", 0x10000}}, .registers = others, .register_count = 7,
                                        .structures = list, .structure_count = 2};

static const char host[] = "host = { io = [0x1000, 0xffff], mem = [0xc0000000, 0xdfffffff] }\n";
static const char guest[] = "[[guest]]\nname = \"a\"\nslots = [\"1.0\"]\n";

/* Makes a machine of a device's table, which has to fit. */
static void make(struct pciguest *machine, const struct pg_device *device)
{
    static char text[8192];
    size_t length = strlen(strcpy(text, host)), added;

    added = pg_endpoint(device, "1.0", text + length, sizeof text - length);
    IS(added > 0 && added < sizeof text - length, 1);
    IS(strlen(text + length), added);
    IS(pg_endpoint(device, "1.0", NULL, 0), added);
    strcat(text, guest);
    IS(pciguest_new(machine, text, strlen(text)), 0);
}

static void by_hand_and_by_names(void)
{
    static uint8_t wanted[4096], found[4096];
    size_t wanted_size = 0, found_size = 1;
    struct pciguest one = PCIGUEST_INIT, other = PCIGUEST_INIT;

    IS(pciguest_new(&one, file, length), 0);
    make(&other, &doorbell);
    IS(pciguest_save(&one, 0, wanted, sizeof wanted, &wanted_size), 0);
    IS(pciguest_save(&other, 0, found, sizeof found, &found_size), 0);
    IS(found_size, wanted_size);
    IS(memcmp(found, wanted, wanted_size), 0);
    pciguest_free(&one);
    pciguest_free(&other);
}

static void a_list(void)
{
    struct pciguest machine = PCIGUEST_INIT;
    struct pciguest_message message = {0};
    uint64_t at = 0;

    make(&machine, &listed);
    IS(pciguest_find_capability(&machine, 0, 0, 0, 0x11, &at), 0);
    IS(at, 0x40);
    IS(pciguest_find_capability(&machine, 0, 0, 0, 0x09, &at), 0);
    IS(at, 0x70);
    IS(config(&machine, 0, 0, 0x70, 4), 0x080009);
    IS(pciguest_write(&machine, 0, PCIGUEST_CONFIG, 0, 0x60, 2, 0xffff), 0);
    IS(config(&machine, 0, 0, 0x60, 2), 0xff);
    IS(pciguest_write(&machine, 0, PCIGUEST_CONFIG, 0, 0x42, 2, 0xffff), 0);
    IS(pciguest_msix_message(&machine, 0, 0, 0, &message), 0);
    IS(message.is_enabled, 1);
    IS(message.is_masked, 1);
    pciguest_free(&machine);
}

/* Registers that can't be. */
static void refused(void)
{
    static const struct pg_register wrong[] = {
        {.name = "", .part = 0, .offset = 0xffd, .width = 4},
        {.name = "", .part = 1, .offset = 0, .width = 4},
        {.name = "", .part = 6, .offset = 0x3c, .width = 4},
        {.name = "", .part = 6, .offset = 0xfe, .width = 4},
        {.name = "", .part = 7, .offset = 0, .width = 1},
        {.name = "", .part = 0, .offset = 0, .width = 0}, {.name = "", .part = 0, .offset = 0, .width = 9},
        {.name = "", .part = 0, .offset = 0, .width = 1, .rw = 0x100},
        {.name = "", .part = 0, .offset = 0, .width = 1, .rw = 1, .w1c = 1},
        {.name = "", .part = 0, .offset = UINT32_MAX, .width = 1}};
    struct pg_register both[2] = {{.name = "", .part = 0, .offset = 0, .width = 4},
                                  {.name = "", .part = 0, .offset = 3, .width = 1}};
    struct pg_device device = doorbell;
    char text[1024];

    device.register_count = 1;
    for (size_t i = 0; i < COUNT_OF(wrong); i++) {
        device.registers = &wrong[i];
        IS(pg_endpoint(&device, "1.0", text, sizeof text), 0);
    }
    device.registers = both;
    device.register_count = 2;
    IS(pg_endpoint(&device, "1.0", text, sizeof text), 0);
}

int main(int argc, char **argv)
{
    begin(argc, argv, 1);
    by_hand_and_by_names();
    a_list();
    refused();
    return wrong != 0;
}
