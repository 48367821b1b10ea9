/* Random events of two guests. After each, what is told of every function of the board is compared with what the host
 * reads of it by its number, and who has it, and whether its interrupt is disabled, with what the guests read in their slots.
 *
 *     functions BOARD COUNT SEED
 *
 * BOARD is boards/main.toml.
 */
#include "functions.h"

#include <stddef.h>

enum { GUESTS = 2, SLOTS = 32 };

static struct pciguest machine = PCIGUEST_INIT;
static struct pciguest_function rows[FUNCTIONS];

/* What the host reads. */
static uint64_t header(const struct pciguest_function *row, uint64_t offset, uint32_t width)
{
    uint32_t value = 0;

    IS(pciguest_host_read(&machine, PCIGUEST_CONFIG, (uint8_t)row->bus, (uint8_t)row->device, (uint8_t)row->function,
                          offset, width, &value), 0);
    return value;
}

/* The interrupt: a pin moves on by the device on each bus but bus 0, and the guest's own Command disables it. */
static void compare_interrupt(const struct pciguest_function *row, const char *path)
{
    uint64_t pin = header(row, 0x3d, 1), sum = 0;
    uint32_t command = (uint32_t)header(row, 4, 2);

    for (const char *part = strchr(path, '/'); part; part = strchr(part + 1, '/'))
        sum += strtoull(part + 1, NULL, 10);
    if (row->is_given)
        IS(pciguest_read(&machine, row->guest, PCIGUEST_CONFIG, row->slot, 4, 2, &command), 0);
    IS(row->interrupt.pin, pin);
    IS(row->interrupt.root_device, pin ? strtoull(path, NULL, 10) : 0);
    IS(row->interrupt.root_pin, pin ? (pin - 1 + sum) % 4 + 1 : 0);
    IS(row->interrupt.is_disabled, command >> 10 & 1);
    for (int n = 0; n < PCIGUEST_ROOM; n++)
        IS(row->reserved[n], 0);
}

/* A function as the host reads it. */
static void compare(const struct pciguest_function *row, const char *path)
{
    const char *part = strrchr(path, '/') ? strrchr(path, '/') + 1 : path;
    char last[16];

    IS(strcmp((const char *)row->path, path), 0);
    IS(row->path_length, strlen(path));
    for (size_t i = row->path_length; i < PCIGUEST_PATH; i++)
        IS(row->path[i], 0);
    snprintf(last, sizeof last, "%u.%u", row->device, row->function);
    IS(strcmp(last, part), 0);
    IS(row->bus == 0, part == path);
    IS(row->vendor_id, header(row, 0, 2));
    IS(row->device_id, header(row, 2, 2));
    IS(row->revision_id, header(row, 8, 1));
    IS(row->class_code, header(row, 8, 4) >> 8);
    IS(row->is_bridge, header(row, 0x0e, 1) & 1);
    IS(row->subsystem_vendor_id, row->is_bridge ? 0 : header(row, 0x2c, 2));
    IS(row->subsystem_id, row->is_bridge ? 0 : header(row, 0x2e, 2));
    compare_bars(row, true);
    compare_windows(row);
    compare_interrupt(row, path);
}

/* Two answers of one function, but for what stands between its fields. */
static void alike(const struct pciguest_function *one, const struct pciguest_function *other)
{
    IS(memcmp(one->path, other->path, offsetof(struct pciguest_function, regions)), 0);
    for (int n = 0; n < PCIGUEST_BARS; n++)
        IS(one->regions[n].first == other->regions[n].first && one->regions[n].size == other->regions[n].size, 1);
    for (int n = 0; n < PCIGUEST_WINDOWS; n++)
        IS(one->windows[n].first == other->windows[n].first && one->windows[n].last == other->windows[n].last, 1);
    IS(one->guest, other->guest);
    IS(one->slot, other->slot);
    IS(one->is_given, other->is_given);
    IS(memcmp(&one->interrupt, &other->interrupt, sizeof one->interrupt), 0);
}

/* Each slot of the guests, by what its guest reads there; gives how many functions they have. */
static int compare_slots(void)
{
    int given = 0;

    for (size_t guest = 0; guest < GUESTS; guest++)
        for (uint64_t slot = 0; slot < SLOTS; slot++) {
            struct pciguest_function row;
            uint32_t identity = 0, number, at = 0;

            memset(&row, 0x5a, sizeof row);
            number = pciguest_slot(&machine, guest, slot, &row);
            IS(pciguest_read(&machine, guest, PCIGUEST_CONFIG, slot, 0, 4, &identity), 0);
            IS(number, identity == UINT32_MAX ? 601 : 0);
            if (number) {
                IS(row.slot, 0x5a5a5a5a5a5a5a5a);
                continue;
            }
            given++;
            IS(row.device_id << 16 | row.vendor_id, identity);
            IS(row.guest, guest);
            IS(row.slot, slot);
            IS(row.is_given, 1);
            while (at < FUNCTIONS - 1 && rows[at].device_id != row.device_id)
                at++;
            alike(&row, &rows[at]);
        }
    return given;
}

/* All that is told now. */
static void ask(void)
{
    size_t count = 0;
    int given = 0;

    IS(pciguest_count(&machine, &count), 0);
    IS(count, FUNCTIONS);
    for (size_t index = 0; index < FUNCTIONS; index++) {
        struct pciguest_function *row = &rows[index];

        memset(row, 0x5a, sizeof *row);
        IS(pciguest_function(&machine, index, row), 0);
        compare(row, paths[index]);
        IS(row->is_given <= 1 && (row->is_given || (row->guest == 0 && row->slot == 0)), 1);
        given += (int)row->is_given;
    }
    IS(compare_slots(), (uint64_t)given);
}

/* An event at random. */
static void event(void)
{
    size_t guest = below(GUESTS);
    uint64_t slot = below(3);

    switch (below(4)) {
    case 0:
        (void)pciguest_move(&machine, guest, slot, below(GUESTS), below(3));
        break;
    case 1:
        (void)pciguest_reset(&machine, guest, slot);
        break;
    default:
        (void)pciguest_write(&machine, guest, PCIGUEST_CONFIG, slot, 4 * below(16), 4, (uint32_t)below(UINT32_MAX));
    }
}

int main(int argc, char **argv)
{
    begin(argc, argv, 3);
    IS(pciguest_new(&machine, file, length), 0);
    ask();
    for (uint64_t left = times; left > 0; left--) {
        event();
        ask();
    }
    pciguest_free(&machine);
    return wrong != 0;
}
