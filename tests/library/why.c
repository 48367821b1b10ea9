/* Why accesses of two guests find what they find, after random events: each text is compared with one that is written
 * here from what the other calls tell. Before that what is refused, each allocation failing in turn, and JSON.
 *
 *     why BOARD COUNT SEED
 *
 * BOARD is boards/main.toml. It is linked with --wrap for malloc, realloc and free. */
#include "refusing.h"

#include <stdarg.h>

enum { GUESTS = 2, SLOTS = 32, REGISTERS = 6 };

static char text[65536];
static size_t text_length;

static void add(const char *form, ...)
{
    va_list words;

    va_start(words, form);
    text_length += (size_t)vsnprintf(text + text_length, sizeof text - text_length, form, words);
    va_end(words);
}

static uint32_t read_as(struct pciguest *machine, size_t guest, uint32_t space, uint64_t slot, uint64_t place,
                        uint32_t width)
{
    uint32_t value = 0;

    IS(pciguest_read(machine, guest, space, slot, place, width, &value), 0);
    return value;
}

/* What the guest's CONFIG_ADDRESS makes of a port; whether the port shows a function's registers. */
static bool by_latch(uint32_t latch, uint64_t port)
{
    bool shows = port >= 0xcfc && port <= 0xcff && latch >> 31;

    if (port == 0xcf8)
        add("why: I/O 0x%" PRIx64 ": 4-byte accesses go to CONFIG_ADDRESS (0x%" PRIx32 ")\n", port, latch);
    else if (shows)
        add("why: I/O 0x%" PRIx64 ": CONFIG_ADDRESS (0x%" PRIx32 ") selects offset 0x%" PRIx64 " of %02x:%02x.%u\n", port, latch,
            (latch & 0xfc) + (port - 0xcfc), latch >> 16 & 0xff, latch >> 11 & 0x1f, latch >> 8 & 7);
    else if (port >= 0xcfc && port <= 0xcff)
        add("why: I/O 0x%" PRIx64 ": CONFIG_ADDRESS (0x%" PRIx32 ") is disabled\n", port, latch);
    return shows;
}

/* The lines of closed regions that hold an address. */
static void closed(struct pciguest *machine, size_t guest, uint32_t space, uint64_t place)
{
    for (uint64_t slot = 0; slot < SLOTS; slot++)
        for (uint32_t bar = 0; bar < REGISTERS; bar++) {
            struct pciguest_region region = {0};

            if (pciguest_region(machine, guest, slot, bar, &region) || region.space != space || region.is_open
                || place < region.first || place - region.first >= region.size)
                continue;
            add("why: slot %" PRIu64 " bar%" PRIu32 " at 0x%" PRIx64 " size 0x%" PRIx64, slot, bar, region.first, region.size);
            add(": decode is disabled (Command 0x%04" PRIx32 ")\n", read_as(machine, guest, PCIGUEST_CONFIG, slot, 4, 2));
        }
}

/* Nothing is hit. */
static void lost(struct pciguest *machine, size_t guest, uint32_t space, uint64_t slot, uint64_t place, bool shows,
                 uint32_t latch)
{
    if (space == PCIGUEST_CONFIG)
        add("slot %" PRIu64 " is empty\n", slot);
    else if (shows && !(latch >> 16 & 0xff) && !(latch >> 8 & 7))
        add("slot %u is empty\n", latch >> 11 & 0x1f);
    else if (shows)
        add("there is no slot at %02x:%02x.%u\n", latch >> 16 & 0xff, latch >> 11 & 0x1f, latch >> 8 & 7);
    else {
        add("nothing responds\n");
        closed(machine, guest, space, place);
    }
}

/* Writes the text from what other calls tell. */
static void expect(struct pciguest *machine, size_t guest, uint32_t space, uint64_t slot, uint64_t place)
{
    uint32_t latch = read_as(machine, guest, PCIGUEST_IO, 0, 0xcf8, 4);
    struct pciguest_hit hit = {0};
    bool shows;

    text_length = 0;
    shows = space == PCIGUEST_IO && by_latch(latch, place);
    if (space == PCIGUEST_CONFIG)
        add("why: slot %" PRIu64 " offset 0x%" PRIx64 ": ", slot, place);
    else
        add("why: %s 0x%" PRIx64 ": ", space == PCIGUEST_IO ? "I/O" : "memory", place);
    IS(pciguest_locate(machine, guest, space, slot, place, &hit), 0);
    if (!hit.found)
        lost(machine, guest, space, slot, place, shows, latch);
    else if (hit.part == PCIGUEST_PART_CONFIG)
        add("slot %" PRIu64 " configuration space responds at offset 0x%" PRIx64 "\n", hit.slot, hit.offset);
    else
        add("slot %" PRIu64 " bar%" PRIu32 " responds at offset 0x%" PRIx64 "\n", hit.slot, hit.part, hit.offset);
}

/* A call that tells a guest why. */
typedef uint32_t telling(struct pciguest *machine, size_t guest, uint32_t space, uint64_t slot, uint64_t place, char *told,
                         size_t room, size_t *needed);

/* The text is the one that is expected, whatever room it is given beyond what it needs. */
static void tells(telling *call, struct pciguest *machine, size_t guest, uint32_t space, uint64_t slot, uint64_t place)
{
    static char told[sizeof text];
    size_t needed = 0;

    memset(told, '?', text_length + 1);
    IS(call(machine, guest, space, slot, place, told, text_length - 1, &needed), 902);
    IS(needed, text_length);
    IS(told[0], '?');
    IS(call(machine, guest, space, slot, place, told, text_length, &needed), 0);
    IS(needed, text_length);
    IS(told[text_length], '?');
    if (memcmp(told, text, text_length) != 0) {
        fprintf(stderr, "%.*s in place of\n%.*s", (int)needed, told, (int)text_length, text);
        wrong = 1;
    }
}

static void compare(struct pciguest *machine, size_t guest, uint32_t space, uint64_t slot, uint64_t place)
{
    expect(machine, guest, space, slot, place);
    tells(pciguest_why, machine, guest, space, slot, place);
}

/* An event of a guest that places, opens or closes its regions, selects a function or moves one. */
static void event(struct pciguest *machine)
{
    static const uint8_t offsets[] = {0x04, 0x04, 0x10, 0x14, 0x18};
    uint64_t offset = offsets[below(sizeof offsets)], slot = below(3);
    size_t guest = below(GUESTS);
    uint32_t enabled = below(4) ? 1u << 31 : 0, device = (uint32_t)below(4) << 11;
    uint32_t latch = enabled | device | (below(4) ? 0 : (uint32_t)below(0x800000));

    if (below(8) == 0)
        (void)pciguest_move(machine, guest, slot, below(GUESTS), below(3));
    if (below(4) == 0)
        IS(pciguest_write(machine, guest, PCIGUEST_IO, 0, 0xcf8, 4, latch), 0);
    IS(pciguest_write(machine, guest, PCIGUEST_CONFIG, slot, offset, 4,
                      offset == 4 ? (uint32_t)below(4) : (uint32_t)below(4) << 20), 0);
}

static void ask(struct pciguest *machine)
{
    static const uint64_t ports[] = {0xcf8, 0xcf9, 0xcfc, 0xcfe, 0xcff};

    compare(machine, below(GUESTS), PCIGUEST_CONFIG, below(SLOTS), below(256));
    compare(machine, below(GUESTS), PCIGUEST_IO, 0, ports[below(COUNT_OF(ports))]);
    compare(machine, below(GUESTS), PCIGUEST_IO, 0, below(0x40));
    compare(machine, below(GUESTS), PCIGUEST_MEMORY, 0, (below(4) << 20) + below(0x100));
}

/* What is refused as a read of a byte there is; nothing is told then. */
static void refusals(telling *call, struct pciguest *machine)
{
    static const struct { size_t guest; uint32_t space; uint64_t slot, place; uint32_t answer; } rows[] = {
        {2, PCIGUEST_MEMORY, 0, 0, 902}, {SIZE_MAX, PCIGUEST_CONFIG, 32, 0, 902}, {0, 3, 0, 0, 902},
        {0, PCIGUEST_CONFIG, 32, 0, 303}, {0, PCIGUEST_CONFIG, 0, 256, 303}, {0, PCIGUEST_IO, 0, UINT64_C(1) << 32, 303},
    };
    char told[64] = "?";
    size_t needed = 7;

    for (size_t i = 0; i < COUNT_OF(rows); i++)
        IS(call(machine, rows[i].guest, rows[i].space, rows[i].slot, rows[i].place, told, sizeof told, &needed), rows[i].answer);
    IS(needed, 7);
    IS(told[0], '?');
}

/* A text that memory fails for isn't told, and nothing is lost; one that is refused takes none. */
static void out_of_memory(telling *call, struct pciguest *machine)
{
    char told[1024] = "?";
    uint32_t fault = 299;
    long kept = blocks;

    for (long left = 1; fault == 299; left++) {
        size_t needed = 7;

        fault = FAILING(left, call(machine, 0, PCIGUEST_MEMORY, 0, 0, told, sizeof told, &needed));
        IS(fault == 0 || (fault == 299 && needed == 7 && told[0] == '?'), 1);
        IS((uint64_t)blocks, (uint64_t)kept);
    }
    IS(fault, 0);
    calls_left = 1;
    IS(call(machine, 0, PCIGUEST_CONFIG, 32, 0, told, sizeof told, &(size_t){0}), 303);
    calls_left = -1;
}

/* Closed regions, an empty slot, configuration space, and what CONFIG_ADDRESS makes of ports, as JSON. */
static void as_json(struct pciguest *machine)
{
    static const struct { size_t guest; uint32_t space; uint64_t slot, place; const char *wanted; } rows[] = {
        {0, PCIGUEST_MEMORY, 0, 0, "{\"found\":{\"regions\":[{\"bar\":1,\"base\":0,\"command\":0,\"size\":4096,\"slot\":0},"
                                   "{\"bar\":0,\"base\":0,\"command\":0,\"size\":16777216,\"slot\":1}],\"type\":\"nobody\"},"
                                   "\"latch\":null}\n"},
        {0, PCIGUEST_CONFIG, 5, 0, "{\"found\":{\"slot\":5,\"type\":\"empty\"},\"latch\":null}\n"},
        {0, PCIGUEST_CONFIG, 1, 16, "{\"found\":{\"bar\":null,\"offset\":16,\"slot\":1,\"type\":\"answers\"},\"latch\":null}\n"},
        {0, PCIGUEST_IO, 0, 0xcf8, "{\"found\":{\"regions\":[],\"type\":\"nobody\"},\"latch\":{\"type\":\"held\"}}\n"},
        {0, PCIGUEST_IO, 0, 0xcfd, "{\"found\":{\"number\":{\"bus\":1,\"device\":2,\"function\":3},\"type\":\"no slot\"},\"latch\":{"
                                   "\"number\":{\"bus\":1,\"device\":2,\"function\":3},\"offset\":65,\"type\":\"selected\"}}\n"},
        {1, PCIGUEST_IO, 0, 0xcfd, "{\"found\":{\"regions\":[],\"type\":\"nobody\"},\"latch\":{\"type\":\"not enabled\"}}\n"},
    };

    IS(pciguest_write(machine, 0, PCIGUEST_IO, 0, 0xcf8, 4, 0x80011340), 0);
    for (size_t i = 0; i < COUNT_OF(rows); i++) {
        text_length = 0;
        add("%s", rows[i].wanted);
        tells(pciguest_why_json, machine, rows[i].guest, rows[i].space, rows[i].slot, rows[i].place);
    }
}

int main(int argc, char **argv)
{
    static telling *const calls[] = {pciguest_why, pciguest_why_json};
    struct pciguest machine = PCIGUEST_INIT;

    begin(argc, argv, 3);
    IS(pciguest_new(&machine, file, length), 0);
    compare(&machine, 0, PCIGUEST_MEMORY, 0, 0); /* closed at 0 */
    for (int i = 0; i < 2; i++) {
        refusals(calls[i], &machine);
        out_of_memory(calls[i], &machine);
    }
    as_json(&machine);
    for (uint64_t left = times; left > 0; left--) {
        event(&machine);
        ask(&machine);
    }
    pciguest_free(&machine);
    return wrong != 0;
}
