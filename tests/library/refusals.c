/* What the library says of bad arguments and of a machine that isn't there, beside tests/library/refusals.txt, and each
 * allocation failing in turn.
 *
 *     refusals BOARD
 *
 * It is linked with --wrap for malloc, realloc and free. The exit status is 1 where an answer is wrong, or memory
 * is lost. */
#include "images.h"
#include "refusing.h"

#define WRONG_OFFSET "invalid offset '0x' (expected a decimal or 0x-prefixed number below 2^64)"

/* What Rust and Python can't ask; tests/library/refusals.txt has what they can, and library/python/tests/test_header.py null
 * pointers in general. An empty text or image may be null. */
static void bad_arguments(struct pciguest *machine)
{
    uint32_t value = 7;
    size_t count = 8;
    uint64_t wide = 5;
    size_t word = 0;
    char reply[PCIGUEST_REPLY] = {0}, told[128];

    IS(pciguest_new(machine, file, length), 903);
    IS(pciguest_read(machine, 0, 3, 0, 0, 4, &value), 902);
    IS(pciguest_load(machine, 0, reply, sizeof reply), 905);
    IS(pciguest_load_all(machine, reply, sizeof reply), 905);
    IS(pciguest_load(machine, 0, NULL, 0), 905);
    IS(pciguest_load_all(machine, NULL, 0), 905);
    IS(pciguest_give(machine, NULL, 0, 0, 0), 303);
    IS(pciguest_guest(machine, "a", 1, NULL), 902); /* that test names no guest there, which is refused too */
    IS(pciguest_run_line(machine, "", 0, NULL, 0, &count), 902);
    IS(pciguest_region_read(machine, 0, 0, PCIGUEST_PART_CONFIG, 0x40, 4, &wide), 303);
    IS(pciguest_run_line(machine, "a cr 0 0 4", 10, reply, sizeof reply - 1, &count), 902);
    IS(value, 7);
    IS(count, 8);
    IS(wide, 5);
    IS(pciguest_run_line(machine, "# a comment", 11, reply, sizeof reply, &count), 0);
    IS(count, 0);
    IS(pciguest_explain_line(machine, "a cr 0 0 4\n", 11, &word, reply, 0, &count), 0);
    IS(count, 0);
    IS(pciguest_explain_line(machine, "a cr 0 0x\n", 10, &word, reply, sizeof reply, &count), 902);
    IS(count, strlen(WRONG_OFFSET));
    IS(pciguest_explain_line(machine, "a cr 0 0x\n", 10, &word, told, sizeof told, &count), 0);
    IS(word, 3);
    IS(count == strlen(WRONG_OFFSET) && memcmp(told, WRONG_OFFSET, count) == 0, 1);
}

/* How large things can be; what is kept for later is 0. */
static void limits(void)
{
    struct pciguest_limits told;

    memset(&told, 0x5a, sizeof told);
    IS(pciguest_limits(&told), 0);
    IS(told.guest_image, 3187244);
    IS(told.functions == 1024 && told.guests == 32 && told.slots == 32 && told.bars == PCIGUEST_BARS, 1);
    IS(told.block == 4096 && told.own_cells == 0x100 - 0x40 && told.slots * told.bars == PCIGUEST_PLACES, 1);
    for (int n = 0; n < PCIGUEST_ROOM; n++)
        IS(told.reserved[n], 0);
}

/* The names of the guests, which tell how much room they need. */
static void guests(struct pciguest *machine)
{
    char text[PCIGUEST_GUEST_NAME] = "?";
    size_t count = 0, needed = 0, index = 7;

    IS(pciguest_guest_count(machine, &count), 0);
    IS(count, 2);
    for (size_t guest = 0; guest < count; guest++) {
        IS(pciguest_guest_name(machine, guest, NULL, 0, &needed), 902);
        IS(needed, 1);
        IS(pciguest_guest_name(machine, guest, text, needed, &needed), 0);
        IS((uint64_t)text[0], 'a' + guest);
        IS(pciguest_guest(machine, text, needed, &index), 0);
        IS(index, guest);
    }
    IS(pciguest_guest_name(machine, 0, text, 0, &needed), 902);
    IS((uint64_t)text[0], 'b');
}

/* A reset leaves the function at reset in its slot, takes no memory, and leaves the guest's other function. */
static void resets(struct pciguest *machine)
{
    long before = blocks;

    IS(pciguest_write(machine, 0, PCIGUEST_CONFIG, 0, 4, 2, 2), 0);
    IS(pciguest_write(machine, 0, PCIGUEST_CONFIG, 0, 0x3c, 1, 0x5a), 0);
    IS(pciguest_write(machine, 0, PCIGUEST_CONFIG, 1, 4, 2, 2), 0);
    calls_left = 1;
    IS(pciguest_reset(machine, 0, 0), 0);
    calls_left = -1;
    IS((uint64_t)blocks, (uint64_t)before);
    IS(config(machine, 0, 0, 0, 4), 0x00011234);
    IS(config(machine, 0, 0, 4, 2), 0);
    IS(config(machine, 0, 0, 0x3c, 1), 0);
    IS(config(machine, 0, 1, 4, 2), 2);
}

/* Where an image stops fitting a guest. */
static void stops_at(struct pciguest *machine, size_t guest, const uint8_t *image, size_t size, uint64_t slot, size_t offset)
{
    uint64_t at_slot = 77;
    size_t at = 77;

    IS(pciguest_image_fault(machine, guest, image, size, &at_slot, &at), 0);
    IS(at_slot, slot);
    IS(at, offset);
}

/* A guest is saved, loaded and put to reset without memory. Its image tells how much room it needs, and what stands behind it in
 * the room stays. */
static void images(struct pciguest *machine)
{
    static struct image saved;
    uint8_t *image = saved.bytes;
    size_t size, needed = 0;
    long before = blocks;

    IS(pciguest_write(machine, 0, PCIGUEST_CONFIG, 1, 0x3c, 1, 0x5a), 0);
    calls_left = 1;
    save(machine, 0, &saved);
    size = saved.size;
    IS(memcmp(image, "PCIG\1\0\0\0", 8), 0);
    IS(pciguest_reset_guest(machine, 0), 0);
    IS(pciguest_load(machine, 1, image, size), 906);
    IS(pciguest_load(machine, 0, image, size + 1), 905);
    IS(pciguest_load(machine, 0, image, size), 0);
    IS(config(machine, 0, 1, 0x3c, 1), 0x5a);
    IS(pciguest_reset_guest(machine, 0), 0);
    stops_at(machine, 1, image, size, 0, 12 + 1 + 2); /* another Device ID */
    stops_at(machine, 0, image, size, 32, size);
    stops_at(machine, 0, image, size + 1, 32, size + 1); /* those are no images */
    stops_at(machine, 0, image, size - 1, 32, size - 1);
    stops_at(machine, 0, image, 0, 32, 0);
    image[4]++; /* the version */
    stops_at(machine, 0, image, size, 32, 4);
    image[4]--;
    calls_left = -1;
    IS((uint64_t)blocks, (uint64_t)before);
    IS(pciguest_save(machine, 0, NULL, 0, &needed), 902);
    IS(needed, size);
    IS(config(machine, 0, 1, 0x3c, 1), 0);
}

/* Loads an image of the whole machine, while each allocation in turn fails: nothing changes then, and no memory is lost. */
static void load_all_without_memory(struct pciguest *machine, const uint8_t *image, size_t size)
{
    static struct image held, after;
    uint32_t fault = 299;
    size_t failed = 0;
    uint64_t changes = 0, changed = 0;
    long kept = blocks;

    save(machine, ALL, &held);
    IS(pciguest_changed(machine, 0, &changes), 0);
    for (long left = 1; fault == 299; left++) {
        fault = FAILING(left, pciguest_load_all(machine, image, size));
        IS((uint64_t)blocks, (uint64_t)kept);
        if (fault == 299) {
            save(machine, ALL, &after);
            IS(are_same(&held, &after), 1);
            IS(pciguest_changed(machine, 0, &changed), 0);
            IS(changed, changes);
            failed++;
        }
    }
    IS(fault, 0);
    IS(failed > 3, 1);
}

/* The whole machine is saved without memory, and loaded from what a second machine takes. */
static void whole_images(struct pciguest *machine)
{
    static struct image saved;
    uint8_t *image = saved.bytes;
    size_t size, needed = 0;
    long before = blocks;

    IS(pciguest_write(machine, 0, PCIGUEST_CONFIG, 1, 0x3c, 1, 0x5a), 0);
    calls_left = 1;
    save(machine, ALL, &saved);
    size = saved.size;
    IS(pciguest_save_all(machine, NULL, 0, &needed), 902);
    IS(needed, size);
    IS(memcmp(image, "PCIM\1\0\0\0", 8), 0);
    IS(pciguest_move(machine, 0, 1, 1, 5), 0);
    IS(pciguest_load_all(machine, image, size + 1), 905);
    image[8]++; /* how many functions the board has */
    IS(pciguest_load_all(machine, image, size), 907);
    image[8]--;
    calls_left = -1;
    IS(config(machine, 0, 1, 0, 4), UINT32_MAX);
    load_all_without_memory(machine, image, size);
    IS(config(machine, 0, 1, 0x3c, 1), 0x5a);
    IS(pciguest_reset_guest(machine, 0), 0);
    IS((uint64_t)blocks, (uint64_t)before);
}

/* A function that is taken from its guest comes to another, at reset in its slot and on the board, and takes no memory. A
 * text that is no path, a bridge's path and one at which nothing stands have no endpoint. */
static void gifts(struct pciguest *machine)
{
    static const char *const without[] = {"", "2.0", "1.1", "1.0/", "01.0", "1.0/0.0", "1.8"};
    struct pciguest_function row = {0};
    uint32_t value = 7;
    long before = blocks;

    IS(pciguest_write(machine, 0, PCIGUEST_CONFIG, 0, 0x3c, 1, 0x5a), 0);
    calls_left = 1;
    IS(pciguest_give(machine, "1.0", 3, 1, 5), 602); /* a guest has it */
    IS(pciguest_take(machine, 0, 0), 0);
    IS(pciguest_take(machine, 0, 0), 601);
    IS(config(machine, 0, 0, 0, 4), UINT32_MAX);
    IS(pciguest_host_read(machine, PCIGUEST_CONFIG, 0, 1, 0, 0x3c, 1, &value), 0);
    IS(value, 0); /* on the board it is at reset */
    IS(pciguest_function(machine, 0, &row), 0);
    IS(row.is_given, 0);
    for (size_t i = 0; i < COUNT_OF(without); i++)
        IS(pciguest_give(machine, without[i], strlen(without[i]), 1, 5), 303);
    IS(pciguest_give(machine, "1.0", 3, 1, 0), 602); /* the slot is taken */
    IS(pciguest_give(machine, (const char *)row.path, row.path_length, 1, 5), 0);
    IS(config(machine, 1, 5, 0, 4), 0x00011234);
    IS(config(machine, 1, 5, 0x3c, 1), 0);
    IS(pciguest_function(machine, 0, &row), 0);
    IS(row.is_given && row.guest == 1 && row.slot == 5, 1);
    IS(pciguest_take(machine, 1, 5), 0);
    IS(pciguest_give(machine, "1.0", 3, 0, 0), 0);
    calls_left = -1;
    IS((uint64_t)blocks, (uint64_t)before);
}

/* A device reaches Status, the Capabilities Pointer, 40h to FFh and its regions, and no other byte: not the guest's copies, nor
 * identity. What it writes its driver reads, whatever the driver's own writes may change; it takes no memory. */
static void devices(struct pciguest *machine)
{
    uint64_t wide = 0;
    long before = blocks;

    calls_left = 1;
    for (uint64_t offset = 0; offset < 0x101; offset++) {
        bool reached = offset == 6 || offset == 7 || offset == 0x34 || (offset >= 0x40 && offset < 0x100);

        IS(pciguest_device_read_wide(machine, 0, 0, PCIGUEST_PART_CONFIG, offset, 1, &wide), reached ? 0 : 303);
        IS(pciguest_device_write_wide(machine, 0, 0, PCIGUEST_PART_CONFIG, offset, 1, wide), reached ? 0 : 303);
    }
    IS(pciguest_device_write_wide(machine, 0, 0, PCIGUEST_PART_CONFIG, 7, 1, 0xa5), 0);
    IS(pciguest_device_read_wide(machine, 0, 0, PCIGUEST_PART_CONFIG, 7, 1, &wide), 0);
    IS(wide, 0xa5);
    IS(config(machine, 0, 0, 7, 1), 0xa5);
    IS(pciguest_write(machine, 0, PCIGUEST_CONFIG, 0, 7, 1, 0xff), 0); /* the driver clears what it may */
    IS(pciguest_device_read_wide(machine, 0, 0, PCIGUEST_PART_CONFIG, 7, 1, &wide), 0);
    IS(wide, 0xa5 & ~0xf9);
    IS(pciguest_device_write_wide(machine, 0, 0, PCIGUEST_PART_CONFIG, 6, 2, 0x5aa5), 0);
    IS(config(machine, 0, 0, 6, 2), 0x5aa5);
    IS(pciguest_device_write_wide(machine, 0, 0, PCIGUEST_PART_CONFIG, 7, 2, 0), 303); /* and 08h is none of its own */
    IS(pciguest_device_read_wide(machine, 0, 0, PCIGUEST_PART_CONFIG, 6, 2, &wide), 0);
    IS(wide, 0x5aa5);
    IS(pciguest_device_write_wide(machine, 0, 0, 1, 4095, 1, 0x5a), 0); /* no cell stands there */
    IS(pciguest_device_read_wide(machine, 0, 0, 1, 4095, 1, &wide), 0);
    IS(wide, 0);
    IS(pciguest_reset(machine, 0, 0), 0);
    calls_left = -1;
    IS((uint64_t)blocks, (uint64_t)before);
}

/* The function in slot 0 has a capability list that isn't in the order of offsets, and the one in slot 1 has none. */
static const char two_functions[] =
    "host = { io = [0x1000, 0xffff], mem = [0xc0000000, 0xdfffffff] }\n"
    "guest = [ { name = \"a\", slots = [\"1.0\", \"2.0\"] } ]\n"
    "endpoint = [ { at = \"1.0\", vendor = 0x1234, device = 1, class = 0xff0000, capability = [\n"
    "{ id = 9, off = 0x80, block = 2 }, { id = 0x11, off = 0x40, block = 10 }, { id = 9, off = 0x60, block = 2 } ] },\n"
    "{ at = \"2.0\", vendor = 0x1234, device = 2, class = 0xff0000 } ]\n";

static uint64_t found(struct pciguest *machine, uint64_t slot, uint64_t after, uint8_t id)
{
    uint64_t offset = 7;

    IS(pciguest_find_capability(machine, 0, slot, after, id, &offset), 0);
    return offset;
}

/* Sets a byte of configuration space as the device does. */
static void set(struct pciguest *machine, uint64_t slot, uint64_t offset, uint8_t value)
{
    IS(pciguest_device_write_wide(machine, 0, slot, PCIGUEST_PART_CONFIG, offset, 1, value), 0);
}

static void lists_as_declared(struct pciguest *machine)
{
    uint64_t offset = 7;

    IS(found(machine, 0, 0, 9), 0x80);
    IS(found(machine, 0, 0x80, 9), 0x60);
    IS(found(machine, 0, 0x60, 9), 0);
    IS(found(machine, 0, 0, 0x11), 0x40);
    IS(found(machine, 0, 0x40, 0x11), 0);
    IS(found(machine, 0, 0, 5), 0);
    IS(found(machine, 1, 0, 9), 0);
    IS(pciguest_find_capability(NULL, 0, 0, 0, 9, &offset), 902);
    IS(pciguest_find_capability(machine, 0, 0, 0, 9, NULL), 902);
    IS(pciguest_find_capability(machine, 1, 0, 0, 9, &offset), 902);
    IS(pciguest_find_capability(machine, 0, 32, 0, 9, &offset), 303);
    IS(pciguest_find_capability(machine, 0, 0, 0xff, 9, &offset), 303);
    IS(pciguest_find_capability(machine, 0, 0, UINT64_MAX, 9, &offset), 303);
    IS(pciguest_find_capability(machine, 0, 0, 0x33, 9, &offset), 303);
    IS(pciguest_find_capability(machine, 0, 0, 0x44, 9, &offset), 303);
    IS(found(machine, 1, 0x44, 9), 0);
    IS(pciguest_find_capability(machine, 0, 31, 0, 9, &offset), 601);
    IS(offset, 7);
}

/* How many structures with an ID a walk finds that passes each result as the next `after`. */
static unsigned walked(struct pciguest *machine, uint8_t id)
{
    unsigned count = 0;
    uint64_t at = found(machine, 0, 0, id);

    for (; at && count < 100; count++)
        at = found(machine, 0, at, id);
    return count;
}

/* Lists that devices changed: each search ends, and the image of the machine stays one of its board. */
static void changed_lists(struct pciguest *machine)
{
    static struct image saved;

    set(machine, 0, 0x61, 0x80); /* a loop */
    IS(found(machine, 0, 0, 5), 0);
    IS(found(machine, 0, 0x60, 0x11), 0);
    IS(walked(machine, 9), 2);
    set(machine, 0, 0x41, 0x43); /* one that points to itself */
    IS(walked(machine, 9), 1);
    IS(walked(machine, 0x11), 1);
    set(machine, 0, 0x41, 0x60);
    set(machine, 0, 0x34, 0x43); /* the low two bits are ignored */
    IS(found(machine, 0, 0, 9), 0x60);
    save(machine, ALL, &saved);
    IS(pciguest_reset(machine, 0, 0), 0);
    IS(found(machine, 0, 0, 9), 0x80);
    IS(pciguest_load_all(machine, saved.bytes, saved.size), 0);
    IS(found(machine, 0, 0, 9), 0x60);
    set(machine, 0, 0x34, 0x3f); /* in the header */
    IS(found(machine, 0, 0, 9), 0);
    set(machine, 0, 0x34, 0x80);
    set(machine, 0, 0x06, 0);
    IS(found(machine, 0, 0, 9), 0);
    set(machine, 1, 0x06, 0x10); /* without a Capabilities Pointer */
    IS(found(machine, 1, 0, 9), 0);
}

static void capability_lists(void)
{
    struct pciguest machine = PCIGUEST_INIT;

    IS(pciguest_new(&machine, two_functions, sizeof two_functions - 1), 0);
    lists_as_declared(&machine);
    changed_lists(&machine);
    pciguest_free(&machine);
}

static void reply_is(int line, struct pciguest *machine, const char *text, const char *wanted)
{
    char reply[PCIGUEST_REPLY];
    size_t count = 0;

    is(__FILE__, line, pciguest_run_line(machine, text, strlen(text), reply, sizeof reply, &count), 0);
    is(__FILE__, line, count, strlen(wanted));
    is(__FILE__, line, memcmp(reply, wanted, strlen(wanted)) == 0, 1);
}

/* A line feed at the end of a line is no part of it, and one elsewhere makes it a bad line. */
static void line_feeds(struct pciguest *machine)
{
    char longest[202];

    reply_is(__LINE__, machine, "a cr 0 0 2", "a: 0x1234\n");
    reply_is(__LINE__, machine, "a cr 0 0 2\n", "a: 0x1234\n");
    reply_is(__LINE__, machine, "a cr 0 0 2\r\n", "a: 0x1234\n");
    reply_is(__LINE__, machine, "\n", "");
    reply_is(__LINE__, machine, "a cr 0 0 2\n\n", "a: refused 401 bad line\n");
    reply_is(__LINE__, machine, "a cr 0 0\n2", "a: refused 401 bad line\n");
    memset(longest, ' ', 200);
    memcpy(longest, "a cr 0 0 2", 10);
    memcpy(longest + 200, "\n", 2);
    reply_is(__LINE__, machine, longest, "a: 0x1234\n");
    memcpy(longest + 200, " ", 2);
    reply_is(__LINE__, machine, longest, "?: refused 403 long line\n");
}

/* Both reports tell how much room they need, and write nothing where there is less. */
static void reports(void)
{
    static uint32_t (*const calls[])(const void *, size_t, char *, size_t, size_t *) = {pciguest_report_json, pciguest_report};

    for (size_t i = 0; i < 2; i++) {
        size_t needed = 0, again = 0;
        char *text;

        IS(calls[i](file, length, NULL, 0, &needed), 902);
        text = malloc(needed + 1);
        memset(text, '?', needed + 1);
        IS(calls[i](file, length, text, needed - 1, &again), 902);
        IS(text[0], '?');
        IS(calls[i](file, length, text, needed + 1, &again), 0);
        IS(again, needed);
        IS(text[needed], '?');
        fwrite(text, 1, needed, stdout);
        free(text);
        IS(calls[i]("x", 1, NULL, 0, &again), 101);
    }
}

/* A check tells how much room its text needs, writes nothing where there is less, and all of it where the board is
 * refused, too. */
static void checks(void)
{
    char text[1024] = {0};
    size_t needed = 0;

    IS(pciguest_check(file, length, text, sizeof text, &needed), 0);
    IS(strncmp(text, "ok\n", 3), 0);
    memset(text, '?', sizeof text);
    IS(pciguest_check("", 0, text, 2, &needed), 902);
    IS(text[0], '?');
    IS(pciguest_check("", 0, text, needed, &needed), 102);
    IS(text[needed], '?');
    IS(strncmp(text, "board.toml", 10), 0);
    IS(text[needed - 1], '\n');
}

/* A device's byte, by calls of earlier headers, whose refusals are the same, and change nothing. */
static void earlier_devices(struct pciguest *machine)
{
    static const struct {
        size_t guest;
        uint64_t slot, offset;
        uint32_t part, number;
    } refused[] = {{2, 0, 0, 1, 902}, {0, 0, 0, 7, 902}, {0, 32, 0, 1, 303}, {0, 31, 0, 1, 601}, {0, 0, 4096, 1, 303},
                   {0, 0, UINT64_MAX, 1, 303}};
    struct pciguest none = PCIGUEST_INIT;
    uint32_t value = 7;

    IS(pciguest_raw_device_read(&none, 0, 0, 1, 0, &value), 901);
    IS(pciguest_raw_device_write(&none, 0, 0, 1, 0, 1), 901);
    for (size_t i = 0; i < COUNT_OF(refused); i++) {
        IS(pciguest_raw_device_read(machine, refused[i].guest, refused[i].slot, refused[i].part, refused[i].offset, &value),
           refused[i].number);
        IS(pciguest_raw_device_write(machine, refused[i].guest, refused[i].slot, refused[i].part, refused[i].offset, 1),
           refused[i].number);
    }
    IS(value, 7);
    IS(pciguest_raw_device_write(machine, 0, 0, PCIGUEST_PART_CONFIG, 7, 0xa5), 0);
    IS(pciguest_raw_device_read(machine, 0, 0, PCIGUEST_PART_CONFIG, 7, &value), 0);
    IS(value, 0xa5);
    IS(pciguest_reset(machine, 0, 0), 0);
}

/* The message of a number, which is empty for a number without a meaning. Programs of 0.2.0 get as much as their buffer holds. */
static void message(uint32_t number, const char *wanted)
{
    char text[20] = {0};
    size_t length = 99, held = strlen(wanted) < sizeof text ? strlen(wanted) : sizeof text;

    IS(strcmp(pciguest_strerror(number), wanted), 0);
    IS(pciguest_raw_words(number, (uint8_t *)text, sizeof text, &length), 0);
    IS(length, held);
    IS(memcmp(text, wanted, held), 0);
}

static void all_messages(void)
{
    static const uint32_t without[] = {0, 1, 100, 200, 300, 400, 900, 0xffffffff, 0x10065};

    message(101, "board file is not valid TOML");
    message(112, "rw or w1c pattern is invalid, or blocks overlap");
    message(199, "out of memory while reading the board file");
    message(205, "prefetchable memory aperture is too small");
    message(301, "address is not a multiple of the width");
    message(403, "line is longer than 200 bytes");
    message(502, "cannot write standard output");
    message(602, "slot already contains a function");
    message(799, "out of memory while reading the arguments");
    message(901, "struct holds no machine or board");
    message(905, "not a valid image");
    message(909, "another call is running on this struct");
    for (size_t i = 0; i < COUNT_OF(without); i++)
        message(without[i], "");
    for (uint32_t number = 0; number < 1 << 17; number++)
        message(number, pciguest_strerror(number));
    IS(pciguest_version(), PCIGUEST_VERSION_NUMBER);
}

/* Each allocation fails in turn: the answer is out of memory, the handle stays empty, and nothing is lost. */
static void out_of_memory(void)
{
    uint32_t fault = 1;
    long count = 0;

    for (; fault != 0; count++) {
        struct pciguest machine = {0};
        long before = blocks;

        fault = FAILING(count + 1, pciguest_new(&machine, file, length));
        if (fault != 0 && fault != 199 && fault != 299)
            IS(fault, 299);
        IS(machine.live, fault == 0);
        pciguest_free(&machine);
        IS((uint64_t)blocks, (uint64_t)before);
    }
    IS(count > 100, 1);
}

/* The same of a check, which answers its number only where no allocation failed. */
static void check_out_of_memory(const void *board, size_t length, uint32_t wanted)
{
    uint32_t fault = 0;
    long count = 0;

    do {
        char text[1024] = {0};
        size_t needed = 0;
        long before = blocks;

        fault = FAILING(++count, pciguest_check(board, length, text, sizeof text, &needed));
        if (fault != wanted && fault != 199)
            IS(fault, 299);
        IS((uint64_t)blocks, (uint64_t)before);
    } while (fault == 199 || fault == 299);
    IS(fault, wanted);
    IS(count > 10, 1);
}

int main(int argc, char **argv)
{
    struct pciguest machine = {0};

    begin(argc, argv, 1);
    pciguest_free(&machine);
    IS(pciguest_new(&machine, "x", 1), 101);
    IS(machine.live, 0);
    IS(pciguest_new(&machine, file, length), 0);
    bad_arguments(&machine);
    guests(&machine);
    resets(&machine);
    images(&machine);
    whole_images(&machine);
    gifts(&machine);
    devices(&machine);
    earlier_devices(&machine);
    line_feeds(&machine);
    pciguest_free(&machine);
    pciguest_free(&machine);
    capability_lists();
    reports();
    checks();
    all_messages();
    limits();
    out_of_memory();
    check_out_of_memory(file, length, 0);
    check_out_of_memory("x = 1", 5, 102);
    return wrong != 0;
}
