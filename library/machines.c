/* Images of whole machines, over the calls of the proved library for guests. docs/image-format.md describes the bytes.
 *
 * An image begins with what identifies the board, the way it is set up, and its guests. This part is compared byte by byte with
 * what this file would write here, so that it has to be written in one place only (describe). Behind it, the image says for each
 * guest which function is in which slot, and contains the guest's own image. */
#include "raw.h"

enum { VERSION = 1, HEADER = 0x40, SLOTS = 32 };

/* A board at reset like that of a machine, whose guests have nothing. */
uint32_t pciguest_raw_board_anew(struct pciguest *machine, struct pciguest_board *board);

/* Where bytes of an image go: to a buffer, if `out` is there; or they are compared with an image, if `image` is there. Each has
 * `room` bytes. */
struct stream {
    uint8_t *out;
    const uint8_t *image;
    size_t room;
    size_t at;      /* how many bytes there were so far */
    uint32_t fault; /* the error number of the first byte that differs in the image, or 0 */
};

/* ---- what is written and compared */

static void put_byte(struct stream *to, uint8_t byte, uint32_t fault)
{
    if (to->out && to->at < to->room)
        to->out[to->at] = byte;
    if (to->image && !to->fault && to->at >= to->room)
        to->fault = PCIGUEST_BAD_IMAGE;
    else if (to->image && !to->fault && to->image[to->at] != byte)
        to->fault = fault;
    to->at++;
}

static void put(struct stream *to, const uint8_t *bytes, size_t count, uint32_t fault)
{
    for (size_t i = 0; i < count; i++)
        put_byte(to, bytes[i], fault);
}

/* A number, its lowest byte first. */
static void put_number(struct stream *to, uint64_t number, uint32_t width, uint32_t fault)
{
    for (uint32_t i = 0; i < width; i++)
        put_byte(to, (uint8_t)(number >> 8 * i), fault);
}

/* Four bytes of a function's header as the host reads them, without the bytes that no set-up decides: Status and Secondary Status
 * and, of an endpoint, the Capabilities Pointer, which its device can write, and Cache Line Size, Latency Timer and Interrupt
 * Line, which a guest's driver writes. */
static uint32_t header_at(struct pciguest *machine, const struct pciguest_function *row, uint8_t offset)
{
    uint32_t value = 0, kept = offset == 0x04 ? 0xffff : 0xffffffff;

    if (row->is_bridge && offset == 0x1c)
        kept = 0xffff;
    if (!row->is_bridge && offset == 0x0c)
        kept = 0xffff0000;
    if (!row->is_bridge && (offset == 0x34 || offset == 0x3c))
        kept = 0xffffff00;
    pciguest_raw_host_read(machine, PCIGUEST_CONFIG, (uint8_t)row->bus, (uint8_t)row->device, (uint8_t)row->function, offset, 4,
                           &value);
    return value & kept;
}

/* A function of the board, and how it is set up. */
static void put_function(struct pciguest *machine, const struct pciguest_function *row, struct stream *to)
{
    put_number(to, row->path_length, 1, PCIGUEST_OTHER_BOARD);
    put(to, row->path, row->path_length, PCIGUEST_OTHER_BOARD);
    for (uint8_t offset = 0; offset < HEADER; offset += 4)
        put_number(to, header_at(machine, row, offset), 4, PCIGUEST_OTHER_BOARD);
    for (uint32_t bar = 0; bar < PCIGUEST_BARS; bar++)
        put_number(to, row->regions[bar].size, 8, PCIGUEST_OTHER_BOARD);
}

/* What an image begins with. */
static void describe(struct pciguest *machine, struct stream *to)
{
    size_t functions = 0, guests = 0;

    pciguest_raw_count(machine, &functions);
    pciguest_raw_guest_count(machine, &guests);
    put(to, (const uint8_t *)"PCIM", 4, PCIGUEST_BAD_IMAGE);
    put_number(to, VERSION, 4, PCIGUEST_IMAGE_VERSION);
    put_number(to, functions, 4, PCIGUEST_OTHER_BOARD);
    for (size_t index = 0; index < functions; index++) {
        struct pciguest_function row;

        pciguest_raw_function(machine, index, &row);
        put_function(machine, &row, to);
    }
    put_number(to, guests, 4, PCIGUEST_OTHER_BOARD);
    for (size_t guest = 0; guest < guests; guest++) {
        uint8_t name[PCIGUEST_GUEST_NAME];
        size_t length = 0;

        pciguest_raw_guest_name(machine, guest, name, sizeof name, &length);
        put_number(to, length, 1, PCIGUEST_OTHER_BOARD);
        put(to, name, length, PCIGUEST_OTHER_BOARD);
    }
}

/* ---- saving */

/* What a guest has in its slots, and its image. */
static void put_guest(struct pciguest *machine, size_t guest, struct stream *to)
{
    uint8_t none, *out = &none;
    size_t length = 0, room = 0;

    for (uint64_t slot = 0; slot < SLOTS; slot++) {
        struct pciguest_function row;

        if (pciguest_raw_slot(machine, guest, slot, &row))
            row.path_length = 0;
        put_number(to, row.path_length, 1, 0);
        put(to, row.path, row.path_length, 0);
    }
    pciguest_raw_save(machine, guest, &none, 0, &length);
    put_number(to, length, 4, 0);
    if (to->out && to->at <= to->room) {
        out = to->out + to->at;
        room = to->room - to->at;
    }
    pciguest_raw_save(machine, guest, out, room, &length);
    to->at += length;
}

/* The image of a machine, and how many bytes it has. */
static size_t put_machine(struct pciguest *machine, size_t guests, struct stream to)
{
    describe(machine, &to);
    for (size_t guest = 0; guest < guests; guest++)
        put_guest(machine, guest, &to);
    return to.at;
}

uint32_t pciguest_raw_image_size_all(struct pciguest *machine, size_t *size)
{
    size_t guests = 0;
    uint32_t number = pciguest_raw_guest_count(machine, &guests);

    if (!number)
        *size = put_machine(machine, guests, (struct stream){.out = NULL});
    return number;
}

uint32_t pciguest_raw_save_all(struct pciguest *machine, uint8_t *image, size_t room, size_t *needed)
{
    size_t guests = 0, size = 0;
    uint32_t number = pciguest_raw_image_size_all(machine, &size);

    if (number)
        return number;
    *needed = size;
    if (room < size)
        return PCIGUEST_ARGUMENT;
    pciguest_raw_guest_count(machine, &guests);
    put_machine(machine, guests, (struct stream){.out = image, .room = room});
    return 0;
}

/* ---- loading */

/* What is left of an image. */
struct rest {
    const uint8_t *at;
    size_t left;
};

/* The next bytes, which follow their own number of `width` bytes; or NULL where the image ends before. */
static const uint8_t *next(struct rest *rest, size_t width, size_t *length)
{
    const uint8_t *at = rest->at;
    size_t count = 0;

    if (rest->left < width)
        return NULL;
    for (size_t i = width; i > 0; i--)
        count = count << 8 | at[i - 1];
    if (rest->left - width < count)
        return NULL;
    rest->at += width + count;
    rest->left -= width + count;
    *length = count;
    return at + width;
}

/* Whether an image has a path or nothing for each slot, an image for each guest, and nothing behind them. */
static bool is_whole(struct rest rest, size_t guests)
{
    size_t length;

    for (size_t guest = 0; guest < guests; guest++) {
        for (uint32_t slot = 0; slot < SLOTS; slot++)
            if (!next(&rest, 1, &length))
                return false;
        if (!next(&rest, 4, &length))
            return false;
    }
    return rest.left == 0;
}

/* Gives a guest, which has nothing, what an image has for its slots, and loads its image. */
static uint32_t fill_guest(struct pciguest *machine, size_t guest, struct rest *rest)
{
    const uint8_t *bytes;
    size_t length = 0;

    for (uint64_t slot = 0; slot < SLOTS; slot++) {
        bytes = next(rest, 1, &length);
        if (length && pciguest_raw_give(machine, bytes, length, guest, slot))
            return PCIGUEST_OTHER_FUNCTIONS;
    }
    bytes = next(rest, 4, &length);
    return pciguest_raw_load(machine, guest, bytes, length);
}

/* Takes everything from the guests, and fills them. */
static uint32_t fill(struct pciguest *machine, size_t guests, struct rest rest)
{
    uint32_t number = 0;

    for (size_t guest = 0; guest < guests; guest++)
        for (uint64_t slot = 0; slot < SLOTS; slot++)
            pciguest_raw_take(machine, guest, slot);
    for (size_t guest = 0; guest < guests && !number; guest++)
        number = fill_guest(machine, guest, &rest);
    return number;
}

/* Sets up a board at reset as that of a machine is: a bridge before what is behind it, and Command last. */
static void set_up_alike(struct pciguest *machine, struct pciguest_board *board)
{
    struct pciguest_function row;

    for (size_t index = 0; !pciguest_raw_function(machine, index, &row); index++)
        for (uint8_t offset = HEADER - 4; offset > 0; offset -= 4)
            pciguest_raw_board_write(board, PCIGUEST_CONFIG, (uint8_t)row.bus, (uint8_t)row.device, (uint8_t)row.function, offset,
                                     4, header_at(machine, &row, offset));
}

/* Makes a machine of a board that is set up alike, with the same guests, which have nothing. */
static uint32_t make_alike(struct pciguest *machine, struct pciguest *made)
{
    struct pciguest_board board = PCIGUEST_BOARD_INIT;
    uint32_t number = pciguest_raw_board_anew(machine, &board);

    if (number)
        return number;
    set_up_alike(machine, &board);
    number = pciguest_raw_board_guests(&board, made);
    pciguest_raw_board_free(&board);
    return number;
}

uint32_t pciguest_raw_load_all(struct pciguest *machine, const uint8_t *image, size_t length)
{
    struct pciguest trial = PCIGUEST_INIT;
    struct stream front = {.image = image, .room = length};
    struct rest rest;
    size_t guests = 0;
    uint32_t number = pciguest_raw_guest_count(machine, &guests);

    if (number)
        return number;
    describe(machine, &front);
    if (front.fault)
        return front.fault;
    rest = (struct rest){image + front.at, length - front.at};
    if (!is_whole(rest, guests))
        return PCIGUEST_BAD_IMAGE;
    number = make_alike(machine, &trial);
    if (!number)
        number = fill(&trial, guests, rest);
    pciguest_raw_free(&trial);
    /* what the second machine accepts, this one accepts too */
    return number ? number : fill(machine, guests, rest);
}
