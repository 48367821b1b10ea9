/* Events: each makes one library call, and writes one line to the log. */
#include "events.h"
#include "images.h"

#include <inttypes.h>
#include <string.h>

enum { SLOTS = 32, EMPTY_SLOT = 601, CONFIG_ADDRESS = 0xcf8 };
enum { LONGEST_LINE = 200, WORDS = 64 /* bytes: enough for part of a line */ };

struct access {
    bool is_write;
    enum pciguest_space space;
    uint64_t place;
    uint32_t width;
    uint32_t value; /* that is written */
};

void write_refusal(FILE *file, uint32_t number)
{
    fprintf(file, "%" PRIu32 " %s", number, pciguest_strerror(number));
}

/* Logs a line and, as a comment below, the reply to it. If the call was refused, the line is run to get its reply: a reply
 * has a shorter text than pciguest_strerror, and a refused line changes nothing. */
static void log_line(struct board *board, const char *line, uint32_t number, const char *name, const char *answer)
{
    char reply[PCIGUEST_REPLY] = {0};
    size_t written = 0;

    fprintf(board->log, "%s\n", line);
    if (number == 0)
        fprintf(board->log, "# %s: %s\n", name, answer);
    else if (pciguest_run_line(&board->machine, line, strlen(line), reply, sizeof reply, &written) == 0)
        fprintf(board->log, "# %.*s", (int)written, reply);
}

/* An access as in a script line, without the guest's name and the written value. */
static void write_words(char words[WORDS], const struct seat *seat, const struct access *access)
{
    static const char spaces[] = {'c', 'i', 'm'};
    char slot[24] = {0};

    if (access->space == PCIGUEST_CONFIG)
        snprintf(slot, sizeof slot, "%" PRIu64 " ", seat->slot);
    snprintf(words, WORDS, "%c%c %s0x%" PRIx64 " %" PRIu32, spaces[access->space], access->is_write ? 'w' : 'r',
             slot, access->place, access->width);
}

static void log_access(struct board *board, const struct seat *seat, const struct access *access, uint32_t number,
                       uint32_t read)
{
    char words[WORDS], value[WORDS] = {0}, line[LONGEST_LINE + 1], answer[WORDS] = "ok";

    write_words(words, seat, access);
    if (access->is_write)
        snprintf(value, sizeof value, " 0x%" PRIx32, access->value);
    else if (number == 0)
        snprintf(answer, sizeof answer, "0x%0*" PRIx32, (int)access->width * 2, read);
    snprintf(line, sizeof line, "%s %s%s", seat->guest, words, value);
    log_line(board, line, number, seat->guest, answer);
}

/* Makes one access, and returns what is read. A bus can't refuse anything, so if nothing responds, a read returns all
 * ones and a write is lost. */
static uint32_t perform(struct board *board, const struct seat *seat, struct access access)
{
    uint32_t number, read = UINT32_MAX;

    if (access.is_write)
        number = pciguest_write(&board->machine, seat->index, access.space, seat->slot, access.place, access.width,
                                access.value);
    else
        number = pciguest_read(&board->machine, seat->index, access.space, seat->slot, access.place, access.width,
                               &read);
    if (board->log)
        log_access(board, seat, &access, number, read);
    return read;
}

static void log_region(FILE *log, const struct seat *seat, unsigned bar, const struct pciguest_region *region)
{
    fprintf(log, "#region %s %" PRIu64 " bar%u ", seat->guest, seat->slot, bar);
    if (region->size == 0)
        fputs("gone\n", log);
    else
        fprintf(log, "%s 0x%" PRIx64 " 0x%" PRIx64 " %s\n",
                region->space == PCIGUEST_IO ? "io" : region->prefetchable ? "prefetchable" : "memory", region->first,
                region->size, region->is_open ? "open" : "closed");
}

void log_regions(struct board *board, struct seat *seat)
{
    const struct pciguest_place *places = &seat->places[PCIGUEST_BARS * seat->slot];
    size_t moved = 0;

    if (board->log)
        (void)pciguest_moved(&board->machine, seat->index, seat->places, PCIGUEST_PLACES, &moved);
    for (unsigned bar = 0; moved && bar < PCIGUEST_BARS; bar++)
        if (places[bar].has_moved)
            log_region(board->log, seat, bar, &places[bar].now);
}

/* Finds an empty slot of a seat's guest. Returns false if there is none. */
static bool find_empty(struct board *board, const struct seat *seat, struct seat *empty)
{
    struct pciguest_region region = {0};

    *empty = *seat;
    for (empty->slot = SLOTS; empty->slot-- > 0;)
        if (pciguest_region(&board->machine, seat->index, empty->slot, 0, &region) == EMPTY_SLOT)
            return true;
    return false;
}

/* Finds an empty slot of this guest or, if there is none, of another guest whose functions are given away. */
static bool find_spare(struct board *board, const struct seat *seat, struct seat *spare)
{
    bool is_found = find_empty(board, seat, spare);

    for (size_t i = 0; i < board->count && !is_found; i++)
        is_found = find_empty(board, &board->seats[i], spare);
    return is_found;
}

static void log_move(struct board *board, const struct seat *from, const struct seat *to, uint32_t number)
{
    char line[LONGEST_LINE + 1];

    snprintf(line, sizeof line, "host move %s %" PRIu64 " %s %" PRIu64, from->guest, from->slot, to->guest, to->slot);
    log_line(board, line, number, "host", "ok");
}

/* No script line resets a function, but two moves have the same effect: to an empty slot, and back. If no slot is
 * empty, the log contains a comment instead, and can't be replayed. */
static void log_reset(struct board *board, const struct seat *seat, uint32_t number)
{
    struct seat spare;

    if (!find_spare(board, seat, &spare)) {
        fprintf(board->log, "#reset %s %" PRIu64 "\n", seat->guest, seat->slot);
        return;
    }
    log_move(board, seat, &spare, number);
    if (number == 0)
        log_move(board, &spare, seat, 0);
}

static void reset_event(struct board *board, struct seat *seat)
{
    uint32_t number = pciguest_reset(&board->machine, seat->index, seat->slot);

    if (board->log)
        log_reset(board, seat, number);
    log_regions(board, seat);
}

static uint32_t config_event(struct board *board, struct seat *seat, const struct config_access *config, bool is_write)
{
    struct access access = {is_write, PCIGUEST_CONFIG, config->offset, (uint32_t)config->width, config->value};
    uint32_t read = perform(board, seat, access);

    if (is_write)
        log_regions(board, seat);
    return read;
}

/* Returns whether an access reaches a region of the function in the seat's slot, and where. */
static bool find_hit(struct board *board, const struct seat *seat, const struct access *access,
                     struct pciguest_hit *hit)
{
    bool is_latch = access->space == PCIGUEST_IO && access->place == CONFIG_ADDRESS && access->width == 4;

    return !is_latch &&
           pciguest_locate(&board->machine, seat->index, access->space, seat->slot, access->place, hit) == 0 &&
           hit->found && hit->slot == seat->slot && hit->part < PCIGUEST_BARS;
}

/* Makes an access that a machine sends to a region of this function. It reaches no other function. */
static uint32_t perform_at_region(struct board *board, const struct seat *seat, struct access access)
{
    struct pciguest_hit hit = {0};
    bool is_hit = find_hit(board, seat, &access, &hit);
    uint32_t read = is_hit ? perform(board, seat, access) : UINT32_MAX;

    if (board->log) {
        char what[WORDS];

        if (is_hit)
            snprintf(what, sizeof what, "bar%" PRIu32 " 0x%" PRIx64, hit.part, hit.offset);
        else
            write_words(what, seat, &access);
        fprintf(board->log, "#%s %s %" PRIu64 " %s\n", is_hit ? "hit" : "missed", seat->guest, seat->slot, what);
    }
    return read;
}

/* A processor access can have 8 bytes or be unaligned. It is split as a bridge does it, and each piece is a separate
 * event with its own line in the log. */
static uint64_t region_event(struct board *board, const struct seat *seat, const struct region_access *region,
                             bool is_write)
{
    struct access access = {is_write, region->is_memory ? PCIGUEST_MEMORY : PCIGUEST_IO, region->place, region->width,
                            (uint32_t)region->value};
    uint64_t read = 0;

    if (region->width < 1 || region->width > 8 || !pciguest_ends_within(access.space, region->place, region->width))
        return perform(board, seat, access); /* the library refuses it */
    for (uint32_t done = 0; done < region->width; done += access.width) {
        access.place = region->place + done;
        access.width = pciguest_piece(access.place, region->width - done);
        access.value = (uint32_t)(region->value >> 8 * done);
        read |= (uint64_t)perform_at_region(board, seat, access) << 8 * done;
    }
    return read;
}

bool message_event(struct board *board, struct seat *seat, const struct message *message, uint64_t *answer)
{
    *answer = 0;
    switch (message->head.command) {
    case CONFIG_WRITE:
        (void)config_event(board, seat, &message->body.config, true);
        return true;
    case CONFIG_READ:
        *answer = config_event(board, seat, &message->body.config, false);
        return true;
    case REGION_WRITE:
        (void)region_event(board, seat, &message->body.region, true);
        return true;
    case REGION_READ:
        *answer = region_event(board, seat, &message->body.region, false);
        return true;
    case RESET:
        reset_event(board, seat);
        return true;
    default: /* memory for DMA and descriptors for interrupts: the board supports neither */
        return false;
    }
}

void line_event(struct board *board, const char *line, size_t length, FILE *replies)
{
    char reply[PCIGUEST_REPLY] = {0};
    size_t written = 0;

    if (!image_event(board, line, length, replies)) {
        if (pciguest_run_line(&board->machine, line, length, reply, sizeof reply, &written) || written == 0)
            return;
        fwrite(reply, 1, written, replies);
        fflush(replies);
        if (board->log) {
            fwrite(line, 1, length, board->log);
            fprintf(board->log, "\n# %.*s", (int)written, reply);
        }
    }
    for (size_t i = 0; i < board->count; i++)
        log_regions(board, &board->seats[i]);
}
