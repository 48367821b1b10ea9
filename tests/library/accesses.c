/* Random accesses over a board, each asked by a call of its own and by a line of a script.
 *
 *     accesses BOARD COUNT SEED SCRIPT REPLIES
 *
 * SCRIPT gets the lines, and REPLIES what the calls answered, written as a run answers lines. The same lines go
 * through pciguest_run_line on a second machine, which must answer alike. The exit status is 1 where it doesn't. */
#include "testing.h"

static const char *const guests[] = {"a", "b"};

/* The numbers of docs/errors.md. */
static const struct { uint32_t number; const char *text; } errors[] = {
#include "errors.inc"
};

/* The line that a run writes for this reply. */
static int reply_line(char *line, const char *who, uint32_t fault, bool is_read, uint32_t value, uint32_t width)
{
    if (fault == 0)
        return is_read ? sprintf(line, "%s: 0x%0*" PRIx32 "\n", who, (int)(2 * width), value) : sprintf(line, "%s: ok\n", who);
    for (size_t i = 0; i < COUNT_OF(errors); i++)
        if (errors[i].number == fault)
            return sprintf(line, "%s: refused %" PRIu32 " %s\n", who, fault, errors[i].text);
    return sprintf(line, "%s: fault %" PRIu32 "\n", who, fault);
}

static uint32_t any_width(void)
{
    static const uint32_t widths[] = {1, 1, 2, 2, 4, 4, 4, 4, 0, 3, 8};
    return widths[below(11)];
}

/* Offsets, ports and addresses at which something is often to be found. */
static uint64_t any_place(uint32_t space)
{
    switch (space) {
    case PCIGUEST_CONFIG:
        return below(8) ? below(64) & ~(uint64_t)3 : below(260);
    case PCIGUEST_IO:
        return below(3) == 0 ? 0xcf8 : below(2) ? 0xcfc + below(4) : 0x1000 + below(64);
    default:
        return 0xc0000000 + (below(4) << 20) + (below(8) ? below(16) * 4 : below(70));
    }
}

static uint32_t any_value(void)
{
    switch (below(4)) {
    case 0: return 0x80000000u | (uint32_t)(below(3) << 11 | below(16) << 2);
    case 1: return 0xc0000000u + (uint32_t)(below(4) << 20);
    case 2: return (uint32_t)below(8);
    default: return (uint32_t)below(1ull << 32);
    }
}

/* One access, raise, read by the host or move: its line, and the line of its reply. */
static void step(struct pciguest *machine, char *line, char *reply)
{
    static const char letters[] = "cim";
    uint32_t space = (uint32_t)below(3), width = any_width(), value = 0, fault;
    size_t guest = below(2), to = below(2);
    uint64_t slot = below(20) ? below(3) : below(40), place = any_place(space), target = below(4);
    char at[64];

    if (space == PCIGUEST_CONFIG)
        sprintf(at, "%" PRIu64 " %" PRIu64, slot, place);
    else
        sprintf(at, "0x%" PRIx64, place);
    switch (below(12)) {
    case 0:
        sprintf(line, "%s raise %" PRIu64 " bar1 %" PRIu64 " 255\n", guests[guest], slot, place & 0xff);
        fault = pciguest_raise(machine, guest, slot, 1, place & 0xff, 255);
        reply_line(reply, guests[guest], fault, false, 0, 0);
        return;
    case 1:
        sprintf(line, "%s raise %" PRIu64 " cfg 7 0x80\n", guests[guest], slot);
        fault = pciguest_raise(machine, guest, slot, PCIGUEST_PART_CONFIG, 7, 0x80);
        reply_line(reply, guests[guest], fault, false, 0, 0);
        return;
    case 2:
        if (space == PCIGUEST_CONFIG)
            sprintf(line, "host cr %02x:%02x.0 %" PRIu64 " %" PRIu32 "\n", (unsigned)(slot & 1), (unsigned)to, place, width);
        else
            sprintf(line, "host %cr %s %" PRIu32 "\n", letters[space], at, width);
        fault = pciguest_host_read(machine, space, (uint8_t)(slot & 1), (uint8_t)to, 0, place, width, &value);
        reply_line(reply, "host", fault, true, value, width);
        return;
    case 3:
        if (below(8))
            break;
        sprintf(line, "host move %s %" PRIu64 " %s %" PRIu64 "\n", guests[guest], slot, guests[to], target);
        fault = pciguest_move(machine, guest, slot, to, target);
        reply_line(reply, "host", fault, false, 0, 0);
        return;
    default:
        break;
    }
    if (below(2)) {
        sprintf(line, "%s %cr %s %" PRIu32 "\n", guests[guest], letters[space], at, width);
        fault = pciguest_read(machine, guest, space, slot, place, width, &value);
        reply_line(reply, guests[guest], fault, true, value, width);
    } else {
        value = any_value();
        sprintf(line, "%s %cw %s %" PRIu32 " 0x%" PRIx32 "\n", guests[guest], letters[space], at, width, value);
        fault = pciguest_write(machine, guest, space, slot, place, width, value);
        reply_line(reply, guests[guest], fault, false, 0, 0);
    }
}

int main(int argc, char **argv)
{
    struct pciguest calls = {0}, lines = {0};
    FILE *script, *replies;
    size_t index = 7, written = 0;

    begin(argc, argv, 5);
    if (!(script = fopen(argv[4], "wb")) || !(replies = fopen(argv[5], "wb")))
        return 2;
    IS(pciguest_new(&calls, file, length), 0);
    IS(pciguest_new(&lines, file, length), 0);
    for (size_t i = 0; i < 2; i++)
        IS(pciguest_guest(&calls, guests[i], 1, &index) == 0 && index == i, 1);
    for (uint64_t left = times; left > 0 && !wrong; left--) {
        char line[200], reply[100], told[PCIGUEST_REPLY] = {0};

        step(&calls, line, reply);
        fputs(line, script);
        fputs(reply, replies);
        IS(pciguest_run_line(&lines, line, strlen(line) - 1, told, sizeof told, &written), 0);
        IS(written == strlen(reply) && memcmp(told, reply, written) == 0, 1);
        if (wrong)
            fprintf(stderr, "%s  the call: %s  the line: %.*s", line, reply, (int)written, told);
    }
    pciguest_free(&calls);
    pciguest_free(&lines);
    fclose(script);
    fclose(replies);
    return wrong != 0;
}
