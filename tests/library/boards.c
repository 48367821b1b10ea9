/* Boards that firmware drives, by calls: what the calls refuse, our own set-up of such a board, each allocation failing in
 * turn, and random accesses by calls and by lines, which answer alike.
 *
 *     boards BOARD COUNT SEED
 *
 * It is linked with --wrap for malloc, realloc and free. The exit status is 1 where an answer is wrong, or memory
 * is lost. */
#include "refusing.h"

/* What is refused beside tests/library/refusals.txt; none of it is a write, so the board is at reset afterwards. */
static void refusals(struct pciguest_board *board)
{
    uint32_t value = 7;
    size_t count = 8;
    char reply[PCIGUEST_REPLY] = {0};

    IS(pciguest_board_new(board, file, length), 903);
    IS(pciguest_board_read(board, 3, 0, 0, 0, 0, 4, &value), 902);
    IS(pciguest_board_read(board, PCIGUEST_IO, 0, 32, 8, 1ull << 32, 1, &value), 303);
    IS(pciguest_board_write(board, 3, 0, 0, 0, 0, 4, 0), 902);
    IS(pciguest_board_why_json(board, 3, 0, 0, 0, 0, reply, sizeof reply, &count), 902);
    IS(pciguest_board_run_line(board, "host ir 0 1", 11, reply, sizeof reply - 1, &count), 902);
    IS(pciguest_board_run_line(board, "", 0, NULL, 0, &count), 902);
    IS(value, 7);
    IS(count, 8);
    IS(line(board, "# a comment", reply, PCIGUEST_REPLY, &count), 0);
    IS(count, 0);
    IS(line(board, "host cw 00:01.0 5 2 2", reply, PCIGUEST_REPLY, &count), 0);
    IS(memcmp(reply, "host: refused 301 misaligned\n", count), 0);
    IS(line(board, "a cr 0 0 4\n", reply, PCIGUEST_REPLY, &count), 0);
    IS(memcmp(reply, "?: refused 402 unknown guest\n", count), 0);
    IS(config_read(board, 0, 1, 0), 0x00011234);
    IS(config_read(board, 0, 9, 0), UINT32_MAX);
}

/* The machine of our own set-up is the one that a file gives; and it is had from a board at reset alone. */
static void set_ups(struct pciguest_board *board)
{
    struct pciguest machine = {0}, other = {0};
    uint32_t here = 0, there = 1;
    size_t count = 0;
    char reply[PCIGUEST_REPLY] = {0};

    IS(pciguest_set_up(board, &machine), 0);
    IS(pciguest_set_up(board, &machine), 903);
    IS(pciguest_new(&other, file, length), 0);
    for (uint8_t device = 0; device < 32; device++)
        for (uint64_t offset = 0; offset < 256; offset += 4) {
            IS(pciguest_host_read(&machine, PCIGUEST_CONFIG, 0, device, 0, offset, 4, &here), 0);
            IS(pciguest_host_read(&other, PCIGUEST_CONFIG, 0, device, 0, offset, 4, &there), 0);
            IS(here, there);
        }
    pciguest_free(&machine);
    IS(config_read(board, 0, 1, 4), 0x80000000); /* the board is at reset as before */
    IS(pciguest_board_write(board, PCIGUEST_CONFIG, 0, 1, 0, 4, 2, 2), 0);
    IS(pciguest_set_up(board, &other), 903);
    IS(pciguest_set_up(board, &machine), 904);
    IS(machine.live, 0);
    IS(config_read(board, 0, 1, 4), 0x80000002);
    pciguest_board_free(board);
    IS(pciguest_board_new(board, file, length), 0);
    IS(line(board, "host mw 0 4 0", reply, PCIGUEST_REPLY, &count), 0);
    IS(pciguest_set_up(board, &machine), 904);
    pciguest_free(&other);
}

/* A call that writes what it finds on a board, and tells how much. */
typedef uint32_t survey(struct pciguest_board *board, char *text, size_t room, size_t *needed, size_t *count);

static void text_is(survey *call, struct pciguest_board *board, const char *wanted, size_t found)
{
    char text[1024];
    size_t needed = 0, count = 9;

    memset(text, '?', sizeof text);
    IS(call(board, NULL, 0, &needed, &count), 902);
    IS(needed, strlen(wanted));
    IS(call(board, text, needed - 1, &needed, &count), 902);
    IS(text[0], '?');
    IS(count, 9);
    IS(call(board, text, sizeof text, &needed, &count), 0);
    IS(memcmp(text, wanted, needed), 0);
    IS(text[needed], '?');
    IS(count, found);
}

static void audit_is(struct pciguest_board *board, const char *wanted, const char *json, size_t problems)
{
    text_is(pciguest_board_audit, board, wanted, problems);
    text_is(pciguest_board_audit_json, board, json, problems);
}

/* Each allocation of a survey fails in turn: nothing is told, and no memory is lost. */
static void survey_without_memory(survey *call, struct pciguest_board *board)
{
    uint32_t fault = 299;
    long kept = blocks;

    for (long left = 1; fault == 299; left++) {
        char text[1024] = "unchanged";
        size_t needed = 8, count = 9;

        fault = FAILING(left, call(board, text, sizeof text, &needed, &count));
        IS(fault == 0 || (fault == 299 && needed == 8 && count == 9 && strcmp(text, "unchanged") == 0), 1);
        IS((uint64_t)blocks, (uint64_t)kept);
    }
}

/* What is told of the board at reset as JSON. */
#define LOST_IN_JSON                                                                                                     \
    "\"problems\":[{\"number\":{\"bus\":0,\"device\":0,\"function\":0},\"path\":\"2.0/0.0\",\"reached\":null,"                       \
    "\"type\":\"not found\"},{\"number\":{\"bus\":0,\"device\":1,\"function\":0},\"path\":\"2.0/1.0\",\"reached\":\"1.0\","           \
    "\"type\":\"not found\"}]}\n"
#define CLOSED_IN_JSON(bar, path, size, space)                                                                           \
    "{\"region\":{\"bar\":" #bar ",\"base\":0,\"path\":\"" path "\",\"size\":" #size ",\"space\":\"" space                             \
    "\"},\"type\":\"closed\"}"

/* At reset no cycle finds what stands behind the bridge; once the bridge has its numbers, the audit has nothing to say. */
static void audits(void)
{
    struct pciguest_board board = PCIGUEST_BOARD_INIT;

    IS(pciguest_board_new(&board, file, length), 0);
    audit_is(&board, "audit: 2.0/0.0: a configuration cycle to 00:00.0 reaches nothing\n"
                     "audit: 2.0/1.0: a configuration cycle to 00:01.0 reaches 1.0\naudit: 2 problems\n",
             "{" LOST_IN_JSON, 2);
    IS(pciguest_board_write(&board, PCIGUEST_CONFIG, 0, 2, 0, 0x18, 4, 0x00010100), 0);
    audit_is(&board, "audit: ok\n", "{\"problems\":[]}\n", 0);
    IS(pciguest_board_write(&board, PCIGUEST_CONFIG, 1, 1, 0, 0x10, 4, 0xc0000000), 0);
    IS(pciguest_board_write(&board, PCIGUEST_CONFIG, 1, 1, 0, 4, 2, 2), 0);
    audit_is(&board, "audit: 2.0/1.0 bar0 at 0xc0000000 size 0x1000000: 0xc0000000 is not forwarded by bridge 2.0\n"
                     "audit: 1 problem\n",
             "{\"problems\":[{\"address\":3221225472,\"bridge\":\"2.0\",\"region\":{\"bar\":0,\"base\":3221225472,"
             "\"path\":\"2.0/1.0\",\"size\":16777216,\"space\":\"mem\"},\"type\":\"not forwarded\"}]}\n", 1);
    survey_without_memory(pciguest_board_audit, &board);
    survey_without_memory(pciguest_board_audit_json, &board);
    pciguest_board_free(&board);
}

/* A region outside the apertures, one that its bridge prefetches, one that is closed, and a bridge with another Primary. */
static void lacking(void)
{
    static const char *const lines[] = {
        "host cw 00:02.0 0x18 4 0x00010107", "host cw 00:01.0 0x14 4 0x80000000", "host cw 00:01.0 4 2 3",
        "host cw 00:02.0 0x20 4 0x0000fff0", "host cw 00:02.0 0x24 4 0xd000d000", "host cw 00:02.0 4 2 2",
        "host cw 01:00.0 0x10 4 0xd0000000", "host cw 01:00.0 4 2 2",
    };
    struct pciguest_board board = PCIGUEST_BOARD_INIT;
    char reply[PCIGUEST_REPLY], wanted[1024] = {0};
    size_t written = 0;

    IS(pciguest_board_new(&board, file, length), 0);
    for (size_t i = 0; i < COUNT_OF(lines); i++) {
        IS(line(&board, lines[i], reply, PCIGUEST_REPLY, &written), 0);
        IS(written == 9 && memcmp(reply, "host: ok\n", 9) == 0, 1);
    }
    IS(pciguest_board_run_line(&board, "host ready", 10, wanted, sizeof wanted - 1, &written), 0);
    text_is(pciguest_board_ready, &board, wanted, 6);
    pciguest_board_free(&board);
}

/* What is lacking comes after what is wrong, and both are counted, as by the line that asks the same. */
static void readiness(void)
{
    struct pciguest_board board = PCIGUEST_BOARD_INIT;
    char wanted[512] = {0};
    size_t written = 0;
    unsigned long problems = 0, lacks = 0;
    const char *last;

    IS(pciguest_board_new(&board, file, length), 0);
    IS(pciguest_board_run_line(&board, "host ready", 10, wanted, sizeof wanted - 1, &written), 0);
    last = strrchr(wanted, ':') + 1;
    if (sscanf(last, " %lu problem%*[s,] %lu left", &problems, &lacks) != 2)
        lacks = strtoul(last, NULL, 10) - problems;
    text_is(pciguest_board_ready, &board, wanted, problems + lacks);
    survey_without_memory(pciguest_board_ready, &board);
    text_is(pciguest_board_ready_json, &board,
            "{\"lacks\":[" CLOSED_IN_JSON(0, "1.0", 32, "io") "," CLOSED_IN_JSON(1, "1.0", 4096, "mem") ","
            CLOSED_IN_JSON(0, "2.0/0.0", 1048576, "mem") "," CLOSED_IN_JSON(1, "2.0/0.0", 8, "io") ","
            CLOSED_IN_JSON(0, "2.0/1.0", 16777216, "mem") "]," LOST_IN_JSON, problems + lacks);
    survey_without_memory(pciguest_board_ready_json, &board);
    pciguest_board_free(&board);
}

/* Why what is asked finds what it finds, as a survey of one thing. */
static struct { uint32_t space; uint8_t number; uint64_t place; } asked; /* the number of a bus and of a device there */

static uint32_t why_there(struct pciguest_board *board, char *text, size_t room, size_t *needed, size_t *count)
{
    uint32_t answer = pciguest_board_why_json(board, asked.space, asked.number, asked.number, 0, asked.place, text, room,
                                              needed);

    if (answer == 0)
        *count = 1;
    return answer;
}

static void why_is(struct pciguest_board *board, uint32_t space, uint8_t number, uint64_t place, const char *wanted)
{
    asked.space = space;
    asked.number = number;
    asked.place = place;
    text_is(why_there, board, wanted, 1);
    survey_without_memory(why_there, board);
}

/* A number is found once its bridge has one, whatever offset is given; a port goes by CONFIG_ADDRESS, which a question of a
 * number leaves as it was; and of a region all is told that keeps it from answering. */
static void reasons(void)
{
    static const char *const steps[] = {
        "host cw 00:02.0 0x18 4 0x00010100", "host cw 01:01.0 0x10 4 0xc0000000", "host iw 0xcf8 4 0x80000840",
    };
    struct pciguest_board board = PCIGUEST_BOARD_INIT;
    char reply[PCIGUEST_REPLY];
    size_t written;

    IS(pciguest_board_new(&board, file, length), 0);
    why_is(&board, PCIGUEST_CONFIG, 1, 256, "{\"found\":{\"missing\":{\"behind\":null,\"bus\":1},\"not_found\":[],"
                                            "\"reached\":null,\"takers\":[]},\"latch\":null}\n");
    for (size_t i = 0; i < COUNT_OF(steps); i++)
        IS(line(&board, steps[i], reply, PCIGUEST_REPLY, &written), 0);
    why_is(&board, PCIGUEST_CONFIG, 1, 0, "{\"found\":{\"missing\":null,\"not_found\":[],\"reached\":\"2.0/1.0\",\"takers\":[\"2.0\"]},"
                                          "\"latch\":null}\n");
    why_is(&board, PCIGUEST_IO, 0, 0xcfe, "{\"found\":{\"missing\":null,\"not_found\":[],\"reached\":\"1.0\",\"takers\":[]},\"latch\":{"
                                          "\"number\":{\"bus\":0,\"device\":1,\"function\":0},\"offset\":66,\"type\":\"selected\"}}\n");
    why_is(&board, PCIGUEST_MEMORY, 0, 0xc0000010,
           "{\"found\":{\"answer\":null,\"at_reset\":0,\"forwards\":[],\"regions\":[{\"causes\":[{\"command\":0,\"type\":\"closed\"},"
           "{\"bridge\":\"2.0\",\"command\":0,\"type\":\"bridge closed\"}],\"region\":{\"bar\":0,\"base\":3221225472,"
           "\"path\":\"2.0/1.0\",\"size\":16777216,\"space\":\"mem\"}}]},\"latch\":null}\n");
    pciguest_board_free(&board);
}

/* A line asks for the text of an audit; where that has too little room, or no memory, nothing happens. */
static void audit_lines(void)
{
    struct pciguest_board board = PCIGUEST_BOARD_INIT;
    char text[256] = {0}, wanted[256] = {0};
    size_t needed = 0, written = 7, count = 0;
    uint32_t fault = 299;
    long kept;

    IS(pciguest_board_new(&board, file, length), 0);
    IS(pciguest_board_audit(&board, wanted, sizeof wanted, &needed, &count), 0);
    memset(text, '?', sizeof text);
    IS(pciguest_board_run_line(&board, "host audit", 10, text, PCIGUEST_REPLY - 1, &written), 902);
    IS(written, 7);
    IS(pciguest_board_run_line(&board, "host audit", 10, text, PCIGUEST_REPLY, &written), 902);
    IS(written, needed);
    IS(pciguest_board_run_line(&board, "host audit\n", 11, text, needed - 1, &written), 902);
    IS(text[0], '?');
    kept = blocks;
    for (long left = 1; fault == 299; left++) {
        written = 7;
        fault = FAILING(left, pciguest_board_run_line(&board, "host audit\n", 11, text, needed, &written));
        IS(fault == 0 || (fault == 299 && written == 7 && text[0] == '?'), 1);
        IS((uint64_t)blocks, (uint64_t)kept);
    }
    IS(written, needed);
    IS(memcmp(text, wanted, needed), 0);
    IS(text[needed], '?');
    pciguest_board_free(&board);
}

/* A board that can't be set up is a board all the same. */
static void unfit(void)
{
    static const char text[] = "[host]\nio = [0x1000, 0x1fff]\nmem = [0xc0000000, 0xc00fffff]\n[[endpoint]]\nat = \"1.0\"\n"
                               "vendor = 1\ndevice = 2\nclass = 0\nbar = [ { index = 0, kind = \"mem32\", size = 0x200000 } ]\n";
    struct pciguest_board board = PCIGUEST_BOARD_INIT;
    struct pciguest machine = PCIGUEST_INIT;

    IS(pciguest_board_new(&board, text, sizeof text - 1), 0);
    IS(pciguest_set_up(&board, &machine), 204);
    IS(machine.live, 0);
    IS(config_read(&board, 0, 1, 0), 0x00020001);
    pciguest_board_free(&board);
}

/* Each allocation fails in turn: the answer is out of memory, the struct stays empty, and nothing is lost. */
static void out_of_memory(void)
{
    uint32_t fault = 1;
    long count = 0;

    for (; fault != 0; count++) {
        struct pciguest_board board = {0};
        long before = blocks;

        fault = FAILING(count + 1, pciguest_board_new(&board, file, length));
        if (fault != 0)
            IS(fault, 199);
        IS(board.live, fault == 0);
        pciguest_board_free(&board);
        IS((uint64_t)blocks, (uint64_t)before);
    }
    IS(count > 50, 1);
}

/* The same of a set-up, which leaves the board as it is; and no access takes memory. */
static void set_up_out_of_memory(struct pciguest_board *board)
{
    uint32_t fault = 1;
    size_t written = 0;
    long count = 0, before = blocks;
    char reply[PCIGUEST_REPLY];

    for (; fault != 0; count++) {
        struct pciguest machine = {0};

        fault = FAILING(count + 1, pciguest_set_up(board, &machine));
        if (fault != 0)
            IS(fault, 299);
        IS(machine.live, fault == 0);
        pciguest_free(&machine);
        IS((uint64_t)blocks, (uint64_t)before);
    }
    IS(count > 20, 1);
    calls_left = 1;
    IS(config_read(board, 0, 1, 0), 0x00011234);
    IS(pciguest_board_write(board, PCIGUEST_MEMORY, 0, 0, 0, 0, 4, 0), 0);
    IS(line(board, "host ir 0xcfc 4", reply, PCIGUEST_REPLY, &written), 0);
    calls_left = -1;
}

/* A random access on one board by a call, on another by a line: the replies are alike. */
static void access(struct pciguest_board *by_calls, struct pciguest_board *by_lines)
{
    static const char *const kinds = "cim";
    static const uint32_t widths[] = {1, 2, 4, 4, 4, 3};
    uint32_t space = (uint32_t)below(3), width = widths[below(6)], value = (uint32_t)(below(4) == 0 ? UINT32_MAX : below(1u << 31));
    uint8_t bus = (uint8_t)below(3), device = (uint8_t)below(4);
    uint64_t place = space == 0 ? below(66) * 4 + below(8) / 7 : below(64) * 4;
    char text[80], reply[PCIGUEST_REPLY], wanted[PCIGUEST_REPLY] = "host: ok\n";
    bool reads = below(3) == 0;
    size_t written = 0;
    uint32_t number, at = space == 0 ? 0 : (uint32_t)below(3);

    place = at == 1 ? 0xcf8 + below(8) : at == 2 ? 0xc0000000 + place : place;
    if (space == 0)
        snprintf(text, sizeof text, "host c%c %02x:%02x.0 %" PRIu64 " %u", reads ? 'r' : 'w', bus, device, place, width);
    else
        snprintf(text, sizeof text, "host %c%c %" PRIu64 " %u", kinds[space], reads ? 'r' : 'w', place, width);
    if (!reads)
        snprintf(text + strlen(text), sizeof text - strlen(text), " %u", value);
    number = reads ? pciguest_board_read(by_calls, space, bus, device, 0, place, width, &value)
                   : pciguest_board_write(by_calls, space, bus, device, 0, place, width, value);
    if (number != 0) {
        snprintf(wanted, sizeof wanted, "host: refused %u %s\n", number,
                 number == 301 ? "misaligned" : number == 302 ? "width" : "range");
    } else if (reads) {
        snprintf(wanted, sizeof wanted, "host: 0x%0*x\n", (int)width * 2, value);
    }
    IS(line(by_lines, text, reply, PCIGUEST_REPLY, &written), 0);
    IS(written, strlen(wanted));
    IS(memcmp(reply, wanted, strlen(wanted)), 0);
}

int main(int argc, char **argv)
{
    struct pciguest_board board = {0}, other = {0};

    begin(argc, argv, 3);
    pciguest_board_free(&board);
    IS(pciguest_board_new(&board, "x", 1), 101);
    IS(board.live, 0);
    IS(pciguest_board_new(&board, file, length), 0);
    refusals(&board);
    set_ups(&board);
    pciguest_board_free(&board);
    pciguest_board_free(&board);
    unfit();
    audits();
    readiness();
    lacking();
    reasons();
    audit_lines();
    out_of_memory();
    IS(pciguest_board_new(&board, file, length), 0);
    set_up_out_of_memory(&board);
    pciguest_board_free(&board);
    IS(pciguest_board_new(&board, file, length), 0);
    IS(pciguest_board_new(&other, file, length), 0);
    for (uint64_t left = times; left > 0; left--)
        access(&board, &other);
    pciguest_board_free(&board);
    pciguest_board_free(&other);
    IS((uint64_t)blocks, 0);
    return wrong != 0;
}
