/* Guests over a board that this program set up by hand, by calls: what is refused leaves the board as it is, each
 * allocation fails in turn, and guests are told what they are told after the library's own set-up.
 *
 *     given BOARD
 *
 * BOARD is boards/main.toml. It is linked with --wrap for malloc, realloc and free. The exit status is 1
 * where an answer is wrong, or memory is lost. */
#include "refusing.h"

/* What is asked of two machines is answered alike, whoever set their boards up. */
static void told_alike(struct pciguest *machine, struct pciguest *other)
{
    static const char *const lines[] = {
        "a cw 0 4 2 3", "a cw 0 0x14 4 0xe0000000", "a mw 0xe0000000 4 0x12345678", "a mr 0xe0000001 1", "a cr 0 0x14 4",
        "a cw 1 0x10 4 0x90000000", "a cw 1 4 2 2", "a mr 0x90000000 4", "b cr 0 0 4", "b cr 0 0x10 4", "b cr 1 0 4",
        "b iw 0xcf8 4 0x80000000", "b ir 0xcfc 4", "a raise 0 6 7 0x80", "a cr 0 6 2", "host move a 0 b 3", "b cr 3 4 4"};

    for (size_t i = 0; i < COUNT_OF(lines); i++) {
        char reply[PCIGUEST_REPLY] = {0}, wanted[PCIGUEST_REPLY] = {0};
        size_t written = 0, length_wanted = 1;

        IS(pciguest_run_line(machine, lines[i], strlen(lines[i]), reply, sizeof reply, &written), 0);
        IS(pciguest_run_line(other, lines[i], strlen(lines[i]), wanted, sizeof wanted, &length_wanted), 0);
        IS(written, length_wanted);
        IS(memcmp(reply, wanted, sizeof reply), 0);
    }
}

/* A board is refused as long as its audit tells a problem, or a region of a given function is closed. */
static void refused(struct pciguest_board *board, struct pciguest *machine)
{
    struct pciguest other = PCIGUEST_INIT;

    IS(pciguest_board_guests(board, machine), 207);
    IS(config_read(board, 0, 1, 4), 0x80000000);
    IS(config_read(board, 1, 1, 0), UINT32_MAX);
    set_up_by_hand(board);
    IS(pciguest_board_guests(board, machine), 206);
    IS(machine->live, 0);
    IS(config_read(board, 1, 1, 0x10), 0xd200000c);
    IS(pciguest_board_write(board, PCIGUEST_CONFIG, 1, 1, 0, 4, 2, 2), 0);
    IS(pciguest_new(&other, file, length), 0);
    IS(pciguest_board_guests(board, &other), 903);
    IS(board->live && other.live, 1);
    pciguest_free(&other);
}

/* Each allocation fails in turn: the board is as it was, until it is given. */
static void given(struct pciguest_board *board, struct pciguest *machine)
{
    uint32_t value = 0, fault = 299;
    long count = 0, before = blocks;

    IS(pciguest_board_write(board, PCIGUEST_MEMORY, 0, 0, 0, 0xd0000004, 4, 0x600d600d), 0);
    for (; fault != 0; count++) {
        IS(pciguest_board_read(board, PCIGUEST_MEMORY, 0, 0, 0, 0xd0000004, 4, &value), 0);
        IS(value, 0x600d600d);
        IS((uint64_t)blocks, (uint64_t)before);
        fault = FAILING(count + 1, pciguest_board_guests(board, machine));
        if (fault != 0)
            IS(fault, 299);
        IS(machine->live, fault == 0);
        IS(board->live, fault != 0);
    }
    IS(count > 20, 1);
    IS(pciguest_board_guests(board, machine), 901);
    IS(pciguest_board_read(board, PCIGUEST_IO, 0, 0, 0, 0, 1, &value), 901);
}

/* A line that is refused leaves the board as it is, also where its reply has too little room, and each allocation fails in
 * turn, until the board is given. */
static void handed_over_by_a_line(struct pciguest_board *board)
{
    static const char closed[] = "closed: 2.0/1.0 bar0\nhost: refused 206 closed region\n";
    char reply[128] = {0};
    size_t written = 7;
    uint32_t fault = 299;
    long count = 0, before;

    IS(pciguest_board_new(board, file, length), 0);
    set_up_by_hand(board);
    IS(line(board, "host guests", reply, PCIGUEST_REPLY - 1, &written), 902);
    IS(written, 7);
    IS(line(board, "host guests", reply, PCIGUEST_REPLY, &written), 902);
    IS(written, strlen(closed));
    IS(reply[0], 0);
    IS(line(board, "host guests\n", reply, strlen(closed), &written), 0);
    IS(written, strlen(closed));
    IS(memcmp(reply, closed, sizeof closed), 0);
    IS(pciguest_board_write(board, PCIGUEST_CONFIG, 1, 1, 0, 4, 2, 2), 0);
    before = blocks;
    for (; fault != 0; count++) {
        IS(config_read(board, 1, 1, 0x10), 0xd200000c);
        IS((uint64_t)blocks, (uint64_t)before);
        fault = FAILING(count + 1, line(board, "host guests", reply, sizeof reply, &written));
        if (fault != 0)
            IS(fault, 299);
    }
    IS(count > 20, 1);
    IS(written, 9);
    IS(memcmp(reply, "host: ok\n", 9), 0);
}

/* Lines are a script's then, and firmware's calls find no board; its machine moves to a struct of its own as it is, and no
 * memory is taken for it. */
static void given_by_a_line(void)
{
    struct pciguest_board board = PCIGUEST_BOARD_INIT;
    struct pciguest machine = PCIGUEST_INIT, other = PCIGUEST_INIT;
    char reply[PCIGUEST_REPLY] = {0};
    size_t written = 7, count = 8;
    uint32_t value = 9;

    handed_over_by_a_line(&board);
    IS(line(&board, "host audit", reply, sizeof reply, &written), 0);
    IS(memcmp(reply, "host: refused 401 bad line\n", written), 0);
    IS(line(&board, "a cw 1 4 2 2", reply, sizeof reply, &written), 0);
    IS(memcmp(reply, "a: ok\n", written), 0);
    IS(pciguest_board_read(&board, PCIGUEST_IO, 0, 0, 0, 0, 1, &value), 901);
    IS(pciguest_board_write(&board, PCIGUEST_IO, 0, 0, 0, 0, 1, 0), 901);
    IS(pciguest_board_audit(&board, reply, sizeof reply, &written, &count), 901);
    IS(pciguest_set_up(&board, &machine), 901);
    IS(pciguest_board_new(&board, file, length), 903);
    IS(pciguest_new(&other, file, length), 0);
    IS(pciguest_board_guests(&board, &other), 903);
    pciguest_free(&other);
    calls_left = 1;
    IS(pciguest_board_guests(&board, &machine), 0);
    calls_left = -1;
    IS(board.live, 0);
    IS(value, 9);
    IS(count, 8);
    IS(config(&machine, 0, 1, 4, 2), 2);
    pciguest_free(&machine);
    handed_over_by_a_line(&board);
    pciguest_board_free(&board);
    IS(board.live, 0);
}

int main(int argc, char **argv)
{
    struct pciguest_board board = PCIGUEST_BOARD_INIT;
    struct pciguest machine = PCIGUEST_INIT, other = PCIGUEST_INIT;
    uint32_t value = 7;

    begin(argc, argv, 1);
    IS(pciguest_board_new(&board, file, length), 0);
    refused(&board, &machine);
    given(&board, &machine);
    IS(pciguest_host_read(&machine, PCIGUEST_CONFIG, 1, 1, 0, 0x10, 4, &value), 0);
    IS(value, 0xd200000c); /* where this program put it */
    IS(pciguest_host_read(&machine, PCIGUEST_MEMORY, 0, 0, 0, 0xd0000004, 4, &value), 0);
    IS(value, 0); /* the function was reset */
    IS(pciguest_new(&other, file, length), 0);
    told_alike(&machine, &other);
    pciguest_free(&machine);
    pciguest_free(&other);
    pciguest_board_free(&board);
    given_by_a_line();
    IS((uint64_t)blocks, 0);
    return wrong != 0;
}
