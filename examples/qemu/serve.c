/* Provides functions of a board's guests to QEMU machines, each at a separate socket.
 *
 *     serve [--log FILE] --give GUEST:SLOT=SOCKET [--give ..] BOARD
 *
 * Script lines on standard input are run as they arrive, and the replies are written to standard output. In this way,
 * the host reads the board, moves functions, and lets devices set status bits. Two more lines save a guest to a file
 * and load it (images.h). The server ends when its standard input does, or on SIGINT or SIGTERM. When a peer
 * connects, disconnects or is dropped, this is reported on standard error and in the log. */
#define _GNU_SOURCE
#include "gifts.h"

#include <errno.h>
#include <getopt.h>
#include <poll.h>
#include <signal.h>
#include <stdlib.h>
#include <string.h>
#include <unistd.h>

/* The part of a line that arrived on standard input. Only the beginning of a longer line is kept, which is refused as
 * a long line. */
struct console {
    char line[256];
    size_t length;
};

static volatile sig_atomic_t is_stopped;

static void stop(int number)
{
    (void)number;
    is_stopped = 1;
}

static void take_bytes(struct console *console, struct board *board, const char *bytes, size_t count)
{
    for (size_t i = 0; i < count; i++) {
        if (bytes[i] == '\n') {
            line_event(board, console->line, console->length, stdout);
            console->length = 0;
        } else if (console->length < sizeof console->line) {
            console->line[console->length++] = bytes[i];
        }
    }
}

/* Reads standard input. Returns false at its end. */
static bool take_lines(struct console *console, struct board *board)
{
    char bytes[4096];
    ssize_t count = read(STDIN_FILENO, bytes, sizeof bytes);

    if (count < 0)
        return errno == EINTR || errno == EAGAIN;
    if (count == 0 && console->length > 0)
        take_bytes(console, board, "\n", 1);
    take_bytes(console, board, bytes, (size_t)count);
    return count > 0;
}

struct server {
    struct board board;
    struct gift *gifts;    /* the number of seats on the board */
    struct pollfd *events; /* two for each gift, and standard input */
    struct console console;
};

/* Waits for the next events, and handles them. Returns false at the end of standard input, or if waiting fails. */
static bool serve_next(struct server *server, const sigset_t *unblocked)
{
    size_t count = server->board.count, last = 2 * count;
    int64_t wait = gifts_watch(server->gifts, count, server->events);
    struct timespec time = {wait / 1000, wait % 1000 * 1000000};
    bool goes_on = true;

    server->events[last] = (struct pollfd){.fd = STDIN_FILENO, .events = POLLIN};
    if (ppoll(server->events, last + 1, wait < 0 ? NULL : &time, unblocked) < 0)
        return errno == EINTR;
    if (server->events[last].revents)
        goes_on = take_lines(&server->console, &server->board);
    goes_on = gifts_serve(server->gifts, count, server->events, &server->board) && goes_on;
    if (server->board.log)
        fflush(server->board.log);
    return goes_on;
}

/* Runs until standard input ends or a signal arrives. Returns false if replies or the log can't be written. */
static bool serve(struct server *server, const sigset_t *unblocked)
{
    bool is_written = true;

    fputs("serve: ready\n", stderr);
    while (is_written && !is_stopped && serve_next(server, unblocked))
        is_written = !ferror(stdout) && !(server->board.log && ferror(server->board.log));
    if (!is_written)
        fputs("serve: replies or the log can't be written\n", stderr);
    return is_written;
}

/* Sets up the board of a file, or reports why it can't. */
static bool set_up(struct pciguest *machine, const char *path)
{
    static uint8_t bytes[1 << 20];
    FILE *file = fopen(path, "rb");
    size_t length = file ? fread(bytes, 1, sizeof bytes, file) : 0;
    bool is_read = file && !ferror(file) && length < sizeof bytes;
    uint32_t fault;

    if (file)
        fclose(file);
    if (!is_read) {
        fprintf(stderr, "serve: %s: can't be read, or is longer than 1 MB\n", path);
        return false;
    }
    fault = pciguest_new(machine, bytes, length);
    if (!fault)
        return true;
    fprintf(stderr, "serve: %s: ", path);
    write_refusal(stderr, fault);
    fputc('\n', stderr);
    return false;
}

/* From now on, signals arrive only while the server waits. Returns what was unblocked before. */
static void catch_signals(sigset_t *unblocked)
{
    struct sigaction action = {.sa_handler = stop};
    sigset_t blocked;

    sigemptyset(&blocked);
    sigaddset(&blocked, SIGINT);
    sigaddset(&blocked, SIGTERM);
    sigprocmask(SIG_BLOCK, &blocked, unblocked);
    sigaction(SIGINT, &action, NULL);
    sigaction(SIGTERM, &action, NULL);
    signal(SIGPIPE, SIG_IGN);
}

/* Opens what the arguments name, runs the server, and closes everything. */
static bool run(struct server *server, const char *path, const char *log)
{
    struct board *board = &server->board;
    sigset_t unblocked;
    bool is_well = false;

    catch_signals(&unblocked);
    if (log && !(board->log = fopen(log, "w")))
        fprintf(stderr, "serve: %s: %s\n", log, strerror(errno));
    else if (set_up(&board->machine, path) && gifts_open(server->gifts, board->count, board))
        is_well = serve(server, &unblocked);
    gifts_close(server->gifts, board->count);
    pciguest_free(&board->machine);
    return !(board->log && fclose(board->log) != 0) && is_well;
}

/* Returns the board file, which follows the options, or null if there is another argument or no function to give. */
static const char *read_words(struct server *server, const char **log, int argc, char **argv)
{
    static const struct option options[] = {
        {"log", required_argument, NULL, 'l'}, {"give", required_argument, NULL, 'g'}, {NULL, 0, NULL, 0}};
    struct board *board = &server->board;
    int option;

    while ((option = getopt_long(argc, argv, "", options, NULL)) != -1) {
        if (option == 'l')
            *log = optarg;
        else if (option != 'g' || !gift_read(&server->gifts[board->count], &board->seats[board->count], optarg))
            return NULL;
        else
            board->count++;
    }
    return optind + 1 == argc && board->count > 0 ? argv[optind] : NULL;
}

int main(int argc, char **argv)
{
    struct server server = {.board.seats = calloc((size_t)argc, sizeof *server.board.seats),
                            .gifts = calloc((size_t)argc, sizeof *server.gifts),
                            .events = calloc(2 * (size_t)argc + 1, sizeof *server.events)};
    const char *log = NULL, *path;
    int status = 1;

    if (!server.board.seats || !server.gifts || !server.events) {
        fputs("serve: out of memory\n", stderr);
    } else if (!(path = read_words(&server, &log, argc, argv))) {
        fputs("serve [--log FILE] --give GUEST:SLOT=SOCKET [--give ..] BOARD\n", stderr);
        status = 2;
    } else if (run(&server, path, log)) {
        status = 0;
    }
    free(server.board.seats);
    free(server.gifts);
    free(server.events);
    return status;
}
