/* Sockets for the functions that are given away: connects, serves and drops peers. */
#define _GNU_SOURCE
#include "gifts.h"

#include <errno.h>
#include <inttypes.h>
#include <stdlib.h>
#include <string.h>
#include <sys/socket.h>
#include <sys/stat.h>
#include <sys/un.h>
#include <unistd.h>

static void tell_in(FILE *file, const char *head, const struct gift *gift, const char *what, const char *why)
{
    fprintf(file, "%s%s:%" PRIu64 ": %s%s%s\n", head, gift->seat->guest, gift->seat->slot, what, why ? ": " : "",
            why ? why : "");
}

static void tell(const struct board *board, const struct gift *gift, const char *what, const char *why)
{
    tell_in(stderr, "serve: ", gift, what, why);
    if (board->log)
        tell_in(board->log, "#", gift, what, why);
}

static void drop(const struct board *board, struct gift *gift, const char *why)
{
    tell(board, gift, why ? "dropped" : "gone", why);
    peer_end(&gift->peer);
}

bool gift_read(struct gift *gift, struct seat *seat, char *text)
{
    char *colon = strchr(text, ':'), *equals = colon ? strchr(colon, '=') : NULL, *end;

    if (!equals || equals == colon + 1 || !equals[1])
        return false;
    *colon = *equals = '\0';
    *seat = (struct seat){.guest = text, .slot = strtoul(colon + 1, &end, 10)};
    *gift = (struct gift){.seat = seat, .path = equals + 1, .listener = -1, .peer.socket = -1};
    return end == equals && seat->slot < 32;
}

/* Binds a socket to which only this user can connect, and listens there. */
static bool open_socket(struct gift *gift)
{
    struct sockaddr_un address = {.sun_family = AF_UNIX};
    mode_t mask;

    if (strlen(gift->path) >= sizeof address.sun_path) {
        errno = ENAMETOOLONG;
        return false;
    }
    strcpy(address.sun_path, gift->path);
    gift->listener = socket(AF_UNIX, SOCK_STREAM | SOCK_NONBLOCK | SOCK_CLOEXEC, 0);
    if (gift->listener < 0)
        return false;
    mask = umask(0177);
    gift->is_bound = bind(gift->listener, (struct sockaddr *)&address, sizeof address) == 0;
    umask(mask);
    return gift->is_bound && listen(gift->listener, 1) == 0;
}

bool gifts_open(struct gift *gifts, size_t count, struct board *board)
{
    for (struct gift *gift = gifts; gift < gifts + count; gift++) {
        struct seat *seat = gift->seat;

        if (pciguest_guest(&board->machine, seat->guest, strlen(seat->guest), &seat->index)) {
            tell(board, gift, "no such guest", NULL);
            return false;
        }
        if (!open_socket(gift)) {
            tell(board, gift, gift->path, strerror(errno));
            return false;
        }
        log_regions(board, seat);
    }
    return true;
}

void gifts_close(struct gift *gifts, size_t count)
{
    for (struct gift *gift = gifts; gift < gifts + count; gift++) {
        if (gift->peer.socket >= 0)
            peer_end(&gift->peer);
        if (gift->listener >= 0)
            close(gift->listener);
        if (gift->is_bound)
            unlink(gift->path);
    }
}

int64_t gifts_watch(const struct gift *gifts, size_t count, struct pollfd *events)
{
    int64_t first = 0, wait;

    for (size_t i = 0; i < count; i++) {
        const struct peer *peer = &gifts[i].peer;
        int64_t deadline = peer->socket < 0 ? 0 : peer_deadline(peer);

        if (deadline && (!first || deadline < first))
            first = deadline;
        /* a peer that hasn't read its reply isn't read from */
        events[2 * i] = (struct pollfd){.fd = peer->socket, .events = peer->unsent ? POLLOUT : POLLIN};
        events[2 * i + 1] = (struct pollfd){.fd = gifts[i].listener, .events = POLLIN};
    }
    if (!first)
        return -1;
    wait = first - now();
    return wait > 0 ? wait : 0;
}

static void serve_peer(struct gift *gift, struct board *board)
{
    struct peer *peer = &gift->peer;
    const char *why = NULL;
    uint64_t answer;

    if (peer->unsent) {
        if (!peer_flush(peer))
            drop(board, gift, "its answer can't be sent");
        return;
    }
    switch (peer_receive(peer, &why)) {
    case NOTHING_YET:
        break;
    case WHOLE_MESSAGE:
        if (message_event(board, gift->seat, &peer->message, &answer) && !peer_answer(peer, answer))
            drop(board, gift, "its answer can't be sent");
        break;
    case PEER_ENDED:
    case PEER_BROKEN:
        drop(board, gift, why);
    }
}

/* Accepts a peer, if no other is connected. */
static bool welcome(const struct board *board, struct gift *gift)
{
    int socket = accept4(gift->listener, NULL, NULL, SOCK_NONBLOCK | SOCK_CLOEXEC);

    if (socket < 0 && (errno == EAGAIN || errno == EINTR || errno == ECONNABORTED))
        return true;
    if (socket < 0) {
        tell(board, gift, "nobody can be let in", strerror(errno));
        return false;
    }
    if (gift->peer.socket >= 0) {
        close(socket);
        tell(board, gift, "turned away: another stands there", NULL);
    } else {
        peer_begin(&gift->peer, socket);
        tell(board, gift, "came", NULL);
    }
    return true;
}

bool gifts_serve(struct gift *gifts, size_t count, const struct pollfd *events, struct board *board)
{
    bool is_open = true;

    for (size_t i = 0; i < count; i++) {
        struct peer *peer = &gifts[i].peer;

        if (events[2 * i].revents)
            serve_peer(&gifts[i], board);
        if (peer->socket >= 0 && peer_deadline(peer) && peer_deadline(peer) <= now())
            drop(board, &gifts[i], "half a message, and nothing more");
    }
    for (size_t i = 0; i < count; i++)
        if (events[2 * i + 1].revents)
            is_open = welcome(board, &gifts[i]) && is_open;
    return is_open;
}
