/* Messages of one peer: their framing, their allowed contents, and their descriptors. */
#define _GNU_SOURCE
#include "peer.h"

#include <errno.h>
#include <string.h>
#include <sys/socket.h>
#include <time.h>
#include <unistd.h>

/* The size of each command's body, and the largest number of descriptors. */
static const struct {
    bool is_sent;
    uint64_t length;
    size_t descriptors;
} form[COMMANDS] = {
    [SYNC_MEMORY] = {true, LONGEST_BODY, 8},
    [CONFIG_WRITE] = {true, sizeof(struct config_access), 0},
    [CONFIG_READ] = {true, sizeof(struct config_access), 0},
    [REGION_WRITE] = {true, sizeof(struct region_access), 0},
    [REGION_READ] = {true, sizeof(struct region_access), 0},
    [SET_INTERRUPT] = {true, 0, 2},
    [RESET] = {true, 0, 0},
};

enum { MOST_DESCRIPTORS = 8, PATIENCE = 5000 /* milliseconds for a message, once it has begun */ };

int64_t now(void)
{
    struct timespec time;

    clock_gettime(CLOCK_MONOTONIC, &time);
    return (int64_t)time.tv_sec * 1000 + time.tv_nsec / 1000000;
}

void peer_begin(struct peer *peer, int socket)
{
    memset(peer, 0, sizeof *peer);
    peer->socket = socket;
}

void peer_end(struct peer *peer)
{
    close(peer->socket);
    peer->socket = -1;
}

int64_t peer_deadline(const struct peer *peer)
{
    return peer->come > 0 ? peer->since + PATIENCE : 0;
}

/* Closes and counts the descriptors that arrived, because neither the machine's memory nor its interrupts are used. */
static size_t close_descriptors(struct msghdr *header)
{
    size_t count = 0;

    for (struct cmsghdr *part = CMSG_FIRSTHDR(header); part; part = CMSG_NXTHDR(header, part)) {
        if (part->cmsg_level != SOL_SOCKET || part->cmsg_type != SCM_RIGHTS)
            continue;
        for (size_t at = 0; at + sizeof(int) <= part->cmsg_len - CMSG_LEN(0); at += sizeof(int)) {
            int descriptor;

            memcpy(&descriptor, CMSG_DATA(part) + at, sizeof descriptor);
            close(descriptor);
            count++;
        }
    }
    return count;
}

/* Receives at most so many bytes. Returns their number, 0 at the end, -1 if there are none yet, or -2 if the socket
 * fails. */
static ssize_t receive(struct peer *peer, size_t most, bool *is_cut)
{
    union {
        char bytes[CMSG_SPACE(sizeof(int) * MOST_DESCRIPTORS)];
        struct cmsghdr aligned;
    } control;
    struct iovec place = {(char *)&peer->message + peer->come, most};
    struct msghdr header = {
        .msg_iov = &place, .msg_iovlen = 1, .msg_control = &control, .msg_controllen = sizeof control};
    ssize_t count = recvmsg(peer->socket, &header, MSG_CMSG_CLOEXEC);

    if (count < 0)
        return errno == EAGAIN || errno == EWOULDBLOCK || errno == EINTR ? -1 : -2;
    *is_cut = header.msg_flags & MSG_CTRUNC;
    peer->descriptors += close_descriptors(&header);
    return count;
}

/* Returns what is wrong with a head that arrived, or null. */
static const char *wrong_head(const struct head *head)
{
    if (head->command < 0 || head->command >= COMMANDS || !form[head->command].is_sent)
        return "no such command";
    return head->length == form[head->command].length ? NULL : "a length that its command doesn't have";
}

static const char *wrong_message(const struct peer *peer)
{
    int32_t command = peer->message.head.command;

    if (peer->descriptors > form[command].descriptors)
        return "descriptors that its command doesn't have";
    if ((command == REGION_READ || command == REGION_WRITE) && peer->message.body.region.is_memory > 1)
        return "an access neither to a port nor to memory";
    return NULL;
}

enum arrival peer_receive(struct peer *peer, const char **why)
{
    size_t head = sizeof peer->message.head, wanted = head;
    bool is_cut = false;
    ssize_t count;

    if (peer->come >= head)
        wanted += peer->message.head.length;
    count = receive(peer, wanted - peer->come, &is_cut);
    if (count == -1)
        return NOTHING_YET;
    if (count == 0 && peer->come == 0)
        return PEER_ENDED;
    *why = count == -2 ? strerror(errno) : count == 0 ? "half a message" : is_cut ? "too many descriptors" : NULL;
    if (*why)
        return PEER_BROKEN;
    if (peer->come == 0)
        peer->since = now();
    peer->come += (size_t)count;
    if (peer->come < head)
        return NOTHING_YET;
    if (peer->come == head && (*why = wrong_head(&peer->message.head)))
        return PEER_BROKEN;
    if (peer->come < head + peer->message.head.length)
        return NOTHING_YET;
    *why = wrong_message(peer);
    peer->come = peer->descriptors = 0;
    return *why ? PEER_BROKEN : WHOLE_MESSAGE;
}

bool peer_answer(struct peer *peer, uint64_t value)
{
    peer->reply = (struct reply){{REPLY, 0, sizeof value}, value};
    peer->unsent = sizeof peer->reply;
    return peer_flush(peer);
}

bool peer_flush(struct peer *peer)
{
    const char *from = (const char *)&peer->reply + sizeof peer->reply - peer->unsent;
    ssize_t count = send(peer->socket, from, peer->unsent, MSG_NOSIGNAL);

    if (count < 0)
        return errno == EAGAIN || errno == EWOULDBLOCK || errno == EINTR;
    peer->unsent -= (size_t)count;
    return true;
}
