/* The peer at a socket. Its messages are read piece by piece as they come, and never waited for. */
#ifndef PEER_H
#define PEER_H

#include "protocol.h"

#include <stdbool.h>
#include <stddef.h>

struct peer {
    int socket; /* -1: there is no peer, and the fields below mean nothing */
    struct message message;
    size_t come;          /* bytes of the message so far */
    size_t descriptors;   /* descriptors that came with them, and were closed */
    int64_t since;        /* when the first byte came, in milliseconds */
    struct reply reply;
    size_t unsent; /* bytes of the reply that the socket hasn't accepted yet */
};

enum arrival { NOTHING_YET, WHOLE_MESSAGE, PEER_ENDED, PEER_BROKEN };

/* Reads what has come of one message, and no byte beyond it. PEER_BROKEN: it is not a message, and `why` says why. After
 * WHOLE_MESSAGE the message stays valid until the next call. */
enum arrival peer_receive(struct peer *peer, const char **why);

/* Answers the last message. What the socket doesn't accept at once is kept, and peer_flush sends it later. Returns false if
 * the peer is gone. */
bool peer_answer(struct peer *peer, uint64_t value);
bool peer_flush(struct peer *peer);

/* Returns when half a message is late, in milliseconds, or 0 if there is none. */
int64_t peer_deadline(const struct peer *peer);

/* Starts a peer at a non-blocking socket, and ends one. */
void peer_begin(struct peer *peer, int socket);
void peer_end(struct peer *peer);

int64_t now(void); /* in milliseconds */

#endif
