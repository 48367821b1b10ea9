/* Functions that are given to machines: each has a socket to which one machine at a time can connect. Standard error and a
 * comment of the log say who came, went and was dropped. */
#ifndef GIFTS_H
#define GIFTS_H

#include "events.h"
#include "peer.h"

#include <poll.h>

struct gift {
    struct seat *seat;
    const char *path; /* of the socket; `is_bound` says whether a file is there */
    bool is_bound;
    int listener;
    struct peer peer;
};

/* Reads GUEST:SLOT=SOCKET as a gift of this seat, and cuts the text into its parts. */
bool gift_read(struct gift *gift, struct seat *seat, char *text);

/* Finds the guests and opens the sockets, and reports what fails. gifts_close may follow whatever this returns. */
bool gifts_open(struct gift *gifts, size_t count, struct board *board);
void gifts_close(struct gift *gifts, size_t count);

/* Writes what to wait for, two entries for each gift, and returns how long in milliseconds, or -1 if nothing is due. */
int64_t gifts_watch(const struct gift *gifts, size_t count, struct pollfd *events);

/* Serves the peers that sent something, each at most one message, so that none holds up the others; then accepts new peers.
 * Returns false if no peer can be accepted any more. */
bool gifts_serve(struct gift *gifts, size_t count, const struct pollfd *events, struct board *board);

#endif
