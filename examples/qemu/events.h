/* What happens to the machine: each message of a peer and each line of the host is one event, or a few. Each event is
 * logged as a line of a script, with its reply as a comment below, so that the log can be run again. A reply begins with
 * `# `; other comments begin with `#` and a letter. */
#ifndef EVENTS_H
#define EVENTS_H

#include "pciguest.h"
#include "protocol.h"

#include <stdio.h>

/* A slot of a guest. */
struct seat {
    const char *guest; /* the guest's name, and below its index */
    size_t index;
    uint64_t slot;
    struct pciguest_place places[PCIGUEST_PLACES]; /* where the guest's regions are, according to the log */
};

struct board {
    struct pciguest machine;
    FILE *log;          /* null if there is no log */
    struct seat *seats; /* all slots that have a socket */
    size_t count;
};

/* Does what a message asks of the function in a slot. Returns whether the machine that sent it awaits an answer, and stores
 * that answer. */
bool message_event(struct board *board, struct seat *seat, const struct message *message, uint64_t *answer);

/* Logs where the regions of a seat's function are, except where the log already says so. */
void log_regions(struct board *board, struct seat *seat);

/* Runs a line of the host, without its line feed, and writes the reply to a file. */
void line_event(struct board *board, const char *line, size_t length, FILE *replies);

/* Writes an error number with its message, such as `906 image is for other functions`. */
void write_refusal(FILE *file, uint32_t number);

#endif
