/* Images of guests in files, through two lines of the host that scripts don't have:
 *
 *     host save GUEST FILE
 *     host load GUEST FILE
 */
#ifndef IMAGES_H
#define IMAGES_H

#include "events.h"

/* Carries out such a line and writes its reply. Returns false for any other line, which must still be run. */
bool image_event(struct board *board, const char *line, size_t length, FILE *replies);

#endif
