/* What library/calls.c uses besides the calls of the proved library: it takes a struct for the duration of a call, and
 * splits processor accesses into bus accesses. */
#ifndef CALLS_H
#define CALLS_H

#include "raw.h"

/* The value of a struct's pointer while a call is running on the struct. */
#define RUNNING ((void *)1)

/* Moves what a struct holds into another struct that no other thread sees, and returns whether no call was running. One
 * atomic exchange does both, so of two concurrent calls one finds RUNNING, and has written the same value back. The proved call
 * gets the other struct: only the pointer of the first one is accessed by two threads, and only by these macros. */
#define TAKE(whole, held)                                                    \
    ((held).at = __atomic_exchange_n(&(whole)->at, RUNNING, __ATOMIC_ACQUIRE), \
     (held).live = (held).at != NULL, (held).at != RUNNING)

#define PUT_BACK(whole, held) ((whole)->live = (held).live, __atomic_store_n(&(whole)->at, (held).at, __ATOMIC_RELEASE))

/* Returns 0 if a processor access may be split, or the error number with which it is refused. */
static uint32_t not_split(uint32_t space, uint64_t place, uint32_t width)
{
    if (width < 1 || width > 8)
        return PCIGUEST_BAD_WIDTH;
    return pciguest_ends_within(space, place, width) ? 0 : PCIGUEST_OUT_OF_RANGE;
}

static uint32_t pciguest_raw_read_wide(struct pciguest *machine, size_t guest, uint32_t space, uint64_t slot,
                                       uint64_t place, uint32_t width, uint64_t *value)
{
    uint64_t all = 0;
    uint32_t number = not_split(space, place, width), done = 0;

    while (!number && done < width) {
        uint32_t size = pciguest_piece(place + done, width - done), part = 0;

        number = pciguest_raw_read(machine, guest, space, slot, place + done, size, &part);
        all |= (uint64_t)part << 8 * done;
        done += size;
    }
    if (!number)
        *value = all;
    return number;
}

static uint32_t pciguest_raw_write_wide(struct pciguest *machine, size_t guest, uint32_t space, uint64_t slot,
                                        uint64_t place, uint32_t width, uint64_t value)
{
    uint32_t number = not_split(space, place, width), done = 0;

    while (!number && done < width) {
        uint32_t size = pciguest_piece(place + done, width - done);

        number = pciguest_raw_write(machine, guest, space, slot, place + done, size, (uint32_t)(value >> 8 * done));
        done += size;
    }
    return number;
}

#endif
