/* What calls cost, in nanoseconds. */
#ifndef COST_H
#define COST_H

#include <stdint.h>
#include <stdio.h>
#include <time.h>

static double now(void)
{
    struct timespec time;
    clock_gettime(CLOCK_MONOTONIC, &time);
    return time.tv_sec * 1e9 + time.tv_nsec;
}

/* Times a call that may use `i`, the count of those before it: the least of nine rounds of the usual count, or one round of
 * `few` calls, where that isn't 0. */
#define COST(what, usual, call)                                 \
    do {                                                        \
        uint32_t count = few ? few : (usual);                   \
        double least = 1e18;                                    \
        for (int round = 0; round < (few ? 1 : 9); round++) {   \
            double time = now();                                \
            for (uint32_t i = 0; i < count; i++)                \
                faults += (call);                               \
            time = (now() - time) / count;                      \
            least = time < least ? time : least;                \
        }                                                       \
        printf("%-44s %10.1f\n", what, least);                  \
    } while (0)

#endif
