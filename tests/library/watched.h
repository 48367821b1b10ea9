/* Tells helgrind what orders calls: it knows no atomics. It is included before library/calls.c. */
#ifndef WATCHED_H
#define WATCHED_H

#include <valgrind/helgrind.h>

/* Calls on a struct begin where the one before it was put back; that others look at the same place is what it is for. */
#define __atomic_exchange_n(at, value, order)                    \
    ({                                                           \
        VALGRIND_HG_DISABLE_CHECKING(at, sizeof *(at));          \
        void *found_ = __atomic_exchange_n(at, value, order);    \
        if (found_ != (value))                                   \
            ANNOTATE_HAPPENS_AFTER(at);                          \
        found_;                                                  \
    })

#define __atomic_store_n(at, value, order)         \
    ({                                             \
        ANNOTATE_HAPPENS_BEFORE(at);               \
        __atomic_store_n(at, value, order);        \
    })

#endif
