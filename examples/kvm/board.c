/* The board's lock, which one thread has at a time. A device that works for long lends it, so that the other machines wait for
 * a moment at most. */
#include "machine.h"

#include <sched.h>

void board_take(struct board *board)
{
    __atomic_add_fetch(&board->waiting, 1, __ATOMIC_SEQ_CST);
    pthread_mutex_lock(&board->lock);
    __atomic_sub_fetch(&board->waiting, 1, __ATOMIC_SEQ_CST);
    __atomic_add_fetch(&board->turns, 1, __ATOMIC_SEQ_CST);
}

void board_release(struct board *board)
{
    pthread_mutex_unlock(&board->lock);
}

uint64_t board_lend(struct board *board)
{
    uint64_t turns = board->turns;

    board_release(board);
    return turns;
}

/* A mutex may go to the same thread again, however long others wait. So this waits until one of them had it. */
void board_take_back(struct board *board, uint64_t turns)
{
    while (__atomic_load_n(&board->waiting, __ATOMIC_SEQ_CST) > 0 &&
           __atomic_load_n(&board->turns, __ATOMIC_SEQ_CST) == turns)
        sched_yield();
    board_take(board);
}

void board_pause(struct board *board)
{
    board_take_back(board, board_lend(board));
}
