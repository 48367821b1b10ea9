/* Threads on one struct. A call that finds another one running is answered by 909 and changes nothing: within an allocation
 * of a running call every call is; and eight threads that read, write, make, give and free lose nothing.
 *
 *     threads BOARD COUNT ROWS
 *
 * BOARD is boards/main.toml, and ROWS tests/library/refusals.txt; each thread makes so many calls of each kind. It is linked with
 * --wrap for malloc. The exit status is 1 where an answer is wrong. */
#include "asked.h"

#include <pthread.h>
#include <sched.h>

#define THREADS 8

extern void *__real_malloc(size_t size);
void *__wrap_malloc(size_t size);

static struct pciguest machine = PCIGUEST_INIT;
static struct pciguest_board board = PCIGUEST_BOARD_INIT;
static FILE *rows;

/* ---- a call within another one */

static void (*within)(void); /* what is called in the next allocation */

void *__wrap_malloc(size_t size)
{
    void (*now)(void) = within;

    within = NULL;
    if (now)
        now();
    return __real_malloc(size);
}

#define BUSY(call) IS((call), PCIGUEST_BUSY)

static void ask_machine(void)
{
    char text[PCIGUEST_REPLY] = {0};
    uint64_t wide = 7;
    size_t told = 7;

    all_asked(rows, &machine, NULL, PCIGUEST_BUSY);
    BUSY(pciguest_new(&machine, file, length));
    pciguest_free(&machine);
    BUSY(pciguest_guest_count(&machine, &told));
    BUSY(pciguest_read_wide(&machine, 0, PCIGUEST_CONFIG, 0, 0, 9, &wide));
    BUSY(pciguest_write_wide(&machine, 0, PCIGUEST_CONFIG, 0, 4, 3, 3));
    BUSY(pciguest_image_size_all(&machine, &told));
    BUSY(pciguest_save_all(&machine, text, sizeof text, &told));
    BUSY(pciguest_count(&machine, &told));
    BUSY(pciguest_run_line(&machine, "a cw 0 4 2 3", 12, text, sizeof text, &told));
    BUSY(pciguest_explain_line(&machine, "a cr", 4, &told, text, sizeof text, &told));
    BUSY(pciguest_set_up(&board, &machine));
    BUSY(pciguest_board_guests(&board, &machine));
    IS(wide == 7 && told == 7 && text[0] == 0, 1);
}

static void ask_board(void)
{
    struct pciguest other = PCIGUEST_INIT;
    char text[PCIGUEST_REPLY] = {0};
    size_t told = 7;

    all_asked(rows, NULL, &board, PCIGUEST_BUSY);
    BUSY(pciguest_board_new(&board, file, length));
    pciguest_board_free(&board);
    BUSY(pciguest_board_run_line(&board, "host cw 00:01.0 4 2 3", 21, text, sizeof text, &told));
    BUSY(pciguest_board_count(&board, &told));
    BUSY(pciguest_board_audit(&board, text, sizeof text, &told, &told));
    BUSY(pciguest_board_ready(&board, text, sizeof text, &told, &told));
    BUSY(pciguest_board_audit_json(&board, text, sizeof text, &told, &told));
    BUSY(pciguest_board_ready_json(&board, text, sizeof text, &told, &told));
    BUSY(pciguest_set_up(&board, &other));
    BUSY(pciguest_board_guests(&board, &other));
    IS(told == 7 && text[0] == 0 && other.live == 0, 1);
}

/* What a call that takes memory answers is what it answers alone, and what the struct holds stays. */
static void one_within_another(void)
{
    char text[512] = {0}, alone[512] = {0};
    size_t needed = 0, needed_alone = 0, problems = 0;

    IS(pciguest_why(&machine, 0, PCIGUEST_MEMORY, 0, 0xd0000000, alone, sizeof alone, &needed_alone), 0);
    within = ask_machine;
    IS(pciguest_why(&machine, 0, PCIGUEST_MEMORY, 0, 0xd0000000, text, sizeof text, &needed), 0);
    IS(within == NULL && needed == needed_alone && memcmp(text, alone, sizeof text) == 0, 1);

    IS(pciguest_board_audit(&board, alone, sizeof alone, &needed_alone, &problems), 0);
    within = ask_board;
    IS(pciguest_board_audit(&board, text, sizeof text, &needed, &problems), 0);
    IS(within == NULL && needed == needed_alone && memcmp(text, alone, needed) == 0, 1);
    IS(machine.live && board.live, 1);
}

/* ---- eight threads */

struct thread {
    pthread_t thread;
    uint64_t nth, counted, done, busy;
    struct pciguest machine;
};

/* Makes a call until it is answered otherwise than by 909. */
#define UNTIL_DONE(call)                                  \
    do {                                                  \
        uint32_t number = (call);                         \
        while (number == PCIGUEST_BUSY) {                 \
            self->busy++;                                 \
            sched_yield();                                \
            number = (call);                              \
        }                                                 \
        IS(number, 0);                                    \
        self->done++;                                     \
    } while (0)

/* Reads what nobody writes, writes eight bytes of its own and reads eight bytes of one thread, and counts what the machine has
 * to have counted. */
static void *use(void *at)
{
    struct thread *self = at;
    uint64_t own = (self->nth + 1) * 0x0101010101010101;

    for (uint64_t left = times; left > 0; left--) {
        uint32_t value = 0;
        uint64_t wide = 0;

        UNTIL_DONE(pciguest_read(&machine, 0, PCIGUEST_CONFIG, 0, 0, 4, &value));
        IS(value, 0x00011234);
        UNTIL_DONE(pciguest_write(&machine, 0, PCIGUEST_CONFIG, 0, 4, 2, 2));
        self->counted++;
        UNTIL_DONE(pciguest_write_wide(&machine, 0, PCIGUEST_MEMORY, 0, 0x80000003, 8, own));
        UNTIL_DONE(pciguest_read_wide(&machine, 0, PCIGUEST_MEMORY, 0, 0x80000003, 8, &wide));
        IS(wide, (wide & 0xff) * 0x0101010101010101);
        IS((wide & 0xff) - 1 < THREADS, 1);
    }
    return NULL;
}

/* Makes a machine of one's own struct of a board that all threads share: one gets it. */
static void *give(void *at)
{
    struct thread *self = at;
    uint32_t number = pciguest_board_guests(&board, &self->machine);

    IS(number == 0 || number == PCIGUEST_NO_MACHINE || number == PCIGUEST_BUSY, 1);
    self->counted += number == 0;
    return NULL;
}

/* Makes a machine in a struct that all threads share: one makes it. */
static void *make(void *at)
{
    struct thread *self = at;
    uint32_t number = pciguest_new(&machine, file, length);

    IS(number == 0 || number == PCIGUEST_IN_USE || number == PCIGUEST_BUSY, 1);
    self->counted += number == 0;
    return NULL;
}

static void *end(void *at)
{
    (void)at;
    pciguest_free(&machine);
    return NULL;
}

/* Runs eight threads, and tells how much they counted together. */
static uint64_t eight(void *(*run)(void *), struct thread *threads)
{
    uint64_t counted = 0, done = 0, busy = 0;

    memset(threads, 0, THREADS * sizeof *threads);
    for (size_t i = 0; i < THREADS; i++) {
        threads[i].nth = i;
        if (pthread_create(&threads[i].thread, NULL, run, &threads[i]) != 0)
            exit(2);
    }
    for (size_t i = 0; i < THREADS; i++) {
        pthread_join(threads[i].thread, NULL);
        counted += threads[i].counted;
        done += threads[i].done;
        busy += threads[i].busy;
    }
    if (done)
        printf("%" PRIu64 " calls were made, and %" PRIu64 " answered by 909\n", done, busy);
    return counted;
}

int main(int argc, char **argv)
{
    static struct thread threads[THREADS];
    uint64_t before = 0, after = 0;

    begin(argc, argv, 3);
    rows = fopen(argv[3], "r");
    if (!rows)
        return 2;
    IS(pciguest_new(&machine, file, length), 0);
    IS(pciguest_board_new(&board, file, length), 0);
    one_within_another();

    IS(pciguest_write(&machine, 0, PCIGUEST_CONFIG, 0, 0x14, 4, 0x80000000), 0);
    IS(pciguest_write(&machine, 0, PCIGUEST_CONFIG, 0, 4, 2, 2), 0);
    IS(pciguest_write_wide(&machine, 0, PCIGUEST_MEMORY, 0, 0x80000003, 8, 0x0101010101010101), 0);
    IS(pciguest_changed(&machine, 0, &before), 0);
    IS(eight(use, threads), THREADS * times);
    IS(pciguest_changed(&machine, 0, &after), 0);
    IS(after - before, THREADS * times);

    for (uint64_t left = times / 100 + 1; left > 0; left--) {
        eight(end, threads);
        IS(machine.live, 0);
        IS(eight(make, threads), 1);
        IS(machine.live, 1);
    }
    set_up_by_hand(&board);
    IS(pciguest_board_write(&board, PCIGUEST_CONFIG, 1, 1, 0, 4, 2, 2), 0); /* each region is open, so that it can be given */
    IS(eight(give, threads), 1);
    IS(board.live, 0);
    for (size_t i = 0; i < THREADS; i++)
        pciguest_free(&threads[i].machine);
    pciguest_free(&machine);
    fclose(rows);
    return wrong != 0;
}
