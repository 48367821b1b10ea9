/* A KVM virtual machine with one processor, whose PCI is a guest of the board; and the board, which all machines share. */
#ifndef MACHINE_H
#define MACHINE_H

#include "pciguest.h"
#include "uart.h"
#include "virtio.h"

#include <linux/kvm.h>
#include <pthread.h>
#include <stddef.h>

enum { MEMORY = 128 << 20, SLOTS = 32, DISKS = 8, CONSOLE_PORT = 0x3f8, CONSOLE_LINE = 4 };

/* This lock protects the library's struct, and everything in a machine that both its own thread and another one use. */
struct board {
    struct pciguest guests;
    pthread_mutex_t lock;
    uint32_t waiting; /* threads that wait for the lock */
    uint64_t turns;   /* how often it was taken */
    struct disk disks[DISKS]; /* by their functions; those that have no path aren't there */
    struct cable cable;
};

/* board.c: takes the lock, and releases it; lends it, and takes it back after those who waited for it; or does so at once. */
void board_take(struct board *board);
void board_release(struct board *board);
uint64_t board_lend(struct board *board);
void board_take_back(struct board *board, uint64_t turns);
void board_pause(struct board *board);

/* An access at which KVM stopped. */
struct access {
    bool is_write;
    enum pciguest_space space;
    uint64_t place;
    uint32_t width;
    uint64_t value;
};

enum device { NO_DEVICE, SERIAL_PORT, BELL, VIRTIO };

struct machine {
    struct board *board;
    const char *name; /* the guest's name, and below its index */
    size_t guest;
    enum device devices[SLOTS]; /* the device behind the function in each slot */
    struct uart ports[SLOTS];   /* for devices that are serial ports */
    struct virtio virtio[SLOTS]; /* for disks and network cards */
    struct uart console;
    char line[256]; /* the beginning of an unfinished line of the console */
    size_t length;

    struct pciguest_place places[PCIGUEST_PLACES]; /* where the guest's regions are, six for each slot */
    uint8_t open[PCIGUEST_PLACES]; /* the rows of regions that are open, */
    unsigned open_count;           /* so many, */
    uint64_t changed;              /* when the library's count was this */
    uint32_t asking;      /* a bit for each slot whose device requests an interrupt */
    uint32_t driving[16]; /* for each line, a bit for each slot that drives it */

    int system, file, processor; /* descriptors of KVM, this machine and its processor */
    uint8_t *memory;
    struct kvm_run *run;
    pthread_t thread;
    const char *volatile save_path; /* where to save it, once it is stopped for that */
    volatile bool has_ended;
    bool has_failed; /* a call of the library failed: this machine ends, and the others go on */
    uint64_t away; /* nanoseconds of an access that were spent in KVM, in files or without the lock */
    uint64_t exits, board_exits, board_nanoseconds, counted_from;
};

/* machine.c: makes a machine, and runs it until it ends or is stopped. A failure ends the program. */
void machine_new(struct machine *machine, struct board *board, const char *name);
void machine_start(struct machine *machine);
void machine_stop(struct machine *machine, const char *save_path);
void machine_line(struct machine *machine, unsigned line, bool is_high);
void machine_message(struct machine *machine, uint64_t address, uint32_t data); /* an MSI */
void machine_print(struct machine *machine, uint8_t byte);

/* boot.c: loads Linux and its initial file system, and sets the processor to their entry point. */
void machine_boot(struct machine *machine, const char *kernel, const char *initial, const char *words);

/* guest.c: the machine's PCI. */
void machine_find_guest(struct machine *machine);
void machine_find_devices(struct machine *machine); /* behind its functions, each at reset */
void machine_wire(struct machine *machine); /* acts as the machine's firmware */
uint32_t machine_move(struct machine *from, uint64_t slot, struct machine *to, uint64_t target);
bool machine_board_access(struct machine *machine, struct access *access);
void machine_settle(struct machine *machine); /* updates lines and regions after a load */
uint64_t now(void); /* nanoseconds */
void machine_interrupt(struct machine *machine, uint64_t slot, bool is_asking);
void expect(struct machine *machine, uint32_t number, const char *what); /* ends the machine if a call failed */

/* Reads and writes cells of a function as its device does, 1 to 8 bytes. */
uint64_t machine_cells(struct machine *machine, uint64_t slot, uint32_t part, uint64_t offset, uint32_t width);
void machine_set_cells(struct machine *machine, uint64_t slot, uint32_t part, uint64_t offset,
                       uint32_t width, uint64_t value);

/* restore.c: loads the image of the machine's guest, or says why it can't. */
const char *machine_restore(struct machine *machine, const void *image, size_t length);

/* saved.c: saves a stopped machine to a file, and loads one, or says why it can't. */
void machine_save(struct machine *machine, const char *path);
const char *machine_load(struct machine *machine, const char *path);

/* kvm.c: ends the program if a result is negative, and says what failed. */
int needed(int result, const char *what);
void *bytes_of(const char *path, size_t *length);

#endif
