/* What the devices do with drivers and images that mean harm, with no KVM: each machine's memory is some bytes here, and its
 * processor a thread that makes accesses.
 *
 *     hostile board.toml COUNT
 *
 * COUNT images that were changed at random are loaded. The exit status is 1 if something went wrong. */
#include "machine.h"
#include "without_kvm.h"

#include <linux/virtio_blk.h>
#include <linux/virtio_config.h>
#include <linux/virtio_pci.h>
#include <linux/virtio_ring.h>
#include <fcntl.h>
#include <sched.h>
#include <stdio.h>
#include <stdlib.h>
#include <string.h>
#include <sys/syscall.h>
#include <unistd.h>

enum { PORT, BELL_SLOT, DISK, CARD, REGION = 0x20000000, RINGS = 0x1000, REQUEST = 0x8000, BUFFER = 1 << 20, ROOM = 1 << 16,
       MASTERS = 7, PARTS = 250, PART = 512 << 10, FILE_SIZE = 128 << 20, AWAY = 5 };

static struct board board = {.guests = PCIGUEST_INIT, .lock = PTHREAD_MUTEX_INITIALIZER};
static struct machine a = {.board = &board, .name = "a"}, b = {.board = &board, .name = "b"};
static char text[1 << 16];
static size_t length;
static int wrong;

static void is(int line, uint64_t found, uint64_t wanted)
{
    if (found != wanted && wrong++ < 20)
        fprintf(stderr, "hostile.c:%d: 0x%llx in place of 0x%llx\n", line, (unsigned long long)found, (unsigned long long)wanted);
}

#define IS(found, wanted) is(__LINE__, (found), (wanted))

/* ---- a machine's accesses, and its disk */

static uint64_t access_of(struct machine *machine, enum pciguest_space space, uint64_t place, uint32_t width, bool is_write,
                          uint64_t value)
{
    struct access access = {is_write, space, place, width, value};

    board_take(&board);
    if (!machine_board_access(machine, &access))
        access.value = UINT64_MAX;
    board_release(&board);
    return access.value;
}

static void write_config(struct machine *machine, uint32_t slot, uint32_t offset, uint32_t width, uint32_t value)
{
    access_of(machine, PCIGUEST_IO, 0xcf8, 4, true, 0x80000000u | slot << 11 | (offset & 0xfc));
    access_of(machine, PCIGUEST_IO, 0xcfc + (offset & 3), width, true, value);
}

static uint64_t region(uint32_t slot, uint32_t bar)
{
    return REGION + (slot << 16) + (bar << 12);
}

static void write_common(uint32_t offset, uint32_t width, uint64_t value)
{
    access_of(&a, PCIGUEST_MEMORY, region(DISK, VIRTIO_COMMON) + offset, width, true, value);
}

static uint64_t read_common(uint32_t offset, uint32_t width)
{
    return access_of(&a, PCIGUEST_MEMORY, region(DISK, VIRTIO_COMMON) + offset, width, false, 0);
}

static void place(struct machine *machine, uint32_t slot, uint32_t regions)
{
    for (uint32_t bar = 0; bar < regions; bar++)
        write_config(machine, slot, 0x10 + 4 * bar, 4, (uint32_t)region(slot, bar));
    write_config(machine, slot, 4, 2, MASTERS);
}

/* The driver sets up the disk's queue. */
static void set_up_disk(void)
{
    enum { AGREED = VIRTIO_CONFIG_S_ACKNOWLEDGE | VIRTIO_CONFIG_S_DRIVER | VIRTIO_CONFIG_S_FEATURES_OK };

    memset(a.memory, 0, BUFFER);
    place(&a, DISK, 4);
    write_config(&a, DISK, 0x9a, 2, 0x8000); /* MSI-X Enable */
    write_common(VIRTIO_PCI_COMMON_STATUS, 1, 0);
    write_common(VIRTIO_PCI_COMMON_GFSELECT, 4, 1);
    write_common(VIRTIO_PCI_COMMON_GF, 4, 1);
    write_common(VIRTIO_PCI_COMMON_STATUS, 1, AGREED);
    write_common(VIRTIO_PCI_COMMON_Q_SELECT, 2, 0);
    for (uint32_t i = 0; i < 3; i++) /* descriptors, the ring of available chains, that of used ones */
        write_common(VIRTIO_PCI_COMMON_Q_DESCLO + 8 * i, 8, RINGS + 0x2000 * i);
    write_common(VIRTIO_PCI_COMMON_Q_MSIX, 2, 0);
    write_common(VIRTIO_PCI_COMMON_Q_ENABLE, 2, 1);
    write_common(VIRTIO_PCI_COMMON_STATUS, 1, AGREED | VIRTIO_CONFIG_S_DRIVER_OK);
}

/* A read of `count` parts of `size` bytes each, all of which have the same place, as each chain of the queue. */
static void offer(unsigned count, uint32_t size, uint16_t chains)
{
    struct vring_desc *descriptors = (struct vring_desc *)(a.memory + RINGS);
    struct vring_avail *available = (struct vring_avail *)(a.memory + RINGS + 0x2000);

    for (unsigned i = 0; i <= count + 1; i++)
        descriptors[i] = (struct vring_desc){BUFFER, size, VRING_DESC_F_NEXT | VRING_DESC_F_WRITE, (uint16_t)(i + 1)};
    descriptors[0] = (struct vring_desc){REQUEST, sizeof(struct virtio_blk_outhdr), VRING_DESC_F_NEXT, 1};
    descriptors[count + 1] = (struct vring_desc){REQUEST + 64, 1, VRING_DESC_F_WRITE, 0};
    available->idx = chains;
}

static void notify(void)
{
    access_of(&a, PCIGUEST_MEMORY, region(DISK, VIRTIO_NOTIFY), 2, true, 0);
}

static uint16_t used(void)
{
    return ((struct vring_used *)(a.memory + RINGS + 0x4000))->idx;
}

/* ---- images */

/* Loads an image as a machine that continues, and lets it go on: the devices settle, and the driver writes and notifies. */
static bool goes_on(const uint8_t *image, size_t size)
{
    const char *fault = machine_restore(&a, image, size);

    if (!fault) {
        machine_settle(&a);
        notify();
        for (uint32_t offset = 0; offset < 56; offset += 4)
            write_common(offset, 4, UINT32_MAX);
        access_of(&a, PCIGUEST_IO, 0x1000, 1, true, 'x');
        access_of(&a, PCIGUEST_IO, 0x1000, 1, false, 0);
    }
    IS(a.has_failed, false);
    a.has_failed = false;
    return !fault;
}

/* Whether an image is refused in which the device has written otherwise. */
static void refuses(uint64_t slot, uint32_t part, uint64_t offset, uint32_t width, uint64_t value)
{
    static uint8_t good[ROOM], bad[ROOM];
    size_t size = 0;

    IS(pciguest_save(&board.guests, a.guest, good, sizeof good, &size), 0);
    machine_set_cells(&a, slot, part, offset, width, value);
    IS(pciguest_save(&board.guests, a.guest, bad, sizeof bad, &size), 0);
    IS(goes_on(bad, size), false);
    IS(goes_on(good, size), true);
    IS(machine_restore(&a, good, size) != NULL, false);
}

static void images_with_a_lie(void)
{
    const uint32_t config = PCIGUEST_PART_CONFIG;

    refuses(DISK, VIRTIO_OWN, OWN_PENDING, 8, 4); /* a vector that isn't in the table */
    refuses(DISK, VIRTIO_OWN, OWN_PENDING, 8, 1ull << 63);
    refuses(DISK, VIRTIO_OWN, OWN_QUEUES + 2, 2, 7); /* the vector of a queue */
    refuses(DISK, config, 0x9c, 4, 7);               /* the table in no region */
    refuses(DISK, config, 0x9c, 4, 0xfff1);          /* or past one */
    refuses(DISK, config, 0x99, 1, 0x98);            /* a list that never ends */
    refuses(DISK, config, 0x34, 1, 0xfc);
    refuses(DISK, config, 0x06, 1, 0);
    refuses(PORT, config, FIRST, 1, 0x90); /* the first byte of a queue of 128 */
    refuses(PORT, config, COUNT, 1, 0x81);
}

static void images_at_random(unsigned times)
{
    static uint8_t good[ROOM], bad[ROOM];
    size_t size = 0;
    unsigned loaded = 0;

    IS(pciguest_save(&board.guests, a.guest, good, sizeof good, &size), 0);
    srandom(1);
    for (unsigned i = 0; i < times; i++) {
        memcpy(bad, good, size);
        for (long changes = random() % 4; changes >= 0; changes--)
            bad[random() % (long)size] ^= (uint8_t)(1 << random() % 8);
        loaded += goes_on(bad, size);
    }
    IS(goes_on(good, size), true);
    printf("%u images, %u of them loaded\n", times, loaded);
}

/* ---- a driver that takes too much */

/* A queue has room for so many chains; a driver that claims more is asked to reset the device. */
static void too_many_chains(void)
{
    set_up_disk();
    offer(1, 512, 60000);
    notify();
    IS(used(), 0);
    IS(read_common(VIRTIO_PCI_COMMON_STATUS, 1) & VIRTIO_CONFIG_S_NEEDS_RESET, VIRTIO_CONFIG_S_NEEDS_RESET);
    set_up_disk();
    offer(1, 512, 3);
    notify();
    IS(used(), 3);
    IS(a.memory[REQUEST + 64], VIRTIO_BLK_S_OK);
}

static volatile bool is_done;
static volatile uint64_t longest;
static int statistics[2]; /* files of Linux about two threads */

static void open_statistics(int number)
{
    char name[64];

    snprintf(name, sizeof name, "/proc/self/task/%ld/schedstat", syscall(SYS_gettid));
    statistics[number] = open(name, O_RDONLY | O_CLOEXEC);
}

/* How long the two threads waited for a processor so far, in nanoseconds: on a computer with other work that is long. */
static uint64_t delayed(void)
{
    uint64_t all = 0;

    for (int i = 0; i < 2; i++) {
        char line[64] = "";
        unsigned long long delay = 0;

        if (pread(statistics[i], line, sizeof line - 1, 0) > 0)
            (void)sscanf(line, "%*u %llu", &delay);
        all += delay;
    }
    return all;
}

/* Machine b reads the identity of its bell until it is told to end. */
static void *read_often(void *argument)
{
    open_statistics(1);
    while (!is_done) {
        uint64_t began = now() - delayed(), passed;

        access_of(&b, PCIGUEST_IO, 0xcfc, 4, false, 0);
        passed = now() - delayed() - began;
        if ((int64_t)passed > (int64_t)longest)
            longest = passed;
        usleep(200);
    }
    close(statistics[1]);
    return argument;
}

/* How long b waited at most while a's disk read 125 MB. */
static uint64_t waited(void)
{
    pthread_t thread;

    set_up_disk();
    offer(PARTS, PART, 1);
    open_statistics(0);
    longest = 0;
    is_done = false;
    pthread_create(&thread, NULL, read_often, NULL);
    while (longest == 0)
        sched_yield();
    notify();
    is_done = true;
    pthread_join(thread, NULL);
    close(statistics[0]);
    IS(used(), 1);
    IS(a.memory[REQUEST + 64], VIRTIO_BLK_S_OK);
    return longest;
}

/* Other work of the computer still costs some time, so the best of some attempts counts. */
static void other_machine_goes_on(void)
{
    enum { ATTEMPTS = 50, MOST = 10000000 };
    uint64_t least = UINT64_MAX;

    for (unsigned i = 0; i < ATTEMPTS && least > MOST; i++) {
        uint64_t time = waited();

        least = time < least ? time : least;
    }
    IS(least <= MOST, true);
    printf("b waited %s 10 ms while a read 125 MB\n", least <= MOST ? "less than" : "more than");
}

static void *notify_once(void *argument)
{
    notify();
    return argument;
}

/* While the disk reads for a, something forbids that: a stops it by Bus Master, or the host moves the disk to b. Nothing comes
 * to a's memory afterwards, and the request isn't returned. */
static void forbidden_meanwhile(bool by_move)
{
    static const uint8_t zeros[PART];
    bool is_busy = false;
    pthread_t thread;

    set_up_disk();
    offer(PARTS, PART, 1);
    pthread_create(&thread, NULL, notify_once, NULL);
    while (!is_busy && !used()) {
        board_take(&board);
        is_busy = a.virtio[DISK].is_busy;
        board_release(&board);
    }
    if (by_move) {
        board_take(&board);
        IS(machine_move(&a, DISK, &b, AWAY), 0);
    } else {
        write_config(&a, DISK, 4, 2, MASTERS & ~4);
        board_take(&board);
    }
    memset(a.memory + BUFFER, 0, PART);
    board_release(&board);
    pthread_join(thread, NULL);
    IS(is_busy, true);
    IS(used(), 0);
    IS(memcmp(a.memory + BUFFER, zeros, PART), 0);
}

static void forbidden(void)
{
    forbidden_meanwhile(false);
    write_config(&a, DISK, 4, 2, MASTERS);
    notify(); /* it starts over */
    IS(used(), 1);
    IS(a.memory[REQUEST + 64], VIRTIO_BLK_S_OK);
    forbidden_meanwhile(true);
    board_take(&board);
    IS(machine_move(&b, AWAY, &a, DISK), 0);
    board_release(&board);
}

/* ---- accesses that reach the ports of configuration space with some of their bytes */

static void unaligned_ports(void)
{
    place(&a, BELL_SLOT, 1);
    access_of(&a, PCIGUEST_IO, 0xcf8, 4, true, 0x80000810); /* BAR 0 of slot 1 */
    access_of(&a, PCIGUEST_IO, 0xcfb, 4, true, 0x12100000u); /* its low three bytes become 001210h */
    IS(access_of(&a, PCIGUEST_MEMORY, 0x20121000, 4, false, 0), 0);
    IS(access_of(&a, PCIGUEST_IO, 0xcfb, 4, false, 0), 0x121000ff);
    IS(access_of(&a, PCIGUEST_MEMORY, region(BELL_SLOT, 0), 4, false, 0), UINT64_MAX);
    access_of(&a, PCIGUEST_IO, 0xcf8, 4, true, 0x80000804); /* Command of slot 1 */
    access_of(&a, PCIGUEST_IO, 0xcfa, 4, true, 0);
    IS(access_of(&a, PCIGUEST_MEMORY, 0x20121000, 4, false, 0), UINT64_MAX);
}

/* A machine with no KVM. */
static void begin(struct machine *machine)
{
    machine->memory = calloc(1, MEMORY);
    machine->console = (struct uart){.machine = machine, .is_console = true};
    machine_find_guest(machine);
}

/* A file that has bytes in each of its pieces. */
static void make_disk(char *name)
{
    int file_number = needed(mkstemp(name), name);

    needed(ftruncate(file_number, FILE_SIZE), name);
    for (off_t at = 0; at < FILE_SIZE; at += 64 << 10)
        needed((int)pwrite(file_number, "x", 1, at), name);
    close(file_number);
}

int main(int argc, char **argv)
{
    char name[] = "/tmp/hostile.XXXXXX";
    FILE *file = argc == 3 ? fopen(argv[1], "rb") : NULL;

    needed(file ? 0 : -1, "hostile board.toml COUNT");
    length = fread(text, 1, sizeof text, file);
    fclose(file);
    needed(pciguest_new(&board.guests, text, length) ? -1 : 0, argv[1]);
    make_disk(name);
    disk_open(&board.disks[0], "4.0", name);
    unlink(name);
    begin(&a);
    begin(&b);
    write_config(&a, PORT, 0x10, 4, 0x1000);
    write_config(&a, PORT, 4, 2, 1);
    set_up_disk();
    images_with_a_lie();
    images_at_random((unsigned)atoi(argv[2]));
    too_many_chains();
    other_machine_goes_on();
    forbidden();
    unaligned_ports();
    IS(a.has_failed || b.has_failed, false);
    return wrong != 0;
}
