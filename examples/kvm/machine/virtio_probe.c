/* Another program that runs in place of Linux: a driver of a virtio disk and a virtio network card.
 * For each letter that is typed, it makes requests and prints how they ended:
 *
 *     A to Z   writes the letter to the disk's first sector, and flushes: how both ended
 *     r        reads the sector: how that ended, the letter, and whether an interrupt came
 *     m        reads while the vector is masked, and while the function is: for each, whether an
 *              interrupt came, and whether one came once the mask was cleared
 *     d        reads while Bus Master is clear: whether that was done; and the same as for r, after
 *              the bit was set
 *     0 to 9   sends a frame of this digit: whether it was sent, and whether an interrupt came
 *     g        the frames that were received since, two digits of each
 *     s        reads 32 MB from the disk, in requests of 256 KB: how many were done
 *
 * A request ended well if it ended with 01: its status is 0, and it was returned. The processor
 * takes no interrupts. Whether one came is seen in a register of its local interrupt controller,
 * where it stays, so each request uses a vector that no other has used. */
#include "probe.h"

#include <linux/virtio_blk.h>
#include <linux/virtio_config.h>
#include <linux/virtio_pci.h>
#include <linux/virtio_ring.h>
#include <stdbool.h>

enum { COMMON, VECTORS, NOTIFY, SLOTS = 8, REGIONS = 0x20000000, MSIX = 0x98, COMMAND = 0x04,
       MEMORY = 2, MASTER = 4 };
enum { CONTROLLER = 0xfee00000, REQUESTS = 0x200, SPURIOUS = 0xf0 };
enum { DISK = 0x10421af4, CARD = 0x10411af4, RECEIVE = 0, TRANSMIT = 1, SIZE = 8, HEADER = 12,
       FRAME = HEADER + 64, SECTOR = 512, PIECE = 256 << 10, PIECES = 128, BUFFER = 0x400000 };
static const uint32_t enabled = 0x8000u << 16, all_masked = 0x4000u << 16;

struct queue {
    struct vring_desc descriptors[SIZE];
    struct {
        uint16_t flags, index, ring[SIZE];
    } available;
    struct {
        uint16_t flags, index;
        struct vring_used_elem ring[SIZE];
    } used;
    uint16_t seen; /* of the chains that were returned */
    uint32_t slot, index;
};

static volatile struct queue disk, card[2];
static volatile struct virtio_blk_outhdr header;
static volatile uint8_t status, frames[SIZE][FRAME];
static volatile uint8_t *const data = (volatile uint8_t *)BUFFER;
static uint32_t vector = 0x30;

static uintptr_t region(uint32_t slot, uint32_t bar, uint32_t offset)
{
    return REGIONS + (slot << 16) + (bar << 12) + offset;
}

static void set16(uintptr_t at, uint16_t value)
{
    *(volatile uint16_t *)at = value;
}

static void set32(uintptr_t at, uint32_t value)
{
    *(volatile uint32_t *)at = value;
}

static void set_status(uint32_t slot, uint8_t value)
{
    *(volatile uint8_t *)region(slot, COMMON, VIRTIO_PCI_COMMON_STATUS) = value;
}

/* The local interrupt controller is above what the first tables map. Another one maps it. */
static void open_controller(void)
{
    enum { SECOND = 0x31000, THIRD = 0x33000, LARGE = 0x80, WRITABLE = 3, LARGE_BITS = 21 };

    ((volatile uint64_t *)THIRD)[CONTROLLER >> LARGE_BITS & 511] =
        (CONTROLLER >> LARGE_BITS << LARGE_BITS) + LARGE + WRITABLE;
    ((volatile uint64_t *)SECOND)[3] = THIRD + WRITABLE;
    set32(CONTROLLER + SPURIOUS, 0x1ff);
}

/* Sets the vector of a queue to one that wasn't used yet. */
static void choose_vector(const volatile struct queue *queue)
{
    uintptr_t entry = region(queue->slot, VECTORS, 16 * queue->index);

    set32(entry, CONTROLLER);
    set32(entry + 4, 0);
    set32(entry + 8, ++vector);
    set32(entry + 12, 0);
}

static bool came(void)
{
    uintptr_t at = CONTROLLER + REQUESTS + vector / 32 * 16;

    return *(volatile uint32_t *)at >> vector % 32 & 1;
}

static void set_up_queue(volatile struct queue *queue, uint32_t slot, uint32_t index)
{
    const uintptr_t places[] = {(uintptr_t)queue->descriptors, (uintptr_t)&queue->available,
                                (uintptr_t)&queue->used};

    queue->slot = slot;
    queue->index = index;
    set16(region(slot, COMMON, VIRTIO_PCI_COMMON_Q_SELECT), (uint16_t)index);
    set16(region(slot, COMMON, VIRTIO_PCI_COMMON_Q_SIZE), SIZE);
    set16(region(slot, COMMON, VIRTIO_PCI_COMMON_Q_MSIX), (uint16_t)index);
    for (uint32_t i = 0; i < 3; i++) {
        set32(region(slot, COMMON, VIRTIO_PCI_COMMON_Q_DESCLO + 8 * i), (uint32_t)places[i]);
        set32(region(slot, COMMON, VIRTIO_PCI_COMMON_Q_DESCHI + 8 * i), 0);
    }
    set16(region(slot, COMMON, VIRTIO_PCI_COMMON_Q_ENABLE), 1);
    choose_vector(queue);
}

/* Places a function's regions, opens it, and sets up the device behind it. */
static void set_up(uint32_t slot, volatile struct queue *queues, uint32_t count)
{
    enum { BEGUN = VIRTIO_CONFIG_S_ACKNOWLEDGE | VIRTIO_CONFIG_S_DRIVER,
           AGREED = BEGUN | VIRTIO_CONFIG_S_FEATURES_OK };

    for (uint32_t bar = 0; bar < 4; bar++)
        configure(slot, 0x10 + 4 * bar, (uint32_t)region(slot, bar, 0));
    configure(slot, COMMAND, MEMORY | MASTER);
    configure(slot, MSIX, enabled);
    set_status(slot, 0);
    set_status(slot, BEGUN);
    set32(region(slot, COMMON, VIRTIO_PCI_COMMON_GFSELECT), VIRTIO_F_VERSION_1 / 32);
    set32(region(slot, COMMON, VIRTIO_PCI_COMMON_GF), 1u << VIRTIO_F_VERSION_1 % 32);
    set_status(slot, AGREED);
    for (uint32_t i = 0; i < count; i++)
        set_up_queue(&queues[i], slot, i);
    set_status(slot, AGREED | VIRTIO_CONFIG_S_DRIVER_OK);
}

static void describe(volatile struct queue *queue, uint16_t at, uintptr_t address, uint32_t length,
                     uint16_t flags, uint16_t next)
{
    queue->descriptors[at].addr = address;
    queue->descriptors[at].len = length;
    queue->descriptors[at].flags = flags;
    queue->descriptors[at].next = next;
}

/* Makes the chain that begins at a descriptor available, and notifies the device. */
static void offer(volatile struct queue *queue, uint16_t head)
{
    queue->available.ring[queue->available.index % SIZE] = head;
    queue->available.index++;
    set16(region(queue->slot, NOTIFY, 4 * queue->index), (uint16_t)queue->index);
}

/* Whether the device has returned a chain that wasn't seen yet. It does so before the notification
 * ends. */
static bool is_returned(volatile struct queue *queue)
{
    bool is_new = queue->used.index != queue->seen;

    queue->seen = (uint16_t)(queue->seen + is_new);
    return is_new;
}

/* Prints the status of a request and whether it was returned. */
static void print_end(void)
{
    print_number(status * 16u + is_returned(&disk), 2);
}

static void request(uint32_t type, uint64_t sector, uint32_t length)
{
    header.type = type;
    header.sector = sector;
    status = 0xf;
    describe(&disk, 0, (uintptr_t)&header, sizeof header, VRING_DESC_F_NEXT, length ? 1 : 2);
    describe(&disk, 1, (uintptr_t)data, length,
             VRING_DESC_F_NEXT | (type == VIRTIO_BLK_T_IN ? VRING_DESC_F_WRITE : 0), 2);
    describe(&disk, 2, (uintptr_t)&status, 1, VRING_DESC_F_WRITE, 0);
    offer(&disk, 0);
}

static void read_sector(void)
{
    choose_vector(&disk);
    data[0] = data[SECTOR - 1] = '-';
    request(VIRTIO_BLK_T_IN, 0, SECTOR);
}

static void write_sector(uint8_t letter)
{
    for (uint32_t i = 0; i < SECTOR; i++)
        data[i] = letter;
    request(VIRTIO_BLK_T_OUT, 0, SECTOR);
    print_end();
    request(VIRTIO_BLK_T_FLUSH, 0, 0);
    print_end();
}

static void print_sector(void)
{
    print_end();
    out(CONSOLE, data[0]);
    out(CONSOLE, data[SECTOR - 1]);
    print(" ");
    print_number(came(), 1);
}

static void read_masked(void)
{
    uintptr_t control = region(disk.slot, VECTORS, 12);

    choose_vector(&disk);
    set32(control, 1);
    request(VIRTIO_BLK_T_IN, 0, SECTOR);
    print_number(came(), 1);
    set32(control, 0);
    print_number(came(), 1);
    choose_vector(&disk);
    configure(disk.slot, MSIX, enabled | all_masked);
    request(VIRTIO_BLK_T_IN, 0, SECTOR);
    print_number(came(), 1);
    configure(disk.slot, MSIX, enabled);
    print_number(came(), 1);
    while (is_returned(&disk))
        ;
}

static void read_without_master(void)
{
    configure(disk.slot, COMMAND, MEMORY);
    read_sector();
    print_number(is_returned(&disk), 1);
    configure(disk.slot, COMMAND, MEMORY | MASTER);
    set16(region(disk.slot, NOTIFY, 0), 0);
    print_sector();
}

static void send_frame(uint8_t digit)
{
    choose_vector(&card[TRANSMIT]);
    for (uint32_t i = 0; i < FRAME; i++)
        data[i] = i < HEADER ? 0 : digit;
    describe(&card[TRANSMIT], 0, (uintptr_t)data, FRAME, 0, 0);
    offer(&card[TRANSMIT], 0);
    print_number(is_returned(&card[TRANSMIT]), 1);
    print_number(came(), 1);
}

/* Makes room for a frame. */
static void await_frame(uint16_t i)
{
    describe(&card[RECEIVE], i, (uintptr_t)frames[i], FRAME, VRING_DESC_F_WRITE, 0);
    offer(&card[RECEIVE], i);
}

static void print_frames(void)
{
    if (!is_returned(&card[RECEIVE]))
        print("-");
    else
        do {
            uint32_t i = card[RECEIVE].used.ring[(card[RECEIVE].seen - 1) % SIZE].id;

            out(CONSOLE, frames[i][HEADER]);
            out(CONSOLE, frames[i][FRAME - 1]);
            await_frame((uint16_t)i);
        } while (is_returned(&card[RECEIVE]));
    print(" ");
}

static void read_much(void)
{
    uint32_t done = 0;

    for (uint32_t i = 0; i < PIECES; i++) {
        request(VIRTIO_BLK_T_IN, i * (PIECE / SECTOR), PIECE);
        done += is_returned(&disk) && status == 0;
    }
    print_number(done, 4);
}

static void answer(uint8_t letter)
{
    out(CONSOLE, letter);
    print(" ");
    if (letter >= 'A' && letter <= 'Z')
        write_sector(letter);
    else if (letter >= '0' && letter <= '9')
        send_frame(letter);
    else if (letter == 'g')
        print_frames();
    else if (letter == 'm')
        read_masked();
    else if (letter == 'd')
        read_without_master();
    else if (letter == 's')
        read_much();
    else if (letter == 'r') {
        read_sector();
        print_sector();
    }
    print("\n");
}

void run(void)
{
    open_controller();
    for (uint32_t slot = 0; slot < SLOTS; slot++) {
        uint32_t identity = configuration(slot, 0);

        if (identity == DISK)
            set_up(slot, &disk, 1);
        else if (identity == CARD)
            set_up(slot, card, 2);
    }
    for (uint16_t i = 0; i < SIZE; i++)
        await_frame(i);
    print("up\n");
    for (;;) {
        uint8_t letter = typed();

        if (letter > ' ')
            answer(letter);
    }
}
