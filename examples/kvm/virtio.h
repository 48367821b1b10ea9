/* A virtio 1.x device over PCI (virtio 1.2, chapters 2 and 4.1): a function of the board whose
 * registers are cells. A kind of device (virtio_blk.c) adds its features, its configuration and
 * what it does with its queues. Everything that a device remembers is in its cells, so the guest's
 * image contains the whole device. All of this is called under the board's lock. */
#ifndef VIRTIO_H
#define VIRTIO_H

#include <stdbool.h>
#include <stddef.h>
#include <stdint.h>
#include <sys/uio.h>

struct machine;
struct virtio;

/* The regions of a function, by base address register. A driver finds them by the capability list,
 * which the board file declares. It can't write to the last one, which has the device
 * configuration, the ISR status and the pending bits, and then what only the device uses. */
enum virtio_region { VIRTIO_COMMON, VIRTIO_VECTORS, VIRTIO_NOTIFY, VIRTIO_OWN };
enum { OWN_CONFIG = 0, OWN_ISR = 0x80, OWN_PENDING = 0x88, OWN_FEATURES = 0x90,
       OWN_QUEUES = 0x100 };

/* The largest size of a queue, and the bytes of the notify region for each queue. */
enum { VIRTIO_QUEUE_SIZE = 256, VIRTIO_MULTIPLIER = 4 };

/* What distinguishes a kind of device. */
struct virtio_kind {
    uint16_t queues;  /* at most 8 */
    uint16_t vectors; /* of its MSI-X table, at most 8 */

    /* Writes the device configuration, at OWN_CONFIG, after a reset. */
    void (*configure)(struct virtio *device);

    /* Serves the chains that the driver put into a queue. It lends the board's lock after each, and doesn't have it while it
     * reads or writes a file. */
    void (*notified)(struct virtio *device, unsigned queue);
};

/* A device behind a function of a machine. */
struct virtio {
    const struct virtio_kind *kind;
    uint64_t features;       /* that it offers beside VIRTIO_F_VERSION_1 */
    struct machine *machine; /* whose guest has the function, and whose memory it accesses */
    uint64_t slot;
    void *behind; /* what its kind needs: a disk's file, a card's cable */
    uint64_t resets;
    bool is_busy;    /* it transfers without the lock: its function can't be moved meanwhile */
    bool is_leaving; /* its function is about to be moved: it begins no transfer */
};

/* The buffers of one request, in the machine's memory: the device reads the first `out`, and writes
 * the `in` after them. */
struct virtio_chain {
    uint16_t head;
    unsigned out, in;
    struct iovec parts[VIRTIO_QUEUE_SIZE];
};

/* Resets a device, as its driver does by writing 0 to the device status. A reset of the function is
 * to be followed by this. */
void virtio_reset(struct virtio *device);

/* Acts after the driver's access to the region of a base address register. */
void virtio_touched(struct virtio *device, uint32_t region, uint64_t offset, uint32_t width, bool is_write);

/* Returns whether the registers that only the device writes hold what it can have written. An image
 * may hold anything else. */
bool virtio_is_sound(struct virtio *device);

/* Drives the interrupt pin, and sends the messages that were pending and may be sent now: after a
 * write to configuration space or to the MSI-X table, and after a load. */
void virtio_settle(struct virtio *device);

/* Finds the next chain of a queue, which stays the next one until it is returned. Returns false if
 * there is none, if the driver hasn't set up the queue, or if the device may not access memory,
 * because Bus Master is clear. A chain that isn't valid is empty. A queue with more chains than it
 * has room for isn't valid either: the device then asks its driver for a reset. */
bool virtio_take(struct virtio *device, unsigned queue, struct virtio_chain *chain);

/* What allowed the device to access memory: a number that grows with each change that may forbid
 * it. Whoever lets go of the lock compares it afterwards. */
uint64_t virtio_permit(struct virtio *device);

/* Returns the chain that was found to the driver, with the number of bytes that were written to it. */
void virtio_return(struct virtio *device, unsigned queue, const struct virtio_chain *chain, uint32_t written);

/* Interrupts the driver because chains were returned, unless it asked for no interrupts. */
void virtio_interrupt(struct virtio *device, unsigned queue);

/* How many bytes parts have; the pieces of `length` of these bytes, from byte `from` on (returns
 * the number of pieces); and a copy of up to `length` bytes out of the parts, or into them
 * (returns the number of bytes). */
size_t virtio_length(const struct iovec *parts, unsigned count);
unsigned virtio_cut(const struct iovec *parts, unsigned count, size_t from, size_t length, struct iovec *pieces);
size_t virtio_copy(const struct iovec *parts, unsigned count, size_t from, void *bytes,
                   size_t length, bool is_into_parts);

/* virtio_blk.c: a disk, which is a file. If nobody may write to the file, the disk is read-only. */
struct disk {
    const char *path; /* of the disk's function on the board */
    const char *name; /* of the file */
    int file;
    bool is_read_only;
    uint8_t *piece; /* room for what is transferred at once */
};
extern const struct virtio_kind virtio_blk;
void disk_open(struct disk *disk, const char *path, const char *file);
uint64_t disk_features(const struct disk *disk);

/* virtio_net.c: a cable, and the network cards at its two ends. An end is free if it has no card,
 * or if the card's function was moved away. */
struct cable {
    struct virtio *ends[2];
};
extern const struct virtio_kind virtio_net;
extern const uint64_t card_features;
void cable_plug(struct cable *cable, struct virtio *device);

#endif
