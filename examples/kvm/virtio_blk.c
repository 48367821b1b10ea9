/* A disk, which is a file: reads, writes, flushes, and tells its serial number. A request is done
 * when the driver's notification ends, so no request is under way when a machine is saved. */
#include "machine.h"
#include "virtio.h"

#include <fcntl.h>
#include <linux/virtio_blk.h>
#include <stdio.h>
#include <stdlib.h>
#include <sys/stat.h>
#include <unistd.h>

enum { SECTOR = 512, ID_BYTES = 20, PIECE = 128 << 10, FORBIDDEN = 0xff /* of a status */ };

/* A request, and the permit under which it began. */
struct request {
    struct virtio *device;
    uint64_t permit;
    struct virtio_chain chain;
    struct virtio_blk_outhdr header;
};

void disk_open(struct disk *disk, const char *path, const char *file)
{
    struct stat status;

    needed(stat(file, &status), file);
    disk->piece = malloc(PIECE);
    needed(disk->piece ? 0 : -1, file);
    disk->path = path;
    disk->name = file;
    disk->is_read_only = !(status.st_mode & (S_IWUSR | S_IWGRP | S_IWOTH));
    disk->file = needed(open(file, (disk->is_read_only ? O_RDONLY : O_RDWR) | O_CLOEXEC), file);
}

uint64_t disk_features(const struct disk *disk)
{
    return 1 << VIRTIO_BLK_F_SEG_MAX | 1 << VIRTIO_BLK_F_FLUSH |
           (uint64_t)disk->is_read_only << VIRTIO_BLK_F_RO;
}

static uint64_t size_of(const struct disk *disk)
{
    struct stat status;

    needed(fstat(disk->file, &status), "a disk");
    return (uint64_t)status.st_size / SECTOR * SECTOR;
}

/* The device configuration: the capacity, and how many parts of a chain may be data. */
static void configure(struct virtio *device)
{
    machine_set_cells(device->machine, device->slot, VIRTIO_OWN,
                      OWN_CONFIG + offsetof(struct virtio_blk_config, capacity), 8,
                      size_of(device->behind) / SECTOR);
    machine_set_cells(device->machine, device->slot, VIRTIO_OWN,
                      OWN_CONFIG + offsetof(struct virtio_blk_config, seg_max), 4,
                      VIRTIO_QUEUE_SIZE - 2);
}

/* Reads or writes bytes of the file, or flushes it if there are none, without the board's lock: the other machines go on
 * meanwhile. Returns whether that was done, and the device may still access the machine's memory. */
static uint8_t move_bytes(struct request *request, uint8_t *bytes, size_t length, uint64_t at)
{
    struct virtio *device = request->device;
    const struct disk *disk = device->behind;
    uint64_t began = now(), turns;
    ssize_t moved;

    device->is_busy = true;
    turns = board_lend(device->machine->board);
    moved = length == 0                             ? fdatasync(disk->file)
            : request->header.type == VIRTIO_BLK_T_OUT ? pwrite(disk->file, bytes, length, (off_t)at)
                                                    : pread(disk->file, bytes, length, (off_t)at);
    board_take_back(device->machine->board, turns);
    device->is_busy = false;
    device->machine->away += now() - began;
    if (device->is_leaving || virtio_permit(device) != request->permit)
        return FORBIDDEN;
    return moved == (ssize_t)length ? VIRTIO_BLK_S_OK : VIRTIO_BLK_S_IOERR;
}

/* Reads sectors from the file into the machine's memory, or writes them from there, a piece at a time. The memory is accessed
 * under the lock, while the device may do so. */
static uint8_t transfer(struct request *request, const struct iovec *data, unsigned count)
{
    uint8_t *piece = ((const struct disk *)request->device->behind)->piece;
    bool is_write = request->header.type == VIRTIO_BLK_T_OUT;
    size_t length = virtio_length(data, count), size;
    uint64_t end = size_of(request->device->behind), at = request->header.sector * SECTOR;
    uint8_t status = VIRTIO_BLK_S_OK;

    if (length % SECTOR != 0 || length > MEMORY || request->header.sector > end / SECTOR || length > end - at)
        status = VIRTIO_BLK_S_IOERR;
    for (size_t done = 0; done < length && status == VIRTIO_BLK_S_OK; done += size) {
        size = length - done < PIECE ? length - done : PIECE;
        if (is_write)
            virtio_copy(data, count, done, piece, size, false);
        status = move_bytes(request, piece, size, at + done);
        if (!is_write && status == VIRTIO_BLK_S_OK)
            virtio_copy(data, count, done, piece, size, true);
    }
    return status;
}

/* Does what a request asks for; `in` is its parts to write to, without the status. */
static uint8_t perform(struct request *request, const struct iovec *in, unsigned in_count)
{
    const struct virtio_chain *chain = &request->chain;
    const struct disk *disk = request->device->behind;
    struct iovec out[VIRTIO_QUEUE_SIZE];
    unsigned out_count =
        virtio_cut(chain->parts, chain->out, sizeof request->header, SIZE_MAX, out);
    char id[ID_BYTES] = "";

    switch (request->header.type) {
    case VIRTIO_BLK_T_IN:
        return transfer(request, in, in_count);
    case VIRTIO_BLK_T_OUT:
        return transfer(request, out, out_count);
    case VIRTIO_BLK_T_FLUSH:
        return move_bytes(request, NULL, 0, 0);
    case VIRTIO_BLK_T_GET_ID:
        snprintf(id, sizeof id, "%s", disk->name);
        virtio_copy(in, in_count, 0, id, sizeof id, true);
        return VIRTIO_BLK_S_OK;
    default:
        return VIRTIO_BLK_S_UNSUPP;
    }
}

/* A request has a header, then what is to be written or room for what is read, and room for a byte
 * that says how it ended. Returns false if the device may not access the machine's memory any more,
 * and else stores how many bytes were written to the request. */
static bool serve(struct request *request, uint32_t *written)
{
    const struct virtio_chain *chain = &request->chain;
    const struct iovec *parts = chain->parts + chain->out;
    size_t room = virtio_length(parts, chain->in);
    struct iovec in[VIRTIO_QUEUE_SIZE];
    uint8_t status;

    *written = 0;
    if (room == 0 || virtio_copy(chain->parts, chain->out, 0, &request->header, sizeof request->header,
                                 false) < sizeof request->header)
        return true;
    status = perform(request, in, virtio_cut(parts, chain->in, 0, room - 1, in));
    if (status == FORBIDDEN)
        return false;
    virtio_copy(parts, chain->in, room - 1, &status, 1, true);
    *written = (uint32_t)room;
    return true;
}

/* Serves as many requests as a queue can hold. One that was forbidden meanwhile is still in the queue, and starts over if the
 * device may access memory again. */
static void notified(struct virtio *device, unsigned queue)
{
    struct request request = {.device = device};
    unsigned left = VIRTIO_QUEUE_SIZE;
    bool has_returned = false;
    uint32_t written;

    while (left-- > 0 && device->kind == &virtio_blk && !device->is_leaving &&
           virtio_take(device, queue, &request.chain)) {
        request.permit = virtio_permit(device);
        if (serve(&request, &written)) {
            virtio_return(device, queue, &request.chain, written);
            has_returned = true;
        }
        board_pause(device->machine->board);
    }
    if (has_returned && device->kind == &virtio_blk)
        virtio_interrupt(device, queue);
}

const struct virtio_kind virtio_blk = {1, 2, configure, notified};
