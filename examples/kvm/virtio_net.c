/* A virtio network card (virtio 1.2, chapter 5.1) at one end of a cable. A frame goes from the
 * memory of the machine that sends it into a buffer that the driver at the other end has made
 * available. If there is no such buffer, the frame is lost, as on a real network. */
#include "virtio.h"
#include "machine.h"

#include <linux/virtio_net.h>

enum { RECEIVE, TRANSMIT, QUEUES, VECTORS = QUEUES + 1, LARGEST_FRAME = 1518 };

/* A frame as the queues have it, after a header of 12 bytes. This device offers nothing that the
 * header is for, so all of it is 0 except for the number of buffers, which is 1. */
struct frame {
    struct virtio_net_hdr_v1 header;
    uint8_t bytes[LARGEST_FRAME];
};

/* The card's address is in the device configuration: 02:00:00:00:00:01 at the first end of the
 * cable, and 02:00:00:00:00:02 at the other. */
static void configure(struct virtio *device)
{
    const struct cable *cable = device->behind;
    uint64_t end = device == cable->ends[1];

    machine_set_cells(device->machine, device->slot, VIRTIO_OWN, OWN_CONFIG, 6, 0x02 | (end + 1) << 40);
}

/* Whether no card is at an end of the cable. */
static bool is_free(const struct virtio *end)
{
    return !end || end->kind != &virtio_net;
}

static void receive(struct virtio *device, struct frame *frame, size_t length)
{
    struct virtio_chain chain;
    size_t written;

    if (!virtio_take(device, RECEIVE, &chain))
        return;
    frame->header = (struct virtio_net_hdr_v1){.num_buffers = 1};
    written = virtio_copy(chain.parts + chain.out, chain.in, 0, frame, length, true);
    virtio_return(device, RECEIVE, &chain, (uint32_t)written);
    virtio_interrupt(device, RECEIVE);
}

static void send(const struct virtio *device, const struct virtio_chain *chain)
{
    const struct cable *cable = device->behind;
    struct virtio *other = cable->ends[device == cable->ends[0]];
    size_t length = virtio_length(chain->parts, chain->out);
    struct frame frame;

    if (is_free(other) || length <= sizeof frame.header || length > sizeof frame)
        return;
    virtio_copy(chain->parts, chain->out, 0, &frame, length, false);
    receive(other, &frame, length);
}

/* Sends the frames of the transmit queue, as many as it can hold. Buffers of the receive queue stay there for frames that
 * come later. */
static void notified(struct virtio *device, unsigned queue)
{
    struct virtio_chain chain;
    unsigned left = VIRTIO_QUEUE_SIZE;
    bool has_returned = false;

    while (queue == TRANSMIT && left-- > 0 && device->kind == &virtio_net && virtio_take(device, queue, &chain)) {
        send(device, &chain);
        virtio_return(device, queue, &chain, 0);
        has_returned = true;
        board_pause(device->machine->board);
    }
    if (has_returned && device->kind == &virtio_net)
        virtio_interrupt(device, queue);
}

const struct virtio_kind virtio_net = {QUEUES, VECTORS, configure, notified};
const uint64_t card_features = 1 << VIRTIO_NET_F_MAC;

void cable_plug(struct cable *cable, struct virtio *device)
{
    struct virtio **ends = cable->ends;
    unsigned end = ends[0] != device && (ends[1] == device || !is_free(ends[0]));

    needed(ends[end] == device || is_free(ends[end]) ? 0 : -1, "a third network card");
    ends[end] = device;
    device->behind = cable;
}
