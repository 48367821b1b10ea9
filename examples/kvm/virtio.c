/* The registers, queues and interrupts that all virtio devices over PCI share. */
#include "virtio.h"
#include "machine.h"

#include <linux/virtio_config.h>
#include <linux/virtio_pci.h>
#include <linux/virtio_ring.h>
#include <string.h>

/* A queue. Its first words are cells: the registers of the common configuration from Q_SIZE on, as
 * the driver left them, and then how many chains the device has served. */
struct queue {
    union {
        struct {
            uint16_t size, vector, is_enabled, notify_offset;
            uint64_t descriptors_at, available_at, used_at;
            uint16_t served, zeros[3];
        };
        uint64_t words[5];
    };
    struct vring_desc *descriptors;
    struct vring_avail *available;
    struct vring_used *used;
};

enum { REGISTER_WORDS = 4, COUNT_WORD = 4, QUEUE_BYTES = 64, QUEUE_INTERRUPT = 1 /* of ISR */ };

static uint64_t get(struct virtio *device, uint32_t region, uint64_t offset, uint32_t width)
{
    return machine_cells(device->machine, device->slot, region, offset, width);
}

static void set(struct virtio *device, uint32_t region, uint64_t offset, uint32_t width, uint64_t value)
{
    machine_set_cells(device->machine, device->slot, region, offset, width, value);
}

static uint64_t cells_of(unsigned queue)
{
    return OWN_QUEUES + QUEUE_BYTES * queue;
}

static struct pciguest_message message_of(struct virtio *device, uint32_t vector)
{
    struct machine *machine = device->machine;
    struct pciguest_message message = {0};

    expect(machine, pciguest_msix_message(&machine->board->guests, machine->guest, device->slot, vector, &message),
           "a vector");
    return message;
}

/* Sends a message to the processor, through KVM. A message that can't be sent yet stays pending. */
static void send(struct virtio *device, uint32_t vector, const struct pciguest_message *message)
{
    uint64_t pending = get(device, VIRTIO_OWN, OWN_PENDING, 8), bit = 1ull << vector;
    uint64_t left = message->can_be_sent ? pending & ~bit : pending | bit;

    if (message->can_be_sent)
        machine_message(device->machine, message->address, message->data);
    if (left != pending)
        set(device, VIRTIO_OWN, OWN_PENDING, 8, left);
}

void virtio_settle(struct virtio *device)
{
    uint64_t pending = get(device, VIRTIO_OWN, OWN_PENDING, 8);
    struct pciguest_message message = message_of(device, 0);
    bool is_driven = get(device, VIRTIO_OWN, OWN_ISR, 1) & QUEUE_INTERRUPT && !message.is_enabled;

    for (uint32_t vector = 0; vector < device->kind->vectors && pending >> vector; vector++) {
        message = message_of(device, vector);
        if (pending >> vector & 1)
            send(device, vector, &message);
    }
    machine_interrupt(device->machine, device->slot, is_driven);
}

bool virtio_is_sound(struct virtio *device)
{
    bool is_sound = get(device, VIRTIO_OWN, OWN_PENDING, 8) >> device->kind->vectors == 0;

    for (unsigned queue = 0; queue < device->kind->queues; queue++) {
        struct queue kept = {.words = {get(device, VIRTIO_OWN, cells_of(queue), 8)}};

        is_sound &= kept.notify_offset == queue;
        is_sound &= kept.vector < device->kind->vectors || kept.vector == VIRTIO_MSI_NO_VECTOR;
    }
    return is_sound;
}

/* Interrupts the driver by a vector that it chose, or by the pin if it doesn't use MSI-X. */
static void interrupt(struct virtio *device, uint16_t vector)
{
    bool is_in_table = vector < device->kind->vectors;
    struct pciguest_message message = message_of(device, is_in_table ? vector : 0);

    if (message.is_enabled && is_in_table) {
        send(device, vector, &message);
    } else if (!message.is_enabled) {
        set(device, VIRTIO_OWN, OWN_ISR, 1, QUEUE_INTERRUPT);
        virtio_settle(device);
    }
}

/* Shows the registers of the queue that the driver selected. One that isn't there has size 0. */
static void show_queue(struct virtio *device)
{
    uint64_t queue = get(device, VIRTIO_COMMON, VIRTIO_PCI_COMMON_Q_SELECT, 2);

    for (unsigned word = 0; word < REGISTER_WORDS; word++)
        set(device, VIRTIO_COMMON, VIRTIO_PCI_COMMON_Q_SIZE + 8 * word, 8,
            queue < device->kind->queues
                ? get(device, VIRTIO_OWN, cells_of((unsigned)queue) + 8 * word, 8)
                : 0);
}

/* Keeps what the driver wrote to the registers of the selected queue. A vector that isn't in the
 * table reads back as none, which tells the driver so. */
static void keep_queue(struct virtio *device)
{
    uint64_t queue = get(device, VIRTIO_COMMON, VIRTIO_PCI_COMMON_Q_SELECT, 2);

    if (queue >= device->kind->queues)
        return;
    if (get(device, VIRTIO_COMMON, VIRTIO_PCI_COMMON_Q_MSIX, 2) >= device->kind->vectors)
        set(device, VIRTIO_COMMON, VIRTIO_PCI_COMMON_Q_MSIX, 2, VIRTIO_MSI_NO_VECTOR);
    for (unsigned word = 0; word < REGISTER_WORDS; word++)
        set(device, VIRTIO_OWN, cells_of((unsigned)queue) + 8 * word, 8,
            get(device, VIRTIO_COMMON, VIRTIO_PCI_COMMON_Q_SIZE + 8 * word, 8));
}

static uint64_t offered(const struct virtio *device)
{
    return device->features | 1ull << VIRTIO_F_VERSION_1;
}

/* Half 0 or 1 of 64 feature bits. The driver may select others, in which there are none. */
static uint64_t half_of(uint64_t features, uint64_t half)
{
    return half < 2 ? features >> 32 * half & UINT32_MAX : 0;
}

/* Keeps the features that the driver wrote, if it wrote some, and shows the selected halves. */
static void select_features(struct virtio *device, bool is_written)
{
    uint64_t device_half = get(device, VIRTIO_COMMON, VIRTIO_PCI_COMMON_DFSELECT, 4);
    uint64_t half = get(device, VIRTIO_COMMON, VIRTIO_PCI_COMMON_GFSELECT, 4);

    if (is_written && half < 2)
        set(device, VIRTIO_OWN, OWN_FEATURES + 4 * half, 4, get(device, VIRTIO_COMMON, VIRTIO_PCI_COMMON_GF, 4));
    set(device, VIRTIO_COMMON, VIRTIO_PCI_COMMON_DF, 4, half_of(offered(device), device_half));
    set(device, VIRTIO_COMMON, VIRTIO_PCI_COMMON_GF, 4, half_of(get(device, VIRTIO_OWN, OWN_FEATURES, 8), half));
}

void virtio_reset(struct virtio *device)
{
    const struct virtio_kind *kind = device->kind;

    device->resets++;
    for (uint64_t at = 0; at < VIRTIO_PCI_COMMON_Q_SIZE; at += 8)
        set(device, VIRTIO_COMMON, at, 8, 0);
    set(device, VIRTIO_COMMON, VIRTIO_PCI_COMMON_MSIX, 2, VIRTIO_MSI_NO_VECTOR);
    set(device, VIRTIO_COMMON, VIRTIO_PCI_COMMON_NUMQ, 2, kind->queues);
    set(device, VIRTIO_OWN, OWN_ISR, 1, 0);
    set(device, VIRTIO_OWN, OWN_PENDING, 8, 0);
    set(device, VIRTIO_OWN, OWN_FEATURES, 8, 0);
    for (uint16_t i = 0; i < kind->queues; i++) {
        struct queue queue = {.size = VIRTIO_QUEUE_SIZE, .vector = VIRTIO_MSI_NO_VECTOR};

        queue.notify_offset = i;
        for (unsigned word = 0; word <= COUNT_WORD; word++)
            set(device, VIRTIO_OWN, cells_of(i) + 8 * word, 8, queue.words[word]);
    }
    kind->configure(device);
    select_features(device, false);
    show_queue(device);
    virtio_settle(device);
}

/* Acts after the driver wrote the device status. The device accepts features if it offers all of
 * them, and if they include VIRTIO_F_VERSION_1. */
static void take_status(struct virtio *device)
{
    uint64_t status = get(device, VIRTIO_COMMON, VIRTIO_PCI_COMMON_STATUS, 1);
    uint64_t features = get(device, VIRTIO_OWN, OWN_FEATURES, 8);
    bool is_accepted = !(features & ~offered(device)) && features >> VIRTIO_F_VERSION_1 & 1;

    if (status == 0)
        virtio_reset(device);
    else if (status & VIRTIO_CONFIG_S_FEATURES_OK && !is_accepted)
        set(device, VIRTIO_COMMON, VIRTIO_PCI_COMMON_STATUS, 1, status & ~VIRTIO_CONFIG_S_FEATURES_OK);
}

/* Acts after the driver wrote to the common configuration, the bytes from `offset` up to `end`. */
static void take_common(struct virtio *device, uint64_t offset, uint64_t end)
{
    uint64_t vector = get(device, VIRTIO_COMMON, VIRTIO_PCI_COMMON_MSIX, 2);

    if (vector >= device->kind->vectors && vector != VIRTIO_MSI_NO_VECTOR)
        set(device, VIRTIO_COMMON, VIRTIO_PCI_COMMON_MSIX, 2, VIRTIO_MSI_NO_VECTOR);
    if (offset < VIRTIO_PCI_COMMON_MSIX)
        select_features(device, end > VIRTIO_PCI_COMMON_GF);
    if (offset <= VIRTIO_PCI_COMMON_STATUS && end > VIRTIO_PCI_COMMON_STATUS)
        take_status(device);
    if (offset < VIRTIO_PCI_COMMON_Q_SIZE && end > VIRTIO_PCI_COMMON_Q_SELECT)
        show_queue(device);
    else if (end > VIRTIO_PCI_COMMON_Q_SIZE)
        keep_queue(device);
}

void virtio_touched(struct virtio *device, uint32_t region, uint64_t offset, uint32_t width, bool is_write)
{
    if (region == VIRTIO_COMMON && is_write) {
        take_common(device, offset, offset + width);
    } else if (region == VIRTIO_VECTORS && is_write) {
        virtio_settle(device);
    } else if (region == VIRTIO_NOTIFY && is_write) {
        if (offset / VIRTIO_MULTIPLIER < device->kind->queues)
            device->kind->notified(device, (unsigned)(offset / VIRTIO_MULTIPLIER));
    } else if (region == VIRTIO_OWN && !is_write && offset <= OWN_ISR && offset + width > OWN_ISR) {
        set(device, VIRTIO_OWN, OWN_ISR, 1, 0); /* a read acknowledges the interrupt */
        virtio_settle(device);
    }
}

/* The machine's memory from an address on; NULL if not all of it is memory. */
static void *memory_at(struct virtio *device, uint64_t address, uint64_t length)
{
    bool is_memory = address <= MEMORY && length <= MEMORY - address;

    return is_memory ? device->machine->memory + address : NULL;
}

/* Whether the device may access the machine's memory (DMA): its driver says so in Command. */
static bool may_access_memory(struct virtio *device)
{
    bool is_set = false;

    expect(device->machine,
           pciguest_bus_master(&device->machine->board->guests, device->machine->guest,
                               device->slot, &is_set),
           "Command");
    return is_set;
}

/* The library's count grows with each write to Command, each reset, move and load. */
uint64_t virtio_permit(struct virtio *device)
{
    uint64_t count = 0;

    expect(device->machine, pciguest_changed(&device->machine->board->guests, device->machine->guest, &count), "a count");
    return count + device->resets;
}

/* Reads a queue from its cells; false if the device can't use it now. */
static bool open_queue(struct virtio *device, unsigned index, struct queue *queue)
{
    uint64_t status = get(device, VIRTIO_COMMON, VIRTIO_PCI_COMMON_STATUS, 1), size;

    if (!(status & VIRTIO_CONFIG_S_DRIVER_OK) || !may_access_memory(device))
        return false;
    for (unsigned word = 0; word <= COUNT_WORD; word++)
        queue->words[word] = get(device, VIRTIO_OWN, cells_of(index) + 8 * word, 8);
    size = queue->size;
    queue->descriptors = memory_at(device, queue->descriptors_at, size * sizeof *queue->descriptors);
    queue->available = memory_at(device, queue->available_at,
                                 sizeof *queue->available + size * sizeof *queue->available->ring);
    queue->used = memory_at(device, queue->used_at, sizeof *queue->used + size * sizeof *queue->used->ring);
    return queue->is_enabled && size > 0 && size <= VIRTIO_QUEUE_SIZE && queue->descriptors &&
           queue->available && queue->used;
}

static void keep_counts(struct virtio *device, unsigned index, const struct queue *queue)
{
    set(device, VIRTIO_OWN, cells_of(index) + 8 * COUNT_WORD, 8, queue->words[COUNT_WORD]);
}

/* Finds the parts of a chain; false if it isn't valid. The driver might change a descriptor at any
 * time, so it is read once. */
static bool find_parts(struct virtio *device, const struct queue *queue, struct virtio_chain *chain)
{
    uint16_t next = chain->head;

    while (next < queue->size && chain->out + chain->in < queue->size) {
        struct vring_desc descriptor = *(volatile struct vring_desc *)&queue->descriptors[next];
        void *memory = memory_at(device, descriptor.addr, descriptor.len);
        bool is_in = descriptor.flags & VRING_DESC_F_WRITE;

        if (!memory || descriptor.flags & VRING_DESC_F_INDIRECT || (chain->in > 0 && !is_in))
            return false;
        chain->parts[chain->out + chain->in] = (struct iovec){memory, descriptor.len};
        chain->out += !is_in;
        chain->in += is_in;
        if (!(descriptor.flags & VRING_DESC_F_NEXT))
            return true;
        next = descriptor.next;
    }
    return false;
}

/* How many chains wait in a queue; none if its driver says that there are more than it can have. */
static uint16_t waiting(struct virtio *device, const struct queue *queue)
{
    uint16_t count = (uint16_t)(__atomic_load_n(&queue->available->idx, __ATOMIC_ACQUIRE) - queue->served);

    if (count <= queue->size)
        return count;
    set(device, VIRTIO_COMMON, VIRTIO_PCI_COMMON_STATUS, 1,
        get(device, VIRTIO_COMMON, VIRTIO_PCI_COMMON_STATUS, 1) | VIRTIO_CONFIG_S_NEEDS_RESET);
    return 0;
}

bool virtio_take(struct virtio *device, unsigned index, struct virtio_chain *chain)
{
    struct queue queue;

    if (!open_queue(device, index, &queue) || waiting(device, &queue) == 0)
        return false;
    chain->head = queue.available->ring[queue.served % queue.size];
    chain->out = chain->in = 0;
    if (!find_parts(device, &queue, chain))
        chain->out = chain->in = 0;
    return true;
}

void virtio_return(struct virtio *device, unsigned index, const struct virtio_chain *chain, uint32_t written)
{
    struct queue queue;

    if (!open_queue(device, index, &queue))
        return;
    queue.used->ring[queue.served++ % queue.size] =
        (struct vring_used_elem){chain->head, written};
    __atomic_store_n(&queue.used->idx, queue.served, __ATOMIC_SEQ_CST);
    keep_counts(device, index, &queue);
}

void virtio_interrupt(struct virtio *device, unsigned index)
{
    struct queue queue;

    if (open_queue(device, index, &queue) &&
        !(__atomic_load_n(&queue.available->flags, __ATOMIC_SEQ_CST) & VRING_AVAIL_F_NO_INTERRUPT))
        interrupt(device, queue.vector);
}

size_t virtio_length(const struct iovec *parts, unsigned count)
{
    size_t length = 0;

    for (unsigned i = 0; i < count; i++)
        length += parts[i].iov_len;
    return length;
}

unsigned virtio_cut(const struct iovec *parts, unsigned count, size_t from, size_t length, struct iovec *pieces)
{
    unsigned made = 0;

    for (unsigned i = 0; i < count && length > 0; i++) {
        size_t skipped = from < parts[i].iov_len ? from : parts[i].iov_len;
        size_t left = parts[i].iov_len - skipped, taken = left < length ? left : length;

        from -= skipped;
        length -= taken;
        if (taken > 0)
            pieces[made++] = (struct iovec){(uint8_t *)parts[i].iov_base + skipped, taken};
    }
    return made;
}

size_t virtio_copy(const struct iovec *parts, unsigned count, size_t from, void *bytes,
                   size_t length, bool is_into_parts)
{
    struct iovec pieces[VIRTIO_QUEUE_SIZE];
    uint8_t *at = bytes;

    count = virtio_cut(parts, count, from, length, pieces);
    for (unsigned i = 0; i < count; at += pieces[i++].iov_len) {
        if (is_into_parts)
            memcpy(pieces[i].iov_base, at, pieces[i].iov_len);
        else
            memcpy(at, pieces[i].iov_base, pieces[i].iov_len);
    }
    return (size_t)(at - (uint8_t *)bytes);
}
