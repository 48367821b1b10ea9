/* Runs the source of a PCI driver that was written for Linux, as a program, on the functions of a guest. The header defines the
 * calls of Linux that such a driver makes most: readl and writel, inl and outl, pci_read_config_word, pci_iomap,
 * pci_find_capability, dma_alloc_coherent, request_irq and others. docs/driver-testing.md explains how to use them.
 *
 * Exactly one source file defines PCIGUEST_DRIVER before it includes this header. That file has the `main` of the test, which makes
 * a machine, calls pg_probe, and acts as the device. Nothing here is proved, and nothing here waits: an interrupt handler runs within
 * the access that causes the interrupt. */
#ifndef PCIGUEST_DRIVER_H
#define PCIGUEST_DRIVER_H

#include "pciguest.h"

#include <errno.h>
#include <inttypes.h>
#include <stdio.h>
#include <stdlib.h>
#include <string.h>

typedef uint8_t u8;
typedef uint16_t u16;
typedef uint32_t u32;
typedef uint64_t u64;
typedef uint64_t dma_addr_t;
typedef uint64_t resource_size_t;
typedef unsigned gfp_t;
typedef int irqreturn_t;
typedef irqreturn_t (*irq_handler_t)(int irq, void *data);

enum { IRQ_NONE = 0, IRQ_HANDLED = 1, GFP_KERNEL = 0, IRQF_SHARED = 0x80, PCI_ANY_ID = -1 };
enum { PCI_IRQ_LEGACY = 1, PCI_IRQ_INTX = 1, PCI_IRQ_MSI = 2, PCI_IRQ_MSIX = 4, PCI_IRQ_ALL_TYPES = 7 };
enum { PCI_VENDOR_ID = 0, PCI_DEVICE_ID = 2, PCI_COMMAND = 4, PCI_STATUS = 6, PCI_CAP_ID_VNDR = 9, PCI_CAP_ID_MSIX = 0x11 };

#define __iomem
#define __init
#define __exit
#define KERN_INFO ""
#define BIT(n) (1UL << (n))
#define THIS_MODULE NULL
#define MODULE_LICENSE(text)
#define MODULE_AUTHOR(text)
#define MODULE_DESCRIPTION(text)
#define MODULE_DEVICE_TABLE(type, table)
#define PCI_DEVICE(vendor_id, device_id) .vendor = (vendor_id), .device = (device_id)
#define module_pci_driver(name) struct pci_driver *pg_driver = &name

struct device {
    void *data;
};

struct pci_device_id {
    u32 vendor, device;
    unsigned long driver_data;
};

struct pci_dev {
    struct device dev;
    u32 slot; /* in its guest */
    u16 vendor, device;
    u32 class;
    u8 revision;
    unsigned irq;
    struct pciguest_region resource[PCIGUEST_BARS];
};

struct pci_driver {
    const char *name;
    const struct pci_device_id *id_table;
    int (*probe)(struct pci_dev *dev, const struct pci_device_id *id);
    void (*remove)(struct pci_dev *dev);
};

/* The driver, from module_pci_driver. */
extern struct pci_driver *pg_driver;

/* What a driver sees: a guest's functions, the guest's memory, and its interrupt handlers. After each access that reaches a function,
 * `accessed` acts as the device. */
enum { PG_SLOTS = 32, PG_HANDLERS = 64, PG_MEMORY = 1 << 20, PG_PIN = 0x10000 };

struct pg_bus {
    struct pciguest *machine;
    size_t guest;
    void (*accessed)(const struct pciguest_hit *hit, u32 width, bool is_write);
    struct pci_dev devices[PG_SLOTS];
    struct {
        unsigned irq;
        irq_handler_t handler;
        void *data;
    } handlers[PG_HANDLERS];
    u8 memory[PG_MEMORY]; /* its bus addresses begin at 0 */
    size_t allocated;
};

extern struct pg_bus pg_bus;

#ifdef PCIGUEST_DRIVER
struct pg_bus pg_bus = {.allocated = 0x1000};
#endif

/* ---- accesses */

/* explains on standard error why an access reaches nothing */
static inline void pg_explain(u32 space, u64 slot, u64 place)
{
    char text[4096];
    size_t length = 0;

    fflush(stdout);
    if (pciguest_why(pg_bus.machine, pg_bus.guest, space, slot, place, text, sizeof text, &length) == 0)
        fprintf(stderr, "%.*s", (int)length, text);
}

static inline u64 pg_access(u32 space, u64 slot, u64 place, u32 width, bool is_write, u64 value)
{
    struct pciguest_hit hit = {0};

    (void)pciguest_locate(pg_bus.machine, pg_bus.guest, space, slot, place, &hit);
    if (is_write)
        (void)pciguest_write_wide(pg_bus.machine, pg_bus.guest, space, slot, place, width, value);
    else if (pciguest_read_wide(pg_bus.machine, pg_bus.guest, space, slot, place, width, &value) != 0)
        value = UINT64_MAX;
    if (!hit.found)
        pg_explain(space, slot, place);
    else if (pg_bus.accessed)
        pg_bus.accessed(&hit, width, is_write);
    return value;
}

#define PG_MEMORY_ACCESS(letter, type)                                                                                  \
    static inline type read##letter(const volatile void __iomem *address)                                              \
    {                                                                                                                  \
        return (type)pg_access(PCIGUEST_MEMORY, 0, (uintptr_t)address, sizeof(type), false, 0);                        \
    }                                                                                                                  \
    static inline void write##letter(type value, volatile void __iomem *address)                                       \
    {                                                                                                                  \
        pg_access(PCIGUEST_MEMORY, 0, (uintptr_t)address, sizeof(type), true, value);                                  \
    }
PG_MEMORY_ACCESS(b, u8)
PG_MEMORY_ACCESS(w, u16)
PG_MEMORY_ACCESS(l, u32)
PG_MEMORY_ACCESS(q, u64)
#define ioread8 readb
#define ioread16 readw
#define ioread32 readl
#define iowrite8 writeb
#define iowrite16 writew
#define iowrite32 writel

#define PG_PORT_ACCESS(letter, type)                                                                                    \
    static inline type in##letter(unsigned long port)                                                                  \
    {                                                                                                                  \
        return (type)pg_access(PCIGUEST_IO, 0, port, sizeof(type), false, 0);                                          \
    }                                                                                                                  \
    static inline void out##letter(type value, unsigned long port)                                                     \
    {                                                                                                                  \
        pg_access(PCIGUEST_IO, 0, port, sizeof(type), true, value);                                                    \
    }
PG_PORT_ACCESS(b, u8)
PG_PORT_ACCESS(w, u16)
PG_PORT_ACCESS(l, u32)

#define PG_CONFIG_ACCESS(name, type)                                                                                    \
    static inline int pci_read_config_##name(const struct pci_dev *dev, int offset, type *value)                       \
    {                                                                                                                  \
        *value = (type)pg_access(PCIGUEST_CONFIG, dev->slot, (u64)offset, sizeof(type), false, 0);                     \
        return 0;                                                                                                      \
    }                                                                                                                  \
    static inline int pci_write_config_##name(const struct pci_dev *dev, int offset, type value)                       \
    {                                                                                                                  \
        pg_access(PCIGUEST_CONFIG, dev->slot, (u64)offset, sizeof(type), true, value);                                 \
        return 0;                                                                                                      \
    }
PG_CONFIG_ACCESS(byte, u8)
PG_CONFIG_ACCESS(word, u16)
PG_CONFIG_ACCESS(dword, u32)

/* ---- functions and their regions */

static inline u8 pci_find_capability(struct pci_dev *dev, int id)
{
    u64 offset = 0;

    (void)pciguest_find_capability(pg_bus.machine, pg_bus.guest, dev->slot, 0, (u8)id, &offset);
    return (u8)offset;
}

static inline resource_size_t pci_resource_start(struct pci_dev *dev, int bar) { return dev->resource[bar].first; }
static inline resource_size_t pci_resource_len(struct pci_dev *dev, int bar) { return dev->resource[bar].size; }
static inline void pci_set_drvdata(struct pci_dev *dev, void *data) { dev->dev.data = data; }
static inline void *pci_get_drvdata(struct pci_dev *dev) { return dev->dev.data; }
static inline int pci_request_regions(struct pci_dev *dev, const char *name) { return (void)dev, (void)name, 0; }
static inline void pci_release_regions(struct pci_dev *dev) { (void)dev; }

static inline void __iomem *pci_iomap(struct pci_dev *dev, int bar, unsigned long most)
{
    (void)most;
    return (void __iomem *)(uintptr_t)dev->resource[bar].first;
}

static inline void pci_iounmap(struct pci_dev *dev, void __iomem *address) { (void)dev, (void)address; }

/* sets some bits of Command and clears others */
static inline void pg_command(struct pci_dev *dev, u16 set, u16 clear)
{
    u16 command = 0;

    pci_read_config_word(dev, PCI_COMMAND, &command);
    pci_write_config_word(dev, PCI_COMMAND, (u16)((command & ~clear) | set));
}

static inline int pci_enable_device(struct pci_dev *dev) { return pg_command(dev, 0x3, 0), 0; }
static inline void pci_disable_device(struct pci_dev *dev) { pg_command(dev, 0, 0x4); }
static inline void pci_set_master(struct pci_dev *dev) { pg_command(dev, 0x4, 0); }
static inline void pci_clear_master(struct pci_dev *dev) { pg_command(dev, 0, 0x4); }

/* ---- memory */

static inline void *kzalloc(size_t size, gfp_t flags) { return (void)flags, calloc(1, size); }
static inline void kfree(void *memory) { free(memory); }

static inline void *dma_alloc_coherent(struct device *dev, size_t size, dma_addr_t *address, gfp_t flags)
{
    (void)dev, (void)flags;
    if (size > PG_MEMORY - pg_bus.allocated)
        return NULL;
    *address = pg_bus.allocated;
    pg_bus.allocated += (size + 63) & ~(size_t)63;
    return pg_bus.memory + *address;
}

static inline void dma_free_coherent(struct device *dev, size_t size, void *memory, dma_addr_t address)
{
    (void)dev, (void)size, (void)memory, (void)address;
}

/* for the device: the guest's memory from a bus address on, or a null pointer if the device may not access it */
static inline void *pg_dma(u64 slot, u64 address, u64 size)
{
    bool is_master = false;

    (void)pciguest_bus_master(pg_bus.machine, pg_bus.guest, slot, &is_master);
    return is_master && address <= PG_MEMORY && size <= PG_MEMORY - address ? pg_bus.memory + address : NULL;
}

/* ---- interrupts */

static inline int request_irq(unsigned irq, irq_handler_t handler, unsigned long flags, const char *name, void *data)
{
    (void)flags, (void)name;
    for (int n = 0; n < PG_HANDLERS; n++)
        if (!pg_bus.handlers[n].handler) {
            pg_bus.handlers[n].irq = irq, pg_bus.handlers[n].handler = handler, pg_bus.handlers[n].data = data;
            return 0;
        }
    return -ENOMEM;
}

static inline void *free_irq(unsigned irq, void *data)
{
    for (int n = 0; n < PG_HANDLERS; n++)
        if (pg_bus.handlers[n].irq == irq && pg_bus.handlers[n].data == data)
            pg_bus.handlers[n].handler = NULL;
    return NULL;
}

/* calls the handlers of an interrupt. For a device without MSI-X, the interrupt is PG_PIN + its slot; it mustn't request one while
 * Interrupt Disable is set (pciguest_slot). */
static inline int pg_interrupt(unsigned irq)
{
    int handled = IRQ_NONE;

    for (int n = 0; n < PG_HANDLERS; n++)
        if (pg_bus.handlers[n].handler && pg_bus.handlers[n].irq == irq)
            handled |= pg_bus.handlers[n].handler((int)irq, pg_bus.handlers[n].data);
    return handled;
}

/* for the device: sends the message of an MSI-X vector. Returns whether it was sent; if not, the device keeps it pending. */
static inline bool pg_send(u64 slot, u32 vector)
{
    struct pciguest_message message = {0};

    if (pciguest_msix_message(pg_bus.machine, pg_bus.guest, slot, vector, &message) != 0 || !message.can_be_sent)
        return false;
    (void)pg_interrupt(message.data);
    return true;
}

static inline int pci_irq_vector(struct pci_dev *dev, unsigned vector)
{
    return (int)(dev->irq == PG_PIN + dev->slot ? dev->irq : dev->slot << 11 | vector);
}

/* programs the MSI-X table; the number of an interrupt is the data of its message. Without MSI-X, the function uses its pin. */
static inline int pci_alloc_irq_vectors(struct pci_dev *dev, unsigned least, unsigned most, unsigned flags)
{
    u8 at = flags & PCI_IRQ_MSIX ? pci_find_capability(dev, PCI_CAP_ID_MSIX) : 0;
    u16 control = 0;
    u32 table = 0;
    unsigned count = 0;

    if (at) {
        pci_read_config_word(dev, at + 2, &control);
        pci_read_config_dword(dev, at + 4, &table);
        dev->irq = dev->slot << 11;
        for (; count < most && count <= (control & 0x7ffu); count++) {
            u8 __iomem *entry = (u8 *)pci_iomap(dev, table & 7, 0) + (table & ~7u) + 16 * count;
            writel(0xfee00000, entry);
            writel(0, entry + 4);
            writel((u32)pci_irq_vector(dev, count), entry + 8);
            writel(0, entry + 12);
        }
        pci_write_config_word(dev, at + 2, (u16)(control | 0x8000));
    } else if (flags & PCI_IRQ_INTX) {
        dev->irq = PG_PIN + dev->slot;
        count = 1;
    }
    return count < least ? -ENOSPC : (int)count;
}

static inline void pci_free_irq_vectors(struct pci_dev *dev) { (void)dev; }

/* what a driver waits for. Here it has already happened, or it never will */
struct completion {
    bool done;
};

static inline void init_completion(struct completion *it) { it->done = false; }
static inline void complete(struct completion *it) { it->done = true; }
static inline unsigned long msecs_to_jiffies(unsigned milliseconds) { return milliseconds; }
static inline unsigned long wait_for_completion_timeout(struct completion *it, unsigned long most)
{
    return it->done ? most : 0;
}

/* ---- messages */

#define printk(...) ((void)printf(__VA_ARGS__))
#define dev_info(dev, ...) ((void)(dev), (void)printf(__VA_ARGS__))
#define dev_warn dev_info
#define dev_err dev_info

/* ---- for the test: what Linux does before it calls `probe` */

/* places the regions of a function, at multiples of their sizes */
static inline void pg_place(struct pci_dev *dev, const struct pciguest_function *function, u64 next[2])
{
    for (u32 bar = 0; bar < PCIGUEST_BARS; bar++) {
        const struct pciguest_bar *region = &function->regions[bar];
        u64 *first = &next[region->space == PCIGUEST_MEMORY];
        if (region->size == 0)
            continue;
        *first = (*first + region->size - 1) & ~(region->size - 1);
        pci_write_config_dword(dev, 0x10 + 4 * (int)bar, (u32)*first);
        if (region->is_64_bit)
            pci_write_config_dword(dev, 0x14 + 4 * (int)bar, 0);
        (void)pciguest_region(pg_bus.machine, pg_bus.guest, dev->slot, bar, &dev->resource[bar]);
        *first += region->size;
    }
}

/* Finds the functions of a guest, places their regions, and calls the driver's `probe` for each function in its `id_table`. Returns
 * how many functions the driver accepts, or the negative number that `probe` returns. */
static inline int pg_probe(struct pciguest *machine, size_t guest, void (*accessed)(const struct pciguest_hit *, u32, bool))
{
    u64 next[2] = {0x1000, 0x80000000};
    int accepted = 0;

    pg_bus.machine = machine, pg_bus.guest = guest, pg_bus.accessed = accessed;
    for (u32 slot = 0; slot < PG_SLOTS; slot++) {
        struct pciguest_function function = {0};
        struct pci_dev *dev = &pg_bus.devices[slot];
        if (pciguest_slot(machine, guest, slot, &function) != 0)
            continue;
        dev->slot = slot, dev->vendor = (u16)function.vendor_id, dev->device = (u16)function.device_id;
        dev->class = function.class_code, dev->revision = (u8)function.revision_id, dev->irq = PG_PIN + slot;
        pg_place(dev, &function, next);
        for (const struct pci_device_id *id = pg_driver->id_table; id->vendor; id++)
            if (id->vendor == dev->vendor && (id->device == dev->device || id->device == (u32)PCI_ANY_ID)) {
                int error = pg_driver->probe(dev, id);
                if (error)
                    return error;
                accepted++;
                break;
            }
    }
    return accepted;
}

#endif
