/* A driver for the device of board.toml, in the form of a Linux module. The calls of Linux that it makes are in
 * library/pciguest_driver.h, so test.c can run it. */
#include <linux/dma-mapping.h>
#include <linux/interrupt.h>
#include <linux/module.h>
#include <linux/pci.h>

#include "sum.h"

enum { START = 0x00, STATUS = 0x04, ADDRESS = 0x08, LENGTH = 0x10, SUM = 0x14, DONE = 1, FAILED = 2 };

struct sum {
    u8 __iomem *registers;
    u32 most; /* bytes at once */
    u8 *buffer;
    dma_addr_t address;
    struct completion ended;
    u32 status;
};

static irqreturn_t sum_interrupt(int irq, void *data)
{
    struct sum *sum = data;

    (void)irq;
    sum->status = readl(sum->registers + STATUS);
    if (!(sum->status & (DONE | FAILED)))
        return IRQ_NONE;
    writel(sum->status, sum->registers + STATUS);
    complete(&sum->ended);
    return IRQ_HANDLED;
}

int sum_bytes(struct pci_dev *dev, const void *bytes, u32 length, u32 *result)
{
    struct sum *sum = pci_get_drvdata(dev);

    if (length > sum->most)
        return -EINVAL;
    memcpy(sum->buffer, bytes, length);
    init_completion(&sum->ended);
    writeq(sum->address, sum->registers + ADDRESS);
    writel(length, sum->registers + LENGTH);
    writel(1, sum->registers + START);
    if (!wait_for_completion_timeout(&sum->ended, msecs_to_jiffies(100)))
        return -ETIMEDOUT;
    *result = readl(sum->registers + SUM);
    return sum->status & FAILED ? -EIO : 0;
}

static int sum_probe(struct pci_dev *dev, const struct pci_device_id *id)
{
    struct sum *sum = kzalloc(sizeof *sum, GFP_KERNEL);
    u8 own = pci_find_capability(dev, PCI_CAP_ID_VNDR);

    (void)id;
    if (!sum || !own)
        return -ENODEV;
    pci_set_drvdata(dev, sum);
    pci_read_config_dword(dev, own + 4, &sum->most);
    if (pci_enable_device(dev) || pci_request_regions(dev, "sum"))
        return -ENODEV;
    pci_set_master(dev);
    sum->registers = pci_iomap(dev, 0, 0);
    sum->buffer = dma_alloc_coherent(&dev->dev, sum->most, &sum->address, GFP_KERNEL);
    if (!sum->buffer || pci_alloc_irq_vectors(dev, 1, 1, PCI_IRQ_MSIX) != 1)
        return -ENOMEM;
    dev_info(&dev->dev, "sum: at most %u bytes\n", sum->most);
    return request_irq(pci_irq_vector(dev, 0), sum_interrupt, 0, "sum", sum);
}

static void sum_remove(struct pci_dev *dev)
{
    struct sum *sum = pci_get_drvdata(dev);

    free_irq(pci_irq_vector(dev, 0), sum);
    pci_free_irq_vectors(dev);
    dma_free_coherent(&dev->dev, sum->most, sum->buffer, sum->address);
    pci_iounmap(dev, sum->registers);
    pci_release_regions(dev);
    pci_disable_device(dev);
    kfree(sum);
}

static const struct pci_device_id sum_ids[] = {{PCI_DEVICE(0x1234, 0x00e1)}, {0}};
MODULE_DEVICE_TABLE(pci, sum_ids);

static struct pci_driver sum_driver = {.name = "sum", .id_table = sum_ids, .probe = sum_probe, .remove = sum_remove};
module_pci_driver(sum_driver);

MODULE_DESCRIPTION("adds up bytes");
