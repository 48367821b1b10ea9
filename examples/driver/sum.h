/* What the driver in sum.c offers. */
#include <linux/pci.h>

/* Adds up bytes. Returns 0, or -EINVAL if there are too many bytes, -EIO if the device fails, or -ETIMEDOUT. */
int sum_bytes(struct pci_dev *dev, const void *bytes, u32 length, u32 *result);
