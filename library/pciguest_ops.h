/* Accesses and queries for firmware under test. The firmware sends each access or query as one line on standard output
 * and gets the reply on standard input: one line for an access, one or more for a query. `pciguest firmware BOARD` answers
 * these lines, and `python3 -m pciguest.firmware_test -- ./my_firmware` tests the firmware on many boards. Firmware needs only
 * this header, and no library. It must write nothing else to standard output; its own messages go to standard error. If an
 * access or a query is refused or gets no reply, the firmware ends with status 3.
 *
 * A width is 1, 2 or 4 bytes. An offset, port or address must be a multiple of the width. */
#ifndef PCIGUEST_OPS_H
#define PCIGUEST_OPS_H

#include <inttypes.h>
#include <stddef.h>
#include <stdint.h>
#include <stdio.h>
#include <stdlib.h>
#include <string.h>

/* combines bus, device and function numbers into a BDF */
#define PG_BDF(bus, device, function) ((uint32_t)(bus) << 8 | (uint32_t)(device) << 3 | (uint32_t)(function))

/* sends a line and returns the value in the reply, or 0 if the reply is `ok` */
static inline uint32_t pg_ask(const char *line)
{
    char reply[64];

    if (printf("%s\n", line) < 0 || fflush(stdout) != 0 || fgets(reply, sizeof reply, stdin) == NULL) {
        fprintf(stderr, "no reply to: %s\n", line);
        exit(3);
    }
    if (strcmp(reply, "host: ok\n") == 0)
        return 0;
    if (strncmp(reply, "host: 0x", 8) == 0)
        return (uint32_t)strtoul(reply + 8, NULL, 16);
    fprintf(stderr, "%s: %s", line, reply);
    exit(3);
}

/* ---- accesses */

static inline uint32_t pg_config_read(uint32_t bdf, uint32_t offset, int width)
{
    char line[64];

    snprintf(line, sizeof line, "host cr %02" PRIx32 ":%02" PRIx32 ".%" PRIu32 " 0x%" PRIx32 " %d", bdf >> 8,
             bdf >> 3 & 31, bdf & 7, offset, width);
    return pg_ask(line);
}

static inline void pg_config_write(uint32_t bdf, uint32_t offset, int width, uint32_t value)
{
    char line[64];

    snprintf(line, sizeof line, "host cw %02" PRIx32 ":%02" PRIx32 ".%" PRIu32 " 0x%" PRIx32 " %d 0x%" PRIx32, bdf >> 8,
             bdf >> 3 & 31, bdf & 7, offset, width, value);
    (void)pg_ask(line);
}

static inline uint32_t pg_in(uint32_t port, int width)
{
    char line[64];

    snprintf(line, sizeof line, "host ir 0x%" PRIx32 " %d", port, width);
    return pg_ask(line);
}

static inline void pg_out(uint32_t port, int width, uint32_t value)
{
    char line[64];

    snprintf(line, sizeof line, "host iw 0x%" PRIx32 " %d 0x%" PRIx32, port, width, value);
    (void)pg_ask(line);
}

static inline uint32_t pg_load(uint64_t address, int width)
{
    char line[64];

    snprintf(line, sizeof line, "host mr 0x%" PRIx64 " %d", address, width);
    return pg_ask(line);
}

static inline void pg_store(uint64_t address, int width, uint32_t value)
{
    char line[64];

    snprintf(line, sizeof line, "host mw 0x%" PRIx64 " %d 0x%" PRIx32, address, width, value);
    (void)pg_ask(line);
}

/* ---- queries */

/* Returns whether a line is the last line of a reply, and stores how many lines it says come before it. Such a line has `ok` or
 * counts after a word: `audit: ok`, `ready: 1 problem, 2 left to do` or `why: 3 lines`, for example. */
static inline int pg_is_count(const char *line, unsigned long *count)
{
    const char *rest = strchr(line, ':');
    unsigned long one = 0;
    int length = 0;

    *count = 0;
    if (rest == NULL || strcmp(rest, ": ok\n") == 0)
        return rest != NULL;
    while (sscanf(rest, "%*[:,] %lu%*[ ]%*[a-z ]%n", &one, &length) == 1 && length > 0) {
        *count += one;
        rest += length;
        length = 0;
    }
    return strcmp(rest, "\n") == 0;
}

/* Sends a query such as `host ready` or `host why mem 0xc0000000`, and copies the lines of the reply to a stream such as
 * stderr; if the stream is NULL, the lines are discarded. Returns the number of problems and readiness issues, or for
 * `host why ..` the number of lines in the answer. */
static inline unsigned long pg_question(const char *question, FILE *out)
{
    unsigned long count = 0;
    char line[1024] = "";

    if (printf("%s\n", question) < 0 || fflush(stdout) != 0) {
        fprintf(stderr, "nobody takes: %s\n", question);
        exit(3);
    }
    while (fgets(line, sizeof line, stdin) != NULL && strncmp(line, "host: ", 6) != 0) {
        if (out != NULL)
            fputs(line, out);
        if (pg_is_count(line, &count))
            return count;
    }
    fprintf(stderr, "%s: %s", question, line[0] ? line : "no reply\n");
    exit(3);
}

/* Stores the first and the last address of an aperture, "io", "mem" or "pref", from which firmware may assign addresses. The
 * test passes them in the environment. Returns 1, or 0 if the board has no such aperture. */
static inline int pg_aperture(const char *name, uint64_t *first, uint64_t *last)
{
    const char *variable = name[0] == 'i' ? "PCIGUEST_IO" : name[0] == 'm' ? "PCIGUEST_MEM" : "PCIGUEST_PREF";
    const char *range = getenv(variable);

    return range != NULL && sscanf(range, "%" SCNi64 " %" SCNi64, (int64_t *)first, (int64_t *)last) == 2;
}

/* ---- configuration accesses through the ports CF8h and CFCh */

static inline uint32_t pg_port_config_read(uint32_t bdf, uint32_t offset, int width)
{
    pg_out(0xCF8, 4, UINT32_C(0x80000000) | bdf << 8 | (offset & 0xFC));
    return pg_in(0xCFC + (offset & 3), width);
}

static inline void pg_port_config_write(uint32_t bdf, uint32_t offset, int width, uint32_t value)
{
    pg_out(0xCF8, 4, UINT32_C(0x80000000) | bdf << 8 | (offset & 0xFC));
    pg_out(0xCFC + (offset & 3), width, value);
}

/* ---- the same with the signatures of U-Boot's dm_pci_ops: a pci_dev_t holds the bus from bit 16 on; a size is 0, 1 or 2 */

static inline int pg_uboot_read_config(const void *bus, int bdf, unsigned offset, unsigned long *value, int size)
{
    (void)bus;
    *value = pg_port_config_read((uint32_t)bdf >> 8, offset, 1 << size);
    return 0;
}

static inline int pg_uboot_write_config(const void *bus, int bdf, unsigned offset, unsigned long value, int size)
{
    (void)bus;
    pg_port_config_write((uint32_t)bdf >> 8, offset, 1 << size, (uint32_t)value);
    return 0;
}

/* ---- the same with the signatures of libpayload's pci_read_config8 and the like: a pcidev_t holds the bus from bit 16 on,
 * and has bit 31 set */

#define PG_LIBPAYLOAD(bits)                                                                                            \
    static inline uint##bits##_t pg_read_config##bits(uint32_t device, uint16_t reg)                                   \
    {                                                                                                                  \
        return (uint##bits##_t)pg_port_config_read(device >> 8 & 0xFFFF, reg, bits / 8);                               \
    }                                                                                                                  \
    static inline void pg_write_config##bits(uint32_t device, uint16_t reg, uint##bits##_t value)                      \
    {                                                                                                                  \
        pg_port_config_write(device >> 8 & 0xFFFF, reg, bits / 8, value);                                              \
    }
PG_LIBPAYLOAD(8)
PG_LIBPAYLOAD(16)
PG_LIBPAYLOAD(32)

/* ---- the same with the signatures of EDK2's Pci.Read and Pci.Write: a width is 0, 1 or 2, and 0 is EFI_SUCCESS.
 * EFI_PCI_ROOT_BRIDGE_IO_PROTOCOL reaches all functions: an address holds the bus from bit 24 on, then the device, the function
 * and the register in 8 bits each. EFI_PCI_IO_PROTOCOL reaches one function. */

struct pg_root_bridge_io {
    void *data; /* for the firmware's use */
};

struct pg_pci_io {
    uint32_t bdf;
};

static inline uint32_t pg_root_bridge_bdf(uint64_t address)
{
    return PG_BDF(address >> 24 & 0xFF, address >> 16 & 0x1F, address >> 8 & 7);
}

static inline size_t pg_pci_io_read(struct pg_pci_io *io, int width, uint32_t offset, size_t count, void *buffer)
{
    unsigned char *bytes = (unsigned char *)buffer;

    for (size_t n = 0; n < count << width; n += (size_t)1 << width) {
        uint32_t value = pg_port_config_read(io->bdf, offset + (uint32_t)n, 1 << width);
        for (size_t byte = 0; byte < (size_t)1 << width; byte++)
            bytes[n + byte] = (unsigned char)(value >> 8 * byte);
    }
    return 0;
}

static inline size_t pg_pci_io_write(struct pg_pci_io *io, int width, uint32_t offset, size_t count, const void *buffer)
{
    const unsigned char *bytes = (const unsigned char *)buffer;

    for (size_t n = 0; n < count << width; n += (size_t)1 << width) {
        uint32_t value = 0;
        for (size_t byte = 0; byte < (size_t)1 << width; byte++)
            value |= (uint32_t)bytes[n + byte] << 8 * byte;
        pg_port_config_write(io->bdf, offset + (uint32_t)n, 1 << width, value);
    }
    return 0;
}

static inline size_t pg_root_bridge_io_read(struct pg_root_bridge_io *root, int width, uint64_t address, size_t count,
                                            void *buffer)
{
    struct pg_pci_io io = { pg_root_bridge_bdf(address) };

    (void)root;
    return pg_pci_io_read(&io, width, (uint32_t)address & 0xFF, count, buffer);
}

static inline size_t pg_root_bridge_io_write(struct pg_root_bridge_io *root, int width, uint64_t address, size_t count,
                                             const void *buffer)
{
    struct pg_pci_io io = { pg_root_bridge_bdf(address) };

    (void)root;
    return pg_pci_io_write(&io, width, (uint32_t)address & 0xFF, count, buffer);
}

#endif
