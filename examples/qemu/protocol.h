/* What QEMU 7.2 sends to a function that another process serves (`-device x-pci-proxy-dev`): messages with a head and a
 * body, in the layout of C on x86-64. Some also carry descriptors. */
#ifndef PROTOCOL_H
#define PROTOCOL_H

#include <stdint.h>

enum command {
    SYNC_MEMORY,  /* where the machine's memory is, with its descriptors, for DMA */
    REPLY,        /* an answer; a machine never sends it */
    CONFIG_WRITE,
    CONFIG_READ,
    REGION_WRITE,
    REGION_READ,
    SET_INTERRUPT, /* two descriptors that signal an interrupt */
    RESET,
    COMMANDS
};

struct head {
    int32_t command;
    uint32_t unused;
    uint64_t length; /* of the body */
};

struct config_access {
    uint32_t offset;
    uint32_t value;
    int32_t width;
};

struct region_access {
    uint64_t place; /* the port or the address that the guest used */
    uint64_t value;
    uint32_t width;
    uint8_t is_memory;
    uint8_t unused[3];
};

enum { LONGEST_BODY = 192 };

struct message {
    struct head head;
    union {
        struct config_access config;
        struct region_access region;
        unsigned char bytes[LONGEST_BODY];
    } body;
};

struct reply {
    struct head head;
    uint64_t value;
};

_Static_assert(sizeof(struct head) == 16, "a head as QEMU sends it");
_Static_assert(sizeof(struct config_access) == 12, "a configuration access as QEMU sends it");
_Static_assert(sizeof(struct region_access) == 24, "an access of a region as QEMU sends it");
_Static_assert(sizeof(struct reply) == 24, "a reply as QEMU awaits it");

#endif
