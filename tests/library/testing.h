/* What the programs here share: their arguments, comparisons, random numbers, and helpers for boards/main.toml. */
#ifndef TESTING_H
#define TESTING_H

#include "pciguest.h"

#include <inttypes.h>
#include <stdio.h>
#include <stdlib.h>
#include <string.h>

#define COUNT_OF(array) (sizeof(array) / sizeof *(array))

static uint8_t file[1 << 20]; /* a board file */
static size_t length;
static uint64_t times, state = 1;
static _Atomic int wrong;

static inline void is(const char *source, int line, uint64_t found, uint64_t wanted)
{
    if (found != wanted && wrong++ < 20)
        fprintf(stderr, "%s:%d: %" PRIu64 " (0x%" PRIx64 ") in place of %" PRIu64 " (0x%" PRIx64 ")\n", source, line,
                found, found, wanted, wanted);
}

#define IS(found, wanted) is(__FILE__, __LINE__, (found), (wanted))

/* xorshift64 */
static inline uint64_t below(uint64_t n)
{
    state ^= state << 13;
    state ^= state >> 7;
    state ^= state << 17;
    return state % n;
}

/* Takes the words BOARD, COUNT and SEED, or fewer; a program with more words takes the others itself. Reads the board
 * file, and seeds the random numbers. */
static inline void begin(int argc, char **argv, int words)
{
    FILE *opened = argc == words + 1 ? fopen(argv[1], "rb") : NULL;

    if (!opened)
        exit(2);
    length = fread(file, 1, sizeof file - 1, opened);
    fclose(opened);
    times = argc > 2 ? strtoull(argv[2], NULL, 10) : 0;
    state = argc > 3 ? strtoull(argv[3], NULL, 10) * 0x9e3779b97f4a7c15u + 1 : state;
}

/* What a guest reads in configuration space. */
static inline uint32_t config(struct pciguest *machine, size_t guest, uint64_t slot, uint64_t offset, uint32_t width)
{
    uint32_t value = 0;

    IS(pciguest_read(machine, guest, PCIGUEST_CONFIG, slot, offset, width, &value), 0);
    return value;
}

/* What firmware reads there. */
static inline uint32_t config_read(struct pciguest_board *board, uint8_t bus, uint8_t device, uint64_t offset)
{
    uint32_t value = 7;

    IS(pciguest_board_read(board, PCIGUEST_CONFIG, bus, device, 0, offset, 4, &value), 0);
    return value;
}

static inline uint32_t line(struct pciguest_board *board, const char *text, char *reply, size_t room, size_t *written)
{
    return pciguest_board_run_line(board, text, strlen(text), reply, room, written);
}

/* The bridge of the main board is numbered and forwards what is behind it, each region has a place, and each function
 * but the last answers there. */
static inline void set_up_by_hand(struct pciguest_board *board)
{
    static const struct {
        uint8_t bus, device;
        uint64_t offset;
        uint32_t value;
    } writes[] = {{0, 1, 0x10, 0x1000}, {0, 1, 0x14, 0xd0000000}, {0, 1, 4, 3}, {0, 2, 0x18, 0x00010100},
                  {0, 2, 0x1c, 0x3030}, {0, 2, 0x20, 0xd110d110}, {0, 2, 0x24, 0xd2f0d200}, {0, 2, 4, 3},
                  {1, 0, 0x10, 0xd1100000}, {1, 0, 0x14, 0x3010}, {1, 0, 4, 3}, {1, 1, 0x10, 0xd2000000}};

    for (size_t i = 0; i < COUNT_OF(writes); i++)
        IS(pciguest_board_write(board, PCIGUEST_CONFIG, writes[i].bus, writes[i].device, 0, writes[i].offset, 4,
                                writes[i].value), 0);
}

/* Calls of earlier headers, which programs that were compiled with them make: the bytes of a message, and of a device. */
uint32_t pciguest_raw_words(uint32_t number, uint8_t *text, size_t room, size_t *needed);
uint32_t pciguest_raw_device_read(struct pciguest *machine, size_t guest, uint64_t slot, uint32_t part, uint64_t offset,
                                  uint32_t *value);
uint32_t pciguest_raw_device_write(struct pciguest *machine, size_t guest, uint64_t slot, uint32_t part, uint64_t offset,
                                   uint8_t value);

#endif
