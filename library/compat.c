/* Calls of the library that the header no longer has, for programs that were compiled with the inline functions of an earlier
 * header: those of 0.2.0 and 0.3.0 call them by these names. */
#include "raw.h"

uint32_t pciguest_raw_report(const uint8_t *board, size_t length, uint8_t *text, size_t room, size_t *needed)
{
    return pciguest_raw_report_in(board, length, text, room, needed, false);
}

uint32_t pciguest_raw_board_audit(struct pciguest_board *board, uint8_t *text, size_t room, size_t *needed, size_t *count)
{
    return pciguest_raw_board_survey(board, text, room, needed, count, false, false);
}

uint32_t pciguest_raw_words(uint32_t number, uint8_t *text, size_t room, size_t *needed)
{
    const char *message = pciguest_strerror(number);

    /* A program that was compiled with those headers has room for 20 bytes. */
    for (*needed = 0; *needed < room && message[*needed]; ++*needed)
        text[*needed] = (uint8_t)message[*needed];
    return 0;
}

uint32_t pciguest_raw_device_read(struct pciguest *machine, size_t guest, uint64_t slot, uint32_t part, uint64_t offset,
                                  uint32_t *value)
{
    uint64_t byte = 0;
    uint32_t number = pciguest_raw_device_read_wide(machine, guest, slot, part, offset, 1, &byte);

    if (!number)
        *value = (uint32_t)byte;
    return number;
}

uint32_t pciguest_raw_device_write(struct pciguest *machine, size_t guest, uint64_t slot, uint32_t part, uint64_t offset,
                                   uint8_t value)
{
    return pciguest_raw_device_write_wide(machine, guest, slot, part, offset, 1, value);
}
