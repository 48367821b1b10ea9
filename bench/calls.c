/* What a call from C costs, in nanoseconds: the least of nine rounds.
 *
 *     calls BOARD [COUNT]      a board file whose first guest has memory behind its second base address register; with a
 *                              count, one round of so many calls of each kind, for those who count instructions
 */
#include "cost.h"
#include "pciguest.h"

#include <stdlib.h>

/* A function with MSI-X, which the driver has enabled, first in a list of six structures as virtio's drivers find it. */
static const char with_messages[] =
    "host = { io = [0x1000, 0xffff], mem = [0xc0000000, 0xdfffffff] }\n"
    "guest = [ { name = \"a\", slots = [\"1.0\"] } ]\n"
    "endpoint = [ { at = \"1.0\", vendor = 0x1af4, device = 0x1042, class = 0x010000,\n"
    "bar = [ { index = 1, kind = \"mem32\", size = 0x1000, block = 32 } ], capability = [\n"
    "{ id = 0x11, off = 0x98, block = 10, reset = \"01800100000001080000\" },\n"
    "{ id = 9, off = 0x84, block = 18 }, { id = 9, off = 0x70, block = 18 }, { id = 9, off = 0x60, block = 14 },\n"
    "{ id = 9, off = 0x50, block = 14 }, { id = 9, off = 0x40, block = 14 } ] } ]\n";

int main(int argc, char **argv)
{
    static uint8_t board[65536];
    static const char line[] = "a mr 0xc0100010 4";
    static const char asked[] = "host mr 0xc0100010 4";
    static const char why[] = "host why mem 0xc0100010";
    struct pciguest machine = {0}, other = {0};
    struct pciguest_board at_reset = {0}, driven = {0};
    FILE *file = argc == 2 || argc == 3 ? fopen(argv[1], "rb") : NULL;
    uint32_t few = argc == 3 ? (uint32_t)atoi(argv[2]) : 0, value = 0, faults = 0;
    size_t length, written = 0, problems = 0;
    uint64_t changes = 0, wide = 0;
    char reply[PCIGUEST_REPLY] = {0}, text[1024] = {0};
    struct pciguest_region region = {0};
    struct pciguest_hit hit = {0};
    struct pciguest_function function = {0};
    struct pciguest_message message = {0};
    bool is_master = false, is_asserted = false;

    if (!file)
        return 2;
    length = fread(board, 1, sizeof board, file);
    fclose(file);
    if (pciguest_new(&machine, board, length))
        return 1;
    pciguest_write(&machine, 0, PCIGUEST_CONFIG, 0, 0x14, 4, 0xc0100000);
    pciguest_write(&machine, 0, PCIGUEST_CONFIG, 0, 4, 2, 2);
    COST("no machine", 1000000, pciguest_read(&other, 0, PCIGUEST_IO, 0, 0, 1, &value) != PCIGUEST_NO_MACHINE);
    COST("read identity", 1000000, pciguest_read(&machine, 0, PCIGUEST_CONFIG, 0, 0, 4, &value));
    COST("write Command", 1000000, pciguest_write(&machine, 0, PCIGUEST_CONFIG, 0, 4, 2, 2));
    COST("read memory", 1000000, pciguest_read(&machine, 0, PCIGUEST_MEMORY, 0, 0xc0100010, 4, &value));
    COST("write memory", 1000000, pciguest_write(&machine, 0, PCIGUEST_MEMORY, 0, 0xc0100010, 4, i));
    COST("write CONFIG_ADDRESS", 1000000, pciguest_write(&machine, 0, PCIGUEST_IO, 0, 0xcf8, 4, 0x80000000));
    COST("read CONFIG_DATA", 1000000, pciguest_read(&machine, 0, PCIGUEST_IO, 0, 0xcfc, 4, &value));
    COST("raise a bit of Status", 1000000, pciguest_raise(&machine, 0, 0, PCIGUEST_PART_CONFIG, 7, 0x80));
    COST("reset a function", 1000000, pciguest_reset(&machine, 0, 0));
    COST("read a byte as the device", 1000000, pciguest_device_read_wide(&machine, 0, 0, 1, 0x10, 1, &wide));
    COST("write a byte as the device", 1000000, pciguest_device_write_wide(&machine, 0, 0, 1, 0x10, 1, (uint8_t)i));
    COST("read 4 bytes as the device", 1000000, pciguest_device_read_wide(&machine, 0, 0, 1, 0x10, 4, &wide));
    COST("write 4 bytes as the device", 1000000, pciguest_device_write_wide(&machine, 0, 0, 1, 0x10, 4, i));
    COST("read 8 bytes as the device", 1000000, pciguest_device_read_wide(&machine, 0, 0, 1, 0x10, 8, &wide));
    COST("write 8 bytes as the device", 1000000, pciguest_device_write_wide(&machine, 0, 0, 1, 0x10, 8, i));
    pciguest_write(&machine, 0, PCIGUEST_CONFIG, 0, 0x14, 4, 0xc0100000);
    pciguest_write(&machine, 0, PCIGUEST_CONFIG, 0, 4, 2, 2);
    COST("read memory by region", 1000000, pciguest_region_read(&machine, 0, 0, 1, 0x10, 4, &wide));
    COST("write memory by region", 1000000, pciguest_region_write(&machine, 0, 0, 1, 0x10, 4, i));
    COST("read Command", 1000000, pciguest_read(&machine, 0, PCIGUEST_CONFIG, 0, 4, 2, &value));
    COST("tell where a region stands", 1000000, pciguest_region(&machine, 0, 0, 1, &region));
    COST("tell how often regions may have moved", 1000000, pciguest_changed(&machine, 0, &changes));
    COST("tell what an address hits", 1000000, pciguest_locate(&machine, 0, PCIGUEST_MEMORY, 0, 0xc0100010, &hit));
    COST("tell why an address finds nobody", 30000,
         pciguest_why(&machine, 0, PCIGUEST_MEMORY, 0, 0xd0000000, text, sizeof text, &written));
    COST("tell of a function by its index", 1000000, pciguest_function(&machine, 0, &function));
    COST("tell of a function by its slot", 1000000, pciguest_slot(&machine, 0, 0, &function));
    COST("read memory as the host", 1000000, pciguest_host_read(&machine, PCIGUEST_MEMORY, 0, 0, 0, 0xc0100010, 4, &value));
    COST("run a line that reads memory", 300000, pciguest_run_line(&machine, line, sizeof line - 1, reply, sizeof reply, &written));
    if (pciguest_new(&other, with_messages, sizeof with_messages - 1))
        return 1;
    pciguest_write(&other, 0, PCIGUEST_CONFIG, 0, 4, 2, 6);
    COST("ask whether a device may access memory", 1000000, pciguest_bus_master(&other, 0, 0, &is_master));
    COST("find the first structure of a list", 1000000, pciguest_find_capability(&other, 0, 0, 0, 0x11, &wide));
    COST("find no structure in a list of six", 1000000, pciguest_find_capability(&other, 0, 0, 0, 5, &wide));
    COST("set Interrupt Status and ask for the pin", 1000000, pciguest_set_interrupt(&other, 0, 0, i & 1, &is_asserted));
    COST("ask for the message of a vector", 1000000, pciguest_msix_message(&other, 0, 0, 1, &message));
    faults += !message.can_be_sent;
    pciguest_free(&other);
    COST("new and free", 300, pciguest_new(&other, board, length) + (pciguest_free(&other), 0));
    if (pciguest_board_new(&at_reset, board, length) || pciguest_board_new(&driven, board, length))
        return 1;
    pciguest_board_write(&driven, PCIGUEST_CONFIG, 0, 1, 0, 0x14, 4, 0xc0100000);
    pciguest_board_write(&driven, PCIGUEST_CONFIG, 0, 1, 0, 4, 2, 2);
    COST("firmware reads identity", 1000000, pciguest_board_read(&driven, PCIGUEST_CONFIG, 0, 1, 0, 0, 4, &value));
    COST("firmware writes Command", 1000000, pciguest_board_write(&driven, PCIGUEST_CONFIG, 0, 1, 0, 4, 2, 2));
    COST("firmware reads memory", 1000000, pciguest_board_read(&driven, PCIGUEST_MEMORY, 0, 0, 0, 0xc0100010, 4, &value));
    COST("firmware writes memory", 1000000, pciguest_board_write(&driven, PCIGUEST_MEMORY, 0, 0, 0, 0xc0100010, 4, i));
    COST("run a line of firmware that reads memory", 300000,
         pciguest_board_run_line(&driven, asked, sizeof asked - 1, reply, sizeof reply, &written));
    COST("audit a board", 3000, pciguest_board_audit(&driven, text, sizeof text, &written, &problems));
    COST("ask whether a board is ready", 3000, pciguest_board_ready(&driven, text, sizeof text, &written, &problems));
    COST("run a line that asks why memory answers", 100000,
         pciguest_board_run_line(&driven, why, sizeof why - 1, text, sizeof text, &written));
    pciguest_board_free(&driven);
    COST("new and free a board", 300, pciguest_board_new(&driven, board, length) + (pciguest_board_free(&driven), 0));
    COST("set up a board, and free the machine", 300, pciguest_set_up(&at_reset, &other) + (pciguest_free(&other), 0));
    pciguest_board_free(&at_reset);
    pciguest_free(&machine);
    return faults != 0;
}
