/* Reads or writes a region of a function as a driver in user space does, by the file that Linux has for it:
 *
 *     region 00:05.0 1 0x10 4 [VALUE]      region, offset, width, and what is to be written
 *
 * Memory is mapped; ports are read and written by the file itself. */
#define _GNU_SOURCE
#include <fcntl.h>
#include <inttypes.h>
#include <stdbool.h>
#include <stdio.h>
#include <stdlib.h>
#include <sys/mman.h>
#include <sys/stat.h>
#include <unistd.h>

static uint32_t load(volatile unsigned char *from, size_t width)
{
    if (width == 1)
        return *from;
    return width == 2 ? *(volatile uint16_t *)from : *(volatile uint32_t *)from;
}

static void store(volatile unsigned char *to, size_t width, uint32_t value)
{
    if (width == 1)
        *to = (unsigned char)value;
    else if (width == 2)
        *(volatile uint16_t *)to = (uint16_t)value;
    else
        *(volatile uint32_t *)to = value;
}

/* Does one access at an open region; false where the system refuses it. */
static bool access_region(int file, off_t offset, size_t width, bool is_write, uint32_t *value)
{
    struct stat status;
    unsigned char *memory;

    if (fstat(file, &status) != 0)
        return false;
    memory = mmap(NULL, (size_t)status.st_size, PROT_READ | PROT_WRITE, MAP_SHARED, file, 0);
    if (memory == MAP_FAILED) {
        ssize_t count = is_write ? pwrite(file, value, width, offset) : pread(file, value, width, offset);
        return count == (ssize_t)width;
    }
    if (is_write)
        store(memory + offset, width, *value);
    else
        *value = load(memory + offset, width);
    return true;
}

int main(int argc, char **argv)
{
    char path[128];
    uint32_t value = argc == 6 ? (uint32_t)strtoul(argv[5], NULL, 0) : 0;
    size_t width = argc > 4 ? strtoul(argv[4], NULL, 0) : 0;
    int file;

    if (argc < 5 || argc > 6 || (width != 1 && width != 2 && width != 4)) {
        fputs("region FUNCTION REGION OFFSET WIDTH [VALUE]\n", stderr);
        return 2;
    }
    snprintf(path, sizeof path, "/sys/bus/pci/devices/0000:%s/resource%s", argv[1], argv[2]);
    file = open(path, O_RDWR | O_SYNC);
    if (file < 0 || !access_region(file, strtol(argv[3], NULL, 0), width, argc == 6, &value)) {
        perror(path);
        return 1;
    }
    if (argc == 5)
        printf("0x%0*" PRIx32 "\n", (int)width * 2, value);
    return 0;
}
