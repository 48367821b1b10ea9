/* Saves the first guest of a board, restores it, and lets it continue on another board, whose first guest has equal
 * functions in the same slots: `migrate BOARD OTHER` prints 0xffffffff and 0x12345678. */
#include "pciguest.h"
#include <stdio.h>

static struct pciguest here, there; /* all bytes are 0: the structs are empty */
static uint8_t text[65536], image[65536];

static uint32_t open_board(struct pciguest *machine, const char *path)
{
    FILE *file = fopen(path, "rb");
    return pciguest_new(machine, text, file ? fread(text, 1, sizeof text, file) : 0);
}

int main(int argc, char **argv)
{
    uint32_t value = 0;
    size_t size = 0;

    if (argc < 3 || open_board(&here, argv[1]) || open_board(&there, argv[2]))
        return 1;
    pciguest_write(&here, 0, PCIGUEST_CONFIG, 0, 0x14, 4, 0x80000000); /* the guest works */
    pciguest_write(&here, 0, PCIGUEST_CONFIG, 0, 4, 2, 2);
    pciguest_write(&here, 0, PCIGUEST_MEMORY, 0, 0x80000010, 4, 0x12345678);

    if (pciguest_save(&here, 0, image, sizeof image, &size)) /* with NULL and 0, it stores the room that is needed */
        return 1;
    pciguest_reset_guest(&here, 0); /* everything is lost .. */
    pciguest_read(&here, 0, PCIGUEST_MEMORY, 0, 0x80000010, 4, &value);
    printf("0x%08x\n", value);
    if (pciguest_load(&here, 0, image, size) || pciguest_load(&there, 0, image, size)) /* .. restore, migrate */
        return 1;
    pciguest_read(&there, 0, PCIGUEST_MEMORY, 0, 0x80000010, 4, &value);
    printf("0x%08x\n", value);
    pciguest_free(&here);
    pciguest_free(&there);
    return 0;
}
