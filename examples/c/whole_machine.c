/* Saves a machine with two guests, and loads it into another one. Reads the board from standard input, and prints 0x0b. */
#include "pciguest.h"
#include <stdio.h>

static uint8_t text[65536], image[65536];

int main(void)
{
    struct pciguest machine = PCIGUEST_INIT, other = PCIGUEST_INIT;
    size_t length = fread(text, 1, sizeof text, stdin), size = 0;
    uint32_t value = 0;

    if (pciguest_new(&machine, text, length) || pciguest_new(&other, text, length)) /* equal boards */
        return 1;
    pciguest_move(&machine, 0, 0, 1, 5); /* a function moves to the second guest, whose driver writes Interrupt Line */
    pciguest_write(&machine, 1, PCIGUEST_CONFIG, 5, 0x3c, 1, 0x0b);
    if (pciguest_save_all(&machine, image, sizeof image, &size) || pciguest_load_all(&other, image, size))
        return 1;
    pciguest_read(&other, 1, PCIGUEST_CONFIG, 5, 0x3c, 1, &value);
    printf("0x%02x\n", value);
}
