/* What a machine runs in place of Linux if a moment has to be enough: it places its functions and
 * opens them, and prints for each letter that is typed what its serial port and its bell did. `r`
 * rings the bell, and `f` reads configuration space often. It takes no interrupts: whether one is
 * requested is seen in the interrupt controller's first register. */
#include "probe.h"

enum { CONTROLLER = 0x20, PORT = 0x1000, BELL = 0x20000000, OFTEN = 2000, EMPTY_SLOT = 31 };

static volatile uint32_t *bell(uint32_t offset)
{
    return (volatile uint32_t *)(uintptr_t)(BELL + offset);
}

/* Sends a letter by the serial port of slot 0, and prints whether an interrupt is requested before
 * and after it is read back. */
static void answer(uint8_t letter)
{
    uint8_t back[] = {0, 0};

    out(PORT, letter);
    print_number(in(CONTROLLER), 2);
    back[0] = in(PORT);
    print_number(in(CONTROLLER), 2);
    print((char *)back);
    print(" ");
    for (uint32_t offset = 0; offset < 12; offset += 4)
        print_number(*bell(offset), 8);
    print("\n");
}

void run(void)
{
    for (uint32_t slot = 0; slot < 2; slot++)
        print_number(configuration(slot, 0), 8);
    print_number(configuration(EMPTY_SLOT, 0), 8);
    print_number(configuration(0, 0x3c), 4);
    configure(0, 0x10, PORT);
    configure(0, 0x04, 1);
    configure(1, 0x10, BELL);
    configure(1, 0x04, 2);
    out(PORT + 1, 1);
    print("\n");
    for (;;) {
        uint8_t letter = typed();

        if (letter == 'r')
            *bell(8) += 0x11;
        for (int i = 0; letter == 'f' && i < OFTEN; i++)
            configuration(0, 0);
        if (letter > ' ')
            answer(letter);
    }
}
