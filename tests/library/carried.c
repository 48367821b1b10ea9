/* A machine that is saved in one process and goes on in another: `carried save BOARD` writes the image of a machine to standard
 * output, and `carried load BOARD` loads one from standard input and prints what two of its guests' accesses read. carried.rs and
 * carried.py do the same. */
#include "pciguest.h"
#include <stdio.h>
#include <string.h>

static uint8_t text[65536], image[65536];

static void run(struct pciguest *machine, const char *line)
{
    char reply[PCIGUEST_REPLY];
    size_t length = 0;

    if (!pciguest_run_line(machine, line, strlen(line), reply, sizeof reply, &length))
        fwrite(reply, 1, length, stderr);
}

int main(int count, char **words)
{
    struct pciguest machine = PCIGUEST_INIT;
    FILE *board = count == 3 ? fopen(words[2], "rb") : NULL;
    size_t size = 0;

    if (!board || pciguest_new(&machine, text, fread(text, 1, sizeof text, board)))
        return 1;
    if (!strcmp(words[1], "save")) {
        run(&machine, "host move a 1 b 9");
        run(&machine, "b cw 9 0x3c 1 0x0b");
        return pciguest_save_all(&machine, image, sizeof image, &size) || fwrite(image, 1, size, stdout) != size;
    }
    size = fread(image, 1, sizeof image, stdin);
    if (pciguest_load_all(&machine, image, size))
        return 1;
    run(&machine, "b cr 9 0x3c 1");
    run(&machine, "a cr 1 0 4");
    return 0;
}
