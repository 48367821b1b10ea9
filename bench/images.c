/* What it costs to save and to load the first guest of a board, and the whole machine, in nanoseconds: the least of nine rounds.
 *
 *     images BOARD [COUNT]      with a count, one round of so many calls of each kind, for those who count instructions
 */
#include "cost.h"
#include "pciguest.h"

#include <stdlib.h>

int main(int argc, char **argv)
{
    static uint8_t board[1 << 20], image[1 << 23];
    struct pciguest machine = PCIGUEST_INIT;
    FILE *file = argc == 2 || argc == 3 ? fopen(argv[1], "rb") : NULL;
    uint32_t few = argc == 3 ? (uint32_t)atoi(argv[2]) : 0, faults = 0;
    size_t length, size = 0;

    if (!file)
        return 2;
    length = fread(board, 1, sizeof board, file);
    fclose(file);
    if (pciguest_new(&machine, board, length))
        return 1;
    COST("tell how long a guest's image is", 30, pciguest_save(&machine, 0, NULL, 0, &size) != PCIGUEST_ARGUMENT);
    COST("save a guest", 30, pciguest_save(&machine, 0, image, sizeof image, &size));
    COST("load a guest", 30, pciguest_load(&machine, 0, image, size));
    COST("reset a guest", 30, pciguest_reset_guest(&machine, 0));
    COST("tell how long a machine's image is", 10, pciguest_image_size_all(&machine, &size));
    COST("save a machine", 10, pciguest_save_all(&machine, image, sizeof image, &size));
    COST("load a machine", 10, pciguest_load_all(&machine, image, size));
    pciguest_free(&machine);
    return faults != 0;
}
