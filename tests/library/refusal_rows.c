/* Makes each call of tests/library/refusals.txt, first on structs that are empty, which return 901, and then on a machine and on
 * a board at reset, which return the row's number. No call may store or change anything.
 *
 *     refusal_rows BOARD ROWS
 *
 * The exit status is 1 if a call returns another number. */
#include "asked.h"
#include "images.h"

int main(int argc, char **argv)
{
    static struct image before, after;
    FILE *rows = argc == 3 ? fopen(argv[2], "r") : NULL;
    struct pciguest machine = PCIGUEST_INIT, other = PCIGUEST_INIT;
    struct pciguest_board board = PCIGUEST_BOARD_INIT;
    uint64_t changes = 1;
    int count;

    begin(argc, argv, 2);
    if (!rows)
        return 2;
    all_asked(rows, &machine, &board, PCIGUEST_NO_MACHINE);
    IS(pciguest_new(&machine, file, length), 0);
    IS(pciguest_board_new(&board, file, length), 0);
    save(&machine, ALL, &before);
    count = all_asked(rows, &machine, &board, 0);
    /* nothing has changed: neither the machine, nor where its regions are, nor the board, which is at reset */
    save(&machine, ALL, &after);
    IS(are_same(&before, &after), 1);
    IS(pciguest_changed(&machine, 0, &changes), 0);
    IS(changes, 0);
    IS(pciguest_set_up(&board, &other), 0);
    pciguest_free(&machine);
    pciguest_free(&other);
    pciguest_board_free(&board);
    fclose(rows);
    return wrong || count < 150;
}
