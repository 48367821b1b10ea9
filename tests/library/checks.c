/* What the program writes for a check, by calls of the library: the text on standard output, and on standard error the
 * number of the fault with which the program ends.
 *
 *     checks BOARD
 */
#include "testing.h"

int main(int argc, char **argv)
{
    size_t needed = 0;
    uint32_t number;
    char *text;

    begin(argc, argv, 1);
    if (pciguest_check(file, length, NULL, 0, &needed) != PCIGUEST_ARGUMENT)
        return 2;
    text = calloc(needed, 1);
    number = pciguest_check(file, length, text, needed, &needed);
    fwrite(text, 1, needed, stdout);
    free(text);
    if (number != 0)
        fprintf(stderr, "pciguest: fault %u\n", (unsigned)number);
    return number != 0;
}
