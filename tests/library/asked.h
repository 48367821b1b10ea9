/* The calls of tests/library/refusals.txt, none of which stores anything. */
#ifndef ASKED_H
#define ASKED_H

#include "testing.h"

/* What calls would store, and what it is before and after each call. */
static union {
    uint8_t bytes[1 << 14];
    uint32_t value;
    uint64_t wide;
    size_t count;
    struct pciguest_region region;
    struct pciguest_hit hit;
    struct pciguest_function function;
    struct pciguest_board_function driven;
    struct pciguest_place places[PCIGUEST_PLACES];
    struct pciguest_message message;
    bool is_set;
} out, untouched;

/* A number of a row, or a word for one. */
static uint64_t number_of(const char *word)
{
    static const char *const spaces[] = {"config", "io", "memory"};

    for (uint64_t space = 0; space < 3; space++)
        if (!strcmp(word, spaces[space]))
            return space;
    return strcmp(word, "configuration") ? strtoull(word, NULL, 0) : PCIGUEST_PART_CONFIG;
}

/* Makes the call of a row. */
static uint32_t asked(struct pciguest *m, struct pciguest_board *b, const char *call, const char *const *words)
{
    uint64_t n[7];
    const char *text = strcmp(words[0], "-") ? words[0] : "";
    size_t length = strlen(text);
    char *room = (char *)out.bytes;
    size_t size = sizeof out.bytes;

    for (size_t i = 0; i < 7; i++)
        n[i] = number_of(words[i]);
#define CALL(name, ...) \
    if (!strcmp(call, #name)) \
        return pciguest_##name(__VA_ARGS__)
    CALL(read, m, n[0], n[1], n[2], n[3], n[4], &out.value);
    CALL(write, m, n[0], n[1], n[2], n[3], n[4], n[5]);
    CALL(read_wide, m, n[0], n[1], n[2], n[3], n[4], &out.wide);
    CALL(write_wide, m, n[0], n[1], n[2], n[3], n[4], n[5]);
    CALL(region_read, m, n[0], n[1], n[2], n[3], n[4], &out.wide);
    CALL(region_write, m, n[0], n[1], n[2], n[3], n[4], n[5]);
    CALL(raise, m, n[0], n[1], n[2], n[3], n[4]);
    CALL(device_read_wide, m, n[0], n[1], n[2], n[3], n[4], &out.wide);
    CALL(device_write_wide, m, n[0], n[1], n[2], n[3], n[4], n[5]);
    CALL(region, m, n[0], n[1], n[2], &out.region);
    CALL(changed, m, n[0], &out.wide);
    CALL(moved, m, n[0], out.places, PCIGUEST_PLACES, &(size_t){0});
    CALL(locate, m, n[0], n[1], n[2], n[3], &out.hit);
    CALL(why, m, n[0], n[1], n[2], n[3], room, size, &(size_t){0});
    CALL(why_json, m, n[0], n[1], n[2], n[3], room, size, &(size_t){0});
    CALL(function, m, n[0], &out.function);
    CALL(slot, m, n[0], n[1], &out.function);
    CALL(bus_master, m, n[0], n[1], &out.is_set);
    CALL(msix_message, m, n[0], n[1], n[2], &out.message);
    CALL(guest, m, text, length, &out.count);
    CALL(guest_name, m, n[0], room, size, &(size_t){0});
    CALL(move, m, n[0], n[1], n[2], n[3]);
    CALL(reset, m, n[0], n[1]);
    CALL(reset_guest, m, n[0]);
    CALL(give, m, text, length, n[1], n[2]);
    CALL(take, m, n[0], n[1]);
    CALL(save, m, n[0], room, size, &(size_t){0});
    CALL(load, m, n[0], "", 0);
    CALL(load_all, m, "", 0);
    CALL(image_fault, m, n[0], "", 0, &out.wide, &(size_t){0});
    CALL(host_read, m, n[0], n[1], n[2], n[3], n[4], n[5], &out.value);
    CALL(board_read, b, n[0], n[1], n[2], n[3], n[4], n[5], &out.value);
    CALL(board_write, b, n[0], n[1], n[2], n[3], n[4], n[5], n[6]);
    CALL(board_function, b, n[0], &out.driven);
    CALL(board_why_json, b, n[0], n[1], n[2], n[3], n[4], room, size, &(size_t){0});
    fprintf(stderr, "%s: no such call\n", call);
    exit(2);
}

/* Makes the calls of all rows except those whose struct is null here; `wanted` replaces their numbers unless it is 0. Returns how
 * many rows there are. */
static int all_asked(FILE *rows, struct pciguest *machine, struct pciguest_board *board, uint32_t wanted)
{
    char line[256];
    int count = 0;

    memset(&untouched, 0x5a, sizeof untouched);
    out = untouched;
    rewind(rows);
    while (fgets(line, sizeof line, rows)) {
        const char *words[9] = {"", "", "", "", "", "", "", "", ""};
        size_t found = 0;
        uint32_t number, answer;

        for (char *word = strtok(line, " \n"); word && *word != '#' && found < 9; word = strtok(NULL, " \n"))
            words[found++] = word;
        if (!found)
            continue;
        count++;
        if (!(strncmp(words[1], "board_", 6) ? (void *)machine : (void *)board))
            continue;
        if (wanted && (!strcmp(words[1], "read_wide") || !strcmp(words[1], "write_wide")))
            continue; /* they are split before a call is made */
        number = wanted ? wanted : (uint32_t)number_of(words[0]);
        answer = asked(machine, board, words[1], words + 2);
        if (answer == number && !memcmp(&out, &untouched, sizeof out))
            continue;
        fprintf(stderr, "%s %s %s %s ..: %" PRIu32 " in place of %" PRIu32 ", or something is stored\n", words[1], words[2],
                words[3], words[4], answer, number);
        wrong++;
    }
    return count;
}

#endif
