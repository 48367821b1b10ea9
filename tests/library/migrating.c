/* A script over a board, cut at each of its lines: its guests are saved there and loaded over another board, where the rest of
 * the script has to be answered as on the first, byte for byte, but for what the host reads of the board. The whole machine is
 * saved too, and loaded into one over an equal board, which answers the host's lines alike as well.
 *
 *     migrating BOARD OTHER SCRIPT
 *
 * OTHER has the guests of BOARD first, with the same functions in the same slots. */
#include "images.h"

enum { LINES = 256, FILE_SIZE = 1 << 16 };

struct text {
    char bytes[FILE_SIZE];
    size_t length;
};

static void read_file(const char *path, struct text *text)
{
    FILE *file = fopen(path, "rb");

    if (!file) {
        perror(path);
        exit(2);
    }
    text->length = fread(text->bytes, 1, sizeof text->bytes, file);
    fclose(file);
}

static bool is_move(const char *line) { return strncmp(line, "host move ", 10) == 0; }

/* Runs a line, and gives the reply's length. */
static size_t run(struct pciguest *machine, const char *line, char *reply)
{
    size_t written = 0;

    memset(reply, 0, PCIGUEST_REPLY);
    IS(pciguest_run_line(machine, line, strlen(line), reply, PCIGUEST_REPLY, &written), 0);
    return written;
}

/* The moves of these lines, and then events of each guest's own, of which nothing is left after a load. */
static void arrange(struct pciguest *machine, char *const *lines, size_t count)
{
    char reply[PCIGUEST_REPLY];
    size_t guests = 0;

    for (size_t i = 0; i < count; i++)
        if (is_move(lines[i]))
            run(machine, lines[i], reply);
    IS(pciguest_guest_count(machine, &guests), 0);
    for (size_t guest = 0; guest < guests; guest++) {
        (void)pciguest_write(machine, guest, PCIGUEST_CONFIG, 0, 4, 2, 0xffff);
        (void)pciguest_write(machine, guest, PCIGUEST_CONFIG, 0, 0x10, 4, 0xfffffff0);
        (void)pciguest_raise(machine, guest, 0, PCIGUEST_PART_CONFIG, 7, 0xff);
        (void)pciguest_write(machine, guest, PCIGUEST_IO, 0, 0xcf8, 4, 0xffffffff);
    }
}

/* Saves a guest or the whole of one machine, and loads it into the other. */
static void migrate(struct pciguest *from, struct pciguest *to, size_t guest)
{
    static struct image image;

    save(from, guest, &image);
    IS(load_or_keep(to, guest, &image), 0);
}

static void migrate_guests(struct pciguest *from, struct pciguest *to)
{
    size_t guests = 0;

    IS(pciguest_guest_count(from, &guests), 0);
    for (size_t guest = 0; guest < guests && !wrong; guest++)
        migrate(from, to, guest);
}

/* The same of the whole machine, where the guests of the other sit elsewhere. */
static void migrate_all(struct pciguest *from, struct pciguest *to)
{
    arrange(to, NULL, 0);
    (void)pciguest_take(to, 0, 1);
    (void)pciguest_move(to, 0, 0, 0, 31);
    migrate(from, to, ALL);
}

/* Runs a line on a machine, which replies so. */
static void replies(struct pciguest *machine, const char *line, const char *wanted, size_t length)
{
    char reply[PCIGUEST_REPLY];

    IS(run(machine, line, reply), length);
    IS(memcmp(reply, wanted, sizeof reply), 0);
    if (wrong)
        fprintf(stderr, "%s\n  before: %.*s  here: %.*s", line, PCIGUEST_REPLY, wanted, PCIGUEST_REPLY, reply);
}

static void cut_at(size_t cut, char *const *lines, size_t count, const struct text *board, const struct text *other)
{
    struct pciguest here = PCIGUEST_INIT, there = PCIGUEST_INIT, equal = PCIGUEST_INIT;
    char reply[PCIGUEST_REPLY];

    IS(pciguest_new(&here, board->bytes, board->length), 0);
    IS(pciguest_new(&there, other->bytes, other->length), 0);
    IS(pciguest_new(&equal, board->bytes, board->length), 0);
    for (size_t i = 0; i < cut; i++)
        run(&here, lines[i], reply);
    arrange(&there, lines, cut);
    migrate_guests(&here, &there);
    migrate_all(&here, &equal);
    for (size_t i = cut; i < count && !wrong; i++) {
        size_t length = run(&here, lines[i], reply);

        replies(&equal, lines[i], reply, length);
        if (strncmp(lines[i], "host ", 5) != 0 || is_move(lines[i]))
            replies(&there, lines[i], reply, length);
    }
    if (wrong)
        fprintf(stderr, "cut at line %zu\n", cut);
    pciguest_free(&here);
    pciguest_free(&there);
    pciguest_free(&equal);
}

int main(int argc, char **argv)
{
    static struct text board, other, script;
    static char *lines[LINES];
    size_t count = 0;

    if (argc != 4)
        return 2;
    read_file(argv[1], &board);
    read_file(argv[2], &other);
    read_file(argv[3], &script);
    for (char *line = strtok(script.bytes, "\n"); line && count < LINES; line = strtok(NULL, "\n"))
        lines[count++] = line;
    for (size_t cut = 0; cut <= count && !wrong; cut++)
        cut_at(cut, lines, count, &board, &other);
    return wrong != 0 || count == 0;
}
