/* KVM machines that share one board. The PCI of each machine is a guest of the board.
 *
 *     kvm BOARD KERNEL INITIAL [PATH=FILE] .. GUEST[=FILE] ..
 *
 * The function at a path of the board is a disk, whose contents are the file. The machine of a
 * guest boots Linux or, with a file, continues where it was saved. A line on standard input is
 * typed at the console of the machine whose name it begins with (`a ls`), or it is a host command:
 * `host save a FILE` stops a machine and saves it, `host move a SLOT b SLOT` moves a function from
 * one machine to another, and `host count` prints what was counted since the previous `host count`.
 * Console output is written to standard output, after the machine's name. The program ends when all
 * its machines have ended. */
#include "machine.h"

#include <ctype.h>
#include <inttypes.h>
#include <stdio.h>
#include <stdlib.h>
#include <string.h>
#include <unistd.h>

enum { MACHINES = 8, MOMENT = 1000 /* microseconds */ };

/* Linux finds its console at a port, uses only CF8h and CFCh for PCI, doesn't look for clocks that
 * aren't there, and restarts by a fault, which ends the machine. */
static const char words[] = "console=ttyS0 loglevel=1 nowatchdog acpi=off pci=conf1,noearly initcall_blacklist=add_rtc_cmos "
                            "cryptomgr.notests reboot=t panic=-1";

static struct board board = {.guests = PCIGUEST_INIT, .lock = PTHREAD_MUTEX_INITIALIZER};
static struct machine machines[MACHINES];

int needed(int result, const char *what)
{
    if (result >= 0)
        return result;
    perror(what);
    exit(1);
}

/* The bytes of a file, which the caller frees. */
void *bytes_of(const char *path, size_t *length)
{
    FILE *file = fopen(path, "rb");
    void *bytes;

    needed(file ? fseek(file, 0, SEEK_END) : -1, path);
    *length = (size_t)ftell(file);
    rewind(file);
    bytes = malloc(*length + 1);
    needed(bytes && fread(bytes, 1, *length, file) == *length ? 0 : -1, path);
    fclose(file);
    return bytes;
}

static void open_board(const char *path)
{
    size_t length;
    void *bytes = bytes_of(path, &length);
    uint32_t fault = pciguest_new(&board.guests, bytes, length);

    free(bytes);
    if (!fault)
        return;
    fprintf(stderr, "kvm: %s: %s (%" PRIu32 ")\n", path, pciguest_strerror(fault), fault);
    exit(1);
}

static struct machine *machine_of(const char *name, size_t length)
{
    for (struct machine *machine = machines; machine->board; machine++)
        if (strlen(machine->name) == length && memcmp(machine->name, name, length) == 0)
            return machine;
    return NULL;
}

/* What was counted for a machine since it was last printed. */
static void tell_counts(struct machine *machine)
{
    double seconds;
    uint64_t time = now();

    board_take(&board);
    seconds = (double)(time - machine->counted_from) / 1e9;
    printf("host: %s: %" PRIu64 " exits, %.0f a second; %" PRIu64 " of the board, %.0f ns of the library in one\n",
           machine->name, machine->exits, (double)machine->exits / seconds, machine->board_exits,
           machine->board_exits ? (double)machine->board_nanoseconds / (double)machine->board_exits : 0);
    machine->exits = machine->board_exits = machine->board_nanoseconds = 0;
    machine->counted_from = time;
    board_release(&board);
}

/* A byte is typed once the console has room for it. */
static void type_byte(struct machine *machine, uint8_t byte)
{
    bool is_taken = false;

    while (!is_taken && !machine->has_ended) {
        board_take(&board);
        is_taken = uart_receive(&machine->console, byte);
        board_release(&board);
        if (!is_taken)
            usleep(MOMENT);
    }
}

/* Moves a function while both machines run. Neither is notified: their drivers have to let go of it
 * before, and to look for it afterwards. */
static void move(const char *from, uint64_t slot, const char *to, uint64_t target)
{
    struct machine *source = machine_of(from, strlen(from)), *sink = machine_of(to, strlen(to));
    uint32_t fault = PCIGUEST_UNKNOWN_GUEST;

    board_take(&board);
    if (source && sink)
        fault = machine_move(source, slot, sink, target);
    printf("host: %s\n", fault ? pciguest_strerror(fault) : "moved");
    board_release(&board);
}

static void host_line(char *line)
{
    static char paths[MACHINES][256];
    char name[17], to[17], path[256];
    uint64_t slot, target;
    struct machine *machine;

    if (strcmp(line, "count\n") == 0) {
        for (machine = machines; machine->board; machine++)
            tell_counts(machine);
    } else if (sscanf(line, "save %16s %255s", name, path) == 2 && (machine = machine_of(name, strlen(name))) &&
               !machine->has_ended) {
        machine_stop(machine, strcpy(paths[machine - machines], path));
    } else if (sscanf(line, "move %16s %" SCNu64 " %16s %" SCNu64, name, &slot, to, &target) == 4) {
        move(name, slot, to, target);
    } else {
        puts("host: bad line");
    }
}

/* A line with its line feed, except for the last line of a file. */
static void take_line(char *line)
{
    size_t length = strcspn(line, " \n");
    struct machine *machine = machine_of(line, length);

    if (strncmp(line, "host ", 5) == 0)
        host_line(line + 5);
    else if (!machine)
        puts("host: no such machine");
    else
        for (const char *text = line + length + strspn(line + length, " "); *text; text++)
            type_byte(machine, (uint8_t)*text);
}

static void *take_lines(void *argument)
{
    char *line = NULL;
    size_t room = 0;

    while (getline(&line, &room, stdin) > 0)
        take_line(line);
    free(line);
    return argument;
}

/* Makes the machine for an argument: GUEST boots, and GUEST=FILE continues, if the file can be loaded. */
static void make_machine(struct machine *machine, char *word, const char *kernel, const char *initial)
{
    char *file = strchr(word, '=');
    const char *fault;

    if (file)
        *file++ = '\0';
    machine_new(machine, &board, word);
    if (machine->has_failed)
        exit(1); /* no guest has this name */
    if (!file)
        machine_boot(machine, kernel, initial, words);
    else if ((fault = machine_load(machine, file))) {
        printf("host: %s: %s: %s\n", word, file, fault);
        machine->has_ended = true;
    }
}

/* Opens the disks in the arguments PATH=FILE, which come first. Returns how many there are. */
static int open_disks(char **words)
{
    int count = 0;

    while (count < DISKS && words[count] && isdigit((unsigned char)*words[count])) {
        char *file = strchr(words[count], '=');

        needed(file ? 0 : -1, words[count]);
        *file++ = '\0';
        disk_open(&board.disks[count], words[count], file);
        count++;
    }
    return count;
}

int main(int argc, char **argv)
{
    int disks = argc > 4 ? open_disks(argv + 4) : 0, count = argc - 4 - disks;
    pthread_t reader;

    if (count < 1 || count >= MACHINES) {
        fputs("kvm BOARD KERNEL INITIAL [PATH=FILE] .. GUEST[=FILE] ..\n", stderr);
        return 2;
    }
    setvbuf(stdout, NULL, _IOLBF, 0);
    open_board(argv[1]);
    for (int i = 0; i < count; i++)
        make_machine(&machines[i], argv[4 + disks + i], argv[2], argv[3]);
    for (int i = 0; i < count; i++)
        if (!machines[i].has_ended)
            machine_start(&machines[i]);
    needed(-pthread_create(&reader, NULL, take_lines, NULL), "a thread");
    for (int i = 0; i < count; i++)
        if (machines[i].thread)
            pthread_join(machines[i].thread, NULL);
    for (int i = 0; i < count; i++)
        tell_counts(&machines[i]);
    pciguest_free(&board.guests);
    return 0;
}
