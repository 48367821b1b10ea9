/* A KVM machine: its memory, KVM's interrupt controllers and timer, and a processor with its exits. */
#define _GNU_SOURCE
#include "machine.h"

#include <errno.h>
#include <fcntl.h>
#include <signal.h>
#include <stdio.h>
#include <stdlib.h>
#include <string.h>
#include <sys/ioctl.h>
#include <sys/mman.h>
#include <unistd.h>

/* Sets up CPUID: everything that KVM supports, with processor number 0 everywhere. The hypervisor
 * bit is set, so that Linux gets the time from KVM. */
static void describe_processor(struct machine *machine)
{
    enum { ENTRIES = 256, IS_VIRTUAL = 1u << 31 };
    struct kvm_cpuid2 *words = calloc(1, sizeof *words + ENTRIES * sizeof *words->entries);

    words->nent = ENTRIES;
    needed(ioctl(machine->system, KVM_GET_SUPPORTED_CPUID, words), "KVM_GET_SUPPORTED_CPUID");
    for (struct kvm_cpuid_entry2 *entry = words->entries; entry < words->entries + words->nent; entry++) {
        if (entry->function == 1) {
            entry->ebx = (entry->ebx & 0xffff) | 1 << 16;
            entry->ecx |= IS_VIRTUAL;
        } else if (entry->function == 0xb || entry->function == 0x1f) {
            entry->edx = 0;
        }
    }
    needed(ioctl(machine->processor, KVM_SET_CPUID2, words), "KVM_SET_CPUID2");
    free(words);
}

static void *map(size_t length, int flags, int file, const char *what)
{
    void *memory = mmap(NULL, length, PROT_READ | PROT_WRITE, flags, file, 0);

    needed(memory == MAP_FAILED ? -1 : 0, what);
    return memory;
}

/* A machine's memory begins at a multiple of 2 MB, so that the host can use large pages for it. */
static uint8_t *map_memory(void)
{
    enum { LARGE_PAGE = 2 << 20 };
    uint8_t *memory =
        map(MEMORY + LARGE_PAGE, MAP_PRIVATE | MAP_ANONYMOUS | MAP_NORESERVE, -1, "memory");

    return memory + -(uintptr_t)memory % LARGE_PAGE;
}

void machine_new(struct machine *machine, struct board *board, const char *name)
{
    struct kvm_pit_config timer = {.flags = KVM_PIT_SPEAKER_DUMMY};
    struct kvm_userspace_memory_region memory = {.memory_size = MEMORY};
    int size;

    *machine = (struct machine){.board = board, .name = name, .console = {.machine = machine, .is_console = true}};
    machine->console.own[MODEM_STATUS] = 0xb0; /* the terminal at the console is present and ready */
    machine->system = needed(open("/dev/kvm", O_RDWR | O_CLOEXEC), "/dev/kvm");
    machine->file = needed(ioctl(machine->system, KVM_CREATE_VM, 0), "KVM_CREATE_VM");
    needed(ioctl(machine->file, KVM_SET_TSS_ADDR, 0xfffbd000), "KVM_SET_TSS_ADDR");
    needed(ioctl(machine->file, KVM_CREATE_IRQCHIP, 0), "KVM_CREATE_IRQCHIP");
    needed(ioctl(machine->file, KVM_CREATE_PIT2, &timer), "KVM_CREATE_PIT2");
    machine->memory = map_memory();
    memory.userspace_addr = (uintptr_t)machine->memory;
    needed(ioctl(machine->file, KVM_SET_USER_MEMORY_REGION, &memory), "KVM_SET_USER_MEMORY_REGION");
    machine->processor = needed(ioctl(machine->file, KVM_CREATE_VCPU, 0), "KVM_CREATE_VCPU");
    size = needed(ioctl(machine->system, KVM_GET_VCPU_MMAP_SIZE, 0), "KVM_GET_VCPU_MMAP_SIZE");
    machine->run = map((size_t)size, MAP_SHARED, machine->processor, "KVM_RUN");
    describe_processor(machine);
    machine_find_guest(machine);
}

void machine_line(struct machine *machine, unsigned line, bool is_high)
{
    struct kvm_irq_level level = {.irq = line, .level = is_high};
    uint64_t began = now();

    needed(ioctl(machine->file, KVM_IRQ_LINE, &level), "KVM_IRQ_LINE");
    machine->away += now() - began;
}

/* A message that isn't for an interrupt controller, or that none accepts, is lost: the driver chose
 * its address. */
void machine_message(struct machine *machine, uint64_t address, uint32_t data)
{
    struct kvm_msi message = {.address_lo = (uint32_t)address,
                              .address_hi = (uint32_t)(address >> 32),
                              .data = data};
    uint64_t began = now();

    if (address >> 20 == 0xfee)
        (void)ioctl(machine->file, KVM_SIGNAL_MSI, &message);
    machine->away += now() - began;
}

/* The console prints whole lines, each after the machine's name. */
void machine_print(struct machine *machine, uint8_t byte)
{
    if (byte != '\n' && machine->length < sizeof machine->line) {
        machine->line[machine->length++] = (char)byte;
        return;
    }
    while (machine->length > 0 && machine->line[machine->length - 1] == '\r')
        machine->length--;
    printf("%s: %.*s\n", machine->name, (int)machine->length, machine->line);
    machine->length = 0;
}

static bool console_access(struct machine *machine, struct access *access)
{
    uint64_t offset = access->place - CONSOLE_PORT;

    if (access->space != PCIGUEST_IO || offset > SCRATCH || access->width != 1)
        return false;
    if (access->is_write)
        uart_write(&machine->console, (unsigned)offset, (uint8_t)access->value);
    else
        access->value = uart_read(&machine->console, (unsigned)offset);
    uart_touched(&machine->console, (unsigned)offset, access->is_write);
    return true;
}

/* Makes an access at which KVM stopped, whose bytes are in KVM's memory. If nothing responds, a
 * read returns all ones. */
static void serve(struct machine *machine, struct access access, void *bytes)
{
    access.value = UINT64_MAX;
    if (access.is_write)
        memcpy(&access.value, bytes, access.width);
    board_take(machine->board);
    machine->exits++;
    if (!console_access(machine, &access))
        (void)machine_board_access(machine, &access);
    board_release(machine->board);
    if (!access.is_write)
        memcpy(bytes, &access.value, access.width);
}

/* one instruction can make several accesses to one port */
static void serve_ports(struct machine *machine)
{
    struct kvm_run *run = machine->run;
    struct access access = {run->io.direction == KVM_EXIT_IO_OUT, PCIGUEST_IO, run->io.port, run->io.size, 0};
    uint8_t *bytes = (uint8_t *)run + run->io.data_offset;

    for (uint32_t i = 0; i < run->io.count; i++)
        serve(machine, access, bytes + i * access.width);
}

static void serve_memory(struct machine *machine)
{
    struct kvm_run *run = machine->run;
    struct access access = {run->mmio.is_write, PCIGUEST_MEMORY, run->mmio.phys_addr, run->mmio.len, 0};

    serve(machine, access, run->mmio.data);
}

/* Runs the processor until it stops, and handles the exit. Returns false if the machine has ended.
 * If a signal stopped it, KVM has completed the previous access; only then is the processor's state
 * complete and can be saved. */
static bool run_on(struct machine *machine)
{
    if (ioctl(machine->processor, KVM_RUN, 0) < 0) {
        needed(errno == EINTR || errno == EAGAIN ? 0 : -1, "KVM_RUN");
        return !machine->save_path;
    }
    switch (machine->run->exit_reason) {
    case KVM_EXIT_IO:
        serve_ports(machine);
        return true;
    case KVM_EXIT_MMIO:
        serve_memory(machine);
        return true;
    case KVM_EXIT_INTR:
        return true;
    case KVM_EXIT_SHUTDOWN: /* as Linux restarts */
        return false;
    default:
        fprintf(stderr, "kvm: %s: KVM stopped for reason %u\n", machine->name, machine->run->exit_reason);
        return false;
    }
}

static void *run(void *argument)
{
    struct machine *machine = argument;

    while (run_on(machine) && !machine->has_failed)
        ;
    board_take(machine->board);
    if (machine->save_path && !machine->has_failed)
        machine_save(machine, machine->save_path);
    machine->has_ended = true;
    printf("host: %s: %s\n", machine->name, machine->has_failed ? "failed" : machine->save_path ? "saved" : "ended");
    board_release(machine->board);
    return NULL;
}

static void wake(int number)
{
    (void)number;
}

void machine_start(struct machine *machine)
{
    struct sigaction action = {.sa_handler = wake};

    sigaction(SIGUSR1, &action, NULL);
    machine->counted_from = now();
    needed(-pthread_create(&machine->thread, NULL, run, machine), "a thread");
}

/* A signal that arrives before KVM_RUN is too early to stop it, but `immediate_exit` isn't. */
void machine_stop(struct machine *machine, const char *save_path)
{
    machine->save_path = save_path;
    machine->run->immediate_exit = 1;
    pthread_kill(machine->thread, SIGUSR1);
}
