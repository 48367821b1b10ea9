/* A stopped machine, as a file: its KVM state, its console, its guest's image and its memory. Only
 * the same program can load it, on a processor of the same kind. */
#include "machine.h"

#include <stdio.h>
#include <stdlib.h>
#include <string.h>
#include <sys/ioctl.h>
#include <unistd.h>

enum { MODEL_REGISTERS = 512, PAGE = 4096, LARGEST_IMAGE = 4 << 20 };

struct state {
    struct kvm_sregs system;
    struct kvm_regs registers;
    struct kvm_xcrs extended_control;
    struct kvm_xsave extended;
    struct kvm_debugregs debug;
    struct kvm_lapic_state local_controller;
    struct kvm_vcpu_events events;
    struct kvm_mp_state running;
    struct kvm_irqchip controllers[3];
    struct kvm_pit_state2 timer;
    struct kvm_clock_data clock;
    uint8_t console[CELLS];
    uint32_t model_count;
    struct kvm_msr_entry model[MODEL_REGISTERS];
    uint64_t image_length;
};

/* KVM's state of a machine and its processor, in the order in which it is restored. */
static const struct part {
    const char *name;
    unsigned long get, set;
    size_t offset;
    bool is_of_machine;
} parts[] = {
#define PROCESSOR(name, field) {#name, KVM_GET_##name, KVM_SET_##name, offsetof(struct state, field), false}
#define MACHINE(name, field) {#name, KVM_GET_##name, KVM_SET_##name, offsetof(struct state, field), true}
    MACHINE(CLOCK, clock),
    MACHINE(IRQCHIP, controllers[0]),
    MACHINE(IRQCHIP, controllers[1]),
    MACHINE(IRQCHIP, controllers[2]),
    {"PIT2", KVM_GET_PIT2, KVM_SET_PIT2, offsetof(struct state, timer), true},
    PROCESSOR(SREGS, system),
    PROCESSOR(REGS, registers),
    PROCESSOR(XCRS, extended_control),
    PROCESSOR(XSAVE, extended),
    PROCESSOR(DEBUGREGS, debug),
    PROCESSOR(LAPIC, local_controller),
    PROCESSOR(VCPU_EVENTS, events),
    PROCESSOR(MP_STATE, running),
};

/* Asks KVM for all parts, or tells them back. Returns the name of one that KVM refuses, or NULL. */
static const char *for_parts(struct machine *machine, struct state *state, bool is_get)
{
    for (const struct part *part = parts; part < parts + sizeof parts / sizeof *parts; part++)
        if (ioctl(part->is_of_machine ? machine->file : machine->processor, is_get ? part->get : part->set,
                  (uint8_t *)state + part->offset) < 0)
            return part->name;
    return NULL;
}

/* Model-specific registers are read one by one, because KVM lists some that the processor doesn't
 * have. */
static bool ask_model(struct machine *machine, unsigned long call, struct kvm_msr_entry *entry)
{
    struct {
        struct kvm_msrs head;
        struct kvm_msr_entry entry;
    } one = {{.nmsrs = 1}, *entry};
    bool is_there = ioctl(machine->processor, call, &one) == 1;

    *entry = one.entry;
    return is_there;
}

static void get_model(struct machine *machine, struct state *state)
{
    struct kvm_msr_list *list = calloc(1, sizeof *list + MODEL_REGISTERS * sizeof *list->indices);

    list->nmsrs = MODEL_REGISTERS;
    needed(ioctl(machine->system, KVM_GET_MSR_INDEX_LIST, list), "KVM_GET_MSR_INDEX_LIST");
    for (uint32_t i = 0; i < list->nmsrs; i++) {
        state->model[state->model_count] = (struct kvm_msr_entry){.index = list->indices[i]};
        state->model_count += ask_model(machine, KVM_GET_MSRS, &state->model[state->model_count]);
    }
    free(list);
}

static void write_memory(FILE *file, const uint8_t *memory)
{
    static const uint8_t none[PAGE];

    for (size_t page = 0; page < MEMORY; page += PAGE)
        if (memcmp(memory + page, none, PAGE) == 0)
            fseek(file, PAGE, SEEK_CUR); /* the file has a hole there */
        else
            fwrite(memory + page, PAGE, 1, file);
}

void machine_save(struct machine *machine, const char *path)
{
    struct pciguest *guests = &machine->board->guests;
    struct state *state = calloc(1, sizeof *state);
    FILE *file = fopen(path, "wb");
    size_t length = 0;
    uint8_t *image;

    needed(file ? 0 : -1, path);
    for (uint32_t i = 0; i < 3; i++)
        state->controllers[i].chip_id = i;
    needed(for_parts(machine, state, true) ? -1 : 0, "the processor's state");
    get_model(machine, state);
    state->clock.flags = 0; /* the machine's clock was stopped in the meantime */
    memcpy(state->console, machine->console.own, CELLS);
    (void)pciguest_save(guests, machine->guest, NULL, 0, &length); /* the size of the image */
    image = malloc(length);
    needed(pciguest_save(guests, machine->guest, image, length, &length) ? -1 : 0, "an image");
    state->image_length = length;
    fwrite(state, sizeof *state, 1, file);
    fwrite(image, length, 1, file);
    write_memory(file, machine->memory);
    fflush(file);
    needed(ferror(file) ? -1 : ftruncate(fileno(file), ftell(file)), path);
    fclose(file);
    free(image);
    free(state);
}

/* Reads a file of a machine; false if it isn't one. */
static bool read_file(struct machine *machine, const char *path, struct state *state, uint8_t *image)
{
    FILE *file = fopen(path, "rb");
    bool is_whole = file && fread(state, sizeof *state, 1, file) == 1 && state->model_count <= MODEL_REGISTERS &&
                    state->image_length <= LARGEST_IMAGE && fread(image, state->image_length, 1, file) == 1 &&
                    fread(machine->memory, MEMORY, 1, file) == 1;

    if (file)
        fclose(file);
    return is_whole;
}

/* Puts a machine into a state, or says why that can't be. */
static const char *set_state(struct machine *machine, struct state *state, const uint8_t *image)
{
    const char *fault = machine_restore(machine, image, state->image_length);

    memcpy(machine->console.own, state->console, CELLS);
    if (!fault && !uart_is_sound(&machine->console))
        fault = "the console's registers contradict each other";
    if (!fault)
        fault = for_parts(machine, state, false);
    for (uint32_t i = 0; i < state->model_count && !fault; i++)
        (void)ask_model(machine, KVM_SET_MSRS, &state->model[i]); /* some are read-only */
    if (!fault)
        machine_settle(machine);
    return fault;
}

const char *machine_load(struct machine *machine, const char *path)
{
    struct state *state = calloc(1, sizeof *state);
    uint8_t *image = malloc(LARGEST_IMAGE);
    const char *fault = "it isn't the file of a machine";

    needed(state && image ? 0 : -1, path);
    if (read_file(machine, path, state, image))
        fault = set_state(machine, state, image);
    free(image);
    free(state);
    return fault;
}
