/* Starts Linux at its 64-bit entry point (Documentation/arch/x86/boot.rst in its source), from the
 * ELF file that is packed in its image. */
#include "machine.h"

#include <asm/bootparam.h>
#include <elf.h>
#include <stdlib.h>
#include <string.h>
#include <sys/ioctl.h>

/* Where things are in low memory, and their contents. */
enum { PARAMETERS = 0x10000, WORDS = 0x20000, TABLES = 0x30000, LOW_END = 0x9fc00, HIGH = 0x100000, PAGE = 4096,
       USABLE = 1, WRITABLE = 3, LARGE = 0x80, LARGE_BITS = 21, LINUX_HEADER = 0x53726448 };

/* Copies bytes into the machine's memory, and returns their address there. */
static uint32_t put(struct machine *machine, const void *bytes, size_t length, size_t at)
{
    needed(at <= MEMORY && length <= MEMORY - at ? 0 : -1, "what a machine begins with is too large for its memory");
    memcpy(machine->memory + at, bytes, length);
    return (uint32_t)at;
}

/* Page tables, one of each level, which map the first 1 GB to itself in pages of 2 MB. */
static void put_tables(struct machine *machine)
{
    uint64_t tables[3][512] = {{TABLES + PAGE + WRITABLE}, {TABLES + 2 * PAGE + WRITABLE}};

    for (uint64_t page = 0; page < 512; page++)
        tables[2][page] = (page << LARGE_BITS) + LARGE + WRITABLE;
    put(machine, tables, sizeof tables, TABLES);
}

/* A segment that contains all addresses. */
static struct kvm_segment segment(uint16_t selector, uint8_t type, bool is_code)
{
    return (struct kvm_segment){.limit = UINT32_MAX, .selector = selector, .type = type, .present = 1, .s = 1, .g = 1,
                                .l = is_code, .db = !is_code};
}

/* Sets the processor up to begin in long mode, with the address of the parameters in RSI. */
static void begin(struct machine *machine, uint64_t entry)
{
    enum { CODE = 0xb, DATA_TYPE = 0x3, PROTECTED = 1, PAGED = 1u << 31, LONG_ADDRESSES = 1 << 5, LONG_MODE = 0x500 };
    struct kvm_regs registers = {.rip = entry, .rsi = PARAMETERS, .rflags = 2};
    struct kvm_sregs system;

    needed(ioctl(machine->processor, KVM_GET_SREGS, &system), "KVM_GET_SREGS");
    system.cs = segment(0x10, CODE, true);
    system.ds = system.es = system.fs = system.gs = system.ss = segment(0x18, DATA_TYPE, false);
    system.cr0 |= PROTECTED | PAGED;
    system.cr3 = TABLES;
    system.cr4 = LONG_ADDRESSES;
    system.efer = LONG_MODE;
    needed(ioctl(machine->processor, KVM_SET_SREGS, &system), "KVM_SET_SREGS");
    needed(ioctl(machine->processor, KVM_SET_REGS, &registers), "KVM_SET_REGS");
}

/* Copies the kernel's segments to their addresses, and returns the entry point. */
static uint64_t put_kernel(struct machine *machine, const char *path)
{
    size_t length;
    uint8_t *bytes = bytes_of(path, &length);
    Elf64_Ehdr *header = (Elf64_Ehdr *)bytes;
    uint64_t entry;

    needed(length > PAGE && memcmp(bytes, ELFMAG, SELFMAG) == 0 ? 0 : -1, path);
    for (size_t i = 0; i < header->e_phnum; i++) {
        Elf64_Phdr *part = (Elf64_Phdr *)(bytes + header->e_phoff) + i;

        if (part->p_type == PT_LOAD)
            put(machine, bytes + part->p_offset, part->p_filesz, part->p_paddr);
    }
    entry = header->e_entry;
    free(bytes);
    return entry;
}

void machine_boot(struct machine *machine, const char *kernel, const char *initial, const char *words)
{
    static const struct boot_e820_entry usable[] = {{0, LOW_END, USABLE}, {HIGH, MEMORY - HIGH, USABLE}};
    struct boot_params parameters = {.hdr = {.boot_flag = 0xaa55, .header = LINUX_HEADER, .type_of_loader = 0xff}};
    size_t length;
    void *bytes = bytes_of(initial, &length);

    parameters.hdr.cmd_line_ptr = put(machine, words, strlen(words) + 1, WORDS);
    parameters.hdr.ramdisk_size = (uint32_t)length;
    parameters.hdr.ramdisk_image = put(machine, bytes, length, (MEMORY - length) / PAGE * PAGE);
    parameters.e820_entries = 2;
    memcpy(parameters.e820_table, usable, sizeof usable);
    put(machine, &parameters, sizeof parameters, PARAMETERS);
    put_tables(machine);
    free(bytes);
    begin(machine, put_kernel(machine, kernel));
    machine_wire(machine);
}
