/* What programs that run in place of Linux need: ports, configuration space, and the console. */
#ifndef PROBE_H
#define PROBE_H

#include <stdint.h>

enum { CONSOLE = 0x3f8 };

__asm__(".globl _start\n_start: mov $0x300000, %rsp\n call run\n");

static inline void out(uint16_t port, uint8_t value)
{
    __asm__ volatile("outb %0, %1" : : "a"(value), "Nd"(port));
}

static inline uint8_t in(uint16_t port)
{
    uint8_t value;

    __asm__ volatile("inb %1, %0" : "=a"(value) : "Nd"(port));
    return value;
}

static inline uint32_t configuration(uint32_t slot, uint32_t offset)
{
    uint32_t value;

    __asm__ volatile("outl %0, %1" : : "a"(0x80000000u | slot << 11 | offset), "d"((uint16_t)0xcf8));
    __asm__ volatile("inl %1, %0" : "=a"(value) : "d"((uint16_t)0xcfc));
    return value;
}

static inline void configure(uint32_t slot, uint32_t offset, uint32_t value)
{
    configuration(slot, offset);
    __asm__ volatile("outl %0, %1" : : "a"(value), "d"((uint16_t)0xcfc));
}

static inline void print(const char *text)
{
    for (; *text; text++)
        out(CONSOLE, (uint8_t)*text);
}

static inline void print_number(uint32_t number, int digits)
{
    while (digits-- > 0)
        out(CONSOLE, (uint8_t)"0123456789abcdef"[number >> 4 * digits & 15]);
    print(" ");
}

/* What was typed at the console; 0 if nothing was. */
static inline uint8_t typed(void)
{
    return in(CONSOLE + 5) & 1 ? in(CONSOLE) : 0;
}

#endif
