/* What machine.c and kvm.c have, for a program that has no KVM. */
#ifndef WITHOUT_KVM_H
#define WITHOUT_KVM_H

#include "machine.h"

#include <stdio.h>
#include <stdlib.h>

void machine_line(struct machine *machine, unsigned line, bool is_high)
{
    (void)machine, (void)line, (void)is_high;
}

void machine_message(struct machine *machine, uint64_t address, uint32_t data)
{
    (void)machine, (void)address, (void)data;
}

void machine_print(struct machine *machine, uint8_t byte)
{
    (void)machine, (void)byte;
}

int needed(int result, const char *what)
{
    if (result < 0) {
        perror(what);
        exit(1);
    }
    return result;
}

#endif
