#!/usr/bin/env python3
"""A hypervisor's accesses (`serve`) and a device model (`act`), with pciguest. This is
examples/c/device.c with the module in library/python, and prints the same.

    PYTHONPATH=library/python python3 examples/python/device.py BOARD

BOARD is examples/device.toml, whose guest `a` has this device.
"""
import sys
from contextlib import suppress
from dataclasses import dataclass
from typing import Optional, Tuple

from pciguest import Guest, Hit, Machine, Refusal

# The registers of the device's region. Bit 0 of STATUS is set when the device was rung, and is cleared by writing a one. COUNT
# says how often the device was rung; the driver can only read it. A write to DOORBELL rings the device.
STATUS, COUNT, DOORBELL, SERVED = 0x00, 0x04, 0x08, 1
# The number with which an access past a region's end is refused.
OUT_OF_RANGE = 303


@dataclass(frozen=True)
class Trap:
    """A trapped access of 1 to 8 bytes at any address."""

    space: str
    place: int
    width: int
    written: Optional[int] = None


def find(guest: Guest, trap: Trap) -> Tuple[bool, Optional[Hit]]:
    """Returns whether an access reaches anything on the board, and what. If it reaches nothing, it
    is meant for the hypervisor's own UART or RAM, or for nothing at all. A 4-byte access to CF8h
    is always for the board's CONFIG_ADDRESS."""
    hit = guest.locate(trap.space, trap.place)
    return hit is not None or (trap.space, trap.place, trap.width) == ("io", 0xCF8, 4), hit


def serve(guest: Guest, trap: Trap, hit: Optional[Hit]) -> int:
    """Makes one access, and returns the value that is read or written. Accesses to regions are made
    by slot, register and offset, which `find` returned. All others are made by port or address:
    accesses to configuration space, and those that extend past a region's end, where another region
    may begin. A bus can't refuse anything, so if nothing responds, a write is lost."""
    try:
        if hit is not None and hit.region is not None:
            if trap.written is None:
                return guest.region_read(hit.slot, hit.region, hit.offset, trap.width)
            guest.region_write(hit.slot, hit.region, hit.offset, trap.written, trap.width)
            return trap.written
    except Refusal as refusal:
        if refusal.number != OUT_OF_RANGE:
            return (1 << 8 * trap.width) - 1 if trap.written is None else trap.written
    space = guest.io if trap.space == "io" else guest.memory
    with suppress(Refusal):
        if trap.written is None:
            return space.wide[trap.place:trap.width]
        space.wide[trap.place:trap.width] = trap.written
    return (1 << 8 * trap.width) - 1 if trap.written is None else trap.written


def ring(guest: Guest, hit: Hit) -> None:
    """The device is rung: it counts the ring, sets the bit of STATUS, and drives its pin unless the
    driver has disabled interrupts."""
    rings = guest.device_read(hit.slot, COUNT, region=hit.region, width=4)
    guest.device_write(hit.slot, COUNT, rings + 1 & 0xFFFFFFFF, region=hit.region, width=4)
    guest.raise_bits(hit.slot, STATUS, SERVED, region=hit.region)
    interrupt = guest.function(hit.slot).interrupt
    print(f"ring, INT{'-ABCD'[interrupt.pin]}# {'off' if interrupt.is_disabled else 'on'}")


def tell_traps(guest: Guest) -> None:
    """Prints which addresses must be trapped from now on."""
    for region in (moved.now for moved in guest.moved()):
        if region is not None and region.is_open:
            name = "port" if region.space == "io" else "memory"
            print(f"trap {name} {region.first:#x} to {region.first + region.size - 1:#x}")


def act(guest: Guest, trap: Trap, hit: Hit) -> None:
    """Acts after a write. If it reached configuration space, regions may have moved. If it reached
    the doorbell, the device acts. The access may also begin before the doorbell and extend into
    it."""
    if hit.region is None:
        tell_traps(guest)
    elif hit.offset < DOORBELL + 4 and hit.offset + trap.width > DOORBELL:
        ring(guest, hit)


def step(guest: Guest, trap: Trap) -> None:
    """Makes an access, prints it, and lets the device act."""
    name = "read " if trap.written is None else "write"
    space = "port" if trap.space == "io" else trap.space
    is_here, hit = find(guest, trap)
    value = f"0x{serve(guest, trap, hit):0{2 * trap.width}x}" if is_here else "nobody here"
    print(f"{name} {space} {trap.place:#x} {trap.width}: {value}")
    if hit is not None and trap.written is not None:
        act(guest, trap, hit)


def select(device: int, offset: int) -> Trap:
    """Selects a register of a device on bus 0, with CONFIG_ADDRESS."""
    return Trap("io", 0xCF8, 4, 0x80000000 | device << 11 | offset)


def data(width: int, written: Optional[int] = None) -> Trap:
    return Trap("io", 0xCFC, width, written)


def register(offset: int, width: int, written: Optional[int] = None) -> Trap:
    return Trap("memory", 0xE0000000 + offset, width, written)


# Firmware finds the device through ports CF8h and CFCh, sizes its region and places it. Then a driver rings the device,
# reads the result, and clears it.
ACCESSES = (
    select(0, 0x00),  # firmware: what is device 0?
    data(4),
    select(7, 0x00),  # and device 7?
    data(4),
    select(0, 0x10),  # the size of its region
    data(4, 0xFFFFFFFF),
    data(4),
    data(4, 0xE0000000),  # its address
    select(0, 0x04),
    data(2, 0x0002),  # memory on
    register(DOORBELL, 4, 0x12345678),  # the driver rings
    register(STATUS, 1),
    register(DOORBELL, 4),
    register(DOORBELL + 2, 1, 0xFF),  # and again, by one byte of it
    register(STATUS, 8),  # STATUS and COUNT at once
    register(STATUS, 1, SERVED),  # the driver clears STATUS; COUNT stays
    register(COUNT, 4, 1),
    select(0, 0x04),
    data(2, 0x0402),  # no more interrupts; the region's address isn't printed again
    register(COUNT + 2, 8, 0),  # unaligned, and across the doorbell
    register(STATUS, 8),
    register(0xFFC, 8),  # past the region's end
    Trap("memory", 0xD0000000, 4),  # nothing responds
)


if __name__ == "__main__":
    if len(sys.argv) != 2:
        sys.exit("device.py BOARD")
    with Machine.load(sys.argv[1]) as machine:
        a = machine.guest("a")
        for access in ACCESSES:
            step(a, access)
