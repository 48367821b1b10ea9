"""The devices of a PC that firmware uses or waits for: timer, clock memory, interrupt masks, consoles.

Time is counted in timer ticks, 1193182 per second, and advances by one with each access to a port.
"""

from __future__ import annotations

from functools import partial
from typing import Callable, Dict, List, Optional, Tuple

TICKS = 1193182


class BoardError(Exception):
    """The board refused an access."""


class Counter:
    """One counter of the 8254 timer. Its mode is 0 (counts down once) or another (counts repeatedly)."""

    def __init__(self) -> None:
        self.reload, self.start, self.mode, self.access = 0x10000, 0, 2, 3
        self.low: Optional[int] = None
        self.held: List[int] = []

    def count(self, now: int) -> int:
        passed = now - self.start
        return (self.reload - passed) & 0xFFFF if self.mode == 0 else self.reload - passed % self.reload

    def is_done(self, now: int) -> bool:
        return now - self.start >= self.reload

    def hold(self, now: int) -> None:
        """Latches the count, whose bytes the next reads return."""
        count = self.count(now) & 0xFFFF
        self.held = {1: [count & 0xFF], 2: [count >> 8]}.get(self.access, [count & 0xFF, count >> 8])

    def command(self, value: int, now: int) -> None:
        if value >> 4 & 3 == 0:
            self.hold(now)
        else:
            self.access, self.mode, self.low, self.held = value >> 4 & 3, value >> 1 & 7, None, []

    def read(self, now: int) -> int:
        if not self.held:
            self.hold(now)
        return self.held.pop(0)

    def write(self, value: int, now: int) -> None:
        if self.access == 3 and self.low is None:
            self.low = value
            return
        low = {1: value, 2: 0}.get(self.access, self.low or 0)
        high = 0 if self.access == 1 else value
        self.reload, self.start, self.low = (high << 8 | low) or 0x10000, now, None


class InterruptController:
    """One 8259: its mask and its first vector. The PC delivers the interrupts."""

    def __init__(self, vector: int) -> None:
        self.vector, self.mask, self.step = vector, 0xFF, 0

    def command(self, value: int) -> None:
        if value & 0x10:
            self.step = 1

    def write(self, value: int) -> None:
        """The first byte of an initialization is followed by three more; all other writes are masks."""
        if self.step == 0:
            self.mask = value
            return
        if self.step == 1:
            self.vector = value
        self.step = (self.step + 1) % 4


class SerialPort:
    """A 16550. Its output is passed on, and its input is what `type_text` was given."""

    def __init__(self, told: Callable[[int], None]) -> None:
        self.told, self.kept = told, bytearray(8)
        self.typed: List[int] = []

    def type_text(self, text: str) -> None:
        self.typed += text.encode()

    def read(self, register: int) -> int:
        if register == 0 and not self.kept[3] & 0x80:
            return self.typed.pop(0) if self.typed else 0
        return {2: 0x01, 5: 0x60 | bool(self.typed), 6: 0xB0}.get(register, self.kept[register])

    def write(self, register: int, value: int) -> None:
        if register == 0 and not self.kept[3] & 0x80:
            self.told(value)
        else:
            self.kept[register] = value


def clock_memory(ram: int) -> bytearray:
    """The battery-backed bytes: a date, and the size of memory."""
    cells = bytearray(128)
    above_1, above_16 = min((ram >> 10) - 1024, 0xFFFF), (ram - (16 << 20)) >> 16
    for at, value in {0x04: 0x12, 0x06: 2, 0x07: 1, 0x08: 1, 0x09: 0x24, 0x32: 0x20, 0x0A: 0x26, 0x0B: 2, 0x0D: 0x80,
                      0x14: 6, 0x15: 0x80, 0x16: 2}.items():
        cells[at] = value
    for at, value in ((0x17, above_1), (0x30, above_1), (0x34, above_16)):
        cells[at:at + 2] = value.to_bytes(2, "little")
    return cells


class Chipset:
    """The ports of these devices. `readers` and `writers` have a function for each port; all other ports belong
    to the board."""

    def __init__(self, ram: int, told: Callable[[int], None]) -> None:
        self.now = 0
        self.counters = [Counter() for _ in range(3)]
        self.controllers = {0x20: InterruptController(8), 0xA0: InterruptController(0x70)}
        self.serial = SerialPort(told)
        self.cells, self.index, self.kept = clock_memory(ram), 0, {0x61: 0, 0x92: 2}
        self.readers: Dict[int, Callable[[], int]] = {0x61: self.read_speaker, 0x70: lambda: self.index, 0x71: lambda: self.cells[self.index & 127],
                        0x92: lambda: self.kept[0x92], 0x402: lambda: 0xE9}
        self.writers: Dict[int, Callable[[int], None]] = {0x43: self.write_timer_command, 0x61: self.keep(0x61), 0x70: self.write_index,
                        0x71: self.write_cell, 0x92: self.keep(0x92), 0x402: told}
        self.add_timer()
        self.add_controllers()
        for register in range(8):
            self.readers[0x3F8 + register] = partial(self.serial.read, register)
            self.writers[0x3F8 + register] = partial(self.serial.write, register)

    def add_timer(self) -> None:
        for port, counter in enumerate(self.counters, 0x40):
            self.readers[port], self.writers[port] = self.of_counter(counter)

    def of_counter(self, counter: Counter) -> Tuple[Callable[[], int], Callable[[int], None]]:
        return lambda: counter.read(self.now), lambda value: counter.write(value, self.now)

    def add_controllers(self) -> None:
        for port, controller in self.controllers.items():
            self.readers[port], self.writers[port] = (lambda: 0), controller.command
            self.readers[port + 1] = partial(getattr, controller, "mask")
            self.writers[port + 1] = controller.write

    def keep(self, port: int) -> Callable[[int], None]:
        def write(value: int) -> None:
            self.kept[port] = value
        return write

    def write_index(self, value: int) -> None:
        self.index = value

    def write_cell(self, value: int) -> None:
        self.cells[self.index & 127] = value

    def write_timer_command(self, value: int) -> None:
        if value >> 6 == 3:
            for place, counter in enumerate(self.counters):
                if value >> place & 2 and not value & 0x20:
                    counter.hold(self.now)
        else:
            self.counters[value >> 6].command(value, self.now)

    def read_speaker(self) -> int:
        """Bit 5 is the output of counter 2, and bit 4 toggles."""
        return self.kept[0x61] & 0x0F | self.counters[2].is_done(self.now) << 5 | self.now & 0x10

    def next_tick(self) -> Optional[int]:
        """Advances time to the next interrupt of counter 0. Returns its vector, or None if it is masked."""
        counter, controller = self.counters[0], self.controllers[0x20]
        self.now += counter.reload - (self.now - counter.start) % counter.reload
        return None if controller.mask & 1 else controller.vector
