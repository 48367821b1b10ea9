#!/usr/bin/env python3
"""The device of board.toml, and a driver that is tested with it.
    python3 examples/driver/sum.py examples/driver/board.toml"""
import sys

from pciguest import Device, Machine, Register

DONE, FAILED = 1, 2


class Sum(Device):
    """Adds up bytes of its guest's memory, and requests an interrupt."""

    vendor_id, device_id, class_code = 0x1234, 0x00E1, 0xFF0000
    bars = {0: ("mem32", 0x1000), 1: ("mem32", 0x1000)}
    start = Register(0x00, 4, rw=0xFFFFFFFF)
    status = Register(0x04, 4, w1c=DONE | FAILED)
    address = Register(0x08, 8, rw=2**64 - 1)
    length = Register(0x10, 4, rw=0xFFFFFFFF)
    sum = Register(0x14, 4)
    # MSI-X: Message Control, the vector's mask bit, and the pending bit
    control = Register(0x52, 2, bar=None, rw=0xC000)
    mask = Register(0x0C, 4, bar=1, reset=1, rw=1)
    pending = Register(0x10, 8, bar=1)

    def __init__(self, memory, send):
        self.memory, self.send = memory, send

    def on_write(self, register, value):
        if register is Sum.start:
            end = self.address + self.length
            is_allowed = self.bus_master and end <= len(self.memory)
            self.sum = sum(self.memory[self.address:end]) if is_allowed else 0
            self.status = DONE if is_allowed else FAILED
            self.pending = 1
        message = self.msix_message(0)
        if self.pending and message.can_be_sent:
            self.pending = 0
            self.send(message.address, message.data)


class SumDriver:
    """The driver. It knows the guest and its memory, and finds everything else."""

    def __init__(self, guest, memory):
        self.config, self.registers, self.memory = guest.config[0], guest.memory, memory
        self.config[0x10:4], self.config[0x14:4] = 0xE0000000, 0xE0001000
        self.config[0x04:2] = 0x6  # memory and Bus Master
        at = self.config[0x34:1]
        while at:
            if self.config[at:1] == 0x09:
                self.most = self.config[at + 4:4]
            elif self.config[at:1] == 0x11:
                for offset, value in (0, 0xFEE00000), (4, 0), (8, 0x41), (12, 0):
                    self.registers[0xE0001000 + offset:4] = value
                self.config[at + 2:2] = 0x8000  # MSI-X Enable
            at = self.config[at + 1:1]

    def start(self, data, address=0x1000):
        assert len(data) <= self.most
        self.memory[address:address + len(data)] = data
        self.registers.wide[0xE0000008:8] = address
        self.registers[0xE0000010:4] = len(data)
        self.registers[0xE0000000:4] = 1

    def result(self):
        """The sum, or None if the device failed. Clears the status."""
        status = self.registers[0xE0000004:4]
        self.registers[0xE0000004:4] = status
        return self.registers[0xE0000014:4] if status == DONE else None


def main(board):
    memory, messages = bytearray(0x10000), []
    with Machine.load(board) as machine:
        a = machine.guest("a")
        machine.attach(a, 0, Sum(memory, lambda address, data: messages.append(data)))
        driver = SumDriver(a, memory)
        driver.start(bytes([1, 2, 3, 4]))
        print(f"a sum: {driver.result()}, messages sent {len(messages)}")
        driver.registers[0xE000100C:4] = 1
        driver.start(bytes([5, 6]))
        print(f"the vector is masked: {driver.result()}, messages sent {len(messages)}")
        driver.registers[0xE000100C:4] = 0
        print(f"it is unmasked: messages sent {len(messages)}")
        driver.config[0x04:2] = 0x2
        driver.start(bytes([1, 2, 3, 4]))
        print(f"Bus Master is clear: {driver.result()}, messages sent {len(messages)}")


if __name__ == "__main__":
    if len(sys.argv) != 2:
        sys.exit("sum.py BOARD")
    main(sys.argv[1])
