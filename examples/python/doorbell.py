#!/usr/bin/env python3
"""A device that counts the rings of its driver, and a driver that rings it.

    PYTHONPATH=library/python python3 examples/python/doorbell.py

The class declares the function and generates its table in the board file; `on_write` says what the
device does.
"""
from pciguest import Device, Machine, Register

BOARD = """\
[host]
io = [0x1000, 0xffff]
mem = [0xc0000000, 0xdfffffff]

[[guest]]
name = "a"
slots = ["1.0"]

"""


class Doorbell(Device):
    vendor_id, device_id, class_code = 0x1234, 0x0001, 0xFF0000
    bars = {0: ("mem32", 0x1000)}
    status = Register(0x00, width=1, w1c=0x01)  # the driver clears the bit by writing a one
    rings = Register(0x04, width=4)  # the driver can only read it
    bell = Register(0x08, width=4, rw=0xFFFFFFFF)

    def on_write(self, register, value):
        if register is Doorbell.bell:
            self.rings += 1
            self.status = 1
            print(f"device: ring {self.rings}, told {value:#x}")


def main():
    board = BOARD + Doorbell.endpoint("1.0")
    print(Doorbell.endpoint("1.0"))
    with Machine(board) as machine:
        a = machine.guest("a")
        machine.attach(a, 0, Doorbell())
        a.config[0][0x10:4] = 0xE0000000  # the address of its region
        a.config[0][0x04:2] = 2  # memory on
        for told in (0x11, 0x22):
            a.memory[0xE0000008:4] = told
        print(f"driver: {a.memory[0xE0000004:4]} rings, status {a.memory[0xE0000000:1]}")
        a.memory[0xE0000000:1] = 1
        print(f"driver: status {a.memory[0xE0000000:1]} once it was cleared")


if __name__ == "__main__":
    main()
