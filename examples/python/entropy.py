#!/usr/bin/env python3
"""A virtio entropy device and a driver for it, tested without a virtual machine: the driver finds
the device's structures through the capability list, sets up a queue, and gets an MSI-X message.

    PYTHONPATH=library/python python3 examples/python/entropy.py BOARD

BOARD is examples/entropy.toml. examples/rust/entropy.rs is the same program in Rust. Section
numbers are those of virtio 1.2. Not implemented: interrupts without MSI-X, queues of other sizes,
and access to the BARs through configuration space (4.1.4.9).
"""
import struct
import sys

from pciguest import Device, Machine, Register

ACKNOWLEDGE, DRIVER, DRIVER_OK, FEATURES_OK, NEEDS_RESET = 1, 2, 4, 8, 64  # 2.1
VERSION_1 = 1 << 32  # 6
NEXT, WRITE = 1, 2  # flags of a descriptor, 2.7.5
QUEUE_SIZE, VECTORS, NO_VECTOR = 8, 2, 0xFFFF
DESCRIPTOR, INDEX, USED = "<QIHH", "<H", "<II"


class BadAddress(Exception):
    """An address past the end of a guest's memory."""


class Memory:
    """The memory of a guest, which its device accesses by DMA."""

    def __init__(self, size):
        self.bytes = bytearray(size)

    def read(self, layout, address):
        return struct.unpack_from(layout, *self.within(layout, address))

    def write(self, layout, address, *values):
        struct.pack_into(layout, *self.within(layout, address), *values)

    def within(self, layout, address):
        if address + struct.calcsize(layout) > len(self.bytes):
            raise BadAddress(hex(address))
        return self.bytes, address


def noise(count, state=1):
    """Bytes that the driver can check, from a linear congruential generator."""
    for _ in range(count):
        state = (state * 1103515245 + 12345) % 2**31
        yield state >> 16 & 0xFF


class Entropy(Device):
    """The device (5.4). `memories` contains the memory of each guest, and `send` delivers a
    message."""

    vendor_id, device_id, revision_id, class_code = 0x1AF4, 0x1044, 1, 0x00FF00
    subsystem_vendor_id, subsystem_id = 0x1AF4, 0x1100
    bars = {0: ("mem32", 0x1000), 1: ("mem32", 0x1000)}
    # common configuration, 4.1.4.3, and the queue's notification register
    feature_select = Register(0x00, 4, rw=0xFFFFFFFF)
    feature = Register(0x04, 4)
    driver_feature_select = Register(0x08, 4, rw=0xFFFFFFFF)
    driver_feature = Register(0x0C, 4, rw=0xFFFFFFFF)
    config_vector = Register(0x10, 2, reset=NO_VECTOR, rw=0xFFFF)
    num_queues = Register(0x12, 2, reset=1)
    status = Register(0x14, 1, rw=0xFF)
    queue_select = Register(0x16, 2, rw=0xFFFF)
    queue_size = Register(0x18, 2, reset=QUEUE_SIZE)
    queue_vector = Register(0x1A, 2, reset=NO_VECTOR, rw=0xFFFF)
    queue_enable = Register(0x1C, 2, rw=0xFFFF)
    queue_desc = Register(0x20, 8, rw=2**64 - 1)
    queue_driver = Register(0x28, 8, rw=2**64 - 1)
    queue_device = Register(0x30, 8, rw=2**64 - 1)
    notify = Register(0x38, 2, rw=0xFFFF)
    # the device's own state: because no driver can write this register, images contain it
    accepted = Register(0x40, 8)
    # MSI-X: Message Control, Vector Control of both vectors, and the pending bits
    control = Register(0x82, 2, bar=None, reset=VECTORS - 1, rw=0xC000)
    mask_0 = Register(0x0C, 4, bar=1, reset=1, rw=1)
    mask_1 = Register(0x1C, 4, bar=1, reset=1, rw=1)
    pending = Register(0x20, 8, bar=1)

    def __init__(self, memories, send):
        self.memories, self.send = memories, send

    def on_write(self, register, value):
        if register is Entropy.feature_select:
            self.feature = VERSION_1 >> 32 * value & 0xFFFFFFFF if value < 2 else 0
        elif register is Entropy.driver_feature and self.driver_feature_select < 2:
            up = 32 * self.driver_feature_select
            self.accepted = self.accepted & ~(0xFFFFFFFF << up) | value << up
        elif register is Entropy.status and value == 0:
            self.restart()
        elif register is Entropy.status and value & FEATURES_OK and self.accepted != VERSION_1:
            self.status = value & ~FEATURES_OK
        elif register is Entropy.queue_select:
            self.queue_size = QUEUE_SIZE if value == 0 else 0  # there is one queue
        elif register in (Entropy.config_vector, Entropy.queue_vector) and value >= VECTORS:
            setattr(self, register.name, NO_VECTOR)
        elif register is Entropy.notify:
            self.serve()
        elif register in (Entropy.control, Entropy.mask_0, Entropy.mask_1):
            self.send_pending()

    def restart(self):
        """A reset by the driver, of virtio's registers but not of the function's other ones."""
        for register in Entropy.registers:
            if register.bar == 0:
                setattr(self, register.name, register.reset)

    def serve(self):
        """Fills the available buffers. The device may access only the memory of the guest that has
        its function, and only while that guest has set Bus Master."""
        if not self.status & DRIVER_OK or not self.queue_enable or not self.bus_master:
            return
        guest, _ = self.seat
        try:
            self.fill_available(self.memories[guest])
        except BadAddress:
            self.status |= NEEDS_RESET

    def fill_available(self, memory):
        """Fills buffers in order. The used ring says how many were filled before."""
        (available,) = memory.read(INDEX, self.queue_driver + 2)
        (used,) = memory.read(INDEX, self.queue_device + 2)
        while used != available:
            entry = used % QUEUE_SIZE
            (head,) = memory.read(INDEX, self.queue_driver + 4 + 2 * entry)
            memory.write(USED, self.queue_device + 4 + 8 * entry, head, self.fill(memory, head))
            used = (used + 1) % 2**16
            memory.write(INDEX, self.queue_device + 2, used)
        self.interrupt()

    def fill(self, memory, index):
        """Fills the buffer of a chain of descriptors, and returns how many bytes were written."""
        written = 0
        for _ in range(QUEUE_SIZE):
            place = self.queue_desc + 16 * index
            address, length, flags, index = memory.read(DESCRIPTOR, place)
            if flags & WRITE:
                length = min(length, 64)
                memory.write(f"{length}s", address, bytes(noise(length)))
                written += length
            if not flags & NEXT:
                break
        return written

    def interrupt(self):
        if self.queue_vector != NO_VECTOR and self.msix_message(self.queue_vector).is_enabled:
            self.pending |= 1 << self.queue_vector
            self.send_pending()

    def send_pending(self):
        """Sends pending messages that may be sent now. The message of a masked vector stays
        pending."""
        for vector in range(VECTORS):
            message = self.msix_message(vector)
            if self.pending >> vector & 1 and message.can_be_sent:
                self.pending &= ~(1 << vector)
                self.send(self.seat[0], message.address, message.data)


class EntropyDriver:
    """The driver. It knows the guest and its memory, and finds everything else."""

    DESC, AVAILABLE, USED, BUFFER = 0x1000, 0x2000, 0x3000, 0x4000  # in the guest's memory

    def __init__(self, guest, memory):
        self.memory, self.registers = memory, guest.memory
        self.config = next(config for config in guest.config if config[0:4] == 0x10441AF4)
        self.config[0x10:4], self.config[0x14:4] = 0xE0000000, 0xE0001000
        self.config[0x04:2] = 0x0006  # memory and Bus Master
        self.places, at = {}, self.config[0x34:1]
        for _ in range(48):  # no list without a loop has more structures
            if at < 0x40:
                break
            if self.config[at:1] == 0x09:  # virtio's structures by cfg_type, 4.1.4
                bar, place = self.config[at + 4:1], self.config[at + 8:4]
                self.places[self.config[at + 3:1]] = self.address(bar) + place
            elif self.config[at:1] == 0x11:  # MSI-X
                self.msix, table = at, self.config[at + 4:4]
                self.vector = self.address(table & 7) + (table & ~7)
            at = self.config[at + 1:1]
        self.set_up(self.places[1])

    def address(self, bar):
        return self.config[0x10 + 4 * bar:4] & ~0xF

    def set_up(self, common):
        for status in 0, ACKNOWLEDGE, ACKNOWLEDGE | DRIVER:
            self.registers[common + 0x14:1] = status
        for offset, value in (0x08, 1), (0x0C, VERSION_1 >> 32):
            self.registers[common + offset:4] = value
        self.registers[common + 0x14:1] = ACKNOWLEDGE | DRIVER | FEATURES_OK
        assert self.registers[common + 0x14:1] & FEATURES_OK
        for offset, value in (0, 0xFEE00000), (4, 0), (8, 0x41), (12, 0):
            self.registers[self.vector + offset:4] = value
        self.config[self.msix + 2:2] = 0x8000  # MSI-X Enable
        self.registers[common + 0x1A:2] = 0  # the queue's vector
        for offset, place in (0x20, self.DESC), (0x28, self.AVAILABLE), (0x30, self.USED):
            self.registers.wide[common + offset:8] = place
        self.registers[common + 0x1C:2] = 1  # the queue is enabled
        self.registers[common + 0x14:1] = ACKNOWLEDGE | DRIVER | FEATURES_OK | DRIVER_OK

    def ask(self, count):
        """Makes a buffer available to the device."""
        (available,) = self.memory.read(INDEX, self.AVAILABLE + 2)
        self.memory.write(DESCRIPTOR, self.DESC, self.BUFFER, count, WRITE, 0)
        self.memory.write(INDEX, self.AVAILABLE + 4 + 2 * (available % QUEUE_SIZE), 0)
        self.memory.write(INDEX, self.AVAILABLE + 2, available + 1)
        self.notify()

    def notify(self):
        self.registers[self.places[2]:2] = 0

    def answer(self):
        """The bytes in the buffer, once the device has filled it."""
        (available,) = self.memory.read(INDEX, self.AVAILABLE + 2)
        (used,) = self.memory.read(INDEX, self.USED + 2)
        _, length = self.memory.read(USED, self.USED + 4 + 8 * ((used - 1) % QUEUE_SIZE))
        return self.memory.read(f"{length}s", self.BUFFER)[0] if used == available else b""


def main(board):
    memories, messages = [Memory(0x10000), Memory(0x10000)], []

    def show(event, driver):
        answer = driver.answer()
        assert answer == bytes(noise(len(answer)))
        sent = [f"{data:#x} to {address:#x} of {'ab'[guest]}" for guest, address, data in messages]
        print(f"{event}: {len(answer)} bytes, {', '.join(sent) or 'no message'}")
        messages.clear()

    with Machine.load(board) as machine:
        a, b = machine.guest("a"), machine.guest("b")
        machine.attach(a, 0, Entropy(memories, lambda *message: messages.append(message)))
        driver = EntropyDriver(a, memories[0])
        driver.ask(16)
        show("a asks for 16 bytes", driver)
        driver.registers[driver.vector + 12:4] = 1
        driver.ask(24)
        show("a masks the vector, and asks for 24", driver)
        driver.registers[driver.vector + 12:4] = 0
        show("a unmasks it", driver)
        driver.config[0x04:2] = 0x0002
        driver.ask(32)
        show("a clears Bus Master, and asks for 32", driver)
        driver.config[0x04:2] = 0x0006
        driver.notify()
        show("a sets Bus Master, and notifies again", driver)
        machine.move(a, 0, b, 0)
        driver.ask(40)
        show("the function moves to b, and a asks for 40", driver)
        driver = EntropyDriver(b, memories[1])
        driver.ask(48)
        show("b asks for 48", driver)


if __name__ == "__main__":
    if len(sys.argv) != 2:
        sys.exit("entropy.py BOARD")
    main(sys.argv[1])
