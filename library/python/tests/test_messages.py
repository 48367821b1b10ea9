"""Tests whether a device may access its guest's memory, the messages for MSI-X and MSI vectors, in
each state of the bits that decide and with arguments out of range, and whether a function asserts
its pin. `tests/library/messages.c` tests the same in C."""

from boards import TOP, Case
from pciguest import Device, Machine, Message, Register

BOARD = (TOP / "tests/library/messages.toml").read_text()
COMMAND, CONTROL, TABLE = 4, 0x62, 0x64
NONE = Message(0, 0, False, False, False)


class Sender(Device):
    """The device of the function in slot 0."""

    vendor_id, device_id, class_code = 0x1234, 1, 0xFF0000
    bars = {0: ("mem32", 0x1000), 2: ("mem64", 0x1000)}
    vector_control = Register(0x80C, 4, bar=2, reset=1, rw=1)


class Messages(Case):
    def setUp(self):
        self.machine = Machine(BOARD)
        self.addCleanup(self.machine.close)
        self.a, self.b = self.machine.guest("a"), self.machine.guest("b")
        self.config = self.a.config[0]

    def set_table(self, offset, value):
        """Writes 4 bytes of the table as the driver does."""
        self.config[COMMAND:2] = 2
        self.a.region_write(0, 2, 0x800 + offset, value, width=4)

    def test_bus_master_is_that_of_the_guest(self):
        a, b = self.a, self.b
        self.assertIs(a.bus_master(0), False)
        self.config[COMMAND:2] = 0x543  # all but Bus Master
        self.assertIs(a.bus_master(0), False)
        self.config[COMMAND:1] = 4
        self.assertIs(a.bus_master(0), True)
        self.assertIs(a.bus_master(1), False)
        self.machine.move(a, 0, b, 5)
        self.assertIs(b.bus_master(5), False)
        self.refused(601, a.bus_master, 0)
        self.refused(303, a.bus_master, 32)
        self.assertRaises(ValueError, a.bus_master, -1)

    def test_a_message_can_be_sent_in_one_of_sixteen_states(self):
        self.assertEqual(self.a.msix_message(0, 3), (0, 0, False, True, False))  # as at reset
        for offset, value in ((0x20, 0xFEE01003), (0x24, 1), (0x28, 0x4321)):
            self.set_table(offset, value)
        for bits in range(16):
            enabled, function, vector, master = (bool(bits & bit) for bit in (1, 2, 4, 8))
            self.set_table(0x2C, vector)
            self.config[CONTROL:2] = enabled << 15 | function << 14
            self.config[COMMAND:2] = master << 2
            wanted = Message(0x1FEE01000, 0x4321, enabled, function or vector, bits == 0b1001)
            self.assertEqual(self.a.msix_message(0, 2), wanted, bin(bits))
        self.assertEqual((self.a.msix_message(1, 0), self.a.msix_message(2, 2000)), (NONE, NONE))

    def test_vectors_out_of_range(self):
        a = self.a
        for vector in (4, 0xFFFFFFFF):
            self.refused(303, a.msix_message, 0, vector)
        self.assertRaises(ValueError, a.msix_message, 0, -1)
        for register in (1, 3, 4, 5, 6, 7):
            a.device_write(0, TABLE, register)
            self.refused(303, a.msix_message, 0, 0)
        a.device_write(0, TABLE, 0xFE0, width=4)  # the region ends after vector 1
        self.assertEqual(a.msix_message(0, 1), NONE)
        self.refused(303, a.msix_message, 0, 2)
        a.device_write(0, TABLE, 0xFFFFFFF8, width=4)
        self.refused(303, a.msix_message, 0, 0)
        a.device_write(0, 0x34, 0xFC)  # a structure that extends past configuration space
        a.device_write(0, 0xFC, 0x11)
        self.refused(303, a.msix_message, 0, 0)
        a.device_write(0, 0x34, 0)  # no structure
        self.assertEqual(a.msix_message(0, 0), NONE)
        self.refused(601, a.msix_message, 5, 0)
        self.refused(303, a.msix_message, 32, 0)

    def test_messages_of_msi(self):
        a, both, plain = self.a, self.a.config[3], self.a.config[4]
        self.assertEqual([a.msi_message(slot, 0) for slot in (0, 2, 3)], [NONE] * 3)
        both[0x54:4], both[0x58:4], both[0x5C:2] = 0xFEE01003, 1, 0x4327
        plain[0x54:4], plain[0x58:2] = 0xFEE02000, 0x4327
        for bits in range(32):
            enabled, masked, master, exponent = bits & 1, bool(bits & 2), bits & 4, bits >> 3
            for config in both, plain:
                config[0x52:2], config[COMMAND:2] = exponent << 4 | enabled, master
            count = 1 << exponent
            a.device_write(3, 0x60, masked << count - 1, width=4)
            data = (0x4327 & ~(count - 1)) + count - 1
            wanted = Message(0x1FEE01000, data, bool(enabled), masked, bool(enabled and master and not masked))
            self.assertEqual(a.msi_message(3, count - 1), wanted, bin(bits))
            wanted = Message(0xFEE02000, data, bool(enabled), False, bool(enabled and master))
            self.assertEqual(a.msi_message(4, count - 1), wanted, bin(bits))
            self.refused(303, a.msi_message, 3, count)
        plain[0x52:1] = 0x71  # a reserved number of vectors
        self.assertEqual(a.msi_message(4, 31).data, 0x433F)
        self.refused(303, a.msi_message, 4, 32)
        a.device_write(4, 0x34, 0xF8)
        a.device_write(4, 0xF8, 5)
        self.refused(303, a.msi_message, 4, 0)  # it extends past FFh
        self.refused(601, a.msi_message, 5, 0)
        self.refused(303, a.msi_message, 32, 0)
        self.assertRaises(ValueError, a.msi_message, 0, -1)

    def test_the_pin_is_asserted_in_one_of_sixteen_states(self):
        a, config = self.a, self.a.config[3]
        for bits in range(16):
            requested, disabled, msi, msix = (bool(bits & bit) for bit in (1, 2, 4, 8))
            config[COMMAND:2], config[0x52:1], config[0x72:2] = disabled << 10, msi, msix << 15
            self.assertEqual((a.set_interrupt(3, requested), config[6:2]), (bits == 1, 0x10 | requested << 3), bits)
        self.assertIs(a.set_interrupt(1, True), False)  # no pin
        self.refused(601, a.set_interrupt, 5, True)
        self.refused(303, a.set_interrupt, 32, True)

    def test_a_device_asks_for_itself(self):
        device = Sender()
        with self.assertRaises(ValueError):
            device.bus_master  # it isn't attached to a machine
        self.machine.attach(self.a, 0, device)
        self.assertIs(device.bus_master, False)
        self.config[COMMAND:2], self.config[CONTROL:2] = 4, 0x8000
        self.assertIs(device.bus_master, True)
        self.assertIs(device.msix_message(0).can_be_sent, False)
        device.vector_control = 0
        self.assertEqual(device.msix_message(0), Message(0, 0, True, False, True))
        self.refused(303, device.msix_message, 4)
        self.machine.move(self.a, 0, self.b, 7)
        self.assertIs(device.bus_master, False)  # in the Command of guest b
        self.machine.take(self.b, 7)
        self.assertRaises(ValueError, device.msix_message, 0)
