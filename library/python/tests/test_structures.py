"""Devices that declare capability lists."""

import unittest

from pciguest import DeclaredOtherwise, Device, Machine, Msi, Msix, Power, Register, Structure, Vendor, check
from test_devices import board


class Listed(Device):
    """Has a capability list between its own registers of configuration space."""

    vendor_id, device_id, class_code = 0x1234, 0x00D2, 0xFF0000
    bars = {1: ("mem32", 0x10000)}
    table = Register(0, 16, bar=1, reset=1 << 96, rw=0x1FFFFFFFFFFFFFFFFFFFFFFFC)
    before = Register(0x40, 2, bar=None, rw=0xFFFF)
    after = Register(0xC0, 1, bar=None, reset=0x5A)
    capabilities = [
        Msix(vectors=1, table=(1, 0), pending=(1, 0x800)),
        Msi(vectors=4, has_masks=True),
        Power(),
        Vendor(16, name="notify", kind=Register(3, 1, bar=None, reset=2), multiplier=Register(12, 4, bar=None, reset=4)),
        Vendor(5, at=0xF0, own=Register(3, 2, bar=None, rw=0xFF, w1c=0xFF00)),
    ]

    def __init__(self):
        self.told = []

    def on_write(self, register, value):
        self.told.append((register.name, value))


class Capabilities(unittest.TestCase):
    def test_a_list_is_declared(self):
        told = check(board(Listed))
        self.assertIsNone(told.refusal, told.text)
        with Machine(board(Listed)) as machine:
            a, device = machine.guest("a"), Listed()
            machine.attach(a, 0, device)
            wanted = [(0x11, 0x44), (0x05, 0x50), (0x01, 0x68), (0x09, 0x70), (0x09, 0xF0)]
            self.assertEqual(a.capabilities(0), wanted)
            self.assertEqual([device.msix_control, device.msix_pending, device.msi_control], [0, 0x801, 0x0184])
            self.assertEqual([device.notify_length, device.notify_kind, device.notify_multiplier], [16, 2, 4])
            config = a.config[0]
            config[0x46:2], config[0x52:2], config[0x54:4], config[0x6C:2], config[0xF3:1] = 0xFFFF, 0xFFFF, 0xFEE01003, 3, 7
            self.assertEqual((device.msix_control, device.msi_control, device.power_control), (0xC000, 0x01F5, 3))
            self.assertEqual((device.msi_address, device.vendor_own), (0xFEE01000, 7))
            self.assertEqual(device.told[0], ("msix_control", 0xFFFF))
            self.assertEqual(device.told[-1], ("vendor_own", 7))
            self.assertIs(device.msix_message(0).is_enabled, True)
            self.assertEqual((config[0x40:2], config[0xC0:1]), (0, 0x5A))

    def test_another_list_is_found(self):
        for capabilities in Listed.capabilities[::-1], Listed.capabilities[:4], Listed.capabilities + [Power(name="other")]:
            other = type("Other", (Listed,), {"capabilities": capabilities})
            with Machine(board(Listed)) as machine, self.assertRaisesRegex(DeclaredOtherwise, "capabilities: the device declares"):
                machine.attach(machine.guest("a"), 0, other())
        with Machine(board(Listed)) as machine, self.assertRaisesRegex(DeclaredOtherwise, "msix_control.reset"):
            two = [Msix(vectors=2, table=(1, 0), pending=(1, 0x800)), *Listed.capabilities[1:]]
            machine.attach(machine.guest("a"), 0, type("Other", (Listed,), {"capabilities": two})())
        with Machine(board(Listed)) as machine:  # a class that declares none says nothing of the list
            machine.attach(machine.guest("a"), 0, type("Other", (Listed,), {"capabilities": []})())

    def test_lists_that_can_not_be(self):
        for capabilities in ([Power(), Power()], [Power(at=0x40)], [Power(at=0xFC)], [Vendor(180), Vendor(20, name="more")]):
            with self.assertRaises(ValueError):
                type("Wrong", (Listed,), {"capabilities": capabilities})
        for make in (
            lambda: Msi(3), lambda: Msix(0, (0, 0), (0, 0)), lambda: Msix(1, (6, 0), (0, 0)), lambda: Msix(1, (0, 4), (0, 0)),
            lambda: Power(at=0x41), lambda: Power(at=0x3C), lambda: Vendor(4, one=Register(3, 2, bar=None)),
            lambda: Structure(5, 8, {"one": Register(1, 1, bar=None)}, name="one"), lambda: Structure(256, 8, {}, name="one"),
        ):
            self.assertRaises(ValueError, make)

    def test_the_limit_of_a_region_is_told(self):
        with self.assertRaisesRegex(ValueError, "far is outside the first 0x1000 bytes of region 1"):
            type("Wrong", (Listed,), {"far": Register(0xFFE, 4, bar=1)})
        with self.assertRaisesRegex(ValueError, "far is outside region 1$"):
            type("Wrong", (Listed,), {"far": Register(0xFFFE, 4, bar=1)})
