"""The boards of the folder `boards`, those of them that are refused, the texts of refusals in replies, and cases
over a machine."""

import unittest
from pathlib import Path

from pciguest import Machine, Refusal

TOP = Path(__file__).resolve().parents[3]
BOARDS = TOP / "boards"
REFUSED = BOARDS / "refused"
MAIN = (BOARDS / "main.toml").read_text()
TEXTS = {301: "misaligned", 302: "width", 303: "range", 601: "empty slot", 602: "slot taken"}


def set_up_by_hand(board):
    """The bridge of the main board is numbered and forwards what is behind it, each region has a place, and each
    function but the last answers there."""
    writes = [(0, 1, 0x10, 0x1000), (0, 1, 0x14, 0xD0000000), (0, 1, 4, 3), (0, 2, 0x18, 0x00010100),
              (0, 2, 0x1C, 0x3030), (0, 2, 0x20, 0xD110D110), (0, 2, 0x24, 0xD2F0D200), (0, 2, 4, 3),
              (1, 0, 0x10, 0xD1100000), (1, 0, 0x14, 0x3010), (1, 0, 4, 3), (1, 1, 0x10, 0xD2000000)]
    for bus, device, offset, value in writes:
        board.config[bus, device, 0][offset:4] = value


class Case(unittest.TestCase):
    def refused(self, number, call, *arguments):
        with self.assertRaises(Refusal) as raised:
            call(*arguments)
        self.assertEqual(raised.exception.number, number)
        return raised.exception


class MachineCase(Case):
    """Over the machine of `boards/main.toml` and its guests."""

    def setUp(self):
        self.machine = Machine(MAIN)
        self.addCleanup(self.machine.close)
        self.a, self.b = self.machine.guest("a"), self.machine.guest("b")
