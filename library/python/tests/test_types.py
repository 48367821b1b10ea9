"""What mypy says of the module, and of devices that are written over it."""

import os
import shutil
import subprocess
import tempfile
import unittest
from pathlib import Path

MODULE = Path(__file__).resolve().parents[1]
USER = """\
import pciguest.__main__
import pciguest.firmware_test
import pciguest.rom_test
import pciguest.strategies
import pciguest.transcript
from pciguest import Device, Guest, Register


class Doorbell(Device):
    vendor_id, device_id, class_code = 0x1234, 0x0001, 0xFF0000
    bars = {0: ("mem32", 0x1000)}
    rings = Register(0x04, width=4)

    def on_write(self, register: Register, value: int) -> None:
        self.rings += 1
        reveal_type(self.rings)

    def on_move(self, guest: Guest, slot: int) -> None:
        reveal_type(Doorbell.rings)


bell = Doorbell()
bell.rings = "none"
"""


@unittest.skipUnless(shutil.which("mypy"), "no mypy")
class Types(unittest.TestCase):
    @classmethod
    def setUpClass(cls):
        """What is said, of the module and of who uses it."""
        with tempfile.TemporaryDirectory() as room:
            (Path(room) / "user.py").write_text(USER)
            words = ["mypy", "--strict", "--no-error-summary", "--cache-dir", os.devnull, "user.py"]
            path = {**os.environ, "MYPYPATH": str(MODULE)}
            told = subprocess.run(words, cwd=room, env=path, capture_output=True, text=True).stdout.splitlines()
        cls.user = [line for line in told if line.startswith("user.py")]
        cls.module = [line for line in told if not line.startswith("user.py")]

    def test_within_the_module(self):
        told = self.module
        if any('named "hypothesis"' in line for line in told):  # it is where `pciguest.strategies` is used
            told = [line for line in told if "strategies.py" not in line]
        self.assertEqual(told, [])

    def test_registers_are_numbers_in_a_device(self):
        told = [line.split(": ", 1)[1] for line in self.user]
        self.assertEqual(told[0], 'note: Revealed type is "builtins.int"')
        self.assertIn("Register", told[1])
        self.assertIn("Incompatible types in assignment", told[2])
