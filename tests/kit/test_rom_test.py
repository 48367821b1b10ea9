"""A ROM in the small PC, over boards of the second hand. It takes the Unicorn engine."""

import contextlib
import io
import tempfile
import unittest
from pathlib import Path

import places
from second_hand import SecondHand

try:
    from pciguest import rom_test
except SystemExit:
    rom_test = None

#: reads the identity of 00:01.0, writes HI to the display's text memory, and loops for ever
CODE = bytes.fromhex("66b800080080 baf80c 66ef bafc0c 66ed b800b8 8ed8 c70600004807 c70602004907 ebfe")
#: the first instruction of a processor: a jump to the ROM's first byte
JUMP = bytes.fromhex("e90df0")


@unittest.skipUnless(rom_test, "no Unicorn engine (apt-get install python3-unicorn)")
class RomTest(unittest.TestCase):
    def told(self, *words):
        with tempfile.TemporaryDirectory() as room, contextlib.redirect_stdout(io.StringIO()) as out:
            rom = Path(room) / "own.rom"
            rom.write_bytes(CODE.ljust(0xFF0, b"\xf4") + JUMP.ljust(16, b"\xf4"))
            options = rom_test.parser().parse_args([str(rom), *words])
            rom_test.examine(rom_test.read_rom(rom), places.TOP / "boards/main.toml", options, SecondHand())
        return out.getvalue()

    def test_an_idle_rom_ends(self):
        told = self.told("--idle", "0.5")
        self.assertIn("main.toml: no access of configuration space for 0.5 seconds, at f000:f021, after 2 accesses", told)

    def test_the_text_of_a_display(self):
        self.assertIn("\n  | HI\n", self.told("--idle", "0.5"))

    def test_last_words_are_awaited(self):
        self.assertIn("main.toml: not done after 1 seconds, at f000:", self.told("--idle", "0.1", "--time", "1", "--ending", "ready"))


if __name__ == "__main__":
    unittest.main()
