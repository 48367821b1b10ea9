"""Board files from what lspci prints of a machine: what they keep, and what is said of the rest."""

import contextlib
import io
import sys
import tempfile
import tomllib
import unittest
from pathlib import Path
from unittest import mock

import places
from second_hand import SecondHand, audited, board_of, placement

sys.path.append(str(places.TOP / "tools"))
import from_lspci  # noqa: E402  (the tool stands there)

(answers,) = places.modules("fuzz", "answers")
BOARDS = places.TOP / "boards"


def dumped(document):
    """A board that is set up, as the lines of `lspci -vvxxx`."""
    made = board_of(document)
    layout, state = placement.Layout(made), audited.State(made)
    answers.set_up(state, layout)
    for function in made.functions:
        shown = state.read_bytes(function.path, 0, 256).to_bytes(256, "little")
        regions = () if state.is_bridge(function.path) else [(bar.index, bar.size) for bar in function.bars]
        yield from printed("{:02x}:{:02x}.{}".format(*layout.number(function.path)), shown, *regions)


def printed(name, cells, *regions):
    """A function as lspci prints it."""
    yield f"{name} A function: of this board"
    yield from (f"\tRegion {index}: somewhere [size={size}]" for index, size in regions)
    yield from (f"{at:02x}: {cells[at:at + 16].hex(' ')}" for at in range(0, len(cells), 16))
    yield ""


def cells(changes=(), header=0, count=256):
    """The configuration space of a plain function, with changes as pairs of offset and byte."""
    found = bytearray(bytes.fromhex("34120100") + bytes(4) + bytes.fromhex("000000ff000000") + bytes([header]) + bytes(count))
    found[0x0E:0x10] = bytes([header, 0])
    for at, byte in changes:
        found[at] = byte
    return bytes(found[:count])


def bridge(primary, secondary, subordinate, *changes):
    return cells([(0x18, primary), (0x19, secondary), (0x1A, subordinate), (0x0A, 4), (0x0B, 6), *changes], 1)


class Dumps(unittest.TestCase):
    LINES = [*dumped(tomllib.loads((BOARDS / "modern.toml").read_text()))]

    def board(self, lines):
        """The document of the only board of a dump."""
        board, = from_lspci.Dump(lines, is_all=False).boards.values()
        text = from_lspci.with_host(board)
        self.assertIsNone(SecondHand().refusal(text))
        return tomllib.loads(text)

    def endpoints(self, lines):
        return {one["at"]: one for one in self.board(lines)["endpoint"]}

    def run_tool(self, lines, *words):
        """The status of the tool, what it writes, and the lines of standard error."""
        text = "".join(f"{line}\n" for line in lines)
        with (mock.patch("sys.stdin", io.StringIO(text)), contextlib.redirect_stdout(io.StringIO()) as out,
              contextlib.redirect_stderr(io.StringIO()) as errors):
            status = from_lspci.main([*words])
        return status, out.getvalue(), errors.getvalue().splitlines()

    def said(self, *functions):
        """The status and what is said of functions, each of which is given as printed takes it."""
        status, out, said = self.run_tool([line for one in functions for line in printed(*one)])
        if "[[" in out:
            self.assertIsNone(SecondHand().refusal(out), out)
        return status, said

    def test_a_board_comes_back(self):
        """All but what no dump tells, and the ends of structures."""
        found = self.endpoints(self.LINES)
        for one in tomllib.loads((BOARDS / "modern.toml").read_text())["endpoint"]:
            other = found.pop(one["at"])
            for key in ("vendor", "device", "class", "pin"):
                self.assertEqual(other[key], one[key], key)
            for key, parts in (("bar", ("index", "kind", "size")), ("capability", ("id", "off"))):
                self.assertEqual(*([[each[part] for part in parts] for each in of[key]] for of in (one, other)))
            for mine, theirs in zip(one["capability"], other["capability"]):
                self.assertTrue(theirs["reset"].startswith(mine["reset"]), mine)
        self.assertEqual(found, {})
        self.assertNotIn("devices", self.board(self.LINES)["host"])

    def test_devices_and_odd_bits_come_back(self):
        for file in (BOARDS / "last_devices.toml", places.TOP / "tests/rows/odd_bits.toml"):
            declared = tomllib.loads(file.read_text())
            status, out, said = self.run_tool([*dumped(declared)])
            found = tomllib.loads(out)
            self.assertEqual((status, said, found["host"]["devices"]), (0, [], 32))
            for kind in ("endpoint", "bridge"):
                tables = {one["at"]: one for one in found[kind]}
                self.assertEqual(len(tables), len(declared[kind]))
                for one in declared[kind]:
                    other = tables[one["at"]]
                    for key, plain in (("fixed_status", 0), ("fixed_secondary_status", 0), ("multifunction", True)):
                        self.assertEqual(other.get(key, plain), one.get(key, plain), (one["at"], key))

    def test_what_can_be_written(self):
        power, msi = self.endpoints(self.LINES)["2.0/2.0"]["capability"]
        self.assertEqual((power["rw"][:12], power["w1c"][:12]), ("000003010000", "000000800000"))
        self.assertEqual((msi["rw"][:24], "w1c" in msi), ("7100fcffffffffffffffffff", False))
        self.assertEqual(self.endpoints(self.LINES)["1.0/1.0"]["capability"][0]["rw"][:8], "00c00000")

    def test_places(self):
        """Each device keeps its number, and another segment is of another board."""
        lines = [line.replace("02:02.0", "02:1f.0") for line in self.LINES]
        self.assertIn("2.0/31.0", self.endpoints([*lines, "10000:00:00.0 Another segment", *self.LINES[1:18]]))

    def test_functions_that_are_left_out(self):
        plain = cells()
        status, said = self.said(
            ("00:00.0", plain), ("00:01.0", cells([(0x19, 3), (0x1A, 4)], 2)), ("03:00.0", plain), ("04:00.1", plain),
            ("00:02.1", plain), ("00:03.0", cells([(0, 0xFF), (1, 0xFF)])), ("00:03.2", plain), ("00:04.0", cells(header=0x7F)),
            ("00:05.0", b""), ("00:06.0", bridge(0, 5, 7)), ("06:00.0", plain), ("00:07.0", cells([(0x13, 0xF0)])))
        self.assertEqual((status, said), (1, [
            "the dump has no sizes of regions, so no region is kept: `lspci -vvxxx` prints them",
            "00:01.0: left out: it is a CardBus bridge",
            "00:02.1: left out: function 0 of its device is not in the dump",
            "00:03.0: left out: its Vendor ID reads ffffh",
            "00:03.2: left out: function 0 of its device is left out",
            "00:04.0: left out: its header type is 7fh",
            "00:05.0: left out: its configuration space isn't in the dump, which -xxx prints",
            "03:00.0: left out: it is behind 00:01.0, which is left out",
            "04:00.1: left out: it is behind 00:01.0, which is left out",
            "06:00.0: left out: no bridge leads to bus 06"]))

    def test_a_path_of_17_parts(self):
        chain = [(f"{bus:02x}:00.0", bridge(bus, bus + 1, 20)) for bus in range(17)]
        status, said = self.said(*chain, ("11:00.0", cells(), (0, 16)))
        self.assertEqual((status, said), (1, ["10:00.0: left out: its path has more than 16 parts",
                                              "11:00.0: left out: it is behind 10:00.0, which is left out"]))

    def test_bridges_that_lead_nowhere(self):
        """A bus is gone through once, whatever the numbers of bridges are."""
        twins = [(f"{bus:02x}:0{device}.0", bridge(bus, bus + 1, 255)) for bus in range(12) for device in (0, 1)]
        self.assertEqual(self.said(*twins, ("00:02.0", bridge(0, 0, 0)), ("0c:00.0", cells(), (0, 16)))[0], 0)
        self.assertEqual(self.said(("00:00.0", bridge(0, 0, 5)), ("00:01.0", cells(), (0, 16))), (0, []))

    def test_what_is_not_kept(self):
        status, said = self.said(
            ("00:00.0", cells([(0x10, 0x01), (0x14, 0x01), (0x15, 0x10), (0x18, 0x04), (0x21, 0x80), (0x30, 1), (0x3D, 9)]),
             (0, 2), (1, 512), (2, 1 << 41)),
            ("00:01.0", cells(header=0x80), (5, 16)), ("00:02.0", cells(count=64)), ("00:02.1", cells()),
            ("00:03.0", bridge(0, 1, 1, (0x09, 1), (0x10, 1), (0x38, 1), (0x3D, 1), (0x80, 1))))
        self.assertEqual((status, said), (0, [
            "00:00.0: not kept: bar0, io of 2 bytes",
            "00:00.0: not kept: bar1, io of 512 bytes",
            "00:00.0: not kept: bar2, mem64 of 2199023255552 bytes",
            "00:00.0: not kept: bar4, whose size isn't in the dump",
            "00:00.0: not kept: expansion ROM",
            "00:00.0: not kept: Interrupt Pin",
            "00:01.0: not kept: bit 7 of Header Type, set in a device with one function",
            "00:02.0: not kept: bit 7 of Header Type, clear in a device with others",
            "00:02.0: not kept: registers from 40h on, which aren't in the dump",
            "00:03.0: not kept: expansion ROM",
            "00:03.0: not kept: class code",
            "00:03.0: not kept: base address registers",
            "00:03.0: not kept: Interrupt Pin",
            "00:03.0: not kept: registers from 40h on"]))

    def test_extended_space(self):
        lines = [*printed("00:00.0", cells(), (0, 16)), f"100: 01{' 00' * 15}"]
        self.assertEqual(self.run_tool(lines)[::2], (0, ["00:00.0: not kept: registers from 100h on"]))
        self.assertEqual(self.run_tool([*lines[:-1], f"100:{' 00' * 16}"])[::2], (0, []))

    def test_several_root_buses(self):
        lines = [line for name, one in (("00:1f.0", cells()), ("80:00.0", bridge(0x80, 0x81, 0x81)), ("81:00.0", cells()),
                                        ("0001:00:02.0", cells())) for line in printed(name, one, (0, 16))]
        status, out, said = self.run_tool(lines)
        self.assertEqual([one["at"] for one in tomllib.loads(out)["endpoint"]], ["31.0"])
        self.assertEqual((status, said), (1, [
            "80:00.0: left out: its root bus has a board of its own, which --out writes",
            "81:00.0: left out: it is behind 80:00.0, which is left out",
            "0001:00:02.0: left out: its root bus has a board of its own, which --out writes"]))
        with tempfile.TemporaryDirectory() as room:
            self.assertEqual(self.run_tool(lines, "--out", f"{room}/boards"), (0, "", []))
            boards = {file.name: tomllib.loads(file.read_text()) for file in Path(room).glob("boards/*")}
        self.assertEqual({name: [one["at"] for one in board["endpoint"]] for name, board in boards.items()},
                         {"0000_00.toml": ["31.0"], "0000_80.toml": ["0.0/0.0"], "0001_00.toml": ["2.0"]})
        self.assertEqual([board["host"].get("devices") for _, board in sorted(boards.items())], [32, None, None])

    def test_no_dump(self):
        for lines in ([], ["nothing"], [f"00:{' 00' * 16}"]):
            self.assertEqual(self.run_tool(lines)[:2], (2, ""))


if __name__ == "__main__":
    unittest.main()
