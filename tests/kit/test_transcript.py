"""Transcripts as texts, their replays against back ends, and the table of rules."""

import sys
import tempfile
import unittest
from pathlib import Path
from types import SimpleNamespace
from unittest import mock

import places
from pciguest import Hit, Region, _rules, transcript
from pciguest._child import Limits
from pciguest._drawing import RandomChoices, draw_board
from pciguest._line_drawing import draw_firmware, draw_script

audited, board, guests = places.modules("fuzz", "audited", "board", "guests")
TEXT = """== run board.toml: two guests
a cr 0 0 4 -> a: 0x00011234
b cr 0 0 4 -> b: 0x00021234
== firmware board.toml: a function
host cr 00:01.0 0 4 -> host: 0x00011234
"""


class Fixed:
    """A back end with fixed replies."""

    def __init__(self, replies):
        self.replies, self.begun, self.open = replies, [], 0

    def begin(self, mode, board):
        self.begun.append((mode, board))
        self.open += 1

    def answer(self, line):
        return self.replies.get(line)

    def close(self):
        self.open -= 1


class Transcripts(unittest.TestCase):
    def setUp(self):
        self.sections = transcript.read(TEXT)
        self.right = {line: reply for section in self.sections for line, reply in section.rows}
        patched = mock.patch.object(transcript, "rule_at", return_value="the rule")
        patched.start()
        self.addCleanup(patched.stop)

    def test_text(self):
        self.assertEqual(transcript.text_of(self.sections), TEXT)
        self.assertEqual([(one.mode, one.board, one.title, len(one.rows)) for one in self.sections],
                         [("run", "board.toml", "two guests", 2), ("firmware", "board.toml", "a function", 1)])

    def test_rows_of_the_program(self):
        files = [file for file in (places.TOP / "tests/rows").glob("*.rows")
                 if not any(f"\n{words} " in file.read_text() for words in ("== list", "== ready", "with"))]
        self.assertGreater(len(files), 3)
        for file in files:
            sections = transcript.read(file.read_text())
            self.assertEqual(transcript.read(transcript.text_of(sections)), sections, file)

    def test_texts_that_are_none(self):
        for text in ("a cr 0 0 4 -> a: ok\n", "== list board.toml: x\n", TEXT + "a cr 0 0 4\n"):
            with self.assertRaises(ValueError):
                transcript.read(text)

    def test_record(self):
        back_end = Fixed(self.right)
        back_end.replies |= {"host ready": "ready: ok", "host guests": "closed: 1.0 bar0\nhost: refused 206 closed region"}
        section = transcript.record(back_end, "run", "the board", "board.toml", "two guests",
                                    ["# a comment", "a cr 0 0 4", "host ready", "host guests", "b cr 0 0 4"])
        self.assertEqual((section, back_end.begun, back_end.open), (self.sections[0], [("run", "the board")], 0))

    def replay(self, replies, guest=None):
        back_end = Fixed(replies)
        found = transcript.replay(back_end, self.sections[0], "the board", guest)
        self.assertEqual(back_end.open, 0)
        return found

    def test_replay(self):
        self.assertIsNone(self.replay(self.right))
        self.assertIsNone(self.replay({}))  # what isn't answered isn't compared
        wrong = self.replay({**self.right, "b cr 0 0 4": "b: 0xffffffff"})
        self.assertEqual((wrong.row, wrong.wanted, wrong.came, wrong.rule), (2, "b: 0x00021234", "b: 0xffffffff", "the rule"))
        self.assertIn("row 2 of 2: b cr 0 0 4", str(wrong))
        self.assertIsNone(self.replay({**self.right, "b cr 0 0 4": "b: 0xffffffff"}, guest="a"))

    def test_guests_of_a_hypervisor(self):
        class Mine(transcript.GuestBackEnd):
            def begin(self, mode, board):
                self.written = []

            def read(self, space, slot, place, width):
                return {"config": 0x11234, "io": slot + place, "memory": width}[space]

            def write(self, *words):
                self.written.append(words)

        mine = Mine()
        self.assertIsNone(transcript.replay(mine, self.sections[0], "", guest="a"))
        self.assertEqual([mine.answer(line) for line in ("a ir 0x10 2", "a mr 64 4", "a cw 1 4 2 0x12345", "a iw 8 1 1")],
                         ["a: 0x0010", "a: 0x00000004", "a: ok", "a: ok"])
        self.assertEqual(mine.written, [("config", 1, 4, 2, 0x2345), ("io", 0, 8, 1, 1)])
        for line in ("", "a", "# a", "host mr 0 4", "a cr 0 2 4", "a cr 0 0 3", "a cr 32 0 4", "a cr 0 256 4", "a cr 0 4",
                     "a mw 0 4", "a mr x 4", "a cr +0 0 4", "a cr 0 0_0 4", "a cr 0 0 \u0664", "a cw 0 4 2 0x100000000",
                     f"a cr 0 0 {4:0192}", "a\vcr 0 0 4", "a raise 0 cfg 7 1", "a xr 0 4", "host move a 0 b 1"):
            self.assertIsNone(mine.answer(line), line)

    def test_raises_that_are_not_answered(self):
        rows = [("a raise 00 cfg 0x7 128", "a: ok"), ("a cr 0 4 4", "a: 0x80000000"), ("a cr 0 8 4", "a: 0x00000000"),
                ("a ir 0xcfc 4", "a: 0x80000000"), ("a mr 0x80000000 4", "a: 0x00000000"), ("a raise 1 bar0 0 1", "a: ok"),
                ("a mr 0x80000000 4", "a: 0x00000001")]
        section = self.sections[0]._replace(rows=rows)
        without = {line: "a: 0x00000000" for line, _ in rows if "raise" not in line}
        self.assertIsNone(transcript.replay(Fixed(without), section, "the board"))
        for line in ("a cr 0 8 4", "a mr 0x80000000 4"):
            wrong = transcript.replay(Fixed({**without, line: "a: 0xffffffff"}), section, "the board")
            self.assertEqual(wrong.line, line)
        raised = {**without, "a raise 00 cfg 0x7 128": "a: ok"}
        self.assertEqual(transcript.replay(Fixed(raised), section, "the board").line, "a cr 0 4 4")

    def test_who_takes_part(self):
        section = self.sections[0]
        self.assertTrue(transcript.takes_part(section, "a"))
        self.assertFalse(transcript.takes_part(section, "c"))
        self.assertFalse(transcript.takes_part(self.sections[1], "a"))
        moved = section._replace(rows=[*section.rows, ("host move b 0 c 1", "host: ok")])
        self.assertEqual([transcript.takes_part(moved, name) for name in "ab"], [True, False])

    def test_files(self):
        with tempfile.TemporaryDirectory() as room:
            Path(room, "board.toml").write_text("the board")
            Path(room, "it.rows").write_text(TEXT)
            counts = transcript.replay_files([f"{room}/it.rows"], Fixed(self.right))
            self.assertEqual(counts, (2, 0))
            told = []
            counts = transcript.replay_files([f"{room}/it.rows"], Fixed({"a cr 0 0 4": "a: 0x00000000"}), None, told.append)
            self.assertEqual((counts, len(told)), ((1, 1), 1))

    def process(self, code, limits=Limits()):
        """The first difference with a process as the back end."""
        back_end = transcript.Process([sys.executable, "-c", code], limits)
        return transcript.replay(back_end, self.sections[0], "the board")

    def test_processes(self):
        echo = "import sys\nboard = open(sys.argv[2]).read()\nfor line in sys.stdin:\n    "
        right = f"print({self.right!r}[line.strip()], flush=True)"
        self.assertIsNone(self.process(echo + right))
        self.assertEqual(self.process(echo + "print(sys.argv[1], board, flush=True)").came, "run the board")
        self.assertEqual(self.process("").came, "nothing: the back end ended before its last line")
        self.assertEqual(self.process("import sys; sys.exit(3)").came, "nothing: the back end ended with status 3")
        self.assertEqual(self.process("import time; time.sleep(1000)", Limits(silence=2)).came,
                         "nothing: the back end writes no line for 2 seconds")


class Rules(unittest.TestCase):
    ENDPOINT = guests.endpoint_cells(board.Endpoint(
        ((1, 0),), {"vendor": 1, "device": 1, "class": 1}, [board.Bar(0, "mem32", 4096, 0, {})], []))
    BRIDGE = audited.bridge_cells(board.Bridge(((1, 0),), {"vendor": 1, "device": 1}, "32", "64"))

    def test_each_bit_stands_in_one_row(self):
        for header in (0, 1):
            bits = [0] * 256
            for row in _rules.REGISTERS:
                if row["header"] == header:
                    mask = row.get("mask", (1 << 8 * row["width"]) - 1)
                    for place in range(row["width"]):
                        byte = mask >> 8 * place & 0xFF
                        self.assertEqual(bits[row["offset"] + place] & byte, 0, row)
                        bits[row["offset"] + place] |= byte
            self.assertEqual(bits, [0xFF] * 256)

    def test_what_can_be_written(self):
        for header, cells in ((0, self.ENDPOINT), (1, self.BRIDGE)):
            for row in _rules.REGISTERS:
                if row["header"] != header or row["name"] in ("base address registers", "I/O Base, I/O Limit",
                        "Prefetchable Memory Base and Limit", "I/O Base and Limit Upper 16 Bits"):
                    continue  # these go by what is declared
                mask = row.get("mask", (1 << 8 * row["width"]) - 1)
                for kind, key in (("writable", "writable"), ("clearing", "clears")):
                    found = sum(getattr(cells[row["offset"] + n], kind, 0) << 8 * n for n in range(row["width"])
                                if row["offset"] + n in cells)
                    self.assertEqual(found & mask, row.get(key, 0), row)

    def test_rows(self):
        for row in [*_rules.REGISTERS, *_rules.ACCESSES.values()]:
            self.assertIn(row["by"], ("standards", "own"))
            self.assertIn(row["section"], (0, 1, 2, 3, 5))
            self.assertTrue(_rules.told(row).startswith(row["name"]))

    def test_registers(self):
        self.assertEqual(_rules.register(0, 0x0C, 0x8000)["name"], "Latency Timer")
        self.assertEqual(_rules.register(0, 0x04, 0x0002)["name"], "Command")
        self.assertEqual(_rules.register(1, 0x3C, 0x20000)["name"], "Bridge Control")
        self.assertEqual(_rules.register(1, 0x2C, 0x80000000)["name"], "Prefetchable Memory Base and Limit")

    def test_rules_by_the_words_alone(self):
        for line, ours, theirs, name in [
            ("a cr 0 2 4", "a: refused 301 misaligned", "a: 0x00000000", "checks"),
            ("a hello", "a: refused 401 bad line", "a: ok", "grammar"),
            ("host move a 0 b 0", "host: ok", "host: refused 602 slot taken", "move"),
            ("a raise 0 cfg 7 1", "a: ok", "a: refused 303 range", "checks"),
        ]:
            self.assertEqual(_rules.rule(None, line, ours, theirs)["name"], name)

    def rule(self, line, ours, theirs, **guest):
        """The name of the rule over a guest of which some is known."""
        known = SimpleNamespace(io={}, **guest)
        known.io = type("Io", (), {"__getitem__": lambda _, key: guest.get("latch", 0)})()
        return _rules.rule(SimpleNamespace(guest=lambda name: known), line, ours, theirs)["name"]

    def test_rules_of_a_guest(self):
        hit, region = (lambda *_: Hit(0, 0, 0)), (lambda first: lambda *_: Region("memory", first, 4096, False, True))
        for line, ours, theirs, name, known in [
            ("a cr 0 0xc 4", "a: 0x0000ff00", "a: 0x00000000", "Latency Timer", {}),
            ("a cr 5 0 4", "a: 0xffffffff", "a: 0x00000000", "no function", {}),
            ("a mr 0x1000 4", "a: 0x00000000", "a: 0xffffffff", "claimed", {"locate": hit, "region": region(0x1000)}),
            ("a mr 0 4", "a: 0x00000000", "a: 0xffffffff", "base of 0", {"locate": hit, "region": region(0)}),
            ("a mr 0xfffff000 4", "a: 0x00000000", "a: 0xffffffff", "last addresses",
             {"locate": hit, "region": region(0xFFFFF000)}),
            ("a mr 0x1000 4", "a: 0x00000000", "a: 0x00000001", "cells", {"locate": hit, "region": region(0x1000)}),
            ("a mr 0x1000 4", "a: 0xffffffff", "a: 0x00000001", "unclaimed", {"locate": lambda *_: None}),
            ("a ir 0xcf8 4", "a: 0x00000000", "a: 0xffffffff", "address latch", {}),
            ("a ir 0xcf8 2", "a: 0xffff", "a: 0x0000", "latch by bytes", {}),
            ("a ir 0xcfc 4", "a: 0xffffffff", "a: 0x00000000", "data without enable", {}),
            ("a ir 0xcfd 1", "a: 0xff", "a: 0x00", "slots by ports", {"latch": 0x8000000C}),
            ("a ir 0xcfd 1", "a: 0x01", "a: 0x00", "Latency Timer", {"latch": 0x8000000C}),
        ]:
            self.assertEqual(self.rule(line, ours, theirs, **known), name, line)


class Lines(unittest.TestCase):
    def test_lines_are_drawn(self):
        for seed in range(20):
            document = draw_board(RandomChoices(seed))
            for draw, names in ((draw_script, {"a", "b", "host", "nobody"}), (draw_firmware, {"host", "a"})):
                lines = draw(RandomChoices(seed), document, 100)
                self.assertEqual(lines, draw(RandomChoices(seed), document, 100))
                self.assertLessEqual({line.split(" ")[0] for line in lines if line}, names)
                self.assertFalse(any("\n" in line for line in lines))


if __name__ == "__main__":
    unittest.main()
