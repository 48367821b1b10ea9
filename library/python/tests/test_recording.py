"""Calls and lines that are recorded as a transcript, and replayed by lines alone."""

import unittest

from boards import MAIN
from pciguest import Refusal, transcript


class Recording(unittest.TestCase):
    def replayed(self, mode, rows):
        section = transcript.Section(mode, "main.toml", "recorded", rows)
        self.assertEqual(transcript.read(transcript.text_of([section])), [section])
        self.assertIsNone(transcript.replay(transcript.Library(), section, MAIN))

    def test_a_machine(self):
        with transcript.RecordedMachine(MAIN) as machine:
            guest, other = machine.guest("a"), machine.guest("b")
            guest.config[0][0x14:4] = 0x80000000
            guest.config[0][4:2] = 2
            guest.memory[0x80000010:4] = 0x12345678
            self.assertEqual(guest.memory[0x80000012:2], 0x1234)
            machine.run_line("a ir 0xcf8 4")
            guest.raise_bits(0, 7, 0x80)
            self.assertEqual(machine.host.config[0, 1, 0][0:4], 0x00011234)
            # the last two are refused by 902, as no line is
            for wrong in (lambda: guest.memory[1:2], lambda: guest.raise_bits(9, 7, 1), lambda: guest.raise_bits(0, 7, 1, 7),
                          lambda: machine.host.config[0, 32, 0][0:4]):
                self.assertRaises(Refusal, wrong)
            machine.move(guest, 0, other, 9)
            self.assertEqual(other.config[9][0:4], 0x00011234)
            rows = machine.rows
        self.assertEqual(rows[:4], [("a cw 0 0x14 4 0x80000000", "a: ok"), ("a cw 0 0x4 2 0x2", "a: ok"),
                                    ("a mw 0x80000010 4 0x12345678", "a: ok"), ("a mr 0x80000012 2", "a: 0x1234")])
        self.assertEqual(rows[4:], [("a ir 0xcf8 4", "a: 0x00000000"), ("a raise 0 cfg 0x7 0x80", "a: ok"),
                                    ("host cr 00:01.0 0x0 4", "host: 0x00011234"), ("a mr 0x1 2", "a: refused 301 misaligned"),
                                    ("a raise 9 cfg 0x7 0x1", "a: refused 601 empty slot"), ("host move a 0 b 9", "host: ok"),
                                    ("b cr 9 0x0 4", "b: 0x00011234")])
        self.replayed("run", rows)

    def test_a_board(self):
        with transcript.RecordedBoard(MAIN) as board:
            board.config[0, 1, 0][4:2] = 3
            board.io[0xCF8:4] = 0x80000800
            self.assertEqual(board.io[0xCFC:4], 0x00011234)
            board.run_line(b"host mr 0x10 1\n")
            board.run_line("host ready")
            rows = board.rows
        self.assertEqual(rows, [("host cw 00:01.0 0x4 2 0x3", "host: ok"), ("host iw 0xcf8 4 0x80000800", "host: ok"),
                                ("host ir 0xcfc 4", "host: 0x00011234"), ("host mr 0x10 1", "host: 0x00")])
        self.replayed("firmware", rows)
