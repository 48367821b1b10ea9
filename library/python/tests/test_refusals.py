"""What a refused board tells, and files at a path."""

import re
import tempfile
import unittest
from pathlib import Path

from boards import BOARDS, MAIN, REFUSED
from pciguest import Board, BoardRefusal, Machine, Refusal, check, report


class Refused(unittest.TestCase):
    def raised(self, call, *arguments):
        with self.assertRaises(Refusal) as raised:
            call(*arguments)
        return raised.exception

    def test_all_boards_tell_what_a_check_says(self):
        refused = 0
        for path in sorted(BOARDS.rglob("*.toml")):
            told = check(path.read_bytes())
            if told.refusal is None:
                continue
            refused += 1
            for call in (Machine, report):
                error = self.raised(call, path.read_bytes())
                self.assertIsInstance(error, BoardRefusal)
                self.assertEqual((error.number, error.text), (told.refusal.number, told.text))
                self.assertEqual(str(error), f"{error.words} ({error.number})\n{told.text.rstrip()}")
                self.assertGreater(len(error.problems), 0)
        self.assertGreater(refused, 30)

    def test_a_check_says_what_the_program_says(self):
        sections = re.findall(r"^== check (\S+)\n(.*?)^fault ", (REFUSED / "expected.txt").read_text(), re.MULTILINE | re.DOTALL)
        self.assertGreater(len(sections), 20)
        for name, text in sections:
            self.assertEqual(check((REFUSED / name).read_bytes(), name).text, text)

    def test_lines(self):
        problems = self.raised(Machine, (REFUSED / "many_places.toml").read_bytes()).problems
        self.assertEqual([(problem.line, problem.column) for problem in problems], [(13, 6), (19, 6), (25, 6), (31, 6)])
        self.assertEqual(problems[0][1::2], ('error: endpoint[1]: at = "01.0" is not a valid path (105)',
                                             'did you mean "1.0"? numbers in a path are decimal, without leading zeros'))
        self.assertIsNone(problems[1].help)
        pool = self.raised(Machine, (REFUSED / "io_pool.toml").read_bytes())
        self.assertEqual((pool.number, [problem.line for problem in pool.problems]), (203, [2]))

    def test_a_board_of_firmware(self):
        self.assertEqual(self.raised(Board, "x = 1").number, 102)
        with Board((REFUSED / "io_pool.toml").read_bytes(), "mine.toml") as board:
            error = self.raised(board.set_up)
        self.assertEqual(error.number, 203)
        self.assertTrue(error.text.startswith("mine.toml:2:7: error: host: io has "))

    def test_warnings_are_no_refusal(self):
        told = check((BOARDS / "warnings.toml").read_bytes())
        self.assertIsNone(told.refusal)
        self.assertTrue(all(problem.text.startswith("warning: ") for problem in told.problems))
        self.assertEqual(len(told.problems), 3)


class Loaded(unittest.TestCase):
    def test_a_file(self):
        with Machine.load(BOARDS / "main.toml") as machine, Board.load(str(BOARDS / "main.toml")) as board:
            self.assertEqual(machine.run_line("a cr 0 0 4"), "a: 0x00011234")
            self.assertEqual(board.run_line("host cr 00:02.0 0 4"), "host: 0x00021234")

    def test_a_refused_file_is_named(self):
        with tempfile.TemporaryDirectory() as folder:
            path = Path(folder) / "my board.toml"
            path.write_text(MAIN.replace("0x1234", '"x"', 1))
            for load in (Machine.load, Board.load):
                with self.assertRaises(BoardRefusal) as raised:
                    load(path)
                self.assertTrue(raised.exception.text.startswith(f"{path}:"))
            with self.assertRaises(FileNotFoundError):
                Machine.load(path.with_name("none.toml"))
