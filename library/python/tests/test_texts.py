"""Reports, checks and error messages over all boards of the folder `boards`; and the examples in docstrings."""

import doctest
import json
import unittest

from boards import BOARDS, MAIN
from pciguest import Device, Machine, Msix, Power, Refusal, Register, check, report, report_json, strerror


def load_tests(loader, tests, pattern):
    extra = {"BOARD": MAIN, "Machine": Machine, "Refusal": Refusal, "Register": Register}
    extra |= {"Device": Device, "Msix": Msix, "Power": Power}
    for name in ("", "._board", "._device_side", "._devices", "._held", "._images", "._library", "._machine", "._recording",
                 "._refusal", "._spaces", "._structures", "._texts"):
        tests.addTests(doctest.DocTestSuite("pciguest" + name, extraglobs=extra))
    return tests


def number(call, board):
    """The number by which a call refuses a board, or 0."""
    try:
        call(board)
    except Refusal as refusal:
        return refusal.number
    return 0


class Texts(unittest.TestCase):
    def test_a_check_a_report_and_a_machine_agree(self):
        boards = sorted(BOARDS.rglob("*.toml"))
        self.assertGreater(len(boards), 20)
        for path in boards:
            with self.subTest(board=path.name):
                board = path.read_bytes()
                told = check(board)
                made = number(Machine, board)
                self.assertEqual(told.refusal.number if told.refusal else 0, made)
                self.assertEqual(number(report, board), made)
                self.assertEqual(number(report_json, board), made)
                self.assertEqual(told.text.startswith("ok\n"), made == 0)
                self.assertTrue(told.text.endswith("\n"))

    def test_long_texts_come_whole(self):
        text = report((BOARDS / "largest.toml").read_bytes())
        self.assertGreater(len(text), 4096)
        self.assertTrue(text.startswith("endpoints 769 bridges 255\n") and text.endswith("\n"))

    def test_a_report_as_json_tells_the_same(self):
        for name in ("main", "kinds", "largest"):
            board = (BOARDS / f"{name}.toml").read_bytes()
            lines, told = report(board).splitlines(), json.loads(report_json(board))
            self.assertEqual(lines[0], f"endpoints {told['endpoints']} bridges {told['bridges']}")
            paths = [line.split()[1] for line in lines[1:] if line[0] not in " g"]
            self.assertEqual([each["path"] for each in told["functions"]], paths)

    def test_words(self):
        self.assertEqual(strerror(205), "prefetchable memory aperture is too small")
        last = ["not a valid image", "image is for other functions", "image is for another board", "unsupported image version"]
        self.assertEqual([strerror(each) for each in range(905, 909)], last)
        self.assertEqual(strerror(0xFFFFFFFF), "")
        self.assertRaises(ValueError, strerror, -1)
