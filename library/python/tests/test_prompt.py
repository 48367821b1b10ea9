"""The prompt over a machine, and the reasons of bad lines."""

import os
import random
import re
import subprocess
import sys
import tempfile
import unittest

from boards import BOARDS, MAIN, REFUSED, TOP
from pciguest import Machine
from pciguest._prompt import Prompt


class Case(unittest.TestCase):
    def setUp(self):
        self.written = []
        self.prompt = Prompt(MAIN.encode(), "main.toml", self.written.append)
        self.addCleanup(lambda: self.prompt.machine.close())

    def asked(self, line):
        """What a line writes."""
        del self.written[:]
        self.assertTrue(self.prompt.run(line))
        return self.written[:]


class Lines(Case):
    def test_lines_of_a_script(self):
        self.assertEqual(self.asked("a cr 0 0 4"), ["a: 0x00011234"])
        self.assertEqual(self.asked("# a comment"), [])
        self.assertEqual(self.asked("  "), [])
        self.assertEqual(self.asked("a mr 1 4")[1], "  address is not a multiple of the width")
        self.assertEqual(self.asked("a mr 0xg 4")[0], "a: refused 401 bad line")
        self.assertIn("invalid address '0xg'", self.asked("a mr 0xg 4")[1])
        self.assertFalse(self.prompt.run("quit"))

    def test_lines_of_a_guest_that_is_called_as_a_word(self):
        self.prompt = Prompt(MAIN.replace('"a"', '"slots"').encode(), "main.toml", self.written.append)
        self.assertEqual(self.asked("slots cr 0 0 4"), ["slots: 0x00011234"])
        self.assertEqual(self.asked("slots raise 0 cfg 6 0"), ["slots: ok"])
        self.assertTrue(self.asked("slots")[0].startswith("slots"))

    def test_places_of_a_guest(self):
        asked = self.asked
        self.assertEqual(asked("a.vendor"), ["a cr 0 0x0 2", "a: 0x1234"])
        self.assertEqual(asked("a.bar1 = 0xd0000000"), ["a cw 0 0x14 4 0xd0000000", "a: ok"])
        self.assertEqual(asked("a.bar1[8:4]")[2], "  memory decode is disabled in slot 0")
        self.assertEqual(asked("a.command=2"), ["a cw 0 0x4 2 2", "a: ok"])
        self.assertEqual(asked("a.bar1[8:4] = 0x12345678"), ["a mw 0xd0000008 4 0x12345678", "a: ok"])
        self.assertEqual(asked("a.bar1[0x8:2]"), ["a mr 0xd0000008 2", "a: 0x5678"])
        self.assertEqual(asked("a.mem[0xd0000008:4]"), ["a mr 0xd0000008 4", "a: 0x12345678"])
        self.assertEqual(asked("a.1.cfg[0:4]"), ["a cr 1 0 4", "a: 0x00041234"])
        self.assertEqual(asked("a.io[0xcf8:4]"), ["a ir 0xcf8 4", "a: 0x00000000"])
        self.assertEqual(asked("a.cfg[1:4]")[1], "a: refused 301 misaligned")

    def test_places_of_the_board(self):
        asked = self.asked
        self.assertEqual(asked("2.0.secondary"), ["host cr 00:02.0 0x19 1", "host: 0x01"])
        self.assertEqual(asked("2.0/1.0.device"), ["host cr 01:01.0 0x2 2", "host: 0x0004"])
        self.assertEqual(asked("2.0/1.0.bar0[4:1]"), ["host mr 0x400000004 1", "host: 0xa5"])
        self.assertEqual(asked("host.mem[0x400000000:1]"), ["host mr 0x400000000 1", "host: 0xa5"])

    def test_places_that_are_none(self):
        for text, part in (
            ("a.bar5[0:4]", "a's slot 0 has no bar5: slot, offset, port or path is out of range (303)"),
            ("a.31.bar0[0:4]", "slot is empty (601)"),
            ("nobody.command", "invalid argument (902)"),
            ("nobody.bar0[0:4]", "invalid argument (902)"),
            ("a.secondary", "and no secondary"),
            ("host.command", "host has io and mem here"),
            ("host.mem[0:4] = 1", "the host only reads"),
            ("2.0.command = 1", "the host only reads"),
            ("2.0.subvendor", "and no subvendor"),
            ("9.0.command", "no function at 9.0"),
            ("2.0.bar0[0:4]", "and no bar0"),
            ("a.mem", "write [place:width] after mem"),
            ("a.bar1[x:4]", "'x' isn't a number"),
        ):
            said = self.asked(text)
            self.assertTrue(any(part in line for line in said) or "refused 402" in said[1], (text, said))

    def test_undo(self):
        self.asked("a.line = 7")
        self.asked("host move a 0 b 3")
        self.asked("b.3.vendor")
        self.assertEqual(self.asked("undo"), ["  taken back: host move a 0 b 3"])
        self.assertEqual(self.asked("a.line")[1], "a: 0x07")
        self.assertEqual(self.asked("undo"), ["  taken back: a cw 0 0x3c 1 7"])
        self.assertEqual(self.asked("a.line")[1], "a: 0x00")
        self.assertEqual(self.asked("undo"), ["  nothing was changed"])

    def test_what_is_told(self):
        self.assertEqual(
            self.asked("tree"),
            [
                "00:01.0 1.0 1234:0001 endpoint class ff0000, a slot 0",
                "00:02.0 2.0 1234:0002 bridge to bus 01",
                "  01:00.0 2.0/0.0 1234:0003 endpoint class ff0000, b slot 0",
                "  01:01.0 2.0/1.0 1234:0004 endpoint class ff0000, a slot 1",
            ],
        )
        registers = self.asked("regs 2.0")
        self.assertEqual(registers[0], "00 vendor            0x1234")
        self.assertIn("19 secondary         0x01", registers)
        self.assertEqual(self.asked("regs a.1")[1], "02 device            0x0004")
        self.assertEqual(self.asked("regs a")[1], "02 device            0x0001")
        self.assertEqual(self.asked("regs")[0], "  write the path of a function, or a guest, as in regs 2.0 or regs a.1")
        self.assertEqual(self.asked("slots")[0], "a slot 0: 1.0 1234:0001")
        self.assertIn("tree", self.asked("help")[0])

    def test_why(self):
        asked = self.asked
        self.asked("a.bar1 = 0xd0000000")
        self.assertEqual(
            asked("why a mem 0xd0000010"),
            [
                "why: memory 0xd0000010: nothing responds",
                "why: slot 0 bar1 at 0xd0000000 size 0x1000: decode is disabled (Command 0x0000)",
            ],
        )
        self.asked("a.command = 2")
        self.assertEqual(asked("why a mem 0xd0000010"), ["why: memory 0xd0000010: slot 0 bar1 responds at offset 0x10"])
        self.assertEqual(asked("why a cfg 2 0"), ["why: slot 2 offset 0x0: slot 2 is empty"])
        self.assertEqual(asked("why a io 0xcfc")[0], "why: I/O 0xcfc: CONFIG_ADDRESS (0x0) is disabled")
        self.assertIn("slot, offset, port or path is out of range (303)", asked("why a cfg 32 0")[0])
        self.assertIn("invalid argument (902)", asked("why nobody mem 0")[0])
        for line in ("why", "why a", "why a mem", "why a mem x", "why a cfg 1", "why a io 1 2", "why a bar 0"):
            self.assertIn("write a guest and a place", asked(line)[0])

    def test_completion(self):
        words = self.prompt.words
        self.assertEqual(words("", "t"), ["tree"])
        self.assertEqual(words("", "2.0"), ["2.0", "2.0/0.0", "2.0/1.0"])
        self.assertEqual(words("", "2.0.sec"), ["2.0.secondary", "2.0.secondary_latency", "2.0.secondary_status"])
        self.assertEqual(words("", "a.bar1"), ["a.bar1", "a.bar1["])
        self.assertEqual(words("", "a.1.com"), ["a.1.command"])
        self.assertEqual(words("a ", "c"), ["cr", "cw"])
        self.assertEqual(words("host ", "m"), ["move", "mr"])
        self.assertEqual(words("host move ", ""), ["a", "b"])
        self.assertEqual(words("regs ", "1"), ["1.0"])
        self.assertEqual(words("why ", ""), ["a", "b"])
        self.assertEqual(words("why a ", ""), ["cfg", "io", "mem"])
        self.assertEqual(words("x ", ""), [])


WORDS = ["a", "b", "c", "host", "nobody", "cr", "cw", "ir", "iw", "mr", "mw", "raise", "move", "0", "1", "4", "32", "0x10",
         "0X1f", "007", "0xcf8", "18446744073709551615", "18446744073709551616", "0xffffffff", "0x100000000", "256", "0x",
         "12a", "-1", "cfg", "bar0", "bar6", "00:01.0", "01:1f.7", "01:20.0", "1:0.0", "#", "é", "\x00"]
FORMS = ["a cr 0 0 4", "a cw 0 4 2 2", "b ir 0xcf8 4", "b iw 0xcf8 4 1", "a mr 0 4", "a mw 0 4 1", "a raise 0 cfg 7 1",
         "host cr 00:01.0 0 4", "host ir 0 1", "host mr 0 1", "host move a 0 b 5"]


def a_line(chance):
    """A line of a lawful form with some words changed, or words alone."""
    words = chance.choice(FORMS).split() if chance.randrange(4) else [chance.choice(WORDS) for _ in range(chance.randrange(7))]
    for _ in range(chance.randrange(3)):
        at = chance.randrange(len(words) + 1)
        words[at : at + chance.randrange(2)] = [chance.choice(WORDS)] if chance.randrange(3) else []
    return chance.choice([" ", "  ", "\t"]).join(words) + " " * (chance.randrange(250) if chance.randrange(20) == 0 else 0)


class Reasons(unittest.TestCase):
    def test_a_reason_for_each_bad_line_and_for_no_other(self):
        chance, bad = random.Random(1), 0
        with Machine(MAIN) as machine:
            for _ in range(20000):
                line = a_line(chance)
                reply = machine.run_line(line) or ""
                is_bad = re.search(": refused 40[123] ", reply) is not None
                why = machine.explain_line(line)
                self.assertEqual(why is not None, is_bad, (line, reply, why))
                bad += is_bad
        self.assertGreater(bad, 5000)
        self.assertLess(bad, 18000)


class AsAProgram(unittest.TestCase):
    def run_it(self, words, text, **more):
        environment = {**os.environ, "PYTHONPATH": str(TOP / "library" / "python"), **more}
        return subprocess.run([sys.executable, "-m", "pciguest", *words], input=text, capture_output=True, text=True,
                              timeout=60, env=environment)

    def test_lines_from_a_pipe(self):
        done = self.run_it([str(BOARDS / "main.toml")], "a.vendor\na mr\nquit\na.vendor\n")
        self.assertEqual((done.returncode, done.stderr), (0, ""))
        self.assertEqual(done.stdout.splitlines()[:3], ["a cr 0 0x0 2", "a: 0x1234", "a: refused 401 bad line"])
        self.assertEqual(len(done.stdout.splitlines()), 4)

    def test_a_board_that_is_refused(self):
        place = str(REFUSED / "place.toml")
        done = self.run_it([place], "")
        self.assertEqual((done.returncode, done.stdout), (1, ""))
        self.assertTrue(done.stderr.startswith(f"{place}:"))
        self.assertEqual(self.run_it(["nowhere.toml"], "").returncode, 1)

    def test_words(self):
        self.assertEqual(self.run_it([], "").returncode, 2)
        self.assertTrue(self.run_it(["--help"], "").stdout.startswith("usage: "))

    @unittest.skipUnless(os.path.exists("/dev/ptmx"), "no terminals")
    def test_a_terminal(self):
        """Lines are completed by the tabulator, and kept."""
        import pty

        with tempfile.TemporaryDirectory() as folder:
            environment = {**os.environ, "PYTHONPATH": str(TOP / "library" / "python"), "XDG_STATE_HOME": folder, "TERM": "dumb"}
            leader, follower = pty.openpty()
            done = subprocess.Popen([sys.executable, "-m", "pciguest", str(BOARDS / "main.toml")], stdin=follower,
                                    stdout=follower, stderr=follower, env=environment)
            os.close(follower)
            os.write(leader, b"a.subv\t\nquit\n")
            said = b""
            while True:
                try:
                    part = os.read(leader, 4096)
                except OSError:
                    break
                if not part:
                    break
                said += part
            os.close(leader)
            self.assertEqual(done.wait(timeout=60), 0)
            self.assertIn(b"4 functions, guests a b", said)
            self.assertIn(b"a cr 0 0x2c 2", said)
            with open(os.path.join(folder, "pciguest", "history")) as kept:
                self.assertIn("a.subvendor", kept.read())
