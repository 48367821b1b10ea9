"""Firmware that does its work, and firmware that misbehaves, on boards of the second hand."""

import contextlib
import io
import os
import shutil
import subprocess
import sys
import tempfile
import time
import tomllib
import unittest
from contextlib import closing
from pathlib import Path
from unittest import mock
from xml.etree import ElementTree

import places  # noqa: F401
from pciguest import _report, firmware_test
from pciguest._child import Limits
from pciguest._driven import Program
from pciguest._firmware_run import Firmware
from pciguest._special import SPECIAL
from second_hand import SecondHand, SecondHandBoard

BOARD = """
[host]
io = [0x1000, 0xffff]
mem = [0xc0000000, 0xdfffffff]
[[endpoint]]
at = "1.0"
vendor = 0x1234
device = 1
class = 0xff0000
bar = [ { index = 0, kind = "mem32", size = 4096 }, { index = 1, kind = "io", size = 32 } ]
[[endpoint]]
at = "2.0"
vendor = 0x1234
device = 2
class = 0xff0000
"""
ASK = """
import os, sys, time
def ask(line):
    print(line, flush=True)
    return input()
"""
#: the second hand as a program that reads lines
PROGRAM = f"""#!{sys.executable} -B
import sys, tomllib
sys.path.insert(0, {os.path.dirname(os.path.abspath(__file__))!r})
from second_hand import SecondHandBoard
board = SecondHandBoard(tomllib.load(open(sys.argv[2], "rb")))
for line in sys.stdin:
    print(board.run_line(line.strip()), flush=True)
"""
PLACE = "ask('host cw 00:01.0 0x10 4 0xc0000000'); ask('host cw 00:01.0 0x14 4 0x1000');"
OPEN = "ask('host cw 00:01.0 4 2 3')"
QUESTIONS_IN_C = """
#include "pciguest_ops.h"
int main(void)
{
    struct pg_root_bridge_io root = { NULL };
    unsigned char bytes[2];
    unsigned long lines;

    if (!pg_is_count("ready: 1 problem, 5 left to do\\n", &lines) || lines != 6 ||
        pg_is_count("why: 2 BARs at 0x0 with decode disabled, as at reset\\n", &lines))
        return 1;
    pg_root_bridge_io_read(&root, 1, UINT64_C(0x00010002), 1, bytes); /* of 00:01.0, two bytes at offset 2 */
    if (bytes[0] != 1 || bytes[1] != 0)
        return 1;
    bytes[0] = 5;
    pg_root_bridge_io_write(&root, 0, UINT64_C(0x0001003c), 1, bytes);
    if (pg_config_read(PG_BDF(0, 1, 0), 0x3c, 1) != 5)
        return 1;
    if (pg_question("host ready", stderr) != 2 || pg_question("host why mem 0xc0000000", stderr) != 1)
        return 1;
    pg_config_write(PG_BDF(0, 1, 0), 0x10, 4, 0xc0000000);
    pg_config_write(PG_BDF(0, 1, 0), 0x14, 4, 0x1000);
    pg_config_write(PG_BDF(0, 1, 0), 4, 2, 3);
    return pg_question("host ready", NULL) != 0 || pg_question("host why cfg 00:01.0", NULL) != 1;
}
"""


class FirmwareTest(unittest.TestCase):
    def setUp(self):
        self.folder = tempfile.TemporaryDirectory()
        self.addCleanup(self.folder.cleanup)
        self.board, self.junit = Path(self.folder.name) / "board.toml", Path(self.folder.name) / "junit.xml"
        self.failed = Path(self.folder.name) / "failed.toml"
        self.board.write_text(BOARD)

    def run_words(self, *words):
        """The status and all that is told of firmware."""
        out, errors = io.StringIO(), io.StringIO()
        with contextlib.redirect_stdout(out), contextlib.redirect_stderr(errors):
            status = firmware_test.main(["--save", str(self.failed), *words], SecondHand())
        return status, out.getvalue() + errors.getvalue()

    def run_command(self, command, *options):
        return self.run_words("--board", str(self.board), "--junit", str(self.junit), *options, "--", *command)

    def run_firmware(self, code, *options):
        return self.run_command([sys.executable, "-c", ASK + code], *options)

    def fails(self, code, pattern, *options):
        """Firmware fails, and what is told of it has the pattern."""
        status, told = self.run_firmware(code, *options)
        self.assertEqual(status, 1, told)
        self.assertRegex(told, f"(?s){pattern}")
        return told

    def test_ready(self):
        self.assertEqual(self.run_firmware(PLACE + OPEN), (0, "1 board: 1 ready\n"))
        suite = ElementTree.parse(self.junit).getroot()
        self.assertEqual((suite.get("tests"), suite.get("failures"), len(suite)), ("1", "0", 1))

    def test_comments_and_lines_without_end(self):
        code = "print('# placing', flush=True);" + PLACE + "sys.stdout.write('host cw 00:01.0 4 2 3')"
        self.assertEqual(self.run_firmware(code)[0], 0)

    def test_answers_that_nobody_reads(self):
        lines = "".join(f"host cw 00:01.0 {words}\n" for words in ["0x10 4 0xc0000000", "0x14 4 0x1000", "4 2 3"])
        script = Path(self.folder.name) / "script"
        script.write_text(lines + "host cr 00:01.0 0 4\n" * 20000)
        self.assertEqual(self.run_command(["cat", str(script)])[0], 0)

    def test_a_lack_since_reset(self):
        told = self.fails("pass", "ready: 1.0 bar0 at 0x0 size 0x[14]0?: .* decode is disabled\n.*appeared at reset: none of the 0 lines")
        self.assertIn('at = "1.0"', told)
        self.assertIn("\n1.0 bar0, Command: never written\nthe firmware never finds 1.0, and never looks for it\n", told)
        self.assertNotIn("2.0", told.split("this board again")[0])
        self.assertIn("size = 0x", self.failed.read_text())

    def test_since_which_line(self):
        told = self.fails(PLACE + OPEN + "; ask('host cr 00:01.0 0 4'); ask('host cw 00:01.0 0x10 4 0xe0000000')",
                          "0xe0000000 is outside the apertures\n")
        self.assertIn("appeared at line 5 of 5: host cw 00:01.0 0x10 4 0xe0000000\n"
                      "1.0 bar0: last written by line 5 of 5: host cw 00:01.0 0x10 4 0xe0000000\n"
                      "1.0 Command: last written by line 3 of 5: host cw 00:01.0 4 2 3\n"
                      "host why mem 0xe0000000\nwhy: memory 0xe0000000: 1.0 bar0 responds at offset 0x0\nwhy: 1 line\n\n", told)

    def test_sizing(self):
        sizing = "ask('host cw 00:01.0 4 2 2'); ask('host cw 00:01.0 0x10 4 0xffffffff');"
        words = r"sizing: 00:01.0 bar0: all ones are written while memory decode is enabled \(Command 0x0002\)"
        told = self.fails(sizing + PLACE + OPEN, words)
        self.assertRegex(told, "host why mem (0xf+0+)\nwhy: memory \\1: 1.0 bar0 responds at offset 0x0\n")
        ports = "ask('host iw 0xcf8 4 0x80000810'); ask('host iw 0xcfc 4 0xffffffff');"
        self.fails("ask('host cw 00:01.0 4 2 2');" + ports + PLACE + OPEN, "sizing: 00:01.0 bar0: all ones")
        self.assertEqual(self.run_firmware(ports + PLACE + OPEN)[0], 0)
        self.assertEqual(self.run_firmware(sizing + PLACE + OPEN, "--allow", "sizing")[0], 0)

    def test_hangs(self):
        begun = time.monotonic()
        status, told = self.run_command(["sh", "-c", "echo host cr 00:01.0 0 4; sleep 1000"], "--time", "2", "--shrink", "0")
        self.assertEqual(status, 1)
        self.assertIn("writes no line for 2 seconds, after 1 line; the last was: host cr 00:01.0 0 4", told)
        self.assertLess(time.monotonic() - begun, 60)

    def test_goes_on(self):
        code = ASK + "while True: time.sleep(0.1); ask('host cr 00:01.0 0 4')"
        run = Firmware([sys.executable, "-c", code], SecondHand(), Limits(60, 2)).run(tomllib.loads(BOARD))
        self.assertIn("the firmware has not ended after 2 seconds", run.wrong[0])

    def test_closes_its_output(self):
        status, told = self.run_command(["sh", "-c", "exec >&-; sleep 1000"], "--time", "2", "--shrink", "0")
        self.assertEqual(status, 1)
        self.assertIn("has closed its output, and doesn't end for 2 seconds, and wrote no line before", told)

    def test_dies(self):
        told = self.fails("sys.exit('no memory')", "the firmware ended with status 1", "--shrink", "1")
        words = "set-up finds room for all regions: `pciguest list` shows where"
        self.assertIn(f"{words}, or --no-room 1 if that status says that there is none\n\nits standard error:\nno memory", told)
        told = self.fails("os.kill(os.getpid(), 11)", "was ended by signal 11", "--shrink", "1")
        self.assertIn(f"{words}\n", told)

    def test_floods(self):
        self.fails("while True: ask('host cr 00:01.0 0 4')", "writes more than 100 lines, after 100 lines",
                   "--lines", "100", "--shrink", "0")
        self.fails("while True: sys.stdout.write('x' * 1000)", "writes more than 4096 bytes without a line feed",
                   "--shrink", "0")
        status, told = self.run_command(["sh", "-c", "yes >&2"], "--time", "2", "--shrink", "0")
        self.assertEqual((status, "no line for 2 seconds" in told, len(told) < 8000), (1, True, True))

    def test_nonsense(self):
        self.fails("ask('Hello')", r"a line that isn't an access \(\?: refused 402 unknown guest\): 'Hello'", "--shrink", "0")
        self.fails("sys.stdout.buffer.write(b'\\xff\\n')", r"an access .*'\\\\xff'", "--shrink", "0")
        self.fails("ask('host cr 00:01.0 1 4')", r"an invalid access \(host: refused 301 misaligned\)",
                   "--shrink", "0")
        self.fails("ask('host guests')", "a line that would hand the board over: 'host guests'", "--shrink", "0")

    def test_questions_of_the_firmware(self):
        for question in ("host ready", "host why mem 0xc0000000"):
            self.assertEqual(self.run_firmware(f"ask('{question}');" + PLACE + OPEN)[0], 0)

    @unittest.skipUnless(shutil.which("cc"), "no C compiler")
    def test_questions_in_c(self):
        source, program = Path(self.folder.name) / "asks.c", str(Path(self.folder.name) / "asks")
        source.write_text(QUESTIONS_IN_C)
        header = Path(__file__).resolve().parents[2] / "library"
        subprocess.run(["cc", "-std=c99", "-Wall", "-Werror", f"-I{header}", "-o", program, source], check=True)
        self.assertEqual(self.run_command([program])[0], 0)

    def test_replies_of_several_lines_by_a_program(self):
        program = Path(self.folder.name) / "program"
        program.write_text(PROGRAM)
        program.chmod(0o755)
        with closing(Program(str(program)).board(BOARD)) as board, closing(SecondHand().board(BOARD)) as other:
            for line in ("ready", "cr 00:01.0 0 4", "why mem 0x0", "why cfg 00:01.0", "cw 00:01.0 4 2 3"):
                self.assertEqual(board.run_line(f"host {line}"), other.run_line(f"host {line}"))
            self.assertEqual(board.ready_text(), other.ready_text())
            self.assertEqual(board.run_line("host cr 00:01.0 4 2"), "host: 0x0003")

    def test_nothing_is_left_running(self):
        mark = Path(self.folder.name) / "pid"
        code = f"import subprocess; p = subprocess.Popen(['sleep', '1000']); open({str(mark)!r}, 'w').write(str(p.pid))"
        self.assertEqual(self.run_firmware(code + ";" + PLACE + OPEN, "--time", "60")[0], 0)  # sleep holds the output open
        with self.assertRaises(ProcessLookupError):
            for _ in range(100):
                os.kill(int(mark.read_text()), 0)
                time.sleep(0.05)

    def test_apertures(self):
        code = "first = int(os.environ['PCIGUEST_MEM'].split()[0], 0); ask(f'host cw 00:01.0 0x10 4 {first:#x}');"
        code += "ask('host cw 00:01.0 0x14 4 0x1000');" + OPEN
        self.assertEqual(self.run_firmware(code)[0], 0)
        self.assertEqual(self.run_firmware(code, "--mem", "0x80000000-0x8fffffff")[0], 0)
        self.fails(PLACE + OPEN, "outside the apertures", "--mem", "0x80000000-0x8fffffff")

    def test_random_boards(self):
        self.board.unlink()
        with mock.patch.multiple(firmware_test, EXAMPLES=[], SPECIAL={}):
            status, told = self.run_words("--boards", "3", "--", "true")
        self.assertEqual(status, 1)
        self.assertRegex(told, r"FAILED on random board \d \(\d+ functions?\), and on this board \(\d functions?\)")

    def test_special_boards(self):
        status, told = self.run_words("--special", "no_ports_left", "--", "true")
        self.assertEqual(status, 1)
        self.assertIn("\nroom: not all regions fit, and the firmware doesn't report it\n", told)
        self.assertIn("--special no_ports_left -- true\n", told)

    def test_no_room(self):
        self.board.write_text(BOARD.replace("0xdfffffff", "0xc00fffff").replace("size = 4096", "size = 0x200000"))
        said = "1 board: 0 ready; the firmware reports no room on 1\n"
        full = "ask('host cw 00:01.0 0x14 4 0x1000'); ask('host cw 00:01.0 4 2 1'); sys.stderr.write('no room');"
        for code, options in ((full + "sys.exit(7)", ["--no-room", "7"]), (full + "sys.exit(7)", []), (full, ["--no-room", "no room"]),
                              (full, ["--allow", "room"])):
            status, told = self.run_firmware(code, *options)
            self.assertEqual((status, said in told), (0, True), told)
        for code, options in ((full, []), (full + "sys.exit(7)", ["--no-room", "8"]), (full, ["--no-room", "full"])):
            self.assertEqual(self.run_firmware(code, *options, "--shrink", "0")[0], 1)
        self.fails("ask('host cw 00:01.0 4 2 2'); sys.exit(1)", "0x0 is outside the apertures", "--shrink", "0")
        self.fails("os.kill(os.getpid(), 11)", "was ended by signal 11", "--shrink", "0")

    def test_no_room_where_set_up_finds_some(self):
        said = "1 board: 0 ready; the firmware reports no room on 1; set-up finds room on 1 of these\n"
        gave_up = "ask('host cw 00:01.0 0x14 4 0x1000'); ask('host cw 00:01.0 4 2 1'); sys.exit('no room')"
        for way in ("1", "0", "no room"):
            self.assertEqual(self.run_firmware(gave_up, "--no-room", way), (0, said))
        self.fails(gave_up, "ended with status 1", "--shrink", "0")
        self.fails(gave_up, "ended with status 1", "--shrink", "0", "--no-room", "2")
        self.fails("ask('host cw 00:01.0 4 2 2'); sys.exit(1)", "0x0 is outside the apertures", "--shrink", "0", "--no-room", "1")

    def test_what_is_wrong_beside_no_room(self):
        self.board.write_text(BOARD.replace("0xdfffffff", "0xc00fffff").replace("size = 4096", "size = 0x200000"))
        told = self.fails("ask('host cw 00:01.0 4 2 2')", "room: not all regions fit", "--shrink", "0")
        self.assertIn("the first of these appeared at line 1 of 1: host cw 00:01.0 4 2 2\n", told)
        self.assertIn("1.0 Command: last written by line 1 of 1: host cw 00:01.0 4 2 2\nhost why mem 0x0\n", told)

    def test_tight_boards_by_option(self):
        special = {name: SPECIAL[name] for name in ("top_of_memory", "no_ports_left", "from_zero")}
        with mock.patch.multiple(firmware_test, EXAMPLES=[], SPECIAL=special):
            for options, count, left_out in (([], 6, 1), (["--tight"], 7, 0)):
                status, told = self.run_words("--boards", "4", "--all", *options, "--", "true")
                self.assertEqual(status, 1)
                self.assertIn(f"{count} boards: the firmware fails on {count}\n", told)
                words = "1 board left out: less than twice the room that set-up needs (--tight takes these)\n"
                self.assertEqual(words in told, left_out == 1)

    def test_wide_apertures_tell_why_there_is_no_room(self):
        gives_up = "os.environ['PCIGUEST_MEM'].endswith(' 0xffffffff') or sys.exit('no room');"
        for options in ([], ["--no-room", "1"]):
            told = self.fails(gives_up + PLACE + OPEN + ";ask('host cw 00:01.0 0x10 4 0x10000000')", "0x10000000 is outside the apertures", *options)
            self.assertIn("on this board (1 function), with wide apertures; in those of the board it finds no room:\n", told)
            self.assertIn("mem = [0x80000000, 0xffffffff]\n", told)
        told = self.fails(gives_up + PLACE + OPEN, "ended with status 1", "--shrink", "0")
        self.assertIn("on this board (2 functions), for lack of room alone: with wide apertures it is ready:\n", told)
        told = self.fails(gives_up + PLACE + OPEN, "ended with status 1", "--all")
        self.assertIn("(dies 1), for lack of room alone: with wide apertures it is ready: the firmware ended", told)

    def test_a_hundred_problems(self):
        told = self.fails("pass", "decode is disabled")
        self.assertNotIn(" more problem", told)
        with mock.patch.object(_report, "MOST_WRONG", 1):
            told = self.fails("pass", "decode is disabled", "--shrink", "0")
        self.assertEqual((told.count("decode is disabled\n"), told.count("\n... and 1 more problem\n")), (1, 1))

    def test_a_second_run(self):
        sized = "ask('host cw 00:01.0 0x10 4 0xffffffff'); ask('host cw 00:01.0 0x14 4 0xffffffff');"
        self.assertEqual(self.run_firmware(sized + PLACE + OPEN)[0], 0)
        told = self.fails(sized + PLACE + OPEN, "sizing: 00:01.0 bar0: all ones are written while memory decode is enabled",
                          "--warm", "--shrink", "0")
        self.assertIn("the second run begins at line 6\nthe first of these appeared at line 6 of 10:", told)
        self.assertIn("test --warm --board", told)
        self.assertEqual(self.run_firmware("ask('host cw 00:01.0 4 2 0');" + sized + PLACE + OPEN, "--warm")[0], 0)

    def test_registers_that_other_firmware_left(self):
        self.assertEqual(self.run_firmware("ask('host cw 00:01.0 4 2 0');" + PLACE + OPEN, "--dirty", "2")[0], 0)
        wide = BOARD.replace('"mem32", size = 4096 }, { index = 1', '"mem64", size = 4096 }, { index = 2')
        self.board.write_text(wide)
        code = "ask('host cw 00:01.0 4 2 0');" + PLACE.replace("0x14", "0x18") + OPEN
        self.assertEqual(self.run_firmware(code)[0], 0)
        told = self.fails(code, "1.0 bar0 at 0x[0-9a-f]+c0000000 size 0x10: .* outside the apertures", "--dirty", "2")
        self.assertIn("1.0 bar0 upper half: never written\n", told)
        self.assertIn("test --dirty 2 --board", told)
        told = self.fails("pass", "appeared at the beginning: none of the 0 lines changed it", "--dirty", "2")
        self.assertEqual(self.fails("pass", "", "--dirty", "2"), told)
        self.assertNotEqual(self.fails("pass", "", "--dirty", "3"), told.replace("--dirty 2", "--dirty 3"))

    def test_the_line_in_the_firmware(self):
        """What it printed before each line is kept with the line, and told of the one that went wrong."""
        code = "".join(f"print('{words}', file=sys.stderr); {line.rstrip(chr(59))};" for words, line in (
            ("looks", "ask('host cr 00:01.0 0 4')"), ("places", PLACE), ("opens", OPEN), ("moves", "ask('host cw 00:01.0 0x10 4 0xe0000000')")))
        log = Path(self.folder.name) / "log"
        told = self.fails(code + "print('ends', file=sys.stderr)", "outside the apertures", "--log", str(log), "--shrink", "0")
        self.assertIn("appeared at line 5 of 5: host cw 00:01.0 0x10 4 0xe0000000\nbefore it, the firmware printed: moves\n", told)
        self.assertIn(f"\nall its lines:     {log}\n", told)
        self.assertEqual(log.read_text().splitlines(), [
            f"# on {self.failed}", "# looks", "1 host cr 00:01.0 0 4 -> host: 0x00011234", "# places",
            "2 host cw 00:01.0 0x10 4 0xc0000000 -> host: ok", "3 host cw 00:01.0 0x14 4 0x1000 -> host: ok", "# opens",
            "4 host cw 00:01.0 4 2 3 -> host: ok", "# moves", "5 host cw 00:01.0 0x10 4 0xe0000000 -> host: ok", "# ends"])
        self.assertEqual(self.run_firmware("ask('host ready');" + PLACE + OPEN, "--log", str(log))[0], 0)
        self.assertEqual(log.read_text().splitlines()[:4], [
            f"# on {self.board}", "1 host ready -> ready: 1.0 bar0 at 0x0 size 0x1000: memory decode is disabled",
            "    ready: 1.0 bar1 at 0x0 size 0x20: I/O decode is disabled", "    ready: 2 left to do"])

    def test_a_warning_that_names_the_cause(self):
        code = PLACE + "ask('host cw 00:01.0 4 2 3'); ask('host cw 00:01.0 0x10 4 0xe0000000')"
        told = self.fails(code, "outside the apertures", "--shrink", "0")
        self.assertIn("\n\nwarning: moved: 1.0 bar0 at 0xe0000000 size 0x1000: moves from 0xc0000000 "
                      "while memory decode is enabled (Command 0x0003) (by line 4)\nready: 1.0 bar0 at 0xe0000000", told)

    def test_the_time_of_the_kit(self):
        class Slow(SecondHandBoard):
            def run_line(self, line):
                time.sleep(0.2)
                return super().run_line(line)

        class SlowHand(SecondHand):
            def board(self, text):
                return Slow(tomllib.loads(text))

        run = Firmware([sys.executable, "-c", ASK + PLACE + OPEN], SlowHand(), Limits(1, 1)).run(tomllib.loads(BOARD))
        self.assertEqual((run.wrong, len(run.lines)), ([], 3))

    def test_transients(self):
        code = "ask('host cw 00:01.0 4 2 3');" + PLACE
        told = ("moved: 1.0 bar0 at 0xc0000000 size 0x1000: moves from 0x0 while memory decode is enabled (Command 0x0003)")
        status, words = self.run_firmware(code)
        self.assertEqual(status, 0)
        self.assertIn(f"warning: {told}\n  by line 2 of 3 on {self.board}: host cw 00:01.0 0x10 4 0xc0000000\n", words)
        found = self.fails(code, "appeared at line 2 of 3: host cw 00:01.0 0x10 4 0xc0000000\n", "--transients")
        self.assertIn("moves from", found)
        self.assertIn("test --transients --board", found)
        self.assertEqual(self.run_firmware(code, "--transients", "--allow", "moved")[0], 0)
        self.assertNotIn("warning", self.run_firmware(PLACE + OPEN)[1])

    def test_a_status_that_is_wiped(self):
        self.board.write_text(BOARD.replace('device = 2', 'device = 2\nstatus = 0xf900'))
        wipes = "old = int(ask('host cr 00:02.0 4 4')[6:], 16); ask(f'host cw 00:02.0 4 4 {old | 0x100:#x}');"
        status, told = self.run_firmware(wipes + PLACE + OPEN)
        self.assertEqual((status, "warning: status: 2.0: a 4-byte write to Command changes Status from 0xf900 to 0x0000" in told), (0, True), told)
        self.fails(wipes + PLACE + OPEN, "2.0 Status: last written by line 2 of", "--transients")

    def test_all_boards(self):
        boards = ["--board", str(self.board)]
        told = self.fails("pass", "2 boards: the firmware fails on 2\n", "--all", *boards)
        line = f"FAILED on {self.board} (closed 2): ready: 1.0 bar0 at 0x0 size 0x1000: memory decode is disabled\n"
        self.assertEqual(told, 2 * line + "2 boards: the firmware fails on 2\n")
        self.fails("sys.exit(3)", r"\(dies 1\): the firmware ended with status 3", "--all")

    def test_sentences_in_place_of_tracebacks(self):
        words = "import sys; from pciguest._files import told_whole; sys.exit(told_whole(lambda: print('x' * 200000)))"
        where = {**os.environ, "PYTHONPATH": str(places.TOP / "library/python")}
        with subprocess.Popen([sys.executable, "-c", words], stdout=subprocess.PIPE, stderr=subprocess.PIPE, env=where) as piped:
            piped.stdout.close()
            told = piped.stderr.read()
        self.assertEqual((piped.wait(), told), (2, b"standard output was closed before all was told\n"))
        ran = subprocess.run([sys.executable, "-m", "pciguest.rom_test", "/nosuch.rom"], capture_output=True, text=True, env=where)
        self.assertIn(ran.returncode, (1, 2))
        self.assertNotIn("Traceback", ran.stderr)

    def test_junit_of_a_failure(self):
        self.fails("pass", "decode is disabled")
        failure = ElementTree.parse(self.junit).getroot().find("testcase/failure")
        self.assertEqual(failure.get("message"), "ready: 1.0 bar0 at 0x0 size 0x1000: memory decode is disabled")
        self.assertIn("this board again:", failure.text)

    def test_the_commands_that_run_it_again(self):
        options = "--time 2 --shrink 0 --lines 100 --allow sizing".split()
        for typed, begins in ((None, "python3 -m pciguest.firmware_test"), ("bin/own test", "'bin/own test'")):
            with mock.patch.dict(os.environ, {"PCIGUEST_FIRMWARE_TEST": typed} if typed else {}):
                told = self.run_command(["sh", "-c", "exit 3"], *options)[1]
            words = f"{begins} --allow sizing --time 2 --lines 100 --board"
            self.assertIn(f"\nthis board again:  {words} {self.failed} -- sh -c 'exit 3'\n", told)
            self.assertIn(f"\nthe first one:     {words} {self.board} -- sh -c 'exit 3'\n", told)

    def test_apertures_that_no_board_may_have(self):
        status, told = self.run_firmware("pass", "--io", "0-0xffff")
        self.assertEqual((status, told), (2, f"{self.board} cannot be set up with these addresses; `pciguest check {self.failed}` says why\n"))
        self.assertEqual(tomllib.loads(self.failed.read_text())["host"]["io"], [0, 0xFFFF])

    def test_boards_with_devices_above_the_last_one(self):
        options = firmware_test.parser().parse_args(["--tight", "--max-device", "15", "--boards", "9", "--", "true"])
        test = firmware_test.Test(options, SecondHand())
        boards = [test.special(name) for name in ("deep", "odd_bits", "last_devices")] + [test.random(seed) for seed in range(1, 10)]
        self.assertEqual([board.name for board in boards if test.why_left_out(board)], ["the special board last_devices"])
        self.assertEqual(test.why_left_out(boards[2]), "devices above 15")
        self.assertIn("--max-device 15", " ".join(test.repeated()))
        for number in ("-1", "32", "x"):
            with self.assertRaises(SystemExit), contextlib.redirect_stderr(io.StringIO()):
                firmware_test.parser().parse_args(["--max-device", number, "--", "true"])

    def test_numbers_that_cannot_be_used(self):
        for option in ("--boards", "--bridges", "--lines"):
            with self.assertRaises(SystemExit) as ended, contextlib.redirect_stderr(io.StringIO()) as errors:
                firmware_test.main([f"{option}=-5", "--", "true"], SecondHand())
            self.assertEqual(ended.exception.code, 2)
            self.assertIn("-5 isn't a number (0 or higher)", errors.getvalue())

    def test_words_that_cannot_be_used(self):
        self.assertEqual(self.run_command(["./no such command"])[0], 2)
        self.board.write_text("[host]\n")
        self.assertEqual(self.run_firmware("pass")[0], 2)
        self.board.unlink()
        self.assertEqual(self.run_firmware("pass")[0], 2)


if __name__ == "__main__":
    unittest.main()
