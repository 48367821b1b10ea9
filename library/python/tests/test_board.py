"""Firmware on `boards/main.toml`, by calls and by lines; test_refusal_rows.py has most of what is refused."""

import json
import random

from boards import BOARDS, MAIN, REFUSED, TEXTS, Case, set_up_by_hand
from pciguest import Board, Machine, Refusal
from why_lines import why_lines


class BoardCase(Case):
    def setUp(self):
        self.board = Board(MAIN)
        self.addCleanup(self.board.close)


class Firmware(BoardCase):
    def test_firmware_places_a_region(self):
        board, bridge, behind = self.board, self.board.config[0, 2, 0], self.board.config[1, 1, 0]
        self.assertEqual(behind[0:4], 0xFFFFFFFF)
        bridge[0x18:4] = 0x00010100
        self.assertEqual(behind[0:4], 0x00041234)
        behind[0x10:4] = 0xFFFFFFFF
        self.assertEqual(behind[0x10:4], 0xFF00000C)
        behind[0x10:4] = 0xC0000000
        bridge[0x24:4] = 0xC0F0C000
        bridge[4:2] = 2
        behind[4:2] = 2
        self.assertEqual(board.memory[0xC0000000:4], 0xA5A5A5A5)

    def test_ports_and_lines(self):
        self.board.io[0xCF8:4] = 0x80001000
        self.assertEqual(self.board.io[0xCFC:4], 0x00021234)
        self.assertEqual(self.board.run_line("host cr 00:02.0 0 4\n"), "host: 0x00021234")
        self.assertEqual(self.board.io[0xCF8:4], 0)  # an access by number leaves it so
        self.assertIsNone(self.board.run_line("# a comment"))

    def test_calls_and_lines_answer_alike(self):
        chosen = random.Random(1)
        with Board(MAIN) as other:
            for _ in range(10000):
                width, value = chosen.choice((1, 2, 4, 4, 3)), chosen.choice((0xFFFFFFFF, chosen.getrandbits(32)))
                bus, device, offset = chosen.randrange(3), chosen.randrange(4), chosen.randrange(0x108)
                place = f"{bus:02x}:{device:02x}.0 {offset} {width}"
                space = self.board.config[bus, device, 0]
                if chosen.random() < 0.5:
                    wanted = other.run_line(f"host cr {place}")
                    found = self.told(lambda: f"0x{space[offset:width]:0{2 * width}x}")
                else:
                    wanted = other.run_line(f"host cw {place} {value}")
                    found = self.told(lambda: space.__setitem__(slice(offset, width), value) or "ok")
                self.assertEqual(f"host: {found}", wanted)

    def told(self, access):
        try:
            return access()
        except Refusal as refusal:
            return f"refused {refusal.number} {TEXTS[refusal.number]}"


class BoardFunctions(BoardCase):
    def test_functions_at_reset_and_driven(self):
        board, bridge = self.board, self.board.config[0, 2, 0]
        self.assertEqual(board.count(), 4)
        at_reset = list(board.functions())
        self.assertEqual([each.function.path for each in at_reset], ["1.0", "2.0", "2.0/0.0", "2.0/1.0"])
        self.assertEqual([each.is_found for each in at_reset], [True, True, False, False])
        self.assertEqual([each.function.seat for each in at_reset], [None] * 4)
        self.assertFalse(any(each.opens_io or each.opens_memory for each in at_reset))
        bridge[0x18:4] = 0x00010100
        bridge[0x24:4] = 0xC0F0C000
        behind = board.config[1, 1, 0]
        behind[0x10:4] = 0xC0000000
        behind[4:2] = 2
        told = board.function(3)
        self.assertTrue(told.is_found and told.opens_memory and not told.opens_io)
        self.assertEqual((told.function.bus, told.function.device), (1, 1))
        self.assertEqual(told.function.regions[0], ("memory", 0xC0000000, 0x1000000, True, True))
        self.assertEqual(board.function(1).function.windows.prefetchable, (0xC0000000, 0xC0FFFFFF))
        self.assertFalse(board.function(1).opens_memory)
        self.assertRaises(ValueError, board.function, -1)

    def test_a_board_that_is_gone(self):
        self.board.close()
        self.refused(901, self.board.count)
        self.refused(901, self.board.function, 0)


class Audits(BoardCase):
    def test_an_audit_tells_what_is_wrong(self):
        audit = self.board.audit()
        self.assertTrue(audit.text.endswith("\naudit: 2 problems\n"))
        self.assertEqual(audit.problems, 2)
        self.board.config[0, 2, 0][0x18:4] = 0x00010100
        self.assertEqual(self.board.audit(), ("audit: ok\n", 0))

    def test_json_has_what_lines_have(self):
        for name in ("main", "largest"):
            with Board((BOARDS / f"{name}.toml").read_bytes()) as board:
                told = json.loads(board.ready_json())
                self.assertEqual(json.loads(board.audit_json()), {"problems": told["problems"]})
                self.assertEqual(len(told["problems"]), board.audit().problems)
                self.assertEqual(len(told["lacks"]) + len(told["problems"]), board.ready().lacks)

    def test_json_tells_why_as_lines_do(self):
        chosen = random.Random(4)
        for name in ("main", "server", "second_bridge", "largest"):
            with Board((BOARDS / f"{name}.toml").read_bytes()) as board:
                for _ in range(300):
                    one = board.function(chosen.randrange(min(board.count(), 8))).function
                    space = board.config[one.bus, one.device, one.function]
                    offset = chosen.choice((4, 0x10, 0x14, 0x18, 0x1C, 0x20, 0x24))
                    space[offset:4] = chosen.choice((0, 3, 7, 0x10100, 0x30200, 0xC000C000, 0xC0F0C000, 0xC0000000, 0x1000))
                    board.io[0xCF8:4] = chosen.choice((0, 0x80000000)) | chosen.randrange(0x40000)
                    latch = board.io[0xCF8:4]
                    for line, what, at in self.asked(chosen):
                        told = board.run_line(f"host why {line}").split("\n")
                        lines = why_lines(board.why_json(*at), what, latch)
                        count = f"{len(lines)} line{'s' if len(lines) > 1 else ''}"
                        self.assertEqual(told, [f"why: {each}" for each in [*lines, count]])
        self.assertRaises(ValueError, self.board.why_json, "mem", 0)
        self.assertRaises(ValueError, self.board.why_json, "config", bus=256)

    def asked(self, chosen):
        """Places to ask about: the words of a line, of the first line of its reply, and of the call."""
        number = chosen.randrange(4), chosen.randrange(4), 0
        yield "cfg {0:02x}:{1:02x}.{2}".format(*number), "{0:02x}:{1:02x}.{2}".format(*number), ("config", 0, *number)
        for port in (0xCF8, chosen.randrange(0xCFC, 0xD00), chosen.choice((0, 0x1000, 0x1004))):
            yield f"io {port:#x}", f"I/O {port:#x}", ("io", port)
        for address in (chosen.choice((0, 0x1000, 0x4000)), chosen.choice((0xC0000000, 0xC0100000, 0xC1000000))):
            yield f"mem {address:#x}", f"memory {address:#x}", ("memory", address)

    def test_a_line_asks_for_an_audit(self):
        self.assertEqual(self.board.run_line("host audit"), self.board.audit().text.rstrip("\n"))
        self.board.config[0, 2, 0][0x18:4] = 0x00010100
        self.assertEqual(self.board.run_line("host audit"), "audit: ok")

    def test_long_texts_come_whole(self):
        with Board((BOARDS / "largest.toml").read_bytes()) as board:
            audit = board.audit()
            self.assertEqual(board.run_line("host audit"), audit.text.rstrip("\n"))
        self.assertGreater(len(audit.text), 4096)
        self.assertEqual(audit.text.count("\n"), audit.problems + 1)


class SetUp(BoardCase):
    def test_a_board_at_reset_is_set_up(self):
        with self.board.set_up() as machine, Machine(MAIN) as other:
            self.assertEqual(machine.guest("a").config[0][0:4], 0x00011234)
            for offset in range(0, 256, 4):
                at = machine.host.config[1, 1, 0], other.host.config[1, 1, 0]
                self.assertEqual(at[0][offset:4], at[1][offset:4])
        self.assertEqual(self.board.config[1, 1, 0][0:4], 0xFFFFFFFF)

    def test_a_board_that_was_written_is_not(self):
        self.refused(301, self.board.config[0, 1, 0].__setitem__, slice(5, 2), 2)
        self.board.set_up().close()
        self.board.config[0, 1, 0][4:2] = 0
        self.assertEqual(str(self.refused(904, self.board.set_up)), "board has been written to since reset (904)")

    def test_a_board_that_does_not_fit(self):
        with Board((REFUSED / "io_pool.toml").read_bytes()) as board:
            self.refused(203, board.set_up)


class Guests(BoardCase):
    def test_a_board_of_ones_own_is_given(self):
        set_up_by_hand(self.board)
        self.assertEqual(str(self.refused(206, self.board.into_guests)), "decoding of an assigned function's BAR is disabled (206)")
        self.board.config[1, 1, 0][4:2] = 2
        with self.board.into_guests() as machine, Machine(MAIN) as other:
            for line in ("a cr 0 0x14 4", "a cw 1 4 2 2", "a mr 0 4", "b cr 0 4 4", "host move a 0 b 3", "b cr 3 0 4"):
                self.assertEqual(machine.run_line(line), other.run_line(line))
            self.assertEqual(machine.host.config[1, 1, 0][0x10:4], 0xD200000C)
        self.refused(901, self.board.audit)
        self.refused(901, self.board.into_guests)

    def test_a_line_hands_the_board_over(self):
        set_up_by_hand(self.board)
        run = self.board.run_line
        self.assertEqual(run("host guests\n"), "closed: 2.0/1.0 bar0\nhost: refused 206 closed region")
        self.board.config[1, 1, 0][4:2] = 2
        self.assertEqual(run("host guests"), "host: ok")
        # its lines are a script's now, and firmware's calls find no board
        self.assertEqual(run("a cr 0 0 4"), "a: 0x00011234")
        self.assertEqual(run("host audit"), "host: refused 401 bad line")
        self.refused(901, lambda: self.board.config[0, 1, 0][0:4])
        self.refused(901, self.board.config[0, 1, 0].__setitem__, slice(4, 2), 0)
        self.refused(901, self.board.audit)
        self.refused(901, self.board.set_up)
        # the machine is as its guests left it
        self.assertEqual(run("a cw 1 4 2 2"), "a: ok")
        with self.board.into_guests() as machine:
            self.assertEqual(machine.run_line("a cr 1 4 2"), "a: 0x0002")
        self.refused(901, run, "a cr 0 0 4")

    def test_a_board_that_a_line_gave_is_freed(self):
        set_up_by_hand(self.board)
        self.board.config[1, 1, 0][4:2] = 2
        self.assertEqual(self.board.run_line("host guests"), "host: ok")
        self.board.close()
        self.refused(901, self.board.run_line, "a cr 0 0 4")

    def test_a_board_that_is_not_in_order_stays(self):
        self.assertEqual(str(self.refused(207, self.board.into_guests)), "audit found a problem in the registers (207)")
        self.assertEqual(self.board.audit().problems, 2)


class Refusals(BoardCase):
    def test_accesses(self):
        with self.assertRaises(ValueError):
            self.board.config[0, 1, 0][4:2] = 1 << 32

    def test_boards(self):
        self.refused(101, Board, "x")
        self.refused(102, Board, "")

    def test_closed(self):
        with Board(MAIN) as board:
            pass
        self.refused(901, lambda: board.io[0:1])
        self.refused(901, board.set_up)
        self.refused(901, board.into_guests)
        self.refused(901, board.audit)
        self.refused(901, board.run_line, "host ir 0 1")
        board.close()
