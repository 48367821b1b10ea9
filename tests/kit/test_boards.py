"""Board files as documents, random boards, smaller ones, and what is told of firmware."""

import tomllib
import unittest
from unittest import mock

import places
from pciguest._board_file import apertures, functions, text_of
from pciguest._dirty import Dirty
from pciguest._drawing import PLAIN, RandomChoices, draw_board
from pciguest._ending import endings
from pciguest._firmware_run import findings
from pciguest._follow import Follower
from pciguest._judge import KINDS, kind_of, same_problem
from pciguest._reasons import reasons
from pciguest._shrink import shrunk
from pciguest._special import SPECIAL
from pciguest._tight import TOO_SMALL, cut, halved, tight, too_small, widened
from pciguest._toml import as_1_0, document_of
from pciguest._watch import Watch
from pciguest._writers import story_of, why_unfound, writers
from second_hand import SecondHand, SecondHandBoard

(registers,) = places.modules("firmware", "registers")
BOARDS = places.TOP / "boards"
AUDITED = tomllib.loads((places.TOP / "examples/audit/board.toml").read_text())
AUDITED["host"]["pref"] = [0x400000000, 0x4FFFFFFFF]
SET_UP = (places.TOP / "examples/audit/set_up.script").read_text().splitlines()
#: what is asked of the first finding after a script of examples/audit
ASKED = {
    "limit_short": "mem 0xc0300000",
    "shared_unit": "mem 0xc0300000",
    "subordinate_low": "cfg 02:00.0",
    "never_opened": "mem 0xc0000000",
    "outside_apertures": "mem 0xe0000000",
    "prefetched": "mem 0xc0300000",
    "primary_left": "cfg 01:02.0",
}


def after(*lines):
    """The board of examples/audit after its set-up and some lines."""
    board = SecondHandBoard(AUDITED)
    for line in [*SET_UP, *lines]:
        assert board.run_line(line) in ("host: ok", None)
    return board


def seen(*lines, document=AUDITED):
    """What is wrong with the last line, on the board of examples/audit after its set-up or on another at reset."""
    board = SecondHandBoard(document)
    watch, told = Watch(board, document), []
    for line in [*(SET_UP if document is AUDITED else []), *lines]:
        assert board.run_line(line) in ("host: ok", None)
        told = watch.seen(line)
    return told


class Documents(unittest.TestCase):
    def test_examples_stay_the_same(self):
        for name in ("main", "server", "modern", "kinds", "chain", "largest"):
            document = tomllib.loads((BOARDS / f"{name}.toml").read_text())
            again = tomllib.loads(text_of(document))
            for key in document:
                self.assertCountEqual(again[key], document[key], (name, key))


class Drawing(unittest.TestCase):
    def test_boards_can_be_set_up(self):
        bridges, depth = 0, 0
        for seed in range(100):
            document = draw_board(RandomChoices(seed))
            self.assertIsNone(SecondHand().refusal(text_of(document)), seed)
            bridges = max(bridges, len(document.get("bridge", [])))
            depth = max([depth] + [len(function.path) for function in functions(document)])
        self.assertEqual(bridges, 6)
        self.assertGreater(depth, 3)

    def test_vendors_that_look_absent(self):
        every = [SPECIAL["identities"](), *(draw_board(RandomChoices(seed)) for seed in range(100))]
        drawn = [{one.table["vendor"] for one in functions(document)} for document in every]
        self.assertEqual(drawn[0], {0x1234, 0, 1, 0xFFFE})
        self.assertEqual(set().union(*drawn[1:]), {0x1234, 0, 1, 0xFFFE})
        self.assertLess(sum(vendors != {0x1234} for vendors in drawn[1:]), 50)

    def test_devices_and_odd_bits(self):
        """Half of the boards may have devices above 15, unless the last device is given; odd bits are drawn on all."""
        drawn = [draw_board(RandomChoices(seed)) for seed in range(50)]
        every = [one for document in drawn for one in functions(document)]
        self.assertEqual({document["host"].get("devices", 16) for document in drawn}, {16, 32})
        self.assertEqual(max(device for one in every for device, _ in one.path), 31)
        clear = {one.path[-1][1] for one in every if one.table.get("multifunction") is False}
        self.assertEqual(clear, {*range(1, 8)})
        self.assertTrue({True, False} <= {one.is_bridge for one in every if one.table.get("fixed_status")})
        for last in (7, 15, 20):
            few = [draw_board(RandomChoices(seed), last_device=last) for seed in range(50)]
            self.assertEqual(max(device for document in few for one in functions(document) for device, _ in one.path), last)
            self.assertEqual({document["host"].get("devices", 16) for document in few}, {16, 32} if last > 15 else {16})

    def test_a_seed_says_all(self):
        self.assertEqual(draw_board(RandomChoices(7)), draw_board(RandomChoices(7)))
        self.assertNotEqual(draw_board(RandomChoices(7)), draw_board(RandomChoices(8)))

    def test_many_bridges_and_small_apertures(self):
        small = PLAIN._replace(mem=(0xE0000000, 0xE7FFFFFF), io=(0x1000, 0x7FFF))
        for seed in range(30):
            self.assertIsNone(SecondHand().refusal(text_of(draw_board(RandomChoices(seed), bridges=40))), seed)
            self.assertIsNone(SecondHand().refusal(text_of(draw_board(RandomChoices(seed), 6, [small]))), seed)


class OtherFirmware(unittest.TestCase):
    """Boards that begin with random registers."""

    def board(self, name, seed):
        document = SPECIAL[name]()
        return document, Dirty(SecondHand(), seed).board(text_of(document))

    def test_registers_of_all_functions(self):
        for name in ("deep", "siblings", "many_functions", "last_devices", "odd_bits"):
            document, dirty = self.board(name, 1)
            cells = registers.of_all(dirty, document)
            self.assertEqual({one.at for one in functions(document)}, {*dirty.left})
            for at, left in dirty.left.items():
                for offset, value in left.items():
                    if offset != 0x18 or cells[at][0x0E] & 0x7F != 1:
                        self.assertEqual(int.from_bytes(cells[at][offset:offset + 4], "little"), value, (at, offset))
                self.assertEqual(left[4] & 0x400, 0)

    def test_a_seed_says_all(self):
        left = [self.board("siblings", seed)[1].left for seed in (1, 1, 2)]
        self.assertEqual(left[0], left[1])
        self.assertNotEqual(left[0], left[2])

    def test_what_is_known_of_them(self):
        document, dirty = self.board("siblings", 1)
        watch = Watch(dirty, document)
        for one in functions(document):
            kept = watch.kept[one.at]
            self.assertEqual(kept.command, dirty.left[one.at][4] & 0xFFFF)
            self.assertEqual(len(kept.ends), 3 if one.is_bridge else 0)
        self.assertTrue(watch.met)


class Toml(unittest.TestCase):
    """The program takes TOML 1.1."""

    def test_what_is_new(self):
        text = 'a = { b = [ 1, # one }\n  2, ], c = "\\x41\\e\\n", # , {\n}\nd = [ { e = \'\\x\', }, ] # }\nf = """\n}, {\\x42"""\n'
        self.assertEqual(document_of(text), {"a": {"b": [1, 2], "c": "A\x1b\n"}, "d": [{"e": "\\x"}], "f": "}, {B"})

    def test_what_is_old(self):
        for name in ("main", "modern", "largest"):
            text = (BOARDS / f"{name}.toml").read_text()
            self.assertEqual(tomllib.loads(as_1_0(text)), tomllib.loads(text))

    def test_what_is_wrong(self):
        for text in ("a = { b = 1,, }", "a = { b = ", "a = {\n", "a = ]", "a = { b = 1 c = 2 }", 'a = "\\x4"', "a = { b = 1\n c = 2 }"):
            with self.assertRaises(tomllib.TOMLDecodeError):
                document_of(text)


class Tight(unittest.TestCase):
    def refusal(self, document):
        return SecondHand().refusal(text_of(document))

    def test_a_board_for_each_mistake(self):
        for name, drawn in SPECIAL.items():
            wanted = {"no_ports_left": 203, "no_memory_left": 204, "no_prefetchable_left": 205, "ports_past_the_end": 203,
                      "memory_past_the_end": 204}.get(name)
            self.assertEqual(self.refusal(drawn()), wanted, name)

    def test_cut(self):
        document = cut(SPECIAL["aligned_windows"](), "mem", self.refusal)
        self.assertEqual(self.refusal(document), None)
        document["host"]["mem"][1] -= 1 << 20
        self.assertEqual(self.refusal(document), TOO_SMALL["mem"])

    def test_an_aperture_from_zero(self):
        document = cut(SPECIAL["from_zero"](), "mem", self.refusal)
        self.assertEqual(document["host"]["mem"], [0, (3 << 20) - 1])

    def test_half_of_the_room(self):
        document = SPECIAL["from_zero"]()
        self.assertEqual(halved(document)["host"], {"io": [0x1000, 0x7FFF], "mem": [0, (1 << 30) - 1]})
        self.assertIsNone(self.refusal(halved(document)))
        self.assertEqual(self.refusal(halved(cut(document, "mem", self.refusal))), TOO_SMALL["mem"])

    def test_devices_are_no_aperture(self):
        document = SPECIAL["last_devices"]()
        for made in (halved(document), widened(document), cut(document, "mem", self.refusal)):
            self.assertEqual(made["host"]["devices"], 32)
            self.assertIsNone(self.refusal(made))

    def test_no_room_is_left(self):
        for seed in (1, 7):
            choices = RandomChoices(seed)
            document = tight(draw_board(choices, 2, guests=False), [], choices, self.refusal)
            self.assertIsNone(self.refusal(document))
            for key, (first, last) in apertures(document).items():
                sizes = [bar["size"] for table in document["endpoint"] for bar in table.get("bar", [])
                         if (bar["kind"] == "io") == (key == "io")]
                self.assertTrue(sum(sizes) <= last + 1 - first or key != "io")
            more = too_small(document, choices, self.refusal)
            self.assertIn(self.refusal(more), TOO_SMALL.values())

    def test_apertures_that_are_given(self):
        small = PLAIN._replace(mem=(0xE0000000, 0xE3FFFFFF), io=(0x1000, 0x7FFF))
        choices = RandomChoices(1)
        document = tight(draw_board(choices, 2, [small], guests=False), ["io", "mem"], choices, self.refusal)
        self.assertEqual(apertures(document), small.table())
        self.assertIsNone(self.refusal(document))
        self.assertEqual(self.refusal(too_small(document, choices, self.refusal)), TOO_SMALL["mem"])


class Shrinking(unittest.TestCase):
    def shrunk(self, document, holds):
        def asked(smaller):
            return SecondHand().refusal(text_of(smaller)) is None and holds(smaller)
        return shrunk(document, asked, 60)

    def test_to_a_bridge_behind_a_bridge(self):
        document = tomllib.loads((BOARDS / "server.toml").read_text())
        found = self.shrunk(document, lambda smaller: any(one.is_bridge and len(one.path) > 1 for one in functions(smaller)))
        self.assertEqual([one.at for one in functions(found)], ["1.0", "1.0/0.0"])
        self.assertNotIn("guest", found)

    def test_many_functions_go_at_once(self):
        asked = []

        def holds(smaller):
            asked.append(len(functions(smaller)))
            return sum(one.is_bridge for one in functions(smaller)) >= 86

        self.assertEqual(len(functions(shrunk(SPECIAL["many_buses"](), lambda smaller: len(asked) < 10 and holds(smaller), 60))), 90)

    def test_to_a_second_function(self):
        document = tomllib.loads((BOARDS / "server.toml").read_text())
        found = self.shrunk(document, lambda smaller: any(one.path[-1][1] and one.regions() for one in functions(smaller)))
        self.assertEqual([one.at for one in functions(found)], ["1.0", "1.1"])
        self.assertEqual([len(one.regions()) for one in functions(found)], [0, 1])

    def test_to_a_kind_of_region(self):
        document = tomllib.loads((BOARDS / "kinds.toml").read_text())
        found = self.shrunk(document, lambda smaller: any("mem64p" == region.kind for one in functions(smaller)
                                                          for region in one.regions()))
        self.assertEqual([one.regions() for one in functions(found)], [[(0, "mem64p", 16)]])


class Findings(unittest.TestCase):
    def test_set_up_is_ready(self):
        self.assertEqual(findings(after()), [])

    def test_reading_registers_changes_nothing(self):
        board = after("host cw 00:03.0 0x18 4 0x00010100", "host iw 0xcf8 4 0x80001234")
        before = board.ready_text(), board.run_line("host ir 0xcf8 4")
        cells = registers.of_all(board, AUDITED)
        self.assertEqual((board.ready_text(), board.run_line("host ir 0xcf8 4")), before)
        self.assertEqual(cells, registers.of_all(board, AUDITED))
        self.assertEqual({at: value[0x18:0x1B].hex() for at, value in cells.items() if value[0x0E] & 0x7F},
                         {"2.0": "000102", "2.0/2.0": "010202", "3.0": "000101"})

    def test_sizing_of_each_register(self):
        line, words = "host cw 01:00.0 {:#x} 4 {:#x}", "sizing: 01:00.0 bar{}: all ones are written while "
        for offset, register in ((0x10, 0), (0x18, 2), (0x1C, 2)):
            told = seen(line.format(offset, 0xFFFFFFF0))
            self.assertTrue(told[0].startswith(words.format(register)), told)
        for one in (line.format(0x14, 0xFFFFFFFF), line.format(0x10, 0xC0200000), line.format(0x30, 0xFFFFFFFF),
                    "host cw 00:02.0 0x10 4 0xffffffff", "host cw 05:00.0 0x10 4 0xffffffff"):
            self.assertEqual(seen(one), [], one)

    def test_transients(self):
        self.assertEqual(seen(), [])
        moved = "moved: 2.0/0.0 bar0 at 0xc0400000 size 0x200000: moves from 0xc0200000 while memory decode is enabled (Command 0x0002)"
        self.assertEqual(seen("host cw 01:00.0 0x10 4 0xc0400000"), [moved])
        self.assertEqual(seen("host iw 0xcf8 4 0x80010010", "host iw 0xcfc 4 0xc0400000"), [moved])
        shut = ["host cw 01:00.0 4 2 0", "host cw 01:00.0 0x10 4 0xffffffff"]
        self.assertEqual(seen(*shut), [])
        self.assertIn("ones: 2.0/0.0 bar0 at 0xffe00000 size 0x200000: memory decode is enabled (Command 0x0002) while the base still has the ones written for sizing",
                      seen(*shut, "host cw 01:00.0 4 2 2"))
        both = "host cw 01:00.0 0x10 4 0xc0000000"
        self.assertIn("overlap: 2.0/0.0 bar0 and 2.0/2.0: address conflict at memory 0xc0000000", seen(both))
        self.assertEqual(seen(both, "host cw 01:00.0 0x3c 1 5"), [])

    def test_windows_of_reset(self):
        document = SPECIAL["status_bits"]()
        words = "reset: 3.0: memory decode is enabled (Command 0x0002) while the {} window is 0x0-0xfffff, as at reset"
        opening = "host cw 00:03.0 4 2 2"
        self.assertEqual(seen(opening, document=document), [words.format(each) for each in ("memory", "prefetchable")])
        self.assertEqual(seen("host cw 00:03.0 0x20 4 0xfff0", opening, document=document), [words.format("prefetchable")])
        shut = ["host cw 00:03.0 0x20 4 0xfff0", "host cw 00:03.0 0x24 4 0xfff0", opening]
        self.assertEqual(seen(*shut, document=document), [])
        self.assertEqual(seen(*shut, "host cw 00:03.0 0x20 2 0", document=document), [words.format("memory")])

    def test_status(self):
        document = SPECIAL["status_bits"]()
        told = "status: 1.0: a 4-byte write to Command changes Status from 0xf900 to 0x0100"
        self.assertEqual(seen("host cw 00:01.0 4 4 0xf8000000", document=document), [told])
        told = "status: 3.0: a 4-byte write to {} (0xf900)"
        for offset, words in ((0x04, "Command writes ones to Status"), (0x1C, "I/O Base writes ones to Secondary Status")):
            self.assertEqual(seen(f"host cw 00:03.0 {offset:#x} 4 0xffff0000", document=document), [told.format(words)])
            self.assertEqual(seen(f"host cw 00:03.0 {offset:#x} 4 0x06f00000", document=document), [])
        for line in ("4 4 0x2", "4 2 0x2", "6 2 0x6ff", "7 1 0"):
            self.assertEqual(seen(f"host cw 00:01.0 {line}", document=document), [], line)
        self.assertEqual(seen("host cw 00:01.0 4 4 0", document=SPECIAL["odd_bits"]()), [])
        told = "status: 2.3: a 4-byte write to Command changes Status from 0x8000 to 0x0000"
        self.assertEqual(seen("host cw 00:02.3 4 4 0x80000000", document=SPECIAL["odd_bits"]()), [told])

    def test_status_that_is_cleared_on_purpose(self):
        """A write of Status alone, or of Secondary Status, as Linux clears them."""
        document = SPECIAL["status_bits"]()
        for line in ("00:01.0 6 2 0xffff", "00:01.0 7 1 0xff", "00:03.0 6 2 0xffff", "00:03.0 0x1e 2 0xffff"):
            self.assertEqual(seen(f"host cw {line}", document=document), [], line)

    def test_the_board_is_asked_where_two_can_meet(self):
        """Not after each write to an open bridge, but where an open responder now meets another."""
        asked, told = [], SecondHandBoard.ready_text
        near = ["host cw 00:02.0 0x20 4 0xc020c000", "host cw 00:02.0 0x20 4 0xc010c000", "host cw 00:02.0 0x30 4 0",
                "host cw 01:00.0 4 2 0", "host cw 01:00.0 4 2 2"]
        with mock.patch.object(SecondHandBoard, "ready_text", lambda board: asked.append(1) or told(board)):
            self.assertEqual(seen(*near), [])
            self.assertEqual(asked, [])
            both = "overlap: 2.0 and 3.0: address conflict at memory 0xc0400000"
            self.assertEqual(seen("host cw 00:02.0 0x20 4 0xc040c000"), [both])
            self.assertEqual(seen("host cw 00:02.0 0x20 4 0xc040c000", "host cw 00:02.0 0x20 4 0xc040c010"), [])
            self.assertEqual(len(asked), 2)

    def test_each_finding_has_a_kind(self):
        kinds = {kind_of(line) for line in findings(SecondHandBoard(AUDITED))}
        self.assertEqual(kinds, {"unreached", "closed"})
        self.assertLess(kinds, set(KINDS))
        for line in ("moved: x", "overlap: 1.0 and 2.0: address conflict at memory 0x0", "sizing: all ones are written", "room: x"):
            self.assertEqual(kind_of(line), line.partition(":")[0])

    def test_the_same_problem(self):
        one = "ready: 1.0 bar0 at 0x0 size 0x10: I/O decode is disabled"
        self.assertEqual(same_problem(one), same_problem(one.replace("0x0 ", "0xc0000000 ")))
        self.assertNotEqual(same_problem(one), same_problem(one.replace("bar0", "bar1")))


class Endings(unittest.TestCase):
    def told(self, *lines, document=AUDITED):
        """What is found at the end, after a set-up that forwards DMA, or on another board."""
        board = SecondHandBoard(document)
        numbers = ["host cw 00:02.0 0x18 4 0x00010100"] if document is not AUDITED else [
            *SET_UP, *(f"host cw {at} 4 2 7" for at in ("00:02.0", "01:02.0", "00:03.0"))]
        for line in [*numbers, *lines]:
            assert board.run_line(line) in ("host: ok", None)
        before = board.ready_text()
        found = endings(Follower(board), document)
        self.assertEqual(before, board.ready_text())
        self.assertLessEqual({kind_of(each) for each in found}, set(KINDS))
        return found

    def test_bridges_that_forward_no_dma(self):
        self.assertEqual(self.told(), [])
        told = "master: 2.0/2.0: Bus Master is clear (Command at 0x4: 0x0003), so the bridge forwards no DMA"
        self.assertEqual(self.told("host cw 01:02.0 4 2 3"), [told])
        empty = {"host": AUDITED["host"], "bridge": [AUDITED["bridge"][0]]}
        self.assertEqual(self.told(document=empty), [])

    def test_bits_that_are_left(self):
        lines = {
            "host cw 00:01.0 4 2 0x400": "1.0: Interrupt Disable is set (Command at 0x4: 0x0400)",
            "host cw 00:01.0 0x44 1 3": "1.0: the function isn't in D0 (Power Management Control/Status at 0x44: 0x0003)",
            "host cw 00:01.0 0x52 2 0x81": "1.0: MSI is enabled (Message Control at 0x52: 0x0081)",
            "host cw 01:00.0 0x70 4 0xffff0000": "2.0/0.0: MSI-X is enabled (Message Control at 0x72: 0xc000)",
        }
        document = SPECIAL["capabilities"]()
        master = "host cw 00:02.0 4 2 4"
        self.assertEqual(self.told(master, document=document), [])
        for line, told in lines.items():
            self.assertEqual(self.told(master, line, document=document), [f"left: {told}"])

    def test_bridge_control(self):
        """Of a bridge that has it: the boards' bridges don't."""
        def read(follower, number, offset, reads=Follower.read):
            return 0x480000 if (number, offset) == ("00:02.0", 0x3C) else reads(follower, number, offset)

        with mock.patch.object(Follower, "read", read):
            self.assertEqual(self.told(), [f"left: 2.0: {words} is set (Bridge Control at 0x3e: 0x0048)"
                                           for words in ("Secondary Bus Reset", "VGA Enable")])

    def test_bits_that_are_set_at_reset(self):
        document = SPECIAL["capabilities"]()
        document["endpoint"][0]["capability"][1]["reset"] = "8100"
        self.assertEqual(self.told("host cw 00:02.0 4 2 4", document=document), [])


class Unseen(unittest.TestCase):
    """What docs/firmware-testing.md says that the test can't see."""

    def test_registers_that_are_not_there(self):
        text = (places.TOP / "docs/firmware-testing.md").read_text()
        section = text.partition("## What this test can't see\n")[2].partition("\n## ")[0]
        for row in ("Bridge Control (3Eh)", "(30h; 38h in bridges)", "bases of bridges (10h, 14h)", "Interrupt Line (3Ch)"):
            self.assertIn(row, section)
        board = after("host cw 01:02.0 4 2 7", "host cw 00:02.0 4 2 7", "host cw 00:03.0 4 2 7")
        for at, offset in (("00:02.0", 0x3C), ("00:02.0", 0x38), ("00:02.0", 0x10), ("00:02.0", 0x14), ("00:01.0", 0x30)):
            before = board.run_line(f"host cr {at} {offset} 4")
            board.run_line(f"host cw {at} {offset:#x} 4 0xffffff00")
            self.assertEqual(board.run_line(f"host cr {at} {offset} 4"), before)
        board.run_line("host cw 00:01.0 0x3c 1 0x55")
        self.assertEqual([*findings(board), *endings(Follower(board), AUDITED)], [])


class Reasons(unittest.TestCase):
    def test_each_kind(self):
        for name, asked in ASKED.items():
            board = after(*(places.TOP / f"examples/audit/{name}.script").read_text().splitlines())
            told = reasons(board, AUDITED, findings(board)[0])
            self.assertEqual(told[0], f"host why {asked}", name)
            self.assertEqual({line[:5] for line in told[1:]}, {"why: "}, told)

    def test_ports(self):
        board = after("host cw 01:01.0 4 2 0")
        self.assertEqual(reasons(board, AUDITED, findings(board)[0]), [
            "host why io 0x1000",
            "why: I/O 0x1000: no BAR responds",
            "why: bridge 2.0 forwards it to bus 01",
            "why: 2.0/1.0 bar0 at 0x1000 size 0x20: I/O decode is disabled (Command 0x0000)",
            "why: 3 lines",
        ])
        both = "audit: 1.0 bar1 and 2.0: address conflict at I/O 0x1000"
        self.assertEqual(reasons(board, AUDITED, both)[0], "host why io 0x1000")

    def test_the_bus_of_a_conflict(self):
        board = after("host cw 00:02.0 4 2 0", "host cw 01:00.0 0x10 4 0xc0000000")
        told = next(line for line in findings(board) if "address conflict" in line)
        self.assertEqual(reasons(board, AUDITED, told)[1:2] + reasons(board, AUDITED, told)[-1:], [
            "why: memory 0xc0000000: nothing responds",
            "the conflict is on the bus behind bridge 2.0, where no access by the host gets: "
            "2.0/0.0 bar0 and 2.0/2.0 respond to memory 0xc0000000 there"])

    def test_lines(self):
        for line, asked in (("host cw 01:00.0 0x18 4 0xffffffff", "mem 0x4fff00000"),
                            ("host cw 01:00.0 0x1c 4 0xffffffff", "mem 0xffffffff00000000"),
                            ("host cw 00:01.0 0x10 4 0xffffffff", "mem 0xfffff000"),
                            ("host cw 01:01.0 0x10 4 0xffffffff", "io 0xffffffe0"),
                            ("host cw 01:00.0 0x10 4 0xc0400000", "mem 0xc0400000")):
            self.assertEqual(reasons(after(line), AUDITED, seen(line)[0])[0], f"host why {asked}")
        words = "reset: 2.0: I/O decode is enabled (Command 0x0001) while the I/O window is 0x0-0xfff, as at reset"
        self.assertEqual(reasons(after(), AUDITED, words)[0], "host why io 0x0")


class WhoWrote(unittest.TestCase):
    def told(self, finding, *lines):
        story = story_of(SecondHand(), text_of(AUDITED), AUDITED, lines)
        return list(writers(story, AUDITED, finding, len(lines)))

    def test_each_kind(self):
        lines = ["host cw 00:02.0 0x18 4 0x00010100", "host cw 01:00.0 0x10 4 0xc0000000", "host cw 00:02.0 0x20 4 0xc000c000",
                 "host iw 0xcf8 4 0x80010004", "host iw 0xcfc 1 2", "host cw 00:02.0 0x22 2 0xc010"]
        command = "2.0/0.0 Command: last written by line 5 of 6: host iw 0xcfc 1 2"
        base = "2.0/0.0 bar0: last written by line 2 of 6: host cw 01:00.0 0x10 4 0xc0000000"
        self.assertEqual(self.told("ready: 2.0/0.0 bar0 at 0xc0000000 size 0x100000: memory decode is disabled", *lines), [base, command])
        told = self.told("audit: 2.0/0.0 bar0 at 0xc0000000 size 0x100000: 0xc0100000 is not forwarded by bridge 2.0", *lines)
        self.assertEqual(told[:4], [
            base, command, "2.0 Memory Base: last written by line 3 of 6: host cw 00:02.0 0x20 4 0xc000c000",
            "2.0 Memory Limit: last written by line 6 of 6: host cw 00:02.0 0x22 2 0xc010"])
        self.assertEqual(self.told("audit: 2.0/0.0: a configuration cycle to 01:00.0 reaches nothing", *lines),
                         [f"2.0 Secondary, Subordinate: last written by line 1 of 6: {lines[0]}"])
        self.assertEqual(self.told("ready: 2.0: Primary Bus Number is 00, but the bridge is on bus 01", *lines),
                         [f"2.0 Primary: last written by line 1 of 6: {lines[0]}"])
        self.assertEqual(self.told("left: 2.0/0.0: MSI is enabled (Message Control at 0x52: 0x0081)", "host cw 00:02.0 0x18 4 0x00010100", "host cw 01:00.0 0x52 2 0x81"),
                         ["2.0/0.0 Message Control: last written by line 2 of 2: host cw 01:00.0 0x52 2 0x81"])
        self.assertEqual(self.told("status: 2.0/0.0: a 4-byte write to Command changes Status from 0x0100 to 0x0000", *lines),
                         ["2.0/0.0 Status: never written"])
        self.assertEqual(self.told("status: 2.0: a 4-byte write to I/O Base writes ones to Secondary Status (0xf900)", *lines, "host cw 00:02.0 0x1c 4 0xffffffff"),
                         ["2.0 Secondary Status: last written by line 7 of 7: host cw 00:02.0 0x1c 4 0xffffffff"])

    def test_a_function_that_is_never_found(self):
        lines = ["host cw 00:02.0 0x18 4 0x00000100", "host cr 00:01.0 0 4", "host cr 01:00.0 0 4", "host cr 01:01.0 0 4"]
        story = story_of(SecondHand(), text_of(AUDITED), AUDITED, lines)
        self.assertEqual(story.unfound("2.0/0.0"), "2.0/0.0")
        self.assertIsNone(story.unfound("1.0"))
        told = why_unfound(SecondHand(), text_of(AUDITED), lines, "2.0/0.0", story.asked["2.0/0.0"])
        self.assertEqual(told, [
            "the firmware never finds 2.0/0.0; it last looks for it at line 3 of 4: host cr 01:00.0 0 4", "host why cfg 01:00.0",
            "why: 01:00.0 reaches nothing", "why: no bridge on bus 00 claims bus 01",
            "why: 2.0/0.0 has this BDF but isn't reached", "why: 3 lines"])
        self.assertNotIn("3.0", story.asked)
        self.assertIn("never looks for it", why_unfound(SecondHand(), "", lines, "3.0", None)[0])


if __name__ == "__main__":
    unittest.main()
