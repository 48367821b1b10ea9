"""Guests that are saved, loaded and put to reset, and whole machines. Each script of the folder `boards` goes on over another
board, or in another machine over an equal one, wherever it is cut."""

import re

from boards import BOARDS, MAIN, TOP, MachineCase, set_up_by_hand
from pciguest import Board, Machine

SCRIPTS = {
    "demo": ["demo"],
    "main": ["guest", "two_guests", "raise", "host", "ports", "move"],
    "server": ["server"],
}
# what stands beside the functions of a board that are moved behind two bridges
BESIDE = (TOP / "tests" / "library" / "beside.toml").read_text()


def elsewhere(board):
    """The same functions and guests behind two more bridges, at other addresses, and beside others."""
    moved = re.sub(r'"(\d+\.\d[\d./]*)"', r'"6.0/3.0/\1"', board)
    return moved.replace("io = [0x1000", "io = [0x3000").replace("mem = [0xc0000000", "mem = [0x80000000") + BESIDE


def replies(machine, lines):
    """The replies to lines, without what the host reads of the board."""
    asked = [line for line in lines if not line.startswith("host ") or line.startswith("host move ")]
    return [reply for reply in map(machine.run_line, asked) if reply is not None]


def arranged(board, lines):
    """Another board, after the moves of these lines and after events of its own."""
    machine = Machine(elsewhere(board))
    own = ["cw 0 4 2 0xffff", "cw 0 0x10 4 0xfffffff0", "raise 0 cfg 7 0xff", "iw 0xcf8 4 0xffffffff"]
    replies(machine, [line for line in lines if line.startswith("host move ")])
    replies(machine, [f"{guest} {line}" for guest in machine.guests() for line in own])
    return machine


class Images(MachineCase):
    def test_an_image_tells_what_its_guest_holds(self):
        first, other = self.a.save(), self.b.save()
        self.assertEqual(self.a.image_size(), len(first))
        self.a.config[0][4:2] = 2
        opened = self.a.save()
        changed = [at for at, pair in enumerate(zip(first, opened)) if pair[0] != pair[1]]
        self.assertEqual([(first[at], opened[at]) for at in changed], [(0, 2)])  # the low byte of Command
        self.a.io[0xCF8:4] = 0x80000800
        self.assertEqual(self.a.save(), opened[:8] + bytes([0, 8, 0, 0x80]) + opened[12:])  # the latch
        self.assertEqual(self.b.save(), other)

    def test_a_guest_is_put_to_reset(self):
        first = self.a.save()
        self.a.config[0][4:2] = 2
        self.a.raise_bits(1, 7, 0x80)
        self.b.config[0][4:2] = 2
        other, count = self.b.save(), self.a.changed()
        self.a.reset_guest()
        self.assertEqual((self.a.save(), self.b.save()), (first, other))
        self.assertEqual(self.a.changed(), count + 1)

    def test_an_image_is_as_long_as_its_functions_are_many(self):
        sizes = self.a.image_size() + self.b.image_size()
        self.machine.move(self.a, 1, self.b, 9)
        self.assertEqual(self.a.image_size() + self.b.image_size(), sizes)
        self.machine.take(self.a, 0)
        self.assertEqual(self.a.image_size(), 12 + 32)

    def test_a_machine_that_is_closed_saves_nothing(self):
        image = self.a.save()
        self.machine.close()
        for call in (self.a.image_size, self.a.save, self.a.reset_guest, self.machine.image_size_all, self.machine.save_all):
            self.refused(901, call)
        for call in (self.a.load, self.machine.load_all):
            self.refused(901, call, image)


def cuts():
    """Each script, cut at each of its lines: its name, the board, the lines before and those behind."""
    for board, scripts in SCRIPTS.items():
        text = (BOARDS / f"{board}.toml").read_text()
        for script in scripts:
            lines = (BOARDS / f"{script}.script").read_text().splitlines()
            for cut in range(len(lines) + 1):
                yield script, text, lines[:cut], lines[cut:]


class Loads(MachineCase):
    def test_guests_go_on_over_another_board(self):
        for script, board, first, rest in cuts():
            with self.subTest(script=script, cut=len(first)):
                self.goes_on(board, first, rest)

    def goes_on(self, board, first, rest):
        with Machine(board) as here, arranged(board, first) as there:
            replies(here, first)
            for name in here.guests():
                image = here.guest(name).save()
                there.guest(name).load(image)
                self.assertEqual(there.guest(name).save(), image)
            self.assertEqual(replies(there, rest), replies(here, rest))

    def test_a_guest_is_loaded_where_it_was_saved(self):
        a = self.a
        a.config[0][0x14:4] = 0xE0000000
        a.config[0][4:2] = 2
        a.memory[0xE0000010:4] = 0x12345678
        image, count = a.save(), a.changed()
        a.reset_guest()
        a.load(bytearray(image))
        self.assertEqual((a.save(), a.changed()), (image, count + 2))
        self.assertEqual(a.memory[0xE0000010:4], 0x12345678)

    def test_bytes_that_are_no_image_for_a_guest_are_refused(self):
        image, other = self.a.save(), self.b.save()
        self.a.config[0][4:2] = 2
        held = self.a.save()
        for text in (b"", b"PCIG", image[:-1], image + b"\0"):
            self.refused(905, self.a.load, text)
        for at in range(8):
            self.refused(905 if at < 4 else 908, self.a.load, image[:at] + bytes([image[at] ^ 0x10]) + image[at + 1 :])
        self.refused(906, self.a.load, other)
        self.assertEqual(self.a.save(), held)
        self.assertEqual(self.a.image_fault(other), (0, 15, "device"))
        for text in (image, held, b"", b"PCIG", image[:-1], image + b"\0"):
            self.assertIsNone(self.a.image_fault(text))
        self.assertEqual(self.a.image_fault(b"PCIG\2"), (None, 4, "the version"))
        self.machine.move(self.a, 0, self.a, 5)
        self.refused(906, self.a.load, image)
        self.assertEqual(str(self.a.image_fault(image)), "slot 0: whether it is filled")


class Machines(MachineCase):
    def test_machines_go_on_over_an_equal_board(self):
        for script, board, first, rest in cuts():
            with self.subTest(script=script, cut=len(first)), Machine(board) as here, Machine(board) as there:
                for line in first:
                    here.run_line(line)
                guest = there.guest(there.guests()[0])
                there.move(guest, 0, guest, 31)
                image = here.save_all()
                self.assertEqual(here.image_size_all(), len(image))
                there.load_all(bytearray(image))
                self.assertEqual(there.save_all(), image)
                self.assertEqual([there.run_line(line) for line in rest], [here.run_line(line) for line in rest])

    def test_functions_come_back_to_their_slots(self):
        self.machine.move(self.a, 1, self.b, 9)
        self.b.config[9][4:2] = 2
        image, counts = self.machine.save_all(), (self.a.changed(), self.b.changed())
        self.machine.take(self.b, 9)
        self.machine.move(self.b, 0, self.a, 1)
        self.assertLess(self.machine.image_size_all(), len(image))
        self.machine.load_all(image)
        self.assertEqual(self.machine.save_all(), image)
        self.assertEqual([self.b.function(slot).path for slot in (9, 0)], ["2.0/1.0", "2.0/0.0"])
        self.refused(601, self.a.function, 1)
        self.assertEqual(self.b.config[9][4:2], 2)
        self.assertTrue(self.a.changed() > counts[0] and self.b.changed() > counts[1])

    def test_bytes_that_are_no_image_for_a_machine_are_refused(self):
        image, own = self.machine.save_all(), self.a.save()
        self.machine.move(self.a, 0, self.b, 7)
        held = self.machine.save_all()
        for text in (b"", b"PCIM", image[:-1], image + b"\0", own):
            self.refused(905, self.machine.load_all, text)
        self.refused(905, self.a.load, image)
        at = image.index(b"\1a\1b\0031.0") + 5  # the guests' names, and the path of the function in slot 0
        for path in (b"9.0", b"2.0"):  # nothing, and a bridge
            self.refused(906, self.machine.load_all, image[:at] + path + image[at + 3 :])
        self.assertEqual(self.machine.save_all(), held)

    def test_an_image_of_another_board_is_refused(self):
        image = self.machine.save_all()
        others = [MAIN.replace(*pair) for pair in (('"b"', '"c"'), ("0x0003", "0x0005"), ("mem = [0xc", "mem = [0xb"))]
        machines = [Machine(text) for text in others] + [self.driven()]
        for machine in machines:
            with machine:
                held = machine.save_all()
                self.refused(907, machine.load_all, image)
                self.assertEqual(machine.save_all(), held)

    def driven(self):
        """The same guests over the same board, which this firmware sets up."""
        board = Board(MAIN)
        set_up_by_hand(board)
        board.config[1, 1, 0][4:2] = 2
        return board.into_guests()
