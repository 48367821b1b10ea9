"""The calls of tests/library/refusals.txt, which are also made in C and Rust."""

import unittest

from boards import MAIN, TOP
from pciguest import Board, Machine, Refusal
from pciguest._machine import Guest

ROWS = [row.split() for row in (TOP / "tests/library/refusals.txt").read_text().splitlines() if row and row[0] != "#"]


def value_of(word):
    """An argument: a number or a text. The part `configuration` is None."""
    try:
        return {"-": "", "configuration": None}[word] if word in ("-", "configuration") else int(word, 0)
    except ValueError:
        return word


def guest(machine, index):
    return Guest(machine, "?", index)


def space(machine, index, name, slot):
    """A space of a guest; for configuration space, that of the function in a slot."""
    of = guest(machine, index)
    return of.config[slot] if name == "config" else getattr(of, name)


def board_space(board, name, *function):
    """A space as the host or firmware reaches it; for configuration space, that of a function."""
    return board.config[function] if name == "config" else getattr(board, name)


# how each call is made; the first argument is the machine, or the board for the names that begin with board
CALLS = {
    "read": lambda m, g, name, slot, at, width: space(m, g, name, slot)[at:width],
    "write": lambda m, g, name, slot, at, width, value: space(m, g, name, slot).__setitem__(slice(at, width), value),
    "read_wide": lambda m, g, name, slot, at, width: space(m, g, name, slot).wide[at:width],
    "write_wide": lambda m, g, name, slot, at, width, value: space(m, g, name, slot).wide.__setitem__(slice(at, width), value),
    "region_read": lambda m, g, *at: guest(m, g).region_read(*at),
    "region_write": lambda m, g, slot, part, at, width, value: guest(m, g).region_write(slot, part, at, value, width),
    "raise": lambda m, g, slot, part, at, mask: guest(m, g).raise_bits(slot, at, mask, part),
    "device_read_wide": lambda m, g, slot, part, at, width: guest(m, g).device_read(slot, at, part, width),
    "device_write_wide": lambda m, g, slot, part, at, width, value: guest(m, g).device_write(slot, at, value, part, width),
    "region": lambda m, g, slot, register: guest(m, g).region(slot, register),
    "changed": lambda m, g: guest(m, g).changed(),
    "moved": lambda m, g: guest(m, g).moved(),
    "locate": lambda m, g, name, slot, at: guest(m, g).locate(name, at),
    "why": lambda m, g, name, slot, at: guest(m, g).why(name, at, slot),
    "why_json": lambda m, g, name, slot, at: guest(m, g).why_json(name, at, slot),
    "function": lambda m, index: m.function(index),
    "slot": lambda m, g, slot: guest(m, g).function(slot),
    "bus_master": lambda m, g, slot: guest(m, g).bus_master(slot),
    "msix_message": lambda m, g, slot, vector: guest(m, g).msix_message(slot, vector),
    "guest": lambda m, name: m.guest(name),
    "guest_name": lambda m, g: m._name(g),
    "move": lambda m, g, slot, to, target: m.move(guest(m, g), slot, guest(m, to), target),
    "reset": lambda m, g, slot: guest(m, g).reset(slot),
    "reset_guest": lambda m, g: guest(m, g).reset_guest(),
    "give": lambda m, path, g, slot: m.give(str(path), guest(m, g), slot),
    "take": lambda m, g, slot: m.take(guest(m, g), slot),
    "save": lambda m, g: guest(m, g).save(),
    "load": lambda m, g: guest(m, g).load(b""),
    "load_all": lambda m: m.load_all(b""),
    "image_fault": lambda m, g: guest(m, g).image_fault(b""),
    "host_read": lambda m, name, bus, device, function, at, width: board_space(m.host, name, bus, device, function)[at:width],
    "board_read": lambda b, name, bus, device, function, at, width: board_space(b, name, bus, device, function)[at:width],
    "board_write": lambda b, name, bus, device, function, at, width, value: board_space(
        b, name, bus, device, function).__setitem__(slice(at, width), value),
    "board_function": lambda b, index: b.function(index),
    "board_why_json": lambda b, name, bus, device, function, at: b.why_json(name, at, bus, device, function),
}


class Rows(unittest.TestCase):
    def asked(self, machine, board, rows):
        for number, call, *words in rows:
            of = board if call.startswith("board_") else machine
            with self.subTest(" ".join([call, *words])), self.assertRaises(Refusal) as raised:
                CALLS[call](of, *map(value_of, words))
            self.assertEqual(raised.exception.number, int(number), (call, *words))

    def test_each_row(self):
        with Machine(MAIN) as machine, Board(MAIN) as board:
            before = machine.save_all()
            self.asked(machine, board, ROWS)
            self.assertEqual(machine.save_all(), before)
            self.assertEqual([machine.guest(name).changed() for name in machine.guests()], [0, 0])
            board.set_up().close()  # (the board is at reset)
        # (wide accesses are split before a call is made)
        self.asked(machine, board, [(901, *row[1:]) for row in ROWS if row[1] not in ("read_wide", "write_wide")])
        self.assertGreater(len(ROWS), 150)
