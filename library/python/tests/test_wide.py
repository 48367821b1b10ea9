"""Accesses of 1 to 8 bytes at any place, beside lawful ones on a second machine."""

import random
import unittest

from boards import MAIN
from pciguest import Board, Machine, Refusal

ENDS = {"config": 0x100, "io": 1 << 32, "memory": 1 << 64}


def spaces(machine, slot):
    guest = machine.guest("a")
    return {"config": guest.config[slot], "io": guest.io, "memory": guest.memory}


def a_place(chance, space):
    if chance.randrange(8) == 0:
        return ENDS[space] - 1 - chance.randrange(12)
    if space == "config":
        return chance.randrange(64)
    if space == "io":
        return chance.choice([0x1000, 0x10000, 0xCF4]) + chance.randrange(16)
    return 0xC0000000 + (chance.randrange(3) << 20) + chance.randrange(80)


def blocks(place, width):
    """The largest block of 1, 2 or 4 bytes that begins where the one before ended."""
    end = place + width
    while place < end:
        size = max(size for size in (1, 2, 4) if place % size == 0 and place + size <= end)
        yield place, size
        place += size


def expected(space, name, place, width, value):
    """What a wide access is to answer, by lawful accesses."""
    if not 1 <= width <= 8:
        return 302
    if place + width > ENDS[name]:
        return 303
    read = 0
    for at, size in blocks(place, width):
        try:
            if value is None:
                read |= space[at:size] << 8 * (at - place)
            else:
                space[at:size] = value >> 8 * (at - place) & 0xFFFFFFFF
        except Refusal as refusal:
            return refusal.number
    return None if value is not None else f"{read:#x}"


def answered(space, place, width, value):
    try:
        if value is None:
            return f"{space.wide[place:width]:#x}"
        space.wide[place:width] = value
        return None
    except Refusal as refusal:
        return refusal.number


class Wide(unittest.TestCase):
    def test_as_lawful_accesses(self):
        for seed in (1, 2, 3):
            chance = random.Random(seed)
            with Machine(MAIN) as one, Machine(MAIN) as other:
                for _ in range(5000):
                    name, width = chance.choice(list(ENDS)), chance.randrange(10)
                    slot = chance.randrange(3) if chance.randrange(20) else 32
                    place = a_place(chance, name)
                    value = chance.choice([None, chance.getrandbits(64), chance.randrange(8)])
                    found = answered(spaces(one, slot)[name], place, width, value)
                    wanted = expected(spaces(other, slot)[name], name, place, width, value)
                    self.assertEqual(found, wanted, (name, slot, place, width, value))

    def test_the_host_and_firmware(self):
        with Machine(MAIN) as machine:
            self.assertEqual(machine.host.memory.wide[0x400000001:8], 0xA5A5A5A5A5A5A5A5)
            with self.assertRaises(TypeError):
                machine.host.memory.wide[0x400000000:8] = 0
        with Board(MAIN) as board:
            board.io.wide[0xCF8:8] = 0x1234567880001000
            self.assertEqual(board.io.wide[0xCF8:6], 0x123480001000)

    def test_ports_above_ffffh(self):
        with Machine(MAIN) as machine:
            guest = machine.guest("a")
            guest.config[0][0x10:4], guest.config[0][4:2] = 0x10000, 1
            self.assertEqual(guest.io[0x10000:4], 0)
            self.assertEqual(guest.io.wide[0xFFFE:8], 0xFFFF)
            with self.assertRaises(Refusal):
                guest.io.wide[0xFFFFFFFC:5]

    def test_numbers_that_do_not_fit(self):
        with Machine(MAIN) as machine:
            memory = machine.guest("a").memory
            with self.assertRaises(ValueError):
                memory.wide[0:8] = 1 << 64
            with self.assertRaises(TypeError):
                memory.wide[0]
