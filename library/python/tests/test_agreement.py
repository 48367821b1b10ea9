"""Random accesses, each asked by a call of its own and, on a second machine, by a line of a script."""

import random
import unittest

from boards import MAIN, TEXTS
from pciguest import Machine, Refusal

PLACES = {
    "c": [0, 4, 4, 8, 0x10, 0x14, 0x3C, 0x40, 6, 7, 256],
    "i": [0xCF8, 0xCF8, 0xCF8, 0xCFC, 0xCFC, 0xCFC, 0xCFE, 0x1000, 1 << 32],
    "m": [0xC0000000 + bus + each for bus in (0, 1 << 20) for each in (0, 4, 8, 12, 16, 32, 60, 64, 5, 6)],
}
WIDTHS = [1, 2, 2, 4, 4, 4, 4, 4, 4, 0, 3, 8]
PARTS = [("cfg", None, 7), ("bar1", 1, 9), ("bar0", 0, 40)]


def reply(who, width, call):
    """The reply of a call, as a run writes it."""
    try:
        value = call()
    except Refusal as refusal:
        return f"{who}: refused {refusal.number} {TEXTS[refusal.number]}"
    return f"{who}: ok" if value is None else f"{who}: 0x{value:0{2 * width}x}"


def a_value(chance):
    return chance.choice([
        0x80000000 | chance.randrange(3) << 11 | chance.randrange(16) << 2,
        0xC0000000 + (chance.randrange(2) << 20),
        chance.choice([1, 2, 3, 7]),
        chance.getrandbits(32),
    ])


def access(chance, guest):
    """An access of a guest: its line, and the reply of the call."""
    letter, width, slot = chance.choice("cim"), chance.choice(WIDTHS), chance.choice([0, 0, 0, 0, 1, 1, 2, 32])
    place = chance.choice(PLACES[letter])
    where = f"{slot} {place}" if letter == "c" else f"{place:#x}"
    space = {"c": guest.config[slot], "i": guest.io, "m": guest.memory}[letter]
    if chance.randrange(2):
        return f"{guest.name} {letter}r {where} {width}", reply(guest.name, width, lambda: space[place:width])
    value = a_value(chance)
    line = f"{guest.name} {letter}w {where} {width} {value:#x}"
    return line, reply(guest.name, width, lambda: space.__setitem__(slice(place, width), value))


def raise_bits(chance, guest):
    slot, (word, region, offset) = chance.randrange(3), chance.choice(PARTS)
    answer = reply(guest.name, 0, lambda: guest.raise_bits(slot, offset, 0x80, region))
    return f"{guest.name} raise {slot} {word} {offset} 0x80", answer


def host_read(chance, host):
    letter, width = chance.choice("cim"), chance.choice([1, 2, 4, 3])
    place, bus, device, function = chance.choice(PLACES[letter]), *map(chance.randrange, (3, 4, 2))
    where = f"{bus:02x}:{device:02x}.{function} {place}" if letter == "c" else f"{place:#x}"
    space = {"c": host.config[bus, device, function], "i": host.io, "m": host.memory}[letter]
    return f"host {letter}r {where} {width}", reply("host", width, lambda: space[place:width])


def move(chance, machine, guests):
    source, target, slots = chance.choice(guests), chance.choice(guests), (chance.randrange(3), chance.randrange(4))
    answer = reply("host", 0, lambda: machine.move(source, slots[0], target, slots[1]))
    return f"host move {source.name} {slots[0]} {target.name} {slots[1]}", answer


def step(chance, machine, guests):
    kind = chance.randrange(80)
    if kind == 0:
        return move(chance, machine, guests)
    if kind < 9:
        return raise_bits(chance, chance.choice(guests))
    if kind < 20:
        return host_read(chance, machine.host)
    return access(chance, chance.choice(guests))


class Agreement(unittest.TestCase):
    def test_calls_and_lines_answer_alike(self):
        for seed in (1, 2, 3):
            chance, refused, values = random.Random(seed), 0, 0
            with Machine(MAIN) as calls, Machine(MAIN) as lines:
                guests = [calls.guest("a"), calls.guest("b")]
                for _ in range(10000):
                    line, answered = step(chance, calls, guests)
                    refused += "refused" in answered
                    values += "0x" in answered and not answered.endswith("ff")
                    self.assertEqual(lines.run_line(line), answered, line)
            self.assertGreater(refused, 500)
            self.assertGreater(values, 500)
