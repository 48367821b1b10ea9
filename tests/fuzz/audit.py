"""What is wrong in random register states: the program's audit, and a second hand's.

    audit.py PROGRAM [--states N] [--seed S]

Firmware writes bases, windows, bus numbers and Command of a random board: half of the states begin from what set-up
leaves, where the board fits. Each answer of a line is compared too. The first state that differs is printed with its
seed, and its files are kept. The second hand is this folder: registers, cycles and the audit as docs/PROFILE.md and
docs/script-language.md have them, without a line of the program's code."""
import random
from collections import Counter

from answers import World
from audited import State, audit
from board import Bridge, Endpoint, board_file, random_board
from compared import Room, audit_json, lines_of, options
from placement import Refused

KINDS = ["is not forwarded by", "address conflict", "a configuration cycle"]
EDGES = [0, 0x10, 0xCF8, 0x1000, 0x2000, 0xF000, 0x100000, 0x80000000, 0xC0000000, 0xFFF00000, 0xFFFFFFF0, 0xFFFFFFFF]
WINDOWS = [(0x1C, 1), (0x1D, 1), (0x1C, 2), (0x20, 2), (0x22, 2), (0x20, 4), (0x24, 2), (0x26, 2), (0x24, 4), (0x28, 4),
           (0x2C, 4), (0x30, 2), (0x32, 2)]


def set_up_writes(board):
    """What set-up writes, as (path, offset, width, value), bus numbers first; nothing where the board doesn't fit."""
    try:
        left = World(board).left
    except Refused:
        return []

    def of(kind, offsets, width=4):
        paths = [function.path for function in board.functions if isinstance(function, kind)]
        return [(path, off, width, left.read_bytes(path, off, width)) for path in paths for off in offsets]

    return [*of(Bridge, [0x18]), *of(Bridge, range(0x1C, 0x34, 4)), *of(Endpoint, range(0x10, 0x28, 4)),
            *of((Bridge, Endpoint), [4], 2)]


class Firmware:
    """Firmware that writes at random, as lines, into a state that the second hand follows."""

    def __init__(self, rng, board):
        self.rng, self.board, self.state = rng, board, State(board)
        self.lines, self.answers = [], []

    def say(self, words, answer):
        self.lines.append("host " + words)
        self.answers.append(f"host: {answer}")

    def number(self, path):
        """A number at which the function is reached now, and else any."""
        buses = [0] + [self.state.byte(bridge.path, 0x19) for bridge in self.board.functions if isinstance(bridge, Bridge)]
        for bus in buses:
            if self.state.reached((bus, *path[-1])) == path:
                return bus, *path[-1]
        return self.rng.choice(buses), *path[-1]

    def write(self, path, off, width, value):
        """A write by number, or by the ports CF8h and CFCh."""
        at = self.number(path)
        value &= (1 << 8 * width) - 1
        if self.rng.random() < 0.8:
            self.say(f"cw {at[0]:02x}:{at[1]:02x}.{at[2]} {off:#x} {width} {value:#x}", "ok")
        else:
            self.say(f"iw 0xcf8 4 {1 << 31 | at[0] << 16 | at[1] << 11 | at[2] << 8 | off & 0xFC:#x}", "ok")
            self.say(f"iw {0xCFC + off % 4:#x} {width} {value:#x}", "ok")
        self.state.write(at, off, width, value)

    def read(self):
        """Reads a word of some function."""
        bus, device, function = self.number(self.rng.choice(self.board.functions).path)
        if self.rng.random() < 0.2:
            bus, device = self.rng.randrange(256), self.rng.randrange(32)
        off = 4 * self.rng.choice([0, 1, 2, 4, 5, 6, 7, 8, 9, 10, self.rng.randrange(64)])
        value = self.state.read((bus, device, function), off)
        self.say(f"cr {bus:02x}:{device:02x}.{function} {off:#x} 4", f"0x{value:08x}")

    def near(self, values):
        """One of some numbers, an edge, or a neighbour of one, and now and then any."""
        value = self.rng.choice((values or [0]) + [self.rng.choice(EDGES)])
        return self.rng.choice([value] * 4 + [value + self.rng.choice([-0x100000, -0x1000, 0x1000, 0x100000, 0x10]),
                                              self.rng.getrandbits(64)]) % (1 << 64)

    def move_base(self, endpoint):
        """Writes a base: that of another region, a neighbour of one, an address in a window, or one half alone."""
        if not endpoint.bars:
            return
        bar = self.rng.choice(endpoint.bars)
        others = [self.state.base(other, one) for other in self.board.endpoints() for one in other.bars
                  if one.space == bar.space]
        base = self.near(others)
        if bar.width == 8 and self.rng.random() < 0.7:
            self.write(endpoint.path, bar.offset + 4, 4, base >> 32)
        if bar.width == 4 or self.rng.random() < 0.8:
            self.write(endpoint.path, bar.offset, self.rng.choice([4, 4, 4, 2, 1]), base)

    def move_window(self, bridge):
        """Writes a register of a window: a unit more or less, that of another bridge, or any."""
        off, width = self.rng.choice(WINDOWS)
        unit = 0x10 if off < 0x30 else 1
        bridges = [other.path for other in self.board.functions if isinstance(other, Bridge)]
        there = self.state.read_bytes(bridge.path, off, width)
        other = self.state.read_bytes(self.rng.choice(bridges), off, width)
        values = [there + unit, there - unit, there + unit, there - unit, other, 0, 0xFFF0, self.rng.getrandbits(32)]
        self.write(bridge.path, off, width, self.rng.choice(values))

    def renumber(self, bridge):
        """Writes a bus number, or all."""
        count = sum(isinstance(function, Bridge) for function in self.board.functions)
        byte = self.rng.choice([0, 1, 0xFF, self.rng.randrange(count + 2), self.rng.randrange(256)])
        if self.rng.random() < 0.3:
            return self.write(bridge.path, 0x18, 4, byte << 16 | self.rng.randrange(count + 2) << 8)
        return self.write(bridge.path, self.rng.choice([0x18, 0x19, 0x1A]), 1, byte)

    def meddle(self):
        """Any one thing."""
        function = self.rng.choice(self.board.functions)
        kind = self.rng.randrange(20)
        if kind < 3:
            self.write(function.path, 4, self.rng.choice([1, 2]), self.rng.choice([0, 1, 2, 3, self.rng.getrandbits(16)]))
        elif kind < 4:
            width = self.rng.choice([1, 2, 4])
            self.write(function.path, width * self.rng.randrange(0x40 // width), width, self.rng.getrandbits(32))
        elif kind < 7:
            self.read()
        elif isinstance(function, Endpoint):
            self.move_base(function)
        elif kind < 16:
            self.move_window(function)
        else:
            self.renumber(function)


def random_state(seed):
    """A board and what firmware does to it. About one in eight is as set-up leaves it."""
    rng = random.Random(seed)
    board = random_board(rng)
    firmware = Firmware(rng, board)
    if rng.random() < 0.9:
        for write in set_up_writes(board):
            firmware.write(*write)
        times = rng.choice([0, 1, 1, 2, 3, 5, 20, 100])
    else:
        times = rng.choice([0, 10, 300])
    for _ in range(times):
        firmware.meddle()
    return board, firmware


def compare_states(verb, state_of, judged, json_of, kinds, well, fault=""):
    """Has the program judge register states, in lines and as JSON, and compares that, and its answers before, with what is judged
    here. How many states have a line of each kind is told, and how many are well; the others end with a fault, if there is one."""
    chosen, counts, are_well = options(__doc__, "program", states=2000, seed=1), Counter(), 0
    room = Room(chosen.program)
    for seed in range(chosen.seed, chosen.seed + chosen.states):
        board, firmware = state_of(seed)
        text, told = board_file(board), judged(board, firmware.state)
        room.write("board.toml", text)
        is_well = told == [f"{verb}: ok"]
        err = "" if is_well else fault
        for flags, last in (([], told), (["--json"], [json_of(told, text)])):
            came = room.run(verb, *flags, "board.toml", script=lines_of(firmware.lines))
            room.compare(seed, f"{verb} {' '.join(flags)}", (int(err != ""), lines_of(firmware.answers + last), err), came)
        counts.update({kind for line in told for kind in kinds if kind in line})
        are_well += is_well
    room.end()
    shown = ", ".join(f"'{kind}' in {count}" for kind, count in sorted(counts.items()))
    print(f"{chosen.states} register states, {are_well} {well}; {shown}: all agree")


if __name__ == "__main__":
    compare_states("audit", random_state, lambda _, state: audit(state), audit_json.text_of, KINDS, "in order")
