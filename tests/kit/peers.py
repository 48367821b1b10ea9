#!/usr/bin/python3 -B
"""QEMU held against a board: random accesses in random register states, and whether each reply is the same.

    peers.py [--trees N] [--accesses N] [--seed S] [--program PROGRAM]

A tree of QEMU's devices is drawn, with network cards, and its board file is written from what they answer at reset. Then
each line of firmware goes to QEMU by its qtest protocol, and to the board of the library, or of the program where one is
named; a second hand follows the registers. A reply that differs is by a rule that is named here or in
tests/firmware/rules.py, or it fails. After that bridges get bus numbers at random, and it is asked which function a cycle
reaches. Status 1 says that a reply differs by no rule; the last line counts."""
import re
import sys
import tomllib
from collections import Counter
from contextlib import closing

import places
from pciguest._drawing import RandomChoices
from pciguest._driven import Library, Program
from pciguest._line_drawing import FirmwareLines
from qemu import Qemu, rules, trees
from second_hand import SecondHandBoard

CARDS = ["e1000,romfile=", "rtl8139,romfile=", "pcnet,romfile=", "i82559er,romfile=", "ne2k_pci,romfile="]
# the first bytes of these regions are memory in QEMU, by vendor and device and the register
MEMORY = {(0x1AF4, 0x1110): 2, (0x1234, 0x1111): 0}
WRITES = [
    rules.Rule("Command: parity error response, read-only in QEMU", rules.BOTH, range(0x04, 0x05), 0x40, free="board"),
    rules.Rule("a bridge, from 40h on: can be written in QEMU", rules.BRIDGE, range(0x40, 0x100), 0xFF, free="QEMU"),
    rules.Rule("Command: interrupt disable of a bridge, read-only here", rules.BRIDGE, range(0x05, 0x06), 0x04, free="QEMU"),
    # (of edu, whose MSI structure is at 40h)
    rules.Rule("Multiple Message Enable: writable in QEMU while MSI is disabled", rules.ENDPOINT, range(0x42, 0x43), 0x70, free="QEMU"),
]
# Bits of Bridge Control of which other accesses would tell: ISA and VGA enable, and the reset of what is behind.
AVOIDED = 0x1C | 0x40
OWN_MEMORY = [(0, 0x7FFFFFF), (0xC0000, 0xFFFFF), (0xFEC00000, 0xFFFFFFFF)]  # the machine's memory, and what stands at the top
OWN_PORTS = range(0, 0x1000)
RESET_PORT = 0xCF9  # the machine's own reset control: a write there would take all registers back


LAWFUL = re.compile(r"host (c[rw] \w\w:[01]\w\.[0-7] \w+|[im][rw] \w+) \d+( \w+)?$")


class Differs(Exception):
    """A reply that no rule names."""


def is_unmapped(bar, base):
    """Whether QEMU takes a base for no address: 0, and where the region ends with its space."""
    last = base + bar.size - 1
    return base == 0 or last >= (0xFFFFFFFFFFFFFFFF if "64" in bar.kind else 0xFFFFFFFF)


def is_memory(endpoint, bar):
    identity = endpoint.values["vendor"], endpoint.values["device"]
    return MEMORY.get(identity) == bar.index


def created_last_first(words):
    """The paths of the bridges among QEMU's words, the last one that it makes first."""
    devices = [dict(part.partition("=")[::2] for part in word.split(",")) for word in words if ",bus=" in word]
    paths = {"pci.0": ()}
    for one in devices:
        device, function = one["addr"].split(".")
        paths[one["id"]] = paths[one["bus"]] + ((int(device, 16), int(function)),)
    return [paths[one["id"]] for one in devices if "pci-bridge" in one][::-1]


def reached_in_qemu(state, created, at):
    """The function that QEMU's cycle reaches: on each bus it goes behind the bridge that it made last of those whose
    Secondary is the bus or whose range has it."""
    bus, *part = at
    above, is_there = (), bus == 0
    while not is_there:
        takers = [one for one in created if one[:-1] == above and (
            state.byte(one, 0x19) == bus or state.byte(one, 0x19) <= bus <= state.byte(one, 0x1A))]
        if not takers:
            return None
        above, is_there = takers[0], state.byte(takers[0], 0x19) == bus
    path = above + (tuple(part),)
    return path if path in state.functions else None


class Peer:
    """One tree: QEMU, the board and the second hand."""

    def __init__(self, seed, accesses, maker, counts):
        self.seed, self.accesses, self.counts = seed, accesses, counts
        tree = trees.Tree(seed, trees.ENDPOINTS + CARDS)
        with closing(Qemu(tree.words)) as qemu:
            self.reading = trees.Reading(qemu.machine)
        self.words, self.created = tree.words, created_last_first(tree.words)
        self.document = tomllib.loads(self.reading.text)
        self.second = SecondHandBoard(self.document)
        self.state = self.second.state
        self.board = maker.board(self.reading.text)
        self.qemu = Qemu(self.words)
        self.lines = FirmwareLines(RandomChoices(seed), self.document)

    def close(self):
        self.qemu.close()
        self.board.close()

    # ---- one line to all three

    def ask(self, line):
        """A line to the board, to QEMU and to the second hand: the first two replies."""
        ours, theirs = self.board.run_line(line), self.qemu.answer(line)
        if line.split()[1] in ("cr", "cw") or " 0xcf" in line:
            self.second.run_line(line)
        self.counts["accesses"] += 1
        return ours, theirs

    def say(self, line):
        """A line that both have to answer alike, or by a rule."""
        words = line.split()
        kind = words[1]
        if kind == "iw" and int(words[2], 0) == RESET_PORT:
            return None
        if kind in ("cr", "cw") or kind in ("ir", "iw") and 0xCF8 <= int(words[2], 0) < 0xD00:
            return self.say_config(line, kind, words)
        return self.say_place(line, kind, words)

    def say_config(self, line, kind, words):
        latch = self.second.latch
        if kind in ("cr", "cw"):
            at = int(words[2][:2], 16), int(words[2][3:5], 16), int(words[2][6])
            offset, width = int(words[3], 0), int(words[4])
        else:
            at = latch >> 16 & 0xFF, latch >> 11 & 31, latch >> 8 & 7
            offset, width = (latch & 0xFC) + int(words[2], 0) % 4, int(words[3])
        path = self.state.reached(at)
        if path and kind in ("cw", "iw") and self.is_avoided(path, offset, width, int(words[-1], 0)):
            return
        ours, theirs = self.ask(line)
        if ours == theirs:
            return
        if kind == "ir" and int(words[2], 0) < 0xCFC:
            return self.latch_rule(line, words, ours, theirs)
        if kind == "ir" and not latch >> 31:
            return self.named("CONFIG_DATA while CONFIG_ADDRESS isn't enabled", line, ours, theirs)
        if path is None or "refused" in ours:
            raise Differs(f"{line}: QEMU {theirs}, board {ours}")
        self.config_rule(line, path, offset, width, int(ours[6:], 16), int(theirs[6:], 16))

    def is_avoided(self, path, offset, width, value):
        """Whether a write would change what other accesses do in ways that a board doesn't have: bits of Bridge Control,
        and regions over the machine's own ports. Numbers of buses are tried by themselves."""
        value &= (1 << 8 * width) - 1
        if self.state.is_bridge(path):
            is_control = offset <= 0x3E < offset + width and value >> 8 * (0x3E - offset) & AVOIDED != 0
            return is_control or offset < 0x1B and offset + width > 0x18
        ports = {bar.offset for bar in self.state.functions[path].bars if bar.space == "I/O"}
        return offset & ~3 in ports and (width < 4 or 0 < value & ~3 < OWN_PORTS.stop)

    def latch_rule(self, line, words, ours, theirs):
        if int(words[3]) < 4:
            return self.named("CONFIG_ADDRESS by 1 or 2 bytes", line, ours, theirs)
        if int(theirs[6:], 16) & 0x80FFFFFC == int(ours[6:], 16):
            return self.named("CONFIG_ADDRESS: bits 30 to 24, 1 and 0", line, ours, theirs)
        raise Differs(f"{line}: QEMU {theirs}, board {ours}")

    def config_rule(self, line, path, offset, width, ours, theirs):
        """Each byte that differs, by its rule."""
        header, at = int(self.state.is_bridge(path)), "/".join(f"{device}.{function}" for device, function in path)
        for n in range(width):
            pair = theirs >> 8 * n & 0xFF, ours >> 8 * n & 0xFF
            place, left = offset + n, pair[0] ^ pair[1]
            for rule in [*rules.RULES, *WRITES]:
                bits = left & rule.bits
                if bits and header in rule.headers and place in rule.offsets:
                    masked = tuple(pair[0] & ~rule.bits | side & rule.bits for side in pair)
                    if rules.names(rule, *masked, self.reading.reset[at][place]):
                        self.counts[rule.name] += 1
                        left &= ~bits
            if left and header == 1 and place in (0x3E, 0x3F) and pair[1] == 0:
                self.counts["Bridge Control: bits that can be written in QEMU"] += 1
            elif left:
                raise Differs(f"{line}: {at} offset {place:02x}h: QEMU {pair[0]:02x}h, board {pair[1]:02x}h")

    def named(self, rule, *_):
        self.counts[rule] += 1

    # ---- ports and memory

    def say_place(self, line, kind, words):
        """An access to a place. QEMU's devices have registers of their own, so that values are compared where its region
        is memory; elsewhere it is asked whether anything answers where nothing should."""
        space, place, width = "I/O" if kind[0] == "i" else "memory", int(words[2], 0), int(words[3])
        if place in OWN_PORTS if space == "I/O" else any(first <= place <= last for first, last in OWN_MEMORY):
            return
        found = [(self.state.functions[path], bar, base) for path, bar, base in self.state.claims(space, place)]
        usable = len(found) == 1 and is_memory(*found[0][:2]) and place + width - found[0][2] <= 4
        if kind[1] == "w" and not usable or found and not usable and len(found) < 2:
            return
        ours, theirs = self.ask(line)
        nothing = f"host: 0x{'f' * 2 * width if space == 'I/O' else '0' * 2 * width}"
        if usable and is_unmapped(*found[0][1:]):
            self.counts["a base of 0, or a region that ends with its space"] += ours != theirs
        elif len(found) > 1:
            self.counts["two regions that claim one address"] += ours != theirs
        elif usable and ours != theirs or not found and theirs != nothing:
            raise Differs(f"{line}: QEMU {theirs}, board {ours}, claimed by {[one[0].path for one in found]}")
        self.counts["accesses to memory that a region claims"] += usable
        self.counts["accesses that nothing claims"] += not found

    # ---- register states

    def opened(self):
        """Lines that place a region that is memory, and open bridges above it: mostly so that it can be reached."""
        choices, functions = self.lines.choices, {one.path: one for one in self.lines.functions}
        regions = [(endpoint, bar) for path, bar, _ in self.state.regions() for endpoint in [self.state.functions[path]]
                   if is_memory(endpoint, bar)]
        if not regions:
            return
        endpoint, bar = choices.one_of(regions)
        base = 0x80000000 + bar.size * choices.number(0, (1 << 30) // bar.size)
        high = choices.one_of([0, 0, 0, 4]) if bar.kind == "mem64p" else 0
        number = self.lines.number(functions[endpoint.path])
        if bar.width == 8:
            yield f"host cw {number} {bar.offset + 4:#x} 4 {high:#x}"
        yield f"host cw {number} {bar.offset:#x} 4 {base:#x}"
        for depth in range(1, len(endpoint.path)):
            bridge = self.lines.number(functions[endpoint.path[:depth]])
            first, last = base >> 16, base + bar.size - 1 >> 16 & 0xFFF0
            last += choices.one_of([0, 0, 0, 0x10, -0x10])
            window = 0x24 if high else choices.one_of([0x20, 0x20, 0x24])
            yield f"host cw {bridge} {window:#x} 4 {last << 16 | first:#x}"
            yield f"host cw {bridge} 0x28 4 {high if window == 0x24 else 0:#x}"
            yield f"host cw {bridge} 0x2c 4 {high if window == 0x24 else 0:#x}"
            yield f"host cw {bridge} 4 2 {choices.one_of([2, 3, 3, 0x106, 1])}"
        yield f"host cw {number} 4 2 {choices.one_of([2, 2, 3, 7, 0])}"
        for width in (4, 2, 1):
            yield f"host mw {high << 32 | base:#x} {width} {choices.number(1, 0xFFFFFFFF):#x}"
            yield f"host mr {high << 32 | base:#x} 4"
            yield f"host mr {(high << 32 | base) + bar.size - choices.one_of([0, 0x100000]):#x} 4"

    def run(self):
        """Random accesses, with new numbers of buses and regions that are placed anew now and then."""
        for count in range(self.accesses):
            for line in self.lines.numbering() if count % 200 == 0 else []:
                self.ask(line)
            for line in self.opened() if count % 10 == 0 else self.lines.line().split("\n"):
                if LAWFUL.match(line) and self.is_taken(line.split()):
                    self.say(line)

    def is_taken(self, words):
        """Whether a line is refused by no check."""
        place = int(words[3 if words[1][0] == "c" else 2], 0)
        width = int(words[4 if words[1][0] == "c" else 3])
        greatest = {"c": 255, "i": 0xFFFF, "m": (1 << 64) - 1}[words[1][0]]
        return width in (1, 2, 4) and place % width == 0 and place <= greatest

    # ---- cycles by random numbers

    def route(self, states):
        """In some states of bus numbers: which function does a cycle reach? Interrupt Line says it by a mark."""
        valid = sorted((line.split()[2], line) for line in self.lines.numbering())
        for line in (line for _, line in valid):
            self.ask(line)
        marks = {}
        for mark, one in enumerate(self.lines.functions, 1):
            self.ask(f"host cw {self.lines.number(one)} 0x3c 1 {mark}")
            marks[mark] = one.path
        bridges = [one for one in self.lines.functions if one.is_bridge]
        choices = self.lines.choices
        for _ in range(states if bridges else 0):
            for _ in range(choices.number(1, 3)):
                number = self.lines.number(choices.one_of(bridges))
                at = int(number[:2], 16), int(number[3:5], 16), int(number[6])
                if self.state.reached(at) == reached_in_qemu(self.state, self.created, at):
                    numbers = choices.number(0, 9) << 16 | choices.number(0, 9) << 8 | choices.number(0, 9)
                    self.ask(f"host cw {number} 0x18 4 {numbers:#x}")
            for _ in range(6):
                device, function = choices.one_of(self.lines.functions).path[-1]
                self.cycle((choices.number(0, 9), device, function), marks)
            for _, line in valid:  # bus by bus, so that each bridge is reached
                self.ask(line)

    def cycle(self, at, marks):
        """One cycle. QEMU goes by other rules where numbers are not in order, and its answer is by them."""
        ours, theirs = self.ask(f"host cr {at[0]:02x}:{at[1]:02x}.{at[2]} 0x3c 1")
        self.counts["cycles by random bus numbers"] += 1
        if ours == theirs:
            return
        if marks.get(int(theirs[6:], 16)) != reached_in_qemu(self.state, self.created, at):
            raise Differs(f"{at}: QEMU {theirs}, board {ours}")
        alone = [one for one in self.created if self.state.byte(one, 0x1A) < self.state.byte(one, 0x19) == at[0]]
        self.counts["a bus of a bridge with its Subordinate below its Secondary" if alone
                    else "a bus that two bridges of one bus take"] += 1


def main():
    chosen, failed, counts = places.options(__doc__, "--program", trees=30, accesses=1000, seed=1), 0, Counter()
    maker = Program(chosen.program) if chosen.program else Library()
    for seed in range(chosen.seed, chosen.seed + chosen.trees):
        with closing(Peer(seed, chosen.accesses, maker, counts)) as peer:
            try:
                peer.run()
                peer.route(chosen.accesses // 40)
            except Differs as wrong:
                failed += 1
                print(f"FAILED: tree {seed}: {wrong}", flush=True)
    for name, count in sorted(counts.items()):
        print(f"  {count:7} {name}")
    print(f"trees {chosen.trees}, of which differ by no rule {failed}")
    sys.exit(failed > 0)


if __name__ == "__main__":
    main()
