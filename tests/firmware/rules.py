"""Compares what one firmware left in QEMU's functions and in a board's. Each difference is named by a rule, or fails.

No rule speaks of Command, base address registers, bus numbers and windows: they are equal, or a difference fails."""
from collections import Counter
from typing import NamedTuple

from board import is_bridge, number, paths


class Rule(NamedTuple):
    """Bits of a register that may differ. A side that is not `free` has there what it has at reset: a board 0."""

    name: str
    headers: tuple     # header types of the functions
    offsets: range
    bits: int
    free: str = ""     # the side where the bits can be written: 'QEMU', 'board' or none


ENDPOINT, BRIDGE = (0,), (1,)
BOTH = ENDPOINT + BRIDGE
RULES = [
    Rule("Status: capabilities of a bridge", BRIDGE, range(0x06, 0x07), 0x10),
    Rule("Latency Timer: read-only in QEMU", BOTH, range(0x0D, 0x0E), 0xFF, free="board"),
    Rule("Capabilities Pointer of a bridge, or without a list", BOTH, range(0x34, 0x35), 0xFF),
    Rule("Bridge Control: SERR# enable", BRIDGE, range(0x3E, 0x3F), 0x02, free="QEMU"),
    Rule("capabilities of a bridge", BRIDGE, range(0x40, 0x100), 0xFF),
]
EQUAL = {0: [*range(0x04, 0x06), *range(0x10, 0x28)], 1: [*range(0x04, 0x06), *range(0x10, 0x1E), *range(0x20, 0x34)]}
assert not any(offset in rule.offsets for rule in RULES for header in rule.headers for offset in EQUAL[header])


def names(rule, theirs, ours, reset):
    """Whether the rule allows these two values of a byte. `reset` is QEMU's byte at reset."""
    if (theirs ^ ours) & ~rule.bits:
        return False
    as_there = rule.free == "QEMU" or theirs & rule.bits == reset & rule.bits
    as_here = rule.free == "board" or ours & rule.bits == 0
    return as_there and as_here


class Comparison:
    """Counts over many boots: functions, bytes, bytes that differ by each rule, and differences that none names."""

    def __init__(self, rules=RULES):
        self.rules = rules
        self.functions, self.bytes, self.by_rule, self.unnamed = 0, 0, Counter(), []

    def add(self, reset, theirs, ours):
        """Compares all functions of a board. `reset` has QEMU's bytes at reset by path."""
        at_path = paths(theirs)
        for at in sorted(theirs.keys() | ours.keys()):
            if at in theirs and at in ours and at_path[at] in reset:
                self.functions += 1
                self.add_function(at, reset[at_path[at]], theirs[at], ours[at])
            else:
                self.unnamed.append(f"{number(at)}: stands {'in QEMU' if at in theirs else 'on the board'} alone")

    def add_function(self, at, reset, theirs, ours):
        header = int(is_bridge(theirs))
        self.bytes += 256
        for offset, pair in enumerate(zip(theirs, ours)):
            if pair[0] == pair[1]:
                continue
            rule = next((rule for rule in self.rules if header in rule.headers and offset in rule.offsets
                         and names(rule, *pair, reset[offset])), None)
            if rule:
                self.by_rule[rule.name] += 1
            else:
                self.unnamed.append(f"{number(at)} offset {offset:02x}h: QEMU {pair[0]:02x}h, board {pair[1]:02x}h")

    def tell(self):
        for rule in self.rules:
            print(f"  {self.by_rule[rule.name]:6} bytes: {rule.name}")
