#!/usr/bin/python3 -B
"""Boots EDK2, as Debian's ovmf has it, in QEMU on random trees of its devices, and asks what it leaves.

    edk2.py [--trees N] [--seed S] [--tight | --over] [--program PROGRAM]

The trees are those on which SeaBIOS and U-Boot boot (tests/firmware). Each register that EDK2 left is read by QEMU's qtest
protocol, and written to a board with the same functions as a line of firmware; each byte of that board is then the same as
QEMU's, or differs by a rule of tests/firmware/rules.py. The board is asked for all that is wrong there: problems of its
audit, and what it lacks. With --tight devices with memory below 4 GB are added on bus 0, as long as our own set-up finds room
for all of the tree, so that next to none is left; with --over one more is. Status 1 says that a boot went wrong, or that a byte differs by no rule; the last lines count."""
import sys
import tomllib
from collections import Counter
from contextlib import closing
from typing import NamedTuple

import places
from pciguest._board_file import functions, text_of
from pciguest._driven import Library, Program
from pciguest._judge import findings, kind_of
from pciguest._tight import cut, with_region
from second_hand import standing

board, boot, machine, registers, rules, trees = places.modules(
    "firmware", "board", "boot", "machine", "registers", "rules", "trees")


class System(NamedTuple):
    """Who sets functions up: how QEMU is run with it and without it, where it puts things, by which rules its bytes may
    differ, and how many seconds it may take."""

    firmware: boot.Firmware
    kind: list  # QEMU's words for its machine
    words: list  # and what it is given besides to boot
    host: dict
    rules: list
    patience: int


BACK_TO_BACK = rules.Rule("Bridge Control: fast back-to-back enable", rules.BRIDGE, range(0x3E, 0x3F), 0x80, free="QEMU")
EDK2 = System(boot.Firmware("EDK2", "/usr/share/ovmf/OVMF.fd", "Shell> ", (), False), ["-machine", "pc,accel=tcg", "-m", "256"],
              [], {"io": [0x1000, 0xFFFF], "mem": [0x80000000, 0xFBFFFFFF], "pref": [0xE000000000, 0xFFFFFFFFFF], "devices": 32},
              [*rules.RULES, BACK_TO_BACK], 400)
# Command opens the function's spaces last, when all else stands
ORDER = [*range(0x08, 0x100, 4), 0x04]


def displays(document, maker):
    """The MB of displays for which set-up finds room on bus 0, the largest first; and how many MB of memory are left then."""
    def refusal(candidate):
        return maker.refusal(text_of(candidate))

    size, sizes = 256, []
    while size >= 4:
        more = with_region(with_region(document, (), "mem32p", size << 20), (), "mem32", 4096)
        if refusal(more) is None:
            document = more
            sizes.append(size)
        else:
            size //= 2
    return sizes, document["host"]["mem"][1] - cut(document, "mem", refusal)["host"]["mem"][1] >> 20


def fill(tree, document, maker, is_over):
    """Adds displays until next to no memory is left, or one of 64 MB more, as functions of the devices that are free."""
    sizes, left = displays(document, maker)
    print(f"memory that is left: {left} MB", flush=True)
    sizes += [64] if is_over else []
    taken = {one.path[0][0] for one in functions(document)}
    free = [device for device in range(2, 32) if device not in taken]
    for place, size in enumerate(sizes):
        device, function = free[place % len(free)], place // len(free)
        many = ",multifunction=on" if function or place + len(free) < len(sizes) else ""
        tree.add(f"bochs-display,romfile=,vgamem={size}M{many}", "pci.0", f"{device:x}.{function}")


def read_tree(seed, system, maker=None, is_over=False):
    """A tree as QEMU has it at reset: its words, and its board file; filled where there is who says how far."""
    tree = trees.Tree(seed)
    if maker:
        with closing(machine.Machine(tree.words, kind=system.kind)) as at_reset:
            fill(tree, {**tomllib.loads(trees.Reading(at_reset).text), "host": system.host}, maker, is_over)
    with closing(machine.Machine(tree.words, kind=system.kind)) as at_reset:
        return tree.words, trees.Reading(at_reset)


def boot_tree(words, system):
    """The configuration bytes of each function once the system is done, by its number."""
    with closing(machine.Machine(words, system.firmware, [*system.kind, *system.words])) as booted:
        booted.wait(system.firmware, system.patience)
        booted.stop()
        return board.registers(booted)


def lines_of(cells):
    """Lines of firmware that write what stands in all functions: buses from the first on, so that each is reached."""
    for at, bytes_of in sorted(cells.items(), key=lambda one: one[0]):
        words = {offset: int.from_bytes(bytes_of[offset:offset + 4], "little") for offset in ORDER}
        for offset in ORDER if not board.is_bridge(bytes_of) else [0x18, *(each for each in ORDER if each != 0x18)]:
            yield f"host cw {board.number(at)} {offset:#x} 4 {words[offset]:#x}"


class Count:
    """What is counted over all trees."""

    def __init__(self, system, is_tight, is_over):
        self.system, self.is_tight, self.is_over = system, is_tight or is_over, is_over
        self.comparison, self.kinds, self.failed = rules.Comparison(system.rules), Counter(), 0
        self.windows, self.regions, self.ready, self.in_order = Counter(), 0, 0, 0

    def fail(self, what):
        self.failed += 1
        print(f"FAILED: {what}", flush=True)

    def tree(self, seed, maker):
        words, reading = read_tree(seed, self.system, maker if self.is_tight else None, self.is_over)
        document = {**tomllib.loads(reading.text), "host": self.system.host}
        cells = boot_tree(words, self.system)
        with closing(maker.board(text_of(document))) as driven:
            for line in lines_of(cells):
                reply = driven.run_line(line)
                if reply != "host: ok":
                    self.fail(f"tree {seed}: {line}: {reply}")
            found = findings(driven)
            ours = registers.of_all(driven, document)
        _, bridges = standing(document, ours)
        self.compare(seed, reading.reset, cells, ours)
        for path in filter(bridges.is_bridge, bridges.functions):
            for name, (first, last) in bridges.windows(path, "memory").items():  # how long the windows of bridges are
                self.windows[name, max(0, last + 1 - first) >> 20] += 1
        kinds = Counter(kind_of(line) for line in found)
        self.kinds += kinds
        self.ready += not found
        self.in_order += not any(line.startswith("audit") for line in found)
        self.regions += sum(len(one.regions()) for one in functions(document))
        told = ", ".join(f"{kind} {count}" for kind, count in sorted(kinds.items())) or "ready"
        print(f"tree {seed}: functions {len(cells)}, bridges {len(document.get('bridge', []))}: {told}", flush=True)
        print(*(f"  {line}" for line in found), sep="\n" if found else "", end="\n" if found else "", flush=True)

    def compare(self, seed, reset, cells, ours):
        known, names = len(self.comparison.unnamed), board.paths(cells)
        self.comparison.add(reset, cells, {at: ours[names[at]] for at in cells if names[at] in ours})
        for line in self.comparison.unnamed[known:]:
            self.fail(f"tree {seed}: {line}")


def main(system, told):
    chosen = places.options(told, "--program", trees=30, seed=1, tight=False, over=False)
    count = Count(system, chosen.tight, chosen.over)
    maker = Program(chosen.program) if chosen.program else Library()
    for seed in range(chosen.seed, chosen.seed + chosen.trees):
        try:
            count.tree(seed, maker)
        except machine.MachineError as error:
            count.fail(f"tree {seed}: {error}")
    count.comparison.tell()
    print(f"functions {count.comparison.functions}, regions {count.regions}; bytes compared {count.comparison.bytes}, "
          f"that differ by no rule {len(count.comparison.unnamed)}")
    print("windows: " + ", ".join(f"{number} {name} of {size} MB" for (name, size), number in sorted(count.windows.items())))
    print(f"trees {chosen.trees}: in order by their audit {count.in_order}, ready {count.ready}; "
          + ", ".join(f"{kind} {number}" for kind, number in sorted(count.kinds.items())))
    sys.exit(count.failed > 0)


if __name__ == "__main__":
    main(EDK2, __doc__)
