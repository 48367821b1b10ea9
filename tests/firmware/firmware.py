#!/usr/bin/python3 -B
"""Boots firmware of others, unmodified, on boards of the library, and compares what it leaves with what it leaves in
QEMU.

    firmware.py PROGRAM [--trees N] [--q35 N] [--seed S] [--keep FOLDER]

First each firmware boots on boards of the folder boards, with the addresses that it gives out. Then it boots on N random
trees (30), here and in QEMU's machine `pc`, and U-Boot on some (10) in `q35` (SeaBIOS uses ECAM there, which boards don't
have). The configuration bytes of all functions are compared, and each firmware has to find its ISA bridge; the same seed makes
the same trees. After each boot the program audits what the firmware left, and says whether that is ready; what is wrong or
lacking is told, and each such line is held against the board. Then the board is given to the guests of its file, or
refused, and scripts are told what they are after our own set-up. With --keep the consoles and the boards are kept. Status 1
says that a boot went wrong, that a line of what is wrong or lacking isn't so, or that a byte differs and no rule names it.
The last line counts."""
import sys
import tempfile
import tomllib
from collections import Counter
from contextlib import closing
from pathlib import Path

from board import options, paths, registers
from boot import SEABIOS, UBOOT, boot
from guests import guests_text
from machine import PC, Q35, Machine, MachineError
from pciguest._board_file import devices, text_of
from pciguest._judge import kind_of
from rules import Comparison
from trees import HOST, Reading, Tree

FOLDER = Path(__file__).resolve().parents[2] / "boards"
# U-Boot stops before its first words on the other two
BOARDS = {SEABIOS: ["main", "server", "second_bridge", "kinds", "last_devices", "chain", "largest"],
          UBOOT: ["main", "server", "second_bridge", "kinds", "last_devices"]}


class Run:
    """The options of a run, and what it counts."""

    def __init__(self, options, room):
        self.program, self.room, self.failed = options.program, Path(options.keep or room), 0
        self.boots, self.in_order, self.given, self.replies = Counter(), Counter(), Counter(), Counter()
        self.ready, self.kinds = Counter(), {SEABIOS.name: Counter(), UBOOT.name: Counter()}
        self.room.mkdir(parents=True, exist_ok=True)

    def fail(self, what):
        print(f"FAILED: {what}")
        self.failed += 1

    def boot(self, name, file, firmware):
        """Boots a firmware on a board, and tells in a line what came of it."""
        left = boot(self.program, str(file), firmware)
        (self.room / f"{name}.{firmware.name}.told").write_text(left.told)
        print(f"{firmware.name:7} {name:13} functions {len(left.cells):4}  regions that answer {left.answering:3}"
              f"  accesses {left.accesses:6}  {', '.join([*left.audit[-1:], *left.ready[-1:]]) or 'no audit'}", flush=True)
        for line in left.ready[:-1]:
            print(f"  {line}")
        self.boots[firmware.name] += 1
        self.in_order[firmware.name] += left.audit == ["audit: ok"]
        self.ready[firmware.name] += left.ready == ["ready: ok"]
        self.kinds[firmware.name].update(map(kind_of, left.ready[:-1]))
        if left.given:
            self.given[firmware.name, left.given.number] += 1
            self.replies[firmware.name] += left.given.lines
        for line in left.wrong:
            self.fail(f"{firmware.name} on {name}: {line}")
        return left

    def tell(self):
        """What came of the boots of each firmware."""
        for name, count in self.boots.items():
            print(f"{name}: boots {count}, in order by their audit {self.in_order[name]}, given to guests "
                  f"{self.given[name, 0]}, refused by 207 {self.given[name, 207]}, by 206 {self.given[name, 206]}; "
                  f"replies to guests, each as after our own set-up, {self.replies[name]}")
            kinds = ", ".join(f"{kind} {number}" for kind, number in sorted(self.kinds[name].items())) or "none"
            print(f"{name}: ready {self.ready[name]}; problems and lacks, each held against the board: {kinds}")

    def own_board(self, name):
        """The file of a board of the folder boards, with the addresses that firmware gives out."""
        document = tomllib.loads((FOLDER / f"{name}.toml").read_text())
        file = self.room / f"{name}.toml"
        file.write_text(text_of({**document, "host": {**HOST, "devices": devices(document)}}))
        return file

    def read_tree(self, seed, chipset=PC):
        """A random tree as QEMU has it at reset, and the file of its board."""
        tree = Tree(seed, chipset=chipset)
        with closing(Machine(tree.words, kind=chipset.words)) as machine:
            reading = Reading(machine)
        file = self.room / f"tree{seed}.{chipset.bus}.toml"
        file.write_text(reading.text + guests_text(reading.text, seed))
        return tree, reading, file

    def boot_machine(self, seed, tree, firmware):
        """What the firmware leaves in QEMU."""
        machine = Machine(tree.words, firmware, tree.chipset.words)
        try:
            machine.wait(firmware)
            return registers(machine)
        finally:
            (self.room / f"tree{seed}.{tree.chipset.bus}.{firmware.name}.qemu.told").write_text(machine.told)
            machine.close()

    def compare(self, seed, comparison, chipset, *firmwares):
        """Boots firmwares on a tree beside a chipset, here and in QEMU."""
        tree, reading, file = self.read_tree(seed, chipset)
        for firmware in firmwares:
            theirs = self.boot_machine(seed, tree, firmware)
            left = self.boot(f"tree{seed}.{chipset.bus}", file, firmware)
            known = len(comparison.unnamed)
            comparison.add(reading.reset, theirs, left.cells)
            for line in comparison.unnamed[known:]:
                self.fail(f"{firmware.name} on tree{seed}.{chipset.bus}: {line}")
            at, before = chipset.isa_bridge, reading.reset[chipset.isa_bridge]
            found = {path: left.cells[place] for place, path in paths(left.cells).items()}
            if found.get(at, before)[0x40:] == before[0x40:]:
                self.fail(f"{firmware.name} on tree{seed}.{chipset.bus}: it writes nothing in the ISA bridge, {at}")


def examine(options, room):
    """The whole run: the number of failures."""
    run, comparison = Run(options, room), Comparison()
    for firmware in (SEABIOS, UBOOT):
        for name in BOARDS[firmware]:
            run.boot(name, run.own_board(name), firmware)
    kinds = [(options.trees, PC, SEABIOS, UBOOT), (options.q35, Q35, UBOOT)]
    for seed, chipset, *firmwares in ((options.seed + n, *how) for count, *how in kinds for n in range(count)):
        try:
            run.compare(seed, comparison, chipset, *firmwares)
        except MachineError as error:
            run.fail(f"tree{seed}.{chipset.bus}: {error}")
    comparison.tell()
    run.tell()
    named = sum(comparison.by_rule.values())
    print(f"trees {options.trees}, each with SeaBIOS and U-Boot, and {options.q35} with U-Boot in q35: functions {comparison.functions}, "
          f"bytes compared {comparison.bytes}, bytes that differ by rule {named}, "
          f"differences not named {len(comparison.unnamed)}, boots that failed {run.failed - len(comparison.unnamed)}")
    return run.failed


if __name__ == "__main__":
    with tempfile.TemporaryDirectory() as place:
        sys.exit(examine(options(__doc__, "program", "--keep", trees=30, q35=10, seed=1), place) > 0)
