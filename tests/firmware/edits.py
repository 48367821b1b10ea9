#!/usr/bin/python3 -B
"""Does the comparison of firmware.py notice a board that is not the tree of QEMU? A board file is edited in one place.

    edits.py PROGRAM [--seed S]

SeaBIOS boots on a random tree in QEMU, and here on the tree's board with each edit. Without an edit nothing may be
noticed. Status 1 says that something was, or that an edit finds nothing to change in this tree."""
import re
import sys
import tempfile

from board import options
from boot import SEABIOS, boot
from firmware import Run
from rules import Comparison


def doubled(match):
    return f"{match[1]}{2 * int(match[2], 16):#x}"


# what is changed, a pattern of the board file, and what stands there instead, once
EDITS = [
    ("a prefetchable window of 32 bits", r'pref = "64"', 'pref = "32"'),
    ("an I/O window of 32 bits", r'io = "16"', 'io = "32"'),
    ("no I/O window", r'io = "16"', 'io = "none"'),
    ("a memory region of twice the size", r'("mem32", size = )(0x[0-9a-f]+)', doubled),
    ("an I/O region of twice the size", r'("io", size = )(0x[0-9a-f]{1,2})\b', doubled),
    ("a region that is prefetchable", r'"mem32"', '"mem32p"'),
    ("a region of 32 bits in place of 64", r'"mem64p"', '"mem32p"'),
    ("another pin", r"pin = 0x1\b", "pin = 0x2"),
    ("own cells that can't be written", r'rw = "[0-9a-f]{384}"', 'rw = "00"'),
    ("no read-only bits of Status", r"fixed_status = 0x[0-9a-f]+", "fixed_status = 0x0"),
    ("bit 7 of Header Type set in a function 1 to 7", r"multifunction = false\n", ""),
    ("another revision", r"revision = 0x[0-9a-f]+", "revision = 0x77"),
    ("another class code", r"class = 0xff00", "class = 0xff01"),
]


def differences(program, file, reset, theirs):
    left = boot(program, str(file), SEABIOS)
    comparison = Comparison()
    comparison.add(reset, theirs, left.cells)
    return len(comparison.unnamed)


def main():
    chosen, wrong, noticed = options(__doc__, "program", "--keep", seed=2), 0, 0
    with tempfile.TemporaryDirectory() as room:
        run = Run(chosen, room)
        tree, reading, file = run.read_tree(chosen.seed)
        theirs = run.boot_machine(chosen.seed, tree, SEABIOS)
        if differences(run.program, file, reading.reset, theirs):
            print("FAILED: something is noticed without an edit")
            wrong += 1
        for name, pattern, instead in EDITS:
            text = re.sub(pattern, instead, reading.text, count=1)
            file.write_text(text)
            count = differences(run.program, file, reading.reset, theirs)
            noticed += count > 0
            print(f"{name}: {f'noticed, {count} differences' if count else 'not noticed'}", flush=True)
            if text == reading.text:
                print(f"FAILED: this tree has nothing for '{name}'")
                wrong += 1
    print(f"edits {len(EDITS)}, noticed {noticed}")
    sys.exit(wrong > 0)


if __name__ == "__main__":
    main()
