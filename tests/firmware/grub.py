#!/usr/bin/python3 -B
"""What GRUB leaves as firmware, as Debian's package grub-firmware-qemu has it, which sets up functions on bus 0 alone.

    grub.py

On a board without bridges all is ready. GRUB takes a bridge for an endpoint: it writes base addresses over the bridge's bus
numbers, so that on boards with bridges `ready` reports numbers that no firmware gives. Each run ends once GRUB is idle.
Status 1 says that one of these isn't so; the last line counts."""
import sys
import tomllib
from contextlib import closing
from pathlib import Path

from board import options
from pciguest._board_file import text_of
from pciguest._driven import Library
from pciguest._judge import findings
from pciguest._pc import PC, Idle
from pciguest._special import endpoint
from pciguest._special import board as board_of
from pciguest.rom_test import LineBoard
from trees import HOST

ROM = Path("/usr/share/qemu/grub.bin")
BOARDS = Path(__file__).resolve().parents[2] / "boards"
FLAT = board_of(endpoint("1.0", "mem32 4096", "io 32"), endpoint("2.0", "mem32p 0x100000"), endpoint("3.0", "io 256", "mem32 16"),
                endpoint("3.1", "mem32 0x1000000"))


def left_by_grub(document):
    """What `ready` reports once GRUB is idle, and what it wrote on the display."""
    with closing(Library().board(text_of({**document, "host": HOST}))) as driven:
        machine = PC(LineBoard(driven), ROM.read_bytes(), False)
        try:
            machine.boot(idle=2)
        except Idle:
            pass
        return findings(driven), machine.screen()


def main():
    options(__doc__)
    failed = 0
    for name in ("flat", "main", "server", "second_bridge"):
        document = FLAT if name == "flat" else tomllib.loads((BOARDS / f"{name}.toml").read_text())
        found, screen = left_by_grub(document)
        is_right = not found if name == "flat" else any("Primary Bus Number is" in line for line in found)
        print(f"{'' if is_right else 'FAILED: '}GRUB on {name}: {f'{len(found)} findings' if found else 'ready'}; display: {screen!r}",
              *found[-1:], sep="\n  ", flush=True)
        failed += not is_right
    print(f"boards 4, failures {failed}")
    sys.exit(failed > 0)


if __name__ == "__main__":
    main()
