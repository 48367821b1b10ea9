#!/usr/bin/python3 -B
"""Checks that SeaBIOS writes what examples/seabios/boot.script says, on the board next to it. With --record, writes that file's
lines to standard output instead. The status is 1 if they differ."""
import re
import sys
from contextlib import closing
from pathlib import Path

from board import LibraryBoard
from boot import SEABIOS
from pciguest._pc import PC

FOLDER = Path(__file__).resolve().parents[2] / "examples/seabios"


def config_writes(rows):
    """Writes to configuration space through the ports, each after the write to CONFIG_ADDRESS that selects the register."""
    selected = None
    for line, _ in rows:
        if line.startswith("host iw 0xcf8 "):
            selected = line
        elif re.match("host iw 0xcf[c-f] ", line):
            yield from filter(None, (selected, line))
            selected = None


def main():
    with closing(LibraryBoard(FOLDER / "board.toml")) as board:
        PC(board, Path(SEABIOS.rom).read_bytes(), SEABIOS.plain).boot(SEABIOS.ending)
        written = list(config_writes(board.board.rows))
    if "--record" in sys.argv:
        print(*written, sep="\n")
        return 0
    wanted = [line for line in (FOLDER / "boot.script").read_text().splitlines() if not line.startswith("#")]
    print(f"SeaBIOS on examples/seabios: {len(written)} writes, {'as' if written == wanted else 'NOT as'} recorded")
    return written != wanted


sys.exit(main())
