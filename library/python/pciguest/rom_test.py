"""Runs a ROM in a small PC on boards, and reports what is wrong there afterwards.

    python3 -m pciguest.rom_test ROM [--board FILE].. [--ending TEXT] [--idle SECONDS] [--time SECONDS] [--old] [--io|--mem|--pref FIRST-LAST]
                                 [--program PROGRAM | --lines]

The PC has a 32-bit processor (the Unicorn engine, Debian's python3-unicorn), 128 MB of memory, a timer, clock
memory, interrupt masks, a console at ports 3F8h and 402h, and a display's text memory at B8000h. The ROM is
below 4 GB, and its last 256 KB are also below 1 MB. All other ports and addresses belong to the board. Without
--board, the ROM runs on six boards from the directory `boards`, one after the other. The ROM may assign the
addresses of such a PC, 1000h to FFFFh and 80000000h to FEBFFFFFh, unless others are given.

A boot ends when the console has printed the text of --ending, when the processor halts with interrupts
disabled, or after --time (30 seconds). Without --ending, it also ends when configuration space wasn't accessed
for some time (--idle, 5 seconds). For the first thing that is wrong or left to do, the board is asked why.
--old selects a processor without a time stamp counter and without an APIC. With --lines, the ROM makes its
accesses through standard input and output, and the console is written to standard error:
`pciguest-firmware-test .. -- python3 -m pciguest.rom_test --lines ROM ..` runs the ROM on all boards. The exit
status is 1 if a boot fails or a board isn't ready, and 2 if the ROM or the arguments can't be used.
"""

from __future__ import annotations

import argparse
import sys
from contextlib import closing
from pathlib import Path
from typing import List, Optional, Tuple, Union

from ._board_file import APERTURES, text_of
from ._child import KEPT
from ._chipset import BoardError
from ._drawing import PLAIN, Apertures
from ._driven import DrivenBoard, Library, Maker, Program, ProgramFailed
from ._files import told_whole
from ._judge import findings
from ._reasons import reasons
from ._toml import document_of
from .firmware_test import aperture, example_files

try:
    from ._pc import PC, BootError, Halted, Idle, NotDone, TooWide
except ImportError:
    sys.exit("the Unicorn engine for this Python is missing. On Debian: apt-get install python3-unicorn")


class Spoken:
    """The board at the other end of standard input and output. The ROM is firmware that writes lines."""

    def run_line(self, line: str) -> Optional[str]:
        print(line, flush=True)
        return sys.stdin.readline().rstrip("\n")


class LineBoard:
    """A board that the PC accesses by firmware lines, which are counted."""

    def __init__(self, driven: Union[DrivenBoard, Spoken]) -> None:
        self.driven, self.count = driven, 0

    def ask(self, line: str) -> str:
        reply, self.count = self.driven.run_line(f"host {line}") or "", self.count + 1
        if " refused " in reply:
            raise BoardError(f"{line}: {reply}")
        return reply

    def port_read(self, port: int, width: int) -> int:
        return int(self.ask(f"ir {port:#x} {width}")[6:], 16)

    def port_write(self, port: int, width: int, value: int) -> None:
        self.ask(f"iw {port:#x} {width} {value:#x}")

    def memory_read(self, address: int, width: int) -> int:
        return int(self.ask(f"mr {address:#x} {width}")[6:], 16)

    def memory_write(self, address: int, width: int, value: int) -> None:
        self.ask(f"mw {address:#x} {width} {value:#x}")


def boot(machine: PC, options: argparse.Namespace) -> Tuple[str, bool]:
    """Boots a PC. Returns how the boot ended, and whether that is an error."""
    ending = options.ending
    try:
        machine.boot(*[ending] if ending else [], patience=options.time, idle=None if ending else options.idle)
    except (Halted, Idle, NotDone) as end:
        return str(end), bool(ending)
    except TooWide:
        raise
    except (BootError, BoardError) as error:
        return str(error), True
    return "done", False


def examine(rom: bytes, file: Path, options: argparse.Namespace, maker: Maker) -> bool:
    """Boots the ROM on the board of a file, and prints the result. Returns whether anything is wrong."""
    given = Apertures(options.io, options.mem, options.pref)
    document = document_of(file.read_text())
    own = {key: value for key, value in document["host"].items() if key not in APERTURES}
    document = {**document, "host": {**given.table(), **own}}
    with closing(maker.board(text_of(document))) as driven:
        lines = LineBoard(driven)
        machine = PC(lines, rom, options.old)
        ended, is_wrong = boot(machine, options)
        found = findings(driven)
        why = reasons(driven, document, found[0]) if found else []
    words = [line.strip() for line in machine.told.splitlines() if line.strip()]
    print(f"{file.name}: {ended}, after {lines.count} accesses; console: {words[-1] if words else 'nothing'}")
    print(*(f"  | {line}\n" for line in machine.screen().splitlines()), sep="", end="")
    print(*(f"  {line}" for line in [*found, *why] or ["ready"]), sep="\n", flush=True)
    return is_wrong or bool(found)


def speak(rom: bytes, options: argparse.Namespace) -> int:
    """Boots the ROM on the board at the other end of standard input and output."""
    machine = PC(LineBoard(Spoken()), rom, options.old)
    ended, is_wrong = boot(machine, options)
    print(machine.told[-KEPT:], machine.screen(), ended, sep="\n", file=sys.stderr)
    return int(is_wrong)


def parser() -> argparse.ArgumentParser:
    words = argparse.ArgumentParser(prog="python3 -m pciguest.rom_test", description=(__doc__ or "").split("\n\n")[0])
    words.add_argument("rom", type=Path, help="the ROM, a file")
    words.add_argument("--board", type=Path, action="append", help="run the ROM on this board file")
    words.add_argument("--ending", help="the text that the console prints last")
    words.add_argument("--idle", type=float, default=5, help="seconds without an access to configuration space that end a boot "
                       "without --ending (5)")
    words.add_argument("--time", type=float, default=30, help="longest time for a boot, in seconds (30)")
    words.add_argument("--old", action="store_true", help="a processor without a time stamp counter and without an APIC")
    words.add_argument("--lines", action="store_true", help="make the accesses through standard input and output")
    for name, value in PLAIN._asdict().items():
        words.add_argument(f"--{name}", type=aperture, default=value, help="addresses that the ROM may assign")
    words.add_argument("--program", help="use this pciguest program instead of the library")
    return words


def read_rom(file: Path) -> bytes:
    rom = file.read_bytes()
    if not 0 < len(rom) <= 16 << 20 or len(rom) % 4096:
        raise ValueError(f"{file}: {len(rom)} bytes; the size of a ROM must be a multiple of 4 KB, at most 16 MB")
    return rom


def main(given: Optional[List[str]] = None) -> int:
    options = parser().parse_args(given)
    maker: Maker = Library()
    if options.program:
        maker = Program(options.program)
    try:
        rom, files = read_rom(options.rom), options.board or example_files()
        if options.lines:
            return speak(rom, options)
        wrong = [examine(rom, file, options, maker) for file in files]
    except TooWide as error:
        print(f"{options.rom}: {error}; QEMU has it, where `make peers` of the repository boots EDK2", file=sys.stderr)
        return 2
    except BrokenPipeError:
        raise
    except OSError as error:
        print(f"{error.filename}: {error.strerror}", file=sys.stderr)
        return 2
    except (ValueError, ProgramFailed) as error:
        print(error, file=sys.stderr)
        return 2
    print(f"boards {len(files)}: ready {wrong.count(False)}")
    return int(any(wrong))


if __name__ == "__main__":
    sys.exit(told_whole(main))
