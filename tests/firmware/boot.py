"""Boots a firmware over the board of a file, and looks at what it left there."""
import tomllib
from pathlib import Path
from typing import NamedTuple

from board import BoardError, LibraryBoard, paths, registers
from guests import Given
from pciguest._pc import PC, BootError
from shown import Shown


class Firmware(NamedTuple):
    """A firmware of Debian: its ROM, the last words of its console, and what is typed where it waits."""

    name: str
    rom: str
    ending: str
    prompts: tuple
    plain: bool  # for a processor without time stamps and APIC


SEABIOS = Firmware("SeaBIOS", "/usr/share/seabios/bios-256k.bin", "No bootable device", (), True)
UBOOT = Firmware("U-Boot", "/usr/lib/u-boot/qemu-x86/u-boot.rom", "\n=> ", (("stop autoboot: ", "\r"),), False)


class Left(NamedTuple):
    """What a boot left: each function's 256 bytes, regions that answer at their place, all that is wrong, what an audit
    says and what `ready` says, and what came of giving the board to the guests of its file."""

    cells: dict
    answering: int
    wrong: list
    accesses: int
    told: str
    audit: list
    ready: list
    given: Given


def boot(program, file, firmware):
    """Boots the firmware over the board of a file. A boot that doesn't end, or an access that is refused, is wrong."""
    declared = tomllib.loads(Path(file).read_text())
    board = LibraryBoard(file)
    pc = PC(board, Path(firmware.rom).read_bytes(), firmware.plain)
    pc.prompts = dict(firmware.prompts)
    try:
        pc.boot(firmware.ending)
        accesses, audit, ready = len(board.board.rows), *(board.told(program, command) for command in ("audit", "ready"))
        cells = registers(board)
        shown = Shown(board.board, declared)
        answered, wrong = shown.answering()
        wrong += shown.untrue(ready)
        given = Given(program, file, board.board, audit, ready)
    except (BoardError, BootError, OSError) as error:
        return Left({}, 0, [str(error)], len(board.board.rows), pc.told, [], [], None)
    finally:
        board.close()
    expected = {entry["at"] for key in ("endpoint", "bridge") for entry in declared.get(key, [])}
    wrong += [f"{path} isn't found" for path in sorted(expected - set(paths(cells).values()))]
    return Left(cells, answered, wrong + given.wrong, accesses, pc.told, audit, ready, given)
