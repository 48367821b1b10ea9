"""Why a finding exists: the line `host why ..` for the first address or BDF that it contains, and the board's
reply."""

from __future__ import annotations

import re
from typing import List, Optional

from ._board_file import Document, functions, path_of, path_text
from ._driven import DrivenBoard
from ._judge import TRANSIENTS, kind_of

REGION = re.compile(r"\w+: (?P<path>\S+) bar(?P<register>\d) at (?P<base>0x[0-9a-f]+) size 0x[0-9a-f]+")
CONFLICT = re.compile(r"\w+: (?P<both>(?P<path>[\d./]+).*): address conflict at (?P<address>.*)")
SIZED = re.compile(r"sizing: (?P<number>\S+) bar(?P<register>\d): .* while (?P<space>\S+) decode")
WORDS = {"I/O": "io", "memory": "mem"}


def reasons(board: DrivenBoard, document: Document, finding: str) -> List[str]:
    """The line that asks why, and all lines of the reply, for the board's current registers. Changes nothing on
    the board except CONFIG_ADDRESS."""
    line = question(board, document, finding)
    if line is None:
        return []
    told = (board.run_line(line) or "").splitlines()
    found = CONFLICT.match(finding)
    if found is None or "nothing responds" not in told[0]:
        return [line, *told]
    bridge = path_text(path_of(found["path"])[:-1])
    return [line, *told, f"the conflict is on the bus behind bridge {bridge}, where no access by the host gets: "
                         f"{found['both']} respond to {found['address']} there"]


def question(board: DrivenBoard, document: Document, finding: str) -> Optional[str]:
    """The line that asks about the first address in a finding, or else about its BDF."""
    if found := re.search(r"address conflict at (I/O|memory) (\S+)", finding):
        return f"host why {WORDS[found[1]]} {found[2]}"
    if found := re.search(r"a configuration cycle to (\S+) reaches", finding):
        return f"host why cfg {found[1]}"
    if found := re.search(r"(\S+): Primary Bus Number is .* on bus (\w\w)", finding):
        device, function = path_of(found[1])[-1]
        return f"host why cfg {found[2]}:{device:02x}.{function}"
    if found := SIZED.match(finding):
        return f"host why {WORDS[found['space']]} {base(board, found['number'], int(found['register'])):#x}"
    if found := re.search(r"(I/O|memory) decode is enabled .*, as at reset", finding):
        return f"host why {WORDS[found[1]]} 0x0"
    if found := REGION.match(finding):
        address = None if kind_of(finding) in TRANSIENTS else re.search(r"0x[0-9a-f]+", finding[found.end() :])
        space = space_of(document, found["path"], int(found["register"]))
        return f"host why {space} {address[0] if address else found['base']}"
    return None


def space_of(document: Document, path: str, register: int) -> str:
    """The word for the space of a declared region."""
    declared = (one.regions() for one in functions(document) if one.at == path)
    return "io" if any(region.index == register and region.is_io for regions in declared for region in regions) else "mem"


def base(board: DrivenBoard, number: str, register: int) -> int:
    """The address in a function's base address register."""

    def word(offset: int) -> int:
        return int((board.run_line(f"host cr {number} {offset:#x} 4") or "").split()[-1], 16)

    low = word(0x10 + 4 * register)
    if low & 1:
        return low & ~3
    return low & ~15 | (word(0x14 + 4 * register) << 32 if low & 6 == 4 else 0)
