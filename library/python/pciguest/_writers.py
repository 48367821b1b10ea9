"""Which line wrote what a finding names: the line that last wrote each register, and the line that last looked
for a function that was never found."""

from __future__ import annotations

import re
from contextlib import closing
from typing import Dict, Iterator, List, NamedTuple, Optional, Set, Tuple

from ._board_file import Document, Function, functions, path_of, path_text
from ._driven import DrivenBoard, Maker
from ._follow import Access, Follower

#: the bytes of registers, by name
COMMAND = ("Command", range(0x04, 0x06))
STATUS = {"Status": ("Status", range(0x06, 0x08)), "Secondary": ("Secondary Status", range(0x1E, 0x20))}
NUMBERS = [("Primary", range(0x18, 0x19)), ("Secondary", range(0x19, 0x1A)), ("Subordinate", range(0x1A, 0x1B))]
IO_WINDOW = [("I/O Base", range(0x1C, 0x1D)), ("I/O Limit", range(0x1D, 0x1E)), ("I/O Upper 16 Bits", range(0x30, 0x34))]
MEMORY_WINDOW = [("Memory Base", range(0x20, 0x22)), ("Memory Limit", range(0x22, 0x24))]
PREFETCHABLE_WINDOW = [
    ("Prefetchable Base", range(0x24, 0x26)), ("Prefetchable Limit", range(0x26, 0x28)),
    ("Prefetchable Base Upper", range(0x28, 0x2C)), ("Prefetchable Limit Upper", range(0x2C, 0x30)),
]
Register = Tuple[str, range]
NAMED = re.compile(r"(?P<path>\d+\.\d(?:/\d+\.\d)*)(?: bar(?P<register>\d))?(?=[ :,]|$)")

#: the register that a finding about the end names
ENDING = re.compile(r"^(master|left): .* \((?P<name>[\w /]+) at (?P<offset>0x\w+): ")


class Line(NamedTuple):
    """A line of firmware, and its place among them, from 1 on."""

    place: int
    text: str


class Story:
    """What the firmware lines did: which line last wrote each byte, which functions responded, and which line
    last looked for a function that never did."""

    def __init__(self, board: DrivenBoard, document: Document) -> None:
        self.follower, self.every = Follower(board), functions(document)
        self.last: Dict[Tuple[str, int], Line] = {}
        self.found: Set[str] = set()
        self.asked: Dict[str, Tuple[Line, str]] = {}
        self.secondary: Dict[str, int] = {"": 0}

    def add(self, line: Line) -> None:
        access = self.follower.access(line.text)
        at = self.follower.reached(access.number) if access else None
        if access and at:
            self.found.add(at)
            for offset in range(access.offset, access.offset + access.width) if access.value is not None else ():
                self.last[at, offset] = line
            if access.value is not None and access.touches(NUMBERS[1][1]):
                self.secondary[at] = access.byte(0x19)
        elif access:
            self.asked.update({one.at: (line, access.number) for one in self.every if self.is_meant(one, access)})

    def is_meant(self, one: Function, access: Access) -> bool:
        """Whether an access that reaches nothing was meant for a function: whether its BDF has the number of
        the function's bus."""
        bus, (device, function) = self.secondary.get(path_text(one.path[:-1])), one.path[-1]
        return bus is not None and access.number == f"{bus:02x}:{device:02x}.{function}"

    def unfound(self, path: str) -> Optional[str]:
        """The first bridge on the way to a function, or the function itself, that was never found."""
        parts = path_of(path)
        way = (path_text(parts[: length + 1]) for length in range(len(parts)))
        return next((at for at in way if at not in self.found), None)


def registers_of(document: Document, finding: str) -> Iterator[Tuple[str, List[Register]]]:
    """The functions that a finding names, each with the registers that cause it."""
    by_path = {one.at: one for one in functions(document)}
    is_io, words = "I/O" in finding, finding.partition(": ")[2]
    for named in NAMED.finditer(words):
        one, register = by_path.get(named["path"]), named["register"]
        if one is None:
            continue
        region = next((each for each in one.regions() if register and each.index == int(register)), None)
        if region:
            is_io = region.is_io
            first = 0x10 + 4 * region.index
            upper = [(f"bar{region.index} upper half", range(first + 4, first + 8))] if region.is_64_bit else []
            yield one.at, [(f"bar{region.index}", range(first, first + 4)), *upper, COMMAND]
        elif found := ENDING.search(finding):
            yield one.at, [(found["name"], range(int(found["offset"], 16), int(found["offset"], 16) + 2))]
        elif finding.startswith("status: "):
            yield one.at, [STATUS["Secondary" if "Secondary Status" in finding else "Status"]]
        elif one.is_bridge and "configuration cycle" not in finding:
            yield one.at, NUMBERS[:1] if "Primary Bus Number is" in finding else [*windows(one, is_io), COMMAND]
    if "configuration cycle" in finding:
        parts = path_of(words.partition(":")[0])
        yield from ((path_text(parts[:length]), NUMBERS[1:]) for length in range(1, len(parts)))


def windows(bridge: Function, is_io: bool) -> List[Register]:
    """The registers of a bridge's windows in a space."""
    if is_io:
        return IO_WINDOW[: 3 if bridge.table["io"] == "32" else 2]
    return MEMORY_WINDOW + PREFETCHABLE_WINDOW[: {"none": 0, "32": 2, "64": 4}[bridge.table["pref"]]]


def writers(story: Story, document: Document, finding: str, count: int) -> Iterator[str]:
    """A line for each register that a finding names, or for several registers that one line wrote."""
    for at, registers in registers_of(document, finding):
        by_line: Dict[Optional[Line], List[str]] = {}
        for name, bytes_of in registers:
            lines = [story.last[at, offset] for offset in bytes_of if (at, offset) in story.last]
            by_line.setdefault(max(lines, default=None), []).append(name)
        for line, names in by_line.items():
            told = f"last written by line {line.place} of {count}: {line.text}" if line else "never written"
            yield f"{at} {', '.join(names)}: {told}"


def story_of(maker: Maker, text: str, document: Document, lines: List[str]) -> Story:
    """What some lines did on a board in its reset state."""
    with closing(maker.board(text)) as board:
        story = Story(board, document)
        for place, line in enumerate(lines, 1):
            board.run_line(line)
            story.add(Line(place, line))
    return story


def why_unfound(maker: Maker, text: str, lines: List[str], at: str, asked: Optional[Tuple[Line, str]]) -> List[str]:
    """Why a function was never found, according to the line that last looked for it."""
    if asked is None:
        return [f"the firmware never finds {at}, and never looks for it"]
    (place, line), number = asked
    with closing(maker.board(text)) as board:
        for each in lines[:place]:
            board.run_line(each)
        reply = board.run_line(f"host why cfg {number}") or ""
    return [f"the firmware never finds {at}; it last looks for it at line {place} of {len(lines)}: {line}",
            f"host why cfg {number}", *reply.splitlines()]
