"""Random boards, and lines for them. They are drawn from choices, which come from Python's `random` with a
seed, or from Hypothesis, which can shrink them."""

from __future__ import annotations

import random
from typing import Any, Dict, List, NamedTuple, Protocol, Sequence, Tuple, TypeVar

from ._board_file import Document, Path, path_text

Item = TypeVar("Item")


class Choices(Protocol):
    """The choices that a drawing needs. Hypothesis shrinks them to the lowest number, the first item and the
    fewest items."""

    def number(self, least: int, greatest: int) -> int: ...
    def one_of(self, items: Sequence[Item]) -> Item: ...
    def some(self, items: Sequence[int], least: int, most: int) -> List[int]: ...


class RandomChoices:
    """Choices from a seed."""

    def __init__(self, seed: object) -> None:
        self.random = random.Random(str(seed))

    def number(self, least: int, greatest: int) -> int:
        return self.random.randint(least, greatest)

    def one_of(self, items: Sequence[Item]) -> Item:
        return self.random.choice(items)

    def some(self, items: Sequence[int], least: int, most: int) -> List[int]:
        """So many of the items, in order."""
        return sorted(self.random.sample(items, min(len(items), self.random.randint(least, most))))


class Apertures(NamedTuple):
    """The addresses that firmware may assign: the first and last of each space. Without `pref`, a board has no
    prefetchable aperture."""

    io: Tuple[int, int] = (0x1000, 0xFFFF)
    mem: Tuple[int, int] = (0x80000000, 0xFEBFFFFF)
    pref: Tuple[int, int] = (0, 0)

    def table(self) -> Dict[str, List[int]]:
        return {key: list(value) for key, value in self._asdict().items() if value[1]}


PLAIN = Apertures()
WIDE = Apertures(pref=(0x400000000, 0x7FFFFFFFFF))
PARTED = Apertures(mem=(0x80000000, 0xBFFFFFFF), pref=(0xC0000000, 0xFEBFFFFF))

#: Vendor IDs that firmware may mistake for an absent function, by the low byte of the Device ID
VENDORS = {1: 0x0000, 2: 0x0001, 3: 0xFFFE}
#: as real functions have it: 66 MHz, fast back-to-back and medium DEVSEL timing, and all that may be declared
FIXED_STATUS = [0x0200, 0x02A0, 0x0280, 0x0020, 0x06E0]
KINDS = ["mem32", "io", "mem32p", "mem64", "mem64p"]
SMALLEST = {"io": 4}
PATTERNS = ["", "ff", "f0", "0f", "55aa"]


class Above(NamedTuple):
    """What all bridges above a bus have in common: whether they have I/O windows, and how many address bits
    their prefetchable windows decode at least."""

    has_io: bool
    pref: int  # bits: 64 on bus 0, 0 if a bridge has none


class BoardDrawing:
    """Draws a board that fits its apertures with much room to spare, however it is placed."""

    def __init__(self, choices: Choices, bridges: int, apertures: Sequence[Apertures], last_device: int) -> None:
        self.choices, self.bridges, self.most_functions = choices, bridges, 60
        self.last_device = choices.one_of(sorted({min(last_device, 15), last_device}))
        self.apertures = choices.one_of(apertures)
        room = self.apertures.mem[1] - self.apertures.mem[0] + 1
        self.memory, self.io_buses = room // 8, (self.apertures.io[1] - self.apertures.io[0] + 1) // 0x1000 - 4
        self.endpoint_tables: List[Document] = []
        self.bridge_tables: List[Document] = []

    def percent(self, chance: int) -> bool:
        return self.choices.number(0, 99) >= 100 - chance

    def bus(self, above: Path, windows: Above) -> None:
        """The functions of one bus, and everything behind it."""
        for device in self.choices.some(range(self.last_device + 1), 0 if above else 1, 4):
            others = self.choices.some(range(1, 8), 1, 2) if self.percent(25) else []
            for function in [0, *others]:
                self.function(above + ((device, function),), windows)

    def function(self, path: Path, windows: Above) -> None:
        if len(self.endpoint_tables) + len(self.bridge_tables) >= self.most_functions:
            return
        if self.bridges and len(path) < 8 and self.percent(35):
            self.bridges -= 1
            self.bridge(path, windows)
        else:
            self.endpoint(path, windows)

    def identity(self, path: Path) -> Document:
        device = self.choices.number(0, 0xFFFF)
        found = {"at": path_text(path), "vendor": VENDORS.get(device & 0xFF, 0x1234), "device": device}
        return {**found, **self.odd_bits(path[-1][1])}

    def odd_bits(self, function: int) -> Document:
        """Read-only bits of Status, and in functions 1 to 7 a clear bit 7 of Header Type."""
        found: Document = {"multifunction": False} if function and self.percent(50) else {}
        return {**found, "fixed_status": self.choices.one_of(FIXED_STATUS)} if self.percent(20) else found

    def bridge(self, path: Path, windows: Above) -> None:
        """A bridge. An I/O window is drawn as long as there is room for one more unit of ports."""
        io = self.choices.one_of(["16", "none", "32"]) if windows.has_io and self.io_buses > 0 else "none"
        self.io_buses -= io != "none"
        pref = self.choices.one_of(["64", "none", "32"])
        self.bridge_tables.append({**self.identity(path), "io": io, "pref": pref})
        decode = min(windows.pref, 0 if pref == "none" else int(pref))
        self.bus(path, Above(io != "none", decode))

    def endpoint(self, path: Path, windows: Above) -> None:
        table: Document = {**self.identity(path), "class": self.choices.one_of([0xFF0000, 0x020000, 0x010802])}
        table["pin"] = self.choices.number(0, 4)
        if self.percent(30):
            table["status"] = self.choices.one_of([0xF900, 0x8000, 0x0100, 0x4900])
        bars, index = [], 0
        while index < 6:
            kind = self.choices.one_of([""] + KINDS)
            if kind and (windows.has_io or kind != "io") and (index < 5 or "64" not in kind):
                bars.append(self.region(index, kind, windows))
            index += 2 if "64" in kind else 1
        if bars:
            table["bar"] = bars
        if self.percent(20):
            table["config"] = [{"off": 0x40, "block": 16, **self.patterns()}]
        self.endpoint_tables.append(table)

    def region(self, index: int, kind: str, windows: Above) -> Document:
        """A region. It is small if it would nearly use up an aperture below 4 GB."""
        if kind == "io":
            size = 1 << self.choices.number(2, 8)
        else:
            is_high = kind == "mem64p" and windows.pref == 64 and self.apertures.pref[0] >= 1 << 32
            most = 33 if is_high and self.percent(10) else 24 if self.percent(30) else 16
            size = 1 << self.choices.number(4, most)
            if not is_high and size > self.memory // 8:
                size = 0x1000
            self.memory -= 0 if is_high else size
        return {"index": index, "kind": kind, "size": size, "block": min(size, 64), **self.patterns()}

    def patterns(self) -> Document:
        """Which bits of a block can be written, and its reset value."""
        found = {"rw": self.choices.one_of(PATTERNS), "reset": self.choices.one_of(PATTERNS)}
        return {key: value for key, value in found.items() if value}

    def guests(self) -> List[Document]:
        """Guests for some of the endpoints."""
        places = [table["at"] for table in self.endpoint_tables]
        chosen = self.choices.some(range(len(places)), 0, 8)
        parts = [(name, chosen[first::2]) for first, name in enumerate("ab")]
        return [{"name": name, "slots": [places[place] for place in part]} for name, part in parts if part]


def draw_board(
    choices: Choices, bridges: int = 6, apertures: Sequence[Apertures] = (PLAIN, WIDE, PARTED), guests: bool = True,
    last_device: int = 31
) -> Document:
    """A board with at most so many bridges and no device above `last_device`, which can be set up with room to spare."""
    drawing = BoardDrawing(choices, bridges, apertures, last_device)
    drawing.bus((), Above(True, 64))
    devices = {"devices": 32} if drawing.last_device > 15 else {}
    document: Dict[str, Any] = {"host": {**drawing.apertures.table(), **devices}}
    for key, tables in [("endpoint", drawing.endpoint_tables), ("bridge", drawing.bridge_tables)]:
        if tables:
            document[key] = tables
    given = drawing.guests() if guests else []
    return {**document, "guest": given} if given else document
