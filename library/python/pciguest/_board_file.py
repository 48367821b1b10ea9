"""Board files as documents: what `tomllib` makes of a board file, and the text for it. docs/board-file.md
explains the keys."""

from __future__ import annotations

from typing import Any, Dict, Iterator, List, NamedTuple, Tuple

#: a board file as dictionaries and lists
Document = Dict[str, Any]
#: device and function on each bus, from bus 0 down
Path = Tuple[Tuple[int, int], ...]

#: the keys of a host that are apertures
APERTURES = ("io", "mem", "pref")
HEXADECIMAL = {"vendor", "device", "revision", "class", "subvendor", "subsystem", "status", "fixed_status", "fixed_secondary_status", "size", "off"}


class Region(NamedTuple):
    """A declared region of an endpoint."""

    index: int  # type: ignore[assignment]  # tuples have a method of this name
    kind: str
    size: int

    @property
    def is_io(self) -> bool:
        return self.kind == "io"

    @property
    def is_64_bit(self) -> bool:
        return self.kind.startswith("mem64")

    @property
    def is_prefetchable(self) -> bool:
        return self.kind.endswith("p")


class Function(NamedTuple):
    """A declared endpoint or bridge: its table, and the path as a text and as numbers."""

    at: str
    path: Path
    is_bridge: bool
    table: Document

    def regions(self) -> List[Region]:
        """In the order of their registers."""
        bars = self.table.get("bar", [])
        return sorted(Region(bar["index"], bar["kind"], bar["size"]) for bar in bars)


def apertures(document: Document) -> Dict[str, List[int]]:
    """The first and last address of each aperture of a board."""
    return {key: value for key, value in document["host"].items() if key in APERTURES}


def devices(document: Document) -> int:
    """How many devices a bus of a board may have."""
    return document["host"].get("devices", 16)  # type: ignore[no-any-return]


def path_of(text: str) -> Path:
    """The text of a path, such as 2.0/1.0."""
    parts = (part.split(".") for part in text.split("/"))
    return tuple((int(device), int(function)) for device, function in parts)


def path_text(path: Path) -> str:
    return "/".join(f"{device}.{function}" for device, function in path)


def functions(document: Document) -> List[Function]:
    """All functions of a board, in path order: a bridge comes before everything behind it."""
    found = [
        Function(table["at"], path_of(table["at"]), kind == "bridge", table)
        for kind in ("endpoint", "bridge")
        for table in document.get(kind, [])
    ]
    return sorted(found, key=lambda function: function.path)


def bridges_above(every: List[Function]) -> Dict[str, List[Function]]:
    """For the path of each of these functions, the bridges between bus 0 and the function, starting at bus 0."""
    by_path = {function.path: function for function in every}
    return {one.at: [by_path[one.path[:length]] for length in range(1, len(one.path))] for one in every}


def _value(key: str, value: Any) -> str:
    if isinstance(value, bool):
        return str(value).lower()
    if isinstance(value, str):
        return f'"{value}"'
    if isinstance(value, dict):
        return "{ " + ", ".join(f"{each} = {_value(each, inner)}" for each, inner in value.items()) + " }"
    if isinstance(value, list):
        if value and isinstance(value[0], dict):
            return "[\n" + "".join(f"  {_value(key, each)},\n" for each in value) + "]"
        return "[" + ", ".join(_value(key, each) for each in value) + "]"
    return f"{value:#x}" if key in HEXADECIMAL or key in APERTURES else str(value)


def _table(table: Document) -> Iterator[str]:
    for key, value in table.items():
        yield f"{key} = {_value(key, value)}\n"


def text_of(document: Document) -> str:
    """The board file of a document, with its functions in path order."""
    lines = ["[host]\n", *_table(document["host"])]
    for function in functions(document):
        lines += ["\n[[bridge]]\n" if function.is_bridge else "\n[[endpoint]]\n", *_table(function.table)]
    for guest in document.get("guest", []):
        lines += ["\n[[guest]]\n", *_table(guest)]
    return "".join(lines)
