"""Boards that barely fit their apertures, and boards that don't fit: apertures are cut and regions are added,
as long as set-up finds room."""

from __future__ import annotations

from typing import Callable, Dict, List, Optional, Sequence

from ._board_file import Document, Path, apertures, devices, functions, path_of, path_text
from ._drawing import Choices

Refusal = Callable[[Document], Optional[int]]

UNITS = {"io": 0x1000, "mem": 0x100000, "pref": 0x100000}
#: the number with which set-up refuses a board that doesn't fit an aperture
TOO_SMALL = {"io": 203, "mem": 204, "pref": 205}
#: the Device ID of added functions
ADDED = 0xADD0
SIZES = {"io": (4, 256), "mem": (16, 1 << 31), "pref": (16, 1 << 40)}


def kind_in(document: Document, key: str) -> str:
    """The kind of region that is placed in an aperture when it is on bus 0."""
    if key != "pref":
        return "io" if key == "io" else "mem32"
    return "mem64p" if document["host"]["pref"][0] >> 32 else "mem32p"


def with_aperture(document: Document, key: str, units: int) -> Document:
    """The board with an aperture of so many units, at the same first address."""
    first = document["host"][key][0]
    return {**document, "host": {**document["host"], key: [first, first + units * UNITS[key] - 1]}}


def halved(document: Document) -> Document:
    """The board with half of each aperture."""
    for key, (first, last) in apertures(document).items():
        document = with_aperture(document, key, max(1, (last + 1 - first) // UNITS[key] // 2))
    return document


def widened(document: Document) -> Document:
    """The board with wide apertures, each where it can be: prefetchable memory is where it was, below 4 GB or above."""
    wide = {"io": [0x1000, 0xFFFF], "mem": [0x80000000, 0xFFFFFFFF], "pref": [1 << 40, (1 << 50) - 1]}
    if not document["host"].get("pref", [1 << 32])[0] >> 32:
        wide = {**wide, "mem": [0x40000000, 0xBFFFFFFF], "pref": [0xC0000000, 0xFFFFFFFF]}
    return {**document, "host": {key: wide.get(key, value) for key, value in document["host"].items()}}


def cut(document: Document, key: str, refusal: Refusal) -> Document:
    """The board with the smallest aperture with which it can be set up."""
    first, last = document["host"][key]
    least, enough = 1, (last + 1 - first) // UNITS[key]
    while least < enough:
        middle = (least + enough) // 2
        if refusal(with_aperture(document, key, middle)) is None:
            enough = middle
        else:
            least = middle + 1
    return with_aperture(document, key, enough)


def with_region(document: Document, bus: Path, kind: str, size: int) -> Optional[Document]:
    """The board with one more region on a bus, in the last function that was added there, or in a new device
    with the lowest free number. None if there is no such device."""
    endpoints, width = document.get("endpoint", []), 2 if "64" in kind else 1
    for place, table in enumerate(endpoints):
        end = sum(2 if "64" in bar["kind"] else 1 for bar in table.get("bar", []))
        if table["device"] == ADDED and path_of(table["at"])[:-1] == bus and end + width <= 6:
            more = {**table, "bar": [*table["bar"], {"index": end, "kind": kind, "size": size}]}
            return {**document, "endpoint": [*endpoints[:place], more, *endpoints[place + 1 :]]}
    taken = {one.path[-1][0] for one in functions(document) if one.path[:-1] == bus}
    free = next((device for device in range(devices(document)) if device not in taken), None)
    if free is None:
        return None
    new = {"at": path_text((*bus, (free, 0))), "vendor": 0x1234, "device": ADDED, "class": 0xFF0000,
           "bar": [{"index": 0, "kind": kind, "size": size}]}
    return {**document, "endpoint": [*endpoints, new]}


def filled(document: Document, bus: Path, key: str, refusal: Refusal) -> Document:
    """The board with more regions on a bus, largest first, until no region fits into an aperture."""
    kind, (first, last) = kind_in(document, key), document["host"][key]
    least, size = SIZES[key]
    while size > last + 1 - first:
        size //= 2
    while size >= least:
        more = with_region(document, bus, kind, size)
        if more and refusal(more) is None:
            document = more
        else:
            size //= 2
    return document


def tight(document: Document, given: Sequence[str], choices: Choices, refusal: Refusal) -> Document:
    """The board with no room left on bus 0 and on some buses behind bridges. Given apertures aren't changed,
    and are filled only with memory, because ports would need hundreds of regions."""
    for key in apertures(document):
        if key not in given:
            document = cut(document, key, refusal)
    bridges = [one.path for one in functions(document) if one.is_bridge]
    chosen = choices.some(range(len(bridges)), 0, 2)
    for bus in [*(bridges[place] for place in chosen), ()]:
        for key in apertures(document):
            if key not in given or key == "mem":
                document = filled(document, bus, key, refusal)
    return document


def too_small(document: Document, choices: Choices, refusal: Refusal) -> Optional[Document]:
    """A tight board with more regions than fit into one of its apertures. None if one more region always fits."""
    keys: List[str] = sorted(apertures(document))
    first = choices.number(0, len(keys) - 1)
    sizes: Dict[str, int] = {key: min(UNITS[key], SIZES[key][1]) for key in keys}
    for key in keys[first:] + keys[:first]:
        more: Optional[Document] = document
        for _ in range(4):
            more = with_region(more, (), kind_in(document, key), sizes[key]) if more else None
            if more and refusal(more) == TOO_SMALL[key]:
                return more
    return None
