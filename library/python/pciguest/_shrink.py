"""Makes a board smaller, as long as something remains true of it."""

from __future__ import annotations

import copy
import json
import time
from functools import partial
from typing import Callable, Iterator, List, Set

from ._board_file import Document, Function, Path, functions, path_of, path_text

#: the keys that a function needs, or that get simpler values; any other key is removed
KEPT = ["at", "vendor", "device", "class", "io", "pref", "bar"]
OPTIONAL_OF_REGION = ["block", "reset", "rw", "w1c"]
LEAST = {"io": 4}
#: if there are more devices than this, whole parts are left out first
LARGE = 32
PLAIN_VALUES = {"vendor": 0x1234, "device": 1, "class": 0xFF0000}


def moved(document: Document, places: Callable[[Path], Path | None]) -> Document:
    """The board with each function at another path, or without the function if the path is None. Guests are
    left out."""
    tables = {}
    for kind in ("endpoint", "bridge"):
        kept = [(places(path_of(table["at"])), table) for table in document.get(kind, [])]
        tables[kind] = [{**table, "at": path_text(path)} for path, table in kept if path]
    return {"host": document["host"], **{kind: found for kind, found in tables.items() if found}}


def without_guests(document: Document) -> Iterator[Document]:
    if "guest" in document:
        yield {key: value for key, value in document.items() if key != "guest"}


def with_fewer_functions(document: Document) -> Iterator[Document]:
    """The board without everything behind a bridge or in a device; without a device; or without a function."""
    every = functions(document)
    parents = [bridge.path for bridge in every if bridge.is_bridge]
    devices = sorted({(one.path[:-1], one.path[-1][0]) for one in every}, key=lambda one: len(one[0]))
    for above, device in devices:
        yield moved(document, lambda path: None if path[: len(above)] == above and len(path) > len(above)
                    and path[len(above)][0] == device else path)
    for parent in parents:
        yield moved(document, lambda path: None if len(path) > len(parent) and path[: len(parent)] == parent else path)
    for one in every:
        if one.path[-1][1]:
            yield moved(document, lambda path: None if path[: len(one.path)] == one.path else path)


def closer(document: Document) -> Iterator[Document]:
    """The board with something from behind a bridge in place of the bridge: one device, with everything behind
    it."""
    every = functions(document)
    for bridge in every:
        depth = len(bridge.path)
        behind = sorted({one.path[depth][0] for one in every if one.path[:depth] == bridge.path and len(one.path) > depth})
        for device in behind:
            yield moved(document, lambda path: lifted(path, bridge, device))


def lifted(path: Path, bridge: Function, device: int) -> Path | None:
    """The new path of a function when a device behind a bridge replaces the bridge's device."""
    depth, here = len(bridge.path), bridge.path[-1][0]
    if path[:depth] == bridge.path and len(path) > depth and path[depth][0] == device:
        return (*bridge.path[:-1], (here, path[depth][1]), *path[depth + 1 :])
    is_of_device = path[: depth - 1] == bridge.path[:-1] and len(path) >= depth and path[depth - 1][0] == here
    return None if is_of_device else path


def at_lower_places(document: Document) -> Iterator[Document]:
    """The board with the lowest free device and function numbers on each bus: device 0, or 1 on bus 0."""
    for one in functions(document):
        depth, (device, function) = len(one.path), one.path[-1]
        taken = {other.path[-1] for other in functions(document) if other.path[:-1] == one.path[:-1]}
        free = next(each for each in range(depth == 1, 33) if each == device or (each, 0) not in taken)
        if function == 0 and free < device:
            yield moved(document, lambda path: path if path[: depth - 1] != one.path[:-1] or len(path) < depth
                        or path[depth - 1][0] != device else (*path[: depth - 1], (free, path[depth - 1][1]), *path[depth:]))
        if function and (device, function - 1) not in taken:
            yield moved(document, lambda path: path if path[:depth] != one.path
                        else (*path[: depth - 1], (device, function - 1), *path[depth:]))


def with_simpler_tables(document: Document) -> Iterator[Document]:
    """The board with a simpler table: one with fewer or smaller regions, a lower register, a simpler value, or
    fewer optional keys. Or the board without its prefetchable aperture, or with the usual number of devices."""
    for kind in ("endpoint", "bridge"):
        for place, table in enumerate(document.get(kind, [])):
            for simpler in simpler_tables(table):
                changed = copy.copy(document)
                changed[kind] = [*document[kind][:place], simpler, *document[kind][place + 1 :]]
                yield changed
    for gone in ("pref", "devices"):
        if gone in document["host"]:
            yield {**document, "host": {key: value for key, value in document["host"].items() if key != gone}}


def simpler_tables(table: Document) -> Iterator[Document]:
    for key in table:
        if key not in KEPT:
            yield {each: value for each, value in table.items() if each != key}
    for key, value in PLAIN_VALUES.items():
        if table.get(key, value) != value:
            yield {**table, key: value}
    for key in ("io", "pref"):
        if table.get(key, "none") != "none":
            yield {**table, key: "none"}
    bars = table.get("bar", [])
    for place, bar in enumerate(bars):
        for simpler in [None, *simpler_regions(bar)]:
            kept = [*bars[:place], *([simpler] if simpler else []), *bars[place + 1 :]]
            yield {**{key: value for key, value in table.items() if key != "bar"}, **({"bar": kept} if kept else {})}


def simpler_regions(bar: Document) -> Iterator[Document]:
    bare = {key: value for key, value in bar.items() if key not in OPTIONAL_OF_REGION}
    if bare != bar:
        yield bare
    for kind in ("mem32", "mem32p", "mem64"):
        if bar["kind"] not in ("io", "mem32", kind):
            yield {**bare, "kind": kind}
    for size in (LEAST.get(bar["kind"], 16), 0x1000, 0x100000, 0x200000, bar["size"] // 2):
        if LEAST.get(bar["kind"], 16) <= size < bar["size"]:
            yield {**bare, "size": size}
    for index in range(bar["index"]):
        yield {**bare, "index": index}


def without_part(parts: int, document: Document) -> Iterator[Document]:
    """The board without one of so many parts of its devices, and without everything behind them. For large
    boards."""
    devices = sorted({(*one.path[:-1], (one.path[-1][0], 0)) for one in functions(document)})
    for part in range(parts if len(devices) >= LARGE else 0):
        gone = {*devices[part * len(devices) // parts : (part + 1) * len(devices) // parts]}
        yield moved(document, lambda path: None if any((*path[:depth], (path[depth][0], 0)) in gone for depth in range(len(path)))
                    else path)


SIMPLER: List[Callable[[Document], Iterator[Document]]] = [
    without_guests, *(partial(without_part, 1 << bit) for bit in range(1, 6)), with_fewer_functions, closer, with_simpler_tables,
    at_lower_places]


def shrunk(document: Document, holds: Callable[[Document], bool], seconds: float) -> Document:
    """Looks for the smallest board of which the same is true, until time runs out. Each board is tried once.
    Each way of making a board smaller is repeated until it fails."""
    deadline, asked = time.monotonic() + seconds, set()  # type: float, Set[str]

    def is_smaller(candidate: Document) -> bool:
        key = json.dumps(candidate, sort_keys=True)
        is_new = time.monotonic() < deadline and key not in asked
        asked.add(key)
        return is_new and holds(candidate)

    way = place = in_vain = 0
    while in_vain < len(SIMPLER):
        every = list(SIMPLER[way](document))
        order = [*range(place, len(every)), *range(min(place, len(every)))]
        found = next((each for each in order if is_smaller(every[each])), None)
        if found is None:
            way, place, in_vain = (way + 1) % len(SIMPLER), 0, in_vain + 1
        else:
            document, place, in_vain = every[found], found, 0
    return document
