"""A board's guests as the program test_lone_guest takes them: their endpoints in plain numbers."""
import itertools

from board import masks
from keys import NUMBERS, PLACES, bits

KINDS = ["io", "mem32", "mem32p", "mem64", "mem64p"]


def runs(bar):
    """The registers of a region's block as (count, value, writable, cleared), those alike together."""
    every = (masks(bar.patterns, n) for n in range(bar.block))
    return [[len([*alike]), *cell] for cell, alike in itertools.groupby(every)]


def endpoint_lines(endpoint):
    """The lines of one endpoint."""
    yield "endpoint"
    for key in NUMBERS:
        offset, width = PLACES[key]
        yield f"register {offset} {width} {endpoint.values.get(key, 0)} {bits('clears', 0, offset)}"
    for bar in endpoint.bars:
        yield f"bar {bar.index} {KINDS.index(bar.kind)} {bar.size}"
        yield from ("cells " + " ".join(map(str, run)) for run in runs(bar))
    for off, count, patterns in endpoint.config:
        yield from (f"config {off + n} " + " ".join(map(str, masks(patterns, n))) for n in range(count))


def guests_file(board):
    """All guests of a board."""
    endpoints = {endpoint.path: endpoint for endpoint in board.endpoints()}
    lines = []
    for name, slots in board.guests:
        lines.append(f"guest {name}")
        for path in slots:
            lines += endpoint_lines(endpoints[path])
    return "\n".join(lines) + "\n"
