"""Where regions are, and what accesses reach."""

from __future__ import annotations

from typing import NamedTuple, Optional

from ._calls import IO, RegionTold


class Region(NamedTuple):
    """Where a region of a guest's function is now, according to the guest's own registers. It occupies `size`
    addresses of its space, "io" or "memory", starting at `first`, and responds there while the guest's
    Command enables the space."""

    space: str
    first: int
    size: int
    prefetchable: bool
    is_open: bool


class Moved(NamedTuple):
    """A region of a guest that moved, or was enabled or disabled, since the previous call: its slot and base
    address register, where it was, and where it is now. If there was or is no region, this is None."""

    slot: int
    register: int
    before: Optional[Region]
    now: Optional[Region]


class Hit(NamedTuple):
    """The byte of a guest's function that an access reaches: an offset in the region of a base address
    register, 0 to 5, or in configuration space, for which `region` is None. `raise_bits(slot, offset, mask,
    region)` takes the same arguments."""

    slot: int
    region: Optional[int]
    offset: int


def region_of(told: RegionTold) -> Optional[Region]:
    """Converts the library's description of a region, if there is one."""
    if not told.size:
        return None
    space = "io" if told.space == IO else "memory"
    return Region(space, told.first, told.size, bool(told.prefetchable), bool(told.is_open))
