"""Upper limits."""

from __future__ import annotations

from ctypes import byref
from typing import NamedTuple

from ._calls import LimitsTold
from ._library import CALLS


class Limits(NamedTuple):
    """Upper limits that hold for every board."""

    #: the size of the largest possible image of a guest, in bytes
    guest_image: int
    #: functions of a board, endpoints and bridges
    functions: int
    #: guests of a machine
    guests: int
    #: slots of a guest
    slots: int
    #: base address registers of an endpoint
    bars: int
    #: register bytes of a region
    block: int
    #: register bytes of a function at 40h to FFh in configuration space
    own_cells: int


def limits() -> Limits:
    """Returns the upper limits that hold for every board. No machine is needed.

    >>> limits().slots
    32
    """
    told = LimitsTold()
    CALLS["limits"](byref(told))
    return Limits(*(getattr(told, name) for name in Limits._fields))
