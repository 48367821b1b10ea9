"""The calls of the shared library, which is loaded when the first of them is used. `_calls` declares them."""

from __future__ import annotations

import ctypes
import operator
import os
import sys
from ctypes import c_size_t
from pathlib import Path
from typing import Callable, Dict, SupportsIndex, Tuple

from ._calls import ARGUMENT, DECLARED

NAME = "libpciguest.so.0"


def _place() -> str:
    """Where the shared library is: a path, or only its name if the system has to find it."""
    folder = os.environ.get("PCIGUEST_LIBRARY_DIR")
    if folder:
        return str(Path(folder).resolve() / NAME)
    here = Path(__file__).resolve().parents
    # in a wheel, next to this module; in the repository, above it; in a tarball, or where that was installed, in lib
    usual = (here[0] / NAME, here[2] / NAME, here[min(4, len(here) - 1)] / "lib" / NAME)
    unproved = here[2] / "unproved" / NAME
    place = next((place for place in (*usual, unproved) if place.exists()), NAME)
    if place == unproved:
        print(f"pciguest: this library is not proved: {place}. `make library` proves it", file=sys.stderr)
    return str(place)


def _load() -> Dict[str, Callable[..., int]]:
    place = _place()
    try:
        library = ctypes.CDLL(place)
    except OSError as error:
        raise ImportError(
            f"{error}. At the top of the repository, `make try` compiles {NAME} without proofs, and `make library` proves it. "
            "If it is elsewhere, set PCIGUEST_LIBRARY_DIR to its directory"
        ) from error
    calls: Dict[str, Callable[..., int]] = {}
    for name, (answer, parameters) in DECLARED.items():
        call = getattr(library, "pciguest_" + name)
        call.restype, call.argtypes = answer, parameters
        calls[name] = call
    return calls


class _Calls(Dict[str, Callable[..., int]]):
    """The calls by name. The library is loaded when the first of them is used."""

    def __missing__(self, name: str) -> Callable[..., int]:
        self.update(_load())
        return self[name]


CALLS = _Calls()


def version() -> int:
    """Returns the version of the library that is loaded, as a number that increases from version to version:
    10000 times the major version, 100 times the minor one, and the patch. `__version__` is the version of
    the module, as a text.

    >>> version() // 10000
    0
    """
    return CALLS["version"]()


def number(name: str, value: SupportsIndex, bits: int) -> int:
    """Checks that a value is a number of at most so many bits, and returns it. (ctypes would drop the other
    bits.)"""
    found = operator.index(value)
    if not 0 <= found < 1 << bits:
        raise ValueError(f"{name}: {found:#x} is out of range (0 to {(1 << bits) - 1:#x})")
    return found


def told(room: int, call: Callable[..., int]) -> Tuple[int, str]:
    """Makes a call that writes a text, with so much room; if that is too little, again with enough. Returns the
    number that the call returns, and the text."""
    needed = c_size_t(0)
    text = ctypes.create_string_buffer(room)
    answer = call(text, room, ctypes.byref(needed))
    if answer == ARGUMENT and needed.value > room:
        room = needed.value
        text = ctypes.create_string_buffer(room)
        answer = call(text, room, ctypes.byref(needed))
    return answer, text.raw[: needed.value].decode("ascii", "replace")
