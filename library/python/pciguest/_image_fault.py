"""Where an image stops fitting a guest, and which field that is, according to docs/image-format.md."""

from __future__ import annotations

from typing import Iterator, NamedTuple, Optional, Tuple

from ._names import DECLARED, HEADER

# a field, and how many bytes it has
Field = Tuple[str, int]


class ImageFault(NamedTuple):
    """Where an image stops fitting a guest that refuses it with 906 or 908."""

    #: the slot whose part of the image contains the byte, or None if the byte is before the slots
    slot: Optional[int]
    #: the offset in the image of the first byte that doesn't fit
    offset: int
    #: the field that contains the byte, such as 'the size of bar0'
    field: str

    def __str__(self) -> str:
        return self.field if self.slot is None else f"slot {self.slot}: {self.field}"


def fault_at(image: bytes, slot: int, offset: int) -> Optional[ImageFault]:
    """The fault at a byte of an image, if there is such a byte."""
    fields = _Fields(image)
    for name, width in fields.image() if offset < len(image) else ():
        if fields.at + width > offset:
            return ImageFault(slot if slot < 32 else None, offset, name)
        fields.at += width
    return None


class _Fields:
    """The fields of an image, in order. The code that steps through them advances `at` past each one."""

    def __init__(self, image: bytes) -> None:
        self._image, self.at = image, 0

    def _before(self, width: int) -> int:
        """The number in the field that was passed last."""
        return int.from_bytes(self._image[self.at - width : self.at], "little")

    def image(self) -> Iterator[Field]:
        for name in ("the format's name", "the version", "CONFIG_ADDRESS"):
            yield name, 4
        for _ in range(32):
            yield "whether it is filled", 1
            if self._before(1):
                yield from self._function()

    def _function(self) -> Iterator[Field]:
        for key, (_, width) in DECLARED.items():
            yield key, width
        values = len(HEADER)
        yield "how many regions there are", 1
        for _ in range(self._before(1)):
            yield "the register of a region", 1
            index = self._before(1)
            yield f"the kind of bar{index}", 1
            values += 4 if self._before(1) < 3 else 8
            yield f"the size of bar{index}", 8
            yield f"the block of bar{index}", 2
            count = self._before(2)
            yield from _cells(0, count, f"bar{index}")
            values += count
        yield "how many blocks there are", 1
        for _ in range(self._before(1)):
            yield "the offset of a block", 1
            first = self._before(1)
            yield f"the size of the block at {first:#x}", 1
            count = self._before(1)
            yield from _cells(first, count, "configuration space")
            values += count
        yield "the values", values


def _cells(first: int, count: int, of: str) -> Iterator[Field]:
    """The declaration of register bytes."""
    places = range(first, first + count)
    return ((f"{pattern} of byte {at:#x} of {of}", 1) for at in places for pattern in ("reset", "rw", "w1c"))
