"""What lines ask for: guest accesses, and queries of a session. The library decides whether a line is valid, so
the results here count only if its reply says that the line was executed."""

from __future__ import annotations

import re
from typing import Callable, NamedTuple, Optional

from ._calls import CONFIG, DECLARED, IO, MEMORY

SPACES = {b"c": CONFIG, b"i": IO, b"m": MEMORY}
#: most bytes of a line
LONGEST = 200
#: the second words of lines that ask of the registers, each of which a call answers as JSON; their replies may have several lines
QUESTIONS = [name[len("board_") : -len("_json")] for name in DECLARED if re.fullmatch("board_.*_json", name)]


class Access(NamedTuple):
    """An access of a guest, in the form that the library accepts."""

    guest: int
    space: int
    slot: int
    place: int
    width: int


class AskedFor(NamedTuple):
    """What a line asks for: an access, and for a write its value."""

    access: Access
    value: Optional[int]


def number_of(word: bytes) -> Optional[int]:
    """The number in a word of a line, if it is one below 2**64, otherwise None."""
    if re.fullmatch(rb"[0-9]+", word):
        value = int(word)
    elif re.fullmatch(rb"0[xX][0-9a-fA-F]+", word):
        value = int(word, 16)
    else:
        return None
    return value if value < 1 << 64 else None


def is_question(line: str) -> bool:
    """Whether a line is a query on the registers of a board that firmware drives."""
    words = line.split()
    return words[:1] == ["host"] and len(words) > 1 and words[1] in QUESTIONS


def access_of(line: bytes, index_of: Callable[[bytes], Optional[int]]) -> Optional[AskedFor]:
    """What a line asks for, if that is an access of a guest."""
    name, verb, *rest = [*re.split(rb"[ \t\r\n]+", line.strip(b" \t\r\n")), b"", b""][:9]
    words = [word for word in rest if word]
    space, guest = SPACES.get(verb[:1]), index_of(name)
    if space is None or guest is None or verb[1:] not in (b"r", b"w"):
        return None
    numbers = [number_of(word) for word in words]
    wanted = 2 + (space == CONFIG) + (verb[1:] == b"w")
    if len(numbers) != wanted or None in numbers:
        return None
    found = [each for each in numbers if each is not None]
    slot = found.pop(0) if space == CONFIG else 0
    return AskedFor(Access(guest, space, slot, found[0], found[1]), found[2] if len(found) > 2 else None)
