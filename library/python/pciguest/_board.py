"""A board that your own firmware drives, from reset."""

from __future__ import annotations

import os
from ctypes import byref, c_size_t, c_uint32
from pathlib import Path
from typing import Iterator, NamedTuple, Optional, Tuple, Union

from ._calls import CONFIG, IO, MEMORY, BoardFunctionTold, BoardHandle
from ._functions import BoardFunction, board_function_of
from ._held import Held, as_bytes
from ._library import CALLS, number, told
from ._machine import Machine
from ._refusal import answered
from ._spaces import Functions, Space, number_of_space
from ._texts import NAME, explained


class Audit(NamedTuple):
    """What is wrong in the registers of a board."""

    #: a line for each problem, and a last line that counts them
    text: str
    #: how many problems there are
    problems: int


class Readiness(NamedTuple):
    """What is wrong in the registers of a board, and what is left to do."""

    #: a line for each problem and each thing that is left to do, and a last line that counts them
    text: str
    #: how many problems and things that are left to do there are; if there are none, the board is ready
    lacks: int


class Board(Held):
    """A board that your own firmware drives, from reset: the firmware assigns bus numbers, and addresses to
    regions.

    `Board.load("board.toml")` returns the board of a board file in its reset state, and `Board(text)` does so
    for the text of a file. If the file is refused, this raises a `BoardRefusal` with the number of the first
    check that fails, or a `Refusal` with 199 if memory runs out. The guests of the file are checked, but they
    aren't assigned any functions.

    `config[bus, device, function][offset:width]`, `io[port:width]` and `memory[address:width]` access the
    board, whatever its registers contain. If nothing responds, a read returns all ones, and a write is dropped.
    An access to `config` sets CONFIG_ADDRESS to 0. Apart from that, a read changes nothing. 902: the device is
    above 31, or the function is above 7.

    The memory of a board is freed in the same way as that of a `Machine`.

    >>> with Board(BOARD) as board:
    ...     function = board.config[0, 1, 0]
    ...     function[0x14:4] = 0xFFFFFFFF  # how large is its region?
    ...     hex((0xFFFFFFFF ^ function[0x14:4]) + 1)
    ...     function[0x14:4] = 0xD0000000  # the address of its region
    ...     function[4:2] = 2  # memory on
    ...     board.memory[0xD0000010:4] = 0x12345678
    ...     hex(board.memory[0xD0000010:2])
    '0x1000'
    '0x5678'
    """

    def __init__(self, file: Union[str, bytes], name: str = NAME) -> None:
        self._file, self._name = as_bytes(file), name
        with explained(self._file, name):
            super().__init__(BoardHandle(), "board_free",
                             lambda handle: CALLS["board_new"](handle, self._file, len(self._file)))

    @classmethod
    def load(cls, path: Union[str, os.PathLike[str]]) -> Board:
        """Returns the board of the file at a path. If the file is refused, the messages contain this path."""
        return cls(Path(path).read_bytes(), os.fspath(path))

    @property
    def config(self) -> Functions[Space]:
        """Configuration space: `config[0, 2, 0][0:4]` is 4 bytes at offset 0 of the function that currently has
        the BDF 00:02.0."""
        return Functions(lambda *at: self._space(CONFIG, *at))

    @property
    def io(self) -> Space:
        """I/O space: `io[0xcf8:4]` is CONFIG_ADDRESS."""
        return self._space(IO, 0, 0, 0)

    @property
    def memory(self) -> Space:
        """Memory: `memory[0xc0000000:4]` is 4 bytes at address C0000000h."""
        return self._space(MEMORY, 0, 0, 0)

    def run_line(self, line: Union[str, bytes]) -> Optional[str]:
        """Runs one line, as `pciguest firmware` does, and returns the reply. The line is one of these: an
        access by firmware; `host audit`, `host ready` or `host why ..`, which report something and change
        nothing; or `host guests`, which hands the board over to the guests in its file, or says why it
        can't. After `host guests`, the lines are script lines, and every other call of the board is refused
        with 901; `into_guests` returns the machine.

        Lines and replies are like those of `Machine.run_line`, but the reply to a query or to `host guests` can
        have several lines. 299: memory runs out; then nothing has changed.

        >>> board = Board(BOARD)
        >>> board.run_line("host cr 00:01.0 0 4")
        'host: 0x00011234'
        >>> print(board.run_line("host guests"))
        audit: 2.0/0.0: a configuration cycle to 00:00.0 reaches nothing
        host: refused 207 not in order
        """
        return self._reply("board_run_line", line)

    def count(self) -> int:
        """Returns how many functions the board has, endpoints and bridges."""
        return self._number(c_size_t, "board_count")

    def function(self, index: int) -> BoardFunction:
        """Returns the function at an index, in path order, according to the current registers. Changes nothing,
        not even CONFIG_ADDRESS. 902: there is no such function.

        >>> board = Board(BOARD)
        >>> bridge, behind = board.function(1), board.function(2)
        >>> bridge.function.path, bridge.is_found, behind.function.path, behind.is_found
        ('2.0', True, '2.0/0.0', False)
        """
        found = BoardFunctionTold()
        self._call("board_function", number("index", index, 64), byref(found))
        return board_function_of(found)

    def functions(self) -> Iterator[BoardFunction]:
        """Yields all functions of the board, in path order. Each is described at the time when it is reached."""
        return (self.function(index) for index in range(self.count()))

    def audit(self) -> Audit:
        """Returns what is wrong in the registers, no matter who wrote them: bytes of enabled regions that a
        bridge above doesn't forward, addresses at which two functions on one bus respond, and functions that
        no configuration cycle reaches. Changes nothing. 299: memory runs out.

        >>> print(Board(BOARD).audit().text.splitlines()[0])
        audit: 2.0/0.0: a configuration cycle to 00:00.0 reaches nothing
        """
        return Audit(*self._counted("board_audit"))

    def audit_json(self) -> str:
        """Returns an audit as a JSON object on one line, like `pciguest audit --json`.

        >>> import json
        >>> [each["type"] for each in json.loads(Board(BOARD).audit_json())["problems"]]
        ['not found', 'not found']
        """
        return self._counted("board_audit_json")[0]

    def ready(self) -> Readiness:
        """Returns what is wrong in the registers and what is left to do, no matter who wrote them. The report
        begins with the lines of an audit. Then it lists regions that are disabled, outside the apertures, or
        prefetched although they aren't prefetchable, and bridges whose Primary Bus Number isn't the number
        of their bus. Changes nothing. 299: memory runs out.

        >>> print(Board(BOARD).ready().text.splitlines()[-2])
        ready: 2.0/1.0 bar0 at 0x0 size 0x1000000: memory decode is disabled
        """
        return Readiness(*self._counted("board_ready"))

    def ready_json(self) -> str:
        """Returns whether the board is ready, as a JSON object on one line, like `pciguest ready --json`.

        >>> import json
        >>> json.loads(Board(BOARD).ready_json())["lacks"][-1]["region"]["path"]
        '2.0/1.0'
        """
        return self._counted("board_ready_json")[0]

    def why_json(self, space: str, place: int = 0, bus: int = 0, device: int = 0, function: int = 0) -> str:
        """Explains what an access to a port ("io"), an address ("memory") or a BDF ("config") reaches, and why,
        or why it reaches nothing. Returns everything that `host why ..` reports, as a JSON object on one
        line. Changes nothing, not even CONFIG_ADDRESS. 902: the device is above 31, or the function is above
        7. 299: memory runs out.

        >>> import json
        >>> json.loads(Board(BOARD).why_json("config", bus=1))["found"]["missing"]
        {'behind': None, 'bus': 1}
        """
        at = number("bus", bus, 8), number("device", device, 8), number("function", function, 8), number("place", place, 64)
        return self._told("board_why_json", 1024, number_of_space(space), *at)

    def set_up(self) -> Machine:
        """Returns the machine that `Machine` makes of the same file, with the built-in set-up instead of your
        own firmware. The board must be in its reset state, and isn't changed. 904: there was a write since
        the reset. Other refusals are those of `Machine`."""
        with self._lock, explained(self._file, self._name):
            return Machine._made_by(lambda machine: CALLS["set_up"](byref(self._handle), machine))

    def into_guests(self) -> Machine:
        """Assigns the board's functions to the guests in its file, and returns the machine. It doesn't matter
        who set the board up. Each assigned function is first reset, except for the registers of which guests
        have copies. If `host guests` handed the board over before, the machine consists of those guests as
        they are now. Afterwards, the board's memory belongs to the machine, and each call of the board is
        refused with 901.

        A refusal changes nothing. 207: the audit reports a problem. 206: a region of a function that is to be
        assigned is disabled. 299: memory runs out.

        >>> board = Board(BOARD)
        >>> board.config[0, 2, 0][0x18:4] = 0x00010100  # the bridge's buses: 0 above it, 1 behind it
        >>> board.into_guests()
        Traceback (most recent call last):
        pciguest._refusal.Refusal: decoding of an assigned function's BAR is disabled (206)
        """
        with self._lock:
            return Machine._made_by(lambda machine: CALLS["board_guests"](byref(self._handle), machine))

    def _counted(self, call: str) -> Tuple[str, int]:
        count = c_size_t(0)
        with self._lock:
            answer, text = told(1024, lambda *room: CALLS[call](byref(self._handle), *room, byref(count)))
        answered(answer)
        return text, count.value

    def _space(self, space: int, bus: int, device: int, function: int) -> Space:
        def read(place: int, width: int) -> int:
            return self._number(c_uint32, "board_read", space, bus, device, function, place, width)

        def write(place: int, width: int, value: int) -> None:
            self._call("board_write", space, bus, device, function, place, width, value)

        return Space(space, read, write)
