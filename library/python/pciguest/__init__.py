"""A PCI board, its firmware, and the monitor that assigns its functions to guests, for testing drivers and for
teaching.

A `Machine` is a board that was set up from a board file, with its guests. A `Board` is a board that your own
firmware drives, from reset. An access is written as `[address:width]`, with a width of 1, 2 or 4 bytes: reading
it returns a number, and assigning to it writes one. A `Device` acts when its driver accesses its registers.
`python3 -m pciguest board.toml` starts a prompt for a machine.

The module calls the shared library libpciguest.so.0. It looks for the library in the directory
PCIGUEST_LIBRARY_DIR or, if that isn't set, in the usual places, which the module's README lists.
docs/board-file.md, docs/script-language.md and docs/errors.md explain board files, lines and error numbers, and
docs/library-c.md says what is proved about the library. This module is tested, but not proved.

>>> from pciguest import Machine, Refusal
>>> board = '''
... [host]
... io = [0x1000, 0xffff]
... mem = [0xc0000000, 0xdfffffff]
... [[endpoint]]
... at = "1.0"
... vendor = 0x1234
... device = 0x0001
... class = 0xff0000
... bar = [ { index = 0, kind = "mem32", size = 4096, block = 64, rw = "ff" } ]
... [[guest]]
... name = "a"
... slots = ["1.0"]
... '''
>>> with Machine(board) as machine:
...     a = machine.guest("a")
...     hex(a.config[0][0:4])  # 4 bytes at offset 0 of the function in slot 0
...     a.config[0][0x10:4] = 0x80000000  # the address of its region
...     a.config[0][4:2] = 2  # memory on
...     a.memory[0x80000010:4] = 0x12345678
...     hex(a.memory[0x80000010:2])
...     hex(machine.host.config[0, 1, 0][0x10:4])  # the board's own register stays as set-up left it
...     try:
...         a.memory[0x80000001:4]
...     except Refusal as refusal:
...         print(refusal)
'0x11234'
'0x5678'
'0xc0000000'
address is not a multiple of the width (301)
"""

try:
    from ._calls import VERSION
except ModuleNotFoundError:  # (in a fresh clone)
    raise ImportError("pciguest/_calls.py is missing: tools/bindings at the top of the repository generates it") from None
from ._board import Audit, Board, Readiness
from ._declared import Register
from ._device_side import Capability, Message
from ._devices import Device
from ._differs import DeclaredOtherwise
from ._functions import Bar, BoardFunction, Function, Interrupt, Window, Windows
from ._image_fault import ImageFault
from ._library import version
from ._limits import Limits, limits
from ._machine import Guest, Host, Machine
from ._refusal import BoardRefusal, Problem, Refusal, strerror
from ._regions import Hit, Moved, Region
from ._spaces import Functions, ReadableSpace, ReadableWide, Space, Wide
from ._structures import Msi, Msix, Power, Structure, Vendor
from ._texts import Check, check, report, report_json

__all__ = [
    "Audit", "Bar", "Board", "BoardFunction", "BoardRefusal", "Capability", "Check", "DeclaredOtherwise",
    "Device", "Function", "Functions", "Guest", "Hit", "Host", "ImageFault", "Interrupt", "Limits", "Machine",
    "Message", "Moved", "Msi", "Msix", "Power", "Problem", "ReadableSpace", "ReadableWide", "Readiness",
    "Refusal", "Region", "Register", "Space", "Structure", "Vendor", "Wide", "Window", "Windows", "check",
    "limits", "report", "report_json", "strerror", "version",
]
__version__ = VERSION
