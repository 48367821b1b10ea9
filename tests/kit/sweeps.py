"""Lines that write each register at every width and read it back at every width, and what is noticed where writes are lost."""
from typing import NamedTuple

import places  # noqa: F401
from pciguest import transcript
from pciguest._board_file import text_of

LATCH, DATA = 0xCF8, 0xCFC
#: each bit differs between the two, and no byte of one is a byte of either at another place
VALUES = (0x5AA63CC9, 0xA559C336)
WIDTHS = (1, 2, 4)
MEMORY, PORTS = 0x80000000, 0x1000
#: bytes of which a write changes something, by the tables of PROFILE, section 2; a bridge's Status and Secondary Status hold
#: nothing that could be cleared
COMMON = [0x04, 0x05, 0x0C, 0x0D, 0x3C]
CHANGED = {"endpoint": {*COMMON, 0x07, *range(0x10, 0x28), *range(0x40, 0x48)},
           "bridge": {*COMMON, *range(0x18, 0x1E), *range(0x20, 0x34)}}


def endpoint(at, kinds, **keys):
    """An endpoint with the least regions of some kinds, whose bases have as many bits as bases can have, and own cells."""
    bars, index = [], 0
    for kind in kinds:
        size = 4 if kind == "io" else 16
        bars.append({"index": index, "kind": kind, "size": size, "block": size, "rw": "ff"})
        index += 2 if "64" in kind else 1
    return {"at": at, "vendor": 0x1234, "device": 1, "class": 0xFF0000, "status": 0xF900, "bar": bars,
            "config": [{"off": 0x40, "block": 4, "rw": "ff"}, {"off": 0x44, "block": 4, "reset": "ff", "w1c": "ff"}], **keys}


BOARD = {
    "host": {"io": [0x1000, 0xFFFF], "mem": [0xC0000000, 0xDFFFFFFF]},
    "endpoint": [endpoint("1.0", ["mem32"] * 6), endpoint("2.0", ["mem64"] * 3), endpoint("3.0", ["io"] * 6)],
    "bridge": [{"at": "4.0", "vendor": 0x1234, "device": 2, "io": "32", "pref": "64"}],
    "guest": [{"name": "a", "slots": ["1.0", "2.0", "3.0"]}],
}
FUNCTIONS = {"run": [("a", "0"), ("a", "1"), ("a", "2")],
             "firmware": [("host", f"00:{device:02x}.0") for device in range(1, 5)]}


def kind_of(function):
    return "bridge" if function == "00:04.0" else "endpoint"


def part(value, offset, width):
    """The bytes of a value of 4 bytes that stand at an offset."""
    return value >> 8 * (offset % 4) & (1 << 8 * width) - 1


def sweep(who, space, where, register, width):
    """Writes 4 bytes in parts of a width, twice, and reads them at each width after every write. A place is written after
    its function, if it has one."""
    for offset in range(register, register + 4, width):
        for value in VALUES:
            yield f"{who} {space}w {where}{offset:#x} {width} {part(value, offset, width):#x}"
            yield from (f"{who} {space}r {where}{at:#x} {size}" for size in WIDTHS
                        for at in range(register, register + 4, size))


def region_lines(who, where, space, base):
    """Lines that place the first region of a function and open it."""
    opening = 2 if space == "m" else 1
    return [f"{who} cw {where} 0x10 4 {base:#x}", f"{who} cw {where} 4 2 {opening}"]


def sections(mode):
    """The lines of each section of a mode, with what it is about."""
    who = FUNCTIONS[mode][0][0]
    for _, function in FUNCTIONS[mode]:
        for register in (*range(0, 0x40, 4), 0x40, 0x44):
            for width in WIDTHS:
                yield f"{register:02x}h of {function}", [*sweep(who, "c", f"{function} ", register, width)]
    slots = 0x800 if mode == "firmware" else 0
    for width in WIDTHS:
        latch = f"{who} iw {LATCH:#x} 4 {0x80000040 + slots:#x}"
        yield "CONFIG_DATA", [latch, *sweep(who, "i", "", DATA, width)]
        for place, space, base in ((0, "m", MEMORY), (2, "i", PORTS)):
            lines = region_lines(who, FUNCTIONS[mode][place][1], space, base)
            yield f"a region of {'memory' if space == 'm' else 'ports'}", [*lines, *sweep(who, space, "", base, width)]
    yield "CONFIG_ADDRESS", [line for value in VALUES for line in
                             (f"{who} iw {LATCH:#x} 4 {value:#x}", f"{who} ir {LATCH:#x} 4")]


def drawn(back_end, name):
    """All sections, as a back end answers them over the board of a file."""
    text = text_of(BOARD)
    return [transcript.record(back_end, mode, text, name, f"sweep of {about}", lines)
            for mode in FUNCTIONS for about, lines in sections(mode)]


# ---- what is noticed


class Write(NamedTuple):
    """A kind of write: in a mode, of a kind of place, at an offset, of so many bytes."""

    mode: str
    place: str
    offset: int
    width: int


def write_of(mode, line):
    """The kind of a line's write, if it is one."""
    words = line.split()
    if words[1] == "cw":
        return Write(mode, kind_of(words[2]), int(words[3], 0), int(words[4]))
    if words[1] not in ("iw", "mw"):
        return None
    place, width = int(words[2], 0), int(words[3])
    if words[1] == "mw":
        return Write(mode, "memory", place % 4, width)
    return Write(mode, "ports", place if place >> 4 == LATCH >> 4 else place % 4, width)


class Losing:
    """The library as a back end that loses one kind of write, or one byte of it."""

    def __init__(self, write, lane):
        self.write, self.lane, self.library = write, lane, transcript.Library()

    def begin(self, mode, board):
        self.mode = mode
        self.library.begin(mode, board)

    def answer(self, line):
        if write_of(self.mode, line) != self.write:
            return self.library.answer(line)
        *words, place, width, value = line.split()
        if self.lane is not None:
            self.keep(" ".join(words), int(place, 0), int(width), int(value, 0))
        return f"{words[0]}: ok"

    def keep(self, words, place, width, value):
        """Writes all bytes but one."""
        if place == LATCH:
            old = int(self.library.answer(f"{words[:-1]}r {place:#x} 4").split()[-1], 16)
            lane = 0xFF << 8 * self.lane
            self.library.answer(f"{words} {place:#x} 4 {value & ~lane | old & lane:#x}")
            return
        for byte in (byte for byte in range(width) if byte != self.lane):
            self.library.answer(f"{words} {place + byte:#x} 1 {value >> 8 * byte & 0xFF:#x}")

    def close(self):
        self.library.close()


def can_be_noticed(write, lane):
    """Whether the profile lets one notice that a write is lost, or a byte of it."""
    lanes = range(write.width) if lane is None else [lane]
    if write.place in CHANGED:
        return any(write.offset + each in CHANGED[write.place] for each in lanes)
    return True


def strength(back_end_sections, board):
    """Of all that can be lost: what is noticed, what isn't though the profile lets one, and what it doesn't let one notice."""
    by_write = {}
    for section in back_end_sections:
        for write in {write_of(section.mode, line) for line, _ in section.rows} - {None}:
            by_write.setdefault(write, []).append(section)
    noticed, missed, hidden = [], [], []
    for write in sorted(by_write):
        for lane in (None, *(range(write.width) if write.width > 1 else ())):
            seen = any(transcript.replay(Losing(write, lane), section, board) for section in by_write[write])
            kept = noticed if seen else missed if can_be_noticed(write, lane) else hidden
            kept.append((write, lane))
            if seen and not can_be_noticed(write, lane):
                missed.append((write, lane))  # the table of what can be noticed is wrong
    return noticed, missed, hidden
