"""Every call of the library for C, over boards at their limits: each must succeed."""
import ctypes
import json
import os
import re
import sys
from ctypes import byref, c_size_t, c_uint32, c_uint64
from pathlib import Path

from boards import writes

TOP = Path(__file__).resolve().parent.parent.parent
sys.path.insert(0, str(TOP / "library/python"))
from pciguest import _calls as declared  # noqa: E402
from pciguest._library import CALLS  # noqa: E402

CONFIG, IO, MEMORY = range(3)
# nine of the machines that are freed hold 80 MB
FEW_BYTES = 30_000_000


class Library:
    """Makes calls, counts each as a test, and notes which were made."""

    def __init__(self, tally):
        self.tally, self.called, self.title = tally, set(), ""

    def ok(self, name, *arguments, wanted=(declared.OK,)):
        """Makes a call that must return one of these."""
        self.called.add(name)
        answer = CALLS[name](*arguments)
        self.tally.expect(f"{self.title}: pciguest_{name}", answer in wanted, f"{answer}, not {wanted}")

    def number(self, name, *arguments, of=c_size_t):
        """The number or struct that a call stores."""
        stored = of()
        self.ok(name, *arguments, byref(stored))
        return stored if issubclass(of, ctypes.Structure) else stored.value

    def text(self, name, *arguments, more=()):
        """The text that a call writes. A first call asks how much room it needs."""
        needed = c_size_t()
        self.ok(name, *arguments, None, 0, byref(needed), *more, wanted=[declared.ARGUMENT])
        text = ctypes.create_string_buffer(needed.value)
        self.ok(name, *arguments, text, len(text), byref(needed), *more)
        return text.raw

    def line(self, name, holder, line, room=declared.REPLY):
        reply, written = ctypes.create_string_buffer(room), c_size_t()
        self.ok(name, holder, line, len(line), reply, room, byref(written))
        return reply.raw[:written.value]


# ---- no machine

def without_a_machine(library, text):
    """Calls on the bytes of a board file, and those that need no argument of that kind."""
    library.called |= {"version", "strerror"}
    library.tally.expect("pciguest_version", CALLS["version"]() == declared.VERSION_NUMBER)
    library.tally.expect("pciguest_strerror", CALLS["strerror"](101) == b"board file is not valid TOML")
    for name in ("report", "report_json", "check"):
        library.text(name, text, len(text))


# ---- a machine

def slot_calls(library, machine, guest, slot):
    """Each call on a function in a slot and on its regions, which its guest has enabled; returns the function's path."""
    key = (byref(machine), guest)
    library.ok("write", *key, CONFIG, slot, 4, 2, 3)
    library.number("read", *key, CONFIG, slot, 0, 4, of=c_uint32)
    library.ok("write_wide", *key, CONFIG, slot, 0x0C, 7, 0)
    library.number("read_wide", *key, CONFIG, slot, 1, 8, of=c_uint64)
    library.ok("raise", *key, slot, declared.PART_CONFIG, 7, 0)
    library.ok("device_write_wide", *key, slot, declared.PART_CONFIG, 0x40, 1, 1)
    library.number("device_read_wide", *key, slot, declared.PART_CONFIG, 0x40, 1, of=c_uint64)
    row = library.number("slot", *key, slot, of=declared.FunctionTold)
    for bar in range(declared.BARS):
        region = library.number("region", *key, slot, bar, of=declared.RegionTold)
        library.number("locate", *key, region.space, slot, region.first, of=declared.HitTold)
        library.ok("region_write", *key, slot, bar, 0, 4, 0x12345678)
        library.number("region_read", *key, slot, bar, 0, 4, of=c_uint64)
        library.ok("device_write_wide", *key, slot, bar, 0, 4, 0x12345678)
        library.number("device_read_wide", *key, slot, bar, 0, 4, of=c_uint64)
    library.number("host_read", byref(machine), CONFIG, row.bus, row.device, row.function, 0, 4, of=c_uint32)
    library.ok("reset", *key, slot)
    return bytes(row.path[:row.path_length])


def guest_calls(library, machine, guest, slots):
    """Each call on a guest; returns the size of its image."""
    key = (byref(machine), guest)
    name = library.text("guest_name", *key)
    library.tally.expect(f"guest {guest} by its name", library.number("guest", byref(machine), name, len(name)) == guest)
    paths = [slot_calls(library, machine, guest, slot) for slot in range(slots)]
    library.number("changed", *key, of=c_uint64)
    places = (declared.PlaceTold * declared.PLACES)()
    library.number("moved", *key, places, len(places))
    for space, place in ((CONFIG, 0), (IO, 0x1000), (MEMORY, 0)):
        library.text("why", *key, space, 0, place)
        library.text("why_json", *key, space, 0, place)
    library.ok("take", *key, 0)
    library.ok("give", byref(machine), paths[0], len(paths[0]), guest, 0)
    library.ok("reset_guest", *key)
    return image_calls(library, key)


def image_calls(library, key):
    image, slot, offset = library.text("save", *key), c_uint64(), c_size_t()
    library.ok("load", *key, image, len(image))
    library.ok("image_fault", *key, image, len(image), byref(slot), byref(offset))
    return len(image)


def machine_calls(library, machine, guests):
    """Each call on a machine whose guests have so many functions."""
    held, limits = byref(machine), library.number("limits", of=declared.LimitsTold)
    library.tally.expect(f"{library.title}: guests", library.number("guest_count", held) == len(guests))
    largest = max(guest_calls(library, machine, guest, slots) for guest, slots in enumerate(guests))
    library.tally.expect(f"{library.title}: images", largest <= limits.guest_image, largest)
    last = len(guests) - 1
    library.ok("take", held, last, guests[last] - 1)
    library.ok("move", held, 0, 0, last, guests[last] - 1)
    library.ok("move", held, last, guests[last] - 1, 0, 0)
    for index in range(library.number("count", held)):
        library.number("function", held, index, of=declared.FunctionTold)
    library.tally.expect(f"{library.title}: a line", library.line("run_line", held, b"g0 cr 0 0 4") == b"g0: 0x00031234\n")
    word, needed, reason = c_size_t(), c_size_t(), ctypes.create_string_buffer(200)
    library.ok("explain_line", held, b"g0 zz", 5, byref(word), reason, len(reason), byref(needed))
    library.tally.expect(f"{library.title}: a reason", reason.raw.startswith(b"unknown command 'zz'"))
    size, needed = library.number("image_size_all", held), c_size_t()
    image = ctypes.create_string_buffer(size)
    library.ok("save_all", held, image, size, byref(needed))
    library.ok("load_all", held, image.raw, size)


def machines(library, text, guests):
    """Each call on the machine of a board file."""
    machine = declared.Handle()
    library.ok("new", byref(machine), text, len(text))
    machine_calls(library, machine, guests)
    CALLS["free"](byref(machine))


# ---- a board that firmware drives

def questions(library, board, wanted):
    """Each call that asks about a board, which must have so many problems and lacks."""
    held, count = byref(board), c_size_t()
    for index in range(library.number("board_count", held)):
        library.number("board_function", held, index, of=declared.BoardFunctionTold)
    library.number("board_read", held, CONFIG, 0, 0, 0, 0, 4, of=c_uint32)
    # those that report on the board are called as an audit is
    reports = {name.removeprefix("board_"): library.text(name, held, more=[byref(count)])
               for name, form in declared.DECLARED.items() if form == declared.DECLARED["board_audit"]}
    for space, place in ((CONFIG, 0), (IO, 0x1000), (MEMORY, 0), (MEMORY, 0x80000000)):
        library.text("board_why_json", held, space, 0, 0, 0, place)
    told = json.loads(reports["ready_json"])
    found = len(told["problems"]), len(told["lacks"])
    library.tally.expect(f"{library.title}: problems and lacks", found == wanted, f"{found}, not {wanted}")
    room = max(map(len, reports.values())) + 100
    for name in (name for name in reports if f"{name}_json" in reports):
        told = library.line("board_run_line", held, f"host {name}".encode(), room)
        library.tally.expect(f"{library.title}: host {name}", told == reports[name])
    for asked in (b"mem 0x80000000", b"mem 0", b"io 0x1000", b"io 0", b"cfg 01:00.0"):
        library.line("board_run_line", held, b"host why " + asked, 1 << 20)


def write_all(library, board, written):
    for bus, device, function, offset, width, value in written:
        library.ok("board_write", byref(board), CONFIG, bus, device, function, offset, width, value)


def boards(library, text, guests, wanted):
    """A board at reset, from which a machine is made; then the same board, set up by firmware and handed over to its guests. It
    must have so many problems and lacks at reset, while no bridge routes anything, and once it is set up."""
    report, title = library.text("report", text, len(text)).decode(), library.title
    board, machine = declared.BoardHandle(), declared.Handle()
    library.ok("board_new", byref(board), text, len(text))
    for step, count in zip(("at reset", "without routes", "set up"), wanted):
        library.title = f"{title}, {step}"
        if step == "at reset":
            library.ok("set_up", byref(board), byref(machine))
            machine_calls(library, machine, guests)
            CALLS["free"](byref(machine))
        else:
            write_all(library, board, writes(report, step == "set up"))
        questions(library, board, count)
    library.ok("board_guests", byref(board), byref(machine))
    machine_calls(library, machine, guests)
    CALLS["free"](byref(machine))
    library.title = title


# ---- what is freed

def held_bytes():
    """The memory of this process, in bytes."""
    return int(Path("/proc/self/statm").read_text().split()[1]) * os.sysconf("SC_PAGE_SIZE")


def freed(library, text):
    """Expects that machines and boards that are freed leave no memory behind."""
    for name, holder in (("", declared.Handle), ("board_", declared.BoardHandle)):
        for number in range(12):
            held = holder()
            library.ok(f"{name}new", byref(held), text, len(text))
            library.called.add(f"{name}free")
            CALLS[f"{name}free"](byref(held))
            library.tally.expect(f"pciguest_{name}free leaves an empty struct", not held.live)
            if number == 2:
                before = held_bytes()
        grown = held_bytes() - before
        library.tally.expect(f"pciguest_{name}free gives all memory back", grown < FEW_BYTES, f"{grown} bytes are held")


def all_calls(library):
    """Expects that each call of the header was made."""
    header = re.findall(r"^(?!static)[A-Za-z][\w *]*pciguest_(\w+)\(", (TOP / "library/pciguest.h").read_text(), re.M)
    left = {*header} - library.called
    library.tally.expect("each call of the header was made", not left, left)
