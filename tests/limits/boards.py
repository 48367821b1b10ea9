"""Board files at every limit, and the writes by which firmware sets up their boards."""
import json
import re

HOST = "[host]\nio = [0x1000, 0xffff]\nmem = [0x80000000, 0xdfffffff]\npref = [0xe0000000, 0xefffffff]\n"
BRIDGES = [f"15.{number}" for number in range(8)]


def places(devices, above=""):
    return [f"{above}{device}.{function}" for device in range(devices) for function in range(8)]


# as many functions as a board may have, together with the bridges
ON_BUS_0, BEHIND = places(15), [places(14, f"{bridge}/") for bridge in BRIDGES]
ENDPOINTS = [*ON_BUS_0, *(it for behind in BEHIND for it in behind)]
# as many guests as a machine may have, all but the last with as many slots as a guest may have
GUESTS = [ENDPOINTS[first:first + 32] for first in range(0, len(ENDPOINTS), 32)]
SLOTS = [len(slots) for slots in GUESTS]


def bar(index, kind, size, more=""):
    return f'  {{ index = {index}, kind = "{kind}", size = {size}{more} }},\n'


def endpoint(at, bars, more=""):
    return f'\n[[endpoint]]\nat = "{at}"\nvendor = 0x1234\ndevice = 3\nclass = 0xff0000\n{more}bar = [\n{"".join(bars)}]\n'


def guests():
    for number, slots in enumerate(GUESTS):
        yield f'\n[[guest]]\nname = "g{number}"\nslots = {json.dumps(slots)}\n'


def board(bars_of):
    """A board of 1,024 functions, of which each endpoint has these regions, with 32 guests."""
    bridges = (f'\n[[bridge]]\nat = "{it}"\nvendor = 0x1234\ndevice = 2\nio = "16"\npref = "32"\n' for it in BRIDGES)
    return "".join([HOST, *bridges, *(endpoint(it, bars_of(it)) for it in ENDPOINTS), *guests()])


def regions():
    """Six regions of all kinds for each endpoint."""
    cells = ', block = 16, rw = "f0", w1c = "0f"'
    bars = [bar(0, "mem32", 16, cells), bar(1, "io", 4, ', block = 4, rw = "ff"'), bar(2, "mem32", 4096), bar(3, "mem32", 16),
            bar(4, "mem32p", 32), bar(5, "mem32p", 4096, cells)]
    return board(lambda at: bars)


def ports():
    """Six I/O regions for each endpoint. They fill each bridge's window and the aperture to the last byte."""
    left = {"": (176, 64, 32), **{f"{bridge}/": (352, 8, 4) for bridge in BRIDGES}}

    def bars_of(at):
        above = at[:at.rfind("/") + 1]
        many, large, small = left[above]
        left[above] = (max(many - 6, 0), large, small)
        return [bar(index, "io", large if index < many else small) for index in range(6)]
    return board(bars_of)


def cells():
    """A guest of 32 functions with as many registers as they may have, in a file of 3 MB."""
    patterns = f', block = 4096, reset = "{"a5" * 4096}", rw = "{"f0" * 4096}"'
    own = f'config = [ {{ off = 0x40, block = 192, reset = "{"5a" * 192}", rw = "{"ff" * 192}" }} ]\n'
    endpoints = (endpoint(it, [bar(index, "mem32", 4096, patterns) for index in range(6)], own) for it in ON_BUS_0[:32])
    return "".join([HOST, *endpoints, f'\n[[guest]]\nname = "g0"\nslots = {json.dumps(ON_BUS_0[:32])}\n'])


# ---- what firmware writes

FUNCTION = re.compile(r"(\w\w):(\w\w)\.(\d) \S+ (?:bridge \S+ buses (\w\w) (\w\w) (\w\w)|endpoint)")
WINDOW = re.compile(r"  (io|mem|pref) 0x(\w+) 0x(\w+)")
REGION = re.compile(r"  bar(\d) \w+ at 0x(\w+)")
# for each window: the offset of base and limit, the address bits that they leave out, the width of each, and how it is shut
WINDOWS = {"io": (0x1C, 8, 1, 0x00F0), "mem": (0x20, 16, 2, 0x0000FFF0), "pref": (0x24, 16, 2, 0x0000FFF0)}


def writes(report, is_routed=True):
    """The writes that set up the board of a report, each as bus, device, function, offset, width and value. If it isn't routed,
    all windows stay shut, and the bridges lose their numbers in the end."""
    last, numbers = [], None
    for line in report.split("\n"):
        if found := FUNCTION.match(line):
            numbers = [int(it, 16) for it in found.groups()[:3]]
            last.append((*numbers, 4, 2, 3))
            if found[4]:
                buses = [int(it, 16) for it in found.groups()[3:]]
                yield (*numbers, 0x18, 4, buses[0] | buses[1] << 8 | buses[2] << 16)
                yield from ((*numbers, offset, 2 * width, shut) for offset, _, width, shut in WINDOWS.values())
                last += [(*numbers, 0x18, 4, 0)] * (not is_routed)
        elif (found := WINDOW.match(line)) and is_routed:
            offset, bits, width, _ = WINDOWS[found[1]]
            base, limit = ((int(it, 16) >> bits) & (1 << 8 * width) - 16 for it in found.groups()[1:])
            yield (*numbers, offset, 2 * width, base | limit << 8 * width)
        elif found := REGION.match(line):
            yield (*numbers, 0x10 + 4 * int(found[1]), 4, int(found[2], 16))
    yield from sorted(last, key=lambda it: it[3] == 0x18)


def script(written):
    """These writes as lines of firmware."""
    return "".join(f"host cw {bus:02x}:{device:02x}.{function} {offset} {width} {value}\n"
                   for bus, device, function, offset, width, value in written)
