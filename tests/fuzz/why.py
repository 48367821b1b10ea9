"""Why addresses, ports and configuration numbers find what they find in random register states: a second hand's word.

    why.py PROGRAM [--states N] [--seed S]

The states are those of audit.py. Of each, 50 addresses and ports and some numbers are asked: those where regions and
windows begin and end, their neighbours, the ports of the address latch, and any. All that PROGRAM answers to the lines
`host why mem ADDR`, `host why io PORT` and `host why cfg BB:DD.F` is compared; the first state that differs is printed
with its seed, and its files are kept. The second hand is this folder, without a line of the program's code."""
import random
from collections import Counter

from audit import EDGES, random_state
from audited import region_text
from board import board_file, bridges_above, path_text
from compared import Room, lines_of, options

KINDS = ["decodes it too", "decode is disabled", "; ", "as at reset", "forward it: memory decode", "no window", "window disabled", "nothing responds",
         " responds at", "no bridge on bus 00", "no bridge behind", "no function", "claims bus", "forwards it", "no BAR responds", "has this BDF",
         "4-byte accesses", ") is disabled", ") selects", "reaches nothing"]


def window_text(name, first, last):
    return f"{name} window {first:#x}-{last:#x}" if first <= last else f"{name} window disabled"


def disabled(state, path, space):
    return f"{space} decode is disabled (Command 0x{state.read_bytes(path, 4, 2):04x})"


def hindrance(state, path, space):
    """What keeps a bridge from forwarding."""
    if not state.opens(path, space):
        return disabled(state, path, space)
    return ", ".join(window_text(name, *window) for name, window in state.windows(path, space).items()) or "no window"


def causes(state, path, space, address):
    """All that keeps a region of the function at a path from answering, the nearest to the function first."""
    if not state.opens(path, space):
        yield disabled(state, path, space)
    for bridge in reversed(bridges_above(path)):
        if not state.forwards(bridge, space, address):
            yield f"bridge {path_text(bridge)} doesn't forward it: {hindrance(state, bridge, space)}"


def forwarders(state, space, address):
    """The bridges that forward an address which each bridge above them forwards."""
    return [path for path in filter(state.is_bridge, state.functions)
            if all(state.forwards(bridge, space, address) for bridge in [*bridges_above(path), path])]


def counted(lines):
    """The lines of a reply with the last one."""
    return [*lines, f"{len(lines)} line{'s' * (len(lines) > 1)}"]


def why(state, space, address):
    """The lines of an address."""
    bridges = forwarders(state, space, address)
    nobody = "no BAR responds" if bridges else "nothing responds"
    answer, lines, left = nobody, [f"bridge {path_text(path)} forwards it to bus {state.byte(path, 0x19):02x}" for path in bridges], 0
    for path, bar, base in state.regions_at(space, address):
        found = [*causes(state, path, space, address)]
        if base == 0 and not state.opens(path, space):
            left += 1
        elif not found and answer == nobody:
            answer = f"{path_text(path)} bar{bar.index} responds at offset {address - base:#x}"
        else:
            said = "; ".join(found) or "decodes it too"
            lines.append(f"{region_text(path, bar, base)}: {said}")
    if left:
        lines.append(f"{left} BAR{'s' * (left > 1)} at 0x0 with decode disabled, as at reset")
    return [f"{space} {address:#x}: {answer}", *lines]


def place_text(bridge):
    return "behind bridge " + path_text(bridge) if bridge else "on bus 00"


def why_number(state, at):
    """The lines of a configuration number."""
    bus, device, function = at
    takers, on, missing = [], (), None
    while bus != 0 and (not on or state.byte(on, 0x19) != bus):
        here = [path for path in state.functions if path[:-1] == on and state.is_bridge(path)
                and state.byte(path, 0x19) <= bus <= state.byte(path, 0x1A)]
        if not here:
            missing = f"no bridge {place_text(on)} claims bus {bus:02x}"
            break
        takers, on = [*takers, *here], here[0]
    found = None if missing else on + ((device, function),)
    if found not in state.functions:
        missing = missing or f"no function {device}.{function} {place_text(on)}"
        found = None
    others = [path for path in state.functions if path != found and path[-1] == (device, function)
              and bus == (state.byte(path[:-1], 0x19) if path[:-1] else 0)]
    number = f"{bus:02x}:{device:02x}.{function}"
    return [f"{number} reaches {path_text(found) if found else 'nothing'}",
            *(f"bridge {path_text(path)} claims bus {bus:02x}" for path in takers), *([missing] if missing else []),
            *(f"{path_text(path)} has this BDF but isn't reached" for path in others)]


def why_port(state, latch, port):
    """The lines of an I/O port, with what the address latch makes of it."""
    if port == 0xCF8:
        return [f"I/O 0xcf8: 4-byte accesses go to CONFIG_ADDRESS ({latch:#x})", *why(state, "I/O", port)]
    if 0xCFC <= port <= 0xCFF and latch >> 31:
        at = latch >> 16 & 0xFF, latch >> 11 & 31, latch >> 8 & 7
        shown = f"offset {latch & 0xFC | port & 3:#x} of {at[0]:02x}:{at[1]:02x}.{at[2]}"
        return [f"I/O {port:#x}: CONFIG_ADDRESS ({latch:#x}) selects {shown}", *why_number(state, at)]
    if 0xCFC <= port <= 0xCFF:
        return [f"I/O {port:#x}: CONFIG_ADDRESS ({latch:#x}) is disabled", *why(state, "I/O", port)]
    return why(state, "I/O", port)


def edges_of(state, space):
    """Where regions and windows of a space begin and end."""
    found = [edge for edge in EDGES if space == "memory" or edge < 1 << 32]
    found += [edge for path in filter(state.is_bridge, state.functions) for window in state.windows(path, space).values()
              for edge in window]
    return found + [edge for _, bar, base in state.regions() if bar.space == space for edge in (base, base + bar.size - 1)]


def asked(rng, state, count=50):
    """Addresses of both spaces, most of them at an edge or beside one, and numbers."""
    for _ in range(count):
        space = rng.choice(["memory", "memory", "I/O"])
        limit = 1 << (32 if space == "I/O" else 64)
        edge = rng.choice(edges_of(state, space))
        if space == "I/O" and rng.random() < 0.2:
            edge = rng.choice(range(0xCF6, 0xD02))
        yield space, (edge + rng.choice([0, 0, 0, 1, -1, 0x10, rng.getrandbits(20)])) % limit
    for _ in range(10):
        buses = [0, 1, rng.randrange(256)] + [state.byte(path, off) for path in state.functions if state.is_bridge(path)
                                              for off in (0x19, 0x1A)]
        device, function = rng.choice([rng.choice([*state.functions])[-1], (rng.randrange(32), rng.randrange(8))])
        yield "number", (rng.choice(buses), device, function)


def latch_after(lines):
    """What the address latch holds after some lines: each configuration access by its number clears it."""
    latch = 0
    for line in lines:
        words = line.split()
        if words[1] in ("cr", "cw"):
            latch = 0
        elif words[1:4] == ["iw", "0xcf8", "4"]:
            latch = int(words[4], 16) & 0x80FFFFFC
    return latch


def questions(rng, state, latch):
    """Each question's line with the lines that answer it."""
    for what, place in asked(rng, state):
        if what == "number":
            yield f"host why cfg {place[0]:02x}:{place[1]:02x}.{place[2]}", counted(why_number(state, place))
        elif what == "memory":
            yield f"host why mem {place:#x}", counted(why(state, what, place))
        else:
            yield f"host why io {place:#x}", counted(why_port(state, latch, place))


def state_asked(seed):
    """A board, the lines of its firmware with those of all questions, and what answers them."""
    board, firmware = random_state(seed)
    rng = random.Random(f"{seed} why")
    if rng.random() < 0.5:
        latch = rng.choice([0, 1 << 31]) | rng.getrandbits(24)
        firmware.say(f"iw 0xcf8 4 {latch:#x}", "ok")
    asking = list(questions(rng, firmware.state, latch_after(firmware.lines)))
    lines = firmware.lines + [line for line, _ in asking]
    return board, lines, firmware.answers + [f"why: {line}" for _, told in asking for line in told]


def main():
    chosen, kinds = options(__doc__, "program", states=2000, seed=1), Counter()
    room = Room(chosen.program)
    for seed in range(chosen.seed, chosen.seed + chosen.states):
        board, lines, wanted = state_asked(seed)
        room.write("board.toml", board_file(board))
        room.compare(seed, "an answer", (0, lines_of(wanted), ""), room.run("firmware", "board.toml", script=lines_of(lines)))
        kinds.update(kind for line in wanted if line.startswith("why: ") for kind in KINDS if kind in line)
    room.end()
    counts = ", ".join(f"'{kind.strip()}' {count}" for kind, count in sorted(kinds.items()))
    print(f"{chosen.states} register states; {counts}: all agree")


if __name__ == "__main__":
    main()
