"""What random register states lack: the program's word on whether the board is ready, and a second hand's.

    ready.py PROGRAM [--states N] [--seed S]

The states are those of audit.py, half of them with one more thing that an operating system would lack. As there each
answer of a line is compared too, and the first state that differs is printed with its seed, and its files are kept. The
second hand is this folder, without a line of the program's code."""
import random

from audit import compare_states, random_state
from audited import audit, region_text
from board import Bridge, bridges_above, path_text
from compared import audit_json

KINDS = ["decode is disabled", "outside the apertures", "as prefetchable", "Primary Bus Number is"]


def without(spans, cuts):
    """What is left of spans, pairs of first and last address, once others are cut from them."""
    for begin, end in cuts:
        pieces = [piece for first, last in spans for piece in [(first, min(last, begin - 1)), (max(first, end + 1), last)]]
        spans = [(first, last) for first, last in pieces if first <= last]
    return spans


def closed_regions(state):
    for path, bar, base in state.regions():
        if not state.opens(path, bar.space):
            yield f"{region_text(path, bar, base)}: {bar.space} decode is disabled"


def regions_outside(board, state):
    kept = {"I/O": ["io"], "memory": ["mem", "pref"]}
    for path, bar, base in state.open_regions():
        apertures = [board.apertures[key] for key in kept[bar.space] if key in board.apertures]
        left = without([(base, base + bar.size - 1)], apertures)
        if left:
            yield f"{region_text(path, bar, base)}: {min(left)[0]:#x} is outside the apertures"


def prefetched(state, path):
    """What a bridge forwards by its prefetchable window and not by its memory window."""
    windows = state.windows(path, "memory") if state.opens(path, "memory") else {}
    memory, pref = ([span for span in [windows.get(name, (1, 0))] if span[0] <= span[1]] for name in ("memory", "prefetchable"))
    return without(pref, memory)


def prefetched_regions(state):
    for path, bar, base in state.open_regions():
        for bridge in bridges_above(path) if bar.kind in ("mem32", "mem64") else []:
            shared = [max(base, first) for first, last in prefetched(state, bridge)
                      if max(base, first) <= min(base + bar.size - 1, last)]
            if shared:
                yield f"{region_text(path, bar, base)}: bridge {path_text(bridge)} forwards {min(shared):#x} as prefetchable"
                break


def other_primaries(state):
    for path in filter(state.is_bridge, state.functions):
        bus = state.byte(path[:-1], 0x19) if len(path) > 1 else 0
        if state.byte(path, 0x18) != bus:
            yield f"{path_text(path)}: Primary Bus Number is {state.byte(path, 0x18):02x}, but the bridge is on bus {bus:02x}"


def lacks(board, state):
    return [*closed_regions(state), *regions_outside(board, state), *prefetched_regions(state), *other_primaries(state)]


def ready(board, state):
    """The lines that say whether a board is ready, with the problems of its audit."""
    wrong, lacking = audit(state)[:-1], lacks(board, state)
    problems, left = f"{len(wrong)} problem{'s' * (len(wrong) > 1)}", f"{len(lacking)} left to do"
    counts = [count for them, count in ((wrong, problems), (lacking, left)) if them]
    return [*wrong, *(f"ready: {line}" for line in [*lacking, ", ".join(counts) or "ok"])]


def shift_windows(firmware, bridge):
    """Gives the addresses of a bridge's memory window to its prefetchable one, from somewhere in it on."""
    window = firmware.state.read_bytes(bridge.path, 0x20, 4)
    firmware.write(bridge.path, 0x24, 4, window)
    if bridge.pref == "64":
        firmware.write(bridge.path, 0x28, 4, 0)
        firmware.write(bridge.path, 0x2C, 4, 0)
    last = (window & 0xFFFF) - 0x10 + firmware.rng.choice([0, 0, 0x10, 0x20])
    firmware.write(bridge.path, 0x22, 2, max(last, 0))


def spoil(firmware):
    """One more thing that an operating system would lack."""
    function = firmware.rng.choice(firmware.board.functions)
    if isinstance(function, Bridge) and function.pref != "none" and firmware.rng.random() < 0.8:
        return shift_windows(firmware, function)
    if isinstance(function, Bridge):
        return firmware.write(function.path, 0x18, 1, firmware.rng.choice([0, 1, 2, 0xFF]))
    if firmware.rng.random() < 0.4:
        return firmware.write(function.path, 4, 2, firmware.rng.choice([0, 1, 2]))
    edges = [edge + by for first, last in firmware.board.apertures.values() for edge in (first, last + 1)
             for by in (-0x1000, 0, 0x1000)]
    if function.bars:
        bar = firmware.rng.choice(function.bars)
        firmware.write(function.path, 0x10 + 4 * bar.index, 4, firmware.rng.choice(edges))
    return None


def spoiled_state(seed):
    board, firmware = random_state(seed)
    if seed % 2:
        firmware.rng = random.Random(f"{seed} spoiled")
        spoil(firmware)
    return board, firmware


if __name__ == "__main__":
    compare_states("ready", spoiled_state, ready, audit_json.ready_of, KINDS, "ready", "pciguest: fault 208 not ready\n")
