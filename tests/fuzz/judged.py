"""What a check with --all says of a board file that is accepted, by docs/board-file.md: how much of each aperture the board
takes, what may be a mistake, and why its board can't be set up."""
from board import board_of, path_of
from placement import REFUSALS, Layout, up
from rules import entries, of, problem

POOLS = {"io": "I/O pool", "mem": "memory pool", "pref": "prefetchable pool"}


def pool_line(layout, pool):
    """How much of its aperture a pool takes."""
    if pool not in layout.board.apertures:
        return f"{POOLS[pool]}: no aperture"
    end, alignment = layout.pack((), pool)
    first, last = layout.board.apertures[pool]
    at = up(first, alignment)
    return f"{POOLS[pool]}: {end:#x} of {last + 1 - at:#x} bytes used, from {at:#x} on"


def warning(entry, key, words):
    """What may be a mistake."""
    return problem(entry, key, words, 0, label="warning")


def reasons(document, number):
    """The entries that are why a board can't be set up."""
    every = list(entries(document))
    bridges = of(every, "bridge")
    if number > 202:
        return [shortage(document, number)]
    if number == 201:
        return [problem(bridges[255], "at", "is one bridge too many (at most 255)", 201)]
    found = []
    for entry in of(every, "bar"):
        above = [bridge for bridge in bridges
                 if bridge.values["io"] == "none" and entry.owner.startswith(bridge.values["at"] + "/")]
        if entry.values["kind"] == "io" and above:
            told = problem(entry, "kind", 'requires an I/O window, but {} above it has none (io = "none")', 202, above[0],
                           remedy='give the bridge io = "16" or "32", or the BAR a memory kind')
            told.others = [(above[0].table, "io")]
            found.append(told)
    return found


def shortage(document, number):
    """What is said of a board with a pool that doesn't fit."""
    pool = next(pool for pool, refusal in REFUSALS.items() if refusal == number)
    layout = Layout(board_of(document), is_placed=False)
    (end, alignment), (first, last) = layout.pack((), pool), document["host"][pool]
    at = up(first, alignment)
    host, = of(entries(document), "host")
    words = f"{pool} has {max(0, last + 1 - at):#x} bytes from {at:#x} on, but the {POOLS[pool]} needs {end:#x}"
    return problem(host, pool, words, number, has_subject=False)


def warnings_of(document, layout):
    """All that may be a mistake, in order."""
    every, found = list(entries(document)), []
    above = {path_of(entry.values["at"])[:-1] for entry in of(every, "endpoint", "bridge")}
    slots = {path_of(entry.values[""]) for entry in of(every, "slot")}
    found += [warning(entry, "at", "is a bridge with nothing behind it") for entry in of(every, "bridge")
              if path_of(entry.values["at"]) not in above]
    found += [warning(entry, "at", "is not in the slots of any guest") for entry in of(every, "endpoint")
              if document.get("guest") and path_of(entry.values["at"]) not in slots]
    found += [warning(entry, "name", "has no slots") for entry in of(every, "guest") if not entry.values["slots"]]
    host, = of(every, "host")
    for pool in POOLS:
        if pool in document["host"]:
            (first, last), (end, _) = document["host"][pool], layout.pack((), pool)
            if 0 < 10 * end < last + 1 - first:
                found.append(warning(host, pool, "is more than ten times as large as its pool needs"))
    return found


def judged(document):
    """The first lines of a check, and the warnings after them."""
    layout = Layout(board_of(document))
    return ["ok"] + [pool_line(layout, pool) for pool in POOLS], warnings_of(document, layout)
