"""Guests over a board that a firmware set up, and over the same board after our own set-up: scripts tell them alike."""
import json
import random
import subprocess
import tomllib
from pathlib import Path

from board import pciguest

TOP = Path(__file__).resolve().parents[2]
SCRIPTS = sorted((TOP / "boards").glob("*.script"))
MOST = 8  # endpoints that are given, of a board


def guests_text(text, seed):
    """Two guests for a board file, with up to four of its endpoints each."""
    places = [endpoint["at"] for endpoint in tomllib.loads(text).get("endpoint", [])]
    chosen = random.Random(seed).sample(places, min(MOST, len(places)))
    return "".join(f'\n[[guest]]\nname = "{name}"\nslots = {json.dumps(chosen[first::2])}\n'
                   for first, name in enumerate("ab") if chosen[first::2])


def placing(name, slot, endpoint):
    """Lines of a guest that reads all of its function's registers, sizes, places and opens its regions, and uses them."""
    yield from (f"{name} cr {slot} {offset} 4" for offset in range(0, 256, 4))
    for bar in endpoint.get("bar", []):
        register, port = 0x10 + 4 * bar["index"], bar["kind"] == "io"
        place = 0x4000 + 0x100 * slot if port else 0x40000000 + 0x4000000 * slot
        place = -(-place // bar["size"]) * bar["size"] % (1 << 16 if port else 1 << 32)
        kind = "i" if port else "m"
        yield from (f"{name} cw {slot} {register} 4 0xffffffff", f"{name} cr {slot} {register} 4",
                    f"{name} cw {slot} {register} 4 {place:#x}", f"{name} cr {slot} {register} 4")
        if "64" in bar["kind"]:
            yield f"{name} cw {slot} {register + 4} 4 0"
        yield from (f"{name} cw {slot} 4 2 3", f"{name} {kind}r {place:#x} 4",
                    f"{name} {kind}w {place:#x} 4 0x5aa5c33c", f"{name} {kind}r {place:#x} 4",
                    f"{name} raise {slot} bar{bar['index']} 1 0xff", f"{name} {kind}r {place:#x} 2")


def script_of(declared):
    """A script for the guests of a board: each places its regions, and then a function goes from one to the other."""
    endpoints = {endpoint["at"]: endpoint for endpoint in declared.get("endpoint", [])}
    lines = [line for guest in declared.get("guest", []) for slot, place in enumerate(guest["slots"])
             for line in placing(guest["name"], slot, endpoints[place])]
    return lines + ["host move a 0 b 9", "a cr 0 0 4", "b cr 9 0 4", "b cr 9 4 4", "b cw 9 4 2 3", "b cr 9 4 2"]


def is_of_guests(line):
    """Whether a line isn't a read by the host, who is told where firmware put things."""
    return not line.startswith("host ") or line.startswith("host move ")


def scripts(file):
    """The script of the board and then those of the folder boards, without the host's reads."""
    texts = [script_of(tomllib.loads(Path(file).read_text()))]
    texts += [script.read_text().splitlines() for script in SCRIPTS]
    return [[line for line in lines if is_of_guests(line)] for lines in texts]


def after_our_set_up(program, file, lines):
    """What the program answers to a script over the board of a file that it sets up itself."""
    script = "".join(f"{line}\n" for line in lines)
    return subprocess.run([program, "run", file], input=script, capture_output=True, text=True).stdout.splitlines()


def tell(machine, lines):
    """What a machine answers to a script."""
    replies = (machine.run_line(line) for line in lines)
    return [reply for reply in replies if reply is not None]


def told_otherwise(board, audit, ready):
    """What the library tells of a board otherwise than the program; and `ready` begins with the problems of the audit."""
    before, told = board.audit().text.splitlines(), board.ready()
    wrong = [f"the library's audit tells {before[0]} in place of {audit[0]}"] * (before != audit)
    found = told.text.splitlines()
    wrong += [f"the library tells {found[0]} in place of {ready[0]}"] * (found != ready)
    wrong += [f"{told.lacks} problems and lacks in place of {len(ready) - 1}"] * (told.lacks != len(ready) - 1)
    wrong += ["the line 'host ready' tells something else"] * (board.run_line("host ready") != "\n".join(ready))
    return wrong + ["ready tells other problems than the audit"] * (ready[:len(audit) - 1] != audit[:-1])


class Given:
    """What came of giving a board to the guests of its file: `number` is 0 or that of the refusal."""

    def __init__(self, program, file, board, audit, ready):
        """`board` is of the library, and `audit` and `ready` are the lines that the program tells of it."""
        self.number, self.lines, self.wrong = 0, 0, told_otherwise(board, audit, ready)
        before = board.audit().text.splitlines()
        try:
            machine = board.into_guests()
        except pciguest.Refusal as refusal:
            self.number = refusal.number
            self.wrong += [f"{refusal}: another board is left"] * (board.audit().text.splitlines() != before)
            self.wrong += [f"{refusal} though {before[0]}"] * ((refusal.number == 207) != (before[-1] != "audit: ok"))
            return
        with machine:
            self.compare(program, file, machine)
        self.wrong += [f"given though {before[0]}"] * (before != ["audit: ok"])

    def compare(self, program, file, machine):
        """All scripts, one after the other, over this machine and over our own set-up."""
        lines = [line for script in scripts(file) for line in script]
        found, wanted = tell(machine, lines), after_our_set_up(program, file, lines)
        self.lines = len(found)
        self.wrong += [f"{len(found)} replies in place of {len(wanted)}"] * (len(found) != len(wanted))
        self.wrong += [f"guests are told {one} in place of {other}" for one, other in zip(found, wanted) if one != other]
