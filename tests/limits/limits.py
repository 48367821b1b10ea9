#!/usr/bin/env python3
"""Runs every command of the program and every call of the library for C over boards, files and scripts at every limit. None may
report that memory ran out where there is enough, and none may read or report only a part of what is large.

    tests/limits/limits.py PROGRAM

Two boards have 1,024 functions with six regions each and 32 guests of 32 slots; one of them fills all of I/O space. The third
has a guest with as many registers as a guest can have, in a file of 3 MB. Firmware leaves the first two with thousands of
problems, and then with none. The library is library/libpciguest.so.0, or that of the folder PCIGUEST_LIBRARY_DIR. The last
line is 'N passed, M failed'."""
import re
import subprocess
import sys
import tempfile
from pathlib import Path

sys.dont_write_bytecode = True
import boards
import calls

# the seconds that the program has for one run
SECONDS = 600
MEGABYTE = 1_000_000
FAULT = re.compile(r"^pciguest: fault (\d+) ", re.M)


class Tally:
    """Counts what holds and what fails, and prints the first 50 failures."""

    def __init__(self):
        self.passed = self.failed = 0

    def expect(self, name, holds, why=""):
        self.passed, self.failed = self.passed + bool(holds), self.failed + (not holds)
        if not holds and self.failed <= 50:
            print(f"FAILED: {name}: {str(why)[:300]}", flush=True)


class Program:
    """The program, in a folder of board files."""

    def __init__(self, program, folder, tally):
        self.program, self.folder, self.tally = Path(program).resolve(), Path(folder), tally

    def write(self, name, text):
        (self.folder / name).write_text(text)

    def run(self, words, script="", wanted=0):
        """The output of a run, which must end with this fault, or well if it is 0."""
        ran = subprocess.run([self.program, *words], cwd=self.folder, input=script, capture_output=True, text=True, timeout=SECONDS)
        found = FAULT.search(ran.stderr)
        fault = int(found[1]) if found else 0
        why = f"fault {fault}, not {wanted}, status {ran.returncode}: {ran.stderr[:200]}"
        self.tally.expect(" ".join(words), (fault, ran.returncode) == (wanted, int(wanted > 0)), why)
        return ran.stdout

    def answers(self, words, script, wanted=0):
        """The output of a run over a script, as lines, none of which may report that memory ran out."""
        lines = self.run(words, script, wanted).split("\n")[:-1]
        lost = [it for it in lines if re.search(r": refused [1-7]99 ", it)]
        self.tally.expect(f"{' '.join(words)}: memory", not lost, lost[:1])
        return lines


# ---- boards at their limits

QUESTIONS = "".join(f"host {it}\n" for it in (
    "audit", "ready", "why mem 0x80000000", "why mem 0", "why io 0x1000", "why io 0", "why cfg 01:00.0", "guests"))


def guest_lines(guests, more=1):
    """Each guest reads and writes each of its functions."""
    forms = ("cw {1} 4 2 3", "cr {1} 0 4", "mr 0 4", "ir 0 4", "raise {1} cfg 7 0", "mw 0 4 1")
    return "".join(f"g{guest} {form.format(guest, slot)}\n" for _ in range(more) for guest, slots in enumerate(guests)
                   for slot in range(slots) for form in forms)


def counted(program, name, lines, wanted):
    """Expects these numbers in the last line."""
    found = [int(it) for it in re.findall(r"\d+", lines[-1])] if lines else None
    program.tally.expect(f"{name}: how many", found == wanted, f"{found}, not {wanted}")


def reports(program, name, functions):
    """Asks for all reports of a board file, and returns that of `list`."""
    report = program.run(["list", name])
    counted(program, f"list {name}", report.split("\n")[:1], functions)
    for words in (["list", "--json"], ["check"], ["check", "--all"]):
        program.run([*words, name])
    return report


def firmware(program, name, report, states):
    """Firmware asks everything about a board at reset, without routes and set up, and hands it over to its guests."""
    scripts = ("", boards.script(boards.writes(report, False)), boards.script(boards.writes(report)))
    for script, (problems, lacks) in zip(scripts, states):
        wrong = [it for it in (problems, lacks) if it]
        said = program.answers(["audit", name], script)
        counted(program, f"audit {name}", said, [problems] if problems else [])
        said = program.answers(["ready", name], script, 208 if wrong else 0)
        counted(program, f"ready {name}", said, wrong)
        program.answers(["audit", "--json", name], script)
        program.answers(["ready", "--json", name], script, 208 if wrong else 0)
        said = program.answers(["firmware", name], script + QUESTIONS)
        program.tally.expect(f"firmware {name}: handed over", (said[-1:] == ["host: ok"]) == (not wrong), said[-1:])


def scripts(program, name, guests, more=1):
    """Runs each guest's lines on a board that the program sets up."""
    script = guest_lines(guests, more)
    said = program.answers(["run", name], script)
    program.tally.expect(f"run {name}: a reply to each line", len(said) == script.count("\n"), len(said))
    refused = [it for it in said if "refused" in it]
    program.tally.expect(f"run {name}: no refusal", not refused, refused[:1])


# ---- files and scripts of great length

def placed(program, name, text, key, fault):
    """Expects that a file whose last such key or value is wrong is refused, and that a check reports its line."""
    line = text[:text.rindex(key)].count("\n") + 1
    program.write(name, text)
    said = program.run(["check", name], wanted=fault)
    program.tally.expect(f"check {name}: the line", said.startswith(f"{name}:{line}:"), f"{said[:100]!r}, not line {line}")
    for verb in ("list", "run", "firmware", "audit", "ready"):
        program.run([verb, name], wanted=fault)


def long_files(program, main, largest):
    """A value that is wrong far down in a file is found and reported at its line: below comments, and below other values."""
    for size in (100_000, MEGABYTE, 3 * MEGABYTE):
        lines = "# a comment of 32 bytes with its\n" * (size // 33 + 1)
        placed(program, f"above_{size}.toml", f"{lines}{main}".replace("= 0x1234", "= 0xffff", 1), "0xffff", 104)
        placed(program, f"below_{size}.toml", f"{main}{lines}colour = 1\n", "colour", 103)
        program.write("accepted.toml", main + lines)
        program.run(["list", "accepted.toml"])
    last = largest.rindex("vendor = 0x1234")
    placed(program, "last_vendor.toml", f"{largest[:last]}vendor = 0xffff{largest[last + 15:]}", "0xffff", 104)


def ask(program, library, name, text, functions, guests, states):
    """Asks everything about a board, given the number of its endpoints and bridges, the slots of each guest, and how many
    problems and lacks it has at reset, without routes and set up."""
    program.write(name, text)
    library.title = name
    firmware(program, name, reports(program, name, functions), states)
    scripts(program, name, guests)
    calls.without_a_machine(library, text.encode())
    calls.machines(library, text.encode(), guests)
    calls.boards(library, text.encode(), guests, states)
    print(f"{name}: {len(text)} bytes; {program.tally.passed} passed so far", flush=True)


def ask_all(program, library):
    """Asks everything about all boards, then runs long scripts and reads long files, and then frees boards and machines."""
    largest, states = boards.cells(), [(896, 6096), (7 * 896, 0), (0, 0)]
    for name, text in (("regions.toml", boards.regions()), ("ports.toml", boards.ports())):
        ask(program, library, name, text, [1016, 8], boards.SLOTS, states)
    ask(program, library, "cells.toml", largest, [32, 0], [32], [(0, 192), (0, 0), (0, 0)])
    scripts(program, "regions.toml", boards.SLOTS, 120)
    said = program.answers(["demo"], "a cr 0 0 4\n" * MEGABYTE)
    program.tally.expect("demo: a reply to each line", said == ["a: 0x00011234"] * MEGABYTE, len(said))
    long_files(program, (calls.TOP / "boards/main.toml").read_text(), largest)
    calls.freed(library, largest.encode())
    calls.all_calls(library)


def main(words):
    if len(words) != 1:
        print(__doc__.split("\n\n")[1], file=sys.stderr)
        return 2
    tally = Tally()
    with tempfile.TemporaryDirectory(prefix="limits-") as folder:
        ask_all(Program(words[0], folder, tally), calls.Library(tally))
    print(f"{tally.passed} passed, {tally.failed} failed")
    return int(tally.failed > 0)


if __name__ == "__main__":
    sys.exit(main(sys.argv[1:]))
