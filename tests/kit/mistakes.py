#!/usr/bin/python3 -B
"""Are the enumerators of examples/firmware right, and is each mistake found, and shrunk to few functions?

    mistakes.py [--program PROGRAM | --second-hand] [--boards N] [NAME..]

Both enumerators are run twice on each board, of which many are tight; so are mistakes, unless they have options. An edit has words of what is told of the mistake first, as a pattern, with the
most functions of the board on which it is found, and options if it needs others; or why it is none by the profile, and then
nothing may be found. The boards are those of the library, or of the program where one is named, or of the second hand, which
needs neither. What docs/firmware-testing.md prints of a mistake has to be what is told. Status 1 says that one of these isn't
so."""
import argparse
import contextlib
import io
import os
import re
import subprocess
import sys
import tempfile
from concurrent.futures import ProcessPoolExecutor
from functools import partial

import places
from pciguest import firmware_test
from pciguest._judge import KINDS
from second_hand import SecondHand

FOLDER = places.TOP / "examples/firmware"
#: how the first finding of a board begins
FIRST = re.compile(rf"(audit|ready|{'|'.join(KINDS)}): |the firmware ")
def tested(command, maker, *words):
    """The status and what is told of firmware."""
    with tempfile.TemporaryDirectory() as room, contextlib.redirect_stdout(io.StringIO()) as out:
        status = firmware_test.main([*words, "--save", f"{room}/failed.toml", "--", str(command)], maker)
    return status, out.getvalue()


def is_documented(told):
    """Whether the document prints what is told of a Subordinate that is too low."""
    text = (places.TOP / "docs/firmware-testing.md").read_text()
    printed = text.partition("/subordinate_low\n")[2].partition("...\n")[0]
    return bool(printed) and told.startswith(printed)


def said_by(edit):
    """What an edit says."""
    return dict(line.split(": ", 1) for line in edit.read_text().splitlines())


def wrong_with(said, status, told):
    """What isn't as it has to be with a mistake."""
    if "harmless" in said:
        return None if status == 0 and "warning" not in told else "found"
    found = re.search(r"on this board \((\d+) function", told)
    if status != 1 or found is None:
        return "not found"
    if not re.search(said["told"], told):
        return f"not told as '{said['told']}'"
    return f"{found[1]} functions" if int(found[1]) > int(said["functions"]) else None


def examine(room, options, name):
    """Runs an enumerator, with one mistake where an edit has the name: whether what comes of it is as it has to be, and what
    is told of that."""
    words = ["--transients", "--boards", options.boards] + (["--program", options.program] if options.program else [])
    edit = FOLDER / f"mistakes/{name}.edit"
    said = said_by(edit) if edit.exists() else {"options": "--warm --tight"}
    words += said.get("options", "--tight").split()
    status, told = tested(f"{room}/{name}", SecondHand() if options.second_hand else None, *words)
    if not edit.exists():
        return status == 0 and "warning" not in told, f"{name}: {told.strip()}"
    wrong = wrong_with(said, status, told)
    if name == "subordinate_low" and not wrong and not is_documented(told):
        wrong = "docs/firmware-testing.md prints something else"
    line = next((line for line in told.splitlines() if FIRST.match(line)), "")
    count = re.search(r"on this board \((\d+ functions?)\)", told)
    shown = f"{count[1]}: {line}" if count else f"no mistake: {said.get('harmless')}"
    return wrong is None, f"{name}: {f'FAILED: {wrong}: {told}' if wrong else shown}"


def main():
    parser = argparse.ArgumentParser(description=__doc__.split("\n\n")[0])
    parser.add_argument("--program")
    parser.add_argument("--second-hand", action="store_true")
    parser.add_argument("--boards", default="100")
    parser.add_argument("name", nargs="*")
    options, right = parser.parse_args(), []
    edits = sorted(edit.stem for edit in FOLDER.glob("mistakes/*.edit"))
    with tempfile.TemporaryDirectory() as room, ProcessPoolExecutor(os.cpu_count()) as processes:
        subprocess.run(["make", "-s", f"-j{os.cpu_count()}", "-C", FOLDER, f"OUT={room}"], check=True)
        examined = partial(examine, room, options)
        for is_right, told in processes.map(examined, options.name or ["enumerator", "allocator", *edits]):
            print(told, flush=True)
            right.append(is_right)
    print(f"{len(right)} programs, of which not as they have to be {right.count(False)}")
    sys.exit(not all(right))


if __name__ == "__main__":
    main()
