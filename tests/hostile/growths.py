"""Each growth of memory refused in turn: to the one growth alone, and to it and all after it. Each has a number of its own
that it answers, by what the program is doing then.

    growths.py PROGRAM [--quick] [--arrays ARRAYS]

With --quick the largest board is left out. ARRAYS is the program of the crate test_arrays, which runs a script from an
array into an array."""
import collections
import os
import sys
from pathlib import Path

from harness import AUDIT, BOARDS, LARGEST, MAIN, PLACES, Room, fault_line

SCRIPTS = ["guest.script", "two_guests.script", "raise.script", "host.script", "ports.script", "move.script"]
BROKEN = ["set_up", "limit_short", "half_base", "same_secondary"]
DEMO = str(BOARDS / "demo.toml")
MALFORMED = b"a cr 0\nhost move nobody 0 a 0\n"
# guests for the largest board, which has none: a move of a guest that isn't there is malformed, and to explain it takes memory
GUESTS = b"""
[[guest]]
name = "a"
slots = ["0.0/0.0/0.0", "0.0/0.0/1.0"]
[[guest]]
name = "b"
slots = ["0.0/0.0/2.0"]
"""


def growths_of_board(room, board):
    """How many growths make a board at reset of the bytes of its file: those that `firmware` makes once it has read the
    file, since without lines it does nothing more."""
    run, counts = room.counted(["firmware", board], b"")
    room.expect(f"firmware, {board}: ends well", run.answer() == "ok", run.answer())
    return counts.growths - counts.until_file_read


def numbers_of(room, words, script, board, ends):
    """The number that each growth of a run answers, in their order. While the words of the command line are taken it is
    799, for the output that is kept back 299, while the board file is read 702, while a board is made of its bytes 199,
    and while it is set up, told of and run 299. What is told of a file that is refused takes memory by 199. None stands
    for the explanations of malformed lines, which `run` makes at its end, and leaves out where there is no memory."""
    _, counts = room.counted(words, script)
    numbers = [799] * counts.for_words + [299]
    numbers += [702] * (counts.until_file_read - len(numbers))
    explained = counts.growths - counts.before_reading if words[0] == "run" else 0
    left = counts.growths - explained - len(numbers)
    made = growths_of_board(room, board) if ends in ("ok", "208") else left
    return numbers + [199] * made + [299] * (left - made) + [None] * explained


def tally_of(answers):
    """Answers and how many growths gave each, as '799: 56, 199: 10'."""
    return ", ".join(f"{answer}: {count}" for answer, count in collections.Counter(answers).items())


def refuse_each(room, name, words, script, mode, board=MAIN, ends="ok"):
    """Refuses each growth in turn. Each refused run answers the growth's number and writes nothing more. Where one growth
    alone is refused, the run may also ask again at once, for no more bytes, and then end as one to which none is refused."""
    table = room.write("table", b"")
    # each growth forks the process: on the largest board that takes minutes, and more where others use the processors
    run = room.run_script(words, script, seconds=3600, REFUSE_EACH=mode, TABLE=table)
    plain = room.run_script(words, script)
    room.expect(f"{name}: the last run has the whole output",
                run.answer() == ends and plain.answer() == ends and run.out == plain.out, run.answer())
    numbers = numbers_of(room, words, script, board, ends)
    rows = [line.rstrip(b"\n").split(b" ", 4) for line in open(table, "rb")]
    room.expect(f"{name}: each growth was refused", len(rows) == len(numbers), f"{len(rows)} of {len(numbers)}")
    end = (b"%d" % plain.status, b"%d" % len(plain.out), plain.err.partition(b"\n")[0])
    answers = []
    for number, (growth, asked_again, *ended) in zip(numbers, rows):
        whole = mode == "once" and asked_again == b"1" and tuple(ended) == end
        holds = whole or ended == ([b"1", b"0", fault_line(number).rstrip(b"\n")] if number else [b"0", b"0", b""])
        room.expect(f"{name}, growth {growth.decode()} refused {mode}", holds, f"{ended} in place of {number}")
        answers.append("whole output" if whole else number or "no explanation")
    print(f"| {name} | {mode} | {len(rows)} | {tally_of(answers)} | {run.passed / 1000:.1f} |", flush=True)


def same_count(room, name, words, scripts):
    """A run makes as many growths with an empty script as with any other, all before it reads."""
    _, empty = room.counted(words, b"")
    for script_name, script in scripts:
        run, counts = room.counted(words, script)
        room.expect(f"{name}, {script_name}: ends well", run.answer() == "ok", run.answer())
        before = counts.before_reading if counts.reads else counts.growths
        room.expect(f"{name}, {script_name}: growths", counts.growths == empty.growths and before == counts.growths,
                    f"{counts.growths}, {before} before reading, {empty.growths} with an empty script")
    print(f"| {name} | {empty.growths} growths with an empty script and with {len(scripts)} others |", flush=True)


def same_count_in_arrays(room, streams, scripts):
    """A script that stands in an array, whose output goes into an array, takes as many growths as an empty one. What is
    written is what the program writes."""
    program, room.program = room.program, streams
    asked = [(name, script, room.counted([MAIN, room.write("asked", script)], b"")) for name, script in scripts]
    room.program = program
    growths = {counts.growths for _, _, (_, counts) in asked}
    room.expect("from an array into an array: growths", len(growths) == 1, growths)
    for name, script, (run, _) in asked:
        wanted = room.run_script(["run", MAIN], script).out
        room.expect(f"from an array into an array, {name}", run.answer() == "ok" and run.out == wanted, run.out)
    told = ", ".join(map(str, growths))
    print(f"| from an array into an array | {told} growths with an empty script and with {len(scripts) - 1} others |", flush=True)


def long_scripts():
    """Scripts of the folder boards, and long ones with every kind of line."""
    scripts = [(name, (BOARDS / name).read_bytes()) for name in SCRIPTS]
    every = b"".join(content + b"\n" for _, content in scripts)
    scripts.append(("all of them a hundred times", every * 100))
    scripts.append(("a line of a million bytes", b"x" * 1000000 + b"\na cr 0 0 4\n"))
    return scripts


def main(program, *options):
    room = Room(program, "growths refused")
    largest = "--quick" not in options
    with_guests = room.write("largest_with_guests", Path(LARGEST).read_bytes() + GUESTS)
    scripts = long_scripts()
    every = b"".join(content + b"\n" for _, content in scripts[:-2])
    broken = b"".join((AUDIT / f"{name}.script").read_bytes() for name in BROKEN)
    for mode in ["onward", "once"]:
        refuse_each(room, "demo", ["demo"], (BOARDS / "guest.script").read_bytes(), mode, DEMO)
        refuse_each(room, "list, main board", ["list", MAIN], b"", mode)
        refuse_each(room, "list --json, main board", ["list", "--json", MAIN], b"", mode)
        refuse_each(room, "check --all, main board", ["check", "--all", MAIN], b"", mode)
        refuse_each(room, "check, many places", ["check", PLACES], b"", mode, PLACES, "105")
        refuse_each(room, "run, main board, empty script", ["run", MAIN], b"", mode)
        refuse_each(room, "run, main board", ["run", MAIN], every, mode)
        refuse_each(room, "run, malformed lines", ["run", MAIN], MALFORMED, mode)
        for verb, ends in [("audit", "ok"), ("ready", "208")]:
            refuse_each(room, f"{verb}, broken", [verb, AUDIT / "board.toml"], broken, mode, AUDIT / "board.toml", ends)
        if largest:
            refuse_each(room, "list, largest board", ["list", LARGEST], b"", mode, LARGEST)
            refuse_each(room, "run, largest board", ["run", with_guests], every, mode, with_guests)
    same_count(room, "run, main board", ["run", MAIN], scripts)
    if largest:
        same_count(room, "run, largest board", ["run", with_guests], scripts)
    if "--arrays" in options:
        streams = os.path.abspath(options[options.index("--arrays") + 1])
        same_count_in_arrays(room, streams, [("an empty script", b""), *scripts[:-2]])
    return room.end()


if __name__ == "__main__":
    sys.exit(0 if main(*sys.argv[1:]) else 1)
