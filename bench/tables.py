"""The tables that `make bench` prints, which bench/compare reads; and instructions, which valgrind counts.

A table begins with a line of its title and its units, and has a row for each call: its name, and a figure for each unit, or
`-`. Two spaces or more stand between them."""
import re
import shutil
import subprocess
import sys
import tempfile
from pathlib import Path

UNITS = ("ns", "us", "ms", "MB", "instructions", "problems", "lacks", "lines")


def figure(value):
    """A figure as it is shown: three digits of what is below 100, and - for none."""
    return "-" if value is None else f"{value:.1f}" if value < 99.95 and value != int(value) else f"{value:.0f}"


def head(title, *units):
    print(f"{title:54}" + "".join(f"  {unit:>12}" for unit in units), flush=True)


def row(name, *figures):
    print(f"{name:54}" + "".join(f"  {figure(value):>12}" for value in figures), flush=True)


def calls(program, board, count, prefix=""):
    """A row for each call of a program that tells their nanoseconds, with the instructions of so many calls."""
    told = subprocess.run([program, board], stdout=subprocess.PIPE, text=True, check=True).stdout.splitlines()
    counted = instructions([program, board, count], count)
    for index, line in enumerate(told):
        name, time = line.rsplit(maxsplit=1)
        row(prefix + name, float(time), counted[index] if index < len(counted) else None)


def missing_valgrind():
    """Says so where instructions can't be counted."""
    if not shutil.which("valgrind"):
        print("valgrind is missing, so no instructions are counted. On Debian: apt-get install valgrind")
        return True
    return False


def whole(words, given):
    """The instructions of a program from its beginning to its end, with what it is given to read; and 0 where they can't be
    counted."""
    if not shutil.which("valgrind"):
        return 0
    with tempfile.TemporaryDirectory() as room:
        counted = ["valgrind", "--tool=callgrind", f"--callgrind-out-file={room}/out"]
        told = subprocess.run(counted + list(map(str, words)), input=given, text=True, stdout=subprocess.DEVNULL,
                              stderr=subprocess.PIPE)
        found = re.search(r"^totals: (\d+)", Path(f"{room}/out").read_text(), re.MULTILINE)
    if not found:
        sys.exit(f"{words[0]} under valgrind: {told.stderr[-2000:]}")
    return int(found[1])


def instructions(words, count):
    """The instructions of a call, for each span between two times that a program asks for, in which it makes so many. Calls
    that the program makes between spans don't count. None are told where the program can't be counted."""
    if not shutil.which("valgrind"):
        return []
    with tempfile.TemporaryDirectory() as room:
        counted = ["valgrind", "--tool=callgrind", "--dump-before=clock_gettime*", f"--callgrind-out-file={room}/out"]
        told = subprocess.run(counted + list(map(str, words)), stdout=subprocess.DEVNULL, stderr=subprocess.PIPE, text=True)
        if told.returncode:
            sys.exit(f"{words[0]} under valgrind: {told.stderr[-2000:]}")
        dumps = sorted(Path(room).glob("out.*"), key=lambda file: int(file.suffix[1:]))
        totals = [int(re.search(r"^totals: (\d+)", dump.read_text(), re.MULTILINE)[1]) for dump in dumps]
    # the first dump ends at the first time, and the second, the fourth and so on at the end of a span
    return [total / count for total in totals[1::2]]


def run(main, words):
    """Runs a program of this folder by its words, and ends with its status."""
    if len(sys.argv) != 1 + len(words.split()):
        sys.exit(f"usage: bench/{Path(sys.argv[0]).name} {words}")
    sys.exit(main(*sys.argv[1:]))
