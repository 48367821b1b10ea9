"""Runs the program and tells what it did: status, outputs, time and memory."""
import os
import re
import struct
import subprocess
import tempfile
from collections import namedtuple
from pathlib import Path

HERE = Path(__file__).resolve().parent
TOP = HERE.parent.parent
BOARDS = TOP / "boards"
AUDIT = TOP / "examples" / "audit"
MAIN = str(BOARDS / "main.toml")
LARGEST = str(BOARDS / "largest.toml")
PLACES = str(BOARDS / "refused" / "many_places.toml")

# the words of each number
FAULTS = {int(number): words for number, words in re.findall(
    r"^\| (\d{3}) \| `([^`]*)` \| ", (TOP / "docs/errors.md").read_text(encoding="utf-8"), re.M)}

# Growths of memory: all that a run makes, and those while the words of the command line are taken, until the board file
# is read and before standard input is first read; and reads of standard input and writes of standard output.
Counts = namedtuple("Counts", "growths for_words until_file_read before_reading reads writes")


def fault_line(number):
    """The first line that the program writes on standard error."""
    return f"pciguest: fault {number} {FAULTS[number]}\n".encode()


class Run(namedtuple("Run", "status out err passed worked kilobytes")):
    """How a run ended."""

    def answer(self):
        """The end in a few words."""
        if self.status == 0:
            return "ok"
        for number in FAULTS:
            if self.status == 1 and self.err.startswith(fault_line(number)):
                return str(number)
        return f"status {self.status}, standard error {self.err[:80]!r}"


class Room:
    """A folder for one part of the tests, with the tools that they need, and a tally."""

    def __init__(self, program, title):
        self.program, self.title = os.path.abspath(program), title
        self.folder = Path(tempfile.mkdtemp(prefix="hostile-"))
        self.passed, self.failed = 0, 0
        self.library = self.build("refuse.c", "refuse.so", "-shared", "-fPIC")
        self.measure = self.build("measure.c", "measure")

    def build(self, source, target, *flags):
        """A tool in C."""
        at = self.folder / target
        subprocess.run(["cc", "-O2", *flags, "-o", at, HERE / source], check=True)
        return str(at)

    def path(self, name):
        return str(self.folder / name)

    def write(self, name, content):
        """A file of this folder."""
        Path(self.path(name)).write_bytes(content)
        return self.path(name)

    def run(self, words, stdin=subprocess.DEVNULL, stdout=None, seconds=60, program=None, **environment):
        """Runs the program, or another, to its end. Words in capitals are the preloaded library's."""
        told = self.path("told")
        variables = {name: str(value) for name, value in environment.items()}
        if variables:
            variables["PRELOAD"] = self.library
        with open(self.path("out"), "w+b") as out, open(self.path("err"), "w+b") as err:
            subprocess.run([self.measure, told, str(seconds), program or self.program, *words], stdin=stdin,
                           stdout=out if stdout is None else stdout, stderr=err, env=variables)
            out.seek(0)
            err.seek(0)
            numbers = [int(word) for word in Path(told).read_text().split()]
            return Run(numbers[0], out.read(), err.read(), *numbers[1:])

    def run_script(self, words, script, **more):
        """Runs the program on a script in a file."""
        with open(self.write("script", script), "rb") as stdin:
            return self.run(words, stdin=stdin, **more)

    def counted(self, words, script, **more):
        """The same, and what it counts."""
        counts = self.path("counts")
        run = self.run_script(words, script, COUNTS=counts, **more)
        return run, Counts(*struct.unpack("6Q", Path(counts).read_bytes()))

    def expect(self, name, holds, why=""):
        """Counts a test."""
        if holds:
            self.passed += 1
        else:
            self.failed += 1
            print(f"FAILED: {name}: {why}", flush=True)

    def row(self, name, run, wanted, out=None):
        """Counts a run that must have this answer, and this output if it is given; prints a row."""
        holds = run.answer() == wanted and (out is None or run.out == out)
        self.expect(name, holds, f"{run.answer()} in place of {wanted}, output {run.out[:80]!r}")
        print(f"| {name} | {run.answer()} | {run.passed / 1000:.2f} | {run.kilobytes / 1024:.1f} |", flush=True)

    def end(self):
        """Takes the folder away, and tells the tally."""
        subprocess.run(["rm", "-rf", self.folder])
        print(f"{self.title}: {self.passed} passed, {self.failed} failed", flush=True)
        return self.failed == 0


def memory_of(process):
    """The most memory that a process has held until now, in KB."""
    for line in open(f"/proc/{process}/status"):
        if line.startswith("VmHWM"):
            return int(line.split()[1])
    return 0
