"""What the programs of this folder share: a folder in which the program runs over a random board, and what stands above."""
import shutil
import subprocess
import sys
import tempfile
from pathlib import Path

sys.path.append(str(Path(__file__).resolve().parents[1]))
import audit_json
import report_json
from options import options


def lines_of(texts):
    return "".join(f"{text}\n" for text in texts)


def first_difference(ours, theirs):
    """The first line that differs."""
    mine, other = ours.split("\n"), theirs.split("\n")
    for place, pair in enumerate(zip(mine, other)):
        if pair[0] != pair[1]:
            return place, *pair
    return min(len(mine), len(other)), "end", "end"


class Room:
    """A folder with the board of one seed and its script, which is kept where something differs."""

    def __init__(self, program):
        self.program, self.folder = Path(program).resolve(), Path(tempfile.mkdtemp(prefix="fuzz-"))

    def write(self, name, text):
        (self.folder / name).write_bytes(text.encode() if isinstance(text, str) else text)

    def run(self, *words, script="", program=None):
        """How a program ends in this folder, or the program: its status, and what it writes."""
        self.write("script", script)
        how = {"cwd": self.folder, "input": (self.folder / "script").read_bytes(), "capture_output": True, "timeout": 120}
        ran = subprocess.run([program or self.program, *words], **how)
        return ran.returncode, ran.stdout.decode(), ran.stderr.decode()

    def differs(self, seed, what, told):
        print(f"seed {seed}: {what} differs: {told}; its files are in {self.folder}")
        sys.exit(1)

    def compare(self, seed, what, wanted, came):
        """Compares how a run ended with how it has to: the status, and what it writes."""
        if came != wanted:
            self.write("wanted", wanted[1])
            self.write("came", came[1])
            self.differs(seed, what, (came[0], came[2], *first_difference(wanted[1], came[1])))

    def end(self):
        shutil.rmtree(self.folder)
