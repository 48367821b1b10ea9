"""Random boards and scripts, answered by the program and by a second hand, which must agree.

    fuzz.py PROGRAM [--boards N] [--lines N] [--seed S] [--lone LONE_ANSWERS]

The first that differs is printed with its seed, and its files are kept. The same seed makes the same
boards and lines. The second hand is this folder: board files, set-up, reports, lines, guests and reads
by the host, as docs/PROFILE.md, docs/board-file.md and docs/script-language.md have them, without a line of
the program's code. With --lone a third answers: the crate test_lone_guest, which answers the lines of guests and the moves alone."""
import random
from collections import Counter
from pathlib import Path

from answers import World
from board import board_file, random_board
from compared import Room, first_difference, lines_of, options, report_json
from lone import guests_file
from placement import Refused
from reasons import reasons, text_of
from script import Writer


class Fuzz(Room):
    """A folder for files, and counts."""

    def __init__(self, program, lone, lines):
        super().__init__(program)
        self.lone, self.lines = lone and Path(lone).resolve(), lines
        self.answered, self.refused, self.fit = 0, Counter(), 0

    def one(self, seed):
        """One board with its report and its script."""
        rng = random.Random(seed)
        board = random_board(rng)
        text = board_file(board)
        self.write("board.toml", text)
        try:
            world = World(board)
        except Refused as refused:
            return self.check_refusal(seed, refused.args[0])
        report = world.layout.report()
        as_json = report_json.text_of(report.splitlines(), text) + "\n"
        self.compare(seed, "the report", (0, report, ""), self.run("list", "board.toml"))
        self.compare(seed, "the report as JSON", (0, as_json, ""), self.run("list", "--json", "board.toml"))
        self.fit += 1
        writer = Writer(rng, board, world.layout.bases)
        lines = [writer.line() for _ in range(self.lines)]
        self.check_script(seed, world, lines)
        self.check_firmware(seed, [writer.of_firmware(line) for line in lines[:40]])

    def check_refusal(self, seed, number):
        self.refused[number] += 1
        status, out, err = self.run("list", "board.toml")
        if status != 1 or out or f"fault {number} " not in err:
            self.differs(seed, "the refusal", f"{number}, {err}")

    def check_script(self, seed, world, lines):
        script = b"\n".join(lines) + b"\n"
        status, out, err = self.run("run", "board.toml", script=script)
        answers = [answer for answer in map(world.answer, lines) if answer is not None]
        told = text_of(reasons(lines, world.guests))
        if err != told:
            self.differs(seed, "why lines have no form", first_difference(told, err))
        self.compare(seed, "an answer", (0, lines_of(answers), ""), (status, out, ""))
        self.answered += len(lines)
        if self.lone:
            self.write("guests", guests_file(world.layout.board))
            wanted = lines_of(answer for answer in answers if not answer.host_read)
            self.compare(seed, "an answer of the lone guests", (0, wanted, ""), self.run("guests", script=script, program=self.lone))

    def check_firmware(self, seed, lines):
        """Why lines of firmware have no form."""
        err, why = self.run("firmware", "board.toml", script=b"\n".join(lines))[2], text_of(reasons(lines))
        if err != why:
            self.differs(seed, "why firmware's lines have no form", first_difference(why, err))


def main():
    chosen = options(__doc__, "program", "--lone", boards=500, lines=2000, seed=1)
    fuzz = Fuzz(chosen.program, chosen.lone, chosen.lines)
    for seed in range(chosen.seed, chosen.seed + chosen.boards):
        fuzz.one(seed)
    fuzz.end()
    refused = ", ".join(f"{number}: {count}" for number, count in sorted(fuzz.refused.items()))
    print(f"{fuzz.fit} boards set up, {sum(fuzz.refused.values())} refused ({refused}), "
          f"{fuzz.answered} lines: all agree")


if __name__ == "__main__":
    main()
