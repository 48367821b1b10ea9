"""The report on firmware that failed on a board: what is wrong, since which line, which lines wrote the registers, and why."""

from __future__ import annotations

import re
from typing import Iterable, List

from ._board_file import Document, text_of
from ._dirty import Dirty
from ._driven import Maker
from ._firmware_run import Run, reasons_after, since
from ._judge import KINDS, LEFT, kind_of
from ._writers import registers_of, story_of, why_unfound, writers

#: most lines of a kind in a report
MOST_WRONG, MOST_WRITERS = 100, 24


def counted(number: int, word: str) -> str:
    return f"{number} {word}{'s' * (number != 1)}"


def first_of(lines: Iterable[str], most: int, word: str) -> List[str]:
    """The first lines, and the number of the others."""
    every = list(lines)
    return [*every[:most], *([f"... and {counted(len(every) - most, f'more {word}')}"] if len(every) > most else [])]


class Report:
    """The report on a run that failed on a board."""

    def __init__(self, maker: Maker, document: Document, run: Run) -> None:
        self.maker, self.document, self.run = maker, document, run
        self.first = next((each for each in run.wrong if run.kind in KINDS and kind_of(each) != "room"), None)

    def lines(self) -> List[str]:
        """What is wrong, and everything that is known about it."""
        run = self.run
        told = [*(self.causes(self.first) if self.first else []), *first_of(run.wrong, MOST_WRONG, "problem")]
        told += [f"the second run begins at line {run.first_lines + 1}"] if run.first_lines else []
        return told + (self.told_since(self.first) if self.first else [])

    def causes(self, finding: str) -> List[str]:
        """Warnings about a function that the first problem names. Each may be the cause of the problem."""
        named = {at for at, _ in registers_of(self.document, finding)}
        return [f"warning: {each} (by line {self.run.since[each]})" for each in self.run.warnings
                if named & {at for at, _ in registers_of(self.document, each)}]

    def told_room(self) -> List[str]:
        """The lines which say that a board has room, and how firmware that exits with a status can say that it
        found none."""
        status = re.search(r"ended with status (\d+)", self.run.wrong[0])
        words = f", or --no-room {status[1]} if that status says that there is none" if status else ""
        return [f"set-up finds room for all regions: `pciguest list` shows where{words}"]

    def told_since(self, finding: str) -> List[str]:
        """The report of a problem: the line at which it appeared, and why it exists at the end, or after that
        line if it has gone; or why its function was never found. Before this, the report lists the lines
        that wrote the registers which this problem names, or which all problems at the end name."""
        run, document, text = self.run, self.document, text_of(self.document)
        count = len(run.lines)
        place = run.since.get(finding) or since(self.maker, document, run.lines, finding)
        told = f"{'the beginning' if isinstance(self.maker, Dirty) else 'reset'}: none of the {count} lines changed it"
        if place:
            told = f"line {place} of {count}: {run.lines[place - 1]}"
        lines = run.lines[:place] if finding in run.since else run.lines
        story = story_of(self.maker, text, document, lines)
        path = finding.split()[1].rstrip(":")
        unfound = story.unfound(path) if kind_of(finding) in LEFT else None
        if unfound:
            why = why_unfound(self.maker, text, run.lines, unfound, story.asked.get(unfound))
        else:
            why = reasons_after(self.maker, document, lines, finding)
        left = [each for each in run.wrong if each not in run.since and kind_of(each) != "room"][:MOST_WRONG]
        named = [finding] if finding in run.since else left
        wrote = dict.fromkeys(line for each in named for line in writers(story, document, each, count))
        last = max((at for at in run.printed if at <= place), default=0)
        printed = [f"before it, the firmware printed: {run.printed[last].strip().splitlines()[-1]}"] if run.printed.get(last, "").strip() else []
        return [f"the first of these appeared at {told}", *printed, *first_of(wrote, MOST_WRITERS, "register"), *why]
