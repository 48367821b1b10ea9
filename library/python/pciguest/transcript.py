"""Transcripts: lines with their replies, which are recorded from the library or the program, and replayed
against anything that answers lines.

    python3 -m pciguest.transcript record run|firmware BOARD [-- COMMAND..] < LINES
    python3 -m pciguest.transcript replay FILE.. [--guest NAME] [-- COMMAND..]

A transcript has sections. Each begins with `== run BOARD: TITLE` or `== firmware BOARD: TITLE`, where BOARD is
a board file in the directory of the transcript, and contains rows `LINE -> REPLY`. For each section, COMMAND is
run with the argument `run` or `firmware` and the board file, and answers lines as the program `pciguest` does.
Without a COMMAND, the library answers. A back end in Python is a class with the methods of `BackEnd`, which
`replay` compares with a section.

If a reply differs, the first difference in a section is reported, with the rule that decides it, and whether
the rule comes from the standards or only from the profile (docs/own.toml).
"""

from __future__ import annotations

import argparse
import sys
import tempfile
from pathlib import Path
from typing import Callable, Iterable, Iterator, List, NamedTuple, Optional, Protocol, Set, Tuple, Union

from ._board import Board
from ._calls import CONFIG, IO, MEMORY
from ._child import CannotStart, Child, Limits, Misbehaviour
from ._files import told_whole
from ._lines import LONGEST, access_of, is_question, number_of
from ._machine import Machine
from ._recording import RecordedBoard as RecordedBoard
from ._recording import RecordedMachine as RecordedMachine
from ._refusal import Refusal

ARROW = " -> "


class Section(NamedTuple):
    """A sequence of lines for a board: `run` or `firmware`, the board file, and each line with its reply or
    None."""

    mode: str
    board: str
    title: str
    rows: List[Tuple[str, Optional[str]]]


class BackEnd(Protocol):
    """Anything that answers lines. `begin` makes a board from the text of its file, in the mode `run` or
    `firmware`. `answer` returns a reply such as `a: 0x00011234`, or None if the back end doesn't answer such
    lines. Then the line isn't compared, and neither is a line that reads bits set by a raise that wasn't
    answered."""

    def begin(self, mode: str, board: str) -> None: ...
    def answer(self, line: str) -> Optional[str]: ...
    def close(self) -> None: ...


class Library:
    """The library as a back end."""

    def begin(self, mode: str, board: str) -> None:
        self.over: Union[Machine, Board] = Machine(board) if mode == "run" else Board(board)

    def answer(self, line: str) -> Optional[str]:
        return self.over.run_line(line)

    def close(self) -> None:
        self.over.close()


class GuestBackEnd:
    """A back end with the functions of a guest, as a hypervisor assigns them to a virtual machine. Your
    subclass creates them in `begin`, from the board file, and defines `read` and `write`: an aligned access
    of 1, 2 or 4 bytes, to a slot's configuration space (`config`) by offset, or to a port (`io`) or an
    address (`memory`), for which the slot has no meaning. It doesn't answer lines that are refused, raises,
    moves and host reads."""

    SPACES = {CONFIG: ("config", 0xFF), IO: ("io", 0xFFFFFFFF), MEMORY: ("memory", (1 << 64) - 1)}

    def begin(self, mode: str, board: str) -> None:
        raise NotImplementedError

    def read(self, space: str, slot: int, place: int, width: int) -> int:
        raise NotImplementedError

    def write(self, space: str, slot: int, place: int, width: int, value: int) -> None:
        raise NotImplementedError

    def close(self) -> None:
        pass

    def answer(self, line: str) -> Optional[str]:
        asked = access_of(line.encode(), lambda name: None if name == b"host" else 0)
        if asked is None or len(line.encode()) > LONGEST:
            return None
        (_, kind, slot, place, width), value = asked
        name, (space, last) = line.split()[0], self.SPACES[kind]
        if width not in (1, 2, 4) or place % width or slot > 31 or place > last or (value or 0) >> 32:
            return None
        if value is None:
            return f"{name}: 0x{self.read(space, slot, place, width):0{2 * width}x}"
        self.write(space, slot, place, width, value & (1 << 8 * width) - 1)
        return f"{name}: ok"


class Process:
    """A command as a back end. It is run with the mode and a board file as its last arguments, and answers
    lines."""

    def __init__(self, command: List[str], limits: Limits = Limits()) -> None:
        self.command, self.limits = command, limits

    def begin(self, mode: str, board: str) -> None:
        self.room = tempfile.TemporaryDirectory()
        file = Path(self.room.name) / "board.toml"
        file.write_text(board)
        self.child = Child([*self.command, mode, str(file)], self.limits)
        self.replies = self.child.lines()

    def answer(self, line: str) -> Optional[str]:
        if not has_reply(line):
            return None
        self.child.answer(line)
        told = [self.reply()]
        # where the board isn't given to its guests, a line says why before it is refused
        while line.split() == ["host", "guests"] and not told[-1].startswith("host: "):
            told.append(self.reply())
        return "\n".join(told)

    def reply(self) -> str:
        reply = next(self.replies, None)
        if reply is None:
            raise Misbehaviour("dies", "ended before its last line")
        return reply.decode("utf-8", "backslashreplace")

    def close(self) -> None:
        self.child.close()
        self.room.cleanup()


def has_reply(line: str) -> bool:
    """Whether a line is neither blank nor a comment."""
    words = line.split()
    return bool(words) and not words[0].startswith("#")


# ---- the text of transcripts


def text_of(sections: Iterable[Section]) -> str:
    lines: List[str] = []
    for section in sections:
        lines.append(f"== {section.mode} {section.board}: {section.title}")
        lines += [line if reply is None else f"{line}{ARROW}{reply}" for line, reply in section.rows]
    return "".join(f"{line}\n" for line in lines)


def read(text: str) -> List[Section]:
    """The sections of a transcript. Spaces before an arrow aren't part of the line, and # begins a comment."""
    found: List[Section] = []
    for count, line in enumerate(text.splitlines(), 1):
        if line.startswith("== "):
            head, _, title = line[3:].partition(": ")
            mode, _, board = head.partition(" ")
            if mode not in ("run", "firmware") or not board:
                raise ValueError(f"line {count}: not a section of a transcript: {line}")
            found.append(Section(mode, board, title, []))
        elif has_reply(line):
            asked, arrow, reply = line.partition(ARROW)
            if not arrow or not found:
                raise ValueError(f"line {count}: not a row of a transcript: {line}")
            found[-1].rows.append((asked.rstrip(" "), reply))
    return found


def record(back_end: BackEnd, mode: str, board: str, name: str, title: str, lines: Iterable[str]) -> Section:
    """A section with a back end's replies. The board is given as a text, and the section contains its name.
    Queries such as `host ready` are left out, and so are replies of several lines, such as that of a `host
    guests` that is refused. None of these lines changes anything."""
    back_end.begin(mode, board)
    try:
        rows = ((line, back_end.answer(line)) for line in lines if not is_question(line))
        return Section(mode, name, title, [(line, reply) for line, reply in rows if reply and "\n" not in reply])
    finally:
        back_end.close()


# ---- replays


class Difference(NamedTuple):
    """The first row of a section with a different reply: its number, from 1, both replies, and the rule."""

    section: Section
    row: int
    line: str
    wanted: Optional[str]
    came: Optional[str]
    rule: str

    def __str__(self) -> str:
        return (f"{self.section.board}, {self.section.title}: row {self.row} of {len(self.section.rows)}: {self.line}\n"
                f"  wanted {self.wanted}\n  came   {self.came}\n  {self.rule}")


def rule_at(section: Section, board: str, row: int, came: Optional[str]) -> str:
    """The rule that decides a row."""
    from . import _rules

    library = Library()
    try:
        library.begin(section.mode, board)
    except ImportError:
        return "the rule is looked up in the library, which is not here"
    try:
        for line, _ in section.rows[:row]:
            library.answer(line)
        line, wanted = section.rows[row]
        return _rules.told(_rules.rule(library.over, line, wanted, came))
    finally:
        library.close()


def rows_for(section: Section, guest: Optional[str]) -> Iterator[Tuple[int, str, Optional[str]]]:
    """The rows with their positions: all of them, or those of one guest, whose replies don't depend on the
    others."""
    for place, (line, reply) in enumerate(section.rows):
        if guest is None or line.split()[0] == guest:
            yield place, line, reply


def takes_part(section: Section, guest: str) -> bool:
    """Whether a guest has rows in a section, and no move involves it."""
    words = [line.split() for line, _ in section.rows]
    return section.mode == "run" and any(line[0] == guest for line in words) and not any(
        line[:2] == ["host", "move"] and guest in line for line in words)


class Raised:
    """Bytes that were set by raises. A back end that doesn't answer raises can't know their values."""

    def __init__(self) -> None:
        self.cells: Set[Tuple[str, int, int]] = set()
        self.has_regions = False

    def add(self, name: str, slot: str, part: str, offset: str, _mask: str) -> None:
        """Records a raise."""
        if part == "cfg":
            self.cells.add((name, number_of(slot.encode()) or 0, number_of(offset.encode()) or 0))
        else:
            self.has_regions = True

    def may_stand_in(self, line: str) -> bool:
        """Whether a line may read one of these bytes."""
        asked = access_of(line.encode(), lambda name: 0)
        if asked is None or asked.value is not None:
            return False
        _, space, slot, place, width = asked.access
        if space == CONFIG:
            return any((line.split()[0], slot, place + n) in self.cells for n in range(width))
        return self.has_regions or space == IO and bool(self.cells) and 0xCFC <= place <= 0xCFF


def replay(back_end: BackEnd, section: Section, board: str, guest: Optional[str] = None) -> Optional[Difference]:
    """The first difference between a section and a back end's replies, or None."""
    raised = Raised()
    back_end.begin(section.mode, board)
    try:
        for place, line, wanted in rows_for(section, guest):
            try:
                came = back_end.answer(line)
            except Misbehaviour as wrong:
                return Difference(section, place + 1, line, wanted, f"nothing: the back end {wrong.told}", "")
            words = line.split()
            if came is None and words[1:2] == ["raise"] and wanted == f"{words[0]}: ok":
                raised.add(words[0], *words[2:])
            if came is not None and came != wanted and not raised.may_stand_in(line):
                return Difference(section, place + 1, line, wanted, came, rule_at(section, board, place, came))
    finally:
        back_end.close()
    return None


def replay_files(files: Iterable[str], back_end: BackEnd, guest: Optional[str] = None,
                 tell: Callable[[str], None] = print) -> Tuple[int, int]:
    """Replays all sections of some transcripts, prints what differs, and returns how many sections agree and
    how many don't."""
    agree = differ = 0
    for file in files:
        for section in read(Path(file).read_text()):
            if guest is not None and not takes_part(section, guest):
                continue
            board = (Path(file).parent / section.board).read_text()
            difference = replay(back_end, section, board, guest)
            agree, differ = agree + (difference is None), differ + (difference is not None)
            if difference:
                tell(f"{file}: {difference}")
    return agree, differ


def parser() -> argparse.ArgumentParser:
    words = argparse.ArgumentParser(prog="python3 -m pciguest.transcript", description="Records lines with their replies, "
                                    "and replays them. Status 1 says that a reply differs.")
    kinds = words.add_subparsers(dest="kind", required=True)
    recording = kinds.add_parser("record", help="writes a transcript of the lines on standard input")
    recording.add_argument("mode", choices=["run", "firmware"])
    recording.add_argument("board")
    replaying = kinds.add_parser("replay", help="compares replies with transcripts")
    replaying.add_argument("--guest", metavar="NAME", help="only the lines of this guest")
    replaying.add_argument("files", nargs="+", metavar="FILE")
    return words


def main(given: Optional[List[str]] = None) -> int:
    given = sys.argv[1:] if given is None else given
    at = given.index("--") if "--" in given else len(given)
    options, command = parser().parse_args(given[:at]), given[at + 1 :]
    back_end: BackEnd = Library()
    if command:
        back_end = Process(command)
    try:
        if options.kind == "record":
            lines = (line.rstrip("\n") for line in sys.stdin)
            name = Path(options.board).name
            section = record(back_end, options.mode, Path(options.board).read_text(), name, "recorded", lines)
            sys.stdout.write(text_of([section]))
            return 0
        agree, differ = replay_files(options.files, back_end, options.guest)
    except BrokenPipeError:
        raise
    except (OSError, ValueError, ImportError, CannotStart, Misbehaviour, Refusal) as error:
        print(error, file=sys.stderr)
        return 2
    print(f"{agree + differ} transcripts: {agree} agree, {differ} differ")
    return 1 if differ else 0


if __name__ == "__main__":
    sys.exit(told_whole(main))
