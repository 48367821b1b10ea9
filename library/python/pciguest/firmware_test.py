"""Runs firmware on many boards, and finds a small board on which it fails.

    python3 -m pciguest.firmware_test [OPTION..] -- COMMAND [WORD..]

The firmware can be a program in any language. It writes each access as a line to standard output, such as `host
cr 00:02.0 0 4`, and reads the reply from standard input. Each board is in its reset state when the firmware
starts. When the firmware has set the board up, it exits with status 0. docs/firmware-testing.md explains more.
"""

from __future__ import annotations

import argparse
import os
import shlex
import sys
import time
from collections import Counter
from pathlib import Path
from typing import Dict, Iterator, List, NamedTuple, Optional, Tuple, Union

from . import _junit, _log
from ._board_file import Document, apertures, functions, text_of
from ._drawing import PARTED, PLAIN, WIDE, Apertures, RandomChoices, draw_board
from ._child import CannotStart, Limits
from ._dirty import Dirty
from ._driven import Library, Maker, Program, ProgramFailed
from ._files import find, told_whole
from ._firmware_run import Asked, Firmware, Run
from ._judge import KINDS, kind_of
from ._report import Report, counted
from ._shrink import shrunk
from ._special import SPECIAL
from ._tight import TOO_SMALL, cut, halved, tight, too_small, widened
from ._toml import document_of

#: boards of the folder `boards`, each of which can be set up
EXAMPLES = ["main", "server", "second_bridge", "kinds", "chain", "guest_elsewhere"]


class Named(NamedTuple):
    """A board, its name, the arguments that select only this board, the number with which set-up refuses it, and
    what a failure there has to do with lack of room."""

    name: str
    document: Document
    again: str
    refusal: Optional[int]
    room: str = ""

    @property
    def how(self) -> str:
        return f", {self.room}" if self.room else ""


class Usage(Exception):
    """Why arguments or files can't be used."""


def aperture(word: str) -> Tuple[int, int]:
    """An aperture as FIRST-LAST."""
    first, dash, last = word.partition("-")
    try:
        return int(first, 0), int(last, 0)
    except ValueError:
        raise argparse.ArgumentTypeError(f"{word} isn't a range such as 0x1000-0xffff") from None


def natural(word: str) -> int:
    """A number, 0 or higher."""
    if not word.isdecimal():
        raise argparse.ArgumentTypeError(f"{word} isn't a number (0 or higher)")
    return int(word)


def no_room(word: str) -> Union[int, str]:
    """How firmware says that there is no room: a status or a text."""
    return int(word) if word.isdigit() else word


def called() -> List[str]:
    """The command that runs this test: pciguest-firmware-test as it was typed, or else the module."""
    typed = os.environ.get("PCIGUEST_FIRMWARE_TEST")
    return [typed] if typed else ["python3", "-m", "pciguest.firmware_test"]


def parser() -> argparse.ArgumentParser:
    words = argparse.ArgumentParser(
        prog=shlex.join(called()),
        usage="%(prog)s [OPTION..] -- COMMAND [WORD..]",
        description="Runs firmware on many boards, and finds a small board on which it fails. The exit status is 1 if the "
        "firmware fails on a board, and 2 if the arguments or files can't be used.",
    )
    words.add_argument("--boards", type=natural, default=100, metavar="N", help="number of random boards (100)")
    words.add_argument("--seed", type=int, default=1, metavar="S", help="seed of the first random board (1)")
    words.add_argument("--bridges", type=natural, default=6, metavar="N", help="most bridges on a random board (6)")
    words.add_argument("--max-device", type=int, choices=range(32), default=31, metavar="N",
                       help="leave out boards with devices above N (31): for firmware that looks no further on purpose")
    words.add_argument("--board", action="append", default=[], metavar="FILE", help="test only this board file")
    words.add_argument("--special", action="append", default=[], choices=SPECIAL, metavar="NAME",
                       help=f"test only the special board with this name: {', '.join(SPECIAL)}")
    words.add_argument("--time", type=float, default=10, metavar="SECONDS",
                       help="longest time without a line; a whole run may take twenty times as long (10)")
    words.add_argument("--lines", type=natural, default=200_000, metavar="N", help="most lines on a board (200000)")
    words.add_argument("--io", type=aperture, metavar="FIRST-LAST", help="the ports that the firmware assigns")
    words.add_argument("--mem", type=aperture, metavar="FIRST-LAST", help="the memory addresses that the firmware assigns")
    words.add_argument("--pref", type=aperture, metavar="FIRST-LAST", help="the prefetchable memory addresses that the firmware assigns")
    words.add_argument("--allow", action="append", default=[], choices=KINDS, metavar="KIND",
                       help=f"ignore findings of this kind: {', '.join(KINDS)}")
    words.add_argument("--bus-master", action=argparse.BooleanOptionalAction, default=True,
                       help="report bridges without Bus Master that have endpoints behind them (on)")
    words.add_argument("--transients", action="store_true",
                       help="things that are wrong only while the firmware writes are failures instead of warnings")
    words.add_argument("--warm", action="store_true", help="run the firmware a second time, on the board as the first run left it")
    words.add_argument("--dirty", type=natural, metavar="SEED", help="begin with random registers, as if other firmware had run before")
    words.add_argument("--no-room", type=no_room, metavar="STATUS|TEXT",
                       help="how the firmware reports that a board has no room for all regions: it exits with this status (0 "
                       "means any status except 0), or its standard error contains this text. It may then also report "
                       "this on a board on which set-up finds room")
    words.add_argument("--tight", action="store_true",
                       help="also boards with less than twice the room that set-up needs; many have none to spare")
    words.add_argument("--all", action="store_true", help="test all boards, and print a line for each failure, without looking for a smaller board")
    words.add_argument("--shrink", type=float, default=60, metavar="SECONDS", help="time to look for a smaller board (60)")
    words.add_argument("--save", default="failed.toml", metavar="FILE", help="file for the board on which the firmware fails (failed.toml)")
    words.add_argument("--log", metavar="FILE", help="file for the lines on the board on which the firmware fails, or else on the "
                       "last board, with their replies and with what the firmware printed before each on standard error")
    words.add_argument("--junit", metavar="FILE", help="file for the results in JUnit format")
    words.add_argument("--program", metavar="FILE", help="use this pciguest program instead of the library")
    words.add_argument("command", nargs="+", metavar="COMMAND")
    return words


class Test:
    """A test of firmware, with the arguments of its command line."""

    def __init__(self, options: argparse.Namespace, maker: Optional[Maker] = None) -> None:
        self.options, self.maker = options, maker or (Program(options.program) if options.program else Library())
        if options.dirty is not None:
            self.maker = Dirty(self.maker, options.dirty)
        self.limits = Limits(options.time, 20 * options.time, options.lines)
        self.results: List[_junit.Result] = []
        self.warnings: Dict[str, List[Tuple[Named, Run, str]]] = {}

    def firmware(self, limits: Optional[Limits] = None) -> Firmware:
        allowed = frozenset([*self.options.allow, *([] if self.options.bus_master else ["master"])])
        asked = Asked(allowed, self.options.transients, self.options.no_room, self.options.warm)
        return Firmware(self.options.command, self.maker, limits or self.limits, asked)

    def refusal(self, document: Document) -> Optional[int]:
        return self.maker.refusal(text_of(document))

    # ---- boards

    def boards(self) -> Iterator[Named]:
        """The boards that the arguments select, or else those in `boards`, the special ones and the random
        ones."""
        if self.options.board or self.options.special:
            yield from (self.read(Path(file), file) for file in self.options.board)
            yield from map(self.special, self.options.special)
            return
        for file in example_files():
            yield self.read(file, f"the example {file.name}")
        yield from map(self.special, SPECIAL)
        yield from map(self.random, range(self.options.seed, self.options.seed + self.options.boards))

    def named(self, name: str, document: Document, again: str) -> Named:
        return Named(name, document, again, self.refusal(document))

    def special(self, name: str) -> Named:
        """A special board. With --tight, its apertures are just large enough. If memory is given, there is no
        other memory."""
        document, given = SPECIAL[name](), self.given()
        own = {key: value for key, value in document["host"].items() if key != "pref" or "mem" not in given}
        document = {**document, "host": {**own, **given}}
        for key in apertures(document):
            if key not in given and self.options.tight and self.refusal(document) is None:
                document = cut(document, key, self.refusal)
        return self.named(f"the special board {name}", document, f"--special {name}")

    def random(self, seed: int) -> Named:
        """A random board. With --tight, one in three has no room to spare, and one in nine too little room."""
        given = self.given()
        spaces = [PLAIN._replace(**{key: (first, last) for key, (first, last) in given.items()})] if given else [PLAIN, WIDE, PARTED]
        choices, last_device = RandomChoices(seed), self.options.max_device
        document = draw_board(choices, self.options.bridges, spaces, guests=False, last_device=last_device)
        if self.refusal(document) is None and self.options.tight and (seed % 3 == 1 or seed % 9 == 3):
            document = tight(document, list(given), choices, self.refusal)
            document = (too_small(document, choices, self.refusal) if seed % 9 == 3 else None) or document
        return self.named(f"random board {seed}", document, f"--boards 1 --seed {seed}")

    def given(self) -> Dict[str, List[int]]:
        """The apertures in the arguments, which replace those of each board."""
        values = {key: getattr(self.options, key) for key in ("io", "mem", "pref")}
        return {key: list(value) for key, value in values.items() if value}

    def read(self, file: Path, name: str) -> Named:
        try:
            document = document_of(file.read_text())
            host = {**document["host"], **self.given()}
        except (OSError, ValueError, KeyError, TypeError) as error:
            raise Usage(f"{file}: {error}") from None
        return self.named(name, {**document, "host": host}, f"--board {shlex.quote(str(file))}")

    def why_left_out(self, board: Named) -> Optional[str]:
        """Why a board is skipped, unless it was selected by name."""
        if self.options.board or self.options.special:
            return None
        if max(device for one in functions(board.document) for device, _ in one.path) > self.options.max_device:
            return f"devices above {self.options.max_device}"
        if board.refusal is None and not self.options.tight and self.refusal(halved(board.document)) is not None:
            return "less than twice the room that set-up needs (--tight takes these)"
        return "no room in these addresses" if board.refusal in TOO_SMALL.values() and board.again.startswith("--board ") else None

    def usage(self, board: Named) -> Usage:
        """Reports that a board can't be set up at all, and which file shows why."""
        file = board.name
        if self.given():
            file = self.options.save
            Path(file).write_text(text_of(board.document))
        return Usage(f"{board.name} cannot be set up{' with these addresses' if self.given() else ''}; "
                     f"`pciguest check {file}` says why")

    # ---- runs

    def tried(self, board: Named) -> Tuple[Named, Run]:
        """Runs the firmware on a board. If it reports no room where set-up finds room, it is run again with wide
        apertures, to find out why. If it fails there in another way, the board with wide apertures is returned."""
        run = self.firmware().run(board.document, board.refusal is None)
        wide = board._replace(document=widened(board.document), room="with wide apertures; in those of the board it finds no room")
        if board.refusal or not (run.gave_up or run.has_status) or self.given() or self.refusal(wide.document):
            return board, run
        other = self.firmware().run(wide.document)
        if other.wrong and other.kind != "dies":
            return wide, other
        return (board if other.wrong else board._replace(room="for lack of room alone: with wide apertures it is ready")), run

    def smallest(self, board: Named, run: Run) -> Document:
        """The smallest board that is found on which the firmware fails in the same way. If the firmware hangs,
        it gets less time: twenty times its longest silence before."""
        silence = min(self.limits.silence, max(1, 20 * run.longest_silence)) if run.kind == "hangs" else self.limits.silence
        firmware = self.firmware(self.limits._replace(silence=silence))

        def fails(candidate: Document) -> bool:
            if self.refusal(candidate) != board.refusal:
                return False
            found = firmware.run(candidate, board.refusal is None)
            return found.kind == run.kind and bool(found.first_lines) == bool(run.first_lines)

        return shrunk(board.document, fails, self.options.shrink)

    def test(self) -> int:
        """Runs the firmware on all boards, up to the first on which it fails, or up to the last."""
        left_out: Counter[str] = Counter()
        without_room, gave_up, failed = 0, 0, 0
        for board in self.boards():
            if board.refusal not in (None, *TOO_SMALL.values()):
                raise self.usage(board)
            why = self.why_left_out(board)
            if why:
                left_out[why] += 1
                continue
            begun = time.monotonic()
            board, run = self.tried(board)
            took = time.monotonic() - begun
            if self.options.log and not failed:
                _log.write(self.options.log, board.name, run)
            told = "" if not run.wrong else self.in_a_line(board, run) if self.options.all else self.failure(board, run)
            self.results.append(_junit.Result(board.name, took, run.wrong[0] if run.wrong else None, told))
            for warning in run.warnings:
                self.warnings.setdefault(kind_of(warning), []).append((board, run, warning))
            if run.wrong:
                print(told, flush=True)
                failed += 1
                if not self.options.all:
                    break
            without_room += (board.refusal is not None or run.gave_up) and not run.wrong
            gave_up += board.refusal is None and run.gave_up and not run.wrong
        if not failed:
            self.tell_ready(without_room, gave_up)
        elif self.options.all:
            print(f"{counted(len(self.results), 'board')}: the firmware fails on {failed}")
        for why, number in left_out.items():
            print(f"{counted(number, 'board')} left out: {why}")
        self.tell_warnings()
        return int(failed > 0)

    def in_a_line(self, board: Named, run: Run) -> str:
        """The line for a board on which the firmware fails, if the test continues after it."""
        kinds = Counter(map(kind_of, run.wrong) if run.kind in KINDS else [run.kind])
        counts = ", ".join(f"{kind} {count}" for kind, count in kinds.items())
        return f"FAILED on {board.name} ({counts}){board.how}: {run.wrong[0]}"

    def tell_ready(self, without_room: int, gave_up: int) -> None:
        full = f"; the firmware reports no room on {without_room}" if without_room else ""
        found = f"; set-up finds room on {gave_up} of these" if gave_up else ""
        print(f"{counted(len(self.results), 'board')}: {len(self.results) - without_room} ready{full}{found}")

    def tell_warnings(self) -> None:
        """Prints the first warning of each kind."""
        for each in self.warnings.values():
            board, run, warning = each[0]
            place = run.since[warning]
            more = len({other.name for other, _, _ in each}) - 1
            print(f"warning: {warning}\n  by line {place} of {len(run.lines)} on {board.name}: {run.lines[place - 1]}"
                  + (f"; so on {counted(more, 'other board')}" if more else ""))

    def failure(self, board: Named, run: Run) -> str:
        """The whole report of a board on which the firmware fails."""
        small = self.smallest(board, run)
        last = run if small == board.document else self.firmware().run(small, board.refusal is None)
        if last.kind != run.kind:  # it doesn't do the same each time
            small, last = board.document, run
        Path(self.options.save).write_text(text_of(small))
        if self.options.log:
            _log.write(self.options.log, self.options.save, last)
        count, least = (counted(len(functions(each)), "function") for each in (board.document, small))
        again = [*called(), *self.repeated()]
        report = Report(self.maker, small, last)
        lines = [f"FAILED on {board.name} ({count}), and on this board ({least}){board.how}:", "", text_of(small).rstrip(), ""]
        lines += [*report.lines(), *(report.told_room() if last.kind == "dies" and board.refusal is None else [])]
        lines += ["", "its standard error:", last.last_words] if last.last_words else []
        lines += ["", f"all its lines:     {self.options.log}"] if self.options.log else []
        words = shlex.join([*again, "--board", self.options.save, "--", *self.options.command])
        lines += ["", f"this board again:  {words}"]
        words = f"{shlex.join(again)} {board.again} -- {shlex.join(self.options.command)}"
        return "\n".join([*lines, f"the first one:     {words}"])

    def repeated(self) -> List[str]:
        """The arguments that say what is required of the firmware."""
        options, words = self.options, []
        for key in ("io", "mem", "pref"):
            words += [f"--{key}", "{:#x}-{:#x}".format(*getattr(options, key))] if getattr(options, key) else []
        words += [word for kind in options.allow for word in ("--allow", kind)]
        words += [f"--{key}" for key in ("transients", "warm", "tight") if getattr(options, key)]
        words += [] if options.bus_master else ["--no-bus-master"]
        for key in ("no_room", "dirty", "bridges", "max_device", "time", "lines", "program"):
            value = getattr(options, key)
            if value != parser().get_default(key):
                words += [f"--{key.replace('_', '-')}", f"{value:g}" if key == "time" else str(value)]
        return words


def example_files() -> List[Path]:
    """The files in `boards`, in the repository or where they are installed."""
    try:
        folder = find("boards", "boards")
    except FileNotFoundError:  # as where pip installed the module alone
        return []
    return [folder / f"{name}.toml" for name in EXAMPLES]


def main(words: Optional[List[str]] = None, maker: Optional[Maker] = None) -> int:
    options = parser().parse_args(words)
    test = Test(options, maker)
    try:
        status = test.test()
    except (Usage, CannotStart, ProgramFailed, ImportError) as error:
        print(error, file=sys.stderr)
        return 2
    finally:
        if options.junit:
            _junit.write(options.junit, test.results)
    return status


if __name__ == "__main__":
    sys.exit(told_whole(main))
