"""One run of firmware on a board: its lines with their replies, and what is wrong after them."""

from __future__ import annotations

import re
from contextlib import closing
from typing import Dict, FrozenSet, List, NamedTuple, Optional, Union

from ._board_file import APERTURES, Document, text_of
from ._child import Child, Limits, Misbehaviour
from ._driven import Maker
from ._ending import ENDINGS, endings
from ._follow import Follower
from ._judge import TRANSIENTS, findings, kind_of, same_problem
from ._reasons import reasons
from ._watch import Watch

REFUSED = re.compile(r"\S+ refused (\d+) ")
#: numbers with which a line is refused that isn't an access; other refused lines are accesses that no board accepts
NO_ACCESS = {"401", "402", "403"}


class Run(NamedTuple):
    """The lines of firmware with their replies, and what is wrong, in order; `kind` is the kind of the first
    finding. `since` contains the line of each finding about a line, including warnings, which aren't wrong.
    If there was a second run, `first_lines` is the number of lines in the first. `gave_up` says whether the
    firmware reported that the board has no room. `printed` contains what it wrote to its standard error, by
    the number of the line that came after it. If the firmware misbehaved, the end of its standard error
    is kept, and how long it was silent."""

    lines: List[str]
    replies: List[Optional[str]]
    wrong: List[str]
    kind: Optional[str]
    since: Dict[str, int] = {}
    warnings: List[str] = []
    last_words: str = ""
    longest_silence: float = 0
    first_lines: int = 0
    gave_up: bool = False
    printed: Dict[int, str] = {}

    @property
    def has_status(self) -> bool:
        """Whether firmware ended with a status but 0, which set-up's finding room made wrong."""
        return self.kind == "dies" and "ended with status" in self.wrong[0]


class Asked(NamedTuple):
    """What is required of firmware: everything except what is allowed, by kind; no transients, unless they are
    warnings; a second run on the board as the first left it; and how the firmware reports that a board has
    no room: by a status (0 means any status except 0), or by a text on standard error. If neither is given,
    any status except 0 reports it, but only on boards without room."""

    allowed: FrozenSet[str] = frozenset()
    transients: bool = False
    no_room: Union[int, str, None] = None
    is_warm: bool = False

    def is_said(self, has_room: bool, status: Optional[int], last_words: str) -> bool:
        """Whether firmware that ended has reported that there is no room."""
        if isinstance(self.no_room, str):
            return self.no_room in last_words
        if status is None or has_room and self.no_room is None:
            return False
        return status == self.no_room if self.no_room else status > 0


def environment(document: Document) -> Dict[str, str]:
    """The environment variables that tell firmware the apertures, as 'FIRST LAST', or empty if the board has no
    such aperture."""
    host = document["host"]
    return {
        f"PCIGUEST_{key.upper()}": " ".join(f"{end:#x}" for end in host[key]) if key in host else ""
        for key in APERTURES
    }


class Firmware:
    """A command that runs on boards."""

    def __init__(self, command: List[str], maker: Maker, limits: Limits, asked: Asked = Asked()) -> None:
        self.command, self.maker, self.limits, self.asked = command, maker, limits, asked

    def run(self, document: Document, has_room: bool = True) -> Run:
        """Runs the firmware to its end on a board in its reset state and, if this is requested, again on the
        board as the first run left it."""
        run = Run([], [], [], None, {}, printed={})
        with closing(self.maker.board(text_of(document))) as board:
            watch = Watch(board, document)
            run = self.run_once(watch, document, run, has_room)
            if self.asked.is_warm and not run.wrong:
                run = self.run_once(watch, document, run._replace(first_lines=len(run.lines)), has_room)
        return run

    def run_once(self, watch: Watch, document: Document, run: Run, has_room: bool) -> Run:
        """Runs the firmware to its end, and judges its lines and the resulting board. If the board has no room
        for all regions, the firmware must say so. If it says so and may do so, its regions may be disabled."""
        with closing(Child(self.command, self.limits, environment(document))) as child:
            wrong: Optional[Misbehaviour] = None
            try:
                self.converse(child, watch, run)
            except Misbehaviour as caught:
                wrong = caught
            self.hear(child, run)
            gave_up = self.asked.is_said(has_room, child.status, child.last_words())
            if wrong and not (gave_up and wrong.kind == "dies"):
                told = f"the firmware {wrong.told}{after(run.lines)}"
                return run._replace(wrong=[told], kind=wrong.kind, last_words=child.last_words(),
                                    longest_silence=child.longest_silence)
        left = [*findings(watch.board), *endings(watch.follower, document)]
        if left and (gave_up or not has_room):
            said = [] if gave_up else ["room: not all regions fit, and the firmware doesn't report it"]
            left = said + [each for each in left if kind_of(each) not in ("closed", "master")]
        return self.judged(run._replace(gave_up=gave_up), left)

    def judged(self, run: Run, left: List[str]) -> Run:
        """The run with what is wrong: first about its lines, and then about the resulting board."""
        allowed = self.asked.allowed
        about_lines = [each for each in run.since if kind_of(each) not in allowed and each.replace("overlap", "audit", 1) not in left]
        warnings = [each for each in about_lines if kind_of(each) in TRANSIENTS and not self.asked.transients]
        wrong = [each for each in about_lines if each not in warnings]
        wrong += [each for each in left if kind_of(each) not in allowed]
        return run._replace(wrong=wrong, warnings=warnings, kind=kind_of(wrong[0]) if wrong else None)

    def hear(self, child: Child, run: Run) -> None:
        """Keeps what the firmware printed before its next line."""
        printed = child.newly_printed()
        if printed:
            run.printed[len(run.lines) + 1] = run.printed.get(len(run.lines) + 1, "") + printed

    def converse(self, child: Child, watch: Watch, run: Run) -> None:
        """Sends each line to the board and the reply to the firmware, and adds to the run what is wrong with an
        access that the board accepted."""
        for raw in child.lines():
            self.hear(child, run)
            line = raw.decode("utf-8", "backslashreplace")
            if line.split()[:2] == ["host", "guests"]:
                raise Misbehaviour("nonsense", f"writes a line that would hand the board over: {line[:100]!r}")
            reply = watch.board.run_line(line)
            refusal = REFUSED.match(reply or "")
            if refusal and refusal[1] in NO_ACCESS:
                raise Misbehaviour("nonsense", f"writes a line that isn't an access ({reply}): {line[:100]!r}")
            if refusal:
                raise Misbehaviour("refused", f"makes an invalid access ({reply}): {line}")
            run.lines.append(line)
            run.replies.append(reply)
            for told in watch.seen(line):
                run.since.setdefault(told, len(run.lines))
            if reply is not None:
                child.answer(reply)


def after(lines: List[str]) -> str:
    """The line after which the firmware failed."""
    if not lines:
        return ", and wrote no line before"
    return f", after {len(lines)} line{'s' * (len(lines) != 1)}; the last was: {lines[-1]}"


def since(maker: Maker, document: Document, lines: List[str], finding: str) -> int:
    """The number of the line at which a finding about the resulting board appeared: the finding exists after
    this line and all later ones. The number is 0 if it existed from the beginning."""
    wanted, place = same_problem(finding), 0
    with closing(maker.board(text_of(document))) as board:
        follower = Follower(board)

        def is_there() -> bool:
            found = endings(follower, document) if kind_of(finding) in ENDINGS else findings(board)
            return any(same_problem(each) == wanted for each in found)

        was = is_there()
        for count, line in enumerate(lines, 1):
            reply = board.run_line(line)
            follower.access(line)
            if reply != "host: ok":
                continue
            now = is_there()
            place, was = (count if now and not was else place), now
    return place


def reasons_after(maker: Maker, document: Document, lines: List[str], finding: str) -> List[str]:
    """Why a finding exists after these lines: the line that asks, and the board's reply."""
    with closing(maker.board(text_of(document))) as board:
        for line in lines:
            board.run_line(line)
        return reasons(board, document, finding)
