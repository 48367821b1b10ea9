"""A prompt for a machine, which accepts script lines and short commands."""

from __future__ import annotations

import re
from typing import Callable, Dict, Iterator, List, Sequence, Tuple

from ._functions import Function
from ._lines import number_of
from ._machine import Machine
from ._names import BRIDGE, ENDPOINT
from ._places import PATH, WrongPlace, function_at, is_place, line_of
from ._refusal import Refusal, strerror

HELP = """\
Script lines work as in a script: a cr 0 0 4, host move a 0 b 1.
A place reads or writes, and shows the equivalent line. As a guest: a.bar0[8:4], a.command = 2, a.1.bar0[0:2],
a.cfg[0x40:1], a.io[0xcf8:4], a.mem[0x80000000:4]. On the board: 2.0.command, 2.0/1.0.bar0[0:4], host.mem[0xc0000000:4].
  tree           shows all functions of the board, with their BDFs and guests
  regs PATH      shows the registers of a function on the board; regs a or regs a.1: as the guest sees them in its slot
  slots          shows the functions of each guest, and where their regions are for the guest
  why a mem 0x80000000      explains where a guest's access leads; also why a io 0xcfc and why a cfg 1 0x10
  undo           undoes the last line that may have changed something
  quit           ends the prompt, like the end of input"""

# the space that a word means, and how many numbers follow it
SPACES: Dict[str, Tuple[str, int]] = {"cfg": ("config", 2), "io": ("io", 1), "mem": ("memory", 1)}


class Prompt:
    """The machine of a board file. `done` contains the lines that ran since then and may have changed
    something."""

    def __init__(self, board: bytes, name: str, write: Callable[[str], None]) -> None:
        self._board, self._name, self._write = board, name, write
        self.machine = Machine(board, name)
        self.guests = self.machine.guests()
        self.done: List[str] = []
        self._words: Dict[str, Callable[[List[str]], None]] = {
            "help": lambda _: self._write(HELP),
            "tree": lambda _: self._tell(self._tree()),
            "slots": lambda _: self._tell(self._slots()),
            "regs": self._registers,
            "why": self._why,
            "undo": lambda _: self._undo(),
        }

    def run(self, text: str) -> bool:
        """Runs a line. Returns False for the last one."""
        words = text.split()
        own = "" if self._is_of_a_guest(words) else "".join(words[:1])
        if own == "quit":
            return False
        try:
            if own in self._words:
                self._words[own](words[1:])
            elif is_place(text):
                line = line_of(text, self.machine)
                self._write(line.text)
                self._run_line(line.text)
                if line.note is not None:
                    self._write(f"  {line.note}")
            else:
                self._run_line(text)
        except (WrongPlace, Refusal) as wrong:
            self._write(f"  {wrong}")
        return True

    def _is_of_a_guest(self, words: List[str]) -> bool:
        """Whether words that begin like a command of the prompt are a line of a guest with this name."""
        return len(words) > 1 and words[0] in self.guests and words[1] in self._commands(words[0])

    def _commands(self, begun: str) -> List[str]:
        """The commands that may come next in a line of a guest or the host, according to the library."""
        listed = re.fullmatch(r"missing command \(expected (.*)\)", self.machine.explain_line(begun) or "")
        return re.split(", | or ", listed[1]) if listed else []

    def words(self, before: str, word: str) -> List[str]:
        """The completions of a word, given the text before it on the line."""
        return sorted(each for each in self._offers(before.split(), word) if each.startswith(word))

    def _run_line(self, text: str) -> None:
        reply = self.machine.run_line(text)
        if reply is None:
            return
        self._write(reply)
        refused = re.fullmatch(r"\S+: refused ([0-9]+) .*", reply)
        if refused is not None:
            self._write(f"  {self.machine.explain_line(text) or strerror(int(refused[1]))}")
        elif reply.endswith(": ok"):
            self.done.append(text)

    def _undo(self) -> None:
        """Recreates the machine, and runs the lines in `done` except the last."""
        if not self.done:
            self._write("  nothing was changed")
            return
        self._write(f"  taken back: {self.done.pop().strip()}")
        self.machine.close()
        self.machine = Machine(self._board, self._name)
        for line in self.done:
            self.machine.run_line(line)

    def _tell(self, lines: Iterator[str]) -> None:
        for line in lines:
            self._write(line)

    def _tree(self) -> Iterator[str]:
        for one in self.machine.functions():
            kind = f"bridge to bus {self._secondary(one):02x}" if one.is_bridge else f"endpoint class {one.class_code:06x}"
            seat = "" if one.seat is None else f", {self.guests[one.seat[0]]} slot {one.seat[1]}"
            number = f"{one.bus:02x}:{one.device:02x}.{one.function}"
            identity = f"{one.vendor_id:04x}:{one.device_id:04x}"
            yield f"{'  ' * one.path.count('/')}{number} {one.path} {identity} {kind}{seat}"

    def _secondary(self, one: Function) -> int:
        return self.machine.host.config[one.bus, one.device, one.function][0x19:1]

    def _slots(self) -> Iterator[str]:
        for name in self.guests:
            guest = self.machine.guest(name)
            for one in self.machine.functions():
                if one.seat is None or one.seat[0] != guest.index:
                    continue
                yield f"{name} slot {one.seat[1]}: {one.path} {one.vendor_id:04x}:{one.device_id:04x}"
                for index, bar in enumerate(one.regions):
                    if bar is not None:
                        at = guest.region(one.seat[1], index)
                        how = "enabled" if at.is_open else "disabled"
                        yield f"  bar{index} {at.space} at {at.first:#x} size {at.size:#x} {how}"

    def _registers(self, words: List[str]) -> None:
        who = words[0] if len(words) == 1 else ""
        if re.fullmatch(PATH, who):
            one = function_at(who, self.machine)
            space, names = self.machine.host.config[one.bus, one.device, one.function], BRIDGE if one.is_bridge else ENDPOINT
        elif re.fullmatch(r"[a-z][a-z0-9]*(\.[0-9]+)?", who):
            name, _, slot = who.partition(".")
            space, names = self.machine.guest(name).config[int(slot or 0)], ENDPOINT
        else:
            raise WrongPlace("write the path of a function, or a guest, as in regs 2.0 or regs a.1")
        for name, (offset, width) in sorted(names.items(), key=lambda row: row[1]):
            self._write(f"{offset:02x} {name:17} {space[offset:width]:#0{2 + 2 * width}x}")

    def _why(self, words: List[str]) -> None:
        space, count = SPACES.get(words[1] if len(words) > 1 else "", ("", 0))
        found = [number_of(word.encode(errors="surrogateescape")) for word in words[2:]]
        numbers = [value for value in found if value is not None]
        if not numbers or not len(found) == len(numbers) == count:
            raise WrongPlace("write a guest and a place, as in why a mem 0x80000000, why a io 0xcfc or why a cfg 1 0x10")
        text = self.machine.guest(words[0]).why(space, numbers[-1], numbers[0] if count == 2 else 0)
        self._tell(iter(text.splitlines()))

    def _offers(self, before: Sequence[str], word: str) -> List[str]:
        paths = {one.path: BRIDGE if one.is_bridge else ENDPOINT for one in self.machine.functions()}
        if before[:1] == ["regs"]:
            return [*paths, *self.guests]
        if before[:1] == ["why"]:
            return self.guests if len(before) == 1 else [*SPACES] if len(before) == 2 else []
        if before[:2] == ["host", "move"]:
            return self.guests
        if before:
            return self._commands(" ".join(before))
        who, dot, _ = word.rpartition(".")
        if dot and who in paths:
            return [f"{who}.{name}" for name in ["cfg[", *(f"{each}[" for each in _bars()), *paths[who]]]
        if dot and who.partition(".")[0] in self.guests:
            return [f"{who}.{name}" for name in ["cfg[", "io[", "mem[", *(f"{each}[" for each in _bars()), *ENDPOINT]]
        return [*self._words, "quit", "host", *self.guests, *paths]


def _bars() -> Tuple[str, ...]:
    return tuple(f"bar{index}" for index in range(6))
