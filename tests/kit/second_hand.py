"""Boards by the second hand of tests/fuzz, with Python alone: those of documents, and one that firmware drives by lines,
which has configuration space and no cells in its regions."""

import re
import tomllib

import places

audited, board, placement, ready, rules, why = places.modules(
    "fuzz", "audited", "board", "placement", "ready", "rules", "why")
board_of = board.board_of

ACCESS = re.compile(r"host c([rw]) (\w\w):(\w\w)\.(\d) (\w+) ([124])(?: (\w+))?")
LATCH = re.compile(r"host i([rw]) 0xcf8 4(?: (\w+))?")
DATA = re.compile(r"host i([rw]) (0xcf[cdef]) ([124])(?: (\w+))?")
WHY = re.compile(r"host why (?:(mem|io) (\w+)|cfg (\w\w):(\w\w)\.(\d))")


def standing(document, cells):
    """The board of a document, and its state where the registers of each function, by its path, hold these bytes."""
    made = board_of(document)
    state = audited.State(made)
    for path, own in state.cells.items():
        for offset, cell in own.items():
            cell.value = cells[board.path_text(path)][offset]
    return made, state


class SecondHandBoard:
    """The board of a document at reset."""

    def __init__(self, document):
        self.board, self.latch = board_of(document), 0
        self.state = audited.State(self.board)

    def run_line(self, line):
        if not line.split() or line.startswith("#"):
            return None
        if line == "host ready":
            return self.ready_text()[:-1]
        if found := WHY.fullmatch(line):
            return "\n".join(f"why: {each}" for each in why.counted(self.why(found)))
        if found := ACCESS.fullmatch(line):
            self.latch = 0
            at = int(found[2], 16), int(found[3], 16), int(found[4])
            return self.access(at, int(found[5], 0), int(found[6]), found[7])
        if found := LATCH.fullmatch(line):
            self.latch = self.latch if found[1] == "r" else int(found[2], 0) & 0x80FFFFFC
            return f"host: {self.latch:#010x}" if found[1] == "r" else "host: ok"
        if (found := DATA.fullmatch(line)) and self.latch >> 31:
            at = self.latch >> 16 & 0xFF, self.latch >> 11 & 31, self.latch >> 8 & 7
            return self.access(at, (self.latch & 0xFC) + int(found[2], 16) % 4, int(found[3]), found[4])
        return "?: refused 402 unknown guest" if not line.startswith("host ") else "host: refused 401 bad line"

    def access(self, at, offset, width, value):
        if offset % width:
            return "host: refused 301 misaligned"
        if value is not None:
            self.state.write(at, offset, width, int(value, 0))
            return "host: ok"
        path = self.state.reached(at)
        read = (1 << 8 * width) - 1 if path is None else self.state.read_bytes(path, offset, width)
        return f"host: 0x{read:0{2 * width}x}"

    def why(self, found):
        """The lines of a question why, but for their first word."""
        if found[1] is None:
            return why.why_number(self.state, (int(found[3], 16), int(found[4], 16), int(found[5])))
        if found[1] == "io":
            return why.why_port(self.state, self.latch, int(found[2], 0))
        return why.why(self.state, "memory", int(found[2], 0))

    def ready_text(self):
        return "".join(f"{line}\n" for line in ready.ready(self.board, self.state))

    def close(self):
        pass


class SecondHand:
    """Who makes such boards."""

    def board(self, text):
        return SecondHandBoard(tomllib.loads(text))

    def refusal(self, text):
        number = rules.all_faults(text)[0]
        if number:
            return number
        try:
            placement.Layout(board_of(tomllib.loads(text)))
        except placement.Refused as refused:
            return refused.args[0]
        return None
