"""A board that firmware left, held against a second hand's word on the same registers (tests/fuzz): what `ready` tells of it,
and which region and which function answer there."""
import registers
from second_hand import board, ready, standing

ONES = 0xFFFFFFFF
MARK = 0x5A000001


class Shown:
    """`board` is of the library, and `document` is what its file says."""

    def __init__(self, board, document):
        self.board, self.cells = board, registers.of_all(board, document)
        self.made, self.state = standing(document, self.cells)

    def space(self, name):
        return self.board.io if name == "I/O" else self.board.memory

    def answering(self):
        """Writes a different mark into each enabled region whose first 4 bytes can be written, and then reads them: how many
        answer, and those that don't. A base of 0, or all ones as sizing leaves them, is no address."""
        regions = [(path, bar, base) for path, bar, base in self.state.open_regions() if bar.block >= 4
                   and bar.patterns.get("rw") == b"\xff" and 0 < base < (1 << 8 * bar.width) - bar.size]
        for mark, (_, bar, base) in enumerate(regions, MARK):
            self.space(bar.space)[base:4] = mark
        silent = [f"{board.path_text(path)} region {bar.index} doesn't answer at {base:#x}"
                  for mark, (path, bar, base) in enumerate(regions, MARK) if self.space(bar.space)[base:4] != mark]
        return len(regions) - len(silent), silent

    def untrue(self, told):
        """Each line of what `ready` tells that isn't so, or that is left out; and what answers otherwise than by the registers."""
        wanted = ready.ready(self.made, self.state)
        wrong = [f"isn't so: {line}" for line in told if line not in wanted]
        wrong += [f"isn't told: {line}" for line in wanted if line not in told]
        return wrong + [*self.other_regions(), *self.other_functions()]

    def other_regions(self):
        """Regions at whose base something answers though no region claims it, or nothing does though one claims it."""
        for path, bar, base in self.state.regions():
            claims = [board.path_text(one) for one, _, _ in self.state.claims(bar.space, base)]
            if (self.space(bar.space)[base & ~3:4] == ONES) != (not claims):
                yield f"at the base of {board.path_text(path)} bar{bar.index}, {base:#x}, claimed by {claims}, another answers"

    def other_functions(self):
        """Functions at whose number another is found than by the bus numbers."""
        for path in self.state.functions:
            number = self.state.byte(path[:-1], 0x19) if path[:-1] else 0, *path[-1]
            reached, config = self.state.reached(number), self.board.config[number]
            wanted = self.cells[board.path_text(reached)] if reached else b"\xff" * 256
            if b"".join(config[offset:4].to_bytes(4, "little") for offset in range(0, 256, 4)) != wanted:
                yield f"at the number of {board.path_text(path)} another function is found"
