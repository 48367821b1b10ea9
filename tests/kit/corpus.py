#!/usr/bin/python3 -B
"""Writes a corpus of transcripts that are drawn for coverage, as a folder of boards and transcripts.

    corpus.py FOLDER [--transcripts N] [--seed S] [--program PROGRAM]

The first transcripts write each register at every width, and read it back at every width (sweeps.py). The others are drawn
for random boards. All are answered by the library, or by the program where one is named. A drawn one is kept where one of its
rows is of a kind that no kept one has: a register with a width, a read or a write and the kind of reply; a refusal; a
window's write; a latch; a move. Once few come with something new, the others are kept as they come. A line counts the kinds;
those that are never seen among the ones that are named here would be told. Then the corpus is replayed as one who has a
virtual PCI does, with the functions of guest a as the library has them, which has to agree. At last each kind of write is lost
in turn, and each byte of it, which a transcript has to notice where the profile lets it; the others are listed. Status 1 says
that a kind is lacking, that a right guest differs, or that a lost write isn't noticed."""
import re
import sys
from collections import Counter
from pathlib import Path

import places
import sweeps
from pciguest import Machine, transcript
from pciguest._board_file import text_of
from pciguest._drawing import RandomChoices, draw_board
from pciguest._line_drawing import draw_firmware, draw_script

BOARDS, MOST = 20, 60  # transcripts of a board file, and lines of a transcript
SWEEP = "sweep"  # the name of the board of the first transcripts
REGISTERS = [(offset, width) for width in (1, 2, 4) for offset in range(0, 0x40, width)]


def reply_kind(line, reply):
    """What a reply says, without its number."""
    words = reply.split()[1:]
    if words[0] == "refused":
        return f"refused {words[1]}"
    if not words[0].startswith("0x"):
        return words[0]
    digits = set(words[0][2:])
    return "zero" if digits == {"0"} else "ones" if digits == {"f"} else "value"


def kinds(mode, line, reply):
    """The kinds that a row is of."""
    words, told = line.split(), reply_kind(line, reply)
    who = "host" if words[0] == "host" else "guest"
    if told.startswith("refused 4"):
        yield mode, told
    elif told.startswith("refused") or words[1] in ("move", "raise"):
        part = re.sub(r"\d", "", words[3]) if words[1] == "raise" else ""
        yield mode, who, words[1], part, told
    elif words[1] in ("cr", "cw"):
        offset, width = int(words[-2 - (words[1] == "cw")], 0), int(words[-1 - (words[1] == "cw")], 0)
        yield mode, who, words[1], offset if offset < 0x40 else "own", width, told if words[1] == "cr" else ""
    else:
        place, width = int(words[2], 0), int(words[3], 0)
        port = place if words[1][0] == "i" and 0xCF8 <= place < 0xD00 else ""
        yield mode, who, words[1], port, width, told


def named():
    """Kinds that a corpus has to have."""
    for offset, width in REGISTERS:
        for mode, who in (("run", "guest"), ("firmware", "host")):
            yield mode, who, "cw", offset, width, ""
    yield from ((mode, f"refused {number}") for mode in ("run", "firmware") for number in (401, 402, 403))
    for refusal in (301, 302, 303):
        yield from ((mode, who, verb, "", f"refused {refusal}") for verb in ("cr", "mr", "ir")
                    for mode, who in (("run", "guest"), ("firmware", "host")) if (verb, refusal) != ("mr", 303))
    yield from (("run", "host", "move", "", told) for told in ("ok", "refused 303", "refused 601", "refused 602"))
    yield from (("run", "guest", "raise", part, told) for part in ("cfg", "bar") for told in ("ok", "refused 303"))
    yield from ((mode, who, "ir", 0xCFC + at, width, "value") for width in (1, 2, 4) for at in range(0, 4, width)
                for mode, who in (("run", "guest"), ("firmware", "host")))


class Corpus:
    """Transcripts as they are drawn and kept."""

    def __init__(self, folder, wanted, seed, back_end):
        self.folder, self.wanted, self.seed, self.back_end = Path(folder), wanted, seed, back_end
        self.seen, self.kept, self.rows, self.drawn = Counter(), 0, 0, 0

    def draw(self, document, mode):
        """One transcript for a board."""
        self.drawn += 1
        choices = RandomChoices((self.seed, self.drawn))
        lines = (draw_script if mode == "run" else draw_firmware)(choices, document, MOST)
        lines = [line for line in lines if transcript.has_reply(line)]
        return transcript.record(self.back_end, mode, text_of(document), "", "", lines)

    def is_kept(self, section):
        """Whether it has something new, or else so many came without that it is kept as it comes."""
        new = {kind for line, reply in section.rows for kind in kinds(section.mode, line, reply)}
        is_new = bool(new - self.seen.keys())
        if section.rows and (is_new or self.drawn % 3 == 0):
            self.seen.update(new)
            return True
        return False

    def board(self, place):
        """A board with its transcripts, in two files."""
        document = draw_board(RandomChoices((self.seed, "board", place)))
        name, sections = f"board{place:03}", []
        while len(sections) < BOARDS and self.kept < self.wanted:
            mode = "firmware" if self.drawn % 5 > 2 or "guest" not in document else "run"
            section = self.draw(document, mode)
            if self.is_kept(section):
                self.kept, self.rows = self.kept + 1, self.rows + len(section.rows)
                sections.append(section._replace(board=f"{name}.toml", title=f"transcript {self.kept}"))
        (self.folder / f"{name}.toml").write_text(text_of(document))
        (self.folder / f"{name}.rows").write_text(transcript.text_of(sections))

    def sweep(self):
        """The transcripts that are not drawn."""
        sections = sweeps.drawn(self.back_end, f"{SWEEP}.toml")
        for section in sections:
            self.seen.update(kind for line, reply in section.rows for kind in kinds(section.mode, line, reply))
            self.kept, self.rows = self.kept + 1, self.rows + len(section.rows)
        (self.folder / f"{SWEEP}.toml").write_text(text_of(sweeps.BOARD))
        (self.folder / f"{SWEEP}.rows").write_text(transcript.text_of(sections))

    def write(self):
        self.folder.mkdir(parents=True, exist_ok=True)
        self.sweep()
        place = 0
        while self.kept < self.wanted:
            place += 1
            self.board(place)
        missing = [kind for kind in named() if kind not in self.seen]
        for kind in missing:
            print("never seen:", *kind)
        print(f"{self.kept} transcripts with {self.rows} rows over {place} boards, of {self.drawn} that were drawn; "
              f"{len(self.seen)} kinds of rows")
        return len(missing)


class Guest(transcript.GuestBackEnd):
    """A virtual PCI that is right: the functions of guest a, as the library has them."""

    def begin(self, mode, board):
        self.machine = Machine(board)
        self.guest = self.machine.guest("a")

    def space(self, space, slot):
        return self.guest.config[slot] if space == "config" else getattr(self.guest, space)

    def read(self, space, slot, place, width):
        return self.space(space, slot)[place:width]

    def write(self, space, slot, place, width, value):
        self.space(space, slot)[place:width] = value

    def close(self):
        self.machine.close()


def replayed(folder, back_end, tell=print):
    """How many transcripts a guest's functions answer as they stand, and how many otherwise, line by line of that guest."""
    return transcript.replay_files(map(str, sorted(Path(folder).glob("*.rows"))), back_end, guest="a", tell=tell)


def guest_differs(folder):
    """How many transcripts differ that must agree."""
    agree, wrong = replayed(folder, Guest())
    print(f"guest a by calls: {agree + wrong} transcripts, of which differ {wrong}")
    return wrong


def spans(places):
    """Offsets as text: those that touch as one span."""
    found = []
    for place in sorted(places):
        if found and found[-1][1] == place - 1:
            found[-1][1] = place
        else:
            found.append([place, place])
    return ", ".join(f"{first:02x}h" + (f" to {last:02x}h" if last > first else "") for first, last in found)


def unnoticed(folder):
    """Loses each kind of write in turn: how many go unnoticed that could be noticed."""
    sections = transcript.read((Path(folder) / f"{SWEEP}.rows").read_text())
    noticed, missed, hidden = sweeps.strength(sections, text_of(sweeps.BOARD))
    can = len(noticed) + len(missed)
    print(f"writes and bytes of writes that are lost in turn: {can + len(hidden)}; the profile lets one notice {can}, and "
          f"noticed are {len(noticed)}")
    for write, lane in missed:
        print("not noticed:", *write, "" if lane is None else f"byte {lane}")
    for mode, place in sorted({(write.mode, write.place) for write, _ in hidden}):
        offsets = {write.offset + lane for write, lane in hidden if (write.mode, write.place) == (mode, place) and lane is not None}
        print(f"nothing to be noticed, where no bit can be changed: {mode}, {place}: {spans(offsets)}")
    return len(missed)


def main():
    chosen = places.options(__doc__, "folder", "--program", transcripts=2000, seed=1)
    back_end = transcript.Process([chosen.program]) if chosen.program else transcript.Library()
    wrong = Corpus(chosen.folder, chosen.transcripts, chosen.seed, back_end).write()
    wrong += 0 if chosen.program else guest_differs(chosen.folder) + unnoticed(chosen.folder)
    sys.exit(wrong > 0)


if __name__ == "__main__":
    main()
