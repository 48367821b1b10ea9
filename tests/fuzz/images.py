"""Random guests, saved by the library and by a second hand, and images of theirs that were changed: which of these the
library takes, and what its guests hold then. All has to agree.

    images.py [--guests N] [--changed N] [--lines N] [--seed S]

Each board stands twice: as it is, and with all its functions behind two more bridges, beside others. A script runs over the
first, and its moves over the second, where the images of the first are loaded; then another script runs over both, which
have to answer guests alike. The first that differs is printed with its seed. The second hand of images is image.py; what
guests hold is told by that of scripts. The library is that of PCIGUEST_LIBRARY_DIR, or the one in library/."""
import random
import re
import sys
from collections import Counter, namedtuple
from copy import copy
from pathlib import Path

import image as second_hand
from answers import World
from board import Board, Bridge, Endpoint, board_file, random_board
from compared import options
from placement import Refused
from script import Writer

sys.path.append(str(Path(__file__).resolve().parents[2] / "library" / "python"))
from pciguest import Machine, Refusal  # the module stands there

MOVE = re.compile(rb"[ \t\r]*host[ \t\r]+move[ \t\r]")
BEHIND = ((6, 0), (3, 0))
# a guest or a machine: the second hand's module with its own guest or world, and the library's calls
Held = namedtuple("Held", "hand own save load size")
WAYS = ["a bit", "a byte", "the header", "cut", "longer", "a byte left out", "a byte twice", "another's", "a value"]


def elsewhere(board):
    """The board with its functions behind two more bridges, beside others."""
    def bridge(path):
        return Bridge(path, {"vendor": 0x1234, "device": 0x0B0B}, "32", "64")

    def moved(function):
        there = copy(function)
        there.path = BEHIND + function.path
        return there

    beside = [Endpoint(path, {"vendor": 0x1234, "device": 0x0E0E, "class": 0}, [], []) for path in (((0, 0),), ((6, 1),))]
    functions = [beside[0], bridge(BEHIND[:1]), bridge(BEHIND), *map(moved, board.functions), beside[1]]
    guests = [(name, [BEHIND + path for path in slots]) for name, slots in board.guests]
    return Board(board.apertures, functions, guests, board.devices)


def of_guest(guest, mine):
    return Held(second_hand, guest, mine.save, mine.load, mine.image_size)


def refused(call, *arguments):
    """The number by which a call is refused, or 0."""
    try:
        call(*arguments)
    except Refusal as refusal:
        return refusal.number
    return 0


class Pair:
    """A board and the second hand's world of it, with the library's machine."""

    def __init__(self, board):
        self.world, self.text = World(board), board_file(board)
        self.machine = Machine(self.text)
        self.guests = [(guest, self.machine.guest(name.decode())) for name, guest in self.world.guests.items()]

    def both(self, line):
        """What the second hand and the library answer."""
        return self.world.answer(line), self.machine.run_line(line)

    def answers(self, line):
        """The same, None for reads of the host, which tell of the board."""
        wanted, came = self.both(line)
        return (None, None) if wanted is not None and wanted.host_read else (wanted, came)


class Fuzz:
    """Counts, and what is asked of each board."""

    def __init__(self, lines, changed):
        self.lines, self.changed = lines, changed
        # those that were loaded elsewhere, and all loads by the number that refused them
        self.moved, self.loads = 0, Counter()

    def differs(self, what, *told):
        sys.exit(f"seed {self.seed}: {what}: {', '.join(map(str, told))}")

    def same(self, what, found, wanted):
        if found != wanted:
            self.differs(what, f"{found!r} in place of {wanted!r}")

    def same_image(self, what, found, wanted):
        if found != wanted:
            at = next((at for at, pair in enumerate(zip(found, wanted)) if pair[0] != pair[1]), min(len(found), len(wanted)))
            self.differs(what, f"{len(found)} and {len(wanted)} bytes differ from {at} on",
                         f"{found[at:at + 8].hex()} in place of {wanted[at:at + 8].hex()}")

    def one(self, seed):
        """One board."""
        self.seed, self.rng = seed, random.Random(seed)
        board = random_board(self.rng)
        try:
            here = Pair(board)
        except Refused:
            return
        writer = Writer(self.rng, board, here.world.layout.bases)
        lines = [writer.line() for _ in range(self.lines)]
        for line in lines:
            self.same(f"an answer to {line}", *here.answers(line)[::-1])
        images = [self.save(of_guest(*pair)) for pair in here.guests]
        there = self.there(board, lines)
        for pair, image in zip(there.guests, images):
            self.move(of_guest(*pair), image)
        for line in [writer.line() for _ in range(self.lines)]:
            self.same(f"an answer elsewhere to {line}", there.answers(line)[1], here.answers(line)[1])
        for guest, mine in there.guests:
            for _ in range(self.changed):
                image = self.changed_image(guest, mine.save(), images)
                stop = mine.image_fault(image)
                self.same("where an image stops fitting", stop and tuple(stop[:2]), second_hand.stop(guest, image))
                self.load(of_guest(guest, mine), image)
        here.machine.close()
        there.machine.close()

    def there(self, board, lines):
        """The board elsewhere, after the moves of these lines and some events of its own."""
        try:
            there = Pair(elsewhere(board))
        except Refused:  # it doesn't fit behind the bridges
            there = Pair(board)
        for line in filter(MOVE.match, lines):
            there.answers(line)
        for name in there.world.guests:
            for line in (b" cw 0 4 2 0xffff", b" cw 0 0x10 4 0xfffffff0", b" raise 0 cfg 7 0xff", b" iw 0xcf8 4 0xffffffff"):
                there.answers(name + line)
        return there

    def save(self, held):
        """The image of a guest or a machine, which both hands write alike."""
        wanted, image = held.hand.image_of(held.own), held.save()
        self.same("the size of an image", held.size(), len(wanted))
        self.same_image("an image", image, wanted)
        self.same("an image of its own", held.hand.fault(held.own, image), 0)
        return image

    def move(self, held, image):
        """Loads an image elsewhere."""
        self.same("a load elsewhere", self.load(held, image), 0)
        self.moved += 1

    def load(self, held, image):
        """Loads an image, which may be refused; the number by which it is, or 0."""
        before, wanted = held.save(), held.hand.fault(held.own, image)
        self.same("why an image is refused", refused(held.load, image), wanted)
        if not wanted:
            held.hand.load(held.own, image)
        self.loads[wanted] += 1
        self.same_image("what is held after a load", held.save(), before if wanted else image)
        self.same_image("what the second hand holds", held.hand.image_of(held.own), before if wanted else image)
        return wanted

    def changed_image(self, guest, image, images):
        """An image with something changed in it."""
        rng, at = self.rng, self.rng.randrange(len(image))
        way = rng.choice(WAYS)
        if way == "a bit":
            return image[:at] + bytes([image[at] ^ 1 << rng.randrange(8)]) + image[at + 1:]
        if way == "a byte":
            return image[:at] + bytes([rng.choice([0, 1, 0xFF, rng.randrange(256)])]) + image[at + 1:]
        if way == "the header":
            at = rng.randrange(12)
            return image[:at] + bytes([rng.randrange(256)]) + image[at + 1:]
        if way == "cut":
            return image[:at]
        if way == "longer":
            return image + bytes(rng.choices(range(256), k=rng.choice([1, 2, 100])))
        if way == "a byte left out":
            return image[:at] + image[at + 1:]
        if way == "a byte twice":
            return image[:at] + image[at:at + 1] + image[at:]
        if way == "another's":
            return rng.choice(images)
        return self.changed_value(guest, image)

    def changed_value(self, guest, image):
        """An image with other values of a function."""
        starts, at = [], 12
        for function in guest.slots:
            at += 1
            if function is not None:
                at += len(second_hand.declaration(function))
                count = len(second_hand.held(function))
                starts.append((at, count))
                at += count
        changed = bytearray(image)
        for first, count in starts:
            for _ in range(self.rng.choice([0, 1, 1, 3])):
                changed[first + self.rng.randrange(count)] = self.rng.choice([0, 0xFF, self.rng.randrange(256)])
        return bytes(changed)


def main(kind, what, many, changed):
    """Takes boards until so many guests or machines were moved."""
    chosen = options(__doc__, **{what: many}, changed=changed, lines=60, seed=1)
    fuzz, seed = kind(chosen.lines, chosen.changed), chosen.seed
    while fuzz.moved < getattr(chosen, what):
        fuzz.one(seed)
        seed += 1
    taken = fuzz.loads.pop(0) - fuzz.moved
    numbers = ", ".join(f"{number}: {count}" for number, count in sorted(fuzz.loads.items()))
    print(f"{fuzz.moved} {what} saved, and loaded elsewhere, of the images that were changed {taken} taken and "
          f"{fuzz.loads.total()} refused ({numbers}): all agree")


if __name__ == "__main__":
    main(Fuzz, "guests", 300, 10)
