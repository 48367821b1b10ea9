"""Random machines, saved by the library and by a second hand, and images of theirs that were changed: which of these the
library takes, and where guests sit and what they hold then. All has to agree.

    machines.py [--machines N] [--changed N] [--lines N] [--seed S]

Over each board stand two machines. A script runs over each, and functions are taken from guests and given to others. The image
of the first is loaded into the second; then another script runs over both, which have to answer guests and the host alike. The
first that differs is printed with its seed. The second hand of images is machine_image.py; all else is as in images.py."""
import random

import machine_image as second_hand
from board import path_text, random_board
from images import Fuzz, Held, Pair, main
from placement import Refused
from script import Writer


class Machines(Fuzz):
    """Counts, and what is asked of each board."""

    def one(self, seed):
        """Two machines over one board."""
        self.seed, self.rng = seed, random.Random(seed)
        board = random_board(self.rng)
        try:
            here, there = Pair(board), Pair(board)
        except Refused:
            return
        writer = Writer(self.rng, board, here.world.layout.bases)
        for pair in (here, there):
            for _ in range(self.lines):
                line = writer.line()
                self.same(f"an answer to {line}", *pair.both(line)[::-1])
                self.reseat(pair)
        machines = [Held(second_hand, pair.world, pair.machine.save_all, pair.machine.load_all, pair.machine.image_size_all)
                    for pair in (there, here)]
        images = [*map(self.save, machines), here.guests[0][1].save()]
        self.move(machines[0], images[1])
        for line in [writer.line() for _ in range(self.lines)]:
            wanted = here.both(line)
            self.same(f"the second hand's answer to {line}", there.both(line), wanted)
            self.same(f"an answer to {line}", wanted[1], wanted[0])
        for _ in range(self.changed):
            self.load(machines[0], self.changed_image(there.world, there.machine.save_all(), images))
        here.machine.close()
        there.machine.close()

    def reseat(self, pair):
        """Now and then a function is taken from a guest, or one that nobody has is given to it."""
        (guest, mine), slot = self.rng.choice(pair.guests), self.rng.choice([0, 1, 2, 3, 31])
        function = guest.slots[slot]
        if self.rng.random() < 0.9:
            return
        if function is not None:
            pair.machine.take(mine, slot)
            guest.slots[slot] = None
            function.restart()
            return
        seated = {id(each) for other, _ in pair.guests for each in other.slots if each is not None}
        free = [each for each in pair.world.functions.values() if id(each) not in seated]
        if free:
            guest.slots[slot] = self.rng.choice(free)
            pair.machine.give(path_text(guest.slots[slot].endpoint.path), mine, slot)

    def changed_value(self, world, image):
        """An image with something else in one of its parts."""
        told = list(second_hand.pieces(world))
        kind = self.rng.choice(["header", "front", "seat", "seat", "size", "guest", "guest"])
        index = self.rng.choice([at for at, piece in enumerate(told) if piece[0] == kind])
        piece = bytearray(told[index][1])
        at = self.rng.randrange(len(piece))
        piece[at] = self.rng.choice([0, 1, 2, 0xFF, piece[at] ^ 1 << self.rng.randrange(8), self.rng.randrange(256)])
        if kind == "guest" and self.rng.random() < 0.7:
            name = list(world.guests)[sum(each[0] == "guest" for each in told[:index])]
            piece = super().changed_value(world.guests[name], told[index][1])
        return b"".join(bytes(piece) if at == index else each[1] for at, each in enumerate(told))


if __name__ == "__main__":
    main(Machines, "machines", 100, 20)
