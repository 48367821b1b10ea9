"""Images of whole machines as docs/image-format.md has them, by a second hand: written, judged and read, over the second
hand's own worlds."""
from collections import namedtuple

import image as second_hand
from board import Endpoint, path_text
from image import IMAGE, OTHERS, OTHER_VERSION, Part, le

MAGIC, VERSION, BOARDS = 0x4D494350, 1, 907
# bytes of a header that say nothing of how a function is set up: Status, and Secondary Status of a bridge; and of an endpoint
# the Capabilities Pointer, which its device can write, and what its guest's driver writes
OF_NO_SET_UP = {True: (0x06, 0x07, 0x0C, 0x0D, 0x34, 0x3C), False: (0x06, 0x07, 0x1E, 0x1F)}


class Fault(Exception):
    """The number by which bytes are refused."""


# ---- written

def text_bytes(text):
    return le(len(text), 1) + text


def function_bytes(world, function):
    """A function of the board, and how it is set up."""
    is_endpoint = isinstance(function, Endpoint)
    header = bytes(0 if off in OF_NO_SET_UP[is_endpoint] else world.seen_byte(function, off) for off in range(0x40))
    sizes = {bar.index: bar.size for bar in function.bars} if is_endpoint else {}
    return text_bytes(path_text(function.path).encode()) + header + b"".join(le(sizes.get(bar, 0), 8) for bar in range(6))


def front_bytes(world):
    """What stands behind the version: the board, and its guests."""
    functions = world.layout.board.functions
    told = le(len(functions), 4) + b"".join(function_bytes(world, each) for each in functions)
    return told + le(len(world.guests), 4) + b"".join(text_bytes(name) for name in world.guests)


def pieces(world):
    """The bytes of a world's image, each with what it is of."""
    yield "header", le(MAGIC, 4) + le(VERSION, 4)
    yield "front", front_bytes(world)
    for guest in world.guests.values():
        for function in guest.slots:
            yield "seat", text_bytes(b"" if function is None else path_text(function.endpoint.path).encode())
        image = second_hand.image_of(guest)
        yield "size", le(len(image), 4)
        yield "guest", image


def image_of(world):
    return b"".join(told for _, told in pieces(world))


# ---- judged and read

# a guest's slots as an image has them, and the guest's own image in it
Seated = namedtuple("Seated", "slots image")


class Reader:
    """Bytes that are read from front to back."""

    def __init__(self, world, image):
        self.world, self.image, self.at = world, image, 0

    def skip(self, part):
        number = part.refuses(self.image[self.at:self.at + part.size])
        if number:
            raise Fault(number)
        self.at += part.size

    def take(self, count):
        if len(self.image) < self.at + count:
            raise Fault(IMAGE)
        self.at += count
        return self.image[self.at - count:self.at]

    def counted(self, width):
        """Bytes that follow their own number."""
        return self.take(int.from_bytes(self.take(width), "little"))

    def guests(self):
        """The guests of an image that isn't refused: the front is compared, and the lengths behind it are right, before a
        guest is looked at."""
        self.skip(Part(IMAGE, le(MAGIC, 4)))
        self.skip(Part(OTHER_VERSION, le(VERSION, 4)))
        self.skip(Part(BOARDS, front_bytes(self.world)))
        found = [([self.counted(1) for _ in range(32)], self.counted(4)) for _ in self.world.guests]
        if self.at < len(self.image):
            raise Fault(IMAGE)
        places = {path_text(path).encode(): function for path, function in self.world.functions.items()}
        return [self.seated(places, paths, image) for paths, image in found]

    @staticmethod
    def seated(places, paths, image):
        """A guest with the functions at these paths, each of which leaves the places that are left, and its image."""
        slots = []
        for path in paths:
            if path and path not in places:
                raise Fault(OTHERS)
            slots.append(places.pop(path) if path else None)
        seated = Seated(slots, image)
        number = second_hand.fault(seated, image)
        if number:
            raise Fault(number)
        return seated


def fault(world, image):
    """The number by which a world refuses bytes, or 0."""
    try:
        Reader(world, image).guests()
    except Fault as refused:
        return refused.args[0]
    return 0


def load(world, image):
    """Loads bytes that are not refused."""
    guests = Reader(world, image).guests()
    for function in world.functions.values():
        function.restart()
    for guest, seated in zip(world.guests.values(), guests):
        guest.slots = seated.slots
        second_hand.load(guest, seated.image)
