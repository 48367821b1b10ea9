"""Machines of the library for C, asked by its raw calls: those that the page's module has too."""
import ctypes
import random

ROOM = 1 << 20


class Machine:
    """A board that is set up, or one at reset that firmware drives."""

    def __init__(self, library, board, firmware):
        self.library, self.handle, self.kind = library, (ctypes.c_uint64 * 2)(), 'board_' if firmware else ''
        self.room, self.length = ctypes.create_string_buffer(ROOM), ctypes.c_size_t()
        self.number = self.call(f'{self.kind}new', board, ctypes.c_size_t(len(board)))

    def call(self, name, *words):
        return getattr(self.library, f'pciguest_raw_{name}')(ctypes.byref(self.handle), *words)

    def written(self, name, *words):
        number = self.call(name, *words, self.room, ctypes.c_size_t(ROOM), ctypes.byref(self.length))
        if number != 0:
            raise ValueError(f'{name} is refused: {number}')
        return self.room.raw[:self.length.value]

    def run(self, script):
        """What the lines of a script write."""
        lines = script.removesuffix(b'\n').split(b'\n') if script else []
        return b''.join(self.written(f'{self.kind}run_line', line, ctypes.c_size_t(len(line))) for line in lines)

    def save(self):
        return self.written('save_all')

    def load(self, image):
        return self.call('load_all', image, ctypes.c_size_t(len(image)))

    def close(self):
        self.call(f'{self.kind}free')


def changed(image, count):
    """Images that are cut, longer, or have another byte."""
    chance = random.Random(3)
    yield from (image[:chance.randrange(len(image))] for _ in range(count // 4))
    yield image + b'\0'
    for _ in range(count):
        at = chance.randrange(len(image))
        yield image[:at] + bytes([image[at] ^ 1 << chance.randrange(8)]) + image[at + 1:]


def pieces_of(library, board, firmware, before, scripts):
    """What a machine that runs through writes in each piece, and its image after it; or None where the board is refused."""
    machine = Machine(library, board, firmware)
    if machine.number != 0:
        return None
    machine.run(before)
    pieces = [{'script': script, 'replies': machine.run(script), 'image': machine.save()} for script in scripts]
    machine.close()
    return pieces


def loads_of(library, board, firmware, before, images):
    """What each of these images is answered, one after the other, by one machine."""
    machine = Machine(library, board, firmware)
    machine.run(before)
    loads = [{'image': image, 'number': machine.load(image)} for image in images]
    machine.close()
    return loads
