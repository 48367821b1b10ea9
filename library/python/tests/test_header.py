"""What the module says of the calls is what library/pciguest.h says, which a C compiler judges too, and what the library
has."""

import ctypes
import re
import shutil
import subprocess
import unittest

import pciguest
from boards import MAIN, TOP
from pciguest import Board, Machine, _calls
from pciguest._library import CALLS

HEADER = (TOP / "library" / "pciguest.h").read_text()
STRUCTS = {
    "pciguest": _calls.Handle,
    "pciguest_board": _calls.BoardHandle,
    "pciguest_region": _calls.RegionTold,
    "pciguest_hit": _calls.HitTold,
    "pciguest_message": _calls.MessageTold,
    "pciguest_bar": _calls.BarTold,
    "pciguest_window": _calls.WindowTold,
    "pciguest_function": _calls.FunctionTold,
    "pciguest_board_function": _calls.BoardFunctionTold,
    "pciguest_interrupt": _calls.InterruptTold,
    "pciguest_place": _calls.PlaceTold,
    "pciguest_limits": _calls.LimitsTold,
}


TYPES = {
    None: "void",
    ctypes.c_bool: "bool",
    ctypes.c_char: "char",
    ctypes.c_char_p: "const char *",
    ctypes.c_void_p: "void *",
    ctypes.c_uint8: "uint8_t",
    ctypes.c_uint32: "uint32_t",
    ctypes.c_uint64: "uint64_t",
    ctypes.c_size_t: "size_t",
    **{struct: f"struct {name}" for name, struct in STRUCTS.items()},
}


def in_c(kind):
    """A type of ctypes in C. A text is bytes there, whatever the header calls it."""
    return TYPES[kind] if kind in TYPES else TYPES[kind._type_] + " *"


def judged():
    """A program in C that is compiled where it finds the same sizes, offsets, numbers and types as the module has."""
    yield HEADER.replace("const void *", "const char *")
    for name, struct in STRUCTS.items():
        yield f'_Static_assert(sizeof(struct {name}) == {ctypes.sizeof(struct)}, "{name}");'
        for field, _ in struct._fields_:
            at = getattr(struct, field)
            for asked, told in (("offsetof(struct {}, {})", at.offset), ("sizeof(((struct {} *)0)->{})", at.size)):
                yield f'_Static_assert({asked.format(name, field)} == {told}, "{name} {field}");'
    for name, value in vars(_calls).items():
        if name.isupper() and isinstance(value, int):
            yield f'_Static_assert(PCIGUEST_{name} == {value}, "{name}");'
    for name, (answer, parameters) in _calls.DECLARED.items():
        given = ", ".join(in_c(kind) for kind in parameters) or "void"
        yield f"extern {in_c(answer)} (*const like_{name})({given});"
        yield f"{in_c(answer)} (*const like_{name})({given}) = pciguest_{name};"


def is_pointer(kind):
    return kind in (ctypes.c_char_p, ctypes.c_void_p) or hasattr(kind, "contents")


class Given:
    """Arguments: pointers to two structs and to room, 4096 where a length of the room follows, and 1 for any other number."""

    def __init__(self, machine, board):
        self.structs = {ctypes.POINTER(type(it)): ctypes.pointer(it) for it in (machine, board)}
        self.room = ctypes.create_string_buffer(b"?" * (1 << 19))

    def to(self, kinds):
        for before, kind in zip([None, *kinds], kinds):
            has_room = is_pointer(before) and before not in self.structs
            yield self.structs.get(kind) or (ctypes.cast(self.room, kind) if is_pointer(kind) else 4096 if has_room else 1)


class Header(unittest.TestCase):
    def test_calls(self):
        named = re.findall(r"^(?!static)[A-Za-z][\w *]* \*?pciguest_(\w+)\(", HEADER, re.MULTILINE)
        self.assertGreater(len(named), 30)
        self.assertEqual(named, list(_calls.DECLARED))
        for name in named:
            self.assertEqual((CALLS[name].restype, CALLS[name].argtypes), _calls.DECLARED[name], name)

    @unittest.skipUnless(shutil.which("cc"), "no C compiler")
    def test_c_agrees(self):
        words = ["cc", "-std=c11", "-Wall", "-Wextra", "-Werror", "-fsyntax-only", "-x", "c", "-"]
        asked = subprocess.run(words, input="\n".join(judged()), capture_output=True, text=True)
        self.assertEqual(asked.stderr, "")

    def test_null_pointers(self):
        with Machine(MAIN) as machine, Board(MAIN) as board:
            given = Given(machine._handle, board._handle)
            for name, (answer, kinds) in _calls.DECLARED.items():
                for at in (at for at, kind in enumerate(kinds) if is_pointer(kind)):
                    words = [None if nth == at else word for nth, word in enumerate(given.to(kinds))]
                    self.assertEqual(CALLS[name](*words), answer and _calls.ARGUMENT, (name, at))
        self.assertEqual(given.room.raw.strip(b"?"), b"\0")

    def test_empty_structs(self):
        given = Given(_calls.Handle(), _calls.BoardHandle())
        for name, (answer, kinds) in _calls.DECLARED.items():
            if kinds[:1] and kinds[0] in given.structs and not name.endswith("new"):
                self.assertEqual(CALLS[name](*given.to(kinds)), answer and _calls.NO_MACHINE, name)
        self.assertFalse(any(it.contents.live for it in given.structs.values()))
        self.assertEqual(given.room.raw.strip(b"?"), b"\0")

    def test_version(self):
        version = re.search(r'^#define PCIGUEST_VERSION "(.*)"', HEADER, re.MULTILINE).group(1)
        self.assertEqual(pciguest.__version__, version)
        for file in ("python/pyproject.toml", "rust/Cargo.toml", "rust/sys/Cargo.toml"):
            told = re.search(r'^version = "(.*)"', (TOP / "library" / file).read_text(), re.MULTILINE).group(1)
            self.assertEqual(told, version, file)
        major, minor, patch = map(int, version.split("-")[0].split("."))
        self.assertEqual(_calls.VERSION_NUMBER, 10000 * major + 100 * minor + patch)
        self.assertEqual(pciguest.version(), _calls.VERSION_NUMBER)
