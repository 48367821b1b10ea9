"""The forms of lines, and why a line has none of them: what a run tells of it on standard error, by a second hand."""
import re

NUMBER = re.compile(rb"(?:0[xX]([0-9a-fA-F]+)|([0-9]+))\Z")
PLACE = re.compile(rb"([0-9a-fA-F]{2}):([01][0-9a-fA-F])\.([0-7])\Z")
PLACES = {b"cfg", b"bar0", b"bar1", b"bar2", b"bar3", b"bar4", b"bar5"}
GUEST = {"cr": "slot offset width", "cw": "slot offset width value", "ir": "port width", "iw": "port width value",
         "mr": "address width", "mw": "address width value", "raise": "slot part offset mask"}
HOST = {"cr": "function offset width", "ir": "port width", "mr": "address width", "move": "guest slot guest slot"}
FIRMWARE = {"cr": "function offset width", "cw": "function offset width value", "ir": "port width", "iw": "port width value",
            "mr": "address width", "mw": "address width value", "why": "space place", "audit": "", "ready": "", "guests": ""}
LIMITS = {"value": 32, "mask": 8}
MARK = b"\xef\xbb\xbf"


def words_of(line):
    return [word for word in re.split(rb"[ \t\r]+", line) if word]


def number(word):
    """The number that a word is, or None."""
    match = NUMBER.match(word)
    return match and (int(match[1], 16) if match[1] else int(match[2]))


def kind_of(name, before):
    """The kind of a word, and what it is called: a place is of the space before it."""
    return {b"io": ("value", "port"), b"cfg": ("function", "function")}.get(before, ("address", "address")) if name == "place" else (name, name)


def complaint(kind, word, guests):
    """What a word has to be, if it isn't."""
    if kind == "function":
        return None if PLACE.match(word) else "BB:DD.F"
    if kind == "guest":
        return None if word in guests else "a guest's name"
    if kind == "part":
        return None if word in PLACES else "cfg or bar0 to bar5"
    if kind == "space":
        return None if word in (b"mem", b"io", b"cfg") else "mem, io or cfg"
    bits, value = LIMITS.get(kind, 64), number(word)
    return None if value is not None and value >> bits == 0 else f"a decimal or 0x-prefixed number below 2^{bits}"


def shown(word):
    return "".join(chr(byte) if 32 <= byte <= 126 else "?" for byte in word[:32])


def reason(forms, words, guests):
    """What is wrong first in the words after the name, or None."""
    *others, last = forms
    verbs = f"(expected {', '.join(others)} or {last})"
    if not words:
        return f"missing command {verbs}"
    verb = words[0].decode("latin-1")
    if verb not in forms:
        return f"unknown command '{shown(words[0])}' {verbs}"
    names = forms[verb].split()
    form = f"(expected '{' '.join([verb, *(name.upper() for name in names)])}')"
    for place, name in enumerate(names):
        kind, name = kind_of(name, words[place])
        if place + 1 == len(words):
            return f"missing {name} {form}"
        wanted = complaint(kind, words[place + 1], guests)
        if wanted:
            return f"invalid {name} '{shown(words[place + 1])}' (expected {wanted})"
    if len(words) > len(names) + 1:
        return f"unexpected word '{shown(words[len(names) + 1])}' {form}"
    return None


def reasons(lines, guests=None):
    """What can be told of lines, of these guests and their host, or of firmware. Long lines are passed over, and those of
    others that don't begin with a byte order mark."""
    told = []
    for number, line in enumerate(lines, 1):
        words = words_of(line)
        if len(line) > 200 or not line.startswith(MARK) and (not words or words[0] not in {b"host", *(guests or ())}):
            continue
        forms = FIRMWARE if guests is None else HOST if words[0] == b"host" else GUEST
        why = "the line begins with a byte order mark" if line.startswith(MARK) else reason(forms, words[1:], guests)
        if why:
            told.append(f"script:{number}: error: {why}\n")
    return told


def text_of(told):
    more = len(told) - 20
    return "".join(told[:20] + [f"script: {more} more malformed line{'s' * (more > 1)}\n"] * (more > 0))
