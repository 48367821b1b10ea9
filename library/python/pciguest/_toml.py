"""Reads TOML 1.1, as the program does, with `tomllib`, which reads only TOML 1.0.

An inline table may extend over several lines, with comments and a trailing comma, and a string may contain \\e and
\\xHH. The new form of times isn't read, because no key of a board file has a time."""

from __future__ import annotations

import re
import tomllib
from typing import Any, Dict, List

TOKENS = re.compile(
    r"""(?P<text>\"\"\"(?:\\.|[^\\])*?\"{3,5}|"(?:\\.|[^"\\\n])*")"""
    r"""|(?P<literal>'''.*?'{3,5}|'[^'\n]*')"""
    r"""|(?P<comment>\#[^\n]*)|(?P<space>[ \t\r\n]+)|(?P<mark>[][{},])|(?P<other>[^][{},"'#\s]+|.)""", re.DOTALL)
ESCAPE = re.compile(r"\\(?:x([0-9A-Fa-f]{2})|(e)|.)", re.DOTALL)


def plain_text(text: str) -> str:
    """A string with the escapes of TOML 1.0."""
    return ESCAPE.sub(lambda found: f"\\u00{found[1]}" if found[1] else "\\u001b" if found[2] else found[0], text)


def as_1_0(text: str) -> str:
    """The same document in TOML 1.0. Lines inside inline tables aren't counted any more."""
    made: List[str] = []
    open_marks: List[str] = []
    comma = None  # one that must be removed if it is the last in an inline table
    for token in TOKENS.finditer(text):
        kind, word = str(token.lastgroup), token[0]
        is_in_table = open_marks[-1:] == ["{"]
        if kind == "mark":
            if word == "}" and is_in_table and comma is not None:
                made[comma] = ""
            if word in "[{":
                open_marks.append(word)
            elif word in "]}" and open_marks:
                open_marks.pop()
            comma = len(made) if word == "," else None
        elif kind in ("text", "literal", "other"):
            comma = None
        if "{" in open_marks and kind in ("comment", "space"):
            word = " "
        made.append(plain_text(word) if kind == "text" else word)
    return "".join(made)


def document_of(text: str) -> Dict[str, Any]:
    """The document in a text. `tomllib.TOMLDecodeError`: it isn't TOML 1.1."""
    try:
        return tomllib.loads(text)
    except tomllib.TOMLDecodeError:
        return tomllib.loads(as_1_0(text))
