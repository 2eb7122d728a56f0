"""Where an error is in a source. The functions of the library count a tab between tokens as 8 columns; here it is 1."""

from __future__ import annotations

import re

_LINE_END = re.compile(r"\r\n|\r|\n")
# What a source consists of: ignored text, strings, names, numbers and other characters.
_ELEMENT = re.compile(
    r"""(?P<ignored>[\t\n\r ,\ufeff]|\#[^\r\n]*(?:\r\n|\r|\n)?)"""
    r"""|\"{3}(?:\\\"{3}|.)*?\"{3}|"(?:\\[^\n]|[^"\\\n])*"|-?\d[\w.]*(?:(?<=[eE])[-+]\d*)?|\w+|\.{3}|.""",
    re.ASCII | re.DOTALL,
)
_TAB = 8


def _after(line: int, column: int, element: str) -> tuple[int, int]:
    """The position after an element at this position, as the library counts."""
    if element[0] == "#":
        return (line + 1, 1) if element[-1] in "\r\n" else (line, column)
    if element == "\t":
        return line, column + _TAB
    if element in "\r\ufeff":
        return line, column
    before, line_feed, last = element.rpartition("\n")
    return (line + before.count("\n") + 1, 1 + len(last)) if line_feed else (line, column + len(element))


def offset_of(text: str, line: int, column: int) -> int:
    """The offset of the token that is at this position of the library, or of the end of the text."""
    place = 1, 1
    for found in _ELEMENT.finditer(text):
        if place == (line, column) and found["ignored"] is None:
            return found.start()
        place = _after(*place, found[0])
    return len(text)


def place_of(text: str, offset: int) -> tuple[int, int]:
    """The line and the column at an offset, where each character is one column."""
    lines = _LINE_END.split(text[:offset])
    return len(lines), len(lines[-1]) + 1


def end_of(text: str, offset: int) -> int:
    """Where the token ends that begins at an offset."""
    found = _ELEMENT.match(text, offset)
    return found.end() if found else offset
