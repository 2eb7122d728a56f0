"""Why a call fails, and what is wrong with a source."""

from __future__ import annotations

import dataclasses
import enum


class Status(enum.IntEnum):
    """The cause of an error. `graphql_proved.h` has the same names and numbers, and no number ever changes."""

    BAD_TOKEN = 1
    """There is no valid token at the position."""
    UNEXPECTED_TOKEN = 2
    """No document continues with this token."""
    UNEXPECTED_END = 3
    """No document ends here."""
    TOO_DEEP = 4
    """Too many brackets are open: more than 1000 for `format`, and more than 50 for the other calls."""
    INT_OUT_OF_RANGE = 5
    """An integer is outside the range of 64 bits."""
    MALFORMED_FLOAT = 6
    """The exponent of a float has no digit."""
    BAD_ESCAPE = 7
    """An escape in a string denotes no character."""
    UNKNOWN_LOCATION = 8
    """A directive definition names a location that does not exist."""
    DUPLICATE_OPERATION = 9
    """A schema names an operation twice."""
    UNKNOWN_OPERATION = 10
    """A schema names an operation that does not exist."""
    EMPTY_EXTENSION = 11
    """An extension adds nothing."""
    TEXT_TOO_LONG = 12
    """The source has more than `sys.maxsize // 8` bytes."""
    OUT_OF_MEMORY = 13
    """An allocation failed. Nothing is known about the source."""
    TOO_WIDE = 14
    """The deepest level takes more than 4294967295 spaces of indentation."""
    NOT_UTF8 = 15
    """The source is not valid UTF-8."""


@dataclasses.dataclass(frozen=True)
class Diagnostic:
    """An error of a source, as `check` finds it. The wrong part is `source[offset:end_offset]`.

    `str` of a diagnostic is `LINE:COLUMN: MESSAGE`, as `gqlfmt --message-format short` writes it after the path.
    """

    line: int
    """The line, from 1. LF, CR LF and CR each end a line."""
    column: int
    """The column in characters, from 1. A tab is one character."""
    offset: int
    """Where the wrong part begins in the source: a number of characters of a `str`, or of bytes of `bytes`."""
    end_offset: int
    """Where it ends. It is `offset` at the end of the source."""
    message: str
    """What was expected and what was found, and often a hint."""
    expected: tuple[str, ...]
    """All that can come there, in words. It is empty if the error is not one of syntax."""

    def __str__(self) -> str:
        return f"{self.line}:{self.column}: {self.message}"


class DocumentError(ValueError):
    """A call failed, because its source is no valid document, or cannot be formatted.

    Attributes:
        status: the cause. It is a plain `int` if a later version of the library added the cause.
        message: the message of the library, with its line ends. It is empty if there was no memory for it.
        line: the line of the error, from 1. `None` if the error has no position.
        column: the column of the error in characters, from 1. A tab is one character. `None` as for `line`.
        offset: where the wrong part begins in the source: a number of characters of a `str`, or of bytes of `bytes`.
            `None` as for `line`.
        end_offset: where it ends. `None` as for `line`.

    `str` of an error is one text for people: the message without its last line end. It names the position once.
    """

    def __init__(
        self,
        status: int,
        message: str,
        line: int | None = None,
        column: int | None = None,
        offset: int | None = None,
        end_offset: int | None = None,
    ) -> None:
        super().__init__(status, message, line, column, offset, end_offset)
        self.status: Status | int = status if status not in _NUMBERS else Status(status)
        self.message = message
        self.line = line
        self.column = column
        self.offset = offset
        self.end_offset = end_offset

    def __str__(self) -> str:
        text = self.message[:-1] if self.message.endswith("\n") else self.message
        place = f"{self.line}:{self.column}"
        return text if self.line is None or f" at {place}\n" in text else f"{place}: {text}"


_NUMBERS = frozenset(Status)
