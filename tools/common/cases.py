"""Reads files of cases, such as crates/vectors/stdin."""
import re
from typing import NamedTuple

HEAD = re.compile(r"(?:([a-z-]+) )?(\d+)(?: (\d+))?")
RESULT = re.compile(r"(\w+)(?: (\d+))?")


class Case(NamedTuple):
    """An input with its result. The kind is the call, such as `query`; "" if the file has only one kind."""

    kind: str
    source: str
    indent: int
    outcome: str
    # The length of the output or the message; None without one.
    length: int | None


def cases_of(data):
    """The cases of a file. A line that begins with `#` is a comment.

    A case is a line with the kind, the length of the source and the indentation; the source; a line with the outcome
    and the length of the output; and the output. The kind, the indentation and the output can be missing."""
    found, at = [], 0

    def line(begin):
        """The line that begins there, and where the next begins."""
        end = data.index(b"\n", begin)
        return data[begin:end].decode(), end + 1

    while at < len(data):
        head, at = line(at)
        if head.startswith("#"):
            continue
        kind, length, indent = HEAD.fullmatch(head).groups()
        source, at = data[at:at + int(length)].decode(), at + int(length) + 1
        result, at = line(at)
        outcome, length = RESULT.fullmatch(result).groups()
        at += int(length) + 1 if length else 0
        found.append(Case(kind or "", source, int(indent or 2), outcome, int(length) if length else None))
    return found
