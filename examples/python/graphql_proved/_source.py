"""A source, and offsets in it."""

from __future__ import annotations


class Source:
    """A source that was given as `str` or `bytes`, and its bytes."""

    def __init__(self, given: str | bytes) -> None:
        self._given = given
        if isinstance(given, str):
            # A lone surrogate becomes bytes that the library rejects, as it rejects all that is not UTF-8.
            self.bytes = given.encode("utf-8", "surrogatepass")
        elif isinstance(given, bytes):
            self.bytes = given
        else:
            raise TypeError(f"source must be str or bytes, not {type(given).__name__}")

    def text(self) -> str:
        """The source as characters. Each byte that is not UTF-8 becomes one."""
        return self.bytes.decode("utf-8", "surrogateescape")

    def index(self, front: str) -> int:
        """The index in what was given after this beginning of the text."""
        return len(front) if isinstance(self._given, str) else len(front.encode("utf-8", "surrogateescape"))

    def index_of(self, offset: int) -> int:
        """The index in what was given after this number of bytes, which is between two characters."""
        if len(self._given) == len(self.bytes):
            return offset
        return len(self.bytes[:offset].decode())
