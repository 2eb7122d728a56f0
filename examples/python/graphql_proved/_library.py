"""The functions of the library, as `graphql_proved.h` declares them."""

from __future__ import annotations

import ctypes
import pathlib
from typing import Callable

from ._errors import DocumentError, Status
from ._place import end_of, offset_of, place_of
from ._source import Source

VERSION = "0.1.0"
NAME = "libgraphql_proved.so"
OK, BUFFER_TOO_SHORT = 0, 16
# As in the header: enough for most messages.
MESSAGE_CAPACITY = 256
# Enough for the errors of most sources as JSON.
CHECK_CAPACITY = 4096


class Result(ctypes.Structure):
    """`graphql_proved_result` of `graphql_proved.h`."""

    _fields_ = [
        ("status", ctypes.c_uint32),
        ("output_length", ctypes.c_size_t),
        ("message_length", ctypes.c_size_t),
        ("offset", ctypes.c_size_t),
        ("line", ctypes.c_size_t),
        ("column", ctypes.c_size_t),
    ]


class Numbers(ctypes.Structure):
    """`graphql_proved_numbers` of `graphql_proved.h`."""

    _fields_ = [("major", ctypes.c_uint32), ("minor", ctypes.c_uint32), ("patch", ctypes.c_uint32)]


def _loaded() -> ctypes.CDLL:
    """The shared object beside this file; else the one that is installed with the same first two numbers."""
    beside = pathlib.Path(__file__).with_name(NAME)
    installed = f"{NAME}.{VERSION.rpartition('.')[0]}"
    try:
        return ctypes.CDLL(str(beside) if beside.exists() else installed)
    except OSError as error:
        raise ImportError(f"graphql_proved needs {beside}, or an installed {installed}: {error}") from error


_library = _loaded()


def _check_version() -> None:
    """A library with other first two numbers could have other declarations."""
    function = _library.graphql_proved_version
    function.restype, function.argtypes = Numbers, []
    found = function()
    if f"{found.major}.{found.minor}" != VERSION.rpartition(".")[0]:
        raise ImportError(f"graphql_proved {VERSION} found a library {found.major}.{found.minor}.{found.patch}")


_check_version()


def format_capacity(length: int) -> int:
    """As in the header: enough for most formatted documents, and for every minified output."""
    return 2 * length + MESSAGE_CAPACITY


def json_capacity(length: int) -> int:
    """As in the header: enough for most documents as JSON."""
    return 16 * length + 4 * MESSAGE_CAPACITY


def check_capacity(length: int) -> int:
    """Enough for the errors of most sources as JSON."""
    return CHECK_CAPACITY


class Function:
    """A function of the library. Its pointers are never null: ctypes passes the addresses of objects."""

    def __init__(
        self,
        name: str,
        *options: type[ctypes.c_uint32 | ctypes.c_size_t | ctypes.c_bool],
        capacity: Callable[[int], int] = format_capacity,
    ) -> None:
        self._capacity = capacity
        self._call = getattr(_library, f"graphql_proved_{name}_nonnull")
        self._call.restype = Result
        self._call.argtypes = [ctypes.c_char_p, ctypes.c_size_t, *options, ctypes.c_char_p, ctypes.c_size_t]

    def check(self, source: Source) -> None:
        """Calls a function that only checks."""
        self._result(source, MESSAGE_CAPACITY, ())

    def offset(self, source: Source) -> int:
        """Calls a function that finds an offset, and returns the offset in bytes."""
        result, _ = self._result(source, MESSAGE_CAPACITY, ())
        return int(result.offset)

    def output(self, source: Source, *options: int) -> bytes:
        """Calls a function that writes an output, and returns the output."""
        result, out = self._result(source, self._capacity(len(source.bytes)), options)
        return ctypes.string_at(out, result.output_length)

    def _result(
        self, source: Source, capacity: int, options: tuple[int, ...]
    ) -> tuple[Result, ctypes.Array[ctypes.c_char]]:
        given = source.bytes
        while True:
            out = ctypes.create_string_buffer(capacity)
            result = self._call(given, len(given), *options, out, capacity)
            if result.status == OK:
                return result, out
            if result.status != BUFFER_TOO_SHORT and result.message_length <= capacity:
                raise _error(source, result, ctypes.string_at(out, result.message_length))
            # The output or the message is longer than the buffer. One of the lengths is 0.
            capacity = result.output_length + result.message_length


def _error(source: Source, result: Result, message: bytes) -> DocumentError:
    """The error of a result, with its message."""
    said = message.decode("utf-8", "replace")
    if not result.line:
        return DocumentError(result.status, said)
    text = source.text()
    if result.offset:
        begin = len(source.bytes[: result.offset].decode())
    else:
        begin = offset_of(text, result.line, result.column)
    line, column = place_of(text, begin)
    end = begin + 1 if result.status == Status.BAD_TOKEN else end_of(text, begin)
    said = said.replace(f" at {result.line}:{result.column}\n", f" at {line}:{column}\n", 1)
    return DocumentError(result.status, said, line, column, source.index(text[:begin]), source.index(text[:end]))
