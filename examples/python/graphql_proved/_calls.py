"""The calls of this package."""

from __future__ import annotations

import ctypes
import json
import operator
from typing import Any, AnyStr

from ._errors import Diagnostic, DocumentError
from ._library import Function, check_capacity, json_capacity
from ._source import Source

_MAX_NUMBER = 2**32 - 1
# As the greatest number of errors.
_ALL = 0
_OPTIONS = (ctypes.c_uint32, ctypes.c_uint32)
_STYLE = (ctypes.c_uint32, ctypes.c_bool)
_FORMAT_SOURCE = Function("format_source", *_OPTIONS)
_CHECK = Function("check", ctypes.c_size_t, capacity=check_capacity)
_NORMALIZE_QUERY = Function("normalize_query", *_STYLE)
_NORMALIZE_SCHEMA = Function("normalize_schema", *_STYLE)
_MINIFY = Function("minify")
_FIRST_DEFINITION = Function("first_definition")
_CHECK_QUERY = Function("check_query")
_CHECK_SCHEMA = Function("check_schema")
_QUERY_TO_JSON = Function("query_to_json", capacity=json_capacity)
_SCHEMA_TO_JSON = Function("schema_to_json", capacity=json_capacity)


def _typed(source: AnyStr, part: bytes) -> AnyStr:
    """A part of a source or of its output, in the type of the source."""
    return part.decode("utf-8", "surrogatepass") if isinstance(source, str) else part


def _number(name: str, value: int) -> int:
    """An option that is a number. ctypes would take it modulo 2**32."""
    if isinstance(value, bool):
        raise TypeError(f"{name} must be int, not bool")
    number = operator.index(value)
    if not 0 <= number <= _MAX_NUMBER:
        raise ValueError(f"{name} must be from 0 to {_MAX_NUMBER}, not {number}")
    return number


def _style(indent: int, multiline: bool) -> tuple[int, bool]:
    """The options of a function that normalizes. ctypes would take any object as a bool."""
    if not isinstance(multiline, bool):
        raise TypeError(f"multiline must be bool, not {type(multiline).__name__}")
    return _number("indent", indent), multiline


def format(source: AnyStr, *, indent: int = 2, width: int = 80) -> AnyStr:
    """Format a document as `gqlfmt` does, with its comments.

    Args:
        source: the document. It can have operations and types.
        indent: the spaces for each level, from 0 to 4294967295. A large number makes a large output.
        width: the columns that a line can take where that is possible, from 0 to 4294967295.

    Returns:
        The formatted document.

    Raises:
        DocumentError: the source is not a valid document, nests too deep or is too long, or the call ran out of memory.
        ValueError: `indent` or `width` is out of range. (A `DocumentError` is a `ValueError` too.)
        TypeError: an argument has another type.
    """
    options = _number("indent", indent), _number("width", width)
    return _typed(source, _FORMAT_SOURCE.output(Source(source), *options))


def check(source: str | bytes) -> list[Diagnostic]:
    """List the errors of a source: the first, and those of the definitions after it. (It is not validated against a schema.)

    Args:
        source: the document. It can have operations and types.

    Returns:
        The errors. There are none if the source is a valid document, or if it has no tokens.

    Raises:
        DocumentError: the source is not UTF-8 or is too long, or the call ran out of memory.
        TypeError: `source` has another type.
    """
    given = Source(source)

    def diagnostic(found: dict[str, Any]) -> Diagnostic:
        begin, end = given.index_of(found["offset"]), given.index_of(found["offset"] + found["length"])
        return Diagnostic(found["line"], found["column"], begin, end, found["message"], tuple(found["expected"]))

    return [diagnostic(found) for found in json.loads(_CHECK.output(given, _ALL))]


def parse(source: str | bytes) -> dict[str, Any]:
    """Parse a query document or a schema document.

    Args:
        source: the document.

    Returns:
        The node of the document, with the nodes of its definitions: dictionaries in the form of the AST of graphql-js.

    Raises:
        DocumentError: the source is neither a query document nor a schema document, or the call ran out of memory.
        TypeError: `source` has another type.
    """
    given, errors = Source(source), []
    for function in _QUERY_TO_JSON, _SCHEMA_TO_JSON:
        try:
            document: dict[str, Any] = json.loads(function.output(given))
            return document
        except DocumentError as error:
            if error.line is None or error.column is None:
                raise
            errors.append((error.line, error.column, error))
    # The error by the specification says what was expected. There is none if only `parse` rejects the source.
    _FORMAT_SOURCE.output(given, 2, 80)
    raise max(errors, key=operator.itemgetter(0, 1))[2]


def normalize_query(source: AnyStr, *, indent: int = 2, multiline: bool = False) -> AnyStr:
    """Format a query document for machines, without its comments.

    Args:
        source: the document.
        indent: the spaces for each level, from 0 to 4294967295. A large number makes a large output.
        multiline: whether each argument, list item and object field is on its own line.

    Returns:
        The formatted document. It depends only on the tree of the source.

    Raises:
        DocumentError: the source is not a valid query document, the indentation is too wide, or the call ran out of
            memory.
        ValueError: `indent` is out of range. (A `DocumentError` is a `ValueError` too.)
        TypeError: an argument has another type.
    """
    return _typed(source, _NORMALIZE_QUERY.output(Source(source), *_style(indent, multiline)))


def normalize_schema(source: AnyStr, *, indent: int = 2, multiline: bool = False) -> AnyStr:
    """Format a schema document for machines, without its comments.

    Args:
        source: the document.
        indent: the spaces for each level, from 0 to 4294967295. A large number makes a large output.
        multiline: whether each directive argument, list item and object field is on its own line.

    Returns:
        The formatted document. It depends only on the tree of the source.

    Raises:
        DocumentError: the source is not a valid schema document, the indentation is too wide, or the call ran out of
            memory.
        ValueError: `indent` is out of range. (A `DocumentError` is a `ValueError` too.)
        TypeError: an argument has another type.
    """
    return _typed(source, _NORMALIZE_SCHEMA.output(Source(source), *_style(indent, multiline)))


def minify(source: AnyStr) -> AnyStr:
    """Write the tokens of a source. Two that are not punctuators, and a number and `...`, have a space between them.

    Args:
        source: a query or a schema. Only its tokens are checked, and not its grammar.

    Returns:
        The tokens, without a line end after the last.

    Raises:
        DocumentError: the source has an invalid token, nests too deep or is too long, or the call ran out of memory.
        TypeError: `source` has another type.
    """
    return _typed(source, _MINIFY.output(Source(source)))


def first_definition(source: AnyStr) -> tuple[AnyStr, AnyStr]:
    """Split a source after the first definition of a query document.

    Args:
        source: a definition of a query document, and then anything.

    Returns:
        The definition with the spaces, commas and comments behind it, and the rest. The rest is not checked.

    Raises:
        DocumentError: the source does not begin with a definition, or the call ran out of memory.
        TypeError: `source` has another type.
    """
    given = Source(source)
    end = _FIRST_DEFINITION.offset(given)
    return _typed(source, given.bytes[:end]), _typed(source, given.bytes[end:])


def check_query(source: str | bytes) -> None:
    """Check that a source is a query document. (It is not validated against a schema.)

    Args:
        source: the document.

    Raises:
        DocumentError: the source is not a valid query document, or the call ran out of memory.
        TypeError: `source` has another type.
    """
    _CHECK_QUERY.check(Source(source))


def check_schema(source: str | bytes) -> None:
    """Check that a source is a schema document. (Its types are not validated.)

    Args:
        source: the document.

    Raises:
        DocumentError: the source is not a valid schema document, or the call ran out of memory.
        TypeError: `source` has another type.
    """
    _CHECK_SCHEMA.check(Source(source))


def query_to_json(source: AnyStr) -> AnyStr:
    """Write a query document as JSON, in the form of the AST of graphql-js. `json.loads` reads it.

    Args:
        source: the document.

    Returns:
        One JSON object: the node of the document, with the nodes of its definitions.

    Raises:
        DocumentError: the source is not a valid query document, or the call ran out of memory.
        TypeError: `source` has another type.
    """
    return _typed(source, _QUERY_TO_JSON.output(Source(source)))


def schema_to_json(source: AnyStr) -> AnyStr:
    """Write a schema document as JSON, in the form of the AST of graphql-js. `json.loads` reads it.

    Args:
        source: the document.

    Returns:
        One JSON object: the node of the document, with the nodes of its definitions.

    Raises:
        DocumentError: the source is not a valid schema document, or the call ran out of memory.
        TypeError: `source` has another type.
    """
    return _typed(source, _SCHEMA_TO_JSON.output(Source(source)))
