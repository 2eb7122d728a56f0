"""Format and check GraphQL documents, and parse them to dictionaries, with code that is proved correct.

Each function takes a source as `str`, or as `bytes` in UTF-8. An output has the type of its source.
A call that fails raises a `DocumentError`. Threads can call at once.

    >>> import graphql_proved
    >>> graphql_proved.format("{ hero } # A hero.")
    '{\\n  hero\\n} # A hero.\\n'
    >>> [str(error) for error in graphql_proved.check("type Hero { name String }")]
    ['1:18: expected `(` or `:`, found the name `String`']
    >>> graphql_proved.parse("{ hero }")["definitions"][0]["operation"]
    'query'
"""

from ._calls import check, check_query, check_schema, first_definition, format, minify, normalize_query
from ._calls import normalize_schema, parse, query_to_json, schema_to_json
from ._errors import Diagnostic, DocumentError, Status
from ._library import VERSION as __version__

__all__ = [
    "Diagnostic",
    "DocumentError",
    "Status",
    "__version__",
    "check",
    "check_query",
    "check_schema",
    "first_definition",
    "format",
    "minify",
    "normalize_query",
    "normalize_schema",
    "parse",
    "query_to_json",
    "schema_to_json",
]
