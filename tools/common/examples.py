"""Checks of the examples: in the repository by tools/check_examples, and in packages by tools/check_package.

The results are of `Programs`."""
import re

from .pages import blocks
from package_parts.names import LIBRARY, functions

# A query, and its layout without its comment.
QUERY = b'query Q($i: ID! = "1") @d { b: a(i: $i) { c ...F ... on T { e(f: 2) } } } # g\n'
LINES = b'query Q($i: ID! = "1") @d {\n  b: a(i: $i) {\n    c\n    ...F\n    ... on T {\n      e(f: 2)\n    }\n  }\n}\n'
# The examples in C that check their own results, and how each is linked.
CHECKS_IN_C = {"buffers": [], "definitions": [], "memory": ["-Wl,--wrap=malloc,--wrap=realloc"], "names": []}
# How many tests of Python there are at least. Raise the number when more are added.
LEAST_OF_PYTHON = 30


def check_gql(results, what, words, **how):
    """The program gql formats a query without its comment, and rejects another with a message."""
    too_large, message = b"{ a(b: 99999999999999999999) }", b"query parse error: Parse error at 1:8\nnumber too large\n"
    results.prints(f"{what}: output", words, LINES, input=QUERY, **how)
    results.prints(f"{what}: error", words, errors=message, status=1, input=too_large, **how)


def check_format(results, what, words, **how):
    """An example `format` formats a query with its comment, and rejects another with a message."""
    message = b"2:5: expected a value, found `)`\n"
    results.prints(f"{what}: output", words, LINES[:-1] + b" # g\n", input=QUERY, **how)
    results.prints(f"{what}: error", words, errors=message, status=1, input=b"{a(b:\r\n\t\t, )}", **how)


def check_c(results, what, compiling, folder, linked, running):
    """The examples in C of this folder: those that check their own results print nothing, and the last is a filter.

    `compiling` and `running` are the words that compile a program and run it."""
    for name, more in CHECKS_IN_C.items():
        if results.built(f"{what}: {name}.c", [*compiling, folder / f"{name}.c", *linked, *more]):
            results.prints(f"{what}: {name}.c runs", running)
    if results.built(f"{what}: format.c", [*compiling, folder / "format.c", *linked]):
        check_format(results, f"{what}: format.c", running)


def check_symbols(results, what, file, header):
    """An archive or a shared object defines the functions that the header declares, and no other symbol."""
    if results.can(f"{what}: symbols of {file.name}", "nm"):
        symbols = results.ran(["nm", "--defined-only", "-D" if file.suffix == ".so" else "-g", file])[1].decode()
        found = sorted(re.findall(r"(?m)^\w+ \w (\S+)$", symbols))
        results.expect(f"{what}: symbols of {file.name}", found, functions(header))


def check_python(results, python, folder):
    """The example and the tests of this folder."""
    check_format(results, "Python: format.py", [python, folder / "format.py"], cwd=folder)
    printed = results.printed("Python: tests", [python, "-m", "unittest", f"test_{LIBRARY}"], cwd=folder)
    count = re.search(r"Ran (\d+) tests .*\n\nOK\n$", printed or "")
    results.expect(f"Python: at least {LEAST_OF_PYTHON} tests", count and int(count[1]) >= LEAST_OF_PYTHON)


def check_page_of_python(results, python, page, folder):
    """What docs/PYTHON.md shows: its session; and its programs, which are files of this folder."""
    (folder / "page.txt").write_text("".join(blocks("pycon", page)), encoding="utf-8")
    results.prints("PYTHON: session", [python, "-m", "doctest", "page.txt"], cwd=folder)
    shown = [(folder / name).read_text(encoding="utf-8") for name in ("list_errors.py", "graphql_core_nodes.py")]
    results.expect("PYTHON: programs", blocks("python", page), shown)
    sources = folder / "sources"
    sources.mkdir()
    (sources / "a.graphql").write_text("type A { a }\n\ntype B { b }\n", encoding="utf-8")
    (sources / "b.graphql").write_text("{ a }\n", encoding="utf-8")
    lines = b"".join(b"sources/a.graphql:%d:12: expected `(` or `:`, found `}`\n" % line for line in (1, 3))
    results.prints("PYTHON: list_errors.py", [python, "list_errors.py", "sources"], lines, status=1, cwd=folder)
