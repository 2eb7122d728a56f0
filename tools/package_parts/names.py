"""The names in the packages, and the version and the functions of the header."""
import pathlib
import re

TOP = pathlib.Path(__file__).resolve().parent.parent.parent
# The repository, by which packages of all parts and the documentation are named.
PROJECT = "graphql_parser"
# What a program links, or imports in Python and Rust. (In Rust, the name of the project is that of another crate.)
LIBRARY = "graphql_proved"
DEBIAN = PROJECT.replace("_", "-")
SUMMARY = "Formats, minifies and checks GraphQL documents, with code that is proved correct"
PROGRAMS = ("gql", "gqlfmt")
CRATE = TOP / "crates/graphql_c"
[HEADER] = CRATE.glob("include/*.h")
PACKAGING = TOP / "packaging"


def version_of_header():
    return re.search(r'(?m)^#define GRAPHQL_PROVED_VERSION "(.*)"$', HEADER.read_text(encoding="utf-8"))[1]


def functions(header):
    """The functions that a header declares without a body, which are all that the library exports."""
    return sorted(re.findall(r"(?m)^(?!static\b)\w[\w *]*\b(\w+)\((?!\()", header.read_text(encoding="utf-8")))


def shared_object(version):
    """The name of the shared object's file, and the name by which a program finds it.

    Before 1.0.0, a second number can change calls. So the second name has the first two numbers.
    """
    name = f"lib{LIBRARY}.so"
    first, second, _ = version.split(".")
    return f"{name}.{version}", f"{name}.{first}.{second}" if first == "0" else f"{name}.{first}"
