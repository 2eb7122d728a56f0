"""The pages: their texts, their code blocks, what is outside them, and their tables."""
import pathlib
import re

TOP = pathlib.Path(__file__).resolve().parent.parent.parent
# README and the pages of docs/, and all pages.
DOCUMENTS = [TOP / "README.md", *sorted(TOP.glob("docs/*.md"))]
PAGES = [*DOCUMENTS, TOP / "CHANGELOG.md", TOP / "CONTRIBUTING.md", *sorted(TOP.glob("crates/*/README.md"))]
BLOCK = re.compile(r"^```(\w*)\n(.*?)^```$", re.M | re.S)


def text_of(name):
    """The text of a file, which is named by its path in the repository."""
    return (TOP / name).read_text(encoding="utf-8")


def blocks_of(text):
    """The code blocks of a page, each with its kind."""
    return BLOCK.findall(text)


def blocks(kind, text):
    """The code blocks of one kind."""
    return [block for found, block in blocks_of(text) if found == kind]


def outside_blocks(text):
    return BLOCK.sub("", text)


def rows(text):
    """The cells of each row of the tables. A `|` in a cell is escaped, and stays so."""
    found = re.findall(r"^\| (.*) \|$", text, re.M)
    return [[cell.strip() for cell in re.split(r"(?<!\\)\|", row)] for row in found]
