"""Documents, and what the program gqlfmt makes of them: for the tests of the library in Python and in Rust."""
import random
import subprocess

from fmt_rules import tokens_of
from random_documents import Maker

from .cases import cases_of
from .pages import TOP, blocks, text_of

PROGRAM = TOP / "crates/gqlfmt/out/gqlfmt"
# How many random documents there are. Each has a comment.
RANDOM = 500
# How many documents there are at least. Raise the number when more are added.
LEAST = 1860


def examples():
    """The documents of this repository, each with the spaces of a level and the width of a line."""
    found = [(file.read_bytes().decode(), 2, 80) for file in sorted(TOP.glob("crates/gqlfmt/cases/*.graphql"))]
    found += [(text, 2, 40) for text in blocks("graphql", text_of("docs/GQLFMT.md"))[::2]]
    return found + [(case.source, 2, 80) for case in cases_of((TOP / "crates/vectors/stdin").read_bytes())]


def has_comment(text):
    return any(kind == "comment" for kind, _, _ in tokens_of(text) or [])


def random_documents(seed=1):
    """Random documents with comments, each with the spaces of a level and the width of a line."""
    maker, found = Maker(random.Random(seed)), []
    while len(found) < RANDOM:
        text = maker.text()
        if has_comment(text):
            found.append((text, maker.r.choice([2, 2, 4, 0]), maker.r.choice([0, 20, 80, 200])))
    return found


def ran(program, file, *options):
    """The status, the output and the messages of gqlfmt for a file, which messages name without its folder."""
    done = subprocess.run([program, "--max-errors", "0", *options, file.name], cwd=file.parent, capture_output=True)
    return done.returncode, done.stdout, done.stderr


def write(program, folder):
    """Writes the documents, with what gqlfmt makes of each. Returns how many there are.

    A document is INDENT-WIDTH-NUMBER.graphql. Beside it is `.out`, its output; or if it is rejected, `.err`, the
    messages, and `.json`, the messages as JSON, one in a line."""
    documents = [*examples(), *random_documents()]
    for number, (text, indent, width) in enumerate(documents):
        file = folder / f"{indent}-{width}-{number}.graphql"
        file.write_bytes(text.encode())
        options = ["--indent", str(indent), "--width", str(width)]
        status, output, messages = ran(program, file, *options)
        if status == 0:
            file.with_suffix(".out").write_bytes(output)
        else:
            file.with_suffix(".err").write_bytes(messages)
            file.with_suffix(".json").write_bytes(ran(program, file, "--message-format", "json", *options)[2])
    return len(documents)
