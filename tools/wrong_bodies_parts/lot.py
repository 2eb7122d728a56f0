"""Which edits are drawn, and the list of what the last whole control found.

The list is a file with the kit's logic, a checksum of this tool, and for each edit its checksum and what refused it.
"""
import hashlib
import pathlib
import re
import subprocess

from .verdicts import REFUSED, STORED

WORDS = {REFUSED: "clause", STORED: "stored"}
TOOLS = pathlib.Path(__file__).resolve().parent


def sum_of_tool():
    """A checksum of this tool."""
    files = [TOOLS.with_name("wrong_bodies"), TOOLS.with_name("common") / "edits.py", *sorted(TOOLS.glob("*.py"))]
    return hashlib.sha256(b"".join(it.read_bytes() for it in files)).hexdigest()


def logic_of(kit):
    """The kit's logic: what can change the verdict on a proof."""
    return (kit / "KIT-ID").read_text(encoding="utf-8").rpartition("logic ")[2].strip()


def commit(top):
    """The commit of this checkout; empty without git."""
    how = {"cwd": top, "stdout": subprocess.PIPE, "stderr": subprocess.DEVNULL, "text": True, "check": False}
    return subprocess.run(["git", "rev-parse", "HEAD"], **how).stdout.strip()


def drawn(commit, what, count):
    """So many of these functions or edits, drawn by the commit. Without a commit, all."""
    by_lot = sorted(what, key=lambda it: hashlib.sha256(f"{commit} {it}".encode()).hexdigest())
    return by_lot[:count] if commit else by_lot


class Listed:
    """The list in a file. Without the file, it is empty."""

    def __init__(self, path, kit):
        self.path, self.head = path, f"logic {logic_of(kit)}\ntool {sum_of_tool()}\n"
        text = path.read_text(encoding="utf-8") if path.exists() else ""
        self.is_of_these_tools = text.startswith(self.head)
        rows = re.findall(r"(?m)^(\w+/\S+) ([0-9a-f]{64}) (\w+)$", text)
        kinds = {word: kind for kind, word in WORDS.items()}
        self.rows = {name: (checksum, kinds[word]) for name, checksum, word in rows if self.is_of_these_tools}

    def kind(self, crate, edit):
        """What refused the edit, as it is now; None if the list does not say so."""
        checksum, kind = self.rows.get(f"{crate}/{edit.name}", (None, None))
        return kind if checksum == edit.checksum else None

    def write(self, crates):
        """Writes the list again, with what was found of the edits of these crates."""
        own = {it.name for it in crates}
        rows = {name: row for name, row in self.rows.items() if name.partition("/")[0] not in own}
        for crate in crates:
            refused = [it for it in crate.edits if crate.kinds.get(it.name) in WORDS]
            rows |= {f"{crate.name}/{it.name}": (it.checksum, crate.kinds[it.name]) for it in refused}
        lines = [f"{name} {checksum} {WORDS[kind]}\n" for name, (checksum, kind) in sorted(rows.items())]
        self.path.write_text(self.head + "".join(lines), encoding="utf-8")
