"""Must-fail edits, and the copies of a crate in which they are tried."""
import dataclasses
import hashlib
import re
import shutil

from common import edits
from common.edits import BadEdit

PARTS = ("src", "specs", "proofs")
HEAD = re.compile(r'( *)(?:pub(?:\(\w+\))? )?(?:const )?(?:unsafe )?(?:extern "\w+" )?fn (\w+)')
CYCLE = re.compile(r"#\[cycle\((\w+)\)\]")
# The files that store proofs of a function.
STORED_PROOFS = ("Answers.antt", "Invariants.antt")


@dataclasses.dataclass(frozen=True)
class Edit:
    name: str
    function: str
    is_alone: bool
    # An expression that the contract makes true, and that is false with the edit. Empty if the edit names none.
    input: str
    changes: tuple  # of triples (file, old text, new text)
    checksum: str

    @classmethod
    def read(cls, path):
        values, changes = edits.read(path, ("function", "alone", "input"))
        function = values.get("function") or values.get("alone")
        if not function:
            raise BadEdit("it names no function")
        checksum = hashlib.sha256(path.read_bytes()).hexdigest()
        return cls(path.stem, function, "alone" in values, values.get("input", ""), changes, checksum)

    @property
    def last(self):
        """The name of the function, without its modules."""
        return self.function.rpartition("::")[2]

    def applied(self, texts, folder):
        """A dictionary of files and their texts, with the changes of this edit added. Other files are those on disk."""
        before = dict(texts)
        for change in self.changes:
            file, old, _ = change
            if file.partition("/")[0] not in PARTS:
                raise BadEdit(f"there is no file {file}")
            text, at = edits.text_with(change, folder, texts)
            if not self.is_alone and enclosing(text, at + len(old))[0] != self.last:
                raise BadEdit(f"an old text is outside of the function {self.last}")
            texts = edits.applied([change], folder, texts)
        if all(texts[it] == before.get(it, (folder / it).read_text(encoding="utf-8")) for it, _, _ in self.changes):
            raise BadEdit("it changes nothing")
        return texts

    def cycle(self, folder):
        """The path of the cycle of calls that has the edit's function. Without a cycle, the path of the function."""
        file, old, _ = self.changes[0]
        text = (folder / file).read_text(encoding="utf-8")
        found = None if self.is_alone else CYCLE.search(enclosing(text, text.index(old) + len(old))[1])
        *modules, last = self.function.split("::")
        return "/".join([*modules, found[1] if found else last])

    def is_proof(self, file, folder):
        """Whether a file has proofs of the edit's function or its cycle of calls. For `alone:` lemmas count too."""
        module, _, last = self.cycle(folder).rpartition("/")
        is_of_lemmas = file.startswith("proofs/") and not file.endswith(tuple(f"/{it}" for it in STORED_PROOFS))
        own = rf"proofs/{re.escape(module)}/?\+?{re.escape(last)}/"
        return self.is_alone and is_of_lemmas or re.match(own, file) is not None

    def owned(self, goal, folder):
        """The name of a goal without the function's name before it, or None if the goal is of another function."""
        if self.cycle(folder).rpartition("/")[2] == self.last:
            return goal
        return goal.removeprefix(f"{self.last}-") if goal.startswith(f"{self.last}-") else None


def enclosing(text, end):
    """The name of the function around this offset of a text, and the attributes and comments above it."""
    heads = [*re.finditer(rf"(?m)^((?: *(?:#\[|//).*\n)*){HEAD.pattern}", text[:end])]
    return (heads[-1][3], heads[-1][1]) if heads else ("", "")


def body_of(lines, at):
    """The lines with the braces of the body of the function whose head is at this line, in the layout of `rt fmt`.

    None if the function has no body, or a body in one line."""
    indent = HEAD.match(lines[at])[1]
    for begin in range(at, len(lines)):
        line = lines[begin]
        is_head = begin == at or re.match(rf"{indent}(\)|where\b)", line)
        if line == f"{indent}{{" or is_head and line.endswith(" {"):
            return begin, lines.index(f"{indent}}}", begin)
        if line.endswith((";", "{}")) or not is_head and not line.startswith(f"{indent} "):
            return None
    return None


def functions_of(lines):
    """For each function of a file: the line of its head, its name, and the lines of attributes and comments above."""
    above = []
    for at, line in enumerate(lines):
        if head := HEAD.match(line):
            yield at, head[2], above
        above = [*above, at] if line.strip().startswith(("#[", "//")) else []


def cycles_of(text, names):
    """The cycles of calls that have functions of these names."""
    lines = text.split("\n")
    above_them = [at for _, name, above in functions_of(lines) if name in names for at in above]
    return {it for at in above_them for it in CYCLE.findall(lines[at])}


def without_bodies(text, names, cycles):
    """The text of a file without the bodies of its functions, except those with these names or in these cycles."""
    lines = text.split("\n")
    for at, name, above in reversed([*functions_of(lines)]):
        own, body = {it for line in above for it in CYCLE.findall(lines[line])}, body_of(lines, at)
        if body and name not in names and not own & cycles:
            lines[body[0] + 1 : body[1]] = ["    unreachable!()"]
            for line in above:
                lines[line] = CYCLE.sub("", lines[line])
    return "\n".join(lines)


def copied(folder, room, texts, functions, has_answers):
    """Copies a crate to the folder `room` with these texts of files, for a check of these functions.

    The copy has the bodies and the stored proofs of these functions alone. Without `has_answers` it has no stored
    proof of a goal at all, so that the prover searches."""
    names = {it.rpartition("::")[2] for it in functions}
    for part in PARTS:
        if (folder / part).is_dir():
            shutil.copytree(folder / part, room / part)
    for file, text in texts.items():
        (room / file).write_text(text, encoding="utf-8")
    sources = {it: it.read_text(encoding="utf-8") for it in (room / "src").rglob("*.rt")}
    cycles = {it for text in sources.values() for it in cycles_of(text, names)}
    for path in (room / "proofs").rglob("*.antt"):
        is_other = path.parent.name.removeprefix("+") not in names | cycles
        is_searched = path.name == "Answers.antt" and not has_answers
        if path.name in STORED_PROOFS and is_other or is_searched:
            path.unlink()
    for path, text in sources.items():
        path.write_text(without_bodies(text, names, cycles), encoding="utf-8")
