"""Runs the inputs of edits that only their stored proofs refuse.

Such an edit has a line `input: EXPRESSION`. The contract makes the expression true, and with the edit it is false. It
is evaluated in the module of the edit's function, where `rt` is the host, and `alloc` its allocator. Nothing is proved.
"""
import pathlib
import re
import shutil
import subprocess
import tempfile

from common.kit import KIT, NO_PROVER, linked

from .edit import PARTS

MODULE = """
#[cfg(test)]
mod inputs_of_edits {{
    use super::*;
{tests}}}
"""
TEST = """
    #[test]
    fn {name}(rt: HostRuntime) {{
        let alloc = rt.alloc();
        let _ = alloc;
        assert!(rt; {input});
    }}
"""


# A kit that only builds, and does not optimise.
PROGRAMS = {**NO_PROVER, "toolchain/bin/clang": f'#!/bin/sh\nexec {KIT}/toolchain/bin/clang "$@" -O0\n'}


def test_of(edit):
    """The name of the test of an edit's input."""
    return "of_" + re.sub(r"\W", "_", edit.name)


def faults(crate, edits):
    """For each of these edits, why its input does not show the mistake; None if it does."""
    if not edits:
        return {}
    unchanged = ran(crate, edits, {})
    found = {}
    for edit in edits:
        if unchanged.get(test_of(edit)) != "ok":
            found[edit] = f"its input is not true without it: {unchanged.get(test_of(edit), unchanged['end'])}"
            continue
        changed = ran(crate, [edit], edit.applied({}, crate.folder))
        is_shown = changed.get(test_of(edit)) == "FAILED"
        said = changed.get(test_of(edit), changed["end"])
        found[edit] = None if is_shown else f"its input does not show the mistake: {said}"
    return found


def ran(crate, edits, texts):
    """What the tests of these edits' inputs say, in a copy of the crate with these texts of files; at `end` the last
    line that `rt try` prints."""
    with tempfile.TemporaryDirectory(prefix="wrong-bodies-inputs-") as made:
        room = pathlib.Path(made, "repository")
        copied_with_below(crate, room)
        rt = linked(pathlib.Path(made, "kit"), PROGRAMS)
        folder = room / "crates" / crate.name
        for file, text in texts.items():
            (folder / file).write_text(text, encoding="utf-8")
        for file in {it.changes[0][0] for it in edits}:
            own = [it for it in edits if it.changes[0][0] == file]
            tests = "".join(TEST.format(name=test_of(it), input=it.input) for it in own)
            with open(folder / file, "a", encoding="utf-8") as output:
                output.write(MODULE.format(tests=tests))
        done = subprocess.run([rt, "try", "--test"], cwd=folder, capture_output=True, text=True, check=False)
    printed = done.stdout + done.stderr
    states = dict(re.findall(r"(?m)^test (?:\S+::)?inputs_of_edits::(\w+) \.\.\. (\w+)", printed))
    lines = [it for it in printed.strip().splitlines() if it.strip()]
    errors = [it for it in lines if "error" in it]
    return {**states, "end": (errors or lines or ["it printed nothing"])[-1]}


def copied_with_below(crate, room):
    """Copies a crate and those below it to a folder that is laid out as the repository."""
    top = crate.folder.parent.parent
    room.mkdir()
    listed = re.findall(r"(?m)^(\w+)([^:#\n]*:.*)$", (top / "crates.txt").read_text(encoding="utf-8"))
    lines = [f"{name}{uses}\n" for name, uses in listed if name in crate.with_below]
    (room / "crates.txt").write_text("".join(lines), encoding="utf-8")
    if (top / "HANDLES").exists():
        shutil.copy(top / "HANDLES", room)
    for name in crate.with_below:
        for part in PARTS:
            if (top / "crates" / name / part).is_dir():
                shutil.copytree(top / "crates" / name / part, room / "crates" / name / part)
