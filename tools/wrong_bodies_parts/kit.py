"""Compares the verdicts of this tool with those of the kit's own `rt must-fail`."""
import concurrent.futures
import pathlib
import re
import shutil
import subprocess
import tempfile

from .verdicts import REFUSED, STORED, one_line


def copied_for_the_kit(top, crates, room):
    """Copies the repository to a folder, with the edits of these crates in the folders where the kit looks for them."""
    for name in ("crates.txt", "HANDLES"):
        if (top / name).exists():
            shutil.copy(top / name, room)

    def ignored(folder, names):
        """Of the folders out/ only the libraries are copied."""
        return [it for it in names if it == "must-fail" or pathlib.Path(folder).name == "out" and it != "rlib"]

    shutil.copytree(top / "crates", room / "crates", ignore=ignored)
    for crate in crates:
        folder = room / "crates" / crate.name / "must-fail"
        folder.mkdir()
        for edit in crate.edits:
            # The kit reads only these three kinds of lines.
            lines = [f"file: {file}\nold: {old}\nnew: {new}\n" for file, old, new in edit.changes]
            (folder / f"{edit.name}.edit").write_text("".join(lines), encoding="utf-8")


def refused_by_the_kit(crate, room):
    """The verdicts of `rt must-fail` on the edits of a crate."""
    how = {"stdout": subprocess.PIPE, "stderr": subprocess.STDOUT, "text": True, "check": False}
    ran = subprocess.run(["rt", "must-fail", crate.name], cwd=room, **how)
    return dict(re.findall(r"(?m)^(?:rt: )?must-fail \w+/(\S+)\.edit: (.*)", ran.stdout))


def try_by_kit(top, crates, lanes):
    """Prints the verdicts of both. Returns how many edits both refuse, and how many not."""
    passed = failed = 0
    made = tempfile.TemporaryDirectory(prefix="wrong-bodies-by-kit-")
    with made, concurrent.futures.ThreadPoolExecutor(lanes) as pool:
        room = pathlib.Path(made.name)
        copied_for_the_kit(top, crates, room)
        for crate in crates:
            folder = room / "crates" / crate.name
            subprocess.run(["rt", "check", "--only", ""], cwd=folder, stdout=subprocess.DEVNULL, check=True)
        for crate, verdicts in zip(crates, pool.map(lambda it: refused_by_the_kit(it, room), crates)):
            for edit in crate.edits:
                own, kits = crate.results[edit.name], verdicts.get(edit.name, "nothing")
                # If a proof only names what the edit removed, the kit says so in brackets after these words.
                is_refused_by_kit = re.match(r"refused, as it must be(?! \()", kits) is not None
                is_refused = own.startswith((f"{REFUSED}: ", f"{STORED}: ")) and is_refused_by_kit
                print(f"{crate.name}/{edit.name}: {own.partition(':')[0]}; by the kit: {one_line(kits)}", flush=True)
                passed, failed = passed + is_refused, failed + (not is_refused)
    return passed, failed
