"""What a file keeps that gqlfmt rewrites, also if others change it at the same time, or the run is killed."""
import os
import pathlib
import random
import re
import shutil
import signal
import subprocess
import time

from .running import (
    BROKEN, FORMATTED, SHORT, expect, given, gqlfmt, here, mode_of, needs_library, needs_root, new, other, read,
    results, test,
)


@test
def rewriting():
    for mode in (0o644, 0o600, 0o755, 0o664, 0o444):
        path = new("a.graphql", mode=mode)
        if mode == 0o444 and os.geteuid() != 0:
            continue
        expect(f"{mode:o}", gqlfmt("--write", "a.graphql"), (0, b"", ""))
        expect(f"{mode:o}: text and mode", (read(path), mode_of(path)), (FORMATTED, mode))
        path.chmod(0o644)
    before = path.stat()
    expect("again", gqlfmt("--write", "a.graphql"), (0, b"", ""))
    after = path.stat()
    expect("the file is not touched", (after.st_ino, after.st_mtime_ns), (before.st_ino, before.st_mtime_ns))
    new("b.graphql")
    new("c.graphql", BROKEN)
    status, out, err = gqlfmt("--write", "c.graphql", "a.graphql", "b.graphql")
    expect("three", (status, out, err.splitlines()[-1]), (1, b"", "1 file rewritten, 1 unchanged, 1 rejected"))
    expect("the one that is rejected", read("c.graphql"), BROKEN)
    expect("no other files", here(), ["a.graphql", "b.graphql", "c.graphql"])


@test
@needs_root
def owners():
    path = new("a.graphql", mode=0o644)
    os.chown(path, 12345, 54321)
    path.chmod(0o4754)
    expect("--write", gqlfmt("--write", "a.graphql"), (0, b"", ""))
    found = path.stat()
    expect("owner and group", (found.st_uid, found.st_gid), (12345, 54321))
    expect("mode and text", (mode_of(path), read(path)), (0o4754, FORMATTED))


@test
def below_a_folder_that_is_not_utf8():
    folder = os.fsdecode(b"\xff")
    new(f"{folder}/a.graphql")
    expect("--write", gqlfmt("--write", "a.graphql", cwd=folder), (0, b"", ""))
    expect("the files", (os.listdir(folder), read(f"{folder}/a.graphql")), (["a.graphql"], FORMATTED))


@test
@needs_root
def overlay():
    """Opening a file of a lower layer for writing copies it to the upper one, as in a layer of a container."""
    new("lower/a.graphql")
    for name in ("upper", "work", "merged"):
        os.mkdir(name)
    layers = "lowerdir=lower,upperdir=upper,workdir=work"
    if other("mount", "-t", "overlay", "overlay", "-o", layers, "merged").returncode:
        results.skip("overlay", "no overlay file system can be mounted")
        return
    try:
        expect("--write", gqlfmt("--write", "merged"), (0, b"", ""))
        expect("the text", read("merged/a.graphql"), FORMATTED)
    finally:
        other("umount", "merged")
    expect("the lower layer", read("lower/a.graphql"), SHORT)


@test
def links():
    new("far/a.graphql", mode=0o640)
    os.symlink("far/a.graphql", "one")
    os.symlink("one", "two")
    os.symlink("none", "dangling")
    os.symlink("circle", "circle")
    expect("through two links", gqlfmt("--write", "two"), (0, b"", ""))
    expect("the links", (os.readlink("one"), os.readlink("two")), ("far/a.graphql", "one"))
    expect("the file", (read("far/a.graphql"), mode_of("far/a.graphql")), (FORMATTED, 0o640))
    expect("no other files", here(), ["circle", "dangling", "far", "far/a.graphql", "one", "two"])
    for name in ("dangling", "circle"):
        for task in ("--write", "--check", "--diff"):
            expect(f"{task} {name}", gqlfmt(task, name)[:2], (2, b""))
    new("far/b.graphql")
    os.link("far/b.graphql", "far/c.graphql")
    expect("a hard link", gqlfmt("--write", "far/b.graphql")[0], 0)
    expect("keeps the old text", (read("far/b.graphql"), read("far/c.graphql")), (FORMATTED, SHORT))


@test
@needs_library
def changes_between_reading_and_renaming():
    text = b"{other}\n"
    changes = {
        "a link": ("ln -sf other a.graphql", {"a.graphql": text, "other": text}),
        "an edit": ("printf '{new}' > a.graphql", {"a.graphql": b"{new}", "other": text}),
        "the same length": ("sleep 0.05; printf '{c}...' > a.graphql", {"a.graphql": b"{c}...", "other": text}),
        "another file": ("mv other a.graphql", {"a.graphql": text}),
        "removal": ("rm a.graphql", {"other": text}),
        "a folder": ("rm a.graphql; mkdir a.graphql", {"other": text}),
        "a new mode": ("chmod 600 a.graphql", {"a.graphql": SHORT, "other": text}),
    }
    for what, (command, wanted) in changes.items():
        shutil.rmtree("f", ignore_errors=True)
        new("f/a.graphql")
        new("f/other", text)
        run = gqlfmt("--write", "a.graphql", cwd="f", env={"LD_PRELOAD": given.library, "AT_FSYNC": command})
        expect(what, run, (2, b"", "a.graphql: cannot be rewritten: changed since it was read\n"))
        found = {path.name: path.read_bytes() for path in pathlib.Path("f").iterdir() if path.is_file()}
        expect(f"{what}: the files", found, wanted)
        expect(f"{what}: whether it is a link", os.path.islink("f/a.graphql"), what == "a link")


@test
@needs_library
def links_that_change():
    new("one")
    new("two", b"{two}\n")
    os.symlink("one", "link")
    run = gqlfmt("--write", "link", env={"LD_PRELOAD": given.library, "AT_FSYNC": "ln -sfn two link"})
    expect("the file that was read is rewritten", (run[0], read("one")), (0, FORMATTED))
    expect("the other is not", (read("two"), os.readlink("link")), (b"{two}\n", "two"))


@test
def runs_at_the_same_time():
    names = [f"f{number}.graphql" for number in range(200)]
    for name in names:
        new(name)
    runs = [subprocess.Popen([given.program, "--write", "."], stderr=subprocess.PIPE) for _ in range(4)]
    errors = [run.communicate()[1].decode() for run in runs]
    expect("statuses", {run.returncode for run in runs} <= {0, 2}, True)
    lines = [line for text in errors for line in text.splitlines()]
    wanted = r".*: cannot be rewritten: (changed since it was read|.*os error 2\))|\d+ files? rewritten, .*"
    expect("messages", [line for line in lines if not re.fullmatch(wanted, line)], [])
    expect("all are formatted", set(map(read, names)), {FORMATTED})
    expect("no other files", here(), sorted(names))


@test
def killed_runs():
    chance = random.Random(1)
    big = b"{" + b" field" * 200000 + b"}\n"
    formatted = gqlfmt(text=big)[1]
    for _ in range(20):
        new("a.graphql", big)
        run = subprocess.Popen([given.program, "--write", "a.graphql"])
        time.sleep(chance.random() * 0.1)
        run.send_signal(signal.SIGKILL)
        run.wait()
        expect("the old text or the new one", read("a.graphql") in (big, formatted), True)
    left = [name for name in here() if name != "a.graphql"]
    expect("only hidden files are left", all(name.startswith(".gqlfmt-") for name in left), True)
    new(".gqlfmt-0", b"mine")
    new("a.graphql")
    expect("a later run", gqlfmt("--write", "a.graphql"), (0, b"", ""))
    expect("does not touch them", read(".gqlfmt-0"), b"mine")
