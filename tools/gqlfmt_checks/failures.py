"""What gqlfmt does without the rights that it needs, and if reading or writing fails: nothing is lost."""
import contextlib
import functools
import os
import resource
import shutil
import signal
import tempfile

from .running import (
    BROKEN, FORMATTED, SHORT, expect, expect_failure, given, gqlfmt, here, mode_of, needs_library, needs_root, new,
    other, read, results, test,
)

NOBODY = 65534
DENIED = "Permission denied (os error 13)\n"


@contextlib.contextmanager
def nobody():
    """A way to run the program without the rights of root, in the current folder."""
    os.chmod(".", 0o777)
    with tempfile.TemporaryDirectory(dir="/tmp") as room:
        # The program can be in a folder that only root can read.
        program = shutil.copy(given.program, room)
        os.chmod(room, 0o755)
        how = {"user": NOBODY, "group": NOBODY, "extra_groups": []} if os.geteuid() == 0 else {}
        yield functools.partial(gqlfmt, program=program, **how)


@test
def reading_without_rights():
    new("a.graphql", mode=0o000)
    new("closed/c.graphql")
    os.chmod("closed", 0o000)
    with nobody() as run:
        for task in ("--check", "--write", "--diff"):
            for name in ("a.graphql", "closed"):
                expect(f"{task} {name}", run(task, name), (2, b"", f"{name}: cannot be read: {DENIED}"))
    os.chmod("closed", 0o755)
    expect("nothing is lost", (read("closed/c.graphql"), len(here())), (SHORT, 3))


@test
def writing_without_rights():
    path = new("b.graphql", mode=0o666)
    if os.geteuid() == 0:
        os.chown(path, NOBODY, NOBODY)
    denied = (2, b"", f"b.graphql: cannot be rewritten: {DENIED}")
    with nobody() as run:
        path.chmod(0o444)
        expect("a read-only file", run("--write", "b.graphql"), denied)
        path.chmod(0o644)
        os.chmod(".", 0o555)
        expect("a read-only folder", run("--write", "b.graphql"), denied)
        os.chmod(".", 0o777)
        expect("nothing is lost", (read(path), mode_of(path), here()), (SHORT, 0o644, ["b.graphql"]))
        expect("with rights", (run("--write", "b.graphql"), read(path)), ((0, b"", ""), FORMATTED))


@test
@needs_root
def files_of_others():
    path = new("a.graphql", mode=0o666)
    message = "a.graphql: cannot be rewritten: its owner and group cannot be kept: "
    with nobody() as run:
        expect_failure("a file of root", run("--write", "a.graphql"), message)
    expect("the file of root", (read(path), here()), (SHORT, ["a.graphql"]))


@test
def readers_that_go_away():
    """That is no error, and the inputs that are left are not read."""
    new("a.graphql")
    new("b.graphql", BROKEN)
    for words, status in (([], 0), (["--check"], 1), (["--diff"], 1), (["--help"], 0)):
        reader, writer = os.pipe()
        os.close(reader)
        run = gqlfmt(*words, "a.graphql", "b.graphql", stdout=writer)
        expect(f"{words} to a closed pipe", run[0::2], (status, ""))
        os.close(writer)


@test
def full_disks():
    big = b"{" + b" field" * 20000 + b"}\n"
    new("f/a.graphql", big)
    limit = lambda: resource.setrlimit(resource.RLIMIT_FSIZE, (50000, 50000))
    run = gqlfmt("--write", "f", restore_signals=False, preexec_fn=limit)
    expect_failure("a file that becomes too large", run, "f/a.graphql: cannot be rewritten: File too large")
    expect("nothing is lost", (read("f/a.graphql") == big, os.listdir("f")), (True, ["a.graphql"]))
    ended = gqlfmt("--write", "f", preexec_fn=limit)[0]
    expect("the signal of a file that becomes too large", ended, -signal.SIGXFSZ)
    expect("what it leaves", (read("f/a.graphql") == big, sorted(os.listdir("f"))), (True, [".gqlfmt-0", "a.graphql"]))
    os.mkdir("disk")
    if other("mount", "-t", "tmpfs", "-o", "size=256k", "none", "disk").returncode:
        results.skip("full_disks", "no file system can be mounted")
        return
    try:
        new("disk/a.graphql", big)
        run = gqlfmt("--write", "disk")
        expect_failure("a full disk", run, "disk/a.graphql: cannot be rewritten: No space left on device")
        expect("nothing is lost on it", (read("disk/a.graphql") == big, os.listdir("disk")), (True, ["a.graphql"]))
    finally:
        other("umount", "disk")


@test
def standard_output_that_fails():
    new("b.graphql")
    new("c.graphql")
    message = "gqlfmt: standard output cannot be written: "
    for words in (["b.graphql"], ["--check", "b.graphql", "c.graphql"], ["--diff", "b.graphql"], []):
        with open("/dev/full", "wb") as full:
            run = gqlfmt(*words, text=SHORT, stdout=full)
        expect(f"{words} to a full device", run[0::2], (2, f"{message}No space left on device (os error 28)\n"))
    with open("/dev/full", "wb") as full:
        expect("--help to a full device", gqlfmt("--help", stdout=full)[0], 2)


@test
@needs_library
def calls_that_fail():
    failures = [
        ("write", 28, "No space left on device"), ("fsync", 5, "Input/output error"),
        ("fchmod", 1, "Operation not permitted"), ("rename", 5, "Input/output error"),
    ]
    for call, error, message in failures:
        new("a.graphql", mode=0o640)
        run = gqlfmt("--write", "a.graphql", env={"LD_PRELOAD": given.library, "FAIL": call, "ERROR": str(error)})
        expect_failure(call, run, f"a.graphql: cannot be rewritten: {message}")
        found = (read("a.graphql"), mode_of("a.graphql"), here())
        expect(f"{call}: nothing is lost", found, (SHORT, 0o640, ["a.graphql"]))
