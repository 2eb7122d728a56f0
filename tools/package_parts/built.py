"""What the gate built, and the record that it did.

The record is the file out/gate: the commit, the toolchain, the yardstick, and the SHA-256 sum of each file that is
packaged.
"""
import dataclasses
import hashlib
import subprocess
import sys

from . import names

RECORD = names.TOP / "out/gate"
ARCHIVES = [names.CRATE / f"out/lib{name}.a" for name in ("graphql_c", "libc_c")]


@dataclasses.dataclass
class Source:
    """Where a package comes from."""

    commit: str
    # The time of the commit, in seconds.
    time: int
    author: str
    # The toolchain that proved it; None if the record does not say so.
    toolchain: str | None
    # The sums of the files that were built, each with its path.
    sums: list[str]


def stop(message):
    sys.exit(f"{sys.argv[0].rpartition('/')[2]}: {message}")


def said(*words, **how):
    """What a command prints; None if it fails or is not there."""
    try:
        done = subprocess.run(words, stdout=subprocess.PIPE, stderr=subprocess.DEVNULL, text=True, **how)
    except OSError:
        return None
    return done.stdout.strip() if done.returncode == 0 else None


def program(name):
    return names.TOP / f"crates/{name}/out/{name}"


def files():
    return [*map(program, names.PROGRAMS), *ARCHIVES]


def sum_of(data):
    return hashlib.sha256(data).hexdigest()


def commit():
    """The commit of this checkout, and whether no file differs from it. None and False without git."""
    found = said("git", "rev-parse", "HEAD", cwd=names.TOP)
    return found, found is not None and said("git", "status", "--porcelain", cwd=names.TOP) == ""


def lines_of_files():
    missing = [str(file.relative_to(names.TOP)) for file in files() if not file.exists()]
    if missing:
        stop(f"not built: {', '.join(missing)}")
    return [f"{sum_of(file.read_bytes())}  {file.relative_to(names.TOP)}" for file in files()]


def record(yardstick):
    """Writes the record. Only the gate does this, after all else has passed."""
    found, is_clean = commit()
    changed = "" if is_clean else " with changes"
    toolchain = said("rt", "version") or stop("`rt version` fails, so the toolchain is unknown")
    head = [f"commit {found or 'unknown'}{changed}", f"toolchain {toolchain}", f"yardstick {yardstick}"]
    RECORD.parent.mkdir(exist_ok=True)
    RECORD.write_text("".join(f"{line}\n" for line in [*head, *lines_of_files()]), encoding="utf-8")


def recorded(sums):
    """The toolchain in the record. Stops unless the record has this commit and these sums."""
    if not RECORD.exists():
        stop(f"no {RECORD.relative_to(names.TOP)}: the gate (.ci/run) has to pass first")
    of_commit, of_toolchain, _, *of_files = RECORD.read_text(encoding="utf-8").splitlines()
    if of_commit != f"commit {commit()[0]}":
        stop(f"the gate passed for another state: {of_commit}")
    if of_files != sums:
        stop("the files in out/ are not those that the gate built")
    return of_toolchain.removeprefix("toolchain ")


def source(is_proved):
    """Where the package comes from. Stops if the gate did not build it, unless it need not be proved."""
    found, is_clean = commit()
    if found is None:
        stop("this is not a checkout of git, so the package would have no commit")
    if is_proved and not is_clean:
        stop("files differ from the commit")
    sums = lines_of_files()
    toolchain = recorded(sums) if is_proved else None
    time, author = said("git", "log", "-1", "--format=%ct %an <%ae>", cwd=names.TOP).split(" ", 1)
    return Source(found, int(time), author, toolchain, sums)
