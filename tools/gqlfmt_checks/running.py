"""What the tests use to run gqlfmt, to make files, and to compare results."""
import dataclasses
import functools
import os
import pathlib
import shutil
import stat
import subprocess

from common.results import Results

# A text, the same text formatted, and one that is rejected.
SHORT = b"{a b}\n"
FORMATTED = b"{\n  a\n  b\n}\n"
BROKEN = b"{a\n"
# Names that a careless shell command loses, takes for an option or for a pattern, or executes.
ODD_NAMES = ["a b", "it's", 'q"uote', "new\nline", "tab\there", "-dash", "--check", "--", "back\\slash", "$(x)", "é中"]
ODD_NAMES += ["*", " ", "\x01\x7f\x85", "\u202ename"]

# FAIL names the call that fails, with the number ERROR. AT_FSYNC is a command that runs when a file is flushed.
BEFORE_THE_C_LIBRARY = """
extern int *__errno_location(void);
extern char *getenv(const char *);
extern long strtol(const char *, char **, int);
extern int strcmp(const char *, const char *), system(const char *), unsetenv(const char *);
extern long syscall(long, ...);

static int fails(const char *call) {
    const char *name = getenv("FAIL");
    if (!name || strcmp(name, call)) return 0;
    *__errno_location() = strtol(getenv("ERROR"), 0, 10);
    return 1;
}

int fsync(int file) {
    const char *command = getenv("AT_FSYNC");
    if (command) { unsetenv("LD_PRELOAD"); system(command); }
    return fails("fsync") ? -1 : syscall(74, file);
}

long write(int file, const void *bytes, unsigned long count) {
    return file > 2 && fails("write") ? -1 : syscall(1, file, bytes, count);
}

int fchmod(int file, unsigned mode) { return fails("fchmod") ? -1 : syscall(91, file, mode); }
int rename(const char *from, const char *to) { return fails("rename") ? -1 : syscall(82, from, to); }
"""


@dataclasses.dataclass
class Given:
    """What all tests use."""

    program: str = ""
    # The library of BEFORE_THE_C_LIBRARY; None without a compiler.
    library: pathlib.Path | None = None


given = Given()
results = Results()
expect = results.expect


def test(function):
    """Marks a function as a test, which runs in an empty folder."""
    function.is_test = True
    return function


def skip_unless(can_run, why):
    """Skips a test on a machine that cannot run it."""
    def decorated(function):
        @functools.wraps(function)
        def run():
            if can_run():
                function()
            else:
                results.skip(function.__name__, why)
        return run
    return decorated


needs_library = skip_unless(lambda: given.library, "there is no C compiler")
needs_root = skip_unless(lambda: os.geteuid() == 0, "only root can give files away, and run programs as another user")
needs_patch = skip_unless(lambda: shutil.which("patch"), "there is no patch")
needs_emacs = skip_unless(lambda: shutil.which("emacs"), "there is no emacs")
needs_vim = skip_unless(lambda: shutil.which("vim"), "there is no vim")


def gqlfmt(*words, text=b"", env=None, program=None, **how):
    """Runs the program: its status, standard output and standard error."""
    how = {"stdout": subprocess.PIPE, "stderr": subprocess.PIPE, "timeout": 600, **how}
    how["env"] = {**os.environ, **(env or {})}
    run = subprocess.run([program or given.program, *words], input=text, check=False, **how)
    return run.returncode, run.stdout, run.stderr.decode(errors="replace")


def other(*words, **how):
    """Runs another program."""
    return subprocess.run(words, capture_output=True, check=False, timeout=600, **how)


def on_the_path():
    """An environment in which `gqlfmt` is the program, and no settings of Git are read."""
    os.mkdir("bin")
    os.symlink(given.program, "bin/gqlfmt")
    own = {name: word for name, word in os.environ.items() if not name.startswith("GIT_")}
    who = {f"GIT_{who}_{what}": "a@b.c" for who in ("AUTHOR", "COMMITTER") for what in ("NAME", "EMAIL")}
    path = f"{os.getcwd()}/bin:/usr/bin:/bin"
    return {**own, **who, "PATH": path, "GIT_CONFIG_GLOBAL": "/dev/null", "HOME": os.getcwd()}


def new(path, text=SHORT, mode=None):
    """Writes a file, in new folders if need be."""
    path = pathlib.Path(path)
    path.parent.mkdir(parents=True, exist_ok=True)
    path.write_bytes(text)
    if mode is not None:
        path.chmod(mode)
    return path


def read(path):
    return pathlib.Path(path).read_bytes()


def mode_of(path):
    return stat.S_IMODE(os.stat(path).st_mode)


def here():
    """All names below the current folder, hidden ones also."""
    return sorted(str(path) for path in pathlib.Path(".").rglob("*"))


def expect_failure(what, run, message):
    """The run failed with status 2 and a message that begins like this one, and it wrote nothing to standard output."""
    expect(what, (run[0], run[1], run[2][:len(message)]), (2, b"", message))
