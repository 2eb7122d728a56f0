"""What docs/EDITORS.md shows."""
import fcntl
import json
import os
import pathlib
import pty
import re
import select
import struct
import subprocess
import termios
import time

from common.pages import blocks, text_of

from .running import BROKEN, FORMATTED, ODD_NAMES, SHORT, expect, needs_emacs, needs_vim, new, on_the_path, other
from .running import read, test

# The message of the text BROKEN, without its place.
UNCLOSED = "unexpected end of the input: the `{` of line 1 is not closed"
NAMES = [f"d/{name}.graphql" for name in ODD_NAMES]


def block(kind, number=0):
    """A block of the page."""
    return blocks(kind, text_of("docs/EDITORS.md"))[number]


class Repository:
    """A new repository, which is the current folder from then on."""

    def __init__(self):
        self.env = on_the_path()
        os.mkdir("repository")
        os.chdir("repository")
        self.git("init", "-q")

    def git(self, *words):
        return other("git", *words, env=self.env)

    def stage(self, texts):
        """Writes files, and stages them."""
        for name, text in texts.items():
            new(name, text)
        expect("git add", self.git("add", "-A").returncode, 0)

    def commit(self):
        """The status of a commit, and what the hook says."""
        run = self.git("commit", "-qm", "a")
        return run.returncode, (run.stdout + run.stderr).decode()


@test
def commands_of_editors():
    env = on_the_path()
    of_code = json.loads(block("json"))["customLocalFormatters.formatters"][0]["command"]
    of_helix = re.findall(r'"([^"]*)"', re.search(r"formatter = (.*)", block("toml"))[1])
    commands = [
        ["bash", "-c", of_code.replace("${file}", "a b")],
        ["gqlfmt", *arguments_in(block("lua"))],
        ["a b" if word == "%{buffer_name}" else word for word in of_helix],
    ]
    first = f"a b:2:1: {UNCLOSED}"
    for command in commands:
        for text, wanted in ((SHORT, (0, FORMATTED, [])), (BROKEN, (1, b"", [first]))):
            run = other(*command, input=text, env=env)
            expect(f"{command}", (run.returncode, run.stdout, run.stderr.decode().splitlines()[:1]), wanted)


def arguments_in(lua):
    """The arguments in a block of Lua, with a name for what the editor replaces."""
    return re.findall(r'"([^"]*)"', re.search(r"args = \{(.*?)\}", lua)[1].replace("$FILENAME", "a b"))


@test
def patterns_of_editors():
    """The commands that find errors, and the patterns by which editors read their messages."""
    env = on_the_path()
    new("a b.graphql", BROKEN)
    task = json.loads(block("json", 1))["tasks"][0]
    run = other("bash", "-c", task["command"], env=env)
    pattern = task["problemMatcher"]["pattern"]
    found = re.fullmatch(pattern["regexp"], run.stderr.decode().rstrip("\n"))
    places = [found[pattern[part]] for part in ("file", "line", "column", "message")]
    expect("VS Code", (run.returncode, places), (1, ["./a b.graphql", "2", "1", UNCLOSED]))
    lua = block("lua", 1)
    run = other("gqlfmt", *arguments_in(lua), input=BROKEN, env=env)
    pattern = re.search(r'from_pattern\(\s*"(.*?)"', lua)[1].replace(".-", ".*?").replace("%d", "\\d")
    found = re.fullmatch(pattern, run.stderr.decode().rstrip("\n"))
    expect("nvim-lint", (run.returncode, run.stdout, found.groups()), (1, b"", ("2", "1", UNCLOSED)))
    command = re.search(r"'command': '(.*)'", block("vim", 1))[1].replace("%e", "gqlfmt").replace("%s", "'a b'")
    run = other("bash", "-c", command, input=BROKEN, env=env)
    expect("ALE", (run.returncode, run.stdout, run.stderr.decode()), (1, b"", f"a b:2:1: {UNCLOSED}\n"))


# Calls of Emacs that save a file and print its errors.
EMACS = """
(progn (find-file "%s") (set-buffer-modified-p t) (save-buffer)
  (gqlfmt-flymake (lambda (found)
    (dolist (it found) (message "%%s %%s" (flymake-diagnostic-beg it) (flymake-diagnostic-text it))))))
"""


@test
@needs_emacs
def emacs():
    env = on_the_path()
    new("init.el", block("elisp").encode())
    error = "unexpected character `;` (U+003B): GraphQL has no semicolons"
    wide = '{a(b: "中") ;}'.encode()
    other_error = error.replace("unexpected", "expected a selection, `@`, `{` or `}`, found the")
    files = {
        "a b.graphql": (SHORT, FORMATTED, []),
        "c.gql": (wide, wide, [f"c.gql:1:12: {other_error}", f"12 {other_error}"]),
        "d.graphqls": (b"{ a\n  ; }", b"{ a\n  ; }", [f"d.graphqls:2:3: {error}", f"7 {error}"]),
        "e.graphql": (FORMATTED.replace(b"\n", b"\r\n"), FORMATTED, []),
        "f.graphql": (b"\xef\xbb\xbf" + FORMATTED, FORMATTED, []),
        "g.txt": (SHORT, SHORT, []),
    }
    for name, (text, wanted, messages) in files.items():
        new(name, text)
        words = ["-Q", "--batch", "-l", "init.el", "--eval", EMACS % name]
        run = other("emacs", *words, env=env, stdin=subprocess.DEVNULL)
        expect(f"emacs writes {name}", read(name), wanted)
        # What Emacs says, in part before the save and after it, and what Flymake reports.
        said = list(dict.fromkeys(run.stderr.decode().splitlines()))
        expect(f"emacs says of {name}", said if name != "g.txt" else [], messages)


@test
@needs_vim
def quickfix_of_vim():
    env = on_the_path()
    new("rc.vim", block("vim", 2).encode())
    new("a b.graphql", b"{ a\n  ; }")
    store = "call writefile(map(getqflist(), {_, it -> it.lnum . ':' . it.col . ' ' . it.text}), 'found')"
    words = ["-u", "NONE", "-N", "-es", "-c", "filetype on", "-S", "rc.vim", "-c", "edit a\\ b.graphql"]
    other("vim", *words, "-c", "silent make", "-c", store, "-c", "qa!", env=env, stdin=subprocess.DEVNULL)
    expect("errors", read("found"), b"2:3 unexpected character `;` (U+003B): GraphQL has no semicolons\n")


@test
@needs_vim
def vim():
    env = on_the_path()
    new("rc.vim", block("vim").encode())
    lines = b"{" + b"\n" * 9 + b"a b}"
    files = {
        "a b.graphql": (SHORT, FORMATTED),
        "c.gql": (lines, FORMATTED),
        "d.graphqls": (BROKEN, BROKEN),
        "e.graphql": (FORMATTED.replace(b"\n", b"\r\n"), FORMATTED),
        "f.graphql": (b"\xef\xbb\xbf" + FORMATTED, FORMATTED),
    }
    for name, (text, wanted) in files.items():
        new(name, text)
        words = ["-u", "NONE", "-N", "-es", "-S", "rc.vim", name, "-c", "normal G", "-c", "write", "-c", "qa!"]
        other("vim", *words, env=env, stdin=subprocess.DEVNULL)
        expect(f"vim writes {name}", read(name), wanted)


# A key of Vim that stores the last line of the screen, and leaves the screen as it is.
STORE = "nnoremap # <Cmd>call writefile([join(map(range(1, &columns), 'screenstring(&lines, v:val)'), '')], 'line')<CR>"
# The most seconds until a message is on the screen.
PATIENCE = 60


def last_line(name, beginning, env):
    """The last line of Vim's screen of 80 columns after `:w`. It is awaited until it begins in this way."""
    stored = pathlib.Path("line")
    stored.write_text("", encoding="utf-8")
    terminal, screen = pty.openpty()
    fcntl.ioctl(screen, termios.TIOCSWINSZ, struct.pack("HHHH", 24, 80, 0, 0))
    words = ["vim", "-u", "NONE", "-i", "NONE", "-N", "-n", "-S", "rc.vim", "-c", STORE, name]
    how = {"stdin": screen, "stdout": screen, "stderr": screen, "start_new_session": True}
    vim = subprocess.Popen(words, env={**env, "TERM": "ansi"}, **how)
    try:
        os.write(terminal, b":w\r")
        end = time.monotonic() + PATIENCE
        while not stored.read_text(encoding="utf-8").startswith(beginning) and time.monotonic() < end:
            os.write(terminal, b"#")
            while select.select([terminal], [], [], 0.2)[0]:
                os.read(terminal, 65536)
    finally:
        vim.kill()
        vim.wait()
        os.close(terminal)
        os.close(screen)
    return stored.read_text(encoding="utf-8").rstrip()


@test
@needs_vim
def screen_of_vim():
    env = on_the_path()
    new("rc.vim", block("vim").encode())
    new("a b.graphql", BROKEN)
    message = f"a b.graphql:1:3: {UNCLOSED}"
    expect("the last line for a text that is rejected", last_line("a b.graphql", message, env), message)
    new("folder/c.gql", b"type T { a: %s }\n" % (b"1" * 100))
    begun = "c.gql:1:13: expected a type, found the number `111"
    line = last_line("folder/c.gql", begun, env)
    expect("a long message", (line[:len(begun)], 60 < len(line) < 80), (begun, True))


@test
def hook():
    repository = Repository()
    new(".git/hooks/pre-commit", block("bash").encode(), mode=0o755)
    repository.stage(dict.fromkeys(NAMES, SHORT))
    status, said = repository.commit()
    expect("files that are not formatted", (status, said.count(".graphql")), (1, len(NAMES)))
    repository.stage(dict.fromkeys(NAMES, FORMATTED))
    for name in NAMES:
        new(name, BROKEN)
    expect("the hook reads what is staged", repository.commit(), (0, ""))
    repository.git("checkout", "-q", ".")
    os.symlink("nowhere", "link.graphql")
    repository.git("rm", "-q", NAMES[0])
    repository.stage({"other": BROKEN, "d/x.gql": FORMATTED})
    expect("a link, a removal and another kind of file", repository.commit(), (0, ""))
    os.remove("link.graphql")
    repository.stage({"link.graphql": SHORT})
    last = "Not committed: see above. gqlfmt --write formats each valid file."
    expect("a file in place of a link", repository.commit(), (1, f"link.graphql\n{last}\n"))
    repository.stage({"link.graphql": BROKEN})
    status, said = repository.commit()
    wanted = (1, f"link.graphql:2:1: {UNCLOSED}", last)
    expect("a file that is rejected", (status, *said.splitlines()[::len(said.splitlines()) - 1]), wanted)
    path = {**repository.env, "PATH": "/usr/bin:/bin"}
    missing = other(".git/hooks/pre-commit", env=path)
    said = (missing.returncode, missing.stdout, missing.stderr.decode().count("gqlfmt is not on the path"))
    expect("no gqlfmt", said, (1, b"", 1))
    alone = other(".git/hooks/pre-commit", env={**repository.env, "GIT_DIR": "/nowhere"})
    expect("git fails", alone.returncode != 0)


@test
def checks_before_a_merge():
    """The entry of pre-commit, with the names that it adds, and the two commands for CI."""
    repository = Repository()
    of_workflow = re.search(r"run: (.*)", block("yaml", 1))[1]
    checks = [[*re.search(r"entry: (.*)", block("yaml"))[1].split(), *NAMES]]
    checks += [["bash", "-c", command] for command in (of_workflow, block("sh"))]
    for text, is_formatted in ((SHORT, False), (FORMATTED, True)):
        repository.stage(dict.fromkeys(NAMES, text))
        for check in checks:
            expect(f"{check[:3]}, {text}", other(*check, env=repository.env).returncode == 0, is_formatted)
    pattern = re.search(r"files: (.*)", block("yaml"))[1]
    files = ["a.graphql", "d/a.graphqls", "a.gql", "a.gql.txt", "graphql", "agql"]
    expect("the files of pre-commit", [bool(re.search(pattern, name)) for name in files], [True] * 3 + [False] * 3)


@test
def files_that_are_left_out():
    repository = Repository()
    repository.stage({"a.graphql": FORMATTED})
    os.symlink("nowhere", "link.graphql")
    repository.stage({})
    command = block("sh")
    expect("a link that leads nowhere", other("bash", "-c", command, env=repository.env).returncode != 0)
    without = re.search(r"put `('.*?')` after the patterns", text_of("docs/EDITORS.md"))[1]
    command = command.replace("'*.gql'", f"'*.gql' {without}")
    expect("without the link", other("bash", "-c", command, env=repository.env).returncode, 0)
