"""Which files gqlfmt formats, and which it leaves alone or rejects."""
import os
import pathlib
import threading

from .running import FORMATTED, ODD_NAMES, SHORT, expect, expect_failure, gqlfmt, here, new, read, test


@test
def odd_names():
    names = [f"{name}.graphql" for name in ODD_NAMES]
    for name in names:
        new(name)
    status, out, err = gqlfmt("--check", "--", *names)
    expect("--check", (status, out.count(b"\n")), (1, len(names)))
    expect("a control character is escaped", b'"new\\nline.graphql"\n' in out, True)
    expect("a character that changes the direction is", b'"\\342\\200\\256name.graphql"\n' in out, True)
    expect("a blank is not", b"\na b.graphql\n" in b"\n" + out, True)
    expect("--write", gqlfmt("--write", "--", *names)[0], 0)
    expect("all are formatted", list(map(read, names)), [FORMATTED] * len(names))
    expect("no other files", here(), sorted(names))
    new("-")
    expect("a file whose name is a dash", gqlfmt("./-"), (0, FORMATTED, ""))


@test
def names_that_are_not_utf8():
    new(b"d/\xff.graphql".decode("utf-8", "surrogateescape"))
    new("d/a.graphql")
    run = gqlfmt("--write", "d")
    expect_failure("in a folder", run, "d: contains a name that is not UTF-8")
    expect("its summary", run[2].splitlines()[-1], "1 file rewritten, 0 unchanged, 1 failed")
    expect("the other file", read("d/a.graphql"), FORMATTED)


@test
def folders():
    wanted = ["t/a.graphql", "t/b.gql", "t/c.graphqls", "t/deep/er/d.graphql", "t/x.graphql/e.graphql"]
    others = ["t/.hidden.graphql", "t/.git/f.graphql", "t/deep/.x/j.gql", "outside/k.graphql"]
    others += ["t/node_modules/l.graphql", "t/deep/node_modules/m/n.graphql"]
    others += ["t/g.txt", "t/graphql", "t/h.GRAPHQL", "t/i.graphql.bak"]
    for name in wanted + others:
        new(name)
    os.symlink("../outside", "t/folder_link")
    os.symlink("../outside/k.graphql", "t/link.graphql")
    os.symlink("none", "t/dangling.graphql")
    os.symlink(".", "t/loop")
    os.mkfifo("t/fifo.graphql")
    status, out, err = gqlfmt("--check", "t")
    expect("--check", (status, out.decode().splitlines()), (1, sorted(wanted)))
    expect("its summary", err, "5 files would change, 0 unchanged\n")
    expect("--check ./t/", gqlfmt("--check", "./t/")[1].decode().splitlines(), [f"./{name}" for name in sorted(wanted)])
    expect("--write", gqlfmt("--write", "t"), (0, b"", "5 files rewritten, 0 unchanged\n"))
    expect("these are formatted", list(map(read, wanted)), [FORMATTED] * len(wanted))
    expect("these are not", list(map(read, others)), [SHORT] * len(others))
    expect("a hidden folder that is named", gqlfmt("--check", "t/.git")[1], b"t/.git/f.graphql\n")
    expect("a hidden file that is named", gqlfmt("--check", "t/.hidden.graphql")[1], b"t/.hidden.graphql\n")
    expect("node_modules that is named", gqlfmt("--check", "t/node_modules")[1], b"t/node_modules/l.graphql\n")
    expect("a link that is named", gqlfmt("--check", "t/folder_link")[1], b"t/folder_link/k.graphql\n")
    os.mkdir("empty")
    message = "empty: has no files that end in .graphql, .graphqls or .gql\n"
    expect("an empty folder", gqlfmt("--check", "empty"), (0, b"", message))
    os.chdir("t")
    expect("the current folder", gqlfmt("--check", ".")[0], 0)
    os.chdir("..")


@test
def deep_folders():
    depth = 300
    start = os.getcwd()
    for _ in range(depth):
        os.mkdir("d")
        os.chdir("d")
    new("a.graphql")
    os.chdir(start)
    expect("--write", gqlfmt("--write", "d"), (0, b"", ""))
    expect("the file", read("d/" * depth + "a.graphql"), FORMATTED)


@test
def long_paths():
    """A folder whose path is too long for Linux is an error, and the other files are formatted."""
    name, start = "d" * 255, os.getcwd()
    for _ in range(17):
        os.mkdir(name)
        os.chdir(name)
    os.chdir(start)
    new(f"{name}/a.graphql")
    status, out, err = gqlfmt("--write", name)
    message = f"{'/'.join([name] * 16)}: cannot be read: File name too long (os error 36)"
    expect("its message", (status, out, err.splitlines()[0]), (2, b"", message))
    expect("the other file", read(f"{name}/a.graphql"), FORMATTED)


@test
def other_kinds_of_files():
    os.mkfifo("fifo")
    rejected = (2, b"", "fifo: cannot be rewritten: not a regular file\n")
    for task, wanted in (("--check", (1, b"fifo\n", "")), ("--write", rejected)):
        writer = threading.Thread(target=pathlib.Path("fifo").write_bytes, args=[SHORT], daemon=True)
        writer.start()
        expect(f"{task} of a pipe", gqlfmt(task, "fifo"), wanted)
        writer.join(timeout=60)
    new("a.graphql", b"{a \xff}\n")
    for task in ("--check", "--write", "--diff"):
        expect(f"{task}, not UTF-8", gqlfmt(task, "a.graphql"), (2, b"", "a.graphql:1:4: this byte is not UTF-8\n"))


@test
def files_without_tokens():
    formatted = {"empty.graphql": b"", "comments.graphql": b"# c\n\n# d\n"}
    others = {"spaces.graphql": (b" \n,\t\n", b""), "more.graphql": (b"#c \r\n\n\n\xef\xbb\xbf  # d", b"#c\n\n# d\n")}
    for name, text in formatted.items():
        new(name, text)
        expect(f"{name}, formatted", gqlfmt(name), (0, text, ""))
        expect(f"{name}, --check", gqlfmt("--check", "--language", "query", name), (0, b"", ""))
    for name, (text, wanted) in others.items():
        new(name, text)
        expect(f"{name}, --check", gqlfmt("--check", name), (1, name.encode() + b"\n", ""))
        expect(f"{name}, --write", (*gqlfmt("--write", name), read(name)), (0, b"", "", wanted))
    new("error.graphql", b"# c\n?")
    status, out, err = gqlfmt("error.graphql")
    message = "error.graphql:2:1: expected a definition, found the character `?` (U+003F)"
    expect("a lexical error", (status, out, err.splitlines()[0]), (1, b"", message))
