"""The arguments of gqlfmt, and what it does with standard input and with single files."""
import re

from common.pages import text_of

from .running import BROKEN, FORMATTED, SHORT, expect, gqlfmt, new, on_the_path, other, read, test


@test
def standard_input():
    for words in ((), ("-",), ("--", "-"), ("--stdin-path", "x.gql", "-")):
        expect(f"{words}", gqlfmt(*words, text=SHORT), (0, FORMATTED, ""))
    expect("a comment is kept", gqlfmt(text=b"{a # c\n}\n")[:2], (0, b"{\n  a # c\n}\n"))
    expect("--check", gqlfmt("--check", text=SHORT), (1, b"<stdin>\n", ""))
    expect("--check, formatted", gqlfmt("--check", text=FORMATTED), (0, b"", ""))
    expect("--check with a name", gqlfmt("--check", "--stdin-path", "a b", text=SHORT), (1, b"a b\n", ""))
    status, out, err = gqlfmt(text=BROKEN)
    first = "<stdin>:2:1: unexpected end of the input: the `{` of line 1 is not closed"
    expect("an error", (status, out, err), (1, b"", f"{first}\n\n^\n"))
    err = gqlfmt("--stdin-path", "n.graphql", text=BROKEN)[2]
    expect("an error with a name", err.split(":")[0], "n.graphql")
    expect("not UTF-8", gqlfmt(text=b"{a \xff}"), (2, b"", "<stdin>:1:4: this byte is not UTF-8\n"))


@test
def message_formats():
    new("a.graphql", BROKEN)
    first = "a.graphql:2:1: unexpected end of the input: the `{` of line 1 is not closed\n"
    for words in ((), ("--message-format", "long"), ("--message-format=long",)):
        expect(f"{words}", gqlfmt(*words, "a.graphql"), (1, b"", first + "\n^\n"))
    for words in (("--message-format", "short"), ("--message-format=short", "--check")):
        expect(f"{words}", gqlfmt(*words, "a.graphql"), (1, b"", first))
    new("b.graphql", SHORT)
    status, out, err = gqlfmt("--check", "--message-format", "short", "a.graphql", "b.graphql")
    expect("two inputs", (status, out, err.splitlines()[0] + "\n", err.count("\n")), (1, b"b.graphql\n", first, 2))


@test
def format_options():
    expect("--indent", gqlfmt("--indent", "4", text=SHORT)[1], b"{\n    a\n    b\n}\n")
    expect("--indent=", gqlfmt("--indent=0", text=SHORT)[1], b"{\na\nb\n}\n")
    long = b"{a(" + b", ".join(b"argument%d: 1" % n for n in range(9)) + b")}\n"
    lines = [len(gqlfmt("--width", width, text=long)[1].splitlines()) for width in ("40", "200")]
    expect("--width", lines[0] > lines[1], True)
    for language in ("query", "schema"):
        expect(f"--language {language}", gqlfmt("--language", language, text=SHORT), (0, FORMATTED, ""))
    mixed = b"scalar T {a b} extend type U @c {d}"
    wanted = b"scalar T\n\n{\n  a\n  b\n}\n\n" + gqlfmt(text=b"extend type U @c {d: Int}")[1]
    expect("operations and types", gqlfmt(text=mixed.replace(b"{d}", b"{d: Int}")), (0, wanted, ""))


@test
def ranges_of_numbers():
    """docs/GQLFMT.md has the least and the greatest number of each option, and the default."""
    found = re.findall(r"(?m)^\| `--(\w+) N` \|.*: (\d+) to (\d+), (\d+) by default", text_of("docs/GQLFMT.md"))
    expect("options with a number", [name for name, *_ in found], ["indent", "width"])
    # A line of 80 columns with the indentation, and one of 81.
    text = b"{a(" + b"b" * 72 + b":1)c(" + b"d" * 73 + b":1)}\n"
    plain = gqlfmt(text=text)
    for name, least, most, standard in found:
        expect(f"--{name} {standard}", gqlfmt(f"--{name}", standard, text=text), plain)
        expect(f"--{name}={standard}", gqlfmt(f"--{name}={standard}", text=text), plain)
        others = [str(int(standard) - 1), str(int(standard) + 1)]
        expect(f"--{name} {others}", [gqlfmt(f"--{name}", it, text=text) != plain for it in others], [True, True])
        statuses = [gqlfmt(f"--{name}", it, text=text)[0] for it in (least, most, str(int(most) + 1))]
        expect(f"--{name}: from {least} to {most}", (int(least), statuses), (0, [0, 0, 2]))


@test
def invalid_arguments():
    new("a.graphql")
    wrong = [
        ["--check", "--write"], ["--diff", "--check"], ["--check", "--check"], ["--check=1"], ["--chek"], ["-x"],
        ["--indent"], ["--indent", "x"], ["--indent", "-1"], ["--indent", "70000"], ["--indent", "2", "--indent", "2"],
        ["--width", ""], ["--width", "4294967296"], ["--language", "sdl"], ["--stdin-path"], [b"\xff"],
        ["--max-errors"], ["--max-errors", "x"], ["--message-format"], ["--message-format", "xml"], ["--message-format", "long", "--message-format", "long"],
        ["--stdin-path", "x", "a.graphql"], ["--write"], ["--write", "-"], ["-", "a.graphql"], ["a.graphql", "-"],
        ["-", "-"],
    ]
    for words in wrong:
        status, out, err = gqlfmt(*words, text=SHORT)
        expect(f"{words}", (status, out, bool(err)), (2, b"", True))
    expect("no file is changed", read("a.graphql"), SHORT)
    for words in (["--help"], ["-h"], ["--version"], ["-V"]):
        status, out, err = gqlfmt(*words)
        expect(f"{words}", (status, bool(out), err), (0, True, ""))
    expect("the version", gqlfmt("--version")[1], b"gqlfmt 0.1.0\n")
    shown = gqlfmt("--help")[1].decode()
    options = ["--check", "--write", "--diff", "--indent <N>", "--width <N>", "--language <LANGUAGE>"]
    options += ["--stdin-path <NAME>", "--message-format <FORMAT>", "--max-errors <N>"]
    for option in [*options, "[PATH]...", "--help", "--version", "Status:"]:
        expect(f"help has {option}", option in shown, True)


@test
def arguments_that_are_not_utf8():
    """Only the words after the program's path count. One that is not UTF-8 does not stop the others."""
    env = on_the_path()
    new("a.graphql")
    new("\ufffd", FORMATTED)
    missing = "\ufffd.graphql: has a name that is not UTF-8\n"
    cases = [
        ("(exec -a $'\\xff' gqlfmt a.graphql)", (0, FORMATTED, "")),
        ("(exec -a $'-\\xff' gqlfmt a.graphql)", (0, FORMATTED, "")),
        ("gqlfmt $'\\xff.graphql' a.graphql", (2, FORMATTED, missing)),
        ("gqlfmt -- a.graphql $'-\\xff.graphql'", (2, FORMATTED, "-" + missing)),
        ("gqlfmt $'\\xff' < a.graphql", (2, b"", "\ufffd: has a name that is not UTF-8\n")),
        ("echo '{' | gqlfmt --stdin-path $'\\xff' 2>&1 >&- | head -c 7", (0, "\ufffd:2:1".encode(), "")),
    ]
    for command, wanted in cases:
        run = other("bash", "-c", command, env=env)
        expect(command, (run.returncode, run.stdout, run.stderr.decode()), wanted)


@test
def manual_page_and_completions():
    """Each has the options of the help, and no others. So has docs/GQLFMT.md."""
    shown = gqlfmt("--help")[1].decode()
    options = set(re.findall(r"(?m)^ +(?:-\w, )?--([\w-]+)", shown))
    expect("the number of options", len(options) >= 10)
    found = {
        "gqlfmt.1": re.findall(r"(?m)^\.TP\n\.B\w* .*\\-\\-(\w\S*)", text_of("packaging/gqlfmt.1")),
        "gqlfmt.bash": re.search(r"options='(.*)'", text_of("packaging/gqlfmt.bash"))[1].replace("--", "").split(),
        "gqlfmt.fish": re.findall(r" -l (\S+)", text_of("packaging/gqlfmt.fish")),
        "_gqlfmt": re.findall(r"--([\w-]+)\[", text_of("packaging/_gqlfmt")),
        "GQLFMT.md": re.findall(r"(?m)^\| (?:`-\w`, )?`--([\w-]+)", text_of("docs/GQLFMT.md")),
    }
    for name, listed in found.items():
        expect(name, {option.replace("\\", "") for option in listed}, options)


@test
def print_and_check():
    new("a.graphql")
    new("b.graphql", FORMATTED)
    new("c.graphql", BROKEN)
    expect("printed", gqlfmt("a.graphql", "b.graphql"), (0, FORMATTED + FORMATTED, ""))
    expect("one that is formatted", gqlfmt("--check", "b.graphql"), (0, b"", ""))
    expect("one that is not", gqlfmt("--check", "a.graphql"), (1, b"a.graphql\n", ""))
    status, out, err = gqlfmt("--check", "c.graphql", "a.graphql", "b.graphql")
    expect("three", (status, out), (1, b"a.graphql\n"))
    expect("their summary", err.splitlines()[-1], "1 file would change, 1 unchanged, 1 rejected")
    status, out, err = gqlfmt("--check", "none.graphql", "a.graphql")
    expect("one is missing", (status, out), (2, b"a.graphql\n"))
    expect("its message", err.splitlines()[0], "none.graphql: cannot be read: No such file or directory (os error 2)")
    expect("its summary", err.splitlines()[1], "1 file would change, 0 unchanged, 1 failed")
    expect("nothing is written", [read("a.graphql"), read("b.graphql")], [SHORT, FORMATTED])
