"""The messages of gqlfmt, which docs/ERRORS.md lists."""
import json
import re

from common.pages import TOP, rows, text_of

from .running import BROKEN, FORMATTED, SHORT, expect, gqlfmt, new, on_the_path, other, test

SOURCES = "crates/gqlfmt/src"
# What the page writes for what is different in each run.
PARTS = {"PATH": ".+", "LINE": "[1-9][0-9]*", "COLUMN": "[1-9][0-9]*", "MESSAGE": ".+", "REASON": ".+", "COUNT": "[1-9][0-9]*"}
# Ways to the messages, except those of other tests, of folders that are too deep, and of allocations that fail.
WAYS = {
    "PATH:LINE:COLUMN: MESSAGE": ["echo '{' | gqlfmt", "gqlfmt c.graphql"],
    "PATH:LINE:COLUMN: this byte is not UTF-8": ["printf '\\xff' | gqlfmt"],
    "PATH: and COUNT more": ["gqlfmt --max-errors 1 d.graphql 2>&1 | tail -1 >&2; exit 1"],
    "PATH: cannot be read: REASON": ["gqlfmt none", "gqlfmt < ."],
    "PATH: has no files that end in .graphql, .graphqls or .gql": ["mkdir empty; gqlfmt --check empty"],
    "PATH: cannot be rewritten: not a regular file": ["cat a.graphql | gqlfmt --write /dev/stdin"],
    "PATH: cannot be rewritten: its folder has all of .gqlfmt-0 to .gqlfmt-999": [
        "touch .gqlfmt-{0..999}; gqlfmt --write a.graphql; status=$?; rm .gqlfmt-*; exit $status",
    ],
    "PATH: cannot be rewritten: REASON": ["trap '' XFSZ; ulimit -f 0; gqlfmt --write a.graphql"],
    "gqlfmt: standard output cannot be written: REASON": ["gqlfmt a.graphql > /dev/full", "gqlfmt --help > /dev/full"],
    "PATH: has a name that is not UTF-8": ["gqlfmt $'\\xff'", "gqlfmt --check $'\\xff' b.graphql"],
    "gqlfmt: an option is not UTF-8: PATH": ["gqlfmt --check $'--width=\\xff' b.graphql", "gqlfmt --width $'\\xff'"],
    "error: standard input cannot be rewritten: '--write' needs a PATH": ["gqlfmt --write", "gqlfmt --write -"],
    "error: standard input cannot be combined with other inputs: '-' must be the only PATH": ["gqlfmt - a.graphql"],
    "error: '--stdin-path' can only be used with standard input": ["gqlfmt --stdin-path x a.graphql"],
}


def section():
    """What the page says of gqlfmt."""
    return text_of("docs/ERRORS.md").partition("## When `gqlfmt` fails\n")[2].partition("\n### ")[0]


def messages_of_the_page():
    """The messages of the table, with their statuses."""
    return {message.strip("`"): int(status) for message, _, status in rows(section())[1:]}


def messages_of_the_sources():
    """The messages in the sources, with the words of the page for what is different in each run."""
    errors = re.findall(r'#\[error\("(.*)"\)\]\s+\w+(\(Place\))?', text_of(f"{SOURCES}/error.rt"))
    found = [f"PATH:LINE:COLUMN: {text}" if place else f"PATH: {text}" for text, place in errors]
    for file in sorted((TOP / SOURCES).rglob("*.rt")):
        found += re.findall(r'eprintln!\(rt; "(.*)"\)', file.read_text(encoding="utf-8"))
    found += re.findall(r'write!\(messages, "(\{name\}:.*)\\n', text_of(f"{SOURCES}/message.rt"))
    [contradictions] = re.findall(r"(?ms)^fn contradiction\(.*?^\}", text_of(f"{SOURCES}/arguments.rt"))
    found += [f"error: {text}" for text in re.findall(r'[Ss]ome\(\s*"([^"]*)"', contradictions)]
    names = {"name": "PATH", "path": "PATH", "line": "LINE", "column": "COLUMN", "place": "LINE:COLUMN", "message": "MESSAGE", "error": "REASON", "more": "COUNT"}
    texts = {re.sub(r"\{(\w+)\}", lambda part: names.get(part[1], "REASON"), text) for text in found}
    # Any error of an input with a place or without one, and the line of counts.
    return texts - {"PATH:LINE:COLUMN: REASON", "PATH: REASON", "REASON"}


@test
def page_of_errors():
    env = on_the_path()
    new("a.graphql")
    new("b.graphql", FORMATTED)
    new("c.graphql", BROKEN)
    new("d.graphql", b"type A {;}\n" * 3)
    wanted = messages_of_the_page()
    expect("the messages of the page", sorted(wanted), sorted(messages_of_the_sources()))
    for message, ways in WAYS.items():
        pattern = re.sub("|".join(PARTS), lambda part: PARTS[part[0]], re.escape(message))
        for way in ways:
            run = other("bash", "-c", way, env=env)
            first = run.stderr.decode(errors="replace").partition("\n")[0]
            found = (run.returncode, run.stdout, bool(re.fullmatch(pattern, first)))
            expect(f"{way}: {first}", found, (wanted.get(message), b"", True))
    counts = re.search(r"one more line: `(.*?)`, or `(.*?)`", section())
    expect("counts", gqlfmt("--check", "a.graphql", "b.graphql", "c.graphql")[2].splitlines()[-1], counts[1])
    new("b.graphql", SHORT)
    expect("counts", gqlfmt("--write", "a.graphql", "b.graphql", "none")[2].splitlines()[-1], counts[2])


@test
def messages():
    cases = [
        (b"{a ;}\n", "1:4", "{a ;}", "   ^"),
        (b"{\n\ta\t;\n}\n", "2:4", "\ta\t;", "\t \t^"),
        ("{a(b: \"中文\") ;}\n".encode(), "1:13", '{a(b: "中文") ;}', " " * 14 + "^"),
        ("{a(b: \"e\u0301\") ;}\n".encode(), "1:13", '{a(b: "e\u0301") ;}', " " * 11 + "^"),
        ("{a(b: \"\U0001f600\") ;}\n".encode(), "1:12", '{a(b: "\U0001f600") ;}', " " * 12 + "^"),
        (b"\xef\xbb\xbf{;}\n", "1:3", "\ufeff{;}", " ^"),
        (b"{a\r\n ;}\r\n", "2:2", " ;}", " ^"),
        (b"{a\r ;}\r", "2:2", " ;}", " ^"),
        (b"# c\r{;}\n", "2:2", "{;}", " ^"),
        (b"{a \x01}\n", "1:4", "{a \ufffd}", "   ^"),
        (b"{a(b: 09)}", "1:7", "{a(b: 09)}", "      ^"),
        (b'{a(b: """x\n\ty""" ;)}', "2:7", '\ty""" ;)}', "\t     ^"),
        # The carets are under the whole token, or under its first line.
        (b"type Q {a Int}", "1:11", "type Q {a Int}", " " * 10 + "^^^"),
        (b"{a ...on ...}", "1:10", "{a ...on ...}", " " * 9 + "^^^"),
        (b'{a "b c"}', "1:4", '{a "b c"}', "   ^^^^^"),
        ('{a "中\t\u0301b"}'.encode(), "1:4", '{a "中\t\u0301b"}', "   ^^^\t^^"),
        (b'{a """b\nc"""}', "1:4", '{a """b', "   ^^^^"),
        (b'{a """\r\nc"""}', "1:4", '{a """', "   ^^^"),
        (b'{a(b: "x\\q")}', "1:7", '{a(b: "x\\q")}', "      ^"),
        (b"{a", "1:3", "{a", "  ^"),
    ]
    cut = "..." + "a" * 59 + " ;" + "b" * 59 + "..."
    cases.append((b"{" + b"a" * 200 + b" ;" + b"b" * 200 + b"}", "1:203", cut, " " * 63 + "^"))
    cases.append((b"scalar S " + b"b" * 70, "1:10", "scalar S " + "b" * 60 + "...", " " * 9 + "^" * 60))
    cases.append((b"{a(b:" + b"[" * 999, "1:1004", "..." + "[" * 61, " " * 63 + "^"))
    for text, place, line, caret in cases:
        new("m.graphql", text)
        status, _, err = gqlfmt("--check", "m.graphql")
        first, *rest = err.split("\n")
        expect(f"{text[:60]}", (status, first.split(" ")[0], rest), (1, f"m.graphql:{place}:", [line, caret, ""]))
    places = {b"{\xff}": "1:2", b"{\r\n\r\n\xff}": "3:1", b"# \xc3\xa9\r{\xc3}": "2:2"}
    places[b"{\xc3\xa9\xf0\x9f"] = "1:3"
    for text, place in places.items():
        status, _, err = gqlfmt(text=text)
        expect(f"{text}", (status, err), (2, f"<stdin>:{place}: this byte is not UTF-8\n"))
    for token in (b'"""' + b"long\n" * 1000 + b'"""', b"a" * 1000 + b" 1"):
        err = gqlfmt(text=b"{a " + token + b"}")[2]
        expect("a long token is one short line", (err.count("\n"), len(err) < 500), (3, True))
    # 1,001 brackets are open, the last one at column 1004.
    err = gqlfmt(text=b"{a(b:" + b"[" * 999)[2]
    expect("open brackets", err.splitlines()[0], "<stdin>:1:1004: more than 1000 brackets are open")
    for text, wanted in ((b"{a \x07}", "U+0007"), (b"{a `}", "U+0060"), ("{a \u200b}".encode(), "U+200B")):
        expect(f"{text}", gqlfmt(text=text)[2].splitlines()[0], f"<stdin>:1:4: unexpected character {wanted}")
    status, _, err = gqlfmt("--stdin-path", "a\nb", text=BROKEN)
    expect("a name with a line end", err.split(":")[0], '"a\\nb"')


@test
def brackets_that_are_not_closed():
    """Brackets in strings and comments do not count. A line that begins like a definition is not in an open bracket."""
    cases = [
        ("{a\n  (b: \"[\") {b # [\n", "3:1: unexpected end of the input: the `{` of line 2 is not closed"),
        ("{a\r(b:\r\n[\n", "4:1: expected a value or `]`, found the end of the input: "
            "the `[` of line 3 is not closed"),
        ("{a(b: \"\"\"\n(\"\"\"\n}", "3:1: expected a name or `)`, found `}`: the `(` of line 1 is not closed"),
        ("type Q {\n  a: Int\n\ntype T {", "4:6: expected `(` or `:`, found the name `T`: "
            "the `{` of line 1 is not closed"),
        ("{\n  a {b\n}\nquery B($c: Int) {d}", "4:9: expected a name, found `$`: the `{` of line 1 is not closed"),
        ("{a}\nquery B($c: ) {d}", "2:13: expected a type, found `)`"),
        ("{a}\nquery B($c: [Int) {d}", "2:17: expected `!` or `]`, found `)`: the `[` of line 2 is not closed"),
    ]
    for text, wanted in cases:
        expect(text, gqlfmt(text=text.encode())[2].splitlines()[0], f"<stdin>:{wanted}")


@test
def messages_of_rejected_inputs():
    """The inputs and messages of a table of docs/ERRORS.md."""
    table = text_of("docs/ERRORS.md").partition("### Messages of rejected inputs\n")[2]
    found = rows(table)[1:]
    expect("messages of the page", len(found) >= 53, True)
    for text, place, message, _ in found:
        text, message = (re.fullmatch("(`+) ?(.*?) ?\\1", it)[2] for it in (text, message))
        err = gqlfmt(text=text.replace("\\|", "|").encode())[2]
        expect(text, err.splitlines()[0], f"<stdin>:{place}: {message}".replace("\\|", "|"))


# Each definition but the second is wrong, and the last one has two errors, of which the first is reported.
WRONG = """\
type A {
  a Int
}

\"\"\"
type of the next one
\"\"\"
type B { type: Int }
query Q($a Int) {
  input: b
  type: a
}
  enum E { a; } type F { ; }
{ b } union
"""


@test
def all_errors():
    new("all.graphql", WRONG.encode())
    lines = [2, 9, 13]
    err = gqlfmt("--check", "--message-format", "short", "all.graphql")[2]
    expect("the lines of all errors", [int(line.split(":")[1]) for line in err.splitlines()], lines)
    for most in (1, 2):
        err = gqlfmt("--check", "--message-format", "short", f"--max-errors={most}", "all.graphql")[2].splitlines()
        shown = [int(line.split(":")[1]) for line in err[:-1]]
        expect(f"{most} errors", (shown, err[-1]), (lines[:most], f"all.graphql: and {3 - most} more"))
    new("many.graphql", b"type A {;}\n" * 30)
    for words, count in (((), 21), (("--max-errors", "0"), 30), (("--max-errors", "30"), 30)):
        err = gqlfmt("--message-format", "short", *words, "many.graphql")[2]
        expect(f"{words}", err.count("\n"), count)


@test
def messages_in_json():
    new('a"b.graphql', '# é\nscalar é\ntype T { a; }\ntype U { a }\n'.encode())
    lines = gqlfmt("--check", "--message-format", "json", 'a"b.graphql')[2].splitlines()
    first, second, third = [json.loads(line) for line in lines]
    place = {"path": 'a"b.graphql', "line": 2, "column": 8, "offset": 12, "length": 2}
    place |= {"inner_column": None, "inner_offset": None}
    found = "the character `é` (U+00E9)"
    expect("an error", first, {**place, "message": f"expected a name, found {found}", "found": found, "expected": ["a name"]})
    expect("its keys", list(second), ["path", "line", "column", "offset", "length", "inner_column", "inner_offset", "message", "found", "expected"])
    expect("the others", [(it["line"], it["column"], it["found"]) for it in (second, third)],
           [(3, 11, "the character `;` (U+003B)"), (4, 12, "`}`")])
    expect("expected words", third["expected"], ["`(`", "`:`"])
    escape = json.loads(gqlfmt("--message-format", "json", text='{a(b: "é\\q")}'.encode())[2])
    expect("a place in a string", [escape[it] for it in ("column", "inner_column", "inner_offset")], [7, 9, 9])
    deep = json.loads(gqlfmt("--message-format", "json", text=b"{a(b:" + b"[" * 1001)[2])
    expect("no syntax error", (deep["found"], deep["expected"], deep["length"]), (None, [], 1))
    new("many.graphql", b"type A {;}\n" * 3)
    expect("two of three", gqlfmt("--message-format=json", "--max-errors=2", "many.graphql")[2].count("\n"), 2)
