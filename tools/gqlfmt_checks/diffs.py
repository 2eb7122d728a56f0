"""Diffs, which `patch` has to apply."""
import random
import re

from .running import BROKEN, FORMATTED, ODD_NAMES, SHORT, expect, gqlfmt, needs_patch, new, other, read, test


def definitions():
    """A text of many lines."""
    return b"\n".join(b"query q%d {\n  a\n}\n" % number for number in range(20))


def applied(old, names):
    """Whether `patch` makes the formatted texts of the diffs of these files."""
    for name in names:
        new(name, old)
    status, diff, err = gqlfmt("--diff", "--", *names)
    formatted = [gqlfmt("./" + name)[1] for name in names]
    run = other("patch", "-p0", "--quiet", input=diff)
    return status, err, run.returncode, list(map(read, names)) == formatted


@test
def diffs():
    expect("formatted", gqlfmt("--diff", text=FORMATTED), (0, b"", ""))
    expect("rejected", gqlfmt("--diff", text=BROKEN)[:2], (1, b""))
    text = definitions()
    new("a.graphql", text.replace(b"query q7 {", b"query   q7{"))
    wanted = b"--- a.graphql\n+++ a.graphql\n@@ -26,7 +26,7 @@\n   a\n }\n \n-query   q7{\n+query q7 {\n   a\n }\n \n"
    expect("one line", gqlfmt("--diff", "a.graphql"), (1, wanted, ""))
    new("b.graphql", b"{" + b" field" * 300 + b"}\n\n" + text)
    diff = gqlfmt("--diff", "b.graphql")[1]
    changed = (len(re.findall(rb"^-[^-]", diff, re.M)), len(re.findall(rb"^\+[^+]", diff, re.M)))
    expect("only the first line changes", changed, (1, 302))
    new("c.graphql", b"{" + b" field" * 1500 + b"}\n\n" + text)
    expect("the same, with many lines", gqlfmt("--diff", "c.graphql")[1].count(b"\n-"), 1)
    expect("a path with ./", gqlfmt("--diff", "./a.graphql"), (1, wanted, ""))
    run = other("git", "apply", "-p0", input=gqlfmt("--diff", ".")[1])
    expect("git apply -p0", (run.returncode, gqlfmt("--check", ".")[0]), (0, 0))


@test
@needs_patch
def applied_diffs():
    names = [f"{name}.graphql" for name in ODD_NAMES if "\x85" not in name]
    text = definitions()
    texts = [SHORT, b"{a b}", b"{a\r\n  b}\r\n", b"\xef\xbb\xbf{a # c\n}\n"]
    texts += [text.replace(b"{\n", b"{ # c\n\n\n"), text.replace(b"\n\n", b"\n")]
    for number, old in enumerate(texts):
        expect(f"text {number}", applied(old, names), (1, "", 0, True))


@test
@needs_patch
def random_diffs():
    chance = random.Random(7)
    parts = [b"query a{b}", b"{c # d\n}", b"# e\nfragment f on G{h}", b"{\n  i\n}", b"query j {\n  k\n  l\n}"]
    for number in range(60):
        old = b"".join(chance.choice(parts) + chance.choice([b" ", b"\n", b"\n\n"]) for _ in range(40))
        old += chance.choice([b"", b"{z}", b"{z}\n"])
        for _ in range(chance.randrange(3)):
            mark = chance.choice([b"\n", b"{"])
            old = gqlfmt(text=old)[1].replace(mark, b"\n  " + mark, chance.randrange(4))
        if gqlfmt(text=old)[1] != old:
            expect(f"random text {number}", applied(old, ["r.graphql"]), (1, "", 0, True))
