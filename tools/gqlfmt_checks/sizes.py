"""Many files, and large ones."""
import pathlib
import time

from .running import expect, gqlfmt, new, other, results, test


@test
def many_files():
    for number in range(10000):
        new(f"many/d{number % 100}/f{number}.graphql")
    start = time.time()
    expect("--check", gqlfmt("--check", "many")[::2], (1, "10000 files would change, 0 unchanged\n"))
    checked = time.time()
    expect("--write", gqlfmt("--write", "many"), (0, b"", "10000 files rewritten, 0 unchanged\n"))
    written = time.time()
    expect("--write again", gqlfmt("--write", "many"), (0, b"", "0 files rewritten, 10000 unchanged\n"))
    seconds = [checked - start, written - checked, time.time() - written]
    print("many_files: --check {:.1f} s, --write {:.1f} s, again {:.1f} s".format(*seconds))
    expect("no other files", len(list(pathlib.Path("many").rglob("*"))), 10100)


@test
def large_files():
    old = b"query name {\n    field(argument: 1, other: [1, 2, 3])   # a comment\n    other { more }\n}\n" * 600000
    path = new("large.graphql", old)
    start = time.time()
    expect("--write", gqlfmt("--write", "large.graphql"), (0, b"", ""))
    written = time.time()
    formatted = path.read_bytes()
    expect("it is formatted", (formatted != old, formatted.count(b"# a comment")), (True, 600000))
    path.write_bytes(old)
    checked = time.time()
    status, diff, _ = gqlfmt("--diff", "large.graphql")
    print(f"large_files: {len(old)} bytes: --write {written - start:.1f} s, --diff {time.time() - checked:.1f} s")
    if results.can("large_files", "patch"):
        other("patch", "-p0", "--quiet", input=diff)
        expect("--diff", (status, path.read_bytes() == formatted), (1, True))
