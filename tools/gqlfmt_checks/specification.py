"""The inputs of docs/SPECIFICATION.md, all of which gqlfmt accepts, except one that is too long."""
import re

from common.pages import rows, text_of

from .running import expect, gqlfmt, test

# The inputs that the page describes, by what it says.
DESCRIBED = {
    "`{a(b:1)}` with U+FEFF after the `1`": "{a(b:1\ufeff)}",
    "`{a(b:`, 49 times `[`, 49 times `]`, `)}`": "{a(b:" + "[" * 49 + "]" * 49 + ")}",
    '`{a(b:"")}` with U+0001 or CR between the quotes': '{a(b:"\x01\r")}',
    "`{a}#` with U+0001 after the `#`": "{a}#\x01",
    '`{a(b:"\\uD800")}`': '{a(b:"\\uD83D\\uDE00")}',
}


@test
def inputs_of_the_specification_page():
    page = text_of("docs/SPECIFICATION.md")
    cells = []
    for heading in ("Valid in the specification, rejected here", "Rejected in the specification, valid here"):
        cells += [row[1] for row in rows(page.partition(f"## {heading}\n")[2].partition("\n## ")[0])[1:]]
    cells += [row[1] for row in rows(page.partition("## Newer than October 2021\n")[2].partition("\n## ")[0])[1:]]
    expect("inputs of the page", len(cells) >= 22, True)
    for cell in filter(None, cells):
        for code in [cell] if cell in DESCRIBED else re.findall("`([^`]*)`", cell):
            text = DESCRIBED.get(code, code)
            expect(f"{text!r}", gqlfmt(text=text.encode())[0], 0)
    # An escape of half a surrogate pair is valid nowhere.
    expect("half a pair", gqlfmt(text=b'{a(b:"\\uD800")}')[0], 1)
