"""The rules of the layout of gqlfmt (docs/GQLFMT.md), as tools/check_fmt checks them on an output."""
import bisect
import re
import unicodedata

TOKEN = re.compile(
    r'(?P<comment>#[^\n\r]*)|(?P<block>"""(?:\\"""|(?!""").)*?""")|(?P<string>"(?:\\.|[^"\\\n])*")'
    r"|(?P<name>[_A-Za-z]\w*)|(?P<punctuator>\.\.\.|[!$&()\[\]{}:=@|])"
    r"|(?P<number>-?[0-9]+(?:\.[0-9]+)?(?:[eE][+-]?[0-9]*)?)|(?P<skip>[ \t\n\r,\ufeff])",
    re.S | re.A,
)


def block_value(content):
    """The value of a block string (section 2.9.4 of the specification).

    A CR alone ends no line, as in `unquote_block_string`."""
    lines = re.split(r"\r?\n", content)
    white = [len(line) - len(line.lstrip(" \t")) for line in lines]
    common = min((white[i] for i in range(1, len(lines)) if white[i] < len(lines[i])), default=0)
    lines = lines[:1] + [line[common:] if len(line) >= common else "" for line in lines[1:]]
    while lines and not lines[0].strip(" \t"):
        lines = lines[1:]
    while lines and not lines[-1].strip(" \t"):
        lines = lines[:-1]
    return "\n".join(lines).replace('\\"""', '"""')


def tokens_of(text):
    """The tokens and the comments of a text: the kind, the spelling or value, and where it begins and ends.

    None for a lexical error."""
    found, at = [], 0
    while at < len(text):
        match = TOKEN.match(text, at)
        if not match:
            return None
        kind, spelling = match.lastgroup, match.group()
        if kind == "comment":
            found.append((kind, spelling.rstrip(" \t\f\r\n"), match.span()))
        elif kind == "block":
            found.append((kind, block_value(spelling[3:-3]), match.span()))
        elif kind != "skip":
            found.append((kind, spelling, match.span()))
        at = match.end()
    return found


def kept(tokens):
    return tokens and [(kind, text) for kind, text, _ in tokens]


def columns(text):
    """The columns of a terminal that a text takes."""
    if text.isascii():
        return len(text)
    wide = sum(unicodedata.east_asian_width(c) in "WF" for c in text)
    return len(text) + wide - sum(unicodedata.category(c) in ("Mn", "Me", "Cf") for c in text)


def empty_lines_before(tokens, text):
    """For each piece of a text, whether an empty line comes right before it. A line of only commas is not empty."""
    gaps = [text[before[1]:after[0]] for (_, _, before), (_, _, after) in zip(tokens, tokens[1:])]
    return [False] + [any("," not in line for line in re.split(r"\r\n|\r|\n", gap)[1:-1]) for gap in gaps]


class Output:
    """An output at a width and an indentation, with its tokens and comments, and for each bracket the other one."""

    KEYWORDS = ("type", "interface", "union", "enum", "scalar", "input", "schema", "directive", "extend")
    OPERATIONS = ("{", "query", "mutation", "subscription", "fragment")

    def __init__(self, text, width, indent):
        self.text, self.width, self.indent, self.tokens = text, width, indent, tokens_of(text)
        self.kinds = [kind for kind, _, _ in self.tokens]
        self.spellings = [text[begin:end] for _, _, (begin, end) in self.tokens]
        self.code = [i for i, kind in enumerate(self.kinds) if kind != "comment"]
        self.is_query = bool(self.code) and self.spellings[self.code[0]] in self.OPERATIONS
        # The objects, and for each token the bracket that it is in or closes; -1 outside of brackets.
        self.pairs, self.objects, self.within, opened = {}, set(), {}, [-1]
        for i in self.code:
            self.within[i] = opened[-1]
            if self.spellings[i] in ("(", "[", "{"):
                if self.spellings[i] == "{" and (self.before(i) in (":", "=") or self.is_listed(i)):
                    self.objects.add(i)
                opened.append(i)
            elif self.spellings[i] in (")", "]", "}"):
                self.pairs[opened.pop()] = i
        self.openers = {closer: opener for opener, closer in self.pairs.items()}

    def is_outside(self, i):
        """Whether the token at i is outside of brackets."""
        return self.within.get(i) == -1

    def is_listed(self, i):
        """Whether the token at i is right in square brackets."""
        return self.within.get(i, -1) >= 0 and self.spellings[self.within[i]] == "["

    def is_in_block(self, i):
        """Whether the token at i is right in the braces of a selection set, or of fields or values that are defined."""
        opener = self.within.get(i, -1)
        return opener >= 0 and self.spellings[opener] == "{" and opener not in self.objects

    def token(self, i, step):
        """The index of the token so many tokens after the piece at i, if there is one."""
        at = bisect.bisect_left(self.code, i) + step if step < 0 else bisect.bisect_right(self.code, i) + step - 1
        return self.code[at] if 0 <= at < len(self.code) else None

    def before(self, i, count=1):
        """The spelling of the token before the piece at i."""
        at = self.token(i, -count)
        return "" if at is None else self.spellings[at]

    def between(self, i):
        """What comes before the piece at i."""
        return self.text[self.tokens[i - 1][2][1] if i else 0:self.tokens[i][2][0]]

    def begins_line(self, i):
        return i == 0 or "\n" in self.between(i)

    def column(self, at):
        return columns(self.text[self.text.rfind("\n", 0, at) + 1:at])

    def can_break(self, i):
        """Whether the brackets that open at i could be broken into lines: not those of a type, or empty ones."""
        inside = self.spellings[i + 1:self.pairs[i]]
        is_block = self.spellings[i] == "{" and i not in self.objects
        names = [it for it in inside if it not in ("[", "]", "!")]
        is_type = self.spellings[i] == "[" and len(names) == 1 and self.kinds[i + 1] in ("name", "punctuator")
        return bool(inside) and not is_block and not is_type

    def in_line(self, i):
        """Whether the brackets that open at i are in one line."""
        return not any(self.begins_line(k) for k in range(i + 1, self.pairs[i] + 1))

    def flat_gap(self, i):
        """What would come before the piece at i if it did not begin a line."""
        before, this = self.spellings[i - 1], self.spellings[i]
        if not self.begins_line(i):
            return self.between(i)
        if before in ("(", "[") or this in (")", "]"):
            return ""
        is_spaced = before == "{" or this in ("}", "@", "|", "&") or self.is_outside(i) or self.is_described(i)
        return " " if is_spaced else ", "

    def is_described(self, i):
        """Whether the piece at i begins what a description describes."""
        is_string = self.kinds[i - 1] in ("string", "block") and self.kinds[i] == "name"
        return is_string and not self.is_listed(i) and self.before(i - 1) not in (":", "=")

    def fits(self, i, j, column):
        """Whether the pieces from i to j fit after this column, with what follows up to where the line can end."""
        if any(self.kinds[k] == "comment" or "\n" in self.spellings[k] for k in range(i, j + 1)):
            return False
        text = self.spellings[i] + "".join(self.flat_gap(k) + self.spellings[k] for k in range(i + 1, j + 1))
        k = j + 1
        while not self.ends_line(k):
            text += self.between(k) + self.spellings[k].partition("\n")[0]
            is_opened = k in self.pairs and self.pairs[k] > k + 1 and (self.begins_line(k + 1) or self.can_break(k))
            if is_opened or "\n" in self.spellings[k]:
                break
            k += 1
        return column + columns(text) <= self.width

    def ends_line(self, i):
        """Whether a line can end before the piece at i, after a group. A comment takes no columns."""
        return i == len(self.tokens) or self.begins_line(i) or self.spellings[i] == "@" or self.kinds[i] == "comment"

    def chain(self, i):
        """The index of the last token of the directives that begin at i."""
        last, i = i, self.token(i, 1)
        while i is not None and (self.spellings[i] in ("@", "(") or self.spellings[last] == "@"):
            last = self.pairs.get(i, i)
            i = self.token(last, 1)
        return last

    def is_defined(self, i):
        """Whether the directive that begins at i is defined there."""
        after = self.token(self.chain(i), 1)
        return self.before(i) == "directive" and after is not None and self.spellings[after] in ("on", "repeatable")

    def directive_before(self, i):
        """The index of the directive that is used right before the token at i, if there is one."""
        name = self.token(i, -1)
        if name is not None and self.spellings[name] == ")":
            name = self.token(self.openers[name], -1)
        at = None if name is None else self.token(name, -1)
        return at if at is not None and self.spellings[at] == "@" and not self.is_defined(at) else None

    def has_comment_after(self, last):
        """Whether a comment comes after the directives or members that end at last, and counts as one of them."""
        i = last + 1
        while i < len(self.kinds) and self.kinds[i] == "comment" and not self.begins_line(i):
            i += 1
        token = self.token(last, 1)
        if token is None or self.kinds[i] != "comment" or self.is_outside(token) and self.spellings[token] != "{":
            return False
        return self.column(self.tokens[i][2][0]) > self.column(self.tokens[token][2][0])

    def follows_broken_member(self, i):
        """Whether a member that begins a line comes before the token at i."""
        begins = {"&": self.token(i, -2), "implements": self.token(i, -1)}.get(self.before(i, 2))
        return begins is not None and (self.begins_line(begins) or self.ends_member(begins))

    def is_string_outside(self, i):
        """Whether the piece at i is a string outside of brackets, so a description."""
        return i is not None and self.is_outside(i) and self.kinds[i] in ("string", "block")

    def begins_definition(self, i):
        """Whether the token at i begins a definition. The levels have to have indentation."""
        if not self.is_outside(i) or not self.begins_line(i) or self.column(self.tokens[i][2][0]):
            return False
        if self.is_query:
            return self.before(i) in ("", "}")
        is_described = self.is_string_outside(self.token(i, -1))
        return self.is_string_outside(i) or self.spellings[i] in self.KEYWORDS and not is_described

    def definitions(self):
        """The index of the first token of each definition, and whether it is in one line and has no comment on a
        separate line. The levels have to have indentation."""
        begins = [i for i in self.code if self.begins_definition(i)]
        for i, j in zip(begins, begins[1:] + [len(self.tokens)]):
            lines = [k for k in range(i + 1, j) if self.begins_line(k)]
            yield i, all(self.kinds[k] == "comment" and not self.column(self.tokens[k][2][0]) for k in lines)

    def wrong_definitions(self, was):
        """What is wrong with the empty lines between definitions, if `was` says where the input has empty lines."""
        found = list(self.definitions())
        for (_, is_line), (j, is_next_line) in zip(found, found[1:]):
            between = range(self.token(j, -1) + 1, j + 1)
            empty = [k for k in between if "\n\n" in self.between(k)]
            if is_line and is_next_line and any(not was[k] for k in empty):
                return "an empty line between definitions of one line"
            if not (is_line and is_next_line) and not empty:
                return "no empty line between definitions"
        for j in [i for i, _ in found] + [len(self.tokens)]:
            last = self.token(j, -1)
            after = 1 if last is None else last + 1
            if any(was[k] and "\n\n" not in self.between(k) for k in range(after, min(j + 1, len(self.tokens)))):
                return "a lost empty line at a definition"
        return ""

    def keeps_empty_line(self, i):
        """Whether an empty line stays before the token at i, in brackets: before an item that begins a line, and is not
        the first one."""
        before = self.spellings[i - 1]
        is_item = self.begins_line(i) and before not in ("(", "[", "{") and not self.is_described(i)
        return is_item and self.spellings[i] not in ("@", ")", "]", "}")

    def wrong_empty_lines(self, was):
        """What is wrong with the empty lines in brackets, if `was` says where the input has empty lines."""
        for i in self.code:
            if self.is_outside(i) or self.kinds[i - 1] == "comment":
                continue
            is_empty = "\n\n" in self.between(i)
            if is_empty and not (was[i] and self.keeps_empty_line(i)):
                return f"an empty line too many before {self.spellings[i]!r}"
            if was[i] and not is_empty and self.keeps_empty_line(i):
                return f"a lost empty line before {self.spellings[i]!r}"
        return ""

    def line_gap(self, i):
        """What comes between the piece at i and the one before it in the same line."""
        before, this = self.spellings[i - 1], self.spellings[i]
        if self.kinds[i] == "comment" or (before == "..." and (this in ("on", "{", "@"))):
            return " "
        if before in ("(", "[", "$", "@", "...") or this in (")", "]", ":", "!") or (before, this) == ("{", "}"):
            return ""
        if this == "(":
            return " " if self.is_query and self.is_outside(i - 1) and self.before(i - 1) in ("", "}") else ""
        is_spaced = before in ("{", ":", "=") or this in ("}", "@", "|", "&", "=")
        if is_spaced or self.is_outside(i) or self.is_in_block(i) or self.is_described(i):
            return " "
        return ", "

    def wrong_spaces(self):
        """What is wrong with what comes between the pieces of a line."""
        for i in range(1, len(self.tokens)):
            if not self.begins_line(i) and self.between(i) != self.line_gap(i):
                return f"{self.between(i)!r} before {self.spellings[i]!r}"
        return ""

    def wrong_comments(self):
        """What is wrong with the levels of comments: each is at the level of what comes next, of the items before a
        closing bracket, or a level in from these."""
        for i, kind in enumerate(self.kinds):
            if kind != "comment" or not self.begins_line(i):
                continue
            token = self.token(i, 1)
            level = 0 if token is None else self.column(self.tokens[token][2][0])
            if token in self.openers:
                level += self.indent
            if self.column(self.tokens[i][2][0]) not in (level, level + self.indent):
                return f"the level of {self.spellings[i]!r}"
        return ""

    def wrong(self):
        """What is wrong with where lines end, if anything."""
        for i, spelling in enumerate(self.spellings):
            wrong = ""
            if i in self.pairs and self.can_break(i):
                wrong = self.wrong_brackets(i)
            elif spelling in ("@", "|", "&"):
                wrong = self.wrong_chain(i)
            elif self.is_lead(i):
                wrong = self.wrong_members(i)
            if wrong:
                begin = self.tokens[i][2][0]
                return f"{wrong}: {self.text[begin:begin + 40]!r}"
        return None

    def wrong_brackets(self, i):
        """What is wrong with the brackets that open at i."""
        if self.begins_line(i + 1) and self.fits(i, self.pairs[i], self.column(self.tokens[i][2][0])):
            return "brackets that fit are broken"
        if self.in_line(i) and self.is_wide(i, self.pairs[i]):
            return "brackets in a line that is too long"
        return ""

    def wrong_chain(self, i):
        """What is wrong with the directive or the member that begins at i."""
        is_directive = self.spellings[i] == "@" and not self.is_defined(i)
        if self.ends_member(i):
            return ""
        if not self.begins_line(i):
            is_chain = is_directive or self.spellings[i] != "@"
            return "directives or members in a line that is too long" if is_chain and self.is_wide(i, i) else ""
        is_first = self.directive_before(i) is None and not self.follows_broken_member(i)
        last = self.chain(i)
        if not is_directive or not is_first or self.kinds[i - 1] == "comment" or self.has_comment_after(last):
            return ""
        if self.fits(i, last, self.column(self.tokens[i - 1][2][1]) + 1):
            return "directives that fit are broken"
        return ""

    def ends_member(self, i):
        """Whether the piece at i is a separator that ends its line before a comment, however long the line is."""
        return self.spellings[i] in ("|", "&") and self.kinds[i + 1] == "comment" and not self.begins_line(i)

    def is_lead(self, i):
        """Whether the token at i leads members. An `implements` after a type that is named as a keyword is left out."""
        name = self.token(i, -1)
        if not self.is_outside(i) or name is None:
            return False
        if self.spellings[i] == "implements":
            is_named = self.kinds[name] == "name" and self.spellings[name] not in (*self.KEYWORDS, "implements")
            return is_named and self.before(i, 2) in ("type", "interface")
        return self.spellings[i] == "=" or self.spellings[i] == "on" and self.is_after_defined(i)

    def is_after_defined(self, i):
        """Whether the token at i comes after the arguments of a directive that is defined, and `repeatable`."""
        at = self.token(i, -1)
        if at is not None and self.spellings[at] == "repeatable" and self.before(at) != "@":
            at = self.token(at, -1)
        if at is not None and self.spellings[at] == ")":
            at = self.token(self.openers[at], -1)
        return at is not None and self.before(at) == "@" and self.before(at, 2) == "directive"

    def wrong_members(self, i):
        """What is wrong with the members that the token at i leads."""
        directive = self.directive_before(i)
        if self.spellings[i + 1] in ("|", "&"):
            is_line = self.begins_line(i + 1) or self.ends_member(i + 1)
            return "" if is_line else "members after a leading separator in one line"
        if not self.begins_line(i + 1) or directive is not None and self.begins_line(directive):
            return ""
        last = self.token(i, 1)
        while self.token(last, 1) is not None and self.spellings[self.token(last, 1)] in ("|", "&"):
            last = self.token(last, 2)
        column = self.column(self.tokens[i][2][1]) + 1
        if self.has_comment_after(last):
            return ""
        if self.fits(i + 1, last, column):
            return "members that fit are broken"
        closer = self.token(i, -2) if self.spellings[i - 1] == "repeatable" else self.token(i, -1)
        is_after_line = self.spellings[i] == "on" and closer in self.openers and self.in_line(self.openers[closer])
        if is_after_line and self.can_break(self.openers[closer]) and self.fits(closer, last, 0):
            return "locations that fit after broken arguments are broken"
        return ""

    def is_wide(self, i, j):
        """Whether the line that has the pieces from i to j is too long, up to a comment."""
        while j + 1 < len(self.tokens) and not self.begins_line(j + 1) and self.kinds[j + 1] != "comment":
            j += 1
        return self.column(self.tokens[j][2][0] + len(self.spellings[j].partition("\n")[0])) > self.width


def between_comments(text):
    """For each two comments in a row, the number of line ends between them, and whether only the first is indented.

    The number is None if the first is after a token."""
    found = []
    tokens = tokens_of(text)
    for (kind, _, (begin, end)), (next_kind, _, (after, _)) in zip(tokens, tokens[1:]):
        if kind == next_kind == "comment":
            line = re.split(r"[\r\n]", text[:begin])[-1]
            is_separate = not line.strip(" \t,\ufeff")
            count = len(re.findall(r"\r\n|\r|\n", text[end:after])) if is_separate else None
            found.append((count, bool(is_separate and line) and text[after - 1] in "\r\n"))
    return found


def below(text):
    """For each piece of a text, whether it is a comment in the line below a definition that ends with `}`, and an empty
    line or the end comes after it and the comments in the next lines."""
    found, tokens, depth = [], tokens_of(text), 0
    gaps = [text[before[1]:after[0]] for (_, _, before), (_, _, after) in zip(tokens, tokens[1:])]
    ends = [0 if "," in gap else len(re.findall(r"\r\n|\r|\n", gap)) for gap in gaps] + [2]
    for i, (kind, spelling, _) in enumerate(tokens):
        if kind == "punctuator":
            depth += (spelling in "([{") - (spelling in ")]}")
        last = i
        while last + 1 < len(tokens) and tokens[last + 1][0] == "comment" and ends[last] == 1:
            last += 1
        follows = i > 0 and depth == 0 and tokens[i - 1][:2] == ("punctuator", "}") and ends[i - 1] == 1
        found.append(kind == "comment" and follows and ends[last] > 1)
    return found


def wrong_output(text, output, again, width, indent, in_one_language=True):
    """What is wrong with the output of a text, if anything; but for the document.

    The rules of lines are checked only of documents in one language: of operations, or of types."""
    if kept(tokens_of(text)) != kept(tokens_of(output)):
        return "other tokens or comments"
    if again != output:
        return "formatted again it is another"
    ends = zip(between_comments(text), between_comments(output))
    if any(before == 1 and after != 1 and not ends_definition for (before, _), (after, ends_definition) in ends):
        return "an empty line between comments"
    if any(before and not after for before, after in zip(below(text), below(output))):
        return "a comment is torn off the line above it"
    plain = re.sub(r'"""(?:\\"""|(?!""").)*?"""', '""', output, flags=re.S)
    ends_well = output[-1:] in ("", "\n") and not re.search(r"[ \t,]$", plain, re.M)
    if not ends_well or output.startswith("\n") or "\n\n\n" in plain:
        return "white space"
    if not in_one_language:
        return None
    found, was = Output(output, width, indent), empty_lines_before(tokens_of(text), text)
    wrong = found.wrong() or found.wrong_spaces() or found.wrong_comments() or found.wrong_empty_lines(was)
    return wrong or indent and found.wrong_definitions(was)
