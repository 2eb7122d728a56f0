"""Random GraphQL documents for tools/check_fmt and tools/check_json."""


class Maker:
    """Makes the tokens of random documents."""

    WORDS = """a b id name type query on input implements union extend schema fragment repeatable interface directive
        enum scalar longerName veryLongFieldName""".split()
    TEXTS = ["", "a", "two words", "# no comment", "é", "日本語", "e\u0301", "😀 x", "x" * 60]
    TEXTS += ['q \\" \\\\ \\u00e9', "{ [ ( , )"]
    LINES = ["", "  ", "text", "  in", "\tin", 'with \\""" quotes', "end  ", "日本", "# no comment", "x" * 40]
    GAPS = [" ", "\n", "\n\n", "\n\n\n\n", "\r\n", ",", "\t", ", ", "\r", "\ufeff", " # note  \n", "\n# own\n"]
    GAPS += ["\n\n#é\t \n\n", "#\r", "#x\r\n", "\n  # a\n\n  # b\n"]
    LOCATIONS = "QUERY FIELD FRAGMENT_SPREAD OBJECT FIELD_DEFINITION ENUM_VALUE INPUT_FIELD_DEFINITION".split()

    def __init__(self, r):
        self.r = r

    def chance(self, part):
        return self.r.random() < part

    def name(self):
        return self.r.choice(self.WORDS) + self.r.choice(["", "", "", "1", "_x", "Aaaaaaaaaaaaaaaaaaaaaaaa"])

    def several(self, make, most, least=0):
        return [token for _ in range(self.r.randint(least, most)) for token in make()]

    def string(self):
        if self.chance(0.6):
            return ['"' + self.r.choice(self.TEXTS) + '"']
        end = self.r.choice(["\n", "\n", "\r\n"])
        lines = [self.r.choice(["", "  ", "\t"]) + self.r.choice(self.LINES) for _ in range(self.r.randint(0, 5))]
        return ['"""' + end.join(lines) + '"""']

    def value(self, depth=0, const=False):
        kind = self.r.randrange(10 if depth < self.r.choice([2, 4, 30]) else 7)
        if kind == 0 and not const:
            return ["$", self.name()]
        if kind < 4:
            return [self.r.choice(["1", "-20", "1.5e3", "0", "true", "false", "null", self.name(), self.name()])]
        if kind < 7:
            return self.string()
        if kind == 7:
            return ["{", *self.several(lambda: [self.name(), ":", *self.value(depth + 1, const)], 3), "}"]
        return ["[", *self.several(lambda: self.value(depth + 1, const), 4), "]"]

    def arguments(self, const=False):
        one = lambda: [self.name(), ":", *self.value(0, const)]
        return ["(", *self.several(one, 3, 1), ")"] if self.chance(0.4) else []

    def directives(self, const=False):
        return self.several(lambda: ["@", self.name(), *self.arguments(const)], self.r.choice([0, 0, 1, 4]))

    def type(self):
        inner = ["[", *self.type(), "]"] if self.chance(0.25) else [self.name()]
        return [*inner, "!"] if self.chance(0.3) else inner

    def default(self):
        return ["=", *self.value(0, True)] if self.chance(0.3) else []

    def variables(self):
        one = lambda: ["$", self.name(), ":", *self.type(), *self.default(), *self.directives(True)]
        return ["(", *self.several(one, 4, 1), ")"] if self.chance(0.5) else []

    def selections(self, depth):
        return ["{", *self.several(lambda: self.selection(depth), 4, 1), "}"]

    def selection(self, depth):
        more = self.selections(depth + 1) if depth < 3 and self.chance(0.3) else []
        kind = self.r.randrange(6)
        if kind == 0:
            return ["...", self.name() + "F", *self.directives()]
        if kind == 1:
            condition = ["on", self.name()] if self.chance(0.6) else []
            return ["...", *condition, *self.directives(), *(more or ["{", "a", "}"])]
        alias = [self.name(), ":"] if self.chance(0.2) else []
        return [*alias, self.name(), *self.arguments(), *self.directives(), *more]

    def executable(self):
        kind = self.r.randrange(6)
        if kind == 0:
            return self.selections(0)
        if kind == 1:
            return ["fragment", self.name() + "F", "on", self.name(), *self.directives(), *self.selections(0)]
        operation = self.r.choice(["query", "mutation", "subscription"])
        name = [self.name()] if self.chance(0.7) else []
        return [operation, *name, *self.variables(), *self.directives(), *self.selections(0)]

    def description(self):
        return self.string() if self.chance(0.25) else []

    def input(self):
        return [*self.description(), self.name(), ":", *self.type(), *self.default(), *self.directives(True)]

    def definitions(self):
        return ["(", *self.several(self.input, 4, 1), ")"] if self.chance(0.3) else []

    def field(self):
        return [*self.description(), self.name(), *self.definitions(), ":", *self.type(), *self.directives(True)]

    def block(self, make):
        return ["{", *self.several(make, 4, 1), "}"] if self.chance(0.8) else []

    def members(self, before, separator, make, most=5):
        names = self.several(lambda: [separator, make()], most, 1)
        return [*before, *(names if self.chance(0.3) else names[1:])]

    def body(self, kind):
        name, directives = self.name(), self.directives(True)
        if kind in ("type", "interface"):
            parents = self.members(["implements"], "&", self.name) if self.chance(0.4) else []
            return [name, *parents, *directives, *self.block(self.field)]
        if kind == "union":
            return [name, *directives, *(self.members(["="], "|", self.name) if self.chance(0.8) else [])]
        if kind == "enum":
            return [name, *directives, *self.block(lambda: [*self.description(), self.name(), *self.directives(True)])]
        return [name, *directives, *(self.block(self.input) if kind == "input" else [])]

    def system(self):
        kind = self.r.choice(["type", "interface", "union", "enum", "input", "scalar", "type", "schema", "directive"])
        if kind == "schema":
            roots = self.several(lambda: [self.r.choice(["query", "mutation", "subscription"]), ":", self.name()], 1, 1)
            return [*self.description(), "schema", *self.directives(True), "{", *roots, "}"]
        if kind == "directive":
            repeatable = ["repeatable"] if self.chance(0.3) else []
            places = self.members(["on"], "|", lambda: self.r.choice(self.LOCATIONS))
            return [*self.description(), "directive", "@", self.name(), *self.definitions(), *repeatable, *places]
        body = self.body(kind)
        return ["extend", kind, *body] if self.chance(0.2) and len(body) > 1 else [*self.description(), kind, *body]

    def gap(self, rate):
        """What comes between two tokens: seldom more than a space."""
        if not self.chance(rate):
            return " "
        return "".join(self.r.choice(self.GAPS) for _ in range(self.r.randint(1, 3)))

    def text(self):
        """A random document, with white space, commas and comments between its tokens."""
        make = self.r.choice([self.executable, self.system])
        rate = self.r.choice([0, 0.02, 0.1, 0.5])
        text = self.gap(rate)
        for token in self.several(make, 4, 1):
            # What comes right after a number is part of it.
            text += token + (" " if token[0] in "-0123456789" else "") + self.gap(rate)
        return text
