"""Random documents of the GraphQL specification of September 2025, for tools/check_standard."""
import re

# The grammar of the specification (Appendix B), in the notation of docs/GRAMMAR.md. NAME, STRING and NUMBER are tokens.
GRAMMAR = """
Document: Definition+
Definition: SelectionSet | Operation | Fragment | TypeSystem | TypeSystem | Extension
Operation: Description? OperationType NAME? Variables? Directives? SelectionSet
OperationType: 'query' | 'mutation' | 'subscription'
Variables: '(' Variable+ ')'
Variable: Description? '$' NAME ':' Type Default? Directives?
Default: '=' Value
Fragment: Description? 'fragment' FragmentName 'on' NAME Directives? SelectionSet
FragmentName: NAME
SelectionSet: '{' Selection+ '}'
Selection: Field | Field | Field | '...' FragmentName Directives? | '...' Condition? Directives? SelectionSet
Condition: 'on' NAME
Field: Alias? NAME Arguments? Directives? SelectionSet?
Alias: NAME ':'
Arguments: '(' Argument+ ')'
Argument: NAME ':' Value
Value: '$' NAME | NUMBER | STRING | NAME | 'true' | 'null' | '[' Value* ']' | '{' Argument* '}'
Type: NAME | NAME '!' | '[' Type ']' | '[' Type ']' '!'
Directives: Directive+
Directive: '@' NAME Arguments?
Description: STRING
TypeSystem: Schema | Scalar | Object | Interface | Union | Enum | Input | DirectiveDefinition
Schema: Description? 'schema' Directives? Roots
Roots: '{' Root+ '}'
Root: OperationType ':' NAME
Scalar: Description? 'scalar' NAME Directives?
Object: Description? 'type' NAME Implements? Directives? Fields?
Interface: Description? 'interface' NAME Implements? Directives? Fields?
Implements: 'implements' '&'? NAME AndName*
AndName: '&' NAME
Fields: '{' FieldDefinition+ '}'
FieldDefinition: Description? NAME ArgumentDefinitions? ':' Type Directives?
ArgumentDefinitions: '(' InputValue+ ')'
InputValue: Description? NAME ':' Type Default? Directives?
Union: Description? 'union' NAME Directives? Members?
Members: '=' '|'? NAME OrName*
OrName: '|' NAME
Enum: Description? 'enum' NAME Directives? EnumValues?
EnumValues: '{' EnumValue+ '}'
EnumValue: Description? NAME Directives?
Input: Description? 'input' NAME Directives? InputFields?
InputFields: '{' InputValue+ '}'
DirectiveDefinition: Description? 'directive' '@' NAME ArgumentDefinitions? 'repeatable'? 'on' '|'? LOCATION OrLocation*
OrLocation: '|' LOCATION
Extension: 'extend' Extended
Extended: 'schema' Directives? Roots? | 'scalar' NAME Directives? | 'type' NAME Implements? Directives? Fields? | 'interface' NAME Implements? Directives? Fields? | 'union' NAME Directives? Members? | 'enum' NAME Directives? EnumValues? | 'input' NAME Directives? InputFields?
"""

NAMES = ["a", "A", "_b1", "onx", "Query", "on", "true", "false", "null", "repeatable", "implements", "extend", "type"]
NAMES += ["query", "mutation", "subscription", "fragment", "schema", "scalar", "interface", "union", "enum", "input"]
NAMES += ["directive", "FIELD", "ENUM_VALUE"]
LOCATIONS = ["QUERY", "FIELD", "VARIABLE_DEFINITION", "SCHEMA", "OBJECT", "ENUM_VALUE", "INPUT_FIELD_DEFINITION"]
NUMBERS = ["0", "-0", "1", "-12", "1.5", "1e9", "0e0", "1E+2", "-1.0e-3", "99999999999999999999", "0.0", "1e0"]
STRINGS = ['""', '"a"', r'"\n\""', r'"\u00e9"', r'"\u{1F600}"', r'"\uD83D\uDE00"', '"😀"', '"\u0001"', '""""""']
STRINGS += ['"""a\n  b"""', r'"""\""" x"""', '"""\r"""', r'"\/\b\f"']
# These begin no token, or not one that ends there.
ODD = ["01", "1.", ".5", "1e", "1e+", "-", "00", "1.e3", "1_", "1a", "0x1", "1..2", r'"\uD83D"', r'"\uDE00\uD83D"', r'"\u{}"']
ODD += [r'"\u{110000}"', r'"\u{D800}"', r'"\x"', '"a', '"a\n"', '"\r"', '"""a', r'"\u12"', r'"\u{1F60', r'"\"', "%", "..", "~", "é"]
PUNCTUATORS = "! $ & ( ) ... : = @ [ ] { | }".split()
GAPS = [" ", "\n", ",", "\t", "\r\n", "\ufeff", " # c😀\u0002\n", "#\r"]


def rules():
    """For each symbol its alternatives, each a list of parts: a symbol, a token or a literal, and `?`, `*`, `+` or none."""
    found = {}
    for line in GRAMMAR.strip().splitlines():
        symbol, text = line.split(": ", 1)
        alternatives = re.split(r" \| ", text)
        found[symbol] = [[re.fullmatch(r"('.*'|\w+)([?*+]?)", it).groups() for it in one.split()] for one in alternatives]
    return found


class Maker:
    """Makes random documents. With `noise` some tokens are missing, wrong or odd."""

    def __init__(self, chance, noise):
        self.chance, self.noise, self.rules, self.left = chance, noise, rules(), 0

    def token(self, part):
        if part.startswith("'"):
            return part.strip("'")
        return self.chance.choice({"NAME": NAMES, "LOCATION": LOCATIONS, "NUMBER": NUMBERS, "STRING": STRINGS}[part])

    def times(self, mark):
        """How often a part with this mark comes. A document that is long enough has no more optional parts."""
        most = 1 if mark == "?" else 3
        least = 1 if mark == "+" else 0
        return least if self.left <= 0 else self.chance.randint(least, most)

    def made(self, part):
        """The tokens of a symbol, a token or a literal."""
        if part not in self.rules:
            self.left -= 1
            return [self.token(part)]
        alternatives = self.rules[part]
        chosen = alternatives[0] if self.left <= 0 else self.chance.choice(alternatives)
        return [it for one, mark in chosen for _ in range(self.times(mark) if mark else 1) for it in self.made(one)]

    def with_noise(self, tokens):
        for token in tokens:
            if self.chance.random() >= self.noise:
                yield token
                continue
            kind = self.chance.random()
            if kind < 0.6:
                yield self.chance.choice(self.chance.choice([PUNCTUATORS, NAMES, NUMBERS, STRINGS, ODD]))
            if 0.4 < kind < 0.8:
                yield token

    def document(self):
        """The text of a document."""
        self.left = self.chance.randint(3, 60)
        text = ""
        for token in self.with_noise(self.made("Document")):
            touches = re.search(r"[\w.\-\"]\Z", text) and re.match(r"[\w.\-\"]", token)
            gap = self.chance.choice(GAPS) if self.chance.random() < 0.3 else ""
            if not gap and touches and self.chance.random() < 0.8:
                gap = " "
            text += gap + token
        return text
