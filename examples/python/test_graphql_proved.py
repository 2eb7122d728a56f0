"""Tests of the package. `python3 -m unittest` runs them, and so does pytest."""
import copy
import doctest
import json
import pathlib
import pickle
import sys
import threading
import unittest

import graphql_proved
from graphql_proved import Diagnostic, DocumentError, Status

NORMALIZES = (graphql_proved.normalize_query, graphql_proved.normalize_schema)
FORMATS = (graphql_proved.format, *NORMALIZES)
CHECKS = (graphql_proved.check_query, graphql_proved.check_schema)
JSON = (graphql_proved.query_to_json, graphql_proved.schema_to_json)
CALLS = (*FORMATS, *CHECKS, *JSON, graphql_proved.check, graphql_proved.parse, graphql_proved.minify,
         graphql_proved.first_definition)


class Outputs(unittest.TestCase):
    def test_format(self):
        self.assertEqual(graphql_proved.format("{ a { b } } # c"), "{\n  a {\n    b\n  }\n} # c\n")
        self.assertEqual(graphql_proved.format("{ a(b: 1) }", indent=4, width=8), "{\n    a(\n        b: 1\n    )\n}\n")
        self.assertEqual(graphql_proved.format("{ a } scalar S"), "{\n  a\n}\n\nscalar S\n")
        self.assertEqual(graphql_proved.format("#c"), "#c\n")

    def test_normalizes(self):
        self.assertEqual(graphql_proved.normalize_query("{ a(b: 1) { c #\n} }"), "{\n  a(b: 1) {\n    c\n  }\n}\n")
        lines = "{\n    a(\n        b: 1\n    )\n}\n"
        self.assertEqual(graphql_proved.normalize_query("{ a(b: 1) }", indent=4, multiline=True), lines)
        schema = '"d"\nenum E {\n  "v" A @x\n  B\n}\n'
        self.assertEqual(graphql_proved.normalize_schema('"""d""" enum E { "v" A @x B }'), schema)

    def test_minify(self):
        self.assertEqual(graphql_proved.minify("query { a , b }"), "query{a b}")

    def test_first_definition(self):
        self.assertEqual(graphql_proved.first_definition("{ a } # é\n{ b } ?"), ("{ a } # é\n", "{ b } ?"))
        self.assertEqual(graphql_proved.first_definition(b"{ a } b\xff"), (b"{ a } ", b"b\xff"))
        self.assertEqual(graphql_proved.first_definition("{ a } b\ud800"), ("{ a } ", "b\ud800"))

    def test_checks(self):
        self.assertIsNone(graphql_proved.check_query("{ a }"))
        self.assertIsNone(graphql_proved.check_schema(b"scalar S"))

    def test_output_has_the_type_of_its_source(self):
        for call in graphql_proved.format, graphql_proved.normalize_query:
            self.assertEqual(call('{ a(b: "é") }'.encode()), '{\n  a(b: "é")\n}\n'.encode())
        self.assertEqual(graphql_proved.normalize_schema(b"scalar S"), b"scalar S\n")
        self.assertEqual(graphql_proved.minify(b"{ a }"), b"{a}")

    def test_output_longer_than_the_first_buffer(self):
        wide = "{\n" + " " * 5000 + "a {\n" + " " * 10000 + "b\n" + " " * 5000 + "}\n}\n"
        for call in graphql_proved.format, graphql_proved.normalize_query:
            self.assertEqual(call("{ a { b } }", indent=5000), wide)

    def test_zero_bytes_and_empty_sources(self):
        self.assertEqual(graphql_proved.minify(""), "")
        self.assertEqual(graphql_proved.minify(b"a #\0\nb"), b"a b")

    def test_threads(self):
        found = []
        work = lambda: found.extend(graphql_proved.minify(f"{{ a{n} }}") == f"{{a{n}}}" for n in range(200))
        threads = [threading.Thread(target=work) for _ in range(8)]
        for thread in threads:
            thread.start()
        for thread in threads:
            thread.join()
        self.assertEqual((len(found), all(found)), (1600, True))


QUERY = '''query Q($v: [Int!]! = [1], $w: T) @d(a: {b: $v, c: "é"}) {
  ...F
  x: f(e: RED, n: null, t: true, s: 1.5) { ... on T @skip(if: $w) { y } }
}
fragment F on T { z }
'''
SCHEMA = '''"d" schema { query: Q }
interface I { a(b: Int = 1 @x): [ID!] }
type Q implements I & J @y { a: A }
union U = A | B
enum E { "v" X Y }
input N { a: Int = 2 }
directive @x(a: Int) repeatable on FIELD | ENUM
extend scalar S @z
'''


class Json(unittest.TestCase):
    def test_values(self):
        document = json.loads(graphql_proved.query_to_json('{ a(b: "\\"é\\n") }'))
        [operation] = document["definitions"]
        self.assertEqual((operation["kind"], operation["operation"]), ("OperationDefinition", "query"))
        [field] = operation["selectionSet"]["selections"]
        self.assertEqual((field["name"]["value"], field["position"]), ("a", {"line": 1, "column": 3}))
        self.assertEqual(field["arguments"][0]["value"], {"kind": "StringValue", "value": '"é\n'})

    def test_output_has_the_type_of_its_source(self):
        for call, source in zip(JSON, ('{ a(b: "é") }', '"é" scalar A')):
            text = call(source)
            self.assertIsInstance(text, str)
            self.assertEqual(call(source.encode()), text.encode())

    def test_output_longer_than_the_first_buffer(self):
        document = json.loads(graphql_proved.query_to_json("{a}" * 1000))
        self.assertEqual(len(document["definitions"]), 1000)

    def test_parse(self):
        for call, source in zip(JSON, (QUERY, SCHEMA)):
            for given in source, source.encode():
                self.assertEqual(graphql_proved.parse(given), json.loads(call(source)))


class Errors(unittest.TestCase):
    def error(self, call, *sources, **options):
        with self.assertRaises(DocumentError) as caught:
            call(*sources, **options)
        return caught.exception

    def test_status_and_position(self):
        for call, source, status, line, column in [
            (graphql_proved.normalize_query, "", Status.UNEXPECTED_END, 1, 1),
            (graphql_proved.check_query, "{ a ; }", Status.BAD_TOKEN, 1, 5),
            (graphql_proved.minify, "{ a ; }", Status.BAD_TOKEN, 1, 5),
            (graphql_proved.check_schema, "\nextend type A", Status.EMPTY_EXTENSION, 2, 8),
            (graphql_proved.first_definition, "where", Status.UNEXPECTED_TOKEN, 1, 1),
            (graphql_proved.query_to_json, "{ a ; }", Status.BAD_TOKEN, 1, 5),
            (graphql_proved.schema_to_json, "\nextend type A", Status.EMPTY_EXTENSION, 2, 8),
            (graphql_proved.normalize_query, b"{ \xff }", Status.NOT_UTF8, None, None),
            (graphql_proved.normalize_query, "{ a # \ud800\n}", Status.NOT_UTF8, None, None),
        ]:
            with self.subTest(source=source):
                error = self.error(call, source)
                self.assertIsInstance(error.status, Status)
                self.assertEqual((error.status, error.line, error.column), (status, line, column))

    def test_columns_and_offsets(self):
        """A tab is one column, and offsets have the unit of the source."""
        source = '{\r\n\ta(b: "\té") { # 日\r c\n\ufeff(d:\t-99999999999999999999, e: """\n\\""" é\n""") } }'
        for call in graphql_proved.normalize_query, graphql_proved.check_query, graphql_proved.parse:
            for given in source, source.encode():
                error = self.error(call, given)
                self.assertEqual((error.status, error.line, error.column), (Status.INT_OUT_OF_RANGE, 4, 6))
                wrong = given[error.offset:error.end_offset]
                self.assertEqual(wrong, "-99999999999999999999" if given is source else b"-99999999999999999999")
                self.assertIn(" at 4:6\n", error.message)
        for source, offset, end in [('{ "é" }', 2, 5), ("{ é }", 2, 3), ("{ a # é", 7, 7), ("{ aß }", 3, 4), ('{ a(b: """é\n', 7, 8)]:
            with self.subTest(source=source):
                for call in graphql_proved.format, graphql_proved.check_query, graphql_proved.parse:
                    error = self.error(call, source)
                    self.assertEqual((error.offset, error.end_offset), (offset, end))

    def test_errors_of_parse(self):
        """The error is that by the specification; else that of the language which goes further."""
        self.assertEqual(str(self.error(graphql_proved.parse, "type A { b }")), "1:12: expected `(` or `:`, found `}`")
        self.assertEqual(self.error(graphql_proved.parse, "{ a } scalar S").offset, 6)
        self.assertEqual(self.error(graphql_proved.parse, "scalar S { a }").offset, 9)
        self.assertEqual(self.error(graphql_proved.parse, b"{ \xff }").status, Status.NOT_UTF8)

    def test_check(self):
        source = "# é\ntype A { a }\n\ntype B { b: 1 }\nquery { c(d: "
        for given in source, source.encode():
            first, second, third = graphql_proved.check(given)
            self.assertEqual((first.line, first.column, first.expected[-1]), (2, 12, "`:`"))
            self.assertEqual(str(second), "4:13: expected a type, found the number `1`")
            self.assertEqual(given[second.offset:second.end_offset], given[-17:-16])
            self.assertEqual((third.offset, third.end_offset), (len(given), len(given)))
        self.assertEqual(graphql_proved.check("#"), [])
        self.assertIsInstance(hash(first), int)
        self.assertEqual(self.error(graphql_proved.check, b"{ \xff }").status, Status.NOT_UTF8)
        self.assertEqual(len(graphql_proved.check("type A { 1 }\n" * 1000)), 1000)

    def test_too_wide(self):
        error = self.error(graphql_proved.normalize_query, "{ a { b } }", indent=2**32 - 1)
        self.assertEqual((error.status, error.line, error.column), (Status.TOO_WIDE, None, None))
        self.assertEqual(error.message, "format error: indentation too wide")

    def test_str_names_the_position_once(self):
        error = self.error(graphql_proved.check_query, "{ hero(id: 99999999999999999999) }")
        self.assertEqual(error.message, "query parse error: Parse error at 1:12\nnumber too large\n")
        self.assertEqual(str(error), "query parse error: Parse error at 1:12\nnumber too large")
        error = self.error(graphql_proved.minify, "{ a ; }")
        self.assertEqual(str(error), "1:5: query minify error: Unexpected unexpected character ';'")
        error = self.error(graphql_proved.format, "{ a(b: ) }")
        self.assertEqual(str(error), "1:8: expected a value, found `)`")

    def test_message_longer_than_the_first_buffer(self):
        self.assertIn("a" * 2000, self.error(graphql_proved.check_query, "a" * 2000).message)

    def test_pickle_and_copy(self):
        error = self.error(graphql_proved.check_query, "{ a ; }")
        for other in (pickle.loads(pickle.dumps(error)), copy.copy(error), copy.deepcopy(error)):
            self.assertEqual(type(other), DocumentError)
            self.assertEqual(vars(other), vars(error))
            self.assertEqual(str(other), str(error))

    def test_status_of_a_later_version(self):
        error = DocumentError(99, "new")
        self.assertEqual((error.status, type(error.status), str(error)), (99, int, "new"))


class Arguments(unittest.TestCase):
    def test_sources_of_another_type(self):
        for call in CALLS:
            for source in (5, None, [123, 125], bytearray(b"{a}"), pathlib.Path("a")):
                with self.subTest(call=call, source=source):
                    with self.assertRaisesRegex(TypeError, "source must be str or bytes"):
                        call(source)

    def test_numbers(self):
        self.assertEqual(graphql_proved.format("{ a }", indent=0), "{\na\n}\n")
        self.assertEqual(graphql_proved.normalize_query("{ a }", indent=0), "{\na\n}\n")
        out_of_range = [(it, ValueError) for it in (-1, 2**32, 2**32 + 2)]
        of_a_wrong_type = [(it, TypeError) for it in (2.0, "2", True, None)]
        options = [(call, "indent") for call in FORMATS] + [(graphql_proved.format, "width")]
        for call, option in options:
            for number, kind in out_of_range + of_a_wrong_type:
                with self.subTest(call=call, option=option, number=number), self.assertRaises(kind) as caught:
                    call("scalar S", **{option: number})
                self.assertNotIsInstance(caught.exception, DocumentError)

    def test_multiline(self):
        for call in NORMALIZES:
            for multiline in (1, "yes", None):
                with self.subTest(call=call, multiline=multiline):
                    with self.assertRaisesRegex(TypeError, "multiline must be bool"):
                        call("scalar S", multiline=multiline)

    def test_options_have_names(self):
        for call in FORMATS:
            with self.assertRaises(TypeError):
                call("scalar S", 4)


class Package(unittest.TestCase):
    def test_session_of_the_docstring(self):
        self.assertEqual(doctest.testmod(graphql_proved), (0, 4))

    def test_names(self):
        for name in graphql_proved.__all__:
            self.assertTrue(hasattr(graphql_proved, name), name)
        self.assertRegex(graphql_proved.__version__, r"^\d+\.\d+\.\d+$")

    def test_types_and_docstrings(self):
        self.assertTrue(pathlib.Path(graphql_proved.__file__).with_name("py.typed").exists())
        for call in CALLS:
            self.assertIn("source", call.__annotations__)
            self.assertIn("return", call.__annotations__)
            self.assertRegex(call.__doc__, r"(?s)Args:.*Raises:.*DocumentError.*TypeError")

    def test_statuses(self):
        self.assertEqual([int(it) for it in Status], list(range(1, 16)))


if __name__ == "__main__":
    sys.exit(unittest.main())
