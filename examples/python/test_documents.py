"""Tests of the package with other programs: with gqlfmt on documents of a folder, and with graphql-core."""
import json
import os
import pathlib
import unittest

import graphql_proved
from graphql_proved import DocumentError, Status
from test_graphql_proved import QUERY, SCHEMA

try:
    import graphql
    from graphql_core_nodes import node_of
except ImportError:
    graphql = None

# In this folder a document is INDENT-WIDTH-NUMBER.graphql. Beside it is what gqlfmt makes of it: `.out`, its output; or
# `.json`, its messages as JSON, one in a line.
DOCUMENTS = os.environ.get("GRAPHQL_PROVED_DOCUMENTS")


@unittest.skipIf(DOCUMENTS is None, "GRAPHQL_PROVED_DOCUMENTS names no folder")
class Documents(unittest.TestCase):
    def documents(self, ending):
        """The documents that have a file with this ending: the name, the options, the bytes and those of this file."""
        for file in sorted(pathlib.Path(DOCUMENTS).glob("*.graphql")):
            beside = file.with_suffix(ending)
            if beside.exists():
                indent, width, _ = map(int, file.stem.split("-"))
                yield file.name, {"indent": indent, "width": width}, file.read_bytes(), beside.read_bytes()

    def test_outputs_are_those_of_gqlfmt(self):
        documents = list(self.documents(".out"))
        for name, options, source, output in documents:
            with self.subTest(name):
                self.assertEqual(graphql_proved.format(source, **options), output)
                self.assertEqual(graphql_proved.format(source.decode(), **options), output.decode())
                self.assertEqual(graphql_proved.check(source), [])
        print(f"{len(documents)} documents are formatted as by gqlfmt")

    def test_errors_are_those_of_gqlfmt(self):
        documents = list(self.documents(".json"))
        for name, options, source, messages in documents:
            wanted = [json.loads(line) for line in messages.splitlines()]
            errors, text = graphql_proved.check(source), source.decode()
            with self.subTest(name):
                self.assertEqual([(it.line, it.column, it.message) for it in errors],
                                 [(it["line"], it["column"], it["message"]) for it in wanted])
                self.assertEqual([(it.offset, it.end_offset - it.offset, list(it.expected)) for it in errors],
                                 [(it["offset"], it["length"], it["expected"]) for it in wanted])
                self.assertEqual([source[it.offset:it.end_offset] for it in errors],
                                 [text[it.offset:it.end_offset].encode() for it in graphql_proved.check(text)])
                self.assert_first(source, options, errors[0])
        print(f"{len(documents)} documents are rejected as by gqlfmt")

    def test_errors_of_other_calls(self):
        """A position at which the library finds an error is that of a token, except at the end of the source."""
        for name, _, source, _ in [*self.documents(".out"), *self.documents(".json")]:
            for call in graphql_proved.check_query, graphql_proved.check_schema, graphql_proved.minify:
                try:
                    call(source)
                except DocumentError as error:
                    is_at_end = error.status == Status.UNEXPECTED_END
                    self.assertEqual(error.offset == len(source), is_at_end, f"{call.__name__} of {name}")

    def assert_first(self, source, options, first):
        """`format` raises the first error."""
        with self.assertRaises(DocumentError) as caught:
            graphql_proved.format(source, **options)
        error = caught.exception
        self.assertEqual((error.line, error.column, error.offset, error.end_offset),
                         (first.line, first.column, first.offset, first.end_offset))
        self.assertIn(first.message, error.message)


@unittest.skipIf(graphql is None, "Python has no graphql-core")
class GraphqlCore(unittest.TestCase):
    def test_nodes(self):
        for source in QUERY, SCHEMA:
            made, own = node_of(graphql_proved.parse(source)), graphql.parse(source, no_location=True)
            self.assertEqual(graphql.print_ast(made), graphql.print_ast(own))

    def test_errors_of_validation(self):
        schema = graphql.build_schema("type Query { a: Int }")
        source = "query ($v: Int) { a b ...F }"
        found = [graphql.validate(schema, it) for it in (node_of(graphql_proved.parse(source)), graphql.parse(source))]
        made, own = ([error.message for error in errors] for errors in found)
        self.assertEqual((made, len(made)), (own, 3))

    def test_schemas_and_results(self):
        schema = graphql.build_ast_schema(node_of(graphql_proved.parse("type Query { a(b: Int = 2): Int }")))
        root = {"a": lambda _, b: b + 1}
        self.assertEqual(graphql.execute(schema, node_of(graphql_proved.parse("{ c: a }")), root).data, {"c": 3})


if __name__ == "__main__":
    unittest.main()
