"""Makes nodes of graphql-core 3.2 of what `graphql_proved.parse` returns."""
import re

import graphql


def snake_case(name):
    return re.sub("[A-Z]", lambda capital: f"_{capital[0].lower()}", name)


def node_of(value):
    """The node that a dictionary describes, with the nodes in it. A list becomes a tuple; other values stay.

    `validate`, `execute`, `build_ast_schema` and `print_ast` take the node of a document. Nodes have no `loc`.
    """
    if isinstance(value, list):
        return tuple(node_of(item) for item in value)
    if not isinstance(value, dict) or "kind" not in value:
        return value
    kind = getattr(graphql, f"{value['kind']}Node")
    members = {snake_case(name): node_of(member) for name, member in value.items()}
    if "operation" in members:
        members["operation"] = graphql.OperationType(members["operation"])
    return kind(**{name: members.get(name) for name in kind.keys})
