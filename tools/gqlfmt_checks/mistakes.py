"""Mistakes as people make them, and the whole messages."""
from .running import expect, gqlfmt, test

# An input, a line `>>>`, and its message, with the line `===` between two of them.
MISTAKES = """\
type Foo { a String }
>>>
1:14: expected `(` or `:`, found the name `String`
type Foo { a String }
             ^^^^^^
===
type Query {
  me: User

type User {
  id: ID
}
>>>
4:6: expected `(` or `:`, found the name `User`: the `{` of line 1 is not closed
type User {
     ^^^^
===
{
  user(name: “Bob”) {
    id
  }
}
>>>
2:14: expected a value, found the character `“` (U+201C): strings are in straight double quotes
  user(name: “Bob”) {
             ^
===
{
  user(name: 'Bob') {
    id
  }
}
>>>
2:14: expected a value, found the character `'` (U+0027): strings are in double quotes
  user(name: 'Bob') {
             ^
===
type Query {
  users: [ID!!
}
>>>
2:14: expected `]`, found `!`
  users: [ID!!
             ^
===
query Q(id: ID!) {
  a
}
>>>
1:9: expected a description or `$`, found the name `id`: did you forget `$`?
query Q(id: ID!) {
        ^^
===
{ "query": "{ a }" }
>>>
1:3: expected a selection, found a string: this looks like JSON
{ "query": "{ a }" }
  ^^^^^^^
===
{
  user(id: 1) { }
}
>>>
2:17: expected a selection, found `}`
  user(id: 1) { }
                ^
===
type T {
  f(a: Int = 01): Int
}
>>>
2:14: expected a value, found a number with a leading zero
  f(a: Int = 01): Int
             ^
===
directive @a on FIELDS
>>>
1:17: expected a directive location or `|`, found the name `FIELDS`
directive @a on FIELDS
                ^^^^^^
===
type A implement B {
  a: Int
}
>>>
1:8: expected a definition, `implements`, `@` or the end of the input, found the name `implement`: did you mean `implements`?
type A implement B {
       ^^^^^^^^^
===
{
  a(b: )
}
>>>
2:8: expected a value, found `)`
  a(b: )
       ^
===
```graphql
{ a }
```
>>>
1:1: expected a definition, found the character U+0060: this looks like Markdown
```graphql
^
===
const Q = gql`
  { a }
`
>>>
1:1: expected a definition, found the name `const`
const Q = gql`
^^^^^
===
query Q {
  a
  ${Frag}
}
>>>
3:3: unexpected `$`: GraphQL has no `${..}`
  ${Frag}
  ^
===
{
  a
}
}
>>>
4:1: expected a definition or the end of the input, found `}`: no bracket is open
}
^
===
union U = A, B
>>>
1:14: expected a definition, `|` or the end of the input, found the name `B`: did you forget `|`?
union U = A, B
             ^
===
# {
{
  a # {
>>>
4:1: unexpected end of the input: the `{` of line 2 is not closed

^
"""


@test
def common_mistakes():
    for block in MISTAKES.split("===\n"):
        text, message = block.split(">>>\n")
        expect(text, gqlfmt(text=text.encode()), (1, b"", f"<stdin>:{message}"))
