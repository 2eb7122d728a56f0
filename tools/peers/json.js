// node tools/peers/json.js LINE < DOCUMENTS: compares what graphql-js says of documents in JSON with what it says of its
// own trees. LINE is the line of docs/JSON.md that makes `document` of `text`. DOCUMENTS is a list in JSON: for each
// document its language (`query` or `schema`), its source and its JSON. The output is a list of their verdicts in JSON:
// `rejected` if graphql-js rejects the source; `same` if it says the same of both trees; `changed` if it says the same
// only of its own tree with the differences of docs/JSON.md; `different` otherwise. NODE_PATH names the folder that has
// the package `graphql`: /usr/share/nodejs for Debian's package node-graphql.
"use strict";
const { readFileSync } = require("fs");
const { buildASTSchema, buildSchema, execute, parse, print, printSchema, validate, visit } = require("graphql");

const schema = buildSchema(`
  type Query { a(b: Int, id: String): Query b(a: [Int!], on: In): Query! id: ID name(id: ID!): String query: U on: I }
  type Mutation { a: Query b: Int }
  type Subscription { id: ID name: String }
  input In { a: Int! b: In name: E = a } enum E { a b }
  interface I { a: Int } union U = Query | Mutation
  directive @a(b: Int!) on FIELD | QUERY directive @b repeatable on FIELD | FRAGMENT_SPREAD | INLINE_FRAGMENT`);
const rootValue = { a: () => { throw new Error("a failed"); }, id: () => { throw new Error("id failed"); } };
const ROOTS = ["query", "mutation", "subscription"];

function read(text) {
  return Function("text", `${process.argv[2]}\nreturn document;`)(text);
}

// The differences of docs/JSON.md, made in a tree of graphql-js.
function operationsInOrder(node) {
  const place = (type) => ROOTS.indexOf(type.operation);
  return { ...node, operationTypes: [...node.operationTypes].sort((one, other) => place(one) - place(other)) };
}

const DIFFERENCES = {
  StringValue: ({ block, ...node }) => node,
  IntValue: (node) => ({ ...node, value: String(BigInt(node.value)) }),
  ObjectValue: {
    leave(node) {
      const last = new Map(node.fields.map((field) => [field.name.value, field]));
      return { ...node, fields: [...last.keys()].sort().map((name) => last.get(name)) };
    },
  },
  SchemaDefinition: operationsInOrder,
  SchemaExtension: operationsInOrder,
};

// What the calls of graphql-js say of a document. A TypeError means that it is no document to them.
function messages(call) {
  try {
    return call();
  } catch (error) {
    if (error instanceof TypeError) throw error;
    return error.message.split("\n\n");
  }
}

function reports(language, document) {
  const calls = {
    query: {
      validate: () => validate(schema, document, undefined, { maxErrors: 1000 }).map((error) => error.message),
      execute: () => execute({ schema, document, rootValue }),
    },
    schema: {
      buildASTSchema: () => printSchema(buildASTSchema(document)),
      withoutValidation: () => printSchema(buildASTSchema(document, { assumeValidSDL: true })),
    },
  }[language];
  return Object.values(calls).map(messages);
}

// The same whatever the order of the messages is.
function sorted(found) {
  return JSON.stringify(found.map((each) => (Array.isArray(each) ? [...each].sort() : each)));
}

function verdict([language, source, text]) {
  let own;
  try {
    own = parse(source, { noLocation: true });
  } catch (error) {
    return "rejected";
  }
  const [document, changed] = [read(text), visit(own, DIFFERENCES)];
  const [found, wanted] = [document, changed].map((tree) => reports(language, tree));
  if (print(document) !== print(changed) || JSON.stringify(found) !== JSON.stringify(wanted)) return "different";
  if (sorted(found) === sorted(reports(language, own))) return "same";
  return print(changed) === print(own) ? "different" : "changed";
}

console.log(JSON.stringify(JSON.parse(readFileSync(0, "utf8")).map(verdict)));
