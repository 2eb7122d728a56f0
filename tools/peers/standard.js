// node tools/peers/standard.js < DOCUMENTS: what graphql-js says of each document, with descriptions of operations,
// fragments and variables, which its version 16 does not have. Form feeds separate the documents. A line for each:
// `ok`, or `lexical OFFSET` or `syntax OFFSET` for its error, in UTF-16 code units. NODE_PATH names the folder that has
// the package `graphql`: /usr/share/nodejs for Debian's package node-graphql.
"use strict";
const { readFileSync } = require("fs");
const { Lexer, Source, TokenKind } = require("graphql");
const { Parser } = require("graphql/language/parser");

const EXECUTABLE = ["query", "mutation", "subscription", "fragment"];
const TYPE_SYSTEM = ["schema", "scalar", "type", "interface", "union", "enum", "input", "directive"];

class StandardParser extends Parser {
  parseDefinition() {
    if (this.peekDescription()) {
      const next = this._lexer.lookahead();
      if (EXECUTABLE.includes(next.value) && next.kind === TokenKind.NAME) this.parseDescription();
      else if (!TYPE_SYSTEM.includes(next.value) || next.kind !== TokenKind.NAME) throw this.unexpected(next);
    }
    return super.parseDefinition();
  }

  parseVariableDefinition() {
    if (this.peekDescription()) this.parseDescription();
    return super.parseVariableDefinition();
  }
}

// The message of the first lexical error of a text; undefined if it has none.
function lexicalError(text) {
  const lexer = new Lexer(new Source(text));
  try {
    while (lexer.advance().kind !== TokenKind.EOF);
  } catch (error) {
    return error.message;
  }
}

function verdict(text) {
  try {
    new StandardParser(text, { noLocation: true }).parseDocument();
    return "ok";
  } catch (error) {
    return `${error.message === lexicalError(text) ? "lexical" : "syntax"} ${error.positions[0]}`;
  }
}

console.log(readFileSync(0, "utf8").split("\f").map(verdict).join("\n"));
