// node tools/peers/graphql_js.js FILE ROUNDS: the least times, in microseconds, in which graphql-js parses, prints and
// minifies a query. NODE_PATH names the folder that has the package `graphql`: /usr/share/nodejs for Debian's package
// node-graphql.
"use strict";
const { readFileSync } = require("fs");
const { parse, print, stripIgnoredCharacters, version } = require("graphql");

function least(rounds, work) {
  let best = Infinity;
  for (let round = 0; round < rounds; round++) {
    const begin = process.hrtime.bigint();
    work();
    best = Math.min(best, Number(process.hrtime.bigint() - begin));
  }
  return Math.round(best / 1000);
}

const [file, rounds] = process.argv.slice(2);
const source = readFileSync(file, "utf8");
const document = parse(source);
console.log(`graphql-js ${version}`);
console.log(`parse ${least(Number(rounds), () => parse(source))}`);
console.log(`format ${least(Number(rounds), () => print(document))}`);
console.log(`minify ${least(Number(rounds), () => stripIgnoredCharacters(source))}`);
