#!/usr/bin/env -S node --expose-internals --no-warnings
// Whether scripts say the same: takes a line of JSON that has pairs of scripts by name, and prints the name of each pair whose syntax trees
// differ. The parser is the one that Node has for itself, or Debian's; the status is 69 where neither is there.
'use strict';

const fs = require('fs');

const CANNOT = 69;
const PARSERS = ['internal/deps/acorn/acorn/dist/acorn', 'acorn', '/usr/share/nodejs/acorn'];
const PLACES = ['start', 'end', 'raw']; // of a part: where it stands, and how it is written

/** The first of these that is there. */
function parserThere() {
  for (const name of PARSERS) {
    try {
      return require(name);
    } catch {
      // the next one
    }
  }
  return process.exit(CANNOT);
}

const plain = (key, value) => (PLACES.includes(key) ? undefined : value instanceof RegExp || typeof value === 'bigint' ? String(value) : value);
const parser = parserThere(), treeOf = script => JSON.stringify(parser.parse(script, { ecmaVersion: 'latest' }), plain);

for (const [name, [one, other]] of Object.entries(JSON.parse(fs.readFileSync(0, 'utf8')))) if (treeOf(one) !== treeOf(other)) console.log(name);
