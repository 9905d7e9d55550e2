#!/usr/bin/env -S node --no-warnings
// The page's module under the words of the program's command line, for the scripts that judge a program:
//
//   tests/page_program.js COMMAND [OPTION ..] < INPUT      the module is crates/page_exports/out/page.wasm, or that of TSO_MODULE, which
//                                                       may name a script as view/module.js, too
//
//   tests/page_program.js --serve                          answers one call after the other: each a line of JSON with words and input,
//                                                       each answer one with status, output and errors, texts in base64
//
// A command more than the program has is `step`, with the options of a machine: the last step of `trace --json` alone. `counts --given` is
// a command of its own to the module. Which values an option may have is judged by the module; help, the version and the words of refused
// command lines aren't here.
'use strict';

const fs = require('fs');
const path = require('path');
const vm = require('vm');
const zlib = require('zlib');

const TOP = path.dirname(__dirname);
const MODULE = process.env.TSO_MODULE || path.join(TOP, 'crates', 'page_exports', 'out', 'page.wasm');
const Tso = valueIn(path.join(TOP, 'view', 'answers.js'), 'Tso');

const REFUSED = 2;
const MACHINE = ['protocol', 'bus', 'depth', 'sets', 'ways', 'words'];
const OPTIONS = {
  run: [...MACHINE, 'json'], sweep: [...MACHINE, 'from', 'seeds', 'length'], outcomes: ['depth', 'states', 'show', 'json', 'assert'],
  why: ['model', 'cases', 'json', 'assert'], counts: [...MACHINE, 'from', 'seeds', 'length', 'given', 'json'],
  trace: [...MACHINE, 'json'], step: MACHINE, check: [], witness: ['depth'], tables: ['protocol'],
};
/** Each command that reads a test has this option. The page asks for all instructions, and the program for those of the grammar. */
const SET = 'instructions';
const WORDS = { protocol: Tso.PROTOCOLS, bus: Tso.BUSES, model: Tso.MODELS, show: Tso.SHOWN, [SET]: Tso.INSTRUCTIONS };
const FLAGS = ['json', 'assert', 'given'];
const OF_SEEDS = ['from', 'seeds', 'length'];
const MOST = { depth: 254, sets: 254, ways: 254, words: 254 };

/** What a script of the page gives this name. */
function valueIn(script, name) {
  return vm.runInThisContext(fs.readFileSync(script, 'utf8') + `\n${name};`);
}

/** The bytes of a module, from its own file or from a script that has it packed. */
function bytesOf(file) {
  return file.endsWith('.js') ? zlib.gunzipSync(valueIn(path.join(TOP, 'view', 'packed.js'), 'bytesIn')(valueIn(file, 'MODULE').packed)) : fs.readFileSync(file);
}

/** A command line that is refused. */
class Refused extends Error {}

function refuse() {
  throw new Refused();
}

function valueOf(name, word) {
  if (WORDS[name]) return WORDS[name].includes(word) ? word : refuse();
  if (!/^\+?[0-9]+$/.test(word ?? '')) refuse();
  return Number(word) <= (MOST[name] ?? 2 ** 32 - 1) ? Number(word) : refuse();
}

function optionsOf([command, ...words]) {
  if (!Object.hasOwn(OPTIONS, command ?? '')) refuse();
  const options = { command }, known = command === 'tables' ? OPTIONS[command] : [...OPTIONS[command], SET];
  while (words.length > 0) {
    const [, name, joined] = /^--([a-z]+)(?:=(.*))?$/s.exec(words.shift()) ?? refuse();
    if (!known.includes(name) || name in options) refuse();
    options[name] = FLAGS.includes(name) ? true : valueOf(name, joined ?? words.shift());
  }
  options[SET] ??= 'basic';
  if (options.given) return OF_SEEDS.some(name => name in options) ? refuse() : { ...options, command: 'counted' };
  return command === 'outcomes' ? { depth: 32, ...options } : options;
}

/** The answer to the words and to the input, which is asked for where the command reads one. */
function answer(tso, words, inputOf) {
  try {
    const options = optionsOf(words);
    return tso.answer(options, options.command === 'tables' ? new Uint8Array() : inputOf());
  } catch (fault) {
    if (!(fault instanceof Refused)) throw fault;
    return { status: REFUSED, text: '', hint: '' };
  }
}

function write(descriptor, text) {
  for (let left = Buffer.from(text); left.length > 0;) {
    try {
      left = left.subarray(fs.writeSync(descriptor, left));
    } catch (fault) {
      if (fault.code !== 'EAGAIN') throw fault;
    }
  }
}

function serve(tso) {
  const coded = text => Buffer.from(text).toString('base64');
  require('readline').createInterface({ input: process.stdin }).on('line', line => {
    const { words, input } = JSON.parse(line);
    const { status, text, hint } = answer(tso, words, () => Buffer.from(input, 'base64'));
    write(1, JSON.stringify({ status, output: coded(text), errors: coded(hint) }) + '\n');
  });
}

function main(words) {
  const tso = new Tso(new WebAssembly.Module(bytesOf(MODULE)));
  if (words[0] === '--serve') return serve(tso);
  const { status, text, hint } = answer(tso, words, () => fs.readFileSync(0));
  write(1, text);
  write(2, hint);
  process.exitCode = status;
}

main(process.argv.slice(2));
