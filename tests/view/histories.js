#!/usr/bin/env -S node --no-warnings
// Holds the page's histories, and the machine that stands in for the module, against a built program:
//
//   tests/view/histories.js PROGRAM
//   tests/view/histories.js --calls               prints what the program is asked: a line of JSON with words and input for each call
//   tests/view/histories.js --answers < ANSWERS   takes its answers in this order, each a line of JSON with status and output: for a
//                                                 script that starts a program at less cost
//
// For each example and each text of the gallery under a seed, on several machines:
//
// - the stand-in's run is the program's: order, registers, memory, counts of the caches; where the program has `trace`, the lines too;
// - the order of the page's history is the run's, its reads have the sources that the order tells, and each store went into its
//   buffer at a moment that the order allows.
//
// The last line is 'N passed, M failed'.
'use strict';

const fs = require('fs');
const path = require('path');
const vm = require('vm');
const { spawnSync } = require('child_process');

const TOP = path.dirname(path.dirname(__dirname)), EXAMPLES = path.join(TOP, 'examples');
const SCRIPTS = ['view/answers.js', 'view/line.js', 'view/order.js', 'view/sentences.js', 'view/history.js', 'tests/view/plain_machine.js', 'tests/view/stand_in.js'];
const { Tso, StandIn, History, readTrace, readLine, waitOf, sourceOf, isRead } = vm.runInThisContext(
  SCRIPTS.map(name => fs.readFileSync(path.join(TOP, name), 'utf8').replace("'use strict';", '')).join('\n') +
  '\n({ Tso, StandIn, History, readTrace, readLine, waitOf, sourceOf, isRead });');

const DIVIDING_LINE = '====\n', CHOICES = 'seed 1 300\n', BAD_LINE = 2;
const MACHINES = [
  {}, { protocol: 'mesi', depth: 1, ways: 1 }, { protocol: 'moesi', words: 2, sets: 2, ways: 1 }, { protocol: 'mosi', depth: 0 },
  { bus: 'split', protocol: 'mosi', ways: 1, words: 4 }, { bus: 'split', protocol: 'mesi', depth: 2 },
];
const SAME = ['cache', 'choices', 'memory', 'order', 'registers', 'unfinished'];

const sorted = value => JSON.stringify(value, (_, each) => (each && typeof each === 'object' && !Array.isArray(each) ? Object.fromEntries(Object.entries(each).sort()) : each));
const differs = (what, got, wanted) => (sorted(got) === sorted(wanted) ? [] : [`${what}: ${sorted(got)}, and not ${sorted(wanted)}`]);

function texts() {
  return [EXAMPLES, path.join(EXAMPLES, 'gallery')].flatMap(folder => fs.readdirSync(folder).filter(name => name.endsWith('.litmus')).sort()
    .map(name => [name, fs.readFileSync(path.join(folder, name), 'utf8').split(DIVIDING_LINE)[0] + DIVIDING_LINE + CHOICES]));
}

/** What the program is asked of a run on a machine: its report as JSON, and its trace, as lines and as JSON. */
function callsOf(options, input) {
  const words = Object.entries(options).flatMap(([name, value]) => [`--${name}`, String(value)]);
  return [{ words: ['run', ...words, '--json'], input }, { words: ['trace', ...words], input }, { words: ['trace', ...words, '--json'], input }];
}

function told(program, { words, input }) {
  const { status, stdout } = spawnSync(program, words, { input });
  return { status, output: stdout.toString() };
}

/** The lines of a trace in a program's report. */
const stepsIn = text => /^Trace\n[^]*?^Endtrace \d+\n/m.exec(text)?.[0];

function faultsOf([{ output: line }, traced, inJson], options, input) {
  const run = JSON.parse(line), standIn = new StandIn(null);
  const own = JSON.parse(standIn.answer({ ...options, command: 'trace', json: true }, input).text);
  const faults = SAME.flatMap(name => differs(`${name} of the stand-in`, own[name], run[name]));
  if (traced.status !== BAD_LINE) faults.push(...differs('the lines of the stand-in', stepsIn(standIn.answer({ ...options, command: 'trace' }, input).text), stepsIn(traced.output)));
  if (inJson.status !== BAD_LINE) faults.push(...faultsOfSupplied(own, JSON.parse(inJson.output)));
  const trace = readTrace(JSON.stringify(own)), history = trace.steps.reduce((made, step) => made.with(step), new History({ ...Tso.DEFAULTS, ...options }, trace));
  return faults.concat(run.unfinished ? [] : faultsOfHistory(history, readLine(line)), faultsOfCuts(history, trace.steps));
}

/** Where each step read its word, by the stand-in and by the program; a program that is older doesn't tell it. */
function faultsOfSupplied(own, { trace: { steps } }) {
  if (!steps.some(step => 'supplied' in step)) return [];
  return differs('where the stand-in reads', own.trace.steps.map(({ supplied }) => supplied), steps.map(({ supplied }) => supplied));
}

/** A history against what the order of its run tells. */
function faultsOfHistory(history, run) {
  const faults = differs('the order', history.order.map(entry => entry.text), run.order.map(entry => entry.text));
  for (const [index, entry] of history.order.entries()) {
    const same = run.order[index];
    if (isRead(entry)) faults.push(...differs(`the source of ${entry.text}`, entry.source?.text ?? null, sourceOf(run.order, same)?.text ?? null));
    faults.push(...differs(`what ${entry.text} passed`, entry.passed.map(store => store.text).sort(), same.passed.map(store => store.text).sort()));
    if (entry.kind !== 'W') continue;
    const { earliest, latest } = waitOf(run, same);
    if (entry.wait.earliest < earliest || entry.wait.latest > latest) faults.push(`${entry.text} went in at ${entry.wait.earliest}, and not from ${earliest} to ${latest}`);
  }
  return faults;
}

/** Steps that are taken away and made again come to the same, and the history that they were taken from is what it was. */
function faultsOfCuts(history, steps) {
  const before = JSON.stringify(history), half = Math.floor(steps.length / 2);
  const again = steps.slice(half).reduce((made, step) => made.with(step), history.upTo(half));
  return [...differs('the history of steps made again', JSON.stringify(again), before), ...differs('the history that they were taken from', JSON.stringify(history), before)];
}

function judge(works, answer) {
  let passed = 0, failed = 0;
  for (const { name, options, input, calls } of works) {
    const faults = faultsOf(calls.map(answer), options, input);
    passed += faults.length === 0;
    failed += faults.length > 0;
    for (const fault of faults.slice(0, 3)) console.log(`${name} ${JSON.stringify(options)}: ${fault.slice(0, 400)}`);
  }
  console.log(`${passed} passed, ${failed} failed`);
  process.exitCode = failed > 0 || passed === 0 ? 1 : 0;
}

function main([word]) {
  const works = texts().flatMap(([name, input]) => MACHINES.map(options => ({ name, options, input, calls: callsOf(options, input) })));
  if (word === '--calls') return works.forEach(({ calls }) => calls.forEach(call => console.log(JSON.stringify(call))));
  if (word !== '--answers') return judge(works, call => told(path.resolve(word), call));
  const answers = fs.readFileSync(0, 'utf8').trim().split('\n').map(line => JSON.parse(line));
  judge(works, () => answers.shift());
}

main(process.argv.slice(2));
