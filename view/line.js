'use strict';

// Reading the line.

const MOST = { cores: 8, instructions: 32, locations: 16, word: 2 ** 32 - 1 };
const REGISTERS = ['EAX', 'EBX', 'ECX', 'EDX', 'ESI', 'EDI'];
const COUNTS = ['hits', 'misses', 'upgrades', 'forwards', 'write_backs', 'flushes'];
const QUANTIFIERS = ['exists', '~exists', 'forall'];
const LOCATION = /^[A-Za-z_][A-Za-z0-9_]{0,31}$/;
const ENTRY = /^P(\d{1,3}):(\d{1,3}) (?:(F)|(R|W|LR|LW) ([A-Za-z_][A-Za-z0-9_]*)=(\d{1,10}))$/;

/** Why an input isn't drawn; its message is a sentence for the one who gave it. */
class Refusal extends Error {}

function need(isSo, sentence) {
  if (!isSo) throw new Refusal(sentence);
}

const needForm = (isSo, what) => need(isSo, `This isn't the line of a run: ${what}.`);

/** The run that a text of `run --json` tells, or `{ unfinished }`. Throws a Refusal where it is no such text. */
function readLine(text) {
  const value = readValue(text.trim());
  return 'unfinished' in value ? { unfinished: readNumbers(value.unfinished, 'unfinished', ['stalled', 'used']) } : readRun(value);
}

function readValue(text) {
  need(!text.startsWith('Refused '), 'The program refused this input, so there is no run to draw. It said: ' + text.slice(0, 200));
  need(!/^(Test|Unfinished) /.test(text), 'This is the plain report. The picture needs the line that run prints with --json.');
  try {
    return readObject(JSON.parse(text), 'the whole');
  } catch (fault) {
    needForm(!(fault instanceof SyntaxError), `it isn't JSON (${fault.message})`);
    throw fault;
  }
}

function readRun(value) {
  const registers = readList(value.registers, 'registers').map((file, core) => readNumbers(file, `registers of P${core}`, REGISTERS));
  const cache = readList(value.cache, 'cache').map((counts, core) => readNumbers(counts, `cache of P${core}`, COUNTS));
  const cores = registers.length;
  needForm(cores >= 1 && cores <= MOST.cores, `it has ${cores} cores, and not 1 to ${MOST.cores}`);
  needForm(cache.length === cores, '"cache" and "registers" have different numbers of cores');
  needForm(typeof value.test === 'string', 'it has no name of a test ("test")');
  needForm(readList(value.order, 'order').length <= 2 * MOST.cores * MOST.instructions, '"order" is too long');
  const memory = readMemory(value.memory);
  const order = value.order.map((text, index) => readEntry(text, index, cores, memory));
  const run = {
    test: value.test, cores, registers, cache, memory, order,
    condition: readCondition(value.condition),
    machine: readMachine(value.machine),
    choices: readNumbers(value.choices, 'choices', ['used', 'stalled', 'unused']),
  };
  needExecution(run);
  return tellEntries({ ...run, initial: initialWords(run) });
}

function readObject(value, what) {
  needForm(typeof value === 'object' && value !== null && !Array.isArray(value), `${what} isn't a JSON object`);
  return value;
}

function readList(value, what) {
  needForm(Array.isArray(value), `"${what}" isn't a list`);
  return value;
}

function readWord(value, what) {
  needForm(Number.isInteger(value) && value >= 0 && value <= MOST.word, `${what} isn't a whole number from 0 to ${MOST.word}`);
  return value;
}

/** The members of these names, as a Map. */
function readNumbers(value, what, names) {
  const object = readObject(value, what);
  return new Map(names.map(name => [name, readWord(object[name], `"${name}" of ${what}`)]));
}

/** Final memory as a Map: a location may have any name, `__proto__` too. */
function readMemory(value) {
  const memory = new Map(Object.entries(readObject(value, 'memory')));
  needForm(memory.size <= MOST.locations, `it has over ${MOST.locations} locations`);
  for (const [location, word] of memory) {
    needForm(LOCATION.test(location), '"memory" has a name that no location has');
    readWord(word, `the word of ${location}`);
  }
  return memory;
}

function readCondition(value) {
  if (value === null) return null;
  const { kind, holds } = readObject(value, 'condition');
  needForm(QUANTIFIERS.includes(kind) && typeof holds === 'boolean', '"condition" isn\'t one');
  return { kind, holds };
}

function readMachine(value) {
  const { protocol, bus = 'atomic' } = readObject(value, 'machine');
  needForm(Tso.PROTOCOLS.includes(protocol), `"protocol" is none of ${Tso.PROTOCOLS.join(', ')}`);
  needForm(bus === 'atomic' || bus === 'split', '"bus" is neither atomic nor split');
  return { protocol, bus, ...Object.fromEntries(readNumbers(value, 'machine', ['depth', 'sets', 'ways', 'words'])) };
}

/** An entry of the order: `index` is its place in memory order, `place` that in its core's program. */
function readEntry(text, index, cores, memory) {
  const found = typeof text === 'string' && ENTRY.exec(text);
  needForm(found, `number ${index + 1} of "order" isn't an entry`);
  const [, core, place, fence, kind = fence, location = null, value = 0] = found;
  const entry = { index, text, core: Number(core), place: Number(place), kind, location, value: Number(value) };
  needForm(entry.core < cores && entry.place < MOST.instructions, `${text} is of a core or place that isn't there`);
  needForm(kind === 'F' || memory.has(location), `"memory" doesn't have the location of ${text}`);
  readWord(entry.value, `the value of ${text}`);
  return entry;
}

/** The picture says what holds of TSO executions alone, so an order that is none is refused. */
function needExecution({ order, memory }) {
  const needRule = (isSo, what) => need(isSo, `This order isn't one that total store order allows, so it isn't drawn: ${what}.`);
  for (const [index, entry] of order.entries()) {
    const late = order.slice(index + 1).find(other => !mayStandSo(entry, other));
    needRule(!late, `${entry.text} and ${late?.text} can't stand so`);
    needRule(entry.kind !== 'LR' || isOtherPart(entry, order[index + 1]), `${entry.text} isn't followed by its store part`);
    needRule(entry.kind !== 'LW' || isOtherPart(order[index - 1], entry), `${entry.text} doesn't follow its load part`);
  }
  const initial = new Map();
  for (const read of order.filter(isRead)) {
    const source = sourceOf(order, read);
    const due = source ? source.value : initial.get(read.location) ?? read.value;
    needRule(read.value === due, `${read.text} should have returned ${due}`);
    if (!source) initial.set(read.location, due);
  }
  for (const [location, word] of memory) {
    const last = order.findLast(entry => isWrite(entry) && entry.location === location);
    const due = last ? last.value : initial.get(location) ?? word;
    needRule(word === due, `at its end ${location} should hold ${due}`);
  }
}

/** Whether two entries may have this order: a load may come before an earlier plain store of its program, and nothing else. */
function mayStandSo(first, second) {
  if (first.core !== second.core) return true;
  if (first.place === second.place) return isOtherPart(first, second);
  return first.place < second.place || (first.kind === 'R' && second.kind === 'W');
}

function isOtherPart(load, store) {
  return load?.kind === 'LR' && store?.kind === 'LW' && nameOf(load) === nameOf(store) && load.location === store.location;
}
