'use strict';

// In words.

const coreOf = entry => 'P' + entry.core;
const nameOf = entry => `P${entry.core}:${entry.place}`;

function listed(words, joint = 'and') {
  return words.length < 2 ? words.join('') : `${words.slice(0, -1).join(', ')} ${joint} ${words.at(-1)}`;
}

/** What a load passed, in sentences: an own store to its location that it was given, and others. */
function passSentences(load) {
  const { source, passed } = load;
  const others = passed.filter(store => store !== source);
  const say = (what, stores) => `${coreOf(load)} read ${what} (${nameOf(load)} passed ${listed(stores.map(nameOf))}).`;
  const sentences = [];
  if (passed.includes(source)) sentences.push(say(`${load.location}=${load.value} from its own store before memory saw it`, [source]));
  const stores = `${others.length === 1 ? 'store' : 'stores'} to ${listed(others.map(store => store.location))}`;
  if (others.length > 0) sentences.push(say(`${load.location} before memory saw its ${stores}`, others));
  return sentences;
}

/** What the loads of an order passed, in sentences; where they passed nothing, one that says so. */
function passesOf(order, none = 'None: each load comes after all earlier stores of its program.') {
  const sentences = order.filter(entry => entry.passed.length > 0).flatMap(passSentences);
  return sentences.length > 0 ? sentences : [none];
}

function readSentences(read) {
  const { source } = read, passes = passSentences(read);
  if (source?.index > read.index) return passes;
  const reader = read.kind === 'LR' ? coreOf(read) + '\'s locked instruction' : coreOf(read);
  return [`${reader} read ${read.location}=${read.value}, ${source ? `which ${nameOf(source)} wrote` : 'the initial value'}.`, ...passes];
}

function storeSentence(run, store) {
  const { earliest, latest } = store.wait;
  const seen = `Memory saw ${coreOf(store)}'s store ${store.location}=${store.value}.`;
  const loads = run.order.slice(latest, store.index).filter(entry => entry.kind === 'R' && isBefore(store, entry));
  if (loads.length > 0) return `${seen} It had waited in the store buffer while its core went on with ${listed(loads.map(nameOf))}.`;
  return latest > earliest ? `${seen} The order doesn't tell whether this store had waited in the store buffer.` : seen;
}

function sentenceOf(run, entry) {
  switch (entry.kind) {
    case 'F': return `${coreOf(entry)}'s fence: memory has seen all its earlier stores.`;
    case 'LW': return `${coreOf(entry)}'s locked instruction wrote ${entry.location}=${entry.value}, in one step with its read.`;
    case 'W': return storeSentence(run, entry);
    default: return readSentences(entry).join(' ');
  }
}

function machineSentence({ machine, choices }) {
  const many = (number, word) => `${number} ${word}${number === 1 ? '' : 's'}`;
  const buffers = machine.depth === 0 ? 'no store buffers' : `store buffers of ${many(machine.depth, 'store')}`;
  const caches = `caches of ${many(machine.sets, 'set')} and ${many(machine.ways, 'way')} with lines of ${many(machine.words, 'word')}`;
  return `Machine: ${machine.protocol.toUpperCase()}, ${machine.bus} bus, ${buffers}, ${caches}. ` +
    `Choices: ${choices.get('used')} used, ${choices.get('stalled')} of them stalled, ${choices.get('unused')} left over.`;
}

/** What a run tells of its condition; `proposition` is its text, where it is known. */
function verdictSentence({ condition }, proposition = null) {
  if (condition === null) return 'Condition: the test has none.';
  const { kind, holds } = condition;
  const outcome = kind === 'exists' ? 'that is asked for' : 'that should not exist', isOpen = holds === (kind === 'forall');
  const shows = !holds ? `doesn't show the outcome ${outcome}` : kind === 'exists' ? 'shows that it can be' : `shows the outcome ${outcome}`;
  const ends = `${holds ? 'ended' : 'didn\'t end'} as every run should`;
  const written = `${kind}${proposition === null ? '' : ` (${proposition})`}`;
  return `This run ${kind === 'forall' ? ends : shows}.${isOpen ? ' This tells nothing about other runs.' : ''} Condition: ${written}, ${holds} at this end.`;
}

function unfinishedSentence(numbers) {
  return `This run hasn't ended. Choices made: ${numbers.get('used')}, stalled of them: ${numbers.get('stalled')}. An instruction or a ` +
    'buffered store is left. The program prints no order of such a run, so there is nothing to draw: give it more choices.';
}
