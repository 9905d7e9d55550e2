'use strict';

// What a choice did, in words.

const STALLS = {
  Done: core => `P${core} has no further instruction.`,
  Full: core => `P${core}'s store buffer is full: one of its stores has to drain first.`,
  Fence: core => `P${core}'s fence waits until its store buffer is empty.`,
  Lock: core => `P${core}'s locked instruction waits until its store buffer is empty.`,
  Empty: core => `P${core}'s store buffer is empty: there is nothing to drain.`,
  Bus: (core, { bus }) => (bus ? `P${bus.core} holds the bus: P${core} waits until it is let go.` : 'The bus is held.'),
};

const ACCESSES = {
  hit: core => `A hit: P${core}'s cache had the line.`,
  upgrade: core => `An upgrade: P${core}'s cache had the line, and may write it now.`,
  miss: core => `A miss: the line came into P${core}'s cache.`,
};

const lineSaid = text => text.replaceAll('+', ', ');

const isDrain = choice => choice.endsWith('d');
const coreOfChoice = choice => Number.parseInt(choice, 10);

/** Where a word is found, in words, by the name that the trace has for it. */
const SOURCES = { buffer: 'its own store buffer', cache: 'its own cache', bus: 'the bus, which kept it', memory: 'memory' };

const sourceName = supplied => SOURCES[supplied] ?? `${supplied}'s cache`;

/** The copy, newer than memory, that a miss for writing took from another core. */
const takenCopy = step => (step.access === 'miss' ? stateChanges(step).find(({ core, before, after }) => core !== coreOfChoice(step.choice) && 'MO'.includes(before) && after === 'I') : null);

/** Where the trace tells that the word is found which a step reads or asks for: its name there, the reader, and the locations; or which line it took. */
function supplyOf(step) {
  const { supplied, choice, entries, after } = step, reader = coreOfChoice(choice), taken = takenCopy(step);
  if (!supplied) return taken ? { from: `P${taken.core}`, reader, owner: taken.core, locations: taken.line.split('+'), isTaken: true } : null;
  const owners = { buffer: reader, cache: reader, bus: null, memory: null };
  const locations = entries.length > 0 ? [entryOf(entries[0]).location] : after.bus.line.split('+');
  return { from: supplied, reader, owner: supplied in owners ? owners[supplied] : Number(supplied.slice(1)), locations };
}

/** Where a store is that has left its buffer, in words: a cache may keep the word from memory itself. */
function seenWords({ after }, core, location, isPlain) {
  const isKept = !isPlain && after.seen[location] !== after.memory[location];
  return isKept ? `each core sees it from now on. P${core}'s cache has the word, memory still the old one.` : 'memory has seen it.';
}

/** What a compare and exchange read, compared and wrote, in one sentence; `eax` is what EAX was. */
function comparedSentence(core, read, written, eax, from) {
  const found = `P${core}'s compare and exchange read ${read.location}=${read.value}${from}. EAX was ${eax}`;
  const isEqual = eax === read.value;
  if (!written) return `${found}${isEqual ? ' too' : ''}: it ${isEqual ? 'will write the new word' : 'will write the old word back'}, and keeps the bus until then.`;
  return isEqual ? `${found} too, so it wrote ${written.location}=${written.value}, in one step.`
    : `${found}, so it wrote the old word back: memory is as before, and EAX is ${read.value} now.`;
}

/** An operation's name with the value on its right, as it is written between the two. */
const OPERATIONS = { ADD: '+', XADD: '+', INC: '+', SUB: '−', DEC: '−', AND: 'AND', OR: 'OR', XOR: 'XOR' };

/** How an instruction computed a word, as ` (3 + 2)`, else empty. `old` is the word that it changes, `registers` are those before it. */
function computedWords(instruction, old, registers) {
  const [, name, operand] = /^(?:LOCK\s+)?([A-Z]+)\s+[^,]+(?:,\s*(\S+))?$/i.exec(instruction) ?? [];
  if (name === undefined) return '';
  if (/^NEG$/i.test(name)) return ` (0 − ${old})`;
  const sign = OPERATIONS[name.toUpperCase()], value = registers[operand?.toUpperCase()] ?? operand?.replace('$', '') ?? 1;
  return sign === undefined ? '' : ` (${old} ${sign} ${value})`;
}

/** What a locked instruction did, in one sentence: `read` and `written` are its parts, or the one that this step made. */
function lockedSentence(core, instruction, registers, read, written, from) {
  const name = `P${core}'s ${instruction}`;
  if (!read) return `${name} wrote ${written.location}=${written.value}, and the bus is free again.`;
  const found = `${name} read ${read.location}=${read.value}${from}`;
  return written ? `${found} and wrote ${written.location}=${written.value}${computedWords(instruction, read.value, registers)}, in one step.`
    : `${found}. It keeps the bus until it has written.`;
}

/** What an instruction on registers alone did, in one sentence. */
function movedSentence(core, instruction, registers, moved) {
  if (!moved) return `P${core}'s ${instruction} changed nothing.`;
  const old = registers[/^[A-Z]+\s+([A-Z]+)/i.exec(instruction)?.[1].toUpperCase()];
  return `P${core}'s ${instruction} set ${moved.replace(' ', ' and ')}${computedWords(instruction, old, registers)}.`;
}

/** What was committed, in one sentence, by an instruction of a core as it was before it. `isPlain`: no caches are shown, only memory. */
function committedSentence(step, isPlain, instruction, { registers, buffer }) {
  const { choice, entries } = step, supplied = isPlain && step.supplied !== 'buffer' ? step.supplied && 'memory' : step.supplied;
  const from = supplied ? ` from ${sourceName(supplied)}` : '';
  const [first, second] = entries.map(entryOf), core = coreOfChoice(choice), is = `${first.location}=${first.value}`;
  switch (first.kind) {
    case 'F': return `P${core}'s fence is done: memory has seen all its earlier stores.`;
    case 'R': return `P${core} read ${is}${from}.`;
    case 'LW': return lockedSentence(core, instruction, registers, null, first, from);
    case 'LR': return isComparing(instruction) ? comparedSentence(core, first, second, registers.EAX, from) : lockedSentence(core, instruction, registers, first, second, from);
    default: return `${isDrain(choice) ? `P${core}'s ${buffer.length > 1 ? 'oldest ' : ''}store ${is} left its buffer` : `P${core} stored ${is}`}: ${seenWords(step, core, first.location, isPlain)}`;
  }
}

/** What a step of these programs did, in sentences; `before` is the machine before it. Where no caches are shown (`isPlain`), nothing speaks of them. */
function stepSentences(step, before, programs, isPlain = false) {
  const core = coreOfChoice(step.choice), { place, registers } = before.cores[core];
  const instruction = programs[core][place] ?? '';
  const said = {
    buffered: () => `P${core}'s store ${step.entries[0].replace(/^\S+ W /, '')} waits in its store buffer.`,
    committed: () => committedSentence(step, isPlain, instruction, before.cores[core]),
    moved: () => movedSentence(core, instruction, registers, step.moved),
    asked: () => `P${core} asked for the bus, and holds it now.${step.supplied ? ` The word is in ${sourceName(step.supplied)}.` : ''}`,
    stalled: () => `Stalled (${step.stall}), and nothing changed: ${STALLS[step.stall](core, before)}`,
  };
  const sentences = [said[step.outcome]()];
  if (isPlain) return sentences;
  if (step.access) sentences.push(ACCESSES[step.access](core));
  if (step.transaction) sentences.push(`${lineSaid(step.transaction)} went on the bus.`);
  if (step.flush) sentences.push(`${step.flush} sent its copy to memory.`);
  if (step.write_back) sentences.push(`The line ${lineSaid(step.write_back)} was written back to memory.`);
  return [...sentences, ...copySentences(step)];
}

/** What a step did to the copies of other cores, all of the one line that went on the bus: it took them, or one keeps it as its owner. */
function copySentences(step) {
  const others = stateChanges(step).filter(({ core }) => core !== coreOfChoice(step.choice)), taken = others.filter(({ before, after }) => before !== 'I' && after === 'I');
  const kept = others.filter(({ before, after }) => before === 'M' && after === 'O').map(({ core, line }) => `P${core} keeps the line as its owner; memory keeps the old word${line.includes('+') ? 's' : ''}.`);
  if (taken.length === 0) return kept;
  const sent = takenCopy(step);
  return [...(sent ? [`P${sent.core} sent its copy.`] : []), `${listed(taken.map(({ core }) => `P${core}'s`))} ${taken.length === 1 ? 'copy' : 'copies'} of ${lineSaid(taken[0].line)} became invalid.`];
}

/** At the end of a run whose cores use words of their own: how many accesses missed, where cores took a line from each other, or in a test about that none did. */
function sharedLine({ steps }, count) {
  const made = count < steps.length ? [] : steps.filter(({ access, entries }) => access && entries.length > 0), sizeOf = part => new Set(made.map(part)).size, wordOf = ({ entries }) => entryOf(entries[0]).location;
  const missed = made.filter(({ access }) => access === 'miss'), taken = missed.filter(step => stateChanges(step).some(({ core }) => core !== coreOfChoice(step.choice)));
  if (!made[0] || !isAtEnd(drive) || sizeOf(wordOf) !== sizeOf(step => coreOfChoice(step.choice) + wordOf(step))) return '';
  const words = taken[0] ? stateChanges(taken[0])[0].line.split('+') : [], said = ` ${missed.length} of ${made.length} accesses missed`;
  if (words.length > 1) return `${said}: ${listed(words)} share a line, and ${taken.length} of them took it from the other core.`;
  return taken[0] || !notesOf(drive.test).Words ? '' : `${said}. None took a line from the other core.`;
}

/** The lines whose state a step changed, as `P1.x S→I`, for the panels and for reading. */
function stateChanges({ states }) {
  return states.map(text => {
    const [, core, line, before, after] = /^P(\d+)\.(\S+) (\S+)>(\S+)$/.exec(text);
    return { core: Number(core), line, before, after };
  });
}
