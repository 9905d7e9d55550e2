'use strict';

// Stands in for the module where it has no trace yet: `StandIn` answers as `Tso` does. The machine of plain_machine.js tells `trace`
// and `step`; any other command goes to the module, and `run` is answered here where there is no module. It reads valid tests only.

const NAMES = ['EAX', 'EBX', 'ECX', 'EDX', 'ESI', 'EDI'];
const TOLD_STEPS = 1000;

// The test.

/** An instruction as an object: what it does, its location, its register and the number that it has. */
function instructionOf(text) {
  const place = /\[(\w+)\]/.exec(text)?.[1], number = /\$(\d+)/.exec(text)?.[1];
  const registers = text.match(/\bE[A-Z]{2}\b/gi)?.map(name => name.toUpperCase()) ?? [];
  const word = /^\w+/.exec(text.replace(/^LOCK\s+/i, ''))[0].toUpperCase();
  const told = { text, location: place, register: registers[0], source: registers[1], number: number && Number(number) };
  if (word === 'MFENCE') return { ...told, kind: 'fence' };
  if (word === 'XCHG' || word === 'XADD') return { ...told, kind: 'lock', adds: word === 'XADD' };
  if (place === undefined) return { ...told, kind: 'move' };
  return { ...told, kind: /^MOV\s+\[/i.test(text) ? 'store' : 'load' };
}

function testOf(text) {
  const [head, ...rest] = text.replace(/\(\*[^]*?\*\)/g, '').split('\n');
  const body = rest.join('\n'), [, initial, program] = /\{([^}]*)\}([^]*)/.exec(body);
  const rows = program.split(/\n(?=\s*(?:~?\s*exists|forall|locations)\b)/)[0].split(';').map(row => row.split('|').map(cell => cell.trim()));
  const cores = rows[0].length;
  const programs = Array.from({ length: cores }, (_, core) => rows.slice(1).map(row => row[core]).filter(Boolean).map(instructionOf));
  const condition = /(~?\s*exists|forall)\s*([^]*?)\s*$/.exec(program);
  const locations = [], words = new Map(), registers = programs.map(() => Object.fromEntries(NAMES.map(name => [name, 0])));
  const place = name => locations.includes(name) || locations.push(name);
  for (const [, core, register, location, value] of initial.matchAll(/(?:(\d+)\s*:\s*(\w+)|\[?(\w+)\]?)\s*=\s*(\d+)/g)) {
    if (core !== undefined) registers[core][register.toUpperCase()] = Number(value);
    else words.set((place(location), location), Number(value));
  }
  for (const row of rows.slice(1)) for (const cell of row) place.call(null, ...(/\[(\w+)\]/.exec(cell) ? [/\[(\w+)\]/.exec(cell)[1]] : [locations[0]]));
  for (const [name] of (condition?.[2] ?? '').replace(/\d+\s*:\s*\w+/g, '').matchAll(/[A-Za-z_]\w*/g)) if (!/^(true|false|not)$/.test(name)) place(name);
  return {
    name: head.replace(/^X86\s+/, '').trim(), locations: locations.filter(Boolean), words, registers, programs,
    quantifier: condition?.[1].replace(/\s/g, ''), proposition: condition?.[2].replace(/^\(([^]*)\)$/, '$1'),
  };
}

// Choices.

const MASK = (1n << 64n) - 1n, LOW = (1n << 32n) - 1n, TIMES = 6364136223846793005n;

function outputOf(state) {
  const word = ((state >> 18n ^ state) >> 27n) & LOW, by = state >> 59n;
  return (word >> by | word << (32n - by)) & LOW;
}

function* wordsOfSeed(seed) {
  let state = seed;
  const words = Array.from({ length: 4 }, () => outputOf(state = state * TIMES + 11634580027462260723n & MASK));
  const stream = words[2] | words[3] << 32n | 1n;
  for (state = (words[0] | words[1] << 32n) + stream & MASK; ;) yield outputOf(state = state * TIMES + stream & MASK);
}

/** The choices of a text, each with the number of the word that it came of. */
function* choicesOf(text, cores) {
  const words = text.split(/\s+/).filter(word => word !== '');
  for (let at = 0; at < words.length; at++) {
    if (words[at] !== 'seed') {
      yield [words[at], at + 1];
      continue;
    }
    const drawn = wordsOfSeed(BigInt(words[at + 1]));
    for (let left = Number(words[at + 2]); left > 0; left--) {
      const number = Number(drawn.next().value % BigInt(2 * cores));
      yield [`${number >> 1}${number % 2 ? 'd' : 's'}`, at + 1];
    }
    at += 2;
  }
}

class StandIn {
  /** The module, or null where there is none. */
  constructor(tso) {
    this.tso = tso;
  }

  answer(options, input) {
    const asked = { ...Tso.DEFAULTS, ...options }, text = typeof input === 'string' ? input : new TextDecoder().decode(input);
    if (!['trace', 'step'].includes(asked.command) && (this.tso || asked.command !== 'run')) return this.tso.answer(options, input);
    if (this.tso && asked.command !== 'step') {
      const ran = this.tso.answer({ ...options, command: 'run' }, input);
      if (ran.status === 1) return ran;
    }
    return asked.command === 'step' ? this.lastStep(asked, text) : this.told(asked, text);
  }

  /** The last step alone. A machine that made all choices but the last goes on, so that a click costs no more than the page's own time. */
  lastStep(asked, text) {
    const [head, rest = ''] = text.split(/^====\n/m), test = testOf(head), words = [...choicesOf(rest, test.programs.length)].map(([choice]) => choice);
    const key = JSON.stringify([head, asked, words.slice(0, -1)]);
    let machine = this.kept?.key === key ? this.kept.machine : new Machine(test, asked), last = null;
    const isKept = this.kept?.key === key;
    for (const choice of isKept ? words.slice(-1) : words) if (!machine.hasEnded()) last = machine.step(choice);
    this.kept = { key: JSON.stringify([head, asked, words]), machine };
    const answer = last ? { ...last, after: machine.told() } : { start: machine.told() };
    return { status: 0, text: JSON.stringify(answer) + '\n', hint: '' };
  }

  told(asked, text) {
    const [head, rest = ''] = text.split(/^====\n/m), test = testOf(head), machine = new Machine(test, asked);
    const start = machine.told(), steps = [];
    let used = 0, stalled = 0, unused = 0;
    for (const [choice, word] of choicesOf(rest, test.programs.length)) {
      if (machine.hasEnded()) {
        unused++;
        continue;
      }
      if (asked.command === 'trace' && asked.json && used === TOLD_STEPS) return { status: 1, text: `Refused choices word ${word} TooMany\n`, hint: '' };
      const step = machine.step(choice);
      if (asked.command === 'trace') steps.push({ ...step, after: machine.told() });
      used++;
      stalled += step.outcome === 'stalled';
    }
    const told = machine.hasEnded() ? ended(test, machine, asked, { used, stalled, unused }) : { unfinished: { stalled, used } };
    const beside = { programs: test.programs.map(program => program.map(each => each.text)), proposition: test.proposition ?? null, trace: { start, steps } };
    const whole = asked.command === 'trace' ? { ...told, ...beside } : told;
    return { status: machine.hasEnded() ? 0 : 3, text: asked.json ? `${JSON.stringify(whole)}\n` : textOf(whole), hint: '' };
  }
}

/** The line of a step: its number, its choice, its outcome, and what it did, as far as it did it. */
function lineOf({ choice, outcome, stall, entries, moved, forwarded, access, transaction, flush, write_back: back, states, after }, before, at) {
  const core = Number(choice[0]), buffer = after.cores[core].buffer, isChanged = buffer.length !== before.cores[core].buffer.length;
  const told = [at + 1, choice, outcome, stall, ...entries, moved, forwarded && 'forwarded', access, transaction, flush && `flush ${flush}`,
    back && `write-back ${back}`, ...states, isChanged && `P${core}[${buffer.join(' ')}]`];
  return told.filter(word => word !== null && word !== false).join(' ');
}

/** The part of a trace's text that tells the steps. */
function stepsText({ start, steps }) {
  return ['Trace', ...steps.map((step, at) => lineOf(step, at === 0 ? start : steps[at - 1].after, at)), `Endtrace ${steps.length}`, ''].join('\n');
}

/** A trace or a run as a text: not the program's own form, but for the part that tells the steps. */
function textOf({ trace, ...told }) {
  return (trace ? stepsText(trace) : '') + Object.entries(told).map(([name, value]) => `${name} ${JSON.stringify(value)}\n`).join('');
}

/** The order with each load part of a locked instruction directly before its store part. */
function putTogether(order) {
  const together = [];
  for (const text of order) {
    const [name, kind] = text.split(' ');
    if (kind === 'LW') together.push(...together.splice(together.findLastIndex(each => each.startsWith(`${name} LR `)), 1));
    together.push(text);
  }
  return together;
}

function ended(test, machine, { protocol, bus, depth, sets, ways, words }, choices) {
  const state = { memory: machine.told().seen, registers: machine.cores.map(core => core.registers) };
  return {
    cache: machine.cores.map(core => core.counts), choices, ...state, order: putTogether(machine.order), test: test.name,
    condition: test.quantifier ? { holds: isTrue(test.proposition, state), kind: test.quantifier } : null,
    machine: { ...(bus === 'split' ? { bus } : {}), depth, protocol, sets, ways, words },
  };
}

/** The truth of a conjunction of equations, which is all that this machine reads. */
function isTrue(proposition, { registers, memory }) {
  const equations = [...proposition.matchAll(/(?:(\d+)\s*:\s*)?\[?(\w+)\]?\s*=\s*(\d+)/g)];
  return equations.every(([, core, name, value]) => (core === undefined ? memory[name] : registers[core][name.toUpperCase()]) === Number(value));
}

// In the page: before a module that tells no steps, or in the place of one of no bytes.
if (typeof document !== 'undefined') {
  const moduleOf = Tso.of.bind(Tso);
  Tso.of = async bytes => {
    const tso = bytes.length > 0 ? await moduleOf(bytes) : null;
    return tso && tracingOf(tso) === 'step' ? tso : new StandIn(tso);
  };
}
