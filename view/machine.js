'use strict';

// The machine: its cores with their buffers and caches, its bus and its memory. What the last step changed stands out.

const MOST_LINES = 8; // of a program that are in sight at a time
const FEW_LINES = 6; // the same of many cores in a low window
const MOST_ROWS = 4; // of a cache that have room while they aren't there

const marked = (name, isChanged) => (isChanged ? { class: `${name} changed` } : { class: name });

/** Marks, where a word was read that stands there, who read it. */
const sourced = (attributes, supply) => (supply ? { ...attributes, class: `${attributes.class} source`, 'data-reader': `→P${supply.reader}`, title: `P${supply.reader} ${supply.isTaken ? 'took the line' : 'reads'} from here.` } : attributes);
const suppliesLine = (supply, line) => supply && line.split('+').some(location => supply.locations.includes(location)) && supply;
const hidden = text => html('span', 'unshown', text);

// Parts of a core.

/** Whether an instruction reads and writes a location in one step. */
const isLocked = instruction => /^LOCK\b|^XCHG\b.*\[/i.test(instruction);

/** Whether an instruction compares a location with EAX. */
const isComparing = instruction => /^LOCK\s+CMPXCHG\b/i.test(instruction);

/** The programs with NOPs, INC, DEC and exchanges as the test has them, where its rows are plain. */
function asWritten(test, programs) {
  const plain = test.replace(/\(\*[^]*?\*\)/g, ''), lines = plain.split('\n'), rows = lines.slice(lines.findIndex(line => /^\s*P0\s*[|;]/.test(line)) + 1).filter(line => /;\s*$/.test(line)).map(cellsOf);
  const asIn = (text, read) => {
    const [counts] = /\b(INC|DEC)(?= )/i.exec(text) ?? [];
    if (counts) return read.replace(/(?:ADD|SUB) (.*),\$1$/, `${counts.toUpperCase()} $1`);
    return read === 'NOP' ? text.toUpperCase() : /^XCHG \w+ *, *\[/i.test(text) ? read.replace(/(\[\w+\]),(\w+)/, '$2,$1') : read;
  };
  return programs.map((program, core) => {
    const own = rows.flatMap(cells => cells[core]?.text || []);
    return own.length === program.length && !plain.includes('*)') ? own.map((text, at) => asIn(text, program[at])) : program;
  });
}

/** The registers that an instruction writes. */
function writtenBy(instruction) {
  if (isComparing(instruction)) return ['EAX'];
  const [, lock, name, operands] = /^(LOCK\s+)?(\S+)\s*(.*)$/i.exec(instruction);
  const written = /^(xchg|xadd)$/i.test(name) ? operands : lock ? '' : operands.split(',')[0];
  return REGISTERS.filter(register => new RegExp(`\\b${register}\\b`).test(written.replace(/\[.*?\]/g, '')));
}

/** The registers that a test uses on a core: in its program, in its condition, or with a word at the start. To compare uses EAX, unnamed. */
function usedRegisters({ programs, proposition, start }, core) {
  const asked = [...(proposition ?? '').matchAll(/(\d+)\s*:\s*([A-Z]{3})/g)].filter(([, of]) => Number(of) === core).map(([, , name]) => name);
  const code = [...programs[core], programs[core].some(isComparing) ? 'EAX' : ''].join(' ').toUpperCase();
  return REGISTERS.filter(name => new RegExp(`\\b${name}\\b`).test(code) || asked.includes(name) || start.cores[core].registers[name] !== 0);
}

/** The registers of these names: those that the step wrote (`just`) stand out, and those that none has written look faint. */
function registerItems(now, before, written, used, just, named) {
  if (used.length === 0) return [html('li', 'faint', 'no registers')];
  return used.map(name => html('li', {
    ...marked(written.includes(name) ? 'word written' : 'word plain', just.includes(name)),
    title: written.includes(name) ? `An instruction wrote ${name}.` : `No instruction has written ${name} yet.`,
  }, name, ...(named?.[name] ? [html('span', 'in-c', ` (${named[name]})`)] : []), `=${now[name]}`));
}

/** The stores that wait, the oldest first, after one that left. */
function bufferItems(now, before, supply) {
  const isNew = at => now.length > before.length && at === now.length - 1;
  const newest = supply ? now.findLastIndex(store => supply.locations.includes(store.split('=')[0])) : -1;
  const stores = now.map((store, at) => html('li', sourced(marked('slot', isNew(at)), at === newest && supply), store));
  const left = before.length > now.length ? [html('li', 'slot left', hidden('gone: '), before[0])] : [];
  return left.length + stores.length > 0 ? [...left, ...stores] : [html('li', 'faint', 'empty')];
}

function stateCell(state, change) {
  const badge = withMeaning({ tabindex: -1, class: `state state-${state[0]}${state.length > 1 ? ' transient' : ''}` }, state, state);
  return change ? html('td', 'changed', `${change.before}→`, badge) : html('td', {}, badge);
}

const lineWords = (line, words) => (words.length > 1 ? line.split('+').map((name, at) => `${name}=${words[at]}`) : words).join(' ');

/** The rows of a cache: each line of each set, one that is awaited, and as far as there is room those it once had. */
function cacheRows(sets, changes, awaited, supply, had) {
  const changeOf = line => changes.find(change => change.line === line);
  const rowOf = (set, line, state, words, kind = '') => html('tr', { class: kind },
    ...(sets.length > 1 ? [html('td', 'faint', set === '' ? '' : `set ${set}`)] : []),
    html('th', { scope: 'row' }, lineSaid(line)), stateCell(state, changeOf(line)), html('td', sourced({ class: 'words' }, suppliesLine(supply, line)), lineWords(line, words)));
  const there = sets.flatMap((lines, set) => lines.map(({ line, state, words }) => rowOf(set, line, awaited?.line === line ? awaited.state : state, words)));
  const has = name => sets.some(lines => lines.some(({ line }) => line === name));
  const comes = awaited && !has(awaited.line) ? [rowOf('', awaited.line, awaited.state, ['…'])] : [];
  const gone = had.filter(line => line !== awaited?.line && !has(line)).filter((line, at) => changeOf(line) || there.length + comes.length + at < MOST_ROWS);
  const rows = [...there, ...comes, ...gone.map(line => rowOf('', line, 'I', [], 'gone'))];
  return rows.length > 0 ? rows : [html('tr', {}, html('td', { class: 'prose faint', colspan: sets.length > 1 ? 4 : 3 }, 'no lines'))];
}

/** Which of a core's two buttons are known to stall, by the core alone; a bus that is held may make others stall. */
function knownStalls(program, core, depth) {
  return { step: program[core.place] === undefined || waitsFor(program, core, depth) !== '', drain: core.buffer.length === 0 };
}

/** Why the next instruction would have to wait for the store buffer; empty where it wouldn't. */
function waitsFor(program, { place, buffer }, depth) {
  const next = program[place] ?? '';
  if (buffer.length > 0 && (/^MFENCE/i.test(next) || isLocked(next))) return 'buffer not empty';
  return depth > 0 && buffer.length === depth && /^MOV\s+\[/i.test(next) ? 'buffer full' : '';
}

/** What a core's two buttons would do. */
function buttonTexts(program, { place, buffer }, bus, core) {
  const goesOn = choice => (bus?.choice === choice ? ' (holds the bus)' : '');
  return {
    step: (program[place] ?? '') + goesOn(`${core}s`),
    drain: (buffer[0] ?? 'empty') + goesOn(`${core}d`),
  };
}

/** A part's heading, which says what the part is. Arrows lead to it. */
const partTitle = text => html('h5', { 'data-means': text, tabindex: -1, 'aria-label': text, 'aria-description': MEANINGS[text] }, text);

const MOST_LETTERS = 16; // of an instruction with its C beside it

/** Programs in C, with the `names` of each core's registers there (r0, r1 ..); null where an instruction has no such form. */
function inC(programs) {
  let count = 0;
  const names = programs.map(() => ({}));
  const lineOf = (text, core) => {
    const word = part => (/^E/.test(part) ? names[core][part] ??= `r${count++}` : part.replace(/[[\]$]/g, ''));
    const [, to, from] = /^MOV (\S+),(\S+)$/.exec(text) ?? [], [, place, register] = /^XCHG (\[\w+\]),(\w+)$/.exec(text) ?? [];
    if (text.length > MOST_LETTERS || /\[r\d+\]/.test(text)) return null;
    return to ? `${word(to)} = ${word(from)};` : place ? `swap(${word(place)}, ${word(register)});` : text === 'MFENCE' ? 'fence;' : null;
  };
  const lines = programs.map((program, core) => program.map(text => lineOf(text, core)));
  return lines.flat().includes(null) ? null : { lines, names };
}

/** A core's instructions as `written`, each with what it does at the pointer; the first of its kind in the test at the focus too. */
function instructionItems(programs, written, core) {
  const before = programs.slice(0, core).flat().map(kindOfInstruction), own = programs[core].map(kindOfInstruction);
  const lines = inC(programs)?.lines[core] ?? written[core].map(text => (/^[LS]FENCE/.test(text) ? 'no effect here' : ''));
  return written[core].map((text, at) => {
    const kind = own[at], isFirst = !before.includes(kind) && own.indexOf(kind) === at;
    const code = isFirst ? withMeaning({ tabindex: -1 }, kind, text, 'code') : html('code', { 'data-means': kind }, text);
    return html('li', { value: at, ...(lines[at] ? { 'data-c': lines[at] } : {}), ...(kind === 'a fence' ? { 'data-means': kind } : {}) }, code);
  });
}

class CorePanel {
  constructor(core, history, written) {
    const { programs, options } = history;
    this.core = core;
    this.program = programs[core];
    this.isMany = programs.length > FEW_CORES;
    this.written = written[core];
    this.used = usedRegisters(history, core);
    this.named = inC(programs)?.names[core];
    this.depth = options.depth;
    this.makeParts(instructionItems(programs, written, core));
    this.element = html('section', { class: 'core', 'data-core': core, 'aria-label': `Core P${core}` },
      html('h4', {}, `P${core}`), html('div', 'core-buttons', ...['step', 'drain'].map(way => html('div', 'choice', this[way], this.stalls[way]))),
      html('div', 'of-core', partTitle('Program'), this.list, partTitle('Registers'), this.registers.element,
        partTitle('Store buffer'), this.depth === 0 ? html('p', 'faint', 'none') : this.buffer.element),
      html('div', 'of-caches', partTitle('Cache'), this.cache));
  }

  makeParts(items) {
    const button = (way, name) => html('button', { 'data-choice': `${this.core}${name}` },
      html('kbd', { 'aria-hidden': 'true' }, `${this.core}${name}`), ` ${way} `, html('code', {}));
    const list = (name, label, draw) => new Part(html('ul', { class: name, 'aria-label': label }), draw);
    this.step = button('step', 's');
    this.drain = button('drain', 'd');
    const stall = (way, name) => html('button', { class: 'stall', 'data-stall': `${this.core}${name}`, hidden: '',
      'aria-label': `P${this.core}: record a ${way} that does nothing`, title: 'Records this choice in the run: nothing changes.' }, 'stall');
    this.stalls = { step: stall('step', 's'), drain: stall('drain', 'd') };
    const isLong = this.program.length > MOST_LINES, isFew = this.isMany && this.program.length > FEW_LINES;
    this.isScrolled = isLong || isFew;
    const named = { 'aria-label': `Program of P${this.core}`, ...(isLong ? { tabindex: 0 } : {}) };
    this.list = html('ol', { class: isLong ? 'program long' : isFew ? 'program few' : 'program', start: 0, ...named }, ...items);
    for (const [name, texts] of [['--code', this.written], ['--c', items.map(({ dataset }) => dataset.c ?? '')]]) this.list.style.setProperty(name, Math.max(0, ...texts.map(text => text.length)));
    this.registers = list('registers', 'Registers', registerItems);
    this.buffer = list('buffer', 'Store buffer, the oldest store first', bufferItems);
    this.lines = new Part(html('tbody', {}), cacheRows);
    this.cache = html('div', 'cache-room', html('table', { class: 'cache', 'aria-label': 'Cache' }, this.lines.element));
  }

  /** Shows the core as it is after a step and what that step changed. `bus` is the bus where this core holds it, and else null. */
  show(core, old, { bus, changes, had, hasEnded, isLast, supply }) {
    const key = JSON.stringify([core, old, bus, changes, had, hasEnded, isLast, supply]), isBuffer = supply?.from === 'buffer';
    if (key === this.key && !this.hasOffered) return;
    this.key = key;
    this.registers.show(core.registers, old.registers, this.program.slice(0, core.place).flatMap(writtenBy), this.used, core.place === old.place ? [] : writtenBy(this.program[old.place]), this.named);
    this.buffer.show(core.buffer, old.buffer, isBuffer ? supply : null);
    this.lines.show(core.lines, changes, bus?.state?.length > 1 ? { line: bus.line, state: bus.state } : null, isBuffer ? null : supply, had);
    this.showButtons(core, bus, hasEnded);
    this.showPlace(core.place, core.place !== old.place);
    putClass(this.element, 'acted', isLast);
  }

  showButtons(core, bus, hasEnded) {
    const isFinished = this.program[core.place] === undefined, texts = buttonTexts(this.written, core, bus, this.core), stalls = knownStalls(this.program, core, this.depth);
    this.hasOffered = false;
    this.step.dataset.waits = hasEnded ? '' : waitsFor(this.program, core, this.depth);
    for (const way of ['step', 'drain']) {
      const ended = way !== 'step' || !isFinished ? '' : core.buffer.length > 0 ? 'done; stores wait' : 'done', code = this[way].lastChild;
      code.previousSibling.data = ended === '' ? ` ${way} ` : ` ${ended}`;
      putText(code, texts[way]);
      setAll(this[way], { 'aria-label': `P${this.core}: ${ended || `${way} ${texts[way]}`}` });
      this[way].disabled = hasEnded;
      putClass(this[way], 'idle', stalls[way]);
      this.stalls[way].hidden = hasEnded || !stalls[way] || (way === 'step' && isFinished);
      this.stalls[way].classList.remove('offered');
    }
  }

  /** Shows the button by which a choice is made that stalls. */
  offerStall(way) {
    this.hasOffered = true;
    this.stalls[way].hidden = false;
    this.stalls[way].classList.add('offered');
  }

  /** Marks the next instruction. `keepInSight` scrolls to it: it has the browser lay the page out, so it comes after all that changes. */
  showPlace(place, isChanged) {
    if (place === this.place && isChanged === this.wasChanged) return;
    this.list.children[this.place]?.removeAttribute('aria-current');
    this.list.querySelector('.changed')?.classList.remove('changed');
    this.list.children[place]?.setAttribute('aria-current', 'step');
    if (isChanged) this.list.children[place - 1]?.classList.add('changed');
    const isOutOfSight = this.isOutOfSight || place !== this.place;
    Object.assign(this, { place, wasChanged: isChanged, isOutOfSight });
  }

  keepInSight() {
    if (this.isOutOfSight && this.isScrolled) this.list.scrollTop = this.list.children[Math.max(0, this.place - 1)]?.offsetTop - this.list.firstElementChild.offsetTop;
    this.isOutOfSight = false;
  }
}

// The bus and memory.

function busItems(bus, step, supply) {
  const held = bus && `P${bus.core} holds the bus for ${lineSaid(bus.line)}` + (bus.state?.length > 1 ? `, and waits for it (${bus.state})` : '');
  const passed = [step?.transaction, step?.flush && `flush ${step.flush}`, step?.write_back && `write-back ${step.write_back}`].filter(Boolean).map(lineSaid);
  const holder = html('span', sourced({ class: held ? 'holder' : '' }, supply), held ?? 'free');
  return [holder, ...passed.map(text => withMeaning({ tabindex: -1, class: 'word changed' }, text.split(' ')[0], text))];
}

/** Each location's word in memory, and beside it the newest word where a cache has another. Without caches memory has the newest. */
function memoryItems(now, before, supply) {
  return Object.keys(now.memory).map(location => {
    const isChanged = now.memory[location] !== before.memory[location] || now.seen[location] !== before.seen[location];
    const isNewer = now.seen[location] !== now.memory[location];
    return html('li', sourced(marked('word', isChanged), suppliesLine(supply, location)), `${location}=${now.memory[location]}`, ...(isNewer ? [withMeaning({ tabindex: -1, class: 'newer' }, 'newest', ` newest ${now.seen[location]}`)] : []));
  });
}

/** What accesses and the bus did in the first steps, counted; in a lecture what comes in a run. */
function tallyText(steps, count) {
  const isTold = (isSo, one) => one === 'flush' || (isLecture() ? drive.histories.some(history => history.steps.some(isSo)) : one !== 'write-back');
  const said = (isSo, one, many = `${one}s`) => (number => (number > 0 || one === 'miss' || isTold(isSo, one) ? [`${number} ${number === 1 ? one : many}`] : []))(steps.slice(0, count).filter(isSo).length);
  return (isLecture() ? '' : 'so far ') + [said(({ access }) => access === 'miss', 'miss', 'misses'), said(({ access }) => access === 'upgrade', 'upgrade'), said(({ flush }) => flush, 'flush', 'flushes'), said(step => step.write_back, 'write-back')].flat().join(', ');
}

/** A machine's panel. `show` shows it after so many steps of a history of it. */
class MachinePanel {
  constructor(history) {
    this.history = history;
    this.written = asWritten(drive.test, history.programs);
    this.panels = history.programs.map((_, core) => new CorePanel(core, history, this.written));
    this.said = html('p', 'said');
    this.bus = new Part(html('p', 'bus'), busItems);
    this.tally = html('p', 'tally');
    this.memory = new Part(html('ul', { class: 'memory', 'aria-label': 'Memory' }), memoryItems);
    this.name = html('h3', { tabindex: -1 });
    this.element = html('section', { class: 'machine', 'aria-label': `The machine: ${machineName(history.options)}` },
      this.name, this.said, html('div', 'cores', ...this.panels.map(panel => panel.element)),
      html('div', 'below', html('div', 'of-caches', partTitle('Bus'), this.bus.element, this.tally), html('div', {}, partTitle('Memory'), this.memory.element)));
    this.memory.element.style.setProperty('--pairs', Math.ceil(Object.keys(history.start.memory).length / 2));
    putClass(this.element, 'tall', history.programs.flat().some(isLocked)); // boxes for three lines from the start
    this.element.style.setProperty('--lines', Math.min(MOST_LINES, Math.max(...history.programs.map(program => program.length)))); // so that parts stand at one height
  }

  /** Whether this is the panel of such programs on such a machine. */
  isOf({ programs, options }) {
    return JSON.stringify([asWritten(drive.test, programs), options]) === JSON.stringify([this.written, this.history.options]);
  }

  /** Keeps room for lines in caches, in a lecture for those of the run, and for counts of two lines. */
  keepRoom({ start, steps, options }) {
    const isHall = isLecture(), had = [...new Set((isHall ? steps : []).flatMap(stateChanges).map(({ core, line }) => `${core} ${line}`))], most = Math.max(1, ...had.map(([core]) => had.filter(each => each[0] === core).length));
    this.element.style.setProperty('--rows', isHall ? most : Math.min(MOST_ROWS, Math.ceil(Object.keys(start.memory).length / options.words)));
    putClass(this.tally, 'long', isHall && tallyText(steps, steps.length).length > 24);
  }

  /** Shows the machine after so many steps; where caches aren't shown (`isPlain`), as one that has none. */
  show(history, count, isPlain) {
    this.history = history;
    this.keepRoom(history);
    const isNamed = drive.histories.length > 2 && !isPlain, same = isNamed ? asFirst(history, count) : '';
    const title = isPlain ? `The machine, with ${plainMachineName(history.options)}` : isNamed ? history.options.protocol.toUpperCase() : machineTitle(history.options);
    if (this.name.textContent !== title + same) fill(this.name, title, html('span', 'faint', same));
    const last = count <= history.steps.length ? history.steps[count - 1] : undefined;
    const now = history.machineAfter(count), before = last ? history.machineAfter(count - 1) : now;
    const had = isPlain ? [] : history.steps.slice(0, count).reverse().flatMap(stateChanges), changes = last ? stateChanges(last) : [], hasEnded = history.hasEnded(count), told = last ? supplyOf(last) : null, supply = isPlain ? plainSupply(told) : told;
    const suppliedBy = from => (supply?.from === from ? supply : null);
    this.panels.forEach((panel, core) => panel.show(now.cores[core], before.cores[core], {
      supply: supply?.owner === core ? supply : null,
      bus: now.bus?.core === core ? now.bus : null, changes: changes.filter(change => change.core === core), had: [...new Set(had.filter(change => change.core === core).map(({ line }) => line))], hasEnded,
      isLast: last !== undefined && coreOfChoice(last.choice) === core,
    }));
    if (!isPlain) putText(this.tally, tallyText(history.steps, count).replace(/(\d) /g, '$1\u00a0'));
    this.bus.show(now.bus, last && { transaction: last.transaction, flush: last.flush, write_back: last.write_back }, suppliedBy('bus'));
    const wordsOf = ({ memory, seen }) => ({ memory: isPlain ? seen : memory, seen });
    this.memory.show(wordsOf(now), wordsOf(before), suppliedBy('memory'));
    this.sentences = count > history.steps.length ? ['Its test had ended before this choice, which is left over.'] : last ? stepSentences(last, before, this.written, isPlain) : [];
    putText(this.said, this.sentences.join(' '));
  }

  offerStall(word) {
    this.panels[coreOfChoice(word)].offerStall(isDrain(word) ? 'drain' : 'step');
  }

  keepInSight() {
    this.panels.forEach(panel => panel.keepInSight());
  }
}
