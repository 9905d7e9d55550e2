'use strict';

// A plain machine with store buffers and caches, on either bus, which tells each of its steps as a trace does: docs/DEFINITIONS.md has
// what it does. It is written from there and from no code of the crates.

const COUNTS_OF_CACHE = ['hits', 'misses', 'upgrades', 'forwards', 'write_backs', 'flushes'];

// Which copies may be written in place, have to be written back, or supply their words.

const IN_PLACE = ['M', 'E'], DIRTY = ['M', 'O'], SUPPLIERS = ['M', 'O', 'E'];
const TRANSIENT = { upgrade: 'SM_D', miss: write => (write ? 'IM_D' : 'IS_D') };

class Machine {
  constructor(test, options) {
    const { protocol, bus, depth, sets, ways, words } = options;
    Object.assign(this, { test, protocol, bus, depth, sets, ways, words, order: [], holder: null });
    this.isOwning = ['moesi', 'mosi'].includes(options.protocol);
    this.alone = ['mesi', 'moesi'].includes(options.protocol) ? 'E' : 'S';
    const lines = Math.ceil(test.locations.length / this.words);
    this.memory = Array.from({ length: lines }, (_, line) =>
      test.locations.slice(line * this.words, (line + 1) * this.words).map(name => test.words.get(name) ?? 0));
    this.cores = test.programs.map((program, core) => ({
      program, place: 0, registers: { ...test.registers[core] }, pending: [], counts: Object.fromEntries(COUNTS_OF_CACHE.map(name => [name, 0])),
      cache: Array.from({ length: this.sets }, () => []),
    }));
  }

  hasEnded() {
    return this.cores.every(core => core.place === core.program.length && core.pending.length === 0);
  }

  at(location) {
    const number = this.test.locations.indexOf(location);
    return [Math.floor(number / this.words), number % this.words];
  }

  nameOf(line) {
    return this.test.locations.slice(line * this.words, (line + 1) * this.words).join('+');
  }

  copyOf(core, line) {
    return this.cores[core].cache[line % this.sets].find(copy => copy.line === line);
  }

  kindOf(core, line, write) {
    const copy = this.copyOf(core, line);
    return copy === undefined ? 'miss' : write && !IN_PLACE.includes(copy.state) ? 'upgrade' : 'hit';
  }

  /** The other caches see a request. */
  snoop(core, line, write, told) {
    let words = null, isShared = false;
    this.cores.forEach(({ cache, counts }, other) => {
      const copy = this.copyOf(other, line);
      if (other === core || copy === undefined) return;
      isShared = true;
      if (SUPPLIERS.includes(copy.state)) words = [...copy.words];
      if (!write && !this.isOwning && copy.state === 'M') {
        this.memory[line] = [...copy.words];
        counts.flushes++;
        told.flush = `P${other}`;
      }
      if (write) cache[line % this.sets] = cache[line % this.sets].filter(each => each !== copy);
      else if (copy.state === 'M') copy.state = this.isOwning ? 'O' : 'S';
      else if (copy.state === 'E') copy.state = 'S';
    });
    return { words: words ?? [...this.memory[line]], state: write ? 'M' : isShared ? 'S' : this.alone };
  }

  /** The first half of an access: what it asks of the bus. */
  ask(core, line, write, told) {
    const kind = this.kindOf(core, line, write);
    if (kind === 'hit') return { kind };
    told.transaction = `Get${write ? 'M' : 'S'} ${this.nameOf(line)}`;
    return { kind, ...this.snoop(core, line, write, told) };
  }

  /** The second half: the copy that the access is made on. */
  complete(core, line, write, { kind, words, state }, told) {
    const set = this.cores[core].cache[line % this.sets];
    let copy = this.copyOf(core, line);
    told.access = kind;
    this.cores[core].counts[{ hit: 'hits', miss: 'misses', upgrade: 'upgrades' }[kind]]++;
    if (kind === 'miss') {
      copy = { line, state, words };
      if (set.length === this.ways) this.leave(core, set.pop(), told);
    } else {
      set.splice(set.indexOf(copy), 1);
      if (write) copy.state = 'M';
    }
    set.unshift(copy);
    return copy;
  }

  leave(core, victim, told) {
    if (!DIRTY.includes(victim.state)) return;
    this.memory[victim.line] = victim.words;
    this.cores[core].counts.write_backs++;
    told.write_back = this.nameOf(victim.line);
  }

  /** The copy that an access of this choice is made on; where it isn't made now, the outcome in its place. */
  access(choice, location, write, told) {
    const core = Number(choice[0]), [line] = this.at(location);
    if (this.bus === 'atomic') return { copy: this.complete(core, line, write, this.ask(core, line, write, told), told) };
    if (this.holder?.choice === choice) {
      const { awaited } = this.holder;
      this.holder = null;
      return { copy: this.complete(core, line, write, awaited, told) };
    }
    if (this.kindOf(core, line, write) === 'hit') return { copy: this.complete(core, line, write, { kind: 'hit' }, told) };
    return { outcome: this.hold(choice, line, write, told) };
  }

  hold(choice, line, write, told) {
    if (this.holder !== null) return 'Bus';
    this.holder = { choice, line, write, awaited: this.ask(Number(choice[0]), line, write, told) };
    return 'asked';
  }

  commit(core, place, kind, location, value, told) {
    const text = `P${core}:${place} ${kind}${location === undefined ? '' : ` ${location}=${value}`}`;
    this.order.push(text);
    told.entries.push(text);
  }

  /** Makes a choice, notes what it did, and answers its outcome or the name of its stall. */
  make(choice, told) {
    const number = Number(choice[0]), core = this.cores[number];
    if (choice[1] === 'd') {
      if (core.pending.length === 0) return 'Empty';
      const outcome = this.write(choice, core.pending[0], told);
      if (outcome === 'committed') core.pending.shift();
      return outcome;
    }
    if (core.place === core.program.length) return 'Done';
    const outcome = this[core.program[core.place].kind](choice, number, core, core.program[core.place], told);
    if (['buffered', 'committed', 'moved'].includes(outcome) && this.holder?.choice !== choice) core.place++;
    return outcome;
  }

  write(choice, { place, location, value }, told) {
    const { copy, outcome } = this.access(choice, location, true, told);
    if (copy === undefined) return outcome;
    copy.words[this.at(location)[1]] = value;
    this.commit(Number(choice[0]), place, 'W', location, value, told);
    return 'committed';
  }

  store(choice, number, core, { location, register, number: given }, told) {
    const store = { place: core.place, location, value: given ?? core.registers[register] };
    if (this.depth === 0) return this.write(choice, store, told);
    if (core.pending.length === this.depth) return 'Full';
    core.pending.push(store);
    told.entries.push(`P${number}:${store.place} W ${location}=${store.value}`);
    return 'buffered';
  }

  load(choice, number, core, { location, register }, told) {
    const own = core.pending.findLast(store => store.location === location);
    const { copy, outcome } = own ? {} : this.access(choice, location, false, told);
    if (outcome) return outcome;
    if (own) core.counts.forwards++;
    told.forwarded = own !== undefined;
    core.registers[register] = own ? own.value : copy.words[this.at(location)[1]];
    this.commit(number, core.place, 'R', location, core.registers[register], told);
    return 'committed';
  }

  /** Where a core finds the word that its next instruction reads; null where that reads nothing, or has read it before. */
  foundAt(choice) {
    const core = Number(choice[0]), { program, place, pending } = this.cores[core], { kind, location } = program[place] ?? {};
    if (choice[1] === 'd' || !['load', 'lock'].includes(kind) || this.holder?.copy !== undefined) return null;
    if (pending.some(store => store.location === location)) return 'buffer';
    const [line] = this.at(location);
    if (this.copyOf(core, line) !== undefined) return 'cache';
    if (this.holder?.choice === choice) return 'bus';
    const owner = this.cores.findIndex((_, other) => SUPPLIERS.includes(this.copyOf(other, line)?.state));
    return owner < 0 ? 'memory' : `P${owner}`;
  }

  fence(choice, number, core, _, told) {
    if (core.pending.length > 0) return 'Fence';
    this.commit(number, core.place, 'F', undefined, undefined, told);
    return 'committed';
  }

  move(choice, number, core, { register, source, number: given }, told) {
    core.registers[register] = given ?? core.registers[source];
    told.moved = `${register}=${core.registers[register]}`;
    return 'moved';
  }

  lock(choice, number, core, { location, register, adds }, told) {
    if (core.pending.length > 0) return 'Lock';
    const [line, word] = this.at(location);
    if (this.bus === 'split' && this.holder?.choice !== choice) return this.hold(choice, line, true, told);
    if (this.bus === 'atomic' || this.holder.copy === undefined) {
      const awaited = this.bus === 'atomic' ? this.ask(number, line, true, told) : this.holder.awaited;
      const copy = this.complete(number, line, true, awaited, told);
      this.commit(number, core.place, 'LR', location, copy.words[word], told);
      if (this.bus === 'split') {
        this.holder.copy = copy;
        return 'committed';
      }
      return this.finish(number, core, { location, register, adds }, copy, word, told);
    }
    const { copy } = this.holder;
    this.holder = null;
    return this.finish(number, core, { location, register, adds }, copy, word, told);
  }

  finish(number, core, { location, register, adds }, copy, word, told) {
    const old = copy.words[word], value = adds ? (old + core.registers[register]) % 2 ** 32 : core.registers[register];
    core.registers[register] = old;
    copy.words[word] = value;
    this.commit(number, core.place, 'LW', location, value, told);
    return 'committed';
  }

  // What is told.

  stateOf(core, line) {
    const { choice, awaited } = this.holder ?? {};
    const isAwaited = awaited && awaited.kind !== 'hit' && this.holder.copy === undefined && this.holder.line === line && Number(choice[0]) === core;
    if (isAwaited) return awaited.kind === 'upgrade' ? 'SM_D' : TRANSIENT.miss(this.holder.write);
    return this.copyOf(core, line)?.state ?? 'I';
  }

  lineStates() {
    return this.cores.map((_, core) => this.memory.map((_, line) => this.stateOf(core, line)));
  }

  seen(line) {
    const owner = this.cores.findIndex((_, core) => [...DIRTY, 'E'].includes(this.copyOf(core, line)?.state));
    if (owner >= 0) return this.copyOf(owner, line).words;
    const { awaited } = this.holder?.line === line ? this.holder : {};
    return awaited?.words && this.holder.copy === undefined ? awaited.words : this.memory[line];
  }

  told() {
    const byName = wordsOf => Object.fromEntries(this.test.locations.map(name => [name, wordsOf(this.at(name)[0])[this.at(name)[1]]]).sort());
    const { choice, line, awaited, copy } = this.holder ?? {};
    return {
      bus: this.holder && {
        choice, core: Number(choice[0]), line: this.nameOf(line), state: this.stateOf(Number(choice[0]), line),
        words: [...copy?.words ?? awaited.words ?? this.copyOf(Number(choice[0]), line).words],
      },
      cores: this.cores.map(core => ({
        buffer: core.pending.map(store => `${store.location}=${store.value}`),
        lines: core.cache.map(set => set.map(({ line: number, state, words }) => ({ line: this.nameOf(number), state, words: [...words] }))),
        place: core.place, registers: { ...core.registers },
      })),
      memory: byName(number => this.memory[number]), seen: byName(number => this.seen(number)),
    };
  }

  /** Makes a choice and tells it as a step. */
  step(choice) {
    const told = { entries: [], access: null, flush: null, forwarded: false, moved: null, transaction: null, write_back: null };
    const before = this.lineStates(), found = this.foundAt(choice), made = this.make(choice, told);
    const isStall = ['Done', 'Full', 'Fence', 'Lock', 'Empty', 'Bus'].includes(made), after = this.lineStates();
    const states = before.flatMap((lines, core) => lines.flatMap((state, line) =>
      (state === after[core][line] ? [] : [`P${core}.${this.nameOf(line)} ${state}>${after[core][line]}`])));
    return { ...told, choice, outcome: isStall ? 'stalled' : made, stall: isStall ? made : null, states, supplied: isStall ? null : found };
  }
}
