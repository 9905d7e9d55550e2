'use strict';

// What one machine did under choices, step by step, as its trace tells it.

/** The trace that a text of `trace --json` tells: the programs, the proposition, the machine at the start, and the steps. */
function readTrace(text) {
  const { programs, proposition, trace } = JSON.parse(text);
  return { programs, proposition, start: trace.start, steps: trace.steps };
}

/** The step that a text of the command `step` tells. */
function readStep(text) {
  const told = JSON.parse(text);
  return told.step ?? told;
}

function entryOf(text) {
  const [, core, place, fence, kind = fence, location = null, value = 0] = ENTRY.exec(text);
  return { text, core: Number(core), place: Number(place), kind, location, value: Number(value), index: Infinity, passed: [] };
}

/** The number that is free for a bar beside those of the stores that wait. */
function freeTrack(waiting) {
  const taken = new Set(waiting.map(store => store.track));
  for (let track = 0; ; track++) if (!taken.has(track)) return track;
}

const lastWrite = (order, location) => order.findLast(entry => isWrite(entry) && entry.location === location);

/** What a history comes to after one more entry: the order, the stores and the load part that wait, and how many bars stand beside one another. */
function taken(told, entry, step, core) {
  const { order, tracks } = told, own = told.waiting[core], index = order.length;
  const waits = stores => ({ waiting: told.waiting.with(core, stores) });
  const commits = (...entries) => ({ order: [...order, ...entries.map((each, at) => ({ ...each, index: index + at }))] });
  if (step.outcome === 'buffered') {
    const store = { ...entry, since: index, track: freeTrack(own) };
    return { ...told, ...waits([...own, store]), tracks: Math.max(tracks, store.track + 1) };
  }
  if (entry.kind === 'W' && own.length > 0) {
    const [{ since }] = own;
    return { ...told, ...waits(own.slice(1)), ...commits({ ...own[0], wait: { earliest: since, latest: since } }) };
  }
  if (entry.kind === 'LR') return { ...told, half: { ...entry, source: lastWrite(order, entry.location) } };
  if (entry.kind === 'LW') return { ...told, half: null, ...commits(told.half, entry) };
  const read = entry.kind === 'R' ? { source: sourceIn(order, entry, step, own), passed: own } : {};
  return { ...told, ...commits({ ...entry, ...read, wait: { earliest: index, latest: index } }) };
}

const sourceIn = (order, load, step, own) => (step.forwarded ? own.findLast(store => store.location === load.location) : lastWrite(order, load.location));

/** The steps of a machine, and the order so far, each entry with what a picture shows (`source`, `passed`, of a store `wait`, which is exact here, and
 * `track`). A locked instruction's load part stands directly before its store part. Each of `moments` is what stood after so many steps: the
 * order's length (`rows`), the waiting stores (`waiting`), and the load part that waits for its store part (`half`), or null. */
class History {
  /** The history of a machine at its start. */
  constructor(options, { programs, proposition, start }) {
    const moments = [{ rows: 0, waiting: programs.map(() => []), half: null }];
    Object.freeze(Object.assign(this, { options, programs, proposition, start, cores: programs.length, steps: [], order: [], tracks: 0, moments }));
  }

  get machine() {
    return this.options;
  }

  /** The machine after so many steps, or after the last. */
  machineAfter(count) {
    return count === 0 ? this.start : this.steps[Math.min(count, this.steps.length) - 1]?.after ?? this.start;
  }

  momentAfter(count) {
    return this.moments[Math.min(count, this.steps.length)];
  }

  /** Whether nothing is left to do after so many steps. */
  hasEnded(count) {
    const { cores, bus } = this.machineAfter(count);
    return bus === null && cores.every((core, number) => core.place === this.programs[number].length && core.buffer.length === 0);
  }

  /** The history that differs from this one in these. */
  but(changes) {
    return Object.freeze(Object.assign(Object.create(History.prototype), this, changes));
  }

  /** The history with one more step. */
  with(step) {
    const { waiting, half } = this.moments.at(-1), core = Number.parseInt(step.choice, 10);
    const told = step.entries.map(entryOf).reduce((told, entry) => taken(told, entry, step, core), { order: this.order, tracks: this.tracks, waiting, half });
    const moment = { rows: told.order.length, waiting: told.waiting, half: told.half };
    return this.but({ steps: [...this.steps, step], moments: [...this.moments, moment], order: told.order, tracks: told.tracks });
  }

  /** The history of no more than so many steps. */
  upTo(count) {
    if (count >= this.steps.length) return this;
    return this.but({ steps: this.steps.slice(0, count), moments: this.moments.slice(0, count + 1), order: this.order.slice(0, this.moments[count].rows) });
  }
}

/** A machine's history under the choices of an input: the module's answer to `trace`, or a sentence that says why there is none. */
function historyOf(options, input) {
  const { status, text } = asked({ ...options, command: 'trace', json: true }, input);
  if (status === REFUSED && text.includes(' TooMany')) return { tooMany: true };
  if (status !== GOOD && status !== UNENDED) return {};
  const told = readTrace(text);
  return { history: told.steps.reduce((history, step) => history.with(step), new History(options, told)) };
}
