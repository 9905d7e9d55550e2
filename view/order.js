'use strict';

// What the order and the places tell.

const isRead = entry => entry.kind === 'R' || entry.kind === 'LR';
const isWrite = entry => entry.kind === 'W' || entry.kind === 'LW';

/** Whether one entry is before another in program order; the parts of one locked instruction aren't asked about. */
const isBefore = (first, second) => first.core === second.core && first.place < second.place;

/** The write that a read returned, undefined for the initial word: of those to its location before it in memory or program order, the last in memory order. */
function sourceOf(order, read) {
  const writes = order.filter(entry => isWrite(entry) && entry.location === read.location);
  return writes.findLast(write => write.index < read.index || isBefore(write, read));
}

/** The stores that a load passed: earlier in its program, later in memory order. */
function passedBy(order, load) {
  return load.kind === 'R' ? order.slice(load.index + 1).filter(entry => entry.kind === 'W' && isBefore(entry, load)) : [];
}

/** When a plain store came into its core's buffer (moment m is after m entries): from `earliest` to `latest`, each of which is possible. It came in
 * between its core's entries before and after it, and once the store `depth` plain stores before it had left. At depth 0 it is at its step. */
function waitOf(run, store) {
  const { depth } = run.machine;
  if (depth === 0) return { earliest: store.index, latest: store.index };
  const own = run.order.filter(entry => entry.core === store.core);
  const steps = own.filter(entry => entry.kind !== 'W');
  const stores = own.filter(entry => entry.kind === 'W');
  const madeRoom = stores[stores.indexOf(store) - depth];
  const after = [...steps.filter(entry => isBefore(entry, store)), ...(madeRoom ? [madeRoom] : [])];
  const before = [...steps.filter(entry => isBefore(store, entry)), store];
  return {
    earliest: Math.max(0, ...after.map(entry => entry.index + 1)),
    latest: Math.min(...before.map(entry => entry.index)),
  };
}

/** Of each core's stores that may wait the track: bars whose stretches meet stand side by side. Answers how many tracks there are. */
function layTracks(run) {
  let count = 0;
  for (let core = 0; core < run.cores; core++) {
    const ends = [];
    for (const store of run.order.filter(entry => entry.core === core && entry.kind === 'W')) {
      const { earliest } = store.wait;
      if (earliest === store.index) continue;
      const free = ends.findIndex(end => end < earliest);
      store.track = free < 0 ? ends.length : free;
      ends[store.track] = store.index;
    }
    count = Math.max(count, ends.length);
  }
  return count;
}

/** Puts beside each entry what the order tells of it: of a read its write (`source`) and the stores it passed (`passed`), of a plain store its time in
 * the buffer (`wait`) and its bar's track. */
function tellEntries(run) {
  for (const entry of run.order) {
    entry.source = isRead(entry) ? sourceOf(run.order, entry) : undefined;
    entry.passed = passedBy(run.order, entry);
    if (entry.kind === 'W') entry.wait = waitOf(run, entry);
  }
  return { ...run, tracks: layTracks(run) };
}

/** The initial words that the line tells: of a location without writes, and of one whose initial word was read. */
function initialWords({ order, memory }) {
  const written = new Set(order.filter(isWrite).map(entry => entry.location));
  const words = new Map([...memory].filter(([location]) => !written.has(location)));
  for (const read of order.filter(isRead)) if (!sourceOf(order, read)) words.set(read.location, read.value);
  return words;
}

/** Memory after so many entries, by location; undefined where the line doesn't tell the word. */
function memoryAfter(run, count) {
  const words = new Map([...run.memory.keys()].map(location => [location, run.initial.get(location)]));
  for (const entry of run.order.slice(0, count)) if (isWrite(entry)) words.set(entry.location, entry.value);
  return words;
}
