'use strict';

// The picture of a run that isn't over: its rows come and go with the steps. Under the last row stands what waits.
//
// It is made of sheets: each layer has one for each piece of so many rows. A step adds to the last piece, so the browser paints its sheets alone
// anew. What reaches over other pieces is on the sheet of its last row, and hangs over its upper edge: so a sheet above what is in sight can be hidden.

const STRIP = 46; // pixels under the last row
const NOT_YET = ['still in buffer', 'waits']; // so that nobody takes the strip for a part of memory; the shorter where that lacks room
const PIECE = 16; // rows
const SPARE = 2; // pieces above what is in sight that aren't hidden, for one who scrolls
const LAYERS = ['grounds', 'waits', 'arrows', 'entries'];

/** A store that waits: its bar from the moment at which it went in down into the strip. */
class WaitingBar {
  constructor(layout, store) {
    const { top, pitch } = layout, x = layout.trackOf(store), wide = Math.min(7, pitch * 0.7);
    const head = pitch === TRACK.most ? 20 : 2;
    const place = head > 2 ? [nameOverBar(layout, store, top(store.since))] : [];
    this.top = top(store.since) + head;
    this.bar = svg('rect', { class: 'certain', x: x - wide / 2, y: this.top, width: wide });
    this.element = svg('g', { class: 'wait open', 'data-since': store.since, 'data-name': nameOf(store) },
      svg('title', {}, `${coreOf(store)}'s store ${store.location}=${store.value} waits in the store buffer.`), this.bar, ...place);
  }

  /** Draws the bar down to a height of the picture. */
  reach(bottom) {
    setAll(this.bar, { height: bottom - this.top });
  }
}

/** Makes rows those of the first `count` entries of an order. */
function growRows(rows, order, count, add, take) {
  while (rows.length > 0 && (rows.length > count || rows.at(-1).entry !== order[rows.length - 1])) take(rows.pop());
  while (rows.length < count) rows.push(add(order[rows.length]));
}

/** How many entries a run of these programs makes. */
function mostRows(programs) {
  return programs.flat().reduce((sum, text) => sum + (isLocked(text) ? 2 : 1), 0);
}

/** What the strip says of a core: the stores that wait, the oldest first. */
function drawStores(layout, core, text) {
  const { left, lane, inner } = layout, room = lane - inner - 8, place = { x: left(core) + inner + 4, 'text-anchor': 'start' };
  const font = noteFont(layout), said = NOT_YET.find(words => words.length * font * GLYPH <= room) ?? NOT_YET[1];
  return svg('g', 'not-yet', fittingText({ class: 'faint', ...place, y: 18 }, font, said, room), fittingText({ ...place, y: 38 }, layout.label, text, room));
}

/** The load part of a locked instruction whose store part is to come, in the strip. */
function drawHalf(layout, half) {
  const { x, width } = layout.boxOf({ ...half, index: 0 });
  return svg('g', 'half', svg('rect', { class: 'frame half', x, y: 5, width, height: STRIP - 10, rx: 4 }),
    fittingText({ x: x + width / 2, y: 21 }, 13, labelOf(half, 12), width - 8));
}

/** What one entry adds to the layers. A locked instruction's frame comes with its store part, over the line between its rows. */
function drawRow(history, layout, entry) {
  const y = layout.top(entry.index);
  return {
    grounds: [
      svg('line', { class: 'row', x1: GUTTER, x2: layout.width, y1: y, y2: y }),
      textAt({ class: 'faint', x: GUTTER - 8, y: layout.top(entry.index + 0.5) + 4, 'text-anchor': 'end' }, 12, String(entry.index + 1)),
      ...(entry.kind === 'LW' ? [drawFrame(layout, history.order[entry.index - 1])] : [])],
    waits: entry.track === undefined ? [] : [drawWait(history, layout, entry)],
    arrows: isRead(entry) ? [drawSource(history, layout, entry)] : [],
    entries: [drawEntry(history, layout, entry)],
  };
}

/** A layer of the picture: each piece has a sheet in it, and each row a group there. */
class Layer {
  /** Where `isUnder`, what comes later goes under what is there: a store's way goes over the bars of later ones. */
  constructor(layout, isUnder) {
    Object.assign(this, { layout, isUnder, groups: [], sheets: [] });
    this.element = html('div', 'layer');
  }

  fill(row, parts) {
    if (parts.length === 0) return;
    if (!this.groups[row]) this.addSheet(row - row % PIECE);
    this.groups[row].append(...parts);
  }

  empty(row) {
    this.groups[row]?.replaceChildren();
  }

  /** Adds the sheet of the piece that begins with this row. */
  addSheet(first) {
    const groups = times(PIECE, () => svg('g', {})), inOrder = this.isUnder ? groups.toReversed() : groups;
    groups.forEach((group, at) => { this.groups[first + at] = group; });
    const sheet = this.sheets[first / PIECE] = drawSheet(this.layout, this.layout.top(first), PIECE * this.layout.row, ...inOrder);
    this.element[this.isUnder ? 'prepend' : 'append'](sheet);
  }

  /** Hides the sheets of all pieces before this one, and no others. */
  hideBefore(piece) {
    this.sheets.forEach((sheet, at) => sheet.toggleAttribute('hidden', at < piece));
  }
}

/** A sheet, which lies at its place in the picture and has the picture's measures. */
function drawSheet({ width }, top, height, ...parts) {
  const sheet = svg('svg', { class: 'sheet', 'aria-hidden': 'true', width, height, viewBox: `0 ${top} ${width} ${height}` }, ...parts);
  sheet.style.top = `${top - HEAD}px`;
  return sheet;
}

class GrowingPicture {
  constructor(history, width) {
    this.history = history;
    this.layout = { ...layoutOf(history, width) };
    this.rows = [];
    this.firstPiece = 0;
    this.arrowsNow = [];
    this.forwarded = new Map();
    this.layers = Object.fromEntries(LAYERS.map(name => [name, new Layer(this.layout, name === 'waits')]));
    this.makeStrip();
    this.makeSheets();
  }

  /** What goes on down with the rows: the bars of the stores that wait, and the strip, which moves as a whole. */
  makeStrip() {
    const { history, layout } = this;
    this.bars = new Map();
    this.waiting = svg('g', {});
    this.stores = coresOf(history).map(core => new Part(svg('g', {}), text => (text === '' ? [] : [drawStores(layout, core, text)])));
    this.half = svg('g', {});
    this.strip = svg('g', {}, ...this.stores.map(({ element }) => element), this.half);
  }

  /** Under the layers the lanes and the last step's mark, over them what goes on down: as high as the picture may become, so no step lays all anew. */
  makeSheets() {
    const { history, layout } = this, { width, lane, left } = layout;
    const height = layout.top(mostRows(history.programs)) + STRIP;
    this.band = svg('rect', { class: 'band', x: 0, width, 'fill-opacity': 0.5 });
    this.cursor = svg('line', { class: 'cursor', x1: 0, x2: width });
    const lanes = coresOf(history).map(core => svg('rect', { class: 'lane', x: left(core), y: 1, width: lane, height }));
    const names = svg('g', 'names', ...coresOf(history).map(core => drawName(layout, core, 23)));
    this.lowest = drawSheet(layout, HEAD, height - HEAD, this.band, names, ...lanes);
    this.lowest.classList.add('lowest');
    this.highest = drawSheet(layout, HEAD, height - HEAD, this.waiting, this.strip, this.cursor);
    this.extent = html('div', {}); // gives all of it its height: the browser then looks anew at this empty element alone
    const layers = Object.values(this.layers).map(({ element }) => element);
    this.element = html('div', { class: 'grown', role: 'img' }, this.extent, this.lowest, ...layers, this.highest);
    this.element.style.width = `${width}px`;
  }

  /** All that is drawn, the lowest first. */
  get parts() {
    return [...this.element.querySelectorAll('.sheet > :not(g:empty)')];
  }

  get label() {
    return this.element.getAttribute('aria-label');
  }

  /** For paper: what has come, or where that doesn't go on one page pieces of it, of whole rows. */
  onPaper() {
    this.hideAbove(0);
    const { label, bottom, layout: { width, top } } = this, rows = this.rows.length, above = boxOf(this.element).top - HEAD;
    const placed = this.parts.map(part => [part, boxOf(part)]);
    const piece = rows > PAPER.whole ? PAPER.piece : Math.max(1, rows);
    return times(Math.max(1, Math.ceil(rows / piece)), at => {
      const y = top(at * piece), end = (at + 1) * piece < rows ? top((at + 1) * piece) : bottom;
      const parts = placed.filter(([part, box]) => !part.matches('.names') && box.top - above < end && box.bottom - above > y).map(([part]) => part.cloneNode(true));
      const height = end - y + HEAD;
      return svg('svg', { class: 'picture', width, height, viewBox: `0 ${y - HEAD} ${width} ${height}`, role: 'img', 'aria-label': label },
        ...parts, ...drawHead(this.history, this.layout, y));
    });
  }

  /** Hides what lies far above a height of the picture, which is the highest in sight. */
  hideAbove(top) {
    const piece = Math.max(0, Math.floor(top / (PIECE * this.layout.row)) - SPARE);
    if (piece === this.firstPiece) return;
    this.firstPiece = piece;
    for (const layer of Object.values(this.layers)) layer.hideBefore(piece);
  }

  /** Whether a history has come to more bars side by side than this picture has room for. */
  isTooNarrowFor({ tracks }) {
    return tracks > this.layout.tracks;
  }

  /** Shows the order of a history after so many steps. */
  show(history, count) {
    this.history = history;
    const { rows, waiting, half } = this.history.momentAfter(count), before = this.history.momentAfter(count - 1 < 0 ? 0 : count - 1).rows;
    growRows(this.rows, this.history.order, rows, entry => this.add(entry), row => this.take(row));
    this.size(rows, before, history.hasEnded(count));
    this.showBars(waiting.flat());
    this.stores.forEach((part, core) => part.show(waiting[core].map(store => `${store.location}=${store.value}`).join(' ')));
    if (half !== this.halfShown) fill(this.half, ...(half ? [drawHalf(this.layout, half)] : []));
    this.halfShown = half;
  }

  showBars(stores) {
    for (const [store, { element }] of this.bars) {
      if (stores.includes(store)) continue;
      element.remove();
      this.bars.delete(store);
    }
    for (const store of stores) {
      if (!this.bars.has(store)) this.addBar(store);
      this.bars.get(store).reach(this.bottom - 4);
    }
  }

  addBar(store) {
    const bar = new WaitingBar(this.layout, store);
    this.bars.set(store, bar);
    this.waiting.append(bar.element);
  }

  /** Shows as much of the picture as there are rows, and marks those of the last step. */
  size(rows, before, hasEnded) {
    const { layout } = this;
    this.bottom = layout.top(rows) + (hasEnded ? 4 : STRIP);
    this.extent.style.height = `${this.bottom - HEAD}px`;
    setAll(this.element, { 'aria-label': `Memory order of the run so far: ${rows} entries. The store buffers and the last step stand above in words.` });
    setAll(this.band, { y: layout.top(before), height: (rows - before) * layout.row, visibility: rows > before ? 'visible' : 'hidden' });
    setAll(this.cursor, { y1: layout.top(rows), y2: layout.top(rows) });
    setAll(this.strip, { transform: `translate(0 ${layout.top(rows)})` });
    for (const arrow of this.arrowsNow) arrow.classList.remove('now');
    this.arrowsNow = this.rows.slice(before).flatMap(({ arrow }) => arrow ?? []);
    for (const arrow of this.arrowsNow) arrow.classList.add('now');
  }

  /** Adds the row of an entry to each layer. */
  add(entry) {
    const parts = drawRow(this.history, this.layout, entry), [arrow] = parts.arrows;
    const store = entry.source?.index > entry.index ? entry.source : null; // one that was forwarded to this load
    for (const name of LAYERS) this.layers[name].fill(entry.index, parts[name]);
    if (store) this.arrowsOf(store).push(arrow);
    this.nameSource(entry, entry.index);
    return { entry, store, arrow };
  }

  take({ entry, store }) {
    for (const name of LAYERS) this.layers[name].empty(this.rows.length);
    if (store) this.arrowsOf(store).pop();
    this.nameSource(entry, 'waits');
  }

  /** The arrows to the loads that a store was forwarded to. */
  arrowsOf(store) {
    const name = nameOf(store);
    if (!this.forwarded.has(name)) this.forwarded.set(name, []);
    return this.forwarded.get(name);
  }

  /** Notes at these arrows where in the order the store stands. */
  nameSource(store, index) {
    for (const arrow of this.forwarded.get(nameOf(store)) ?? []) arrow.setAttribute('data-from', index);
  }
}
