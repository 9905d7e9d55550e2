'use strict';

// The picture. All measures are pixels.

const GUTTER = 34, HEAD = 34, ROW = 56, BETWEEN = 10, FRAME = 5, MARGIN = 28, INSET = 6;
const FEW = { rows: 6, row: 66, high: 372, width: 400 }; // so few rows are higher
const LANE = { most: 300, large: 220, box: 210, least: 66 }; // the last two are of a box in it
const TRACK = { most: 11, room: 44 };
const PAPER = { whole: 24, piece: 8 }; // rows: of a picture that goes on one page, of a piece of a longer one
const LEAST_FONT = 12, NOTE_FONT = 12, WORDY = 13, RING = 12; // more words before letters above WORDY
const GLYPH = 0.61; // the width of a letter of the fixed fonts, for a size of 1

/** Where everything stands in a picture of at most this width, or as narrow as a lane may be. */
function layoutOf({ cores, tracks, order, programs }, width) {
  const pitch = Math.min(TRACK.most, TRACK.room / Math.max(1, tracks));
  const isWide = isLecture() && cores < 3, inner = INSET + tracks * pitch + (isWide ? 28 : 18); // a name over a bar has room
  const lane = Math.min(LANE.most, Math.max(inner + LANE.least + MARGIN, Math.floor((width - GUTTER - 2) / cores)));
  const left = core => GUTTER + core * lane;
  const rows = programs ? mostRows(programs) : order.length, row = rows <= FEW.rows && width >= FEW.width && !isLecture() ? Math.min(FEW.row, FEW.high / rows) : ROW;
  const top = moment => HEAD + moment * row;
  const box = Math.min(LANE.box, lane - inner - MARGIN), large = lane >= LANE.large;
  return {
    tracks, pitch, lane, inner, left, top, row, label: isWide ? 22 : large ? 17 : 15,
    width: GUTTER + cores * lane + 2, height: top(order.length) + 2,
    middle: entry => top(entry.index + 0.5),
    trackOf: store => left(store.core) + INSET + (store.track + 0.5) * pitch,
    boxOf: entry => ({ x: left(entry.core) + inner, y: top(entry.index) + BETWEEN / 2, width: box, height: row - BETWEEN }),
  };
}

/** Where arrows touch an entry's box, or the frame around a locked instruction. */
function sidesOf(layout, entry) {
  const box = layout.boxOf(entry), around = entry.kind === 'LR' || entry.kind === 'LW' ? FRAME : 0;
  return { left: box.x - around, right: box.x + box.width + around };
}

const textAt = (attributes, size, text) => svg('text', { 'text-anchor': 'middle', 'font-size': size, ...attributes }, text);

/** A text that is made smaller, and at last cut, so that it fits. */
function fittingText(attributes, size, text, room) {
  const fitting = Math.max(Math.min(size, room / (text.length * GLYPH)), LEAST_FONT);
  const letters = Math.floor(room / (fitting * GLYPH) + 0.01);
  return textAt(attributes, fitting, text.length <= letters ? text : text.slice(0, Math.max(1, letters - 1)) + '…');
}

/** `W x=1`, the name cut where the whole is too long. */
function labelOf(entry, letters) {
  const around = entry.kind.length + String(entry.value).length + 2;
  const room = Math.max(3, letters - around);
  const name = entry.location.length <= room ? entry.location : entry.location.slice(0, room - 1) + '…';
  return `${entry.kind} ${name}=${entry.value}`;
}

/** The letters of a note: larger in a lecture, and in wide lanes. */
const noteFont = ({ label }) => Math.min(16, 0.83 * label + (isLecture() ? 1.5 : 0));

/** What stands above an entry's label: its name, and what it passed as far as there is room. */
function noteOf(entry, letters) {
  const { passed } = entry;
  if (passed.length === 0) return nameOf(entry);
  const isOwn = passed.includes(entry.source);
  const [{ location }] = passed, passes = passed.length > 1 ? [` passed ${passed.length} stores`] : [` passed store ${location}`, ` passed its ${location}`];
  const notes = isOwn ? [' own store', ' own'] : [...passes, ' passed'];
  return nameOf(entry) + (notes.find(note => nameOf(entry).length + note.length <= letters) ?? '');
}

const coresOf = run => times(run.cores, core => core);

const drawName = ({ lane, left }, core, y) => textAt({ class: 'head', x: left(core) + lane / 2, y }, 17, `P${core}`);

/** The lanes' names alone, for above the picture. */
function drawNames(run, layout) {
  const height = 22;
  return svg('svg', { width: layout.width, height, viewBox: `0 0 ${layout.width} ${height}` }, ...coresOf(run).map(core => drawName(layout, core, 17)));
}

function drawGrid(run, layout, entries) {
  const { width, height, lane, left, top } = layout;
  const lanes = coresOf(run).map(core => svg('g', {},
    svg('rect', { class: 'lane', x: left(core), y: 1, width: lane, height: height - 2 }), drawName(layout, core, 23)));
  const rows = entries.map(({ index }) => svg('g', {},
    svg('line', { class: 'row', x1: GUTTER, x2: width, y1: top(index), y2: top(index) }),
    textAt({ class: 'faint', x: GUTTER - 8, y: top(index + 0.5) + 4, 'text-anchor': 'end' }, 12, String(index + 1))));
  return svg('g', {}, ...lanes, ...rows);
}

/** Over the bar of a store that waits: its name, or its place beside other bars. */
function nameOverBar({ tracks, trackOf, left }, store, top) {
  const isAlone = tracks < 2;
  return isAlone ? textAt({ x: left(store.core) + 3, y: top + 16, 'text-anchor': 'start' }, NOTE_FONT, nameOf(store)) :
    textAt({ class: 'faint', x: trackOf(store), y: top + 16 }, NOTE_FONT, String(store.place));
}

/** The bar of a store: dashed where it may have waited, full where it did; and its way to its entry. */
function drawWait(run, layout, store) {
  const { earliest, latest } = store.wait;
  const { top, pitch } = layout;
  const x = layout.trackOf(store), wide = Math.min(7, pitch * 0.7), head = pitch === TRACK.most ? 20 : 2;
  const bar = (kind, from, to) => svg('rect', { class: kind, x: x - wide / 2, y: from, width: wide, height: to - from });
  const way = `M${x} ${earliest < store.index ? top(store.index) : layout.middle(store)}V${layout.middle(store)}H${layout.boxOf(store).x}`;
  const parts = [svg('title', {}, sentenceOf(run, store)), svg('path', { class: 'leaving', d: way })];
  if (earliest < latest) parts.push(bar('possible', top(earliest) + head, top(latest)));
  if (latest < store.index) parts.push(bar('certain', top(latest) + (earliest < latest ? 0 : head), top(store.index)));
  else if (earliest === latest) parts.push(bar('certain', top(latest) + head, layout.middle(store))); // it came and left between the same rows
  return svg('g', { class: 'wait', 'data-earliest': earliest, 'data-latest': latest, 'data-seen': store.index }, ...parts);
}

/** From the write's box, or its bar, to the read's box; to the next core beside the lanes' border, through the room right of the left core's boxes. */
function arrowPath(layout, source, read) {
  const from = sidesOf(layout, source), to = sidesOf(layout, read);
  const start = layout.middle(source), end = layout.middle(read);
  if (source.index > read.index) return `M${layout.trackOf(source) + 3} ${end}H${to.left - 2}`;
  const isAhead = source.core < read.core;
  const x1 = isAhead || source.core === read.core ? from.right : from.left;
  const x2 = isAhead ? to.left - 2 : to.right + 2;
  if (Math.abs(source.core - read.core) === 1) {
    const border = layout.left(Math.max(source.core, read.core)), edge = Math.min(x1, x2), amid = edge + Math.max(22, (border - edge) / 2), turn = (8 * amid - x1 - x2) / 6; // half way it is there, beside the marks of initial values
    return `M${x1} ${start}C${turn} ${start} ${turn} ${end} ${x2} ${end}`;
  }
  const bend = source.core === read.core ? 26 : Math.max(40, Math.abs(x2 - x1) / 2);
  const toRight = x1 === from.right ? bend : -bend, toLeft = isAhead ? -bend : bend;
  return `M${x1} ${start}C${x1 + toRight} ${start} ${x2 + toLeft} ${end} ${x2} ${end}`;
}

/** Where a read's value came from: an arrow, or the mark of the initial value. */
function drawSource(run, layout, read) {
  const { source } = read, title = svg('title', {}, sentenceOf(run, read));
  const arrow = (d, data) => svg('path', { class: 'arrow', d, 'marker-end': 'url(#point)', ...data }, title);
  if (source) return arrow(arrowPath(layout, source, read), { 'data-from': source.index, 'data-to': read.index });
  const { right } = sidesOf(layout, read), y = layout.middle(read);
  return svg('g', { 'data-initial': read.index }, arrow(`M${right + 13} ${y}H${right + 2}`, {}),
    svg('circle', { class: 'initial', cx: right + 13, cy: y, r: 4 }));
}

/** A line of an instruction in a picture of why; a fence is a bar there too. */
function drawCode(text, line, place, room) {
  const isFence = text === 'MFENCE', code = fittingText({ ...place, ...(isFence ? {} : { class: 'faint over' }) }, EVENTS.type, line, room);
  return isFence ? svg('g', 'fence', svg('rect', { x: place.x - room / 2, y: place.y - 17, width: room, height: 23 }), code) : code;
}

function drawFence(run, layout, entry) {
  const y = layout.middle(entry), { x: left, width } = layout.boxOf(entry), half = layout.label > 17 ? 19 : 11; // arrows have room beside it
  return svg('g', { class: 'fence', 'data-entry': entry.index },
    svg('title', {}, sentenceOf(run, entry)),
    svg('rect', { x: left, y: y - half, width, height: 2 * half }),
    textAt({ x: left + width / 2, y: y + half / 3 + 1 }, layout.label - 1, nameOf(entry) + (width < 12 * GLYPH * layout.label ? ' F' : ' F fence')));
}

function drawEntry(run, layout, entry) {
  if (entry.kind === 'F') return drawFence(run, layout, entry);
  const box = layout.boxOf(entry);
  const { passed } = entry;
  const kind = isWrite(entry) ? 'store' : passed.length > 0 ? 'load passed' : 'load';
  const font = noteFont(layout), room = box.width - 10, letters = Math.floor(room / (LEAST_FONT * GLYPH)), noted = box.width - 2 * RING;
  const x = box.x + box.width / 2;
  return svg('g', { class: kind, 'data-entry': entry.index, 'data-passed': passed.map(store => store.index).join(' ') },
    svg('title', {}, sentenceOf(run, entry)),
    svg('rect', { ...box, rx: isRead(entry) ? 16 : 2 }),
    fittingText({ class: 'note', x, y: box.y + 0.38 * box.height }, font, noteOf(entry, Math.floor(noted / (Math.min(WORDY, font) * GLYPH))), noted),
    fittingText({ x, y: box.y + 0.84 * box.height }, layout.label, labelOf(entry, letters), room));
}

function drawFrame(layout, load) {
  const { left, right } = sidesOf(layout, load);
  const place = { x: left, y: layout.top(load.index) + 2, width: right - left, height: 2 * layout.row - 4, rx: 4 };
  return svg('rect', { class: 'frame', 'data-locked': load.index, ...place });
}

/** The lanes' names over a piece of a picture that begins at this height, on a ground that hides what reaches up there. */
const drawHead = (run, layout, y) => [
  svg('rect', { class: 'head-ground', x: 0, y: y - HEAD, width: layout.width, height: HEAD }),
  svg('g', 'names', ...coresOf(run).map(core => drawName(layout, core, y - HEAD + 23))),
];

/** The whole picture, or of it the rows from `first` to before `end` with all that goes through them. */
function drawPicture(run, layout, first = 0, end = run.order.length) {
  const { width } = layout;
  const above = layout.top(first) - HEAD, height = layout.top(end) + 2 - above;
  const isIn = (...indexes) => Math.min(...indexes) < end && Math.max(...indexes) >= first;
  const stores = run.order.filter(entry => entry.track !== undefined && isIn(entry.wait.earliest, entry.index));
  const reads = run.order.filter(entry => isRead(entry) && isIn(entry.index, entry.source?.index ?? entry.index));
  const entries = run.order.filter(entry => isIn(entry.index));
  const label = `Memory order of ${run.test}: ${run.order.length} entries of ${run.cores} cores. "The order in words" says the same.`;
  return svg('svg', { class: 'picture', width, height, viewBox: `0 ${above} ${width} ${height}`, role: 'img', 'aria-label': label },
    svg('rect', { class: 'band', x: 0, width, height: layout.row }),
    drawGrid(run, layout, entries),
    ...run.order.filter(entry => entry.kind === 'LR' && isIn(entry.index, entry.index + 1)).map(load => drawFrame(layout, load)),
    ...stores.reverse().map(store => drawWait(run, layout, store)), // a store's way goes over the bars of later ones
    ...reads.map(read => drawSource(run, layout, read)),
    ...entries.map(entry => drawEntry(run, layout, entry)),
    ...(first > 0 ? drawHead(run, layout, layout.top(first)) : []),
    svg('rect', { class: 'unseen', x: 0, width }),
    svg('line', { class: 'cursor', x1: 0, x2: width }));
}

/** For paper: a picture in pieces of whole rows. */
function drawPieces(run, layout) {
  const starts = run.order.map(entry => entry.index).filter(index => index % PAPER.piece === 0);
  return starts.map(first => drawPicture(run, layout, first, Math.min(first + PAPER.piece, run.order.length)));
}
