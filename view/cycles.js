'use strict';

// Events and edges drawn over the programs: a cycle, edge by edge, or an execution. All measures are pixels.

const EVENTS = { least: 120, side: 44, code: 20, line: 15, type: 13.5, box: 26, gap: 6, head: 30, thin: 6, letter: 8, place: 4, smaller: 0.88 };
const NARROW = { least: 116, tight: 94, side: 26, letters: 14, few: 12, smaller: 0.85, fitted: 0.76, read: 0.87, from: 0.9, step: 4, most: 40 }; // for lanes that don't fit the window

/** The events that edges name, each once. */
const eventsOf = edges => [...new Map(edges.flatMap(({ from, to }) => [from, to]).map(text => [nameOfEvent(text), eventOf(text)])).values()];

/** The words that tell an event from others: its core, place and kind. */
const nameOfEvent = text => text.split(' ').slice(0, 2).join(' ');

/** The heights at which rows begin: an instruction, its events, and channels of ways past cores. */
function topsOfRows(rows, highOf, channels, codes) {
  const tops = [EVENTS.head];
  for (let row = 0; row < rows; row++) {
    const high = highOf(row), under = channels[row] * ROUTES.channel;
    tops.push(tops[row] + codes[row] + (high > 0 ? high + 12 + under : codes[row] > 0 ? EVENTS.thin : 0));
  }
  return tops;
}

/** Programs; of many cores rows that no arrow touches, and whose fence none goes by, are one: `… 3 more`, and then nothing. */
function foldedPrograms(programs, edges) {
  if (programs.length <= MANY_CORES) return programs;
  const fenced = edges.filter(({ relation }) => /mfence|implied/.test(relation)).map(({ from }) => eventOf(from));
  const kept = new Set([...eventsOf(edges).map(({ place }) => place), ...fenced.map(({ core, place }) => programs[core].findIndex((text, at) => at > place && /MFENCE|LOCK|XCHG/.test(text)))]);
  return programs.map(program => program.map((text, row) => {
    let end = row;
    while (end < program.length && !kept.has(end)) end++;
    const isFirst = row === 0 || kept.has(row - 1);
    return end === row || (isFirst && end === row + 1) ? text : isFirst ? `… ${end - row} more` : '';
  }));
}

const CODE = EVENTS.type * GLYPH; // the width of a letter of an instruction
const wholeCode = (text, place) => (text[0] === '…' ? text : `${place}  ${text}`);

/** How wide the longest instruction is. */
const widestCode = programs => Math.ceil(CODE * Math.max(...programs.flatMap(program => program.map((text, place) => wholeCode(text, place).length))));

/** An instruction's lines: two, if it has more letters than a lane has room for. */
function linesOfCode(text, place, letters) {
  const whole = wholeCode(text, place);
  return text === '' ? [] : whole.length > letters ? whole.split(/ (?=\S+$)/) : [whole];
}

/** The heights of instructions; 0 where none is drawn. */
const codesOf = (programs, rows, letters) => times(rows, row => {
  const lines = Math.max(...programs.map(program => linesOfCode(program[row] ?? '', row, letters).length));
  return lines && EVENTS.code + EVENTS.line * (lines - 1);
});

/** The room beside the boxes of a lane, and beside the outer lanes (`margin`), for the longest letters; of narrow lanes, between two of them. */
function sidesFor(edges, isNarrow, added, cores) {
  const longest = ROUTES.letter * Math.max(isLecture() && cores < 3 ? HALL.letters : 0, ...edges.map((_, at) => lettersAt(edges, at, isNarrow).length)) + ROUTES.around + (isNarrow ? 6 : 4);
  if (!isNarrow) return { side: Math.max(EVENTS.side, Math.ceil(1.1 * longest)), margin: 0 };
  const side = Math.max(NARROW.side, Math.ceil(longest / 2)) + added;
  return { side, margin: Math.max(0, longest - side) };
}

/** Where the words of the programs stand, and the names of the cores. */
function wordsOfPrograms(programs, { margin, lane, side, tops, codes }) {
  const width = lane - 2 * side;
  return programs.flatMap((program, core) => [{ x: margin + core * lane + side, y: 6, width, height: 20 },
    ...program.map((_, place) => ({ x: margin + core * lane + side, y: tops[place] + 2, width, height: codes[place] - 4 }))]);
}

const HALL = { high: 0.5, narrow: 0.42, most: 120, letters: 14 }; // of a lecture's window, and pixels between two rows; letters at arrows of two cores: one scale for all

/** How much further apart rows stand where a lecture has room. */
const roomBetween = (rows, width, height, isNarrow) => (isLecture() && rows > 1 ? Math.min(HALL.most, Math.max(0, width * HALL[isNarrow ? 'narrow' : 'high'] * innerHeight / roomOfPicture() - height) / (rows - 1)) : 0);

/** Where each event's box stands, under its instruction. Narrow lanes have so much room (`added`) more beside their boxes. */
function layOutEvents(programs, edges, isNarrow, added = 0) {
  const events = eventsOf(edges), rows = Math.max(...programs.map(program => program.length)), far = farEdges(edges), channels = channelsOf(far, rows);
  const widest = Math.max(...programs.flat().map(text => text.length + EVENTS.place), ...events.map(({ text }) => text.length));
  const { side, margin } = sidesFor(edges, isNarrow, added, programs.length);
  const doesFit = (least, smaller) => smaller * (programs.length * (least + 2 * side) + 2 * margin + 2) <= roomOfPicture(), isTight = !doesFit(NARROW.least, NARROW.smaller) && doesFit(NARROW.tight, smallest());
  const least = isTight ? NARROW.tight : NARROW.least, box = isNarrow ? Math.max(least, Math.min(widestCode(programs), Math.floor((roomOfPicture() / NARROW.read - 2 * margin - 2) / programs.length) - 2 * side)) : Math.max(EVENTS.least, widest * EVENTS.letter + 12);
  const lane = box + 2 * side, letters = isNarrow ? Math.max(isTight ? NARROW.few : NARROW.letters, Math.floor(box / CODE)) : Infinity, codes = codesOf(programs, rows, letters);
  const isSecond = event => event.kind === 'LW' && events.some(other => other.kind === 'LR' && other.core === event.core && other.place === event.place);
  const heightOf = heightsOfBoxes(edges, programs.length), own = ({ core, place }) => events.filter(each => each.core === core && each.place === place);
  const high = found => found.reduce((sum, event) => sum + heightOf(event) + EVENTS.gap, 0);
  const width = programs.length * lane + 2 * margin + 2, packed = topsOfRows(rows, row => Math.max(0, ...programs.map((_, core) => high(own({ core, place: row })))), channels, codes), apart = roomBetween(rows, width, packed.at(-1), isNarrow), tops = packed.map((top, row) => top + apart * Math.min(row, rows - 1));
  const placeOf = event => ({
    x: margin + event.core * lane + side, width: lane - 2 * side, height: heightOf(event),
    y: tops[event.place] + codes[event.place] + (isSecond(event) ? high(own(event).filter(({ kind }) => kind === 'LR')) : 0),
  });
  const placed = { cores: programs.length, isNarrow, letters, margin, lane, side, tops, codes, far, channels, width, height: tops.at(-1) + 8 };
  return { ...placed, words: wordsOfPrograms(programs, placed), boxes: new Map(events.map(event => [nameOfEvent(event.text), { event, ...placeOf(event) }])) };
}

/** The way of an edge, which goes under the events, with a dot at its start. */
const drawWay = ({ d, points: [[start, y], [next]] }, edge, at) => svg('g', { class: `edge edge-${edge.relation}`, 'data-edge': at },
  svg('title', {}, edgeSentence(edge)), svg('path', { d, 'marker-end': `url(#point-${edge.relation})` }), svg('circle', { cx: start + 3 * Math.sign(next - start), cy: y, r: 3.5 }));

/** The letters of an edge, which stand over all else. */
const drawLetters = (chip, edges, at, isNarrow) => svg('g', { class: `edge edge-${edges[at].relation}`, 'data-letters': at }, svg('title', {}, edgeSentence(edges[at])),
  svg('rect', { class: 'chip', ...chip, rx: 4 }), textAt({ x: chip.x + chip.width / 2, y: chip.y + 13.5 }, EVENTS.type, lettersAt(edges, at, isNarrow)));

/** The point of an arrow in its relation's colour. */
const drawPoint = relation => svg('marker', { id: `point-${relation}`, viewBox: '0 0 8 8', refX: 7, refY: 4, markerWidth: 9, markerHeight: 9, markerUnits: 'userSpaceOnUse', orient: 'auto' },
  svg('path', { class: `point-${relation}`, d: 'M0 0L8 4L0 8Z' }));

/** The lane of a core with its program; `at` is its place in the picture. */
function drawLane(layout, program, at, core) {
  const { cores, margin, lane, tops, height } = layout, left = margin + at * lane; // the outer lanes have the margins
  return svg('g', {}, svg('rect', { class: 'lane', x: left + 1 - (at < 1 ? margin : 0), y: 1, width: lane + margin * ((at < 1) + (at === cores - 1)), height: height - 2 }), textAt({ class: 'head', x: left + lane / 2, y: 21 }, 17, `P${core}`),
    ...program.flatMap((text, place) => linesOfCode(text, place, layout.letters).map((line, down) => drawCode(text, line, { x: left + lane / 2, y: tops[place] + 14 + down * EVENTS.line }, lane - 2 * layout.side))));
}

function drawEvent({ event, ...box }) {
  const isStore = event.kind === 'W' || event.kind === 'LW';
  return svg('g', { class: isStore ? 'store' : 'load', 'data-event': nameOfEvent(event.text) }, svg('rect', { ...box, rx: isStore ? 2 : EVENTS.box / 2 }),
    fittingText({ x: box.x + box.width / 2, y: box.y + box.height / 2 + 5 }, 14, event.text.slice(event.text.indexOf(' ') + 1), box.width - 8));
}

/** How small narrow lanes may be, so that all are in sight. */
const smallest = () => (innerWidth > 560 ? NARROW.fitted : NARROW.smaller);

/** The width that a picture may have. */
const roomOfPicture = () => (innerWidth > 560 ? Math.min(innerWidth - 16, isLecture() ? 1880 : 1800) - 64 : innerWidth - 32);
const MANY_CORES = 4; // with more than these, cores without an edge are left out
const FITTED = { letters: 9, narrow: 11, above: 120 }; // of a picture that fits the screen
const isTooLarge = ({ dataset: { least, high } }) => Number(least) > roomOfPicture() || Number(high) > innerHeight - FITTED.above;
const fitsWell = figure => isTooLarge(figure) && EVENTS.type * Number(figure.dataset.fit) >= FITTED[figure.matches('.narrow') ? 'narrow' : 'letters'];
const MANY_EDGES = 20; // with more than these, an execution is drawn with the edges at what its condition names, or those that are picked

/** The cores that are drawn: of many those that have an event. */
function drawnCores(programs, edges) {
  const cores = programs.map((_, core) => core), used = new Set(eventsOf(edges).map(({ core }) => core));
  return programs.length <= MANY_CORES ? cores : cores.filter(core => used.has(core));
}

/** An event's text with its lane in the place of its core. */
const inLane = (cores, text) => text.replace(/^P(\d)/, (_, core) => `P${cores.indexOf(Number(core))}`);

/** A layout with the ways of edges and their chips, and how much these cover. */
function drawingOf(layout, edges) {
  const ways = edgeWays(layout, edges);
  return { layout, ways, ...chipsOf(layout, edges, ways) };
}

/** The narrowest lanes in which chips cover least: too wide ones if in them all is clear, and in none that the window has room for nearly all. */
function narrowDrawing(programs, edges) {
  let best = null, isClear = false;
  for (let added = 0; added <= NARROW.most; added += edges.length > MANY_EDGES ? 2 * NARROW.step : NARROW.step) {
    const drawing = drawingOf(layOutEvents(programs, edges, programs.length > MANY_CORES || NAMED, added), edges), { cost } = drawing, isWide = smallest() * drawing.layout.width > roomOfPicture();
    if (isWide && isClear) return best;
    if (best === null || (isWide ? cost === 0 : cost <= best.cost)) best = drawing;
    if (cost === 0) return best;
    isClear = !isWide && 2 * best.cost <= edges.length;
  }
  return best;
}

/** Whether two ways lie so near for so long that they look like one. */
function lookLikeOne(way, other) {
  let near = 0;
  return way.points.some(([x, y]) => (near = other.points.some(([toX, toY]) => Math.hypot(toX - x, toY - y) < 6) ? near + 1 : 0) > 7);
}

/** Narrow lanes in type that can be read, if they fit, chips cover nothing and no two ways look like one; else null. */
function readableDrawing(programs, edges) {
  for (const [isNarrow, isRoomy] of [[true, true], [NAMED], [true]]) {
    for (let added = 0; added <= NARROW.most; added += NARROW.step) {
      const layout = layOutEvents(programs, edges, isNarrow, added);
      if (NARROW.read * layout.width > roomOfPicture() || (isRoomy && (layout.margin > 0 || Math.max(...layout.codes) > EVENTS.code))) continue;
      const drawing = drawingOf(layout, edges), { ways, cost } = drawing;
      if (cost === 0 && !ways.some((way, at) => ways.some((other, to) => to > at && lookLikeOne(way, other)))) return drawing;
    }
  }
  return null;
}

const GROWN = { most: 1.8, width: 0.6, height: 0.6, taught: 0.3 };
const FEW_BESIDE = 8; // arrows whose list has the legend beside it

/** By how much a picture is larger where the window has room for it. */
function grownBy({ width, height }) {
  const room = Math.min(GROWN.most, GROWN.width * innerWidth / width, (!isLesson() ? GROWN.height : GROWN.taught) * innerHeight / height);
  return Math.max(1, room);
}

/** Edges over programs, as a figure of this name, made smaller where there is less room, and at last scrolled. */
function drawEdges(programs, edges, name) {
  const cores = drawnCores(programs, edges), laid = edges.map(edge => ({ ...edge, from: inLane(cores, edge.from), to: inLane(cores, edge.to) }));
  const shown = foldedPrograms(cores.map(core => programs[core]), laid);
  const wide = layOutEvents(shown, laid), isNarrow = wide.width * (cores.length > MANY_CORES ? NARROW.from : EVENTS.smaller) > innerWidth;
  const { layout, ways, chips } = isNarrow ? readableDrawing(shown, laid) ?? narrowDrawing(shown, laid) : drawingOf(wide, laid), used = usedRelations(edges);
  const picture = svg('svg', { class: 'picture', viewBox: `0 0 ${layout.width} ${layout.height}`, role: 'img', 'aria-label': `${name}. The text beside it says the same.` },
    svg('defs', {}, ...used.map(drawPoint)), ...edges.map((edge, at) => drawWay(ways[at], edge, at)),
    ...shown.map((program, lane) => drawLane(layout, program, lane, cores[lane])), ...[...layout.boxes.values()].map(drawEvent),
    ...edges.map((_, at) => drawLetters(chips[at], edges, at, layout.isNarrow)));
  picture.prepend(...picture.querySelectorAll('.lane')); // ways go over the lanes' lines
  const whole = smallest() * layout.width, least = isNarrow && whole <= roomOfPicture() ? whole : (isNarrow ? NARROW : EVENTS).smaller * layout.width;
  picture.style.width = `max(100%, ${least}px)`;
  const fit = Math.min(roomOfPicture() / layout.width, (innerHeight - FITTED.above) / layout.height);
  const figure = html('figure', { tabindex: 0, 'aria-label': name, class: isNarrow ? 'narrow' : layout.width > 7 * layout.height ? 'flat' : '', 'data-least': least, 'data-fit': fit, 'data-high': layout.height * Math.min(1, Math.max(least, roomOfPicture()) / layout.width) }, picture);
  figure.style = `--grown: ${grownBy(layout) * layout.width}px; --wide: ${layout.width}px`; // in a lecture it takes the whole width
  return figure;
}

const chipOf = (relation, isNarrow) => html('span', `relation edge-${relation}`, letterOf(relation, isNarrow));

/** What the arrows say. */
const arrowsSaid = edges => (edges.some(({ relation }) => relation === 'unkept') ? 'Solid arrows say what must come before what; dashed ones TSO doesn\'t keep.' : 'Each arrow says what must come before what.');

/** What the arrows mean, and the letters at them. */
function relationList(edges, isNarrow, words) {
  const used = usedRelations(edges);
  const item = relation => html('li', {}, chipOf(relation, isNarrow), ` ${meaningOf(relation, edges)}`);
  return html('ul', { class: 'small relations', 'aria-label': 'How to read the picture' }, html('li', {}, `${arrowsSaid(edges)} ${keyOfEdges(edges, words)}`), ...used.map(item));
}

/** What a condition names: the last loads into its registers, and the last writes to its locations. */
function askedPlaces(programs, places, coherence) {
  const lastInto = (core, register) => (programs[core] ?? []).findLastIndex(text => writtenBy(text).includes(register));
  const lastTo = location => (coherence[location] ?? []).slice(-1).map(text => text.split(' ')[0]);
  return places.flatMap(({ core, register, location }) => (location === undefined ? [`P${core}:${lastInto(core, register)}`] : lastTo(location)));
}

/** Whether an edge begins or ends at a place of a program. */
const isAt = ({ from, to }, place) => [from, to].some(text => text.split(' ')[0] === place);

/** The edges at what is asked for, in its order. */
const askedEdges = (edges, wanted) => [...new Set(wanted.flatMap(place => edges.filter(edge => isAt(edge, place))))];

const fitting = { isAsked: null }; // by the reader, for all pictures

/** A cycle or an execution as `panelOf` draws it, first `few` edges (`which`), with buttons for others. */
function drawExecution(programs, edges, few, panelOf, which = '') {
  const isWhole = drawnCores(programs, few).length === programs.length, fit = html('input', { type: 'checkbox' }), fits = html('label', {}, fit, ' Fit the screen');
  let picked = null;
  const draw = () => {
    sheet.cycle = panelOf(picked?.length > 0 ? picked : few, picked?.length > 0);
    const { picture } = sheet.cycle;
    fit.checked = fitting.isAsked ?? fitsWell(picture);
    putClass(picture, 'fits', fit.checked);
    if (isTooLarge(picture)) sheet.cycle.count.after(fits);
    return sheet.cycle.element;
  };
  on(fit, 'change', () => {
    fitting.isAsked = fit.checked;
    putClass(sheet.cycle.picture, 'fits', fit.checked);
    sheet.cycle.keepInSight();
  });
  const isMany = few.length < edges.length;
  if (!isMany && isWhole) return draw();
  const left = isMany ? `Drawn are ${few.length} of ${edges.length} arrows, ${which}.` : 'Cores without an arrow are left out.';
  const place = html('div', {}, draw()), said = html('span', {}, left), picks = isMany ? pickButtons(edges) : [];
  const words = !isMany ? html('p', 'buttons small', said) : html('details', 'picks terms small', html('summary', {}, said, ' ', html('strong', {}, 'Pick others')), html('p', { class: 'buttons', role: 'toolbar', 'aria-label': 'Arrows that are drawn' }, ...picks));
  on(words, 'keydown', event => goAmong(event, picks.filter(({ value }) => value)));
  on(words, 'click', ({ target }) => {
    if (!target.value) return;
    target.ariaPressed = String(target.ariaPressed !== 'true');
    picked = pickedEdges(edges, picks);
    fill(place, draw());
    putText(said, picked === null ? left : `Drawn are ${picked.length} of ${edges.length} arrows, those at what is picked. Program order that TSO keeps has none.`);
  });
  return html('div', 'drawn-part', words, place);
}

/** A button for each core and each location of some edges, by which one picks those that are drawn, with words before them; its value stands in their texts. */
function pickButtons(edges) {
  const events = eventsOf(edges), pick = (value, text) => html('button', { class: 'pick', 'aria-pressed': 'false', tabindex: value === 'P' ? 0 : -1, value }, text), word = text => html('span', {}, text);
  const each = (marks, textOf) => [...new Set(marks)].sort().map(value => pick(value, textOf(value.slice(0, -1))));
  return [pick('P', 'all'), word('cores'), ...each(events.map(({ core }) => `P${core}:`), text => text),
    word('locations'), ...each(events.map(({ location }) => ` ${location}=`), text => `[${text.trim()}]`)];
}

/** The edges at the cores and at the locations whose buttons are pressed; null where none is. */
function pickedEdges(edges, buttons) {
  const marks = buttons.filter(each => each.ariaPressed === 'true').map(({ value }) => value), kinds = ['P', ' '].map(first => marks.filter(mark => mark[0] === first));
  const isAtAny = ({ from, to }, kind) => kind.length === 0 || kind.some(mark => `${from}=${to}=`.includes(mark));
  return marks.length === 0 ? null : edges.filter(edge => kinds.every(kind => isAtAny(edge, kind)));
}

/** A cycle, edge by edge; or an execution: its cycle, then each other edge alone, and at last all. */
class CyclePanel {
  /** `end`: what the cycle comes to; `closed`: how many edges are the cycle; `beside`: what stands under the legend, `offer` under the list. */
  constructor(programs, cycle, { end, name = `A cycle of ${cycle.length} edges`, closed = cycle.length, beside = [], offer = [] }) {
    const picture = drawEdges(programs, cycle, name), isNarrow = picture.matches('.narrow');
    Object.assign(this, { cycle, closed, picture, isNarrow });
    this.place = html('div', 'pictured-cycle', picture);
    this.sentences = html('ol', { class: 'edges', 'aria-label': 'The edges, one after the other' },
      ...cycle.map((edge, at) => html('li', { tabindex: 0, 'data-arrow': at }, chipOf(edge.relation, isNarrow), ' ', edgeSentence(edge))));
    this.legend = html('div', 'how-read', relationList(cycle, isNarrow, this.sentences.textContent), ...beside);
    this.end = html('p', {}, end);
    this.count = html('span', {});
    this.said = html('p', { class: 'edge-said', role: 'status' });
    this.buttons = Object.entries({ first: 'First arrow', back: 'Arrow back', next: 'Next arrow', all: 'All arrows' })
      .map(([name, text]) => html('button', { 'data-edges': name }, text));
    this.bar = html('div', 'stepping', html('div', 'buttons', ...this.buttons, this.count), this.said);
    this.told = html('div', cycle.length > FEW_BESIDE ? 'told-edges many' : 'told-edges', html('div', {}, this.sentences, this.end, ...offer), this.legend);
    this.element = html('div', { class: isNarrow ? 'cycle slim' : `cycle ${picture.className}` }, ...(cycle.length > 1 ? [this.bar] : []), this.place, this.told);
    this.place.style = picture.style.cssText;
    for (const part of [picture, this.sentences]) new ResizeObserver(() => this.seeHeight()).observe(part);
    for (const kind of ['pointerover', 'focusin']) on(this.element, kind, ({ target }) => this.point(target));
    on(this.element, 'pointerleave', () => this.point(focused()));
    on(this.element, 'focusout', ({ relatedTarget }) => this.point(relatedTarget ?? document.body));
    this.show(0);
  }

  /** The first step: at 0 nothing is faint, in a lecture no arrow is there. */
  get least() {
    return this.last > 1 && !isLesson() ? 0 : 1;
  }

  /** How many steps there are. */
  get last() {
    const { length } = this.cycle;
    return length > 1 && this.closed < length ? length + 1 : length;
  }

  /** Marks an arrow and its sentence, while one has the pointer or the focus. */
  point(target) {
    const { edge, letters, arrow } = target.closest('[data-edge], [data-letters], [data-arrow]')?.dataset ?? {}, at = edge ?? letters ?? arrow;
    for (const part of this.element.querySelectorAll('[data-edge], [data-letters], [data-arrow]')) {
      putClass(part, 'pointed', Object.values(part.dataset).includes(at));
    }
  }

  /** Scrolls the picture to the arrow that is shown, where it goes on to the side. */
  keepInSight() {
    const arrow = this.picture.querySelector('[data-edge].now'), { left, right } = boxOf(this.picture);
    if (!arrow || this.picture.scrollWidth <= this.picture.clientWidth) return;
    const box = boxOf(arrow);
    if (box.left < left || box.right > right) this.picture.scrollLeft += (box.left + box.right - left - right) / 2;
  }

  move(way) {
    const next = isLecture() && this.shown >= this.closed ? this.last : this.shown + 1; // there the cycle is what counts
    this.show({ first: 1, back: this.shown - 1, next, all: this.last }[way]);
    if (this.shown === 0 || this.shown > this.cycle.length) return;
    if (this.element.matches('.tall')) return this.scrollTo(this.shown - 1);
    const { top, bottom } = boxOf(this.isNarrow ? this.picture : this.picture.querySelector('[data-letters].now'));
    if ((this.isNarrow || this.least === 0) && (top < 0 || bottom > innerHeight)) scrollBy(0, boxOf(this.picture).bottom - innerHeight + CLEAR);
  }

  /** Places the legend under the picture or the list, where the sheet is lower. Notes whether the picture is higher than the window, and the list
   * beside it or too far below. */
  seeHeight() {
    const { offsetTop, offsetHeight } = this.picture, isTall = offsetHeight > innerHeight - this.bar.offsetHeight, isBeside = this.told.offsetTop < offsetTop + offsetHeight;
    const columns = [this.place, this.told], ends = columns.map(column => {
      column.append(this.legend);
      return Math.max(...columns.map(each => boxOf(each).bottom));
    });
    if (isBeside && (isTall || ends[0] < ends[1])) this.place.append(this.legend);
    putClass(this.element, 'tall', isTall);
    putClass(this.element, 'far-list', !isBeside && this.element.offsetHeight > innerHeight);
    putClass(this.told, 'boxed', isTall && isBeside);
  }

  /** Scrolls the page to an arrow, and the list to its sentence. From then on the bar stays at the window's top. */
  scrollTo(at) {
    const { height } = boxOf(this.bar), item = this.sentences.children[at], least = Math.ceil(boxOf(this.element).top);
    const [arrow, letters] = ['edge', 'letters'].map(name => boxOf(this.picture.querySelector(`[data-${name}="${at}"]`)));
    const { top, bottom } = arrow.height < innerHeight - height - 2 * CLEAR ? arrow : letters, isSeen = top >= height && bottom <= innerHeight && least <= 0;
    scrollBy(0, Math.max(isSeen ? 0 : (top + bottom - height - innerHeight) / 2, least));
    this.told.scrollTop += boxOf(item).top - boxOf(this.told).top - (this.told.clientHeight - item.offsetHeight) / 2;
  }

  /** What the step says, where the sentences aren't beside the picture, and for readers of screens. */
  say(edge) {
    const isEnd = this.end.textContent !== '' && (this.shown === this.closed || this.shown === this.last);
    const said = edge === undefined ? [this.shown > 0 ? 'All arrows that are drawn.' : isLecture() ? `${[questionOf(inputOf('sweep'))].filter(asked => asked !== byId('asked-line').textContent)} ${supposed(inputOf('sweep'), this.cycle.some(({ relation }) => relation === 'unkept'))}` : `${arrowsSaid(this.cycle)} “Next arrow” tells them one by one.`] : [`${arrowName(this.shown - 1)}. `, chipOf(edge.relation, this.isNarrow), ' ', edgeSentence(edge),
      html('span', 'faint', { fr: ' fr is “from read”.', unkept: ' po is “program order”.' }[edge.relation] ?? ` ${meaningOf(edge.relation, this.cycle)}`)];
    fill(this.said, ...said, ...(isEnd ? [' ', html('strong', {}, this.end.textContent)] : []));
  }

  show(step) {
    const shown = this.shown = Math.min(this.last, Math.max(this.least, step)), isAll = shown === this.last, isAlone = shown > this.closed;
    const isNow = at => this.last > 1 && at === shown - 1, isLater = at => !isAll && shown > 0 && (isAlone ? !isNow(at) : at >= shown);
    for (const drawn of ['[data-edge]', '[data-letters]', '[data-arrow]']) {
      this.element.querySelectorAll(drawn).forEach((part, at) => {
        putClass(part, 'later', isLater(at));
        putClass(part, 'now', isNow(at));
      });
    }
    [...this.sentences.children].forEach((item, at) => {
      if (isNow(at)) item.setAttribute('aria-current', 'step');
      else item.removeAttribute('aria-current');
    });
    putClass(this.end, 'later', shown > 0 && shown < this.closed);
    putClass(this.element, 'unbegun', shown === 0);
    putClass(this.element, 'untold', shown < (this.closed || this.last));
    const { length } = this.cycle;
    this.count.textContent = shown === 0 ? `${length} arrows` : shown > length ? `All ${length} arrows` : `Arrow ${shown} of ${length}`;
    this.say(this.cycle[shown - 1]);
    this.keepInSight();
    const isOff = { first: shown < 2, back: shown < 2, next: isAll, all: isAll || shown === 0 };
    for (const button of this.buttons) putOff(button, isOff[button.dataset.edges]);
    showFoot();
  }
}
