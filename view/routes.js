'use strict';

// The ways of edges between the boxes of events: beside the boxes of a core, in the gutters between the cores, and where cores lie between
// in channels under the rows. So no way crosses a box or a word, and no two share a stretch. All measures are pixels.

const ROUTES = { apart: 14, bow: 0.64, inset: 10, turn: 8, channel: 24, sample: 4, samples: 48, chip: 18, letter: 8, around: 6, beside: 8 };

/** Of each key how many are equal to it (`of`), and its place among these by rank (`number`). */
const amongEquals = (keys, ranks = keys) => keys.map((key, at) => {
  const equals = [...keys.keys()].filter(each => keys[each] === key);
  return { of: equals.length, number: equals.filter(each => ranks[each] < ranks[at] || (ranks[each] === ranks[at] && each < at)).length };
});

/** The lanes of an edge's two events. */
const lanesOf = ({ from, to }) => [from, to].map(text => eventOf(text).core);

/** The side at which fewer of a core's ways to a neighbour begin, as they turn there; else that nearer to the picture's edge. */
const freeSide = (core, cores, ways) => Math.sign(ways.reduce((sum, [from, to]) => sum + (from === core && Math.abs(from - to) === 1 ? from - to : 0), 0)) || (2 * core < cores - 1 || cores === 1 ? -1 : 1);

/** At which side of its lane each way within a core is: 1 right, -1 left, 0 of others. A core's first way is at its free side; a shorter one reaches less far (`share`). */
function ownWays(edges, cores) {
  const ways = edges.map(lanesOf), lanes = ways.map(([from, to], at) => (from === to ? from : `other ${at}`));
  const sides = amongEquals(lanes).map(({ number }, at) => (lanes[at] < cores ? (number % 2 === 0 ? 1 : -1) * freeSide(lanes[at], cores, ways) : 0));
  const lengths = edges.map(({ from, to }) => Math.abs(eventOf(from).place - eventOf(to).place));
  return amongEquals(lanes.map((lane, at) => `${lane} ${sides[at]}`), lengths).map(({ number, of }, at) => ({ side: sides[at], share: (number + 1) / of }));
}

const INMOST = 100; // more than a program's rows

/** One end of an edge: its event, its side of the box, and its rank there from the top: a way within a core is inside of others, a shorter one inmost. */
function endOf([own, other], side, far) {
  const isDown = other.place > own.place || (other.place === own.place && own.kind === 'LR');
  const rank = side !== 0 ? (isDown ? INMOST : -INMOST) - other.place : far === null ? other.place : far.row + 0.5;
  return { name: nameOfEvent(own.text), side: side || Math.sign(other.core - own.core), rank };
}

/** The ends of edges, start and end in turn, each with its number among those at its side of the box. */
function endsOf(edges, cores) {
  const own = ownWays(edges, cores), far = farEdges(edges);
  const ends = edges.flatMap(({ from, to }, at) => [[from, to], [to, from]].map(pair => endOf(pair.map(eventOf), own[at].side, far[at])));
  return amongEquals(ends.map(({ name, side }) => `${name} ${side}`), ends.map(({ rank }) => rank)).map((among, at) => ({ ...among, name: ends[at].name }));
}

/** How high an event's box is, so that the edges at it lie apart. */
function heightsOfBoxes(edges, cores) {
  const ends = endsOf(edges, cores);
  return ({ text }) => EVENTS.box + ROUTES.apart * Math.max(0, ...ends.map(({ name, of }) => (name === nameOfEvent(text) ? of - 2 : 0)));
}

/** Where ways touch boxes: for each edge the heights of its start and its end. Those that touch one side of a box lie apart there. */
function portsOf(layout, edges) {
  const heights = endsOf(edges, layout.cores).map(({ name, number, of }) => layout.boxes.get(name).y + layout.boxes.get(name).height / 2 + ROUTES.apart * (number - (of - 1) / 2));
  return edges.map((_, at) => heights.slice(2 * at, 2 * at + 2));
}

/** How many edges go from one event to another with cores between, by the row of the channel that they take: the upper one of their rows. */
function farEdges(edges) {
  const far = edges.map(edge => [eventOf(edge.from), eventOf(edge.to)]).map(([from, to]) => (Math.abs(from.core - to.core) > 1 ? Math.min(from.place, to.place) : null));
  return amongEquals(far).map(({ number }, at) => (far[at] === null ? null : { row: far[at], at: number }));
}

/** How many channels stand under each of so many rows. */
const channelsOf = (far, rows) => times(rows, row => far.filter(each => each?.row === row).length);

/** Points along a curve of four points. */
function alongCurve([a, b, c, d]) {
  const mix = (t, which) => (1 - t) ** 3 * a[which] + 3 * (1 - t) ** 2 * t * b[which] + 3 * (1 - t) * t ** 2 * c[which] + t ** 3 * d[which];
  return times(ROUTES.samples + 1, at => [mix(at / ROUTES.samples, 0), mix(at / ROUTES.samples, 1)]);
}

/** Points along straight lines. */
function alongLines(corners) {
  return corners.slice(1).flatMap(([x, y], at) => {
    const [fromX, fromY] = corners[at], count = Math.max(1, Math.ceil(Math.hypot(x - fromX, y - fromY) / ROUTES.sample));
    return times(count, step => [fromX + (x - fromX) * step / count, fromY + (y - fromY) * step / count]);
  }).concat([corners.at(-1)]);
}

const curveWay = points => ({ d: `M${points[0].join(' ')}C${points.slice(1).map(point => point.join(' ')).join(' ')}`, points: alongCurve(points) });

/** Straight lines with rounded corners. */
function linesWay(corners) {
  const toward = ([x, y], [toX, toY]) => {
    const length = Math.hypot(toX - x, toY - y), turn = Math.min(ROUTES.turn, length / 2);
    return length === 0 ? [x, y] : [x + (toX - x) * turn / length, y + (toY - y) * turn / length];
  };
  const turns = corners.slice(1, -1).map((corner, at) => `L${toward(corner, corners[at]).join(' ')}Q${corner.join(' ')} ${toward(corner, corners[at + 2]).join(' ')}`);
  return { d: `M${corners[0].join(' ')}${turns.join('')}L${corners.at(-1).join(' ')}`, points: alongLines(corners) };
}

/** Where a box's side is (-1: the left one), or what is so far beside it. */
const sideOf = (box, side, apart = 0) => (side < 0 ? box.x - apart : box.x + box.width + apart);

/** Beside the boxes of one core. */
function wayOfOneCore(layout, start, end, [y1, y2], { side, share }) {
  const x1 = sideOf(start, side), x2 = sideOf(end, side, 3), bow = side * share * ROUTES.bow * layout.side;
  return curveWay([[x1, y1], [x1 + bow, y1], [x2 + bow, y2], [x2, y2]]);
}

/** Through the gutters beside both boxes, each so far from its left end (`tracks`); where cores lie between, through a channel under a row. */
function wayOfTwoCores(layout, start, end, [y1, y2], far, tracks) {
  const side = Math.sign(end.event.core - start.event.core), leftOf = (box, at) => sideOf(box, at) - (at < 0 ? 2 * layout.side : 0);
  const x1 = sideOf(start, side), x2 = sideOf(end, -side, 3), near = leftOf(start, side) + tracks[0], last = leftOf(end, -side) + tracks[1];
  if (far === null) return curveWay([[x1, y1], [near, y1], [near, y2], [x2, y2]]);
  const y = layout.tops[far.row + 1] - layout.channels[far.row] * ROUTES.channel + (far.at + 0.5) * ROUTES.channel - ROUTES.around;
  return linesWay([[x1, y1], [near, y1], [near, y], [last, y], [last, y2], [x2, y2]]);
}

const TRACKS = { row: 1e4, zone: 1e6 };

/** Which gutter each edge goes through, and its rank there from the left: nearer to its box is what goes past other cores, nearest what turns off first.
 * Two entries an edge. */
function tracksWanted({ far, isNarrow }, edges, ports) {
  return edges.flatMap((edge, at) => {
    const [from, to] = lanesOf(edge);
    if (far[at] === null) return [from === to ? {} : { gutter: Math.min(from, to), rank: isNarrow ? 0 : from - to }, {}]; // each turns near its start
    return [edge.from, edge.to].map(eventOf).map(({ core, place }, end) => {
      const isAtLeft = from < to === (end === 0), y = ports[at][end], away = place - far[at].row - 0.5, near = TRACKS.row * Math.abs(away) + (away > 0 ? y : -y);
      return isAtLeft ? { gutter: core, rank: near - TRACKS.zone } : { gutter: core - 1, rank: TRACKS.zone - near };
    });
  });
}

/** How far from a gutter's left end each edge goes down or up there: apart from others, and from the ways within a core. Two entries for each edge. */
function tracksOf(layout, edges, ports, own) {
  const wanted = tracksWanted(layout, edges, ports), ranks = wanted.map(({ rank }) => rank);
  const owners = new Set(edges.map((edge, at) => `${lanesOf(edge)[0]} ${own[at].side}`));
  const inset = (core, side) => (owners.has(`${core} ${side}`) ? 0.75 * ROUTES.bow * layout.side + ROUTES.beside : ROUTES.inset);
  return amongEquals(wanted.map(({ gutter }) => gutter), ranks).map(({ number, of }, at) => {
    const { gutter } = wanted[at], first = inset(gutter, 1), last = 2 * layout.side - inset(gutter + 1, -1);
    return first + (last - first) * (number + 1) / (of + 1);
  });
}

/** The way of each edge: its path, and points along it. */
function edgeWays(layout, edges) {
  const ports = portsOf(layout, edges), own = ownWays(edges, layout.cores), tracks = tracksOf(layout, edges, ports, own);
  return edges.map(({ from, to }, at) => {
    const [start, end] = [from, to].map(text => layout.boxes.get(nameOfEvent(text)));
    return own[at].side !== 0 ? wayOfOneCore(layout, start, end, ports[at], own[at]) : wayOfTwoCores(layout, start, end, ports[at], layout.far[at], tracks.slice(2 * at, 2 * at + 2));
  });
}

// The letters of edges: a chip on each way, where it covers no box, no word, no other chip and if possible no other way.

const overlap = (one, other, room = 0) => one.x - room < other.x + other.width && other.x - room < one.x + one.width && one.y - room < other.y + other.height && other.y - room < one.y + one.height;
const holds = (box, [x, y]) => x > box.x && x < box.x + box.width && y > box.y && y < box.y + box.height;

/** From where to where a chip around a point may reach: of narrow lanes through the gutter in which it lies, else through the picture. */
function roomOfChip({ isNarrow, margin, lane, side, width }, x) {
  const middle = margin + lane * Math.round((x - margin) / lane);
  return isNarrow && Math.abs(x - middle) < side ? [Math.max(0, middle - side), Math.min(width, middle + side)] : [0, width];
}

/** The rectangle of a chip of some letters around a point. */
function chipAt(layout, [x, y], letters) {
  const width = letters * ROUTES.letter + ROUTES.around, [from, to] = roomOfChip(layout, x), near = Math.min(width / 2 + 8, (to - from) / 2);
  const centre = Math.min(Math.max(x, from + near), to - near);
  return { x: centre - width / 2, y: y - ROUTES.chip / 2, width, height: ROUTES.chip };
}

/** A way's points that a chip may stand at: within a core its middle first, of others those near the start, since these ways cross in the middle. */
function chipPoints(points, isWithin) {
  const parts = [...(isWithin ? [0.5, 0.46, 0.54] : []), 0.24, 0.3, 0.18, 0.36, 0.42, 0.5, 0.58, 0.66, 0.74, 0.82, 0.12, 0.27, 0.21, 0.33, 0.39, 0.46, 0.54, 0.62, 0.7, 0.78, 0.86, 0.9];
  return parts.map(part => points[Math.round(part * (points.length - 1))]);
}

/** Where the chip of each edge stands, and how much they cover. */
function chipsOf(layout, edges, ways) {
  const chips = [];
  let covered = 0;
  edges.forEach(({ from, to }, at) => {
    const isWithin = eventOf(from).core === eventOf(to).core, others = ways.filter((_, other) => other !== at).flatMap(({ points }) => points);
    const cost = chip => 100 * layout.words.filter(part => overlap(chip, part)).length + 400 * [...layout.boxes.values()].filter(part => overlap(chip, part)).length + 50 * chips.filter(other => overlap(chip, other)).length + others.filter(point => holds(chip, point)).length;
    const found = chipPoints(ways[at].points, isWithin).map(point => chipAt(layout, point, lettersAt(edges, at, layout.isNarrow).length)).map(chip => ({ chip, cost: cost(chip) }));
    const rank = each => 9 * each.cost + [...layout.boxes.values(), ...chips].some(part => overlap(each.chip, part, 4));
    const { chip, cost: least } = found.reduce((best, each) => (rank(each) < rank(best) ? each : best));
    covered += least;
    chips.push(chip);
  });
  return { chips, cost: covered };
}
