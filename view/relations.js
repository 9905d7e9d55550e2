'use strict';

// The relations between events that a reason is made of: one table of their names, and of what each edge says.

/** The words of an event after those of another one of its core. */
const ofSame = (from, to) => (from.slice(0, 4) === to.slice(0, 4) ? `its ${to.slice(5)}` : to);

/** Of each relation what it is (`means`), and what an edge of it says of its two events in words (`says`). */
const RELATIONS = {
  po: {
    means: 'Program order: what a core does first is before what it does later. TSO keeps this order, except where a load comes after a store.',
    says: (from, to) => `${from} stands before ${ofSame(from, to)} in its program.`,
  },
  unkept: {
    label: 'po, not kept',
    short: 'po ✗',
    means: 'Program order from a store to a later load of another location: TSO doesn\'t keep it.',
    says: (from, to) => `${from} stands before ${ofSame(from, to)} in its program. TSO doesn't keep this order.`,
  },
  rf: {
    means: 'Reads from: a write is before the read that returns its value.',
    says: (from, to) => `${to} reads what ${ofSame(to, from)} wrote.`,
  },
  co: {
    means: 'Coherence: memory sees the writes to a location one after the other.',
    says: (from, to) => `${from} reaches memory before ${ofSame(from, to)}.`,
  },
  fr: {
    means: 'From read: it read the older value, so it came before the new one was written.',
    says: (from, to) => `${from} read the older value, so it came before ${to}.`,
  },
  mfence: {
    means: 'A fence: what is before it in the program is before what comes after it.',
    says: (from, to) => `A fence stands between ${from} and ${ofSame(from, to)}, so it keeps their order.`,
  },
  implied: {
    label: 'lock',
    means: 'A locked instruction: it keeps the order of what is before it and after it, as a fence does.',
    says: (from, to) => `A locked instruction keeps ${from} before ${ofSame(from, to)}.`,
  },
};

const EVENT = /^P(\d):(\d{1,2}) (?:(F)|(R|W|LR|LW) (\w+)(?:=(\d+))?)$/;

/** An event as a reason names it; its value is undefined where nothing tells it. */
function eventOf(text) {
  const [, core, place, fence, kind = fence, location, value] = EVENT.exec(text);
  return { text, core: Number(core), place: Number(place), kind, location, value };
}

/** What a module that is newer than the page may name. */
const UNKNOWN_RELATION = { means: 'A relation that this page doesn\'t know.', says: (from, to) => `${from} comes before ${to}.` };

/** The relations of some edges, in the order of the table. */
function usedRelations(edges) {
  const names = [...new Set(edges.map(({ relation }) => relation))], known = Object.keys(RELATIONS);
  return [...known.filter(name => names.includes(name)), ...names.filter(name => !known.includes(name))];
}

/** What the letters of a relation mean among some edges: at one location program order always holds. */
function meaningOf(name, edges) {
  const locations = new Set(edges.flatMap(({ from, to }) => [from, to]).map(text => eventOf(text).location));
  return name === 'po' && locations.size === 1 ? 'Program order: accesses of one core to one location always keep it.' : relationNamed(name).means;
}

/** The letters that stand at a relation's arrows, in a picture of narrow lanes fewer. */
const letterOf = (name, isNarrow = false) => (isNarrow && relationNamed(name).short) || (relationNamed(name).label ?? name);

/** An arrow's name: a to z, then aa and so on. */
const arrowName = at => (at < 26 ? '' : arrowName(Math.floor(at / 26) - 1)) + String.fromCharCode(97 + at % 26);

const NAMED = 'named';

/** The same behind the arrow's name, which stands alone in NAMED lanes. */
const lettersAt = (edges, at, isNarrow) => (isNarrow === NAMED ? arrowName(at) : `${arrowName(at)} ${letterOf(edges[at].relation, isNarrow)}`);

const relationNamed = name => (Object.hasOwn(RELATIONS, name) ? RELATIONS[name] : UNKNOWN_RELATION);
const edgeSentence = ({ from, relation, to }) => relationNamed(relation).says(eventWords(from), eventWords(to));
