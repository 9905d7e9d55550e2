'use strict';

// The list of examples, of the gallery and of algorithms, with a search.

/** What a test of the gallery or of an algorithm says of itself in its lines `Name=..`. */
function notesOf(text) {
  const found = text.matchAll(/^(Family|Algorithm|Asks|TSO|SC|Depth|Words|Source)=(.*)$/gm);
  return Object.fromEntries([...found].map(([, name, value]) => [name, value]));
}

/** The words of a text, for a search: letters and digits, in lower case. */
const wordsOf = text => text.toLowerCase().split(/[^a-z0-9]+/).filter(word => word !== '');

/** The names of a text's instructions that are more than a load or a store. */
const instructionsIn = text => text.match(/\b(?:LOCK|CMPXCHG|XADD|XCHG|[LMS]FENCE|PAUSE|NOP|ADD|SUB|AND|OR|XOR|INC|DEC|NEG|NOT)\b(?=[^=\n]*;)/g) ?? [];

/** What stands at an order of a test that stands above it. */
const ORDER_SAID = 'An order in which it would be so, for check.';

/** Of a family the plain test comes first; each order comes after its test. */
function comesBefore([one], [other]) {
  const [a, b] = [one, other].map(file => file.replace(/\.(litmus|order)$/, '')), more = a.split('+').length - b.split('+').length;
  return more || (a === b ? 0 : a < b ? -1 : 1) || (one < other ? -1 : 1);
}

/** The entries of some texts; `isLarger` where they take the larger set. */
function entriesOf(texts, group, isLarger = false) {
  return Object.entries(texts).sort(comesBefore).map(([file, text]) => {
    const notes = notesOf(text);
    const verdicts = [notes.TSO && `TSO: ${notes.TSO}`, notes.SC && `SC: ${notes.SC}`].filter(Boolean).join(', ');
    const told = [SHOWS[file]?.replaceAll('`', ''), notes.Asks, verdicts].filter(Boolean).join(' '), said = file.endsWith('.order') && notes.Asks ? ORDER_SAID : told;
    const family = notes.Family ?? notes.Algorithm ?? group, found = wordsOf([file, family, told, notes.Source ?? '', ...instructionsIn(text)].join(' '));
    return { file, text, isLarger, depth: notes.Depth, words: notes.Words, group: family, said, found };
  });
}

/** All entries; those of the longer texts as soon as these are open. */
const LIBRARY = entriesOf(EXAMPLES, 'Examples');

async function openLibrary() {
  const { gallery, algorithms } = await openedJson(LONGER);
  LIBRARY.push(...entriesOf(algorithms, 'Algorithms', true), ...entriesOf(gallery, 'Orders that would show a forbidden outcome'));
}

/** What stands over the orders, at the end of the list: they are no tests. */
const ORDERS = 'Orders, for the command check';
const isOrderText = ({ file }) => file.endsWith('.order');

/** What stands on top of the list at first: the texts to begin with. */
const START_HERE = 'Start here';
const STARTS = ['store-buffering.litmus', 'store-buffering-fenced.litmus', 'SB+mfence+po.litmus', 'MP.litmus', 'false-sharing.litmus', 'false-sharing-loads.litmus', 'CASLOCK.litmus'];

/** The texts that this machine reads. */
const textsHere = () => LIBRARY.filter(({ isLarger }) => bench.hasLargerSet || !isLarger);

function libraryItem(entry) {
  const button = html('button', { 'data-file': entry.file }, entry.file);
  return html('li', {}, button, entry.said === '' ? '' : ` ${entry.said}`);
}

/** Lists the texts that are searched for, by family. */
function showLibrary() {
  const words = wordsOf(byId('search').value), texts = textsHere();
  const found = texts.filter(entry => words.every(word => entry.found.some(each => each.startsWith(word))));
  const starts = words.length > 0 ? [] : STARTS.flatMap(file => found.find(entry => entry.file === file) ?? []);
  const groups = new Map(starts.length > 0 ? [[START_HERE, starts]] : []);
  const rest = found.filter(entry => !starts.includes(entry)), orders = rest.filter(isOrderText);
  for (const entry of rest) if (!isOrderText(entry)) groups.set(entry.group, [...(groups.get(entry.group) ?? []), entry]);
  if (orders.length > 0) groups.set(ORDERS, orders);
  byId('found').textContent = `${found.length} of ${texts.length}`;
  fill(byId('texts'), ...[...groups].flatMap(([group, entries]) => {
    const list = html('ul', {}, ...entries.map(libraryItem));
    return group === ORDERS ? [html('details', words.length > 0 ? { open: '' } : {}, html('summary', {}, group), list)] : [html('h4', {}, group), list];
  }));
}
