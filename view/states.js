'use strict';

// The table of final states: sorted, filtered, and the row marked whose run is shown.

/** The words of a row without its button. */
const rowWords = row => [...row.cells].slice(0, -1).map(cell => cell.textContent).join(' ').toLowerCase();

/** Whether a row has each of some words: a word like `0:EAX=1` looks at the column of that name. */
function hasWords(row, titles, words) {
  const cells = [...row.cells].map(cell => cell.textContent);
  return words.every(word => {
    const [, name, value] = /^(.+)=(\d+)$/.exec(word) ?? [], at = name === undefined ? -1 : titles.findIndex(title => title.toLowerCase() === name);
    return at < 0 ? rowWords(row).includes(word) : cells[at] === value;
  });
}

const FEW_ROWS = 50; // that a long table shows at first
const MOST_NAMED = 4; // registers with their names in C
const FEW_COLUMNS = 6; // places in a table that has the programs beside it

/** Shows the rows that the filter finds, of many the first ones. */
function filterStates(sheet) {
  const [filter, alone, more] = ['.filter', '.alone', '.more-rows'].map(name => sheet.querySelector(name));
  const table = sheet.querySelector('table'), rows = [...table.tBodies[0].rows];
  const titles = [...table.tHead.rows[0].cells].map(cell => cell.textContent);
  const words = filter.value.toLowerCase().replace(/[()[\]]|\/\\/g, ' ').replace(/\s*=\s*/g, '=').split(/\s+/).filter(Boolean);
  const odd = words.find(word => /[!=<>]/.test(word) && !titles.some(title => word.replace(/=\d*$/, '') === title.toLowerCase()));
  const isFound = row => hasWords(row, titles, words) && !(alone?.checked === true && !row.textContent.includes('TSO alone')), found = rows.filter(isFound);
  const shown = new Set('all' in more.dataset ? found : found.slice(0, FEW_ROWS)), isCut = shown.size < found.length;
  for (const row of rows) row.hidden = !shown.has(row);
  for (const row of table.tFoot?.rows ?? []) row.hidden = !isFound(row);
  more.hidden = !isCut;
  putText(more, `Show all ${found.length}`);
  sheet.querySelector('.filtered').textContent = odd ? `“${odd}” isn't read: write ${filter.placeholder}` : `${found.length < rows.length ? `${found.length} of ` : ''}${rows.length} ${sheet.dataset.many}${isCut ? `, the first ${FEW_ROWS} shown` : ''}`;
}

/** Compares two cells: numbers as numbers. */
function compareCells(one, other) {
  const [a, b] = [one, other].map(cell => cell.textContent);
  return a - b || (a < b ? -1 : Number(a > b));
}

/** Sorts a table by a column; by the same again, the other way. */
function sortBy(title) {
  const head = title.closest('th'), body = head.closest('table').tBodies[0], way = head.ariaSort === 'ascending' ? -1 : 1;
  for (const other of head.parentElement.cells) other.ariaSort = null;
  head.ariaSort = way === 1 ? 'ascending' : 'descending';
  body.append(...[...body.rows].sort((one, other) => way * compareCells(one.cells[head.cellIndex], other.cells[head.cellIndex])));
  if (body.rows.length > 1) filterStates(head.closest('.states-sheet'));
}

const LOCATIONS = /^([^]*\n[ \t]*locations\s*\[([\w:;\s]*)\]\s*(?:~\s*exists|exists|forall)\b)([^{}|"*]*)$/;

/** What outcomes are asked of: the condition names the places of herd's line of locations too, behind `false`; the test as written, where that can't be
 * read. */
function withPlaces(test) {
  const [, before, list = '', asks = ''] = LOCATIONS.exec(test) ?? [], named = asks.match(/[\w:]+/g);
  const places = [...new Set(list.split(/[;\s]+/))].filter(name => name && !named.includes(name));
  const input = `${before} ((${asks}) \\/ false${places.map(name => ` /\\ ${name}=0`).join('')})\n`;
  if (before === undefined || asked({ command: 'run' }, input).status === REFUSED) return { input: test, places: null };
  return { input: places.length > 0 ? input : test, places };
}

const searchedInput = command => (command === 'outcomes' ? withPlaces(inputOf(command)).input : inputOf(command));

/** What a line of locations adds. */
function placesNote() {
  const test = inputOf('outcomes'), { places } = withPlaces(test);
  if (!/^\s*locations\b/m.test(test) || places?.length === 0) return [];
  const said = places ? `By the line “locations”: asked with ${listed(places)} named in the condition too.` : 'The line “locations” adds no column: name a place in the condition to see it.';
  return [html('p', `small faint${places ? ' ways-said' : ''}`, said)];
}

/** What the names of places and of choices mean, by one of each. */
function keySaid(names) {
  const [name, core, register] = names.map(each => /^(\d):(\w+)$/.exec(each)).find(found => found !== null) ?? [];
  return [name === undefined ? '' : `${name} is the register ${register} of P${core}. `, html('span', 'of-choices', 'In the choices 0s lets P0 take its next step, and 0d drains its oldest store.')];
}

const linkButton = () => html('button', { class: 'quiet', 'data-copy-link': '' }, 'Copy the link');

/** Hides the columns of a wide table in which all states are alike, and as is asked; answers their names. */
function foldAlike(table, { states }) {
  const [{ values }] = states, names = Object.keys(values), isMany = names.length > FEW_COLUMNS && states.length > 1;
  const isAsked = name => ['any', String(values[name]), undefined].includes(table.querySelector(`tfoot [data-name="${name}"]`)?.textContent);
  const alike = names.filter(name => isMany && states.every(state => state.values[name] === values[name]) && isAsked(name));
  for (const cell of table.querySelectorAll('th, [data-name]')) cell.hidden = alike.includes(cell.dataset.name ?? cell.textContent);
  return alike;
}

/** The table of states with what sorts and filters it. */
function statesSheet(outcomes, sequential, truths) {
  const table = outcomesTable(outcomes, sequential, truths), [{ values }] = outcomes.states, alike = foldAlike(table, outcomes), columns = Object.keys(values).filter(name => !alike.includes(name));
  const [first = '0:EAX'] = columns, buttons = table.querySelectorAll('.goes');
  const isOther = outcomes.states.some(({ choices }, at) => choices !== buttons[at].dataset.choices);
  const ways = isOther ? [html('p', { class: 'ways-said', hidden: '' }, 'The table has choices that are easy to follow; the answer as text has those that the search met first.')] : [];
  table.querySelector('tbody').prepend(...table.querySelectorAll('.met')); // what is sought comes first
  for (const head of [...table.querySelectorAll('thead th')].slice(0, -1)) fill(head, html('button', 'sorts', ...head.textContent.split(/(?<=:)/).flatMap(part => [html('wbr', {}), part])));
  const { programs: told } = readTest(inputOf('outcomes')), { names = [], lines = [] } = inC(told) ?? {}, isFew = names.flatMap(Object.keys).length <= MOST_NAMED;
  for (const head of table.querySelectorAll('thead th')) {
    const [core, register] = head.textContent.split(':'), named = isFew && names[core]?.[register];
    if (named) for (const part of [head, ...table.querySelectorAll(`td[data-name="${head.textContent}"]`)]) part.dataset.c = named;
  }
  for (const button of table.querySelectorAll('thead .sorts')) if (Object.hasOwn(MEANINGS, button.textContent)) button.dataset.means = button.textContent;
  const filter = html('input', { class: 'filter', type: 'search', autocomplete: 'off', placeholder: `${first}=1` });
  const { length: fresh } = table.querySelectorAll('tbody strong'), alone = fresh > 0 ? [html('label', {}, html('input', { class: 'alone', type: 'checkbox' }), ` TSO alone (${fresh})`)] : [];
  const tools = html('div', 'buttons small', ...alone, html('label', {}, 'Filter ', filter), html('span', { class: 'filtered', role: 'status' }));
  const more = html('button', { class: 'more-rows', hidden: '' });
  const link = html('p', 'buttons tools small', linkButton(), html('span', { class: 'page-saved', role: 'status' }));
  const words = sequential ? [html('p', 'small faint alone-said', 'TSO has store buffers. SC, sequential consistency, has none.')] : [];
  const key = html('p', 'small faint key', ...keySaid(Object.keys(values))), same = alike.length > 0 ? [html('p', 'small', `In each: ${alike.map(name => `${name}=${values[name]}`).join(', ')}.`)] : [];
  const programs = html('p', 'programs', ...programLines(asWritten(inputOf('outcomes'), told)));
  programs.querySelectorAll('code').forEach((code, at) => lines.length > 0 && setAll(code, { 'data-c': lines.flat()[at] }));
  const isBroad = columns.length > FEW_COLUMNS || programs.childElementCount > MANY_CORES;
  const sheet = html('div', isBroad ? 'states-sheet broad' : 'states-sheet', programs,
    html('div', 'states-told', ...(outcomes.states.length > 1 ? [tools] : []), ...same, table, more, link), html('div', 'states-notes', ...words, key, ...ways, ...placesNote()));
  sheet.style.setProperty('--states', outcomes.states.length);
  sheet.dataset.many = outcomes.isWithWhy ? `rows: ${outcomes.states.length - 1} met, and the one of “Why”` : outcomes.unfinished ? 'met' : 'outcomes';
  if (outcomes.states.length > 1) filterStates(sheet);
  return [sheet];
}

/** Marks the row whose choices make the run that is shown. */
function markShownState(choices) {
  for (const button of queryAll('#states [data-choices]')) {
    const row = button.closest('tr'), isShown = button.dataset.choices === choices;
    if (!row) continue;
    putClass(row, 'shown', isShown);
    row.ariaCurrent = isShown ? 'true' : null;
  }
}

on(byId('states'), 'input', ({ target }) => target.closest('.states-sheet') && filterStates(target.closest('.states-sheet')));
on(byId('states'), 'click', ({ target }) => {
  if (target.matches('.sorts')) sortBy(target);
  if (!target.matches('.more-rows')) return;
  target.dataset.all = '';
  filterStates(target.closest('.states-sheet'));
});
