'use strict';

// Tables.

function tableOf(caption, titles, rows) {
  const head = html('tr', {}, ...titles.map(title => html('th', { scope: 'col' }, title)));
  return html('div', 'scrolls', html('table', {}, html('caption', {}, caption), html('thead', {}, head), html('tbody', {}, ...rows)));
}

function numbersTable(caption, titles, rows) {
  return tableOf(caption, titles, rows.map(([name, ...numbers]) => html('tr', {},
    html('th', { scope: 'row', class: 'wraps' }, name), ...numbers.map(number => html('td', 'number', String(number))))));
}

/** What a run left: registers that are used, memory, and counts of caches, of the machine `whose`. */
function finalTables(run, used = run.registers.map(() => REGISTERS), whose = '') {
  const names = REGISTERS.filter(name => used.flat().includes(name)), wordsOf = name => run.registers.map((file, core) => (used[core].includes(name) ? file.get(name) : '–'));
  const cores = run.registers.map((_, core) => `P${core}`), counts = numbersTable(`Cache accesses${whose}`, ['', ...cores], COUNTS.map(name => [withMeaning({}, name, name.replace('_', '-')), ...run.cache.map(each => each.get(name))]));
  counts.classList.add('of-caches');
  return [
    ...(names.length === 0 ? [] : [numbersTable(`Registers${whose}`, ['', ...cores], names.map(name => [name, ...wordsOf(name)]))]),
    numbersTable(`Memory${whose}`, ['Location', 'Word'], [...run.memory]),
    counts,
  ];
}

function orderTable(run) {
  return tableOf('The order in words', ['No', 'Entry', 'In words'], run.order.map(entry => html('tr', {},
    html('th', { scope: 'row' }, String(entry.index + 1)),
    html('td', 'wraps', entry.text),
    html('td', 'prose', sentenceOf(run, entry)))));
}
