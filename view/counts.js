'use strict';

// The sheet of counts: what the caches did in the runs of many seeds.

/** The numbers of a core in the answer, each with its words. */
const COUNTED = {
  hits: 'hits', misses: 'misses', upgrades: 'upgrades', forwards: 'loads that a store buffer answered', get_s: 'GetS on the bus', get_m: 'GetM on the bus',
  invalidations: 'copies of other caches made invalid', from_caches: 'lines that another cache supplied', from_memory: 'lines that memory supplied',
  to_memory: 'lines that its requests sent to memory', flushes: 'flushes', write_backs: 'write-backs',
};

/** How many of the runs ended, in words, and under which protocol. */
function countedSentence({ ended, unfinished }, protocol) {
  if (ended === 0) return 'No run ended, so there is nothing to count. Give each seed more choices.';
  const left = unfinished === 0 ? '' : ` ${unfinished} didn't end and aren't counted.`;
  return `${ended === 1 ? 'One run' : `${ended} runs`} by chance, under ${protocol.toUpperCase()}, ended.${left} What goes to memory only when a test has ended isn't counted.`;
}

/** A number's sum over the runs, and the least and the greatest of one run. */
const spreadText = ({ sum, least, greatest }) => `${sum} (${least}–${greatest})`;

/** A row for each number, a column for each core, and one for the sum over all cores. */
function countsTable(cores) {
  const titles = ['', ...cores.map((_, core) => `P${core}`), 'All cores'];
  return tableOf('The sum over the runs, and in brackets the least and the greatest of one run', titles, Object.entries(COUNTED).map(([name, words]) => html('tr', {},
    html('th', { scope: 'row', class: 'wraps' }, words),
    ...cores.map(core => html('td', 'number', spreadText(core[name]))),
    html('td', 'number', String(cores.reduce((sum, core) => sum + core[name].sum, 0))))));
}

/** The protocols that are counted: that of the settings, and where all stand abreast the others. */
const countedProtocols = () => [...new Set([valueOf('protocol'), ...(drive.beside === ABREAST ? Tso.PROTOCOLS : [])])];

/** A row for each number, and a column for each protocol: the sum over all cores. */
function protocolsTable(answers) {
  const sums = (name, { text }) => String(JSON.parse(text).cores?.reduce((sum, core) => sum + core[name].sum, 0));
  return tableOf('The sum over the runs and all cores', ['', ...countedProtocols().map(name => name.toUpperCase())], Object.entries(COUNTED).map(([name, words]) =>
    html('tr', {}, html('th', { scope: 'row', class: 'wraps' }, words), ...answers.map(answer => html('td', 'number', sums(name, answer))))));
}

/** Shows the answers of `counts --json`, one for each protocol. */
function showCounts(answers) {
  const [answer] = answers, { cores, runs } = JSON.parse(answer.text), tables = cores === null ? [] : [...(answers.length > 1 ? [protocolsTable(answers)] : []), countsTable(cores)];
  showAnswer(answer);
  foldReport(answer);
  fill(byId('states'), answerTitle('What the caches did'), html('p', { role: 'status' }, countedSentence(runs, valueOf('protocol'))), ...tables);
}
